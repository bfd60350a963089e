#!/usr/bin/env python3
"""Measures the reading of a large script: time and peak memory of the program, by the system's count for the process.

    bench_reading.py [--program crates/ax_tool/out/ax_tool] [--ops 1000000] [--times 3]

Three scripts are written to a temporary folder and given to `replay`:

    json    the operations below with one unknown member more. The program reads the bytes and has `serde_json` make the
            value, and refuses it before any part of the value is walked: so this is the plain reading of the JSON.
    script  inserts, sets, moves, touches and passes, with an order of one receipt. The whole grammar is read, and the run
            refuses the receipt, since no packet waits.
    run     roots and passes, which are read, run, and printed to a file.

Of each the least time of the runs is printed, and the largest peak. The gate doesn't run this.
"""
import argparse
import os
import subprocess
import tempfile
import time
from pathlib import Path

TOOL = Path(__file__).resolve().parent.parent / "crates/ax_tool/out/ax_tool"
HEAD = '{"version":1,"frames":[{"tree":1,"ops":['


def mixed(i):
    """Operation i of a frame that grows."""
    if i == 0:
        return '{"op":"root","node":1}'
    node = i + 1
    return [
        f'{{"op":"insert","parent":{i // 2 + 1},"index":0,"node":{node}}}',
        f'{{"op":"set","node":{i},"attrs":{{"name":"{i}"}}}}',
        f'{{"op":"insert","parent":1,"index":0,"node":{node},"role":"link"}}',
        f'{{"op":"move","node":{i},"parent":1,"index":0}}',
        f'{{"op":"touch","node":{i}}}',
        '{"op":"pass"}',
    ][i % 6]


def bare(i):
    return '{"op":"pass"}' if i % 2 else f'{{"op":"root","node":{i + 1}}}'


def write_script(path, op, count, tail):
    with open(path, "w") as out:
        out.write(HEAD)
        for i in range(count):
            out.write("," * (i > 0) + op(i))
        out.write("]}]" + tail + "}")


def measured(program, script, output):
    """Status, seconds and peak in kilobytes of one run."""
    with open(script, "rb") as source, open(output, "wb") as sink:
        start = time.monotonic()
        child = subprocess.Popen([program, "replay"], stdin=source, stdout=sink)
        _, status, usage = os.wait4(child.pid, 0)
        child.returncode = os.waitstatus_to_exitcode(status)
        return child.returncode, time.monotonic() - start, usage.ru_maxrss


def main():
    parser = argparse.ArgumentParser(description=__doc__.splitlines()[0])
    parser.add_argument("--program", default=str(TOOL))
    parser.add_argument("--ops", type=int, default=1_000_000)
    parser.add_argument("--times", type=int, default=3)
    given = parser.parse_args()
    with tempfile.TemporaryDirectory() as folder:
        script, output = Path(folder, "script.json"), Path(folder, "output.txt")
        for name, op, tail in (("json", mixed, ',"other":0'), ("script", mixed, ',"order":"a1"'), ("run", bare, "")):
            write_script(script, op, given.ops, tail)
            runs = [measured(given.program, script, output) for _ in range(given.times)]
            with open(output) as text:
                first = text.readline().strip()
            print(f"{name:7} {script.stat().st_size:>10} bytes, status {runs[0][0]}, {min(r[1] for r in runs):6.2f} s, "
                  f"{max(r[2] for r in runs) / 1024:7.1f} MiB, {output.stat().st_size} bytes written: {first}")


if __name__ == "__main__":
    main()
