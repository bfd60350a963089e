#!/usr/bin/env python3
"""Measures the replay of large trees: time and peak memory of the program, by the system's count for the process.

    bench_replay.py passes [--program PATH] [--nodes 100000] [--passes 200,2000,20000]
    bench_replay.py edits [--program PATH] [--nodes 49000,98000] [--edits 300000]

Both build a tree in which each node has ten children.

    passes  so many times, one node is set and a pass is made. The first pass sends the whole tree, each other one the node
            that was set: what is told is the time for each pass beyond that of the building.
    edits   for each size of the tree, the time beyond that of the building for edits that leave the tree as large as it was:
            inserts below a leaf each with the removal of that node, moves of a leaf between two parents, and sets of a role.
            The time has the reading and the printing of those edits in it, which don't depend on the tree.

The gate doesn't run this.
"""
import argparse
import os
import subprocess
import tempfile
import time
from pathlib import Path

TOOL = Path(__file__).resolve().parent.parent / "crates/ax_tool/out/ax_tool"


def build(nodes):
    """Node n from 2 on stands below node (n - 2) / 10 + 1."""
    yield '{"op":"root","node":1}'
    for n in range(2, nodes + 1):
        yield f'{{"op":"insert","parent":{(n - 2) // 10 + 1},"index":0,"node":{n}}}'


def passes(nodes, count):
    for i in range(count):
        yield f'{{"op":"set","node":{i * 37 % nodes + 1},"role":"{("link", "button")[i % 2]}"}}'
        yield '{"op":"pass"}'


def inserts(nodes, count):
    for i in range(count // 2):
        yield f'{{"op":"insert","parent":{nodes - i % 1000},"index":0,"node":{nodes + 1}}}'
        yield f'{{"op":"remove","node":{nodes + 1}}}'


def moves(nodes, count):
    for i in range(count):
        yield f'{{"op":"move","node":{nodes},"parent":{nodes - 1 - i % 2},"index":0}}'


def sets(nodes, count):
    for i in range(count):
        yield f'{{"op":"set","node":{i % 40000 + 1},"role":"link"}}'


def write_script(path, *parts):
    with open(path, "w") as out:
        out.write('{"version":1,"frames":[{"tree":1,"ops":[')
        out.write(",\n".join(op for part in parts for op in part))
        out.write("]}]}")


def measured(program, folder, *parts):
    """Seconds, peak in kilobytes and bytes written of one run, which has to end well."""
    script, output = Path(folder, "script.json"), Path(folder, "output.txt")
    write_script(script, *parts)
    with open(script, "rb") as source, open(output, "wb") as sink:
        start = time.monotonic()
        child = subprocess.Popen([program, "replay"], stdin=source, stdout=sink)
        _, status, usage = os.wait4(child.pid, 0)
        child.returncode = os.waitstatus_to_exitcode(status)
        seconds = time.monotonic() - start
    if child.returncode != 0:
        raise SystemExit(f"status {child.returncode}")
    return seconds, usage.ru_maxrss, output.stat().st_size


def tell_passes(given, folder):
    for nodes in given.nodes or [100_000]:
        base, peak, size = measured(given.program, folder, build(nodes))
        print(f"{nodes} nodes: {base:.2f} s, {peak / 1024:.0f} MiB, {size} bytes written")
        for count in given.passes:
            seconds, peak, written = measured(given.program, folder, build(nodes), passes(nodes, count))
            each = (seconds - base) / max(1, count) * 1e6
            print(f"  {count} passes: {seconds:.2f} s, {peak / 1024:.0f} MiB, {written} bytes written; {each:.1f} us each")


def tell_edits(given, folder):
    for nodes in given.nodes or [49_000, 98_000]:
        base, _, _ = measured(given.program, folder, build(nodes))
        print(f"{nodes} nodes: {base:.2f} s")
        for edits in (inserts, moves, sets):
            seconds, _, _ = measured(given.program, folder, build(nodes), edits(nodes, given.edits))
            print(f"  {given.edits} {edits.__name__}: {(seconds - base) / given.edits * 1e6:.2f} us each")


def numbers(text):
    return [int(part) for part in text.split(",")]


def main():
    parser = argparse.ArgumentParser(description=__doc__.splitlines()[0])
    parser.add_argument("what", choices=("passes", "edits"))
    parser.add_argument("--program", default=str(TOOL))
    parser.add_argument("--nodes", type=numbers)
    parser.add_argument("--passes", type=numbers, default=[200, 2000, 20000])
    parser.add_argument("--edits", type=int, default=300_000)
    given = parser.parse_args()
    with tempfile.TemporaryDirectory() as folder:
        (tell_passes if given.what == "passes" else tell_edits)(given, folder)


if __name__ == "__main__":
    main()
