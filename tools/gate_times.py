#!/usr/bin/env python3
"""Runs the gate and tells what each crate took of the processor, and what the whole took.

    gate_times.py [--to FILE] [-- COMMAND..]

The command is `rt ci` where none is given; to time all from nothing give `rt ci --anew`. Twice a second each process of the
prover is looked up, and the last that was seen of its processor time is what it took, so a process that lived for less isn't
seen. Where this program is asked to end (SIGTERM), it ends the command and tells what was seen so far. `proof` is what
proves and compiles a crate where it stands, with its tests where it has some; `edits` are all checks of copies of it, the
first of which proves it once more. The gate doesn't run this.
"""
import argparse
import collections
import os
import resource
import signal
import subprocess
import sys
import time
from pathlib import Path

ROOT = Path(__file__).resolve().parent.parent
TICKS = os.sysconf("SC_CLK_TCK")


def words_of(pid):
    """The words of a process, and the folder that it works in; none where it is gone."""
    try:
        words = Path(f"/proc/{pid}/cmdline").read_bytes().decode("utf-8", "replace").split("\0")
        return words, os.readlink(f"/proc/{pid}/cwd")
    except OSError:
        return [], ""


def seconds_of(pid):
    """The processor time of a process so far, its children's not among it."""
    try:
        fields = Path(f"/proc/{pid}/stat").read_text().rpartition(")")[2].split()
        return (int(fields[11]) + int(fields[12])) / TICKS
    except OSError:
        return 0.0


def parent_of(pid):
    """The process that started a process; 0 where either is gone."""
    try:
        return int(Path(f"/proc/{pid}/stat").read_text().rpartition(")")[2].split()[1])
    except OSError:
        return 0


def is_of(pid, gate):
    """Whether the gate started the process, or one that it started did."""
    while pid not in (0, 1, gate):
        pid = parent_of(pid)
    return pid == gate


def kind_of(words, folder):
    """Which column a process of the prover counts in, and its crate; none for other processes."""
    if "--crate-name" not in words[:-1]:
        return None
    crate = words[words.index("--crate-name") + 1]
    return ("proof" if Path(folder) == ROOT / "crates" / crate else "edits"), crate


def look(gate, seen):
    """Notes each process of the prover that the gate started, with its time."""
    for entry in os.listdir("/proc"):
        if not entry.isdigit():
            continue
        words, folder = words_of(entry)
        kind = kind_of(words, folder)
        if kind and is_of(int(entry), gate):
            seen[entry, kind] = max(seen.get((entry, kind), 0.0), seconds_of(entry))


def table(seen):
    """The lines of the table."""
    sums = collections.defaultdict(lambda: collections.defaultdict(float))
    for (_, (column, crate)), seconds in seen.items():
        sums[crate][column] += seconds
    yield "| crate | proof | edits |"
    yield "|---|---|---|"
    for crate in sorted(sums):
        numbers = (f"{sums[crate][column]:.0f}" for column in ("proof", "edits"))
        yield f"| `{crate}` | " + " | ".join(numbers) + " |"


def main():
    parser = argparse.ArgumentParser(description=__doc__.splitlines()[0])
    parser.add_argument("--to", type=Path, help="where the command's output goes; to the terminal without it")
    parser.add_argument("command", nargs="*", default=["rt", "ci"])
    given = parser.parse_args()
    sink = given.to.open("w") if given.to else None
    start = time.monotonic()
    gate = subprocess.Popen(given.command, cwd=ROOT, stdout=sink, stderr=subprocess.STDOUT if sink else None)
    seen = {}
    signal.signal(signal.SIGTERM, lambda *_: gate.terminate())
    while gate.poll() is None:
        look(gate.pid, seen)
        time.sleep(0.5)
    used = resource.getrusage(resource.RUSAGE_CHILDREN)
    for line in table(seen):
        print(line)
    print(f"status {gate.returncode}, {time.monotonic() - start:.0f} s, {used.ru_utime:.0f} s of the processor, {used.ru_stime:.0f} s of the system, largest process {used.ru_maxrss // 1024} MiB")
    sys.exit(gate.returncode)


if __name__ == "__main__":
    main()
