#!/usr/bin/env python3
"""Measures what one small thing costs in small and in large trees and forests, from outside the program.

    bench_costs.py passes [--program PATH]
    bench_costs.py receipts [--program PATH]
    bench_costs.py queries [--program PATH]

Each script is run with the things that are measured and without them; what is told is the difference for each of them, in
microseconds of processor, the least of several runs, so reading and printing the thing is in it. Each node has ten children.

    passes    one node is set and its frame passes; the browser has asked for another token, so each packet is stale and
              its receipt does nothing. The tree has 1,000 or 100,000 nodes.
    receipts  one node is set, or 1,000 are, their frame passes, and the browser receives. The changed tree has 1,000 or
              100,000 nodes, the forest that tree alone or 999 more with one node each.
    queries   one reader asks the same again and again, of the last node and of the first, in a tree of 1,000 or 100,000 nodes
              whose nodes have names.

The gate doesn't run this.
"""
import argparse
import os
import subprocess
import tempfile
from pathlib import Path

TOOL = Path(__file__).resolve().parent.parent / "crates/ax_tool/out/ax_tool"
SIZES = (1_000, 100_000)
CHEAP = ("next of the last node", "bounds of the last node", "leaf of a position in the root")


def tree(nodes, names):
    """Node n from 2 on stands below node (n - 2) / 10 + 1."""
    look = ',"role":"static_text","attrs":{"name":"word "}' if names else ""
    yield f'{{"op":"root","node":1{look}}}'
    for n in range(2, nodes + 1):
        yield f'{{"op":"insert","parent":{(n - 2) // 10 + 1},"index":{(n - 2) % 10},"node":{n}{look}}}'
    yield '{"op":"pass"}'


def script(frames, order, readers=(), browser=""):
    listed = ",\n".join(f'{{"tree":{t},"ops":[{",".join(ops)}]}}' for t, ops in frames)
    asked = ",".join("[" + ",".join(queries) + "]" for queries in readers)
    return f'{{"version":2,"frames":[{listed}],"browser":[{browser}],"readers":[{asked}],"order":"{" ".join(order)}"}}'


def changes_of(nodes, touched, count):
    for i in range(count):
        for k in range(touched):
            node = (i * 37 + k * (nodes // touched)) % nodes + 1
            role = ("link", "button")[(i if touched > 1 else i * 37 // nodes) % 2]
            yield f'{{"op":"set","node":{node},"role":"{role}"}}'
        yield '{"op":"pass"}'


def of_passes(nodes, count):
    """There is always one packet that is stale, so each run ends with one refreshment."""
    first, changes = list(tree(nodes, False)), list(changes_of(nodes, 1, count + 1))
    order = ["f1"] * len(first) + ["a1", "b"] + ["f1"] * len(changes)
    return script([(1, first + changes)], order, browser='{"op":"ask","tree":1}')


def of_receipts(nodes, trees, touched, count):
    changes = list(changes_of(nodes, touched, count))
    first = list(tree(nodes, False))
    frames = [(1, first + changes)] + [(t, ['{"op":"root","node":1}', '{"op":"pass"}']) for t in range(2, trees + 1)]
    order = [f"f{t}" for t, ops in frames for _ in range(len(first) if t == 1 else 2)]
    order += [f"a{t}" for t, _ in frames] + (["f1"] * (touched + 1) + ["a1"]) * count
    return script(frames, order)


def position(node, offset):
    return f'{{"tree":1,"node":{node},"offset":{offset}}}'


def questions(nodes):
    leaf, first = position(nodes, 2), position(nodes // 2 + nodes // 3, 1)
    return {
        "next of the last node": f'{{"q":"next","tree":1,"node":{nodes}}}',
        "bounds of the last node": f'{{"q":"bounds","tree":1,"node":{nodes}}}',
        "leaf of a position in the last node": f'{{"q":"leaf","at":{leaf}}}',
        "leaf of a position in the root": f'{{"q":"leaf","at":{position(1, 2)}}}',
        "offset of a position in the last node": f'{{"q":"offset","at":{leaf}}}',
        "order of two positions": f'{{"q":"compare","at":{first},"to":{leaf}}}',
        "text inside the last leaf": f'{{"q":"text","at":{position(nodes, 1)},"to":{leaf}}}',
        "move by a character": f'{{"q":"move","at":{leaf},"unit":"char","way":"next"}}',
        "move by a word": f'{{"q":"move","at":{leaf},"unit":"word","way":"prev"}}',
        "move by a leaf": f'{{"q":"move","at":{leaf},"unit":"leaf","way":"prev"}}',
    }


def of_queries(nodes, query, count):
    first = list(tree(nodes, True))
    return script([(1, first)], ["f1"] * len(first) + ["a1"], [[query] * count])


def seconds(program, text, runs):
    """The least processor time of some runs, each of which has to end well."""
    least = None
    with tempfile.TemporaryDirectory() as folder:
        path = Path(folder, "script.json")
        path.write_text(text)
        for _ in range(runs):
            with open(path, "rb") as source:
                child = subprocess.Popen([program, "replay"], stdin=source, stdout=subprocess.DEVNULL)
                _, status, usage = os.wait4(child.pid, 0)
                child.returncode = os.waitstatus_to_exitcode(status)
            if child.returncode != 0:
                raise SystemExit(f"status {child.returncode}")
            took = usage.ru_utime + usage.ru_stime
            least = took if least is None else min(least, took)
    return least


def each(given, made, count):
    few, many = made(0), made(count)
    return (seconds(given.program, many, given.runs) - seconds(given.program, few, given.runs)) / count * 1e6


def tell_passes(given):
    for nodes in SIZES:
        took = each(given, lambda count: of_passes(nodes, count), given.count)
        print(f"{nodes} nodes: {took:.2f} us for a set, a pass and a stale receipt", flush=True)


def tell_receipts(given):
    for touched in (1, 1_000):
        for trees in (1, 1_000):
            for nodes in SIZES:
                took = each(given, lambda count: of_receipts(nodes, trees, touched, count), given.count // touched)
                print(f"{touched} touched, {trees} trees, {nodes} nodes: {took:.2f} us for the sets, the pass and the receipt", flush=True)


def tell_queries(given):
    for nodes in SIZES:
        for name, query in questions(nodes).items():
            count = given.count if name in CHEAP else max(50, given.count * 100 // nodes)
            took = each(given, lambda n: of_queries(nodes, query, n), count)
            print(f"{nodes} nodes: {name}: {took:.2f} us", flush=True)


def main():
    parser = argparse.ArgumentParser(description=__doc__.splitlines()[0])
    parser.add_argument("what", choices=("passes", "receipts", "queries"))
    parser.add_argument("--program", default=str(TOOL))
    parser.add_argument("--count", type=int, default=50_000)
    parser.add_argument("--runs", type=int, default=3)
    given = parser.parse_args()
    {"passes": tell_passes, "receipts": tell_receipts, "queries": tell_queries}[given.what](given)


if __name__ == "__main__":
    main()
