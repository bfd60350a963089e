#!/usr/bin/env python3
"""Checks the map of docs/ARCHITECTURE.md against crates.txt: each crate has its line, in the layer that follows from what it stands on.

A crate's layer is one more than the highest layer below it. Run it at the top of the repository; it prints what is wrong and ends with 1, or says that all is right.
"""
import re
import sys
from pathlib import Path


def stands_on(text):
    """Each crate with the crates of this repository that it stands on."""
    lines = [line for line in text.splitlines() if line.strip() and not line.startswith("#")]
    named = {line.split(":")[0].split()[0]: line.split(":")[1].split() for line in lines}
    return {crate: [low for low in lows if low in named] for crate, lows in named.items()}


def layers_of(below):
    """Each crate with its layer."""
    layers = {}

    def layer(crate):
        if crate not in layers:
            layers[crate] = 1 + max((layer(low) for low in below[crate]), default=0)
        return layers[crate]

    for crate in below:
        layer(crate)
    return layers


def told(text):
    """The layer that the map tells of each crate."""
    rows = re.findall(r"^\| (\d+) \| ([^|]*) \|", text, re.M)
    return {crate: int(number) for number, crates in rows for crate in re.findall(r"`(ax_\w+)`", crates)}


def main():
    layers = layers_of(stands_on(Path("crates.txt").read_text()))
    if "--print" in sys.argv:
        for crate, layer in sorted(layers.items(), key=lambda row: (row[1], row[0])):
            print(layer, crate)
        return 0
    map_text = Path("docs/ARCHITECTURE.md").read_text()
    rows = told(map_text)
    wrong = [f"{crate}: the map says {rows.get(crate)}, it is {layer}" for crate, layer in layers.items() if rows.get(crate) != layer]
    wrong += [f"{crate}: the map has it, crates.txt hasn't" for crate in rows if crate not in layers and "planned" not in map_text.split(crate)[1].split("\n")[0]]
    print("\n".join(wrong) or "the map is right")
    return 1 if wrong else 0


if __name__ == "__main__":
    sys.exit(main())
