#!/usr/bin/env python3
"""The paths of the graph of crates: the toolchain goes over all of them before it says its first line.

    tools/paths.py [FILE]    prints how many crates and paths the file has; without one, crates.txt
    tools/paths.py CRATE     prints the crates that this one stands on, by crates.txt

A path begins at any crate and goes down, each time to a crate that the one before names; it may end at once. The ported crates don't count.
"""
import os
import sys

TOP = os.path.dirname(os.path.dirname(os.path.abspath(__file__)))
PORTED = {"arrayvec", "indexmap"}


def named_by(text):
    """The crates that each crate names, in the order of the file."""
    lines = (line.split("#")[0].partition(":") for line in text.splitlines())
    return {crate.strip(): [name for name in names.split() if name not in PORTED] for crate, _, names in lines if crate.strip()}


def paths(named):
    """How many paths begin at each crate."""
    below = {}
    for crate, names in named.items():
        below[crate] = 1 + sum(below[name] for name in names)
    return below


def stands_on(named, crate):
    """The crates below a crate, in the order of the file."""
    found, open_ = set(), [crate]
    while open_:
        more = set(named[open_.pop()]) - found
        found |= more
        open_ += more
    return [name for name in named if name in found]


def main(words):
    if len(words) > 1 or words[:1] == ["--help"]:
        sys.exit(__doc__)
    default = os.path.join(TOP, "crates.txt")
    with open(words[0] if words and os.path.exists(words[0]) else default, encoding="utf-8") as file:
        named = named_by(file.read())
    if words and words[0] in named:
        print(*stands_on(named, words[0]), sep="\n")
        return
    below = paths(named)
    print(f"{len(below)} crates, {sum(below.values()):,} paths")


if __name__ == "__main__":
    main(sys.argv[1:])
