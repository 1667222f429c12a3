#!/usr/bin/env python3
"""The public calls of crates, and whether docs/CONTRACTS.md names such.

    tools/calls.py              prints each crate without an item, each item without a crate, and each name behind **By** that is no public
                               call, type or constant of its crate, nor, as `CRATE::NAME`, of the crate that it names
    tools/calls.py CRATE ..     prints the public calls of the crates, each with the first sentence that stands above it
"""
import os
import re
import sys

sys.dont_write_bytecode = True
sys.path.insert(0, os.path.dirname(os.path.abspath(__file__)))
import believe

PAGE = os.path.join(believe.TOP, "docs", "CONTRACTS.md")
# Crates of tests, which have no item.
OTHERS = {"problem_rows", "certificate_rows"}


def crates():
    """The crates that show calls: all but programs."""
    lines = believe.read(os.path.join(believe.TOP, "crates.txt")).splitlines()
    words = [line.split("#")[0].partition(":")[0].split() for line in lines]
    return [word[0] for word in words if word and os.path.isfile(os.path.join(believe.TOP, "crates", word[0], "src", "lib.rt"))]


def items():
    """The crates of each item of the page, with the names behind **By**."""
    page = believe.read(PAGE).split("## Crate by crate")[1].split("\n## ")[0]
    for item in re.split(r"\n- (?=`)", page)[1:]:
        head, _, rest = item.partition(":")
        yield re.findall(r"`(\w+)`", head), re.findall(r"`([\w:]+)`", rest.partition("**By**")[2])


def public(crate):
    """The names of the public calls, methods, types and constants of a crate."""
    names, _ = believe.shown(crate)
    return names | {it.name for is_public, _, it in believe.calls_of(crate) if is_public}


def sentence_above(text, name):
    """The first sentence of the lines in words above a function."""
    head = re.search(rf"((?:^ *///[^\n]*\n)+)(?:^ *(?:#\[|//)[^\n]*\n)*^ *(?:pub )?fn {name}\b", text, re.M)
    words = " ".join(line.strip().removeprefix("///").strip() for line in head.group(1).splitlines()) if head else ""
    return re.split(r"(?<=\.) ", words)[0]


def show(crate):
    print(f"## {crate}\n")
    texts = dict(believe.sources(crate))
    for is_public, owner, it in believe.calls_of(crate):
        if is_public:
            print(f"- {owner + '::' if owner else ''}{it.name}: {sentence_above(texts[it.file], it.name)}")
    print()


def main(words):
    for crate in words:
        show(crate)
    if words:
        return
    known = {crate: public(crate) for crate in crates()}
    told, wrong = set(), 0
    for owners, names in items():
        told.update(owners)
        for crate in owners:
            if crate not in known:
                print(f"{crate}: no such crate")
                wrong += 1
        for name in names:
            parts = name.split("::")
            places = [parts[0]] if parts[0] in known else [crate for crate in owners if crate in known]
            if not any(set(parts) - {place} <= known[place] for place in places):
                print(f"{', '.join(owners)}: {name} is no call")
                wrong += 1
    for crate in known:
        if crate not in told | OTHERS:
            print(f"{crate}: no item")
            wrong += 1
    print(f"{wrong} of docs/CONTRACTS.md are wrong")
    sys.exit(1 if wrong else 0)


if __name__ == "__main__":
    main(sys.argv[1:])
