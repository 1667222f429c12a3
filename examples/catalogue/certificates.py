#!/usr/bin/env python3
"""A table with the bounds that certificates show where no words find them, and those that `explore rounds` tells where `settle` doesn't ask it.

    examples/catalogue/certificates.py RE EXPLORE TABLE > NEW

RE and EXPLORE are the programs, TABLE one that settle.sh made, as 3-3-2.tsv or 3-3-2.tsv.xz, for the problems of certificates.tar.xz. A text there
has the name certificates/NUMBER-lower.txt or certificates/NUMBER-upper.txt, and begins with the problem of that number. A bound that `re check`
accepts, and that says more than the table does, takes the place of the table's, and the name of the text that of its words; and so do the words
`explore rounds 12` in a line of at least two rounds between its bounds, or none above. A line that is exact by these texts stays as it is.
"""
import lzma
import pathlib
import re
import subprocess
import sys
import tarfile

import problems

TEXTS = pathlib.Path(__file__).parent / "certificates.tar.xz"
KINDS = "lower", "upper"
ROUNDS = "explore rounds 12"


def bound_of(program, name, text, problem):
    """The number of rounds that a certificate of this problem says are too few, or enough."""
    def said(word, it):
        return subprocess.run([program, word], input=it, capture_output=True, text=True, check=False).stdout

    if said("read", re.split("^==.*\n", text, flags=re.M)[1]) != said("read", problems.text(problem)):
        sys.exit(f"{name}: not of the problem {problem}")
    found = re.fullmatch(r"accepted: (not )?solvable in (\d+) (?:or fewer )?rounds\n", said("check", text))
    if not found or bool(found[1]) != ("lower" in name):
        sys.exit(f"{name}: {said('check', text)}")
    return int(found[2])


def counted(explore, problem, words):
    """The number of rounds that these words say are too few."""
    said = subprocess.run([explore, *words.split()[1:]], input=problems.text(problem), capture_output=True, text=True, check=False).stdout
    return int(re.match(r"more than (\d+)", said)[1])


def claim_of(lower, upper, graph):
    """The answer, with the rounds of the graph or without."""
    def hops(says, number, halves):
        behind = says.removeprefix("exactly ")
        return f"{says}{number} ({behind}{halves} rounds of the graph)" if graph else f"{says}{number}"

    if upper == lower + 1:
        return hops("exactly ", upper, (upper + 1) // 2)
    most = "" if upper is None else f", {hops('at most ', upper, (upper + 1) // 2)}"
    return hops("more than ", lower, lower // 2) + most


def with_bounds(explore, line, bounds):
    """The line of a problem between two bounds, or with a lower one alone, and with those of its certificates and of words that count."""
    number, problem, claim, by, known_class, shown = line
    lower, upper = (re.search(words + r" (\d+)", claim) for words in ("more than", "at most"))
    if not lower:
        if any(name not in by for name, _ in bounds.values()):
            sys.exit(f"{number}: nothing is open: {claim}")
        return line
    known, words = {"lower": int(lower[1]), "upper": upper and int(upper[1])}, dict(zip(KINDS, by.split("; ")))
    for kind, (name, bound) in bounds.items():
        if known[kind] is None or (bound > known[kind] if kind == "lower" else bound < known[kind]):
            known[kind], words[kind] = bound, name
    if known["upper"] is None or known["lower"] + 1 < known["upper"]:
        more = counted(explore, problem, ROUNDS)
        if more > known["lower"]:
            known["lower"], words["lower"] = more, ROUNDS
    claims = [claim_of(*known.values(), graph) for graph in ("rounds of the graph" in claim, False)]
    most = re.search(", at most order.*|$", known_class)[0]
    classes = [claims[1] + most, shown] if known["upper"] is None else [f"constant, {claims[1]}", ""]
    return [number, problem, claims[0], "; ".join(words[kind] for kind in KINDS if kind in words), *classes]


def main(words):
    if len(words) != 3:
        sys.exit(__doc__)
    program, explore = (str(pathlib.Path(it).resolve()) for it in words[:2])
    table = pathlib.Path(words[2])
    with tarfile.open(TEXTS) as held:
        texts = {it.name: held.extractfile(it).read().decode() for it in held if it.isfile()}
    with lzma.open(table, "rt") if table.suffix == ".xz" else open(table) as rows:
        for line in (row.rstrip("\n").split("\t") for row in rows):
            names = {kind: f"certificates/{line[0]}-{kind}.txt" for kind in KINDS}
            bounds = {kind: (name, bound_of(program, name, texts[name], line[1])) for kind, name in names.items() if name in texts}
            print("\t".join(with_bounds(explore, line, bounds) if bounds or line[2].startswith("more than") else line))


if __name__ == "__main__":
    main(sys.argv[1:])
