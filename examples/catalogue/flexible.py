#!/usr/bin/env python3
"""How many levels of labels each problem of a list has: whether some set of its labels is flexible, and else how many trimmed sets there are of
which each next one is flexible within the one before it.

    examples/catalogue/flexible.py LIST

LIST is what problems.py prints, or a table. It prints for each problem its number and `flexible`, `length K` or `no solution`, as
`explore flexible` decides it; but here by the definitions, over all sets of labels and walks of all lengths, so for few labels alone.

    examples/catalogue/flexible.py --classes TABLE > NEW

prints a table that settle.sh made with the classes that these levels tell, and the words behind them: a bound above where a set is flexible, and
what the literature says else. Of a problem of length 1 nothing but the order of N is told, by `explore flexible`. So it puts what levels tell
into a table that was made without them, and a table that has it already comes out as it is.

The definitions are those of Balliu, Brandt, Chang, Olivetti, Studený and Suomela (Efficient classification of locally checkable problems in
regular trees, DISC 2022), with sets of labels.
"""
import functools
import itertools
import lzma
import pathlib
import sys

ENDLESS = 1 << 20
WORD = "explore flexible"


def numbers(problem):
    """The configurations of both sides, as ascending tuples of numbers of labels, and how many labels there are."""
    sides = [[tuple(config) for config in side.split()] for side in problem.split(" / ")]
    labels = sorted({label for side in sides for config in side for label in config})
    return [[tuple(sorted(labels.index(label) for label in config)) for config in side] for side in sides], len(labels)


def joined(side, labels):
    """For each label the set of those with which it stands in a configuration whose other labels are of these."""
    rows = {}
    for config in side:
        for x, y in itertools.permutations(range(len(config)), 2):
            rest = [label for place, label in enumerate(config) if place not in (x, y)]
            if labels.issuperset(rest):
                rows[config[x]] = rows.get(config[x], frozenset()) | {config[y]}
    return {label: rows.get(label, frozenset()) for label in labels}


def then(first, second):
    """Where a step of the one and a step of the other lead."""
    return {label: frozenset().union(*(second[between] for between in row if between in second)) for label, row in first.items()}


def walks(sides, labels):
    """Where walks through 1, 3, 5 .. nodes lead within these labels, whose first node is active, and passive: until they come again."""
    steps = [joined(side, labels) for side in sides]
    here, seen = (steps[0], steps[1]), set()
    while (key := tuple(tuple(sorted(table.items())) for table in here)) not in seen:
        seen.add(key)
        yield here
        here = tuple(then(then(table, steps[1 - kind]), steps[kind]) for kind, table in enumerate(here))


def is_trimmed(sides, labels):
    return all(any(label in config and labels.issuperset(config) for config in side) for side in sides for label in labels)


def is_flexible(sides, part, whole):
    """Whether walks of one length lead within the whole set from each label of the part to each, whichever side the first node is of."""
    return any(all(part <= table[label] for table in here for label in part) for here in walks(sides, whole))


def levels_of(sides, count):
    """The number of levels of a problem of so many labels, ENDLESS where some set is flexible."""
    every = (frozenset(it) for size in range(1, count + 1) for it in itertools.combinations(range(count), size))
    trimmed = [labels for labels in every if is_trimmed(sides, labels)]
    if any(is_flexible(sides, labels, labels) for labels in trimmed):
        return ENDLESS

    @functools.cache
    def levels_from(whole):
        return 1 + max((levels_from(part) for part in trimmed if part < whole and is_flexible(sides, part, whole)), default=0)

    return max(map(levels_from, trimmed), default=0)


def length_of(problem):
    return levels_of(*numbers(problem))


def title_of(length):
    return "no solution" if length == 0 else "flexible" if length == ENDLESS else f"length {length}"


def degrees_of(problem):
    return [len(side.split()[0]) for side in problem.split(" / ")]


def below(known, shown):
    """The class with what was found from below alone."""
    known = known.split(", at most order")[0]
    alone = {"order log N": "at least order log N", "order log* N": "at least order log* N"}
    return alone.get(known, known) if shown == WORD else known


def with_most(known, most):
    """The class with a bound above, too."""
    return most if known in (f"at least {most}", "at least order log N") else f"{known}, at most {most}"


def classified(line):
    """The line of the table with what levels of labels tell."""
    number, problem, claim, by, known, shown = line
    length, degrees = length_of(problem), degrees_of(problem)
    if length == 0:
        return [number, problem, "no solution", WORD, "", ""]
    if length == 1:
        assert claim.startswith("not solvable in any number of rounds"), line
        return [number, problem, claim, WORD, "order N", ""]
    known = below(known, shown)
    if known.startswith("constant") or known == "order log* N":
        return line
    if length == ENDLESS:
        return [number, problem, claim, by, with_most(known, "order log* N" if degrees == [2, 2] else "order log N"), WORD]
    return [number, problem, claim, by, known, f"literature: order N^(1/{length}); {WORD}" if 2 in degrees else ""]


def lines_of(path):
    with lzma.open(path, "rt") if path.suffix == ".xz" else open(path) as table:
        return [line.rstrip("\n").split("\t") for line in table]


def main(words):
    if words[:1] == ["--classes"] and len(words) == 2:
        for line in lines_of(pathlib.Path(words[1])):
            print("\t".join(classified(line)))
    elif len(words) == 1 and not words[0].startswith("-"):
        for number, problem, *_ in lines_of(pathlib.Path(words[0])):
            print(f"{number}\t{title_of(length_of(problem))}")
    else:
        sys.exit(__doc__)


if __name__ == "__main__":
    main(sys.argv[1:])
