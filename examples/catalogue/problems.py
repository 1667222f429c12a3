#!/usr/bin/env python3
"""All problems of a few labels, up to the names of the labels.

    examples/catalogue/problems.py LABELS ACTIVE PASSIVE

prints them one a line: a number from 1 on, and the problem, as `AAB ABB / AB BB`: the configurations of active nodes, then those of
passive ones. ACTIVE and PASSIVE are the degrees. Taken is each problem in which every label stands on both sides, since a label that
stands on one side alone can be left out. Of the problems that differ in the names of their labels alone the first is taken, where a
problem is the ascending list of its configurations, and the problems stand in that order; so a problem has one number for good.

    examples/catalogue/problems.py --text 'AAB ABB / AB BB'

prints a problem as the programs read it.
"""
import itertools
import sys

NAMES = "ABCDEFGH"


def multisets(labels, degree):
    return list(itertools.combinations_with_replacement(range(labels), degree))


def constraints(labels, degree):
    """All sets of configurations in which every label stands, each as an ascending tuple."""
    configs = multisets(labels, degree)
    for size in range(1, len(configs) + 1):
        for chosen in itertools.combinations(configs, size):
            if len({label for config in chosen for label in config}) == labels:
                yield chosen


def renamed(constraint, names):
    return tuple(sorted(tuple(sorted(names[label] for label in config)) for config in constraint))


def problems(labels, active, passive):
    renamings = list(itertools.permutations(range(labels)))
    sides = [{it: [renamed(it, names) for names in renamings] for it in constraints(labels, degree)} for degree in (active, passive)]
    found = [
        (first, second)
        for first, firsts in sides[0].items()
        if first == min(firsts)
        for second, seconds in sides[1].items()
        if all((first, second) <= other for other in zip(firsts, seconds))
    ]
    return sorted(found)


def line(problem):
    return " / ".join(" ".join("".join(NAMES[label] for label in config) for config in side) for side in problem)


def text(problem):
    return "\n\n".join("\n".join(" ".join(config) for config in side.split()) for side in problem.split(" / ")) + "\n"


def main(words):
    if len(words) == 2 and words[0] == "--text":
        sys.stdout.write(text(words[1]))
    elif len(words) == 3 and all(word.isdigit() for word in words):
        for number, problem in enumerate(problems(*map(int, words)), 1):
            print(f"{number}\t{line(problem)}")
    else:
        sys.exit(__doc__)


if __name__ == "__main__":
    main(sys.argv[1:])
