#!/usr/bin/env python3
"""Certificates as those of certificates.tar.xz: bounds of problems of a table that show more than its words do.

    examples/catalogue/bounds.py RE EXPLORE TABLE FOLDER KIND NUMBER..

KIND is `upper` or `lower`, RE and EXPLORE are the programs, TABLE is one that settle.sh made. For each problem of these numbers it goes 0, 2 or 4
steps on, to a derived problem, and looks for another problem of the table whose bound words find, and to which `explore bridge` leads. Where sets
of the derived problem's labels solve it given the other one, both upper bounds add up; where it solves the other one without communication, both
lower bounds. A bound that says more than the table's words, or as much as a certificate that the table names, is written into FOLDER, as
NUMBER-KIND.txt, without labels that nothing behind them needs, where `re check` accepts it.
"""
import itertools
import lzma
import pathlib
import re
import subprocess
import sys

import problems

KINDS = "lower", "upper"
MOST_LABELS = 16
LABEL = r"\([^)]*\)|[^\s()\[\]^]"


class Programs:
    def __init__(self, program, explore):
        self.paths = {"re": program, "explore": explore}

    def said(self, words, text):
        """What a command with these words answers, None behind a No, a limit or a fault."""
        name, *rest = words.split()
        run = subprocess.run([self.paths[name], *rest], input=text, capture_output=True, text=True, check=False)
        return run.stdout if run.returncode == 0 else None

    def bound(self, text):
        """The number of rounds that a certificate shows to be enough, or too few; None where it isn't accepted."""
        found = re.search(r"^accepted: (?:not )?solvable in (\d+)", self.said("re check", text) or "")
        return found and int(found[1])


def labels_in(text):
    return list(dict.fromkeys(re.findall(LABEL, re.sub(r"\^\d+", "", text))))


def parts_of(text):
    """The parts of a certificate between its lines `== ..`: [[line, lines]]."""
    parts = []
    for line in text.splitlines():
        if line.startswith("=="):
            parts.append([line, []])
        else:
            parts[-1][1].append(line)
    return parts


def text_of(parts):
    return "".join("\n".join([line, *lines]) + "\n" for line, lines in parts)


def entries(lines):
    """The entries of a map of an upper step: each label with the labels of its set."""
    return {label: labels_in(chosen) for label, chosen in (line.split(" ", 1) for line in lines)}


def map_lines(table):
    return [f"{label} [{''.join(chosen)}]" for label, chosen in table.items()]


def joined(chain, other):
    """An upper bound whose last step leads to the other's problem with its sides exchanged, and from there the other's steps."""
    front, behind = parts_of(chain), parts_of(other)
    sets = entries(front[-2][1])
    steps = behind[1:-1]
    steps[1] = ["== map", map_lines({label: sorted({it for old in chosen for it in sets[old]}, key=str) for label, chosen in entries(steps[1][1]).items()})]
    return text_of([*front[:-3], *steps, ["== end", []]])


def narrowed(text):
    """An upper bound without the labels of its steps that nothing behind them needs."""
    parts = parts_of(text)
    steps = [(parts[at], parts[at + 1]) for at in range(1, len(parts) - 1, 2)]
    for (problem, images), (_, behind) in reversed(list(itertools.pairwise(steps))):
        needed = {label for chosen in entries(behind[1]).values() for label in chosen}
        problem[1] = [line for line in problem[1] if needed.issuperset(labels_in(line))]
        images[1] = map_lines({label: chosen for label, chosen in entries(images[1]).items() if label in needed})
    return text_of(parts)


def two_on(programs, chain):
    """The chain with two more steps, None where one meets a limit or gives too many labels."""
    for _ in range(2):
        chain = chain and programs.said("explore step", chain)
        if chain and len(labels_in(programs.said("explore last", chain))) > MOST_LABELS:
            return None
    return chain


def derived(programs, kind, text):
    """Certificates of 0, 2 and 4 steps to derived problems; those of 4 from some labels of the second one, where all of them give too many."""
    none = programs.said(f"explore begin {kind}", text)
    two = two_on(programs, none)
    four = two_on(programs, two)
    yield from (it for it in (none, two, four) if it)
    if kind == "lower" or not two or four:
        return
    labels = labels_in(programs.said("explore last", two))
    for count in range(1, len(labels) - 2):
        for left in itertools.combinations(labels, count):
            chain = two
            for label in left:
                chain = chain and programs.said(f"explore drop {label}", chain)
            if chain and (chain := two_on(programs, chain)):
                yield chain


def bound_in(kind, claim):
    found = re.search({"upper": r"(?:exactly|at most) (\d+)", "lower": r"(exactly|more than) (\d+)"}[kind], claim)
    if not found or kind == "upper":
        return found and int(found[1])
    return int(found[2]) - (found[1] == "exactly")


def words_in(kind, by):
    """The words of a line that write a certificate of this kind."""
    names = {"upper": ("re upper", "explore shortest"), "lower": ("re lower", "explore longest")}[kind]
    return next((words for words in by.split("; ") if words.startswith(names)), None)


def exchanged(text):
    active, passive = text.strip().split("\n\n")
    return f"{passive}\n\n{active}\n"


def led_on(programs, kind, chain, problem, words):
    """The chain led on to this problem, and then by what these words find for it; None where that is no certificate."""
    def to(other):
        return programs.said("explore bridge", f"{chain}== to\n{other}")

    bridged = to(exchanged(problem) if kind == "upper" else programs.said("explore last", programs.said("explore step", problem)))
    other = bridged and programs.said(words, problem)
    if not other:
        return None
    if kind == "upper":
        return narrowed(joined(bridged, other))
    parts = parts_of(other)
    bridged = to("\n".join(parts[1][1]) + "\n")
    return bridged and text_of([*parts_of(bridged)[:-1], *parts[4:]])


def search(programs, kind, line, others):
    """A certificate that says more than the words of the line, of as few steps to a derived problem as one has, and of these the one that says most."""
    _, problem, claim, by, *_ = line
    least, most = (bound_in(it, claim) for it in KINDS)
    again = f"-{kind}.txt" in by
    possible = range((least or 0) + (not again or kind == "upper"), (most or 64) + (again and kind == "upper"))
    sign = 1 if kind == "upper" else -1
    tried = [(steps, sign * (steps + bound), chain, other, words) for chain in derived(programs, kind, problems.text(problem))
             for steps in [chain.count("== step")] for bound, other, words in others if other != problem and steps + bound in possible]
    for _, total, chain, other, words in sorted(tried, key=lambda it: it[:2]):
        found = led_on(programs, kind, chain, problems.text(other), words)
        if found and programs.bound(found) == abs(total):
            return found
    return None


def main(words):
    if len(words) < 6 or words[4] not in KINDS:
        sys.exit(__doc__)
    programs, table, folder, kind, numbers = Programs(*words[:2]), pathlib.Path(words[2]), pathlib.Path(words[3]), words[4], words[5:]
    with lzma.open(table, "rt") if table.suffix == ".xz" else open(table) as rows:
        lines = [row.rstrip("\n").split("\t") for row in rows]
    others = [(bound_in(kind, claim), problem, words) for _, problem, claim, by, *_ in lines if (words := words_in(kind, by)) and bound_in(kind, claim)]
    for line in lines:
        if line[0] in numbers:
            found = search(programs, kind, line, others)
            if found:
                (folder / f"{line[0]}-{kind}.txt").write_text(found)
            print(f"{line[0]}: {programs.said('re check', found).strip() if found else 'none'}", flush=True)


if __name__ == "__main__":
    main(sys.argv[1:])
