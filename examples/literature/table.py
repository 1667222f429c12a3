#!/usr/bin/env python3
"""Runs `explore settle` on problems whose class is published, and writes the table beside it.

    examples/literature/table.py EXPLORE [N] > examples/literature/README.md

EXPLORE is the program; N is the number behind `settle`, if any. A row has the problem, who published its class, that class, what `settle` says,
the words that show it, the class that it says and the words that show this, and the seconds of processor time it took. Where an answer
contradicts what is published, the row and the exit code say so.

    examples/literature/table.py --texts FOLDER

writes the problems' texts into a folder.

The published classes are those of deterministic algorithms with unique identifiers on trees, for the degrees of the row: `constant`, `log*` (the
order of log* n), `easy` (at most that), `log` (at least the order of log n, which problems of order n are too).
"""
import pathlib
import re
import resource
import subprocess
import sys
from itertools import combinations, combinations_with_replacement

LINIAL = "Linial 1992"
NAOR = "Naor, Stockmeyer 1995"
EDGES = "Panconesi, Rizzi 2001"
SINKLESS = "Brandt, Fischer, Hirvonen, Keller, Lempiäinen, Rybicki, Suomela, Uitto 2016"
DELTA = "Brandt et al. 2016; Chang, Kopelowitz, Pettie 2016"
FEW_EDGES = "Chang, He, Li, Pettie, Uitto 2018"
PARTIAL = "Balliu, Hirvonen, Lenzen, Olivetti, Suomela 2019"
BINARY = "Balliu, Brandt, Efron, Hirvonen, Maus, Olivetti, Suomela 2020"
PATHS = "Chang, Studený, Suomela 2021"
REGULAR = "Balliu, Brandt, Chang, Olivetti, Studený, Suomela 2022"
ARB = "Balliu, Brandt, Kuhn, Olivetti 2022"
HOMO = "Brandt, Chang, Grebík, Grunau, Rozhoň, Vidnyánszky 2022"
HALL = "Brandt, Maus, Narayanan, Schager, Uitto 2025"
MATCHING = "Hańćkowiak, Karoński, Panconesi 1998"
RULING = "Balliu, Brandt, Olivetti 2020"
SPEEDUP = "Brandt 2019"
HYPER = "Balliu, Brandt, Kuhn, Olivetti 2023"


def colouring(degree, colours, passive=2):
    """A proper colouring; around a passive node all colours differ."""
    names = "123456789"[:colours]
    sides = [f"{x}^{degree}" for x in names]
    if passive == 2:
        beside = [f"{x} [{names.replace(x, '')}]" for x in names]
    else:
        beside = [" ".join(chosen) for chosen in combinations(names, passive)]
    return sides, beside


def edge_colouring(degree, colours):
    """A proper colouring of the edges."""
    names = "123456789"[:colours]
    return [" ".join(chosen) for chosen in combinations(names, degree)], [f"{x}^2" for x in names]


def homomorphism(degree, edges):
    """A homomorphism to a graph."""
    nodes = sorted({x for edge in edges.split() for x in edge})
    return [f"{x}^{degree}" for x in nodes], [f"{edge[0]} {edge[1]}" for edge in edges.split()]


def independent(degree):
    return [f"M^{degree}", f"P O^{degree - 1}"], ["M [PO]", "O^2"]


def matching(degree, most=1):
    """A maximal matching; with `most`, of as many edges at a node as this, or fewer where all that lead on are taken."""
    if most == 1:
        return [f"M O^{degree - 1}", f"P^{degree}"], ["M^2", "O^2", "O P"]
    fewer = [f"M^{k} P^{degree - k}" if k else f"P^{degree}" for k in range(most)]
    return [f"M^{most} O^{degree - most}", *fewer], ["M^2", "O^2", "O P"]


def two_sided(degree):
    return [f"M O^{degree - 1}", f"P^{degree}"], [f"M [OP]^{degree - 1}", f"O^{degree}"]


def exactly(degree, passive, active, others):
    """A binary labelling: how many edges of an active node, and how many of a passive one, may have the label X."""
    def side(count, k):
        return " ".join(f"{label}^{power}" for label, power in (("X", k), ("O", count - k)) if power)

    return [side(degree, k) for k in active], [side(passive, k) for k in others]


def defective(degree, colours, others):
    """Colours of which at least so many neighbours, behind the small letters, have another one."""
    pairs = list(zip("RBG"[:colours], "rbg"[:colours]))
    sides = [f"{same}^{degree - others} {other}^{others}" for same, other in pairs]
    beside = [f"{x} {y}" for n, x in enumerate("RBG"[:colours]) for y in "RBG"[n:colours]]
    beside += [f"{x} {small}" for x, same in pairs for small in "rbg"[:colours] if small != same]
    return sides, beside + [" ".join(both) for both in combinations("rbg"[:colours], 2)]


def arbdefective(degree, colours, out):
    """Colours, and so many edges that lead out to whichever colour."""
    names = "ABC"[:colours]
    return [f"{x}^{degree - out} X^{out}" for x in names], [f"X [X{names}]", *(" ".join(both) for both in combinations(names, 2))]


def dominating(degree, least):
    """A set of nodes that have at least so many others beside them that aren't in it, and to which each of these points."""
    inside = [f"M^{degree}", *(f"M^{degree - k} X^{k}" for k in range(1, least + 1))]
    return [*inside, f"P O^{degree - 1}"], ["M [PO]", "X^2", "O^2"]


def to_one_side(degree):
    """The same with edges within the set that lead one way."""
    return [f"M^{degree - 1} X", f"P O^{degree - 1}"], ["M [PXO]", "X [PXO]", "O^2"]


def superweak():
    """A superweak 2-colouring in degree 3: a node demands of more neighbours than it accepts to differ from it, or to be asked in turn."""
    def sides(c):
        return [f"({c}D) ({c}n)^2", f"({c}D)^2 ({c}n)", f"({c}D)^2 ({c}A)", f"({c}D)^3"]

    both = ["(1D) (1A)", "(1D) (2D)", "(1D) (2A)", "(1D) (2n)", "(1A)^2", "(1A) (1n)", "(1A) (2D)", "(1A) (2A)", "(1A) (2n)", "(1n)^2"]
    both += ["(1n) (2D)", "(1n) (2A)", "(1n) (2n)", "(2D) (2A)", "(2A)^2", "(2A) (2n)", "(2n)^2"]
    return [*sides(1), *sides(2)], both


def two_apart():
    """A colouring of a path with 4 colours, in which nodes with a common neighbour differ too: a label is a colour and that of the neighbour."""
    return ([f"({x}{y}) ({x}{z})" for x in "1234" for y, z in combinations("1234".replace(x, ""), 2)],
            [f"({x}{y}) ({y}{x})" for x, y in combinations("1234", 2)])


def greedy_colouring():
    """A colouring in which a node of colour k has neighbours of each colour below k, to which it points."""
    return (["1^3", "2^2 (21)", "3 (31) (32)", "(41) (42) (43)"],
            ["1 [23]", "1 (21)", "1 (31)", "1 (41)", "2 3", "2 (32)", "2 (42)", "3 (43)"])


PROBLEMS = [
    ("2 colours, paths", PATHS, "log", *colouring(2, 2)),
    ("3 colours, paths", LINIAL, "log*", *colouring(2, 3)),
    ("4 colours, paths", LINIAL, "log*", *colouring(2, 4)),
    ("maximal independent set, paths", LINIAL, "log*", *independent(2)),
    ("maximal matching, paths", LINIAL, "log*", *matching(2)),
    ("2 edge colours, paths", PATHS, "log", *edge_colouring(2, 2)),
    ("3 edge colours, paths", LINIAL, "log*", *edge_colouring(2, 3)),
    ("perfect matching, paths", PATHS, "log", ["M O"], ["M^2", "O^2"]),
    ("consistent orientation, paths", PATHS, "log", ["I O"], ["I O"]),
    ("any orientation, paths", PATHS, "constant", ["[IO]^2"], ["I O"]),
    ("homomorphism to the 4-cycle, paths", PATHS, "log", *homomorphism(2, "AB BC CD DA")),
    ("homomorphism to the 5-cycle, paths", PATHS, "log*", *homomorphism(2, "AB BC CD DE EA")),
    ("2-ruling set, paths", RULING, "log*", ["M^2", "P O", "Q U"], ["M [POU]", "Q O", "O [OU]", "U^2"]),
    ("weak 2-colouring, paths", NAOR, "log*", ["R r", "B b"], ["R [RBb]", "r [Bb]", "B^2"]),
    ("2 colours, degree 3", SINKLESS, "log", *colouring(3, 2)),
    ("3 colours, degree 3", DELTA, "log", *colouring(3, 3)),
    ("4 colours, degree 3", LINIAL, "log*", *colouring(3, 4)),
    ("5 colours, degree 3", LINIAL, "log*", *colouring(3, 5)),
    ("3 colours, degree 4", DELTA, "log", *colouring(4, 3)),
    ("4 colours, degree 4", DELTA, "log", *colouring(4, 4)),
    ("5 colours, degree 4", LINIAL, "log*", *colouring(4, 5)),
    ("maximal independent set, degree 3", LINIAL, "log*", *independent(3)),
    ("maximal independent set, degree 4", LINIAL, "log*", *independent(4)),
    ("maximal matching, degree 3", LINIAL, "log*", *matching(3)),
    ("maximal matching, degree 4", LINIAL, "log*", *matching(4)),
    ("2-ruling set, degree 3", RULING, "log*", ["M^3", "P O^2", "Q U^2"], ["M [POU]", "Q O", "O [OU]", "U^2"]),
    ("sinkless orientation, degree 3", SINKLESS, "log", ["O [IO]^2"], ["I O"]),
    ("sinkless orientation, degree 4", SINKLESS, "log", ["O [IO]^3"], ["I O"]),
    ("sinkless orientation, degree 5", SINKLESS, "log", ["O [IO]^4"], ["I O"]),
    ("sinkless orientation, degree 6", SINKLESS, "log", ["O [IO]^5"], ["I O"]),
    ("no sinks, no sources, degree 3", SINKLESS, "log", ["I O [IO]"], ["I O"]),
    ("any orientation, degree 3", NAOR, "constant", ["[IO]^3"], ["I O"]),
    ("perfect matching, degree 3", BINARY, "log", *exactly(3, 2, [1], [0, 2])),
    ("perfect matching, degree 4", BINARY, "log", *exactly(4, 2, [1], [0, 2])),
    ("2-factor, degree 4", BINARY, "log", *exactly(4, 2, [2], [0, 2])),
    ("orientation with one edge out, degree 3", BINARY, "log", *exactly(3, 2, [1], [1])),
    ("3 edge colours, degree 3", FEW_EDGES, "log", *edge_colouring(3, 3)),
    ("4 edge colours, degree 3", FEW_EDGES, "log", *edge_colouring(3, 4)),
    ("5 edge colours, degree 3", EDGES, "log*", *edge_colouring(3, 5)),
    ("4 edge colours, degree 4", FEW_EDGES, "log", *edge_colouring(4, 4)),
    ("5 edge colours, degree 4", FEW_EDGES, "log", *edge_colouring(4, 5)),
    ("6 edge colours, degree 4", FEW_EDGES, "log", *edge_colouring(4, 6)),
    ("weak 2-colouring, degree 3", NAOR, "constant", ["R^2 r", "B^2 b"], ["R [RBb]", "r [Bb]", "B^2"]),
    ("weak 2-colouring, degree 4", NAOR, "log*", ["R^3 r", "B^3 b"], ["R [RBb]", "r [Bb]", "B^2"]),
    ("weak 2-colouring, degree 5", NAOR, "constant", ["R^4 r", "B^4 b"], ["R [RBb]", "r [Bb]", "B^2"]),
    ("2-partial 2-colouring, degree 3", PARTIAL, "log", ["R r^2", "B b^2"], ["R [RBb]", "r [Bb]", "B^2"]),
    ("2-partial 2-colouring, degree 4", PARTIAL, "log", ["R^2 r^2", "B^2 b^2"], ["R [RBb]", "r [Bb]", "B^2"]),
    ("homomorphism to the 5-cycle, degree 3", HOMO, "log", *homomorphism(3, "AB BC CD DE EA")),
    ("homomorphism to the 7-cycle, degree 3", HOMO, "log", *homomorphism(3, "AB BC CD DE EF FG GA")),
    ("1-arbdefective 2 colours, degree 3", ARB, "easy", ["A^2 X", "B^2 X"], ["X [ABX]", "A B"]),
    ("1-arbdefective 2 colours, degree 4", ARB, "log", ["A^3 X", "B^3 X"], ["X [ABX]", "A B"]),
    ("heads of triples, degrees 3 and 3", BINARY, "constant", ["[IO]^3"], ["O I^2"]),
    ("hypersinkless orientation, degrees 3 and 3", HALL, "log", ["O [IO]^2"], ["O I^2"]),
    ("hypersinkless orientation, degrees 4 and 3", HALL, "log", ["O [IO]^3"], ["O I^2"]),
    ("perfect matching of triples, degrees 3 and 3", BINARY, "log", *exactly(3, 3, [1], [0, 3])),
    ("weak splitting, degrees 3 and 3", BINARY, "log", *exactly(3, 3, [1, 2], [0, 3])),
    ("2 colours of hypergraphs, degrees 3 and 3", BINARY, "log", *exactly(3, 3, [0, 3], [1, 2])),
    ("perfect matching with sides, degrees 3 and 3", BINARY, "log", *exactly(3, 3, [1], [1])),
    ("7 colours of hypergraphs, degrees 3 and 3", LINIAL, "log*", *colouring(3, 7, 3)),
    ("3 colours of hypergraphs, degrees 3 and 3", BINARY, "log", *colouring(3, 3, 3)),
    ("maximal matching with sides, degrees 2 and 2", MATCHING, "constant", *two_sided(2)),
    ("maximal matching with sides, degrees 3 and 3", MATCHING, "constant", *two_sided(3)),
    ("maximal matching with sides, degrees 4 and 4", MATCHING, "constant", *two_sided(4)),
    ("no sinks, no sources, degree 4", SINKLESS, "log", *exactly(4, 2, [1, 2, 3], [1])),
    ("no sinks, no sources, degree 5", SINKLESS, "log", *exactly(5, 2, [1, 2, 3, 4], [1])),
    ("balanced orientation, degree 4", BINARY, "log", *exactly(4, 2, [2], [1])),
    ("2 or 3 edges out, degree 5", BINARY, "log", *exactly(5, 2, [2, 3], [1])),
    ("at least 2 edges out, degree 5", BINARY, "log", *exactly(5, 2, [2, 3, 4, 5], [1])),
    ("an even number of edges out, degree 4", BINARY, "log", *exactly(4, 2, [0, 2, 4], [1])),
    ("no or all edges out, degree 3", BINARY, "log", *exactly(3, 2, [0, 3], [1])),
    ("0, 1 or 3 edges out, degree 3", BINARY, "log", *exactly(3, 2, [0, 1, 3], [1])),
    ("perfect matching, degree 5", BINARY, "log", *exactly(5, 2, [1], [0, 2])),
    ("3-factor, degree 5", BINARY, "log", *exactly(5, 2, [3], [0, 2])),
    ("edge splitting, degree 4", BINARY, "log", *exactly(4, 2, [1, 2, 3], [0, 2])),
    ("even edge splitting, degree 4", BINARY, "log", *exactly(4, 2, [2], [0, 2])),
    ("perfect matching of triples, degrees 4 and 3", BINARY, "log", *exactly(4, 3, [1], [0, 3])),
    ("weak splitting, degrees 4 and 3", BINARY, "log", *exactly(4, 3, [1, 2, 3], [0, 3])),
    ("2 colours of hypergraphs, degrees 4 and 3", BINARY, "log", *exactly(4, 3, [0, 4], [1, 2])),
    ("2 colours of hypergraphs, degrees 4 and 4", BINARY, "log", *exactly(4, 4, [0, 4], [1, 2, 3])),
    ("hypersinkless orientation, degrees 5 and 3", HALL, "log", *exactly(5, 3, [1, 2, 3, 4, 5], [1])),
    ("8 edge colours, degree 5", FEW_EDGES, "log", *edge_colouring(5, 8)),
    ("6 colours, degree 5", LINIAL, "log*", *colouring(5, 6)),
    ("2 colours, degree 4", SINKLESS, "log", *colouring(4, 2)),
    ("homomorphism to Petersen's graph, degree 3", HOMO, "log", *homomorphism(3, "AB BC CD DE EA AF BG CH DI EJ FH HJ JG GI IF")),
    ("homomorphism to two triangles at an edge, degree 3", HOMO, "log", *homomorphism(3, "AB AC BC BD CD")),
    ("homomorphism to the 7-cycle, degree 4", HOMO, "log", *homomorphism(4, "AB BC CD DE EF FG GA")),
    ("homomorphism to the wheel of 5, degree 3", HOMO, "log*", *homomorphism(3, "AB BC CD DE EA HA HB HC HD HE")),
    ("homomorphism to the 7-cycle, paths", PATHS, "log*", *homomorphism(2, "AB BC CD DE EF FG GA")),
    ("weak 3-colouring, paths", NAOR, "log*", *defective(2, 3, 1)),
    ("weak 3-colouring, degree 3", NAOR, "constant", *defective(3, 3, 1)),
    ("weak 2-colouring, degree 6", NAOR, "log*", *defective(6, 2, 1)),
    ("2-partial 2-colouring, degree 5", PARTIAL, "log", *defective(5, 2, 2)),
    ("2-partial 3-colouring, degree 3", PARTIAL, "log*", *defective(3, 3, 2)),
    ("3-partial 2-colouring, degree 4", PARTIAL, "log", *defective(4, 2, 3)),
    ("3-partial 2-colouring, degree 5", PARTIAL, "log", *defective(5, 2, 3)),
    ("1-arbdefective 2 colours, degree 5", ARB, "log", *arbdefective(5, 2, 1)),
    ("2-arbdefective 2 colours, degree 5", ARB, "easy", *arbdefective(5, 2, 2)),
    ("1-arbdefective 3 colours, degree 4", ARB, "easy", *arbdefective(4, 3, 1)),
    ("1-arbdefective 3 colours, degree 6", ARB, "log", *arbdefective(6, 3, 1)),
    ("maximal matching, degree 5", LINIAL, "log*", *matching(5)),
    ("maximal 2-matching, degree 3", LINIAL, "easy", *matching(3, 2)),
    ("maximal 2-matching, degree 4", LINIAL, "easy", *matching(4, 2)),
    ("maximal matching with sides, degrees 5 and 5", MATCHING, "constant", *two_sided(5)),
    ("maximal 2-matching with sides, degrees 3 and 3", MATCHING, "constant", ["M^2 O", "M P^2", "P^3"], ["M^2 [OP]", "M O^2", "O^3"]),
    ("maximal independent set, degree 5", LINIAL, "log*", *independent(5)),
    ("1-outdegree dominating set, degree 3", ARB, "easy", *to_one_side(3)),
    ("1-outdegree dominating set, degree 4", ARB, "easy", *to_one_side(4)),
    ("1-degree dominating set, degree 3", ARB, "log*", *dominating(3, 1)),
    ("2-degree dominating set, degree 3", ARB, "constant", *dominating(3, 2)),
    ("3-degree dominating set, degree 4", ARB, "log*", *dominating(4, 3)),
    ("perfect code, degree 4", REGULAR, "log", ["D^4", "P O^3"], ["D P", "O^2"]),
    ("perfect code, paths", PATHS, "log", ["D^2", "P O"], ["D P", "O^2"]),
    ("2-ruling set, degree 4", RULING, "log*", ["M^4", "P O^3", "Q U^3"], ["M [POU]", "Q O", "O [OU]", "U^2"]),
    ("3-ruling set, paths", RULING, "log*", ["M^2", "P O", "Q U", "R V"], ["M [POUV]", "Q O", "R U", "O [OUV]", "U [UV]", "V^2"]),
    ("4 colours that differ within 2 rounds, paths", LINIAL, "log*", *two_apart()),
    ("maximal independent set of hypergraphs, degrees 3 and 3", HYPER, "easy", ["M^3", "P O^2"], ["P M^2", "O [MO]^2"]),
    ("maximal matching of triples, degrees 3 and 3", HYPER, "log*", ["M O^2", "P^3"], ["M^3", "O [OP]^2"]),
    ("4 colours, no triple of one, degrees 3 and 3", HYPER, "easy", [f"{x}^3" for x in "1234"],
     [" ".join(chosen) for chosen in combinations_with_replacement("1234", 3) if len(set(chosen)) > 1]),
    ("superweak 2-colouring, degree 3", SPEEDUP, "constant", *superweak()),
    ("greedy colouring, degree 3", LINIAL, "log*", *greedy_colouring()),
    ("2 colours, exactly one neighbour of one's own, degree 3", PARTIAL, "log", ["A^2 X", "B^2 Y"], ["A B", "X^2", "Y^2"]),
]

# What a published class leaves room for.
LINES = {
    "constant": ("constant", "more than"),
    "log*": ("order log* N", "at least order log* N", "more than"),
    "easy": ("constant", "order log* N", "at least order log* N", "more than"),
    "log": ("at least order log N", "order log N", "order N", "at least order log* N", "more than"),
}
STAR = ", at most order log* N"
SHOWN = {"constant": "constant", "log*": "order log\\* n", "easy": "at most order log\\* n", "log": "at least order log n"}


def agrees(published, line):
    """Whether the line on identifiers leaves room for the published class: what it says from below, and the bound above that stands behind it."""
    if published == "log" and line.endswith(STAR):
        return False
    line = re.sub(r", at most order log\*? N$", "", line)
    return any(line == told or told in ("constant", "more than") and line.startswith(told) for told in LINES[published])


def is_weaker(published, line):
    """Whether it leaves room for other classes too."""
    return line.startswith(("more than", "at least order log* N")) and not (published == "easy" and line.endswith(STAR))


def text_of(active, passive):
    return "\n".join([*active, "", *passive]) + "\n"


def settled(explore, words, text):
    """The claim, the words that show it, the class and the words that show that, and the seconds of processor time."""
    start = resource.getrusage(resource.RUSAGE_CHILDREN).ru_utime
    run = subprocess.run([explore, "settle", *words], input=text, stdout=subprocess.PIPE, text=True)
    if run.returncode not in (0, 1):
        sys.exit(f"table.py: exit code {run.returncode}: {run.stdout}")
    seconds = resource.getrusage(resource.RUSAGE_CHILDREN).ru_utime - start
    claim, shown = run.stdout.split("with identifiers: ")
    (claim, *by), (known, *known_by) = claim.splitlines(), shown.splitlines()
    return claim, words_in(by), known, words_in(known_by), seconds


def words_in(lines):
    return "; ".join(f"`{line.removeprefix('by: ')}`" for line in lines if line.startswith("by: "))


def write_texts(folder):
    for name, _, _, active, passive in PROBLEMS:
        short = "-".join(re.findall("[a-z0-9]+", name.lower()))
        (pathlib.Path(folder) / f"{short}.txt").write_text(text_of(active, passive))


def write_table(explore, words):
    print("# What is published, and what `settle` says\n")
    print("Made by `examples/literature/table.py`, which has each problem's text and says what the columns are; `check.sh` beside")
    print("it runs the words that show an answer. Seconds are of processor time, beside other work.\n")
    print("| Problem | Published by | Published class | `settle` | by | with identifiers | by | s |")
    print("|---|---|---|---|---|---|---|---|")
    wrong, weaker = 0, []
    for name, source, published, active, passive in PROBLEMS:
        claim, by, known, known_by, seconds = settled(explore, words, text_of(active, passive))
        fine = agrees(published, known)
        wrong += not fine
        if fine and is_weaker(published, known):
            weaker.append(name)
        shown = known.replace("*", "\\*") + ("" if fine else " **contradicts**")
        print(f"| {name} | {source} | {SHOWN[published]} | {claim} | {by} | {shown} | {known_by} | {seconds:.1f} |", flush=True)
    found = len(PROBLEMS) - wrong - len(weaker)
    print(f"\nProblems: {len(PROBLEMS)}. The class that is published is found for {found} of them; contradicted: {wrong}.", end="")
    print(" Weaker than published:\n\n" + "\n".join(f"- {name}" for name in weaker) if weaker else "")
    sys.exit(1 if wrong else 0)


def main(words):
    if len(words) == 2 and words[0] == "--texts":
        write_texts(words[1])
    elif 1 <= len(words) <= 2 and not words[0].startswith("-"):
        write_table(words[0], words[1:])
    else:
        sys.exit(__doc__)


if __name__ == "__main__":
    main(sys.argv[1:])
