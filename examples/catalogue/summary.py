#!/usr/bin/env python3
"""The summary of tables that settle.sh made, in Markdown.

    examples/catalogue/summary.py [TABLE..]

A table is named by the number of labels and the degrees of active and passive nodes, as 3-3-2.tsv, or 3-3-2.tsv.xz where it is
compressed. Without a TABLE: those of this folder.
"""
import collections
import lzma
import pathlib
import re
import sys

sys.dont_write_bytecode = True
import paths

HERE = pathlib.Path(__file__).resolve().parent
sys.path.append(str(HERE.parent.parent / "tools"))
import wrap

NEVER = "not solvable in any number of rounds"
BETWEEN = "solvable, between two bounds"
TRIED = ("`rounds 8`, `fixed 4 0`, `closure`, `cover 64`, `closure 2`, `merge X Y | explore closure`, `closure` with each diagram of one edge, where the first "
         "four derived problems are small `cycle 8 1 300`, `longest 8 12`, `shortest 12 8`")
INPUTS = ("`both`", "`sides`", "`edges`", "`colouring`, 4")
HEAD = """# All small problems, up to the names of their labels

`problems.py` writes the problems of some labels in which each label stands on both sides, each once, with its number;
`settle.sh` runs `explore settle` on them, over many processors or machines; `given.sh` asks what is known given input
problems; `check.sh` draws 200 lines, runs what they name and has it judged; `bounds.py` and `hops.py` look for
certificates that say more; `summary.py` wrote this page from the tables:

    examples/catalogue/problems.py 3 3 2 > LIST
    examples/catalogue/settle.sh EXPLORE LIST examples/catalogue/3-3-2.tsv
    examples/catalogue/certificates.py RE EXPLORE examples/catalogue/3-3-2.tsv > TABLE
    examples/catalogue/given.sh RE EXPLORE examples/catalogue/3-3-2.tsv examples/catalogue/3-3-2.given
    examples/catalogue/check.sh RE EXPLORE
    examples/catalogue/summary.py > examples/catalogue/README.md

A table holds a line for each problem: its number, its active and passive configurations, the first line of the answer
(in hops, and in rounds of the graph where passive nodes are edges), the words that show it, the class with unique
identifiers, and the words that show this. The answer is for nodes that know nothing but port numbers, on trees; the
class is for nodes with unique identifiers below N, as N grows, on finite forests of N nodes: `constant`,
`order log* N`, `order log N`, `order N`, or a bound below and one above, of which `at least order log* N` is less a
constant. An *at least* holds of problems of higher orders, too; which it is, no column says. Bounds above of the order
of log N, or of log* N on paths, are those of a flexible set of labels: `explore flexible` finds one; `flexible.py`
decides it by the definitions, knowing nothing else. But for these and for `order N` the class holds on infinite trees,
too. All is proved of what `settle` says; where bounds come from certificates, `certificates.py` writes them, as
`re check` accepts these. What is solved in k hops may use the orientation of each edge that its ports give; from unique
identifiers one comes in a round.

Words are those that `settle` names now: a relaxation (`relaxed 16`) where `closure` shows the same later, in degrees
3 and 2 `greedy` for each class of order log* N and for two bounds above of that order, on paths a flexible set. Made
before these were tried, the tables had other words, and the same answers and, but for those two bounds, classes; of the
7,697 problems of 3 labels and degrees 3 and 2 `flexible.py` finds a flexible set in 1,027 of the 1,191 that no number
of rounds solves, and one level of labels in the other 164. Lines of two tables are those of an earlier run, in the new
words: of 3 labels in degrees 3 and 3 the 23 between two bounds, of 4 labels on paths about 27,000 that say *exactly*,
of which 240 drawn ones were asked again.

Bounds that no words find stand in `certificates.tar.xz`, and `certificates.py` puts them into the table. An upper one
goes from a derived problem to a solved problem that is enough for it (`explore bridge`), or to sets of its labels at
the ports of few nodes; a lower one to a problem that it solves in 0 hops, as where labels may stand for others around
passive nodes, and at the last step to sets without a choice. Of the 31 `bounds.py` makes three again, each in 3 seconds: the upper bounds of 1782
and 4019, by a problem that has fewer configurations, and the lower one of 4829. `hops.py` makes 15, with a SAT solver (cadical) that tells of 1, 2 or
3 hops of a derived problem, 5368 in five minutes and each other in half of one: the lower bounds of 1826, 2658, 5368, 6065, 6099, 7074, 7144, 7145
and 7340, the upper ones of 4828, 5368 and 7217, and longer ones as good for 4333, 4621 and 7254. The lower ones of 3440, 6020 and 7160 are of the
same search by a faster program, and that of 6138 of `hops.py` as it was before. The programs that found the other 9 aren't held.

Where 8 hops are too few and two bounds don't meet, `settle` counts up to 9, three hops ahead of a step that passes a limit: clauses that follow from
so many being enough can't be satisfied. Lines that stay open were asked `explore rounds 12`, too, which costs up to two minutes
(`certificates.py`). Certificates of as many steps weren't found: on the way of 3901 the seventh problem has 132 labels where 128 may stand, on that
of 3350 it has 48,559 maximal rows where 1,024 may. The solver says more: by it 1692 and 6099 take exactly 8 hops.

Given an input problem (`both`, an orientation by which edges lead into each active node and out of it; two `sides`; a
colouring of the `edges`; a proper `colouring` with 4 colours), `explore settle` answers, or `explore given` of the
fixed point that is known of the problem alone.
"""


def lines_of(path):
    with lzma.open(path, "rt") if path.suffix == ".xz" else open(path) as table:
        return [line.rstrip("\n").split("\t") for line in table]


def title_of(path):
    labels, active, passive = path.name.split(".")[0].split("-")
    return int(labels), int(active), int(passive)


def known_alone(claim):
    """The answer without rounds of the graph, and without the model, which the head of the column says."""
    return re.sub(r" \([^)]*\)", "", claim).removesuffix(" with port numbers alone")


def kind_of(claim):
    """The answer, without the numbers of what is open: solvable in some number of rounds, or not even that is known."""
    claim = known_alone(claim)
    if claim == NEVER or claim.startswith("exactly"):
        return claim
    return BETWEEN if "at most" in claim else "open"


def words_of(by):
    """The words that show an answer, without the names of labels."""
    by = re.sub(r"diagram \S+ \S+", "diagram X Y", re.sub(r"merge \S+ \S+", "merge X Y", by))
    return by.replace("|", "\\|")


def class_of(known):
    """The class with identifiers, without numbers of rounds; of what no bound below but a number of rounds is known, it is open."""
    return "constant" if known.startswith("constant") else re.sub(r"^more than \d+", "open", known)


def by_kind(lines):
    """How many problems have each answer and class, and by which words."""
    counts = collections.Counter()
    for _, _, claim, by, known, shown in lines:
        kind = kind_of(claim)
        words = "; ".join(f"`{words_of(it)}`" for it in (by, shown) if it)
        counts[(kind, class_of(known), words if kind == NEVER else "")] += 1
    order = {"open": 3, BETWEEN: 2, NEVER: 1}
    return sorted(counts.items(), key=lambda it: (order.get(it[0][0], 0), it[0][0] if it[0][0] != NEVER else "", it[0][1], -it[1]))


def counts_part(path, lines):
    labels, active, passive = title_of(path)
    yield f"## {labels} labels, active nodes of degree {active}, passive nodes of degree {passive}: {len(lines)} problems"
    yield ""
    yield "| With port numbers alone | With unique identifiers | By | Problems |"
    yield "|---|---|---|---|"
    for (kind, known, by), count in by_kind(lines):
        yield f"| {kind} | {known} | {by} | {count} |"
    yield ""


def is_constant(problem):
    """Whether one side allows everything, or one label alone may stand everywhere."""
    active, passive = (side.split() for side in problem.split(" / "))
    degrees = len(active[0]), len(passive[0])
    whole = len(active) == degrees[0] + 1 or len(passive) == degrees[1] + 1
    return whole or any(label * degrees[0] in active and label * degrees[1] in passive for label in "AB")


def known_of(answer):
    """What is known given an input problem, in the words of the page; what stays open is one kind."""
    return "open" if answer.startswith(("more", "at most", "?")) else answer.removeprefix("exactly ")


def given_part(path, lines):
    """What is known of the problems of a table given input problems, by what is known of them alone, where given.sh made a table of that."""
    table = next((it for it in (path.with_name(f"{path.name.split('.')[0]}.given{end}") for end in ("", ".xz")) if it.exists()), None)
    if not table:
        return
    counts = collections.defaultdict(lambda: [collections.Counter() for _ in INPUTS])
    for (number, _, claim, *_), (same, *answers) in zip(lines, lines_of(table), strict=True):
        assert number == same
        for counter, answer in zip(counts[kind_of(claim)], answers):
            counter[known_of(answer)] += 1
    yield "Of these, given input problems (hops that are enough, or `never`, and how many problems):"
    yield ""
    yield f"| Alone | {' | '.join(INPUTS)} |"
    yield f"|---|{'---|' * len(INPUTS)}"
    order = lambda it: (it.startswith("exactly"), it == NEVER, it)
    for kind in sorted(counts, key=order, reverse=True):
        if kind != "exactly 0":
            cells = [", ".join(f"{it}: {counter[it]}" for it in sorted(counter)) for counter in counts[kind]]
            yield f"| {kind} | {' | '.join(cells)} |"
    yield ""


def binary_part(tables):
    yield "## Two labels, beside the published classification"
    yield ""
    yield "Balliu, Brandt, Efron, Hirvonen, Maus, Olivetti and Suomela (Classification of distributed binary labeling problems, DISC 2020) show"
    yield "that each problem of 2 labels on trees has, for deterministic algorithms with unique identifiers, one of the complexities O(1), Θ(log n)"
    yield "and Θ(n), or is unsolvable; none lies between O(1) and Θ(log n). Here each is solvable in exactly 0 or 1 hops, or in no number of rounds,"
    yield "and none is open. In all tables the first are those where one side allows everything, or one label alone may stand everywhere: such"
    yield "a problem is O(1) there too. Each of the others is here of order log N with unique identifiers, by a fixed point and a flexible set of labels, or"
    yield "of order N, since it has one level of labels alone; a problem without a solution is in no table, since each label stands on both sides."
    yield ""
    yield "| Degrees | Problems | exactly 0 | exactly 1 | constant | order log N | order N | open | one side whole, or one label alone |"
    yield "|---|---|---|---|---|---|---|---|---|"
    for path, lines in tables:
        _, active, passive = title_of(path)
        kinds = collections.Counter(kind_of(it[2]) for it in lines)
        classes = collections.Counter(class_of(it[4]) for it in lines)
        constant = {it[0] for it in lines if is_constant(it[1])}
        solved = {it[0] for it in lines if class_of(it[4]) == "constant"}
        same = "the same problems as those that are constant" if constant == solved else f"differs: {sorted(constant ^ solved, key=int)}"
        open_ones = len(lines) - classes["constant"] - classes["order log N"] - classes["order N"]
        yield (f"| {active}, {passive} | {len(lines)} | {kinds['exactly 0']} | {kinds['exactly 1']} | {classes['constant']} | "
               f"{classes['order log N']} | {classes['order N']} | {open_ones} | {len(constant)}: {same} |")
    yield ""


def paths_part(tables):
    """The problems on paths beside their class by an automaton, which paths.py computes."""
    if not tables:
        return
    yield "## Paths, beside their classification by automata"
    yield ""
    yield "On paths (active and passive nodes of degree 2) the class of a problem can be read off an automaton (Chang, Studený and Suomela, Distributed"
    yield "graph problems through an automata-theoretic lens, SIROCCO 2021): `paths.py` does so, knowing no step, no certificate and no level of labels."
    yield "How many problems have which class by the automaton and by `settle`:"
    yield ""
    yield "| Labels | By the automaton | By `settle`, with unique identifiers | Problems |"
    yield "|---|---|---|---|"
    for path, lines in tables:
        counts = collections.Counter((paths.class_of(it[1]), class_of(it[4])) for it in lines)
        for (automaton, known), count in sorted(counts.items()):
            yield f"| {title_of(path)[0]} | {automaton} | {known} | {count} |"
    yield ""


def open_part(tables):
    parts = [(path, [line for line in lines if kind_of(line[2]) in ("open", BETWEEN)]) for path, lines in tables]
    if not any(rest for _, rest in parts):
        return
    yield "## Open problems"
    yield ""
    yield "With the best bounds that were found, in hops: of those with two, the exact number is open, and of the others whether any number of rounds"
    yield f"solves them. On each of them was tried: {TRIED}."
    yield ""
    for path, rest in parts:
        if rest:
            labels, active, passive = title_of(path)
            yield f"{labels} labels, degrees {active} and {passive}: {len(rest)}"
            yield ""
            yield "| Number | Problem | Known | By |"
            yield "|---|---|---|---|"
            for number, problem, claim, by, *_ in rest:
                yield f"| {number} | {problem} | {known_alone(claim)} | `{by}` |"
            yield ""


def main(words):
    paths = [pathlib.Path(word) for word in words] or sorted([*HERE.glob("*.tsv"), *HERE.glob("*.tsv.xz")])
    tables = sorted(((path, lines_of(path)) for path in paths), key=lambda it: title_of(it[0]))
    lines = [HEAD]
    for path, rows in tables:
        lines += counts_part(path, rows)
        lines += given_part(path, rows)
    lines += binary_part([it for it in tables if title_of(it[0])[0] == 2 and title_of(it[0])[1] > 2])
    lines += paths_part([it for it in tables if title_of(it[0])[1:] == (2, 2)])
    lines += open_part(tables)
    print(wrap.wrapped("\n".join(lines)).rstrip("\n"))


if __name__ == "__main__":
    if sys.argv[1:2] == ["--help"]:
        sys.exit(__doc__)
    main(sys.argv[1:])
