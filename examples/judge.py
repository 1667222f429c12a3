#!/usr/bin/env python3
"""Judges a text of evidence, as `explore judge` does, by the definitions of docs/DEFINITIONS.md and docs/FORMATS.md alone.

    examples/judge.py < EVIDENCE

It prints the lines of `judge` and ends with its exit code. It is a second program, for who would rather not trust the first one alone: it has no code
in common with it, and where a definition says that there is something, it tries. So it is slow, and knows no limits of tries. Behind `clause END` of a
part with an input problem it leaves out what `fit` says. judges.py beside it compares both programs.
"""
import functools
import itertools
import pathlib
import re
import sys

import evidence_texts as texts
from evidence_texts import Problem, Refused, fault, number_of

sys.path.insert(0, str(pathlib.Path(__file__).parent / "catalogue"))
import flexible  # noqa: E402


@functools.cache
def beginnings(side):
    """All multisets that go on to configurations of the side."""
    return {part for config in side for size in range(len(config) + 1) for part in itertools.combinations(config, size)}


def choices_in(sets, side):
    """The choices of one label of each set that are configurations of the side, as ascending tuples."""
    found = {()}
    for labels in sets:
        found = {tuple(sorted((*one, label))) for one in found for label in labels} & beginnings(side)
    return found


def all_choices(sets):
    """All choices of one label of each set, as ascending tuples."""
    found = {()}
    for labels in sets:
        found = {tuple(sorted((*one, label))) for one in found for label in labels}
    return found


def is_good(sets, side):
    """Whether all choices are configurations of the side."""
    return all_choices(sets) <= side


@functools.cache
def first_sets(side):
    """The sets that may be the first one of a row, with all labels that fit, and for each what the other ones may choose."""
    behind = {}
    for config in side:
        for at, label in enumerate(config):
            behind.setdefault(label, set()).add(config[:at] + config[at + 1:])
    meets = fresh = {frozenset(rest) for rest in behind.values()}
    while fresh:
        fresh = {meet & rest for meet in fresh for rest in behind.values()} - meets - {frozenset()}
        meets = meets | fresh
    return [(frozenset(label for label, rest in behind.items() if rest >= meet), meet) for meet in meets]


def closed_rows(side, degree, least=1):
    """Good rows, with sets in the order of their numbers and from this one on, each with all labels that fit behind those before: all maximal ones, and others."""
    return [()] if degree == 0 else [(first, *row) for first, meet in first_sets(side) if number_of(first) >= least
                                     for row in closed_rows(meet, degree - 1, number_of(first))]


def maximal_rows(problem):
    """The good rows of the passive side to which no label can be added, in order. So each of their sets has all labels that fit the other ones."""
    side, labels = problem.sides[1], frozenset(range(len(problem.names)))

    def can_have(rest, label):
        return all(tuple(sorted((*one, label))) in side for one in rest)

    def is_maximal(row):
        rests = [all_choices(row[:at] + row[at + 1:]) for at in range(len(row))]
        return not any(can_have(rest, label) for rest, chosen in zip(rests, row) for label in labels - chosen)

    rows = filter(is_maximal, set(closed_rows(side, problem.degrees[1])))
    return sorted(rows, key=lambda row: [number_of(labels) for labels in row])


def is_zero(problem):
    """Whether any multiset of labels of some active configuration is a passive one."""
    return any(is_good([set(config)] * problem.degrees[1], problem.sides[1]) for config in problem.sides[0])


def lower_clause(before, problem, rows, images, by_rows):
    """The first of the clauses L2 to L5 that a step doesn't meet."""
    if rows != maximal_rows(before):
        return "L2"
    sets = sorted({labels for row in rows for labels in row}, key=number_of)
    if len(images) != len(rows) if by_rows else [labels for labels, _ in images] != sets:
        return "L3"
    if by_rows:
        becomes = {labels: {image[at] for row, image in zip(rows, images) for at in range(len(row)) if row[at] == labels} for labels in sets}
    else:
        becomes = dict(images)
        images = [[min(becomes[labels]) for labels in row] for row in rows]
    if any(tuple(sorted(image)) not in problem.sides[0] for image in images):
        return "L4"
    over = {label: {new for labels in sets if label in labels for new in becomes[labels]} for label in range(len(before.names))}
    return None if all(is_good([over[label] for label in config], problem.sides[1]) for config in before.sides[0]) else "L5"


def upper_clause(before, problem, images):
    """The first of the clauses U2 to U4 that a step doesn't meet."""
    if [min(label) for label, _ in images] != list(range(len(problem.names))) or not all(labels for _, labels in images):
        return "U2"
    sets = [labels for _, labels in images]
    if not all(is_good([sets[label] for label in config], before.sides[1]) for config in problem.sides[0]):
        return "U3"
    return None if all(choices_in([sets[label] for label in config], before.sides[0]) for config in problem.sides[1]) else "U4"


def judge_steps(bound):
    """Refuses a certificate by the first step that fails, with its first clause."""
    for number, (before, problem, (rows, images, by_rows)) in enumerate(zip(bound.problems, bound.problems[1:], bound.steps), 1):
        if problem.degrees != before.degrees[::-1]:
            clause = "U1" if bound.kind == "upper" else "L1"
        elif bound.kind == "upper":
            clause = upper_clause(before, problem, images)
        else:
            clause = lower_clause(before, problem, rows, images, by_rows)
        if clause:
            raise Refused(f"refused: step {number}, clause {clause}")


def judge_back(bound):
    """Refuses a fixed point whose renaming doesn't make its last problem the one to which it goes back."""
    last, earlier = bound.problems[-1], bound.problems[bound.back]
    new = [min(labels) for _, labels in bound.pairs]
    if [min(labels) for labels, _ in bound.pairs] != list(range(len(last.names))) or len(set(new)) < len(new) or last.degrees != earlier.degrees \
            or earlier.sides != tuple({tuple(sorted(new[label] for label in config)) for config in side} for side in last.sides):
        raise Refused("refused: clause BACK")


def judge_certificate(text):
    lines = texts.lines_of(text)
    if lines and not text.endswith("\n") and lines[-1].text.rstrip(texts.BLANKS) != "== end":
        texts.read_certificate(lines[:-1])
    bound = texts.read_certificate(lines)
    judge_steps(bound)
    if is_zero(bound.problems[-1]) != (bound.kind == "upper"):
        raise Refused("refused: clause END")
    if bound.kind == "fixed":
        judge_back(bound)
    return bound.problems[0], [(bound.kind, len(bound.steps))]


def judge_input(problem, given):
    """Refuses what is no input problem of this problem."""
    active, passive = ({label for config in side for label in config} for side in given.sides)
    why = [label_text(given.names[label]) for label in sorted(active ^ passive)] or ["empty"] * (not active)
    if given.degrees != problem.degrees or why:
        raise Refused(f"no: not an input: {'degrees' if given.degrees != problem.degrees else why[0]}")


def label_text(name):
    """A label as problems write it."""
    return name if len(name) == 1 and name != "_" else f"({name})"


def is_zero_given(problem, given):
    """Whether labels can be laid on the places of the active input configurations, so that what may then stand around passive nodes is allowed."""
    configs = sorted(given.sides[0], key=lambda config: config[::-1])
    orders = {order for labels in problem.sides[0] for order in itertools.permutations(labels)}

    def walk(at, sets):
        if at == len(configs):
            return True
        beside = [row for row in given.sides[1] if set(row) & set(configs[at])]
        for more in {tuple(labels.union(new for place, new in zip(configs[at], order) if place == label) for label, labels in enumerate(sets)) for order in orders}:
            if all(is_good([more[label] for label in row], problem.sides[1]) for row in beside) and walk(at + 1, more):
                return True
        return False

    return walk(0, (frozenset(),) * len(given.names))


def few_colours(degrees, side):
    """The proper colouring of active nodes, or of passive ones, with one colour more than such a node meets others, named as `input` does; None beyond 16."""
    own, other = degrees[side], degrees[1 - side]
    count = own * (other - 1) + 1
    names = tuple(f"{number:0{1 if count < 10 else 2}}" for number in range(1, count + 1))
    sides = frozenset((label,) * own for label in range(count)), frozenset(itertools.combinations(range(count), other))
    return Problem(names, degrees, sides[::-1] if side else sides) if count <= 16 else None


def judge_given(lines, at):
    """A bound that holds given an input problem, where it says something of the problem alone: one above does, where that is few colours."""
    bound, given = texts.read_given(lines, at)
    judge_input(bound.problems[0], given)
    judge_steps(bound)
    last = len(bound.steps)
    if is_zero_given(bound.problems[-1], given.exchanged(last)) != (bound.kind == "upper"):
        raise Refused(f"refused: given that input, step {last}, clause END")
    if bound.kind == "fixed":
        judge_back(bound)
    is_few = given in [few_colours(given.degrees, side) for side in (0, 1)]
    return bound.problems[0], [({"lower": "lower", "fixed": "never", "upper": "coloured" if is_few else "nothing"}[bound.kind], last)]


def has_solution(problem, graph):
    """Whether labels solve the problem on the graph: by trying, at the node with the fewest lists of labels that go on to configurations."""
    where = {end: passive for passive, ends in enumerate(graph) for end in ends}
    orders = sorted({order for labels in problem.sides[0] for order in itertools.permutations(labels)})

    def beside(around, node, order):
        """What stands around passive nodes with these labels of the node, too; None where that goes on to no configuration."""
        more = dict(around)
        for port, label in enumerate(order):
            passive = where[node, port]
            more[passive] = tuple(sorted((*more.get(passive, ()), label)))
            if more[passive] not in beginnings(problem.sides[1]):
                return None
        return more

    def walk(around, left):
        fits = {node: [more for order in orders if (more := beside(around, node, order))] for node in left}
        if not fits:
            return True
        best = min(fits, key=lambda node: len(fits[node]))
        return any(walk(more, left - {best}) for more in fits[best])

    return walk({}, frozenset(node for node, _ in where))


def judge_graph(lines, at):
    """A graph on which the problem has no solution, maybe with one of an input problem."""
    if texts.place_of(lines, "given") is not None:
        problem, given, graph, labels = texts.read_labelled(lines)
        judge_input(problem, given)
        around = [labels, [[labels[node][port] for node, port in ends] for ends in graph]]
        for title, side, nodes in zip(("active", "passive"), given.sides, around):
            for number, node in enumerate(nodes, 1):
                if tuple(sorted(node)) not in side:
                    raise Refused(f"no: not a solution of the input: {title} node {number}")
    else:
        problem = texts.read_whole_problem(lines[:at], at + 1)
        graph = texts.read_graph(lines[at + 1:], len(lines) + 1, problem.degrees)
    if has_solution(problem, graph):
        raise Refused("yes:")
    return problem, [("never", 0)]


def judge_flexible(lines, at):
    """A set of labels between any two of which paths of one length lead, whichever side the first node is of."""
    problem, chosen = texts.read_whole_problem(lines[:at], at + 1), None
    for line in lines[at + 1:]:
        if line.is_section() or chosen is not None:
            raise fault(line.number) if line.is_section() else fault(line.number, "bad entry")
        chosen = frozenset(() if line.is_empty() else texts.labels_of(problem)(line))
    if chosen is None:
        raise Refused(texts.EARLY, 3)
    if not chosen or not flexible.is_flexible(problem.sides, chosen, chosen):
        raise Refused("no: not flexible")
    return problem, [("flexible", 0)]


def judge_length(lines, at):
    """The number of levels of labels."""
    problem = texts.read_whole_problem(lines[:at], at + 1)
    if len(lines) != at + 2 or not re.fullmatch("0|[1-9][0-9]{0,8}", lines[-1].text):
        raise fault(at + 2, "bad entry")
    length = flexible.levels_of(problem.sides, len(problem.names))
    if length != int(lines[-1].text):
        raise Refused("no: a set of labels is flexible" if length == flexible.ENDLESS else f"no: length {length}")
    return problem, [("length", length)]


def is_greedy(problem, multisets):
    """Whether active nodes can put out labels one after another, so that around passive nodes stand these multisets and configurations alone."""
    told = {(), *multisets, *problem.sides[1]}
    seen = {frozenset(label for label in range(len(problem.names)) if tuple(sorted((*one, label))) in told) for one in told if len(one) < problem.degrees[1]}
    hardest = [labels for labels in seen if not any(other < labels for other in seen)]
    return all(choices_in(chosen, problem.sides[0]) for chosen in itertools.combinations_with_replacement(hardest, problem.degrees[0]))


def judge_greedy(lines, at):
    """What may stand around the nodes of the other side while those of one side put out their labels one after another."""
    bound = texts.read_chain(lines[:at], at + 1)
    last, side, multisets = bound.problems[-1], None, []
    for line in lines[at + 1:]:
        if line.is_section():
            raise fault(line.number)
        if side:
            multisets.append(() if line.is_empty() else tuple(sorted(texts.labels_of(last)(line))))
        if line.text not in ("active", "passive") if not side else not 0 < len(multisets[-1]) < last.degrees[side == "active"]:
            raise fault(line.number, "bad entry")
        side = side or line.text
    if not side:
        raise Refused(texts.EARLY, 3)
    judge_steps(bound)
    if bound.steps and bound.kind != "upper":
        raise Refused("no: not an upper chain")
    if len(multisets) > 1024:
        raise Refused("limit: more than 1024 multisets", 4)
    if not is_greedy(last.exchanged(side == "passive"), multisets):
        raise Refused("no: not greedy with these multisets")
    return bound.problems[0], [("coloured", 0)]


KINDS = {"graph": judge_graph, "length": judge_length, "flexible": judge_flexible, "greedy": judge_greedy, "given": judge_given}


def judge_part(text):
    """The problem of a part, and what it says of that: [(what, number)]."""
    lines = texts.lines_of(text)
    for name, judge in KINDS.items():
        if (at := texts.place_of(lines, name)) is not None:
            return judge(lines, at)
    return judge_certificate(text)


def bounds_in_words(more, most):
    """The best bounds on the number of rounds: [(word, number)]."""
    if most == 0 or more is not None and most == more + 1:
        return [("exactly", most)]
    return [("more than", more)] * (more is not None) + [("at most", most)] * (most is not None)


def on_graphs(word, number):
    """The same in rounds of the graph whose edges the passive nodes are."""
    rounds = number // 2 if word == "more than" else (number + 1) // 2
    return f" ({'' if word == 'exactly' else word + ' '}{rounds} rounds of the graph)"


def what_follows(problem, facts):
    """The lines of what all facts say of the problem together."""
    names, lengths = {name for name, _ in facts}, {number for name, number in facts if name == "length"}
    bounds = bounds_in_words(max((k for name, k in facts if name == "lower"), default=None), min((k for name, k in facts if name == "upper"), default=None))
    counted = ", ".join(f"{word} {number}" for word, number in bounds)
    claim = ", ".join(f"{word} {number}{on_graphs(word, number) * (problem.degrees[1] == 2)}" for word, number in bounds)
    if names & {"fixed", "never", "length"}:
        claim = "not solvable in any number of rounds with port numbers alone"
    below = "order log N" if names & {"fixed", "length"} else "order log* N" if "never" in names else None
    above = "order log* N" if "coloured" in names or "flexible" in names and problem.degrees == (2, 2) else "order log N" if "flexible" in names else None
    if lengths & {0, 1}:
        known = "order N" if 1 in lengths else "no solution"
    elif "upper" in names:
        known = f"constant, {counted}"
    elif below and below == above:
        known = below
    else:
        known = ", ".join(filter(None, [f"at least {below}" if below else counted, above and f"at most {above}"]))
    return [f"holds: {claim}"] * bool(claim) + [f"holds: with identifiers: {known}"] * bool(known) or ["nothing follows"]


def parts_of(text):
    """The parts of a text, which lines `=====` join."""
    parts = [""]
    for line in re.findall("[^\n]*\n|[^\n]+", text):
        if line.rstrip("\n") == "=====":
            parts.append("")
        else:
            parts[-1] += line
    return parts


def judge(text):
    """The answer, and its exit code."""
    if len(text) > 16777216:
        return "limit: more than 16777216 bytes", 4
    first, facts = None, []
    for number, part in enumerate(parts_of(text), 1):
        try:
            if number > 16:
                return "limit: more than 16 parts", 4
            problem, found = judge_part(part)
            if first not in (None, problem):
                raise Refused("not the problem of part 1")
        except Refused as refused:
            return f"part {number}: {refused.line}", refused.code
        first, facts = problem, facts + found
    return "\n".join(what_follows(first, facts)), 0


def main():
    answer, code = judge(sys.stdin.buffer.read().decode("latin-1"))
    print(answer)
    sys.exit(code)


if __name__ == "__main__":
    main()
