#!/usr/bin/env python3
"""Certificates by a SAT solver, which tells whether a problem is solvable in 1, 2 or 3 hops without deriving it so often.

    examples/catalogue/hops.py RE EXPLORE SOLVER TABLE FOLDER KIND NUMBER:ROUNDS..

RE and EXPLORE are the programs, SOLVER is a command that reads a file in DIMACS and writes lines `v` (cadical -q), TABLE is one that settle.sh
made, KIND is `lower` or `upper`. For each problem of these numbers it looks for a certificate of that many rounds, and writes it into FOLDER, as
NUMBER-KIND.txt, where `re check` accepts it. That none is found says nothing of the problem.

An upper bound: derived steps, as many as leave 1, 2 or 3 hops, and then what the solver finds, as sets of labels at the ports of few nodes. A
lower bound: derived steps, and from where 2 hops are left on, or 3 where the derived problem is too large for another step, labels may stand for
others around passive nodes wherever the solver says that the problem is still not solvable in the hops that are left. What solves it where
they may not is kept, so that the solver isn't asked twice. Active configurations that others cover then are left out; at the end no zero-round
fit may be left.
"""
import collections
import functools
import itertools
import lzma
import operator
import pathlib
import re
import subprocess
import sys
import tempfile

import bounds
import problems

MOST_HOPS = 3
FEW_HOPS = 2
MOST_STEPS = 16


def bits(mask):
    while mask:
        yield (mask & -mask).bit_length() - 1
        mask &= mask - 1


class Problem:
    """A problem with names of labels; configurations are ascending tuples of their numbers. Of the passive ones each list of all labels but one has
    the set of labels that may stand beside it, as bits."""

    def __init__(self, names, active, beside, degrees):
        self.names, self.active, self.beside, self.degrees = names, active, beside, degrees

    def allows(self, config):
        config = sorted(config)
        return self.beside[tuple(config[:-1])] >> config[-1] & 1

    def lists(self):
        """All ascending lists of labels that are one too short for a passive node."""
        return itertools.combinations_with_replacement(range(len(self.names)), self.degrees[1] - 1)

    def mapped(self, images):
        """The problem with these images of its labels, the least label with an image being the one that is kept."""
        kept = sorted(set(images))
        number = {label: at for at, label in enumerate(kept)}
        beside = {tuple(number[label] for label in it): sum(1 << number[label] for label in bits(self.beside[it]) if label in number)
                  for it in itertools.combinations_with_replacement(kept, self.degrees[1] - 1)}
        active = {tuple(sorted(number[images[label]] for label in config)) for config in self.active}
        return Problem([self.names[label] for label in kept], active, beside, self.degrees), [number[label] for label in images]

    def text(self):
        active = [" ".join(self.names[label] for label in config) for config in sorted(self.active)]
        passive = []
        for it in self.lists():
            last = [self.names[label] for label in bits(self.beside[it]) if label >= it[-1]]
            if last:
                passive.append(f"{' '.join(self.names[label] for label in it)} [{''.join(last)}]")
        return "\n".join([*active, "", *passive, ""])


def problem_in(text):
    """The problem of a canonical text."""
    sides = [[[label for label, power in re.findall(rf"({bounds.LABEL})(?:\^(\d+))?", line) for _ in range(int(power or 1))]
              for line in side.splitlines()] for side in text.strip().split("\n\n")]
    names = sorted({label for side in sides for config in side for label in config})
    number = {label: at for at, label in enumerate(names)}
    active, passive = ({tuple(sorted(number[label] for label in config)) for config in side} for side in sides)
    degrees = [len(side[0]) for side in sides]
    beside = dict.fromkeys(itertools.combinations_with_replacement(range(len(names)), degrees[1] - 1), 0)
    for config in passive:
        for place, label in enumerate(config):
            beside[config[:place] + config[place + 1:]] |= 1 << label
    return Problem(names, active, beside, degrees)


class Order:
    """Labels by what may stand beside them: of equal ones the first stands for all, and a set may be taken with all that is above its labels."""

    def __init__(self, problem):
        count, self.problem = len(problem.names), problem
        shorter = list(itertools.combinations_with_replacement(range(count), problem.degrees[1] - 2))
        rest = [sum(problem.beside[tuple(sorted((label, *it)))] << count * at for at, it in enumerate(shorter)) for label in range(count)]
        self.first = [rest.index(it) for it in rest]
        self.labels = sorted(set(self.first))
        self.up = [sum(1 << other for other in range(count) if not rest[label] & ~rest[other]) for label in range(count)]

    @functools.cached_property
    def next(self):
        """The next labels above each."""
        firsts = sum(1 << label for label in self.labels)
        above = {label: self.up[label] & firsts & ~(1 << label) for label in self.labels}
        return {label: [other for other in bits(above[label]) if not any(above[between] >> other & 1 for between in bits(above[label]))]
                for label in self.labels}

    def highest_not(self):
        """The highest lists of labels around a passive node that are not allowed."""
        beside = self.problem.beside
        for it in itertools.combinations_with_replacement(self.labels, self.problem.degrees[1] - 1):
            raised = [tuple(sorted((*it[:place], up, *it[place + 1:]))) for place, label in enumerate(it) for up in self.next[label]]
            left = ~beside[it] & sum(1 << label for label in self.labels if label >= it[-1])
            for other in raised:
                left &= beside[other]
            for last in bits(left):
                if all(beside[it] >> up & 1 for up in self.next[last]):
                    yield (*it, last)

    def highest(self, configs):
        """The highest of these configurations, in each order of their labels."""
        lists = {it for config in configs for it in itertools.permutations([self.first[label] for label in config])}
        return [it for it in sorted(lists) if not any(it != other and all(self.up[x] >> y & 1 for x, y in zip(it, other)) for other in lists)]


class Question:
    """Whether a problem is solvable in some hops: rows of sets of labels, each good around a passive node, and groups of lists of sets, one for
    each port of an active node, where each choice of one set of each list has to allow an active configuration."""

    def __init__(self, problem, hops):
        (ports, degree), self.order = problem.degrees, Order(problem)
        self.count, self.lines, self.sets, self.rows, self.tries = 0, [], [], [], {}
        self.bad = [it for config in self.order.highest_not() for it in sorted(set(itertools.permutations(config)))]
        self.good = self.order.highest(problem.active)
        nodes = list(itertools.combinations_with_replacement(range(degree if hops % 2 else ports), ports if hops % 2 else degree))
        if hops == 1:
            row = self.row(degree)
            groups = [[[row[port]] for port in node] for node in nodes]
        elif hops == 2:
            rows = [self.row(degree) for _ in nodes]
            groups = [[[row[at] for node, row in zip(nodes, rows) for at in range(degree) if node[at] == port] for port in range(ports)]]
        else:
            slots = {(node, at): [] for node in range(len(nodes)) for at in range(ports)}
            own = [[slot for slot in slots if nodes[slot[0]][slot[1]] == port] for port in range(degree)]
            for chosen in itertools.product(*own):
                for slot, made in zip(chosen, self.row(degree)):
                    slots[slot].append(made)
            groups = [[slots[node, at] for at in range(ports)] for node in range(len(nodes))]
        self.groups = groups
        self.choices = sorted({tuple(sorted(it)) for group in groups for it in itertools.product(*group)})

    def variable(self):
        self.count += 1
        return self.count

    def clause(self, *literals):
        self.lines.append(" ".join(map(str, (*literals, 0))))

    def row(self, degree):
        row = range(len(self.sets), len(self.sets) + degree)
        for _ in row:
            made = {label: self.variable() for label in self.order.labels}
            self.sets.append(made)
            for label, ups in self.order.next.items():
                for up in ups:
                    self.clause(-made[label], made[up])
        for labels in self.bad:
            self.clause(*(-self.sets[at][label] for at, label in zip(row, labels)))
        self.rows.append(list(row))
        return row

    def choice(self, chosen):
        tries = {}
        for labels in self.good:
            tries.setdefault(frozenset(zip(chosen, labels)), (self.variable(), labels))
        for pairs, (it, _) in tries.items():
            for at, label in sorted(pairs):
                self.clause(-it, self.sets[at][label])
        self.clause(*(it for it, _ in tries.values()))
        self.tries[chosen] = list(tries.values())

    def allowed(self, chosen, true):
        """Active labels that this choice allows where these variables are true."""
        return next((it for it in self.good if all(self.sets[at][label] in true for at, label in zip(chosen, it))), None)

    def answer(self, solver, needed):
        """None where the problem isn't solvable so; else active labels for each choice. Choices are asked for as soon as an answer lacks them, first
        those that were needed before."""
        asked = [it for it in self.choices if it in needed] or self.choices[:1]
        while asked:
            for it in asked:
                self.choice(it)
            with tempfile.NamedTemporaryFile("w", suffix=".cnf") as file:
                file.write("\n".join([f"p cnf {self.count} {len(self.lines)}", *self.lines, ""]))
                file.flush()
                run = subprocess.run([*solver.split(), file.name], capture_output=True, text=True, check=False)
            if run.returncode not in (10, 20):
                sys.exit(f"{solver}: exit code {run.returncode}: {run.stderr}")
            if run.returncode == 20:
                return None
            true = {int(it) for line in run.stdout.splitlines() if line.startswith("v") for it in line.split()[1:]}
            found = {it: self.allowed(it, true) for it in self.choices}
            lacking = [it for it, labels in found.items() if labels is None]
            asked = lacking[::max(1, len(lacking) // 12)]
            needed.update(asked)
        return found

    def labels_of(self, found):
        """The labels of each set that these answers use."""
        used = [set() for _ in self.sets]
        for chosen, labels in found.items():
            for at, label in zip(chosen, labels):
                used[at].add(label)
        return used


def fit(problem):
    """An active configuration with which it is solvable without communication, if any."""
    return next((config for config in sorted(problem.active)
                 if all(problem.allows(it) for it in itertools.combinations_with_replacement(config, problem.degrees[1]))), None)


class Raising:
    """Relaxations of a problem in which labels may stand for others around passive nodes, as long as it isn't solvable in these hops. A solution of
    one that went too far is kept as the configurations that it needs and that the first problem lacks: none may be allowed all that one needs."""

    def __init__(self, problem, hops, solver):
        self.base, self.hops, self.solver, self.needed = problem, hops, solver, [set() for _ in range(MOST_HOPS + 1)]
        self.problem, self.images, self.refused = problem, list(range(len(problem.names))), set()
        self.solutions = [self.lacking(itertools.combinations_with_replacement(config, problem.degrees[1])) for config in sorted(problem.active)]
        self.look()

    def lacking(self, configs):
        return sorted({tuple(sorted(it)) for it in configs if not self.base.allows(it)})

    def look(self):
        self.order = Order(self.problem)
        self.left = [sorted({tuple(sorted(self.images[label] for label in it)) for it in configs}) for configs in self.solutions]
        self.left = [[(it, sum({1 << label for label in it})) for it in configs if not self.problem.allows(it)] for configs in self.left]
        count = len(self.problem.names)
        self.down = [sum(1 << low for low in range(count) if self.order.up[low] >> label & 1) for label in range(count)]

    def becomes_allowed(self, config, low, ups):
        """Whether a configuration is allowed once these labels may stand for the low one."""
        places = [place for place, label in enumerate(config) if ups >> label & 1]
        return any(self.problem.allows([low if place in chosen else label for place, label in enumerate(config)])
                   for count in range(1, len(places) + 1) for chosen in itertools.combinations(places, count))

    def may_raise(self, low, high):
        ups = self.order.up[high]
        for at, configs in enumerate(self.left):
            if all(held & ups and self.becomes_allowed(it, low, ups) for it, held in configs):
                for them in (self.left, self.solutions):
                    them.insert(0, them.pop(at))
                return False
        return True

    def raise_label(self, low, high):
        """High, and what is above it, may stand for low."""
        problem, ups, beside = self.problem, self.order.up[high], {}
        for it in problem.lists():
            places, held = [place for place, label in enumerate(it) if ups >> label & 1], problem.beside[it]
            for count in range(1, len(places) + 1):
                for chosen in itertools.combinations(places, count):
                    held |= problem.beside[tuple(sorted(low if place in chosen else label for place, label in enumerate(it)))]
            beside[it] = held | (ups if held >> low & 1 else 0)
        raised = Problem(problem.names, problem.active, beside, problem.degrees)
        self.problem, images = raised.mapped(Order(raised).first)
        self.images = [images[label] for label in self.images]
        self.refused = {(images[one], images[other]) for one, other in self.refused}
        self.look()

    def holds(self):
        """Whether the problem isn't solvable in these hops; else a solution is kept."""
        config = fit(self.problem)
        if config:
            old = next(it for it in sorted(self.base.active) if tuple(sorted(self.images[label] for label in it)) == config)
            self.solutions.insert(0, self.lacking(itertools.combinations_with_replacement(old, self.base.degrees[1])))
            return False
        for hops in range(1, self.hops + 1):
            question = Question(self.problem, hops)
            found = question.answer(self.solver, self.needed[hops])
            if found:
                self.solutions.insert(0, self.solution(question, found))
                return False
        return True

    def solution(self, question, found):
        """What the solution needs of the first problem, of whose active configurations those are taken that need least."""
        old, first = {}, self.order.first
        for config in sorted(self.base.active):
            for it in sorted(set(itertools.permutations(config))):
                old.setdefault(tuple(first[self.images[label]] for label in it), []).append(it)
        used, needs = [set() for _ in question.sets], set()

        def news(at, label):
            row = next(it for it in question.rows if at in it)
            return set() if label in used[at] else set(self.lacking(itertools.product(*([label] if it == at else used[it] for it in row)))) - needs

        for chosen, labels in found.items():
            best = min(old[labels], key=lambda it: sum(8 * len(news(at, label)) + (label not in used[at]) for at, label in zip(chosen, it)))
            for at, label in zip(chosen, best):
                needs |= news(at, label)
                used[at].add(label)
        return sorted(needs)

    def next_raise(self):
        """The raise that makes most labels comparable, of those that no known solution refuses."""
        up, count = self.order.up, len(self.problem.names)
        pairs = [(low, high) for low in range(count) for high in range(count) if not up[low] >> high & 1 and (low, high) not in self.refused]
        gains = {(low, high): self.down[low].bit_count() * (up[high] & ~up[low]).bit_count() for low, high in pairs}
        for pair in sorted(pairs, key=lambda it: (-gains[it], it)):
            if self.may_raise(*pair):
                return pair
            self.refused.add(pair)
        return None

    def raised(self):
        """Goes on as long as a raise is left; None where already the first problem is solvable in these hops."""
        if not self.holds():
            return None
        kept, steps, most = (self.problem, self.images), 0, 1
        while True:
            pair = self.next_raise()
            if pair:
                self.raise_label(*pair)
                steps += 1
            if steps == 0:
                return self
            if steps == most or not pair:
                if self.holds():
                    kept, steps, most = (self.problem, self.images), 0, min(2 * most, MOST_STEPS)
                else:
                    (self.problem, self.images), self.refused, steps, most = kept, set(), 0, max(1, most // 4)
                self.look()

    def trimmed(self):
        """The problem without active configurations below others, and for each label of each of the first problem's active configurations, in this
        order, its image."""
        up, kept = self.order.up, sorted(self.problem.active)

        def above(config, other):
            return next((it for it in itertools.permutations(other) if all(up[x] >> y & 1 for x, y in zip(config, it))), None)

        for config in sorted(self.problem.active):
            if any(config != other and above(config, other) for other in kept):
                kept.remove(config)
        used = sorted({label for config in kept for label in config})
        images = [label if label in used else used[0] for label in range(len(self.problem.names))]
        problem, number = Problem(self.problem.names, set(kept), self.problem.beside, self.problem.degrees).mapped(images)
        rows = {}
        for config in sorted(self.base.active):
            now = tuple(self.images[label] for label in config)
            rows[config] = [problem.names[number[label]] for label in next(it for it in (above(now, other) for other in kept) if it)]
        return problem, rows


def step_lines(active, passive, images):
    """The sections of an upper step."""
    return (["== step", *sorted({" ".join(sorted(it)) for it in active}), "", *sorted({" ".join(sorted(it)) for it in passive}), "== map"]
            + [f"{label} [{''.join(sorted(chosen))}]" for label, chosen in sorted(images.items())])


def ending(problem, hops, question, sets):
    """The steps of an upper bound that a solution shows, from the sets to the ports."""
    ports, degree = problem.degrees
    distinct = sorted(set(map(tuple, sets)))
    names = [f"(S{distinct.index(tuple(it)):03})" for it in sets]
    lines = step_lines([[names[at] for at in row] for row in question.rows],
                       [[names[at] for at in it] for group in question.groups for it in itertools.product(*group)],
                       {names[at]: it for at, it in enumerate(sets)})
    if hops == 1:
        return lines
    owners = [f"(P{port})" for port in range(degree if hops == 3 else ports)]
    if hops == 2:
        lists = dict(zip(owners, question.groups[0]))
    else:
        nodes = list(itertools.combinations_with_replacement(owners, ports))
        slots = [[f"(T{node:02}{at})" for at in range(ports)] for node in range(len(nodes))]
        lists = {owner: [slot for node, named in zip(nodes, slots) for it, slot in zip(node, named) if it == owner] for owner in owners}
        lines += step_lines(slots, itertools.product(*lists.values()),
                            {slot: {names[at] for at in group[place]} for named, group in zip(slots, question.groups) for place, slot in enumerate(named)})
        return lines + step_lines([owners], itertools.combinations_with_replacement(owners, ports), lists)
    return lines + step_lines([owners], itertools.combinations_with_replacement(owners, degree), {it: {names[at] for at in chosen} for it, chosen in lists.items()})


def upper(programs, solver, text, rounds):
    hops = min(rounds, MOST_HOPS)
    chain = programs.said("explore begin upper", text)
    for _ in range(rounds - hops):
        chain = chain and programs.said("explore step", chain)
    if not chain:
        return None
    problem = problem_in(programs.said("explore last", chain))
    question = Question(problem, hops)
    found = question.answer(solver, set(question.choices))
    if not found:
        return None
    sets = [sorted(problem.names[label] for label in it) for it in question.labels_of(found)]
    front = chain[:chain.rindex("== end")]
    return programs.said("explore tidy", bounds.narrowed("\n".join([front.rstrip("\n"), *ending(problem, hops, question, sets), "== end", ""])))


def derived(problem, rows):
    """The derived problem, with its rows as lists of its labels in the order of their texts."""
    number = {name: at for at, name in enumerate(problem.names)}
    rows = [[frozenset(number[name] for name in bounds.labels_in(chosen)) for chosen, power in re.findall(r"(\[[^\]]*\])(?:\^(\d+))?", row)
             for _ in range(int(power or 1))] for row in rows.splitlines()]
    sets = sorted({chosen for row in rows for chosen in row}, key=sorted)
    place = {chosen: at for at, chosen in enumerate(sets)}
    holding = [sum(1 << at for at, chosen in enumerate(sets) if label in chosen) for label in range(len(problem.names))]
    last = collections.Counter()
    for config in problem.active:
        for it in set(itertools.permutations(config)):
            last[it[:-1]] |= 1 << it[-1]

    def beside(chosen, last):
        """Each ascending list of sets that begins with these, and the sets that may stand beside it; what labels of these allow is in last."""
        if not next(iter(last)):
            yield chosen, functools.reduce(operator.or_, (holding[label] for label in bits(last[()])), 0)
            return
        for at in range(chosen[-1] if chosen else 0, len(sets)):
            behind = collections.Counter()
            for it, labels in last.items():
                if it[0] in sets[at]:
                    behind[it[1:]] |= labels
            if behind:
                yield from beside((*chosen, at), behind)

    rows = [[place[chosen] for chosen in row] for row in rows]
    lists = itertools.combinations_with_replacement(range(len(sets)), problem.degrees[0] - 1)
    found = dict.fromkeys(lists, 0) | dict(beside((), last))
    return Problem([f"(L{at:03})" for at in range(len(sets))], {tuple(sorted(row)) for row in rows}, found, problem.degrees[::-1]), rows


def lower(programs, solver, text, rounds):
    text = programs.said("re read", text)
    lines = ["== certificate 2 lower", text]
    for left in reversed(range(rounds)):
        rows = programs.said("re universal", text)
        if not rows:
            return None
        problem, labels = derived(problem_in(text), rows)
        images = [[problem.names[label] for label in row] for row in labels]
        if left <= FEW_HOPS or left == MOST_HOPS and not programs.said("re step 1", problem.text()):
            raising = Raising(problem, left, solver).raised()
            if not raising:
                return None
            problem, found = raising.trimmed()
            for image, row in zip(images, labels):
                for at, name in zip(sorted(range(len(row)), key=lambda at: row[at]), found[tuple(sorted(row))]):
                    image[at] = name
        text = programs.said("re read", problem.text())
        if not text:
            return None
        lines += ["== step", text, "== rows", rows, "== map", *(" ".join(row) for row in images)]
    return programs.said("explore condense", programs.said("explore tidy", "\n".join([*lines, "== end", ""])))


def main(words):
    if len(words) < 7 or words[5] not in bounds.KINDS:
        sys.exit(__doc__)
    programs, solver, table, folder, kind = bounds.Programs(*words[:2]), words[2], pathlib.Path(words[3]), pathlib.Path(words[4]), words[5]
    with lzma.open(table, "rt") if table.suffix == ".xz" else open(table) as rows:
        known = dict(row.split("\t")[:2] for row in rows)
    for number, rounds in (it.split(":") for it in words[6:]):
        found = {"lower": lower, "upper": upper}[kind](programs, solver, problems.text(known[number]), int(rounds))
        said = programs.said("re check", found) if found else None
        if said:
            (folder / f"{number}-{kind}.txt").write_text(found)
        print(f"{number}: {said.strip() if said else 'none'}", flush=True)


if __name__ == "__main__":
    main(sys.argv[1:])
