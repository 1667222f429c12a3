"""Reads the texts of evidence, by docs/FORMATS.md alone, for judge.py beside it: what they write, or their first fault."""
import itertools
import re
from typing import NamedTuple

BLANKS = " \t\r"
LABEL = r"(?:[A-Za-z0-9]|\([A-Za-z0-9_]{1,16}\))"
SET = rf"(?:{LABEL}|\[[{BLANKS}]*(?:{LABEL}[{BLANKS}]*)*\])"
ITEM = rf"({LABEL}|\[[{BLANKS}]*(?:{LABEL}[{BLANKS}]*)+\])(?:\^([1-9][0-9]?))?(?=[{BLANKS}]|\Z)"
LABELS, ITEMS = (re.compile(rf"[{BLANKS}]*{one}(?:[{BLANKS}]+{one})*[{BLANKS}]*") for one in (LABEL, ITEM))
EMPTY = re.compile(rf"[{BLANKS}]*%([1-9][0-9]?)[{BLANKS}]*")
END = re.compile(r"(0|[1-9][0-9]{0,8})\.(0|[1-9][0-9]{0,8})")
EARLY = "input: ends too early"


class Refused(Exception):
    """The line that says why a text is refused, and the exit code that goes with it."""
    def __init__(self, line, code=1):
        super().__init__(line)
        self.line, self.code = line, code


def fault(number, what="section not expected"):
    """A fault of a line."""
    return Refused(f"input: line {number}: {what}", 3)


def limit(number, what):
    """A limit that a line passes."""
    return Refused(f"limit: line {number}: more than {what}", 4)


class Line(NamedTuple):
    """A line with its number from 1 on, and the place of its first byte, both in the whole text."""
    number: int
    start: int
    text: str

    def is_empty(self):
        return not self.text.strip(BLANKS)

    def is_section(self):
        return self.text.startswith("==")

    def words(self):
        return [word for word in re.split(f"[{BLANKS}]+", self.text) if word]


class Problem(NamedTuple):
    """Names of labels, and of active and of passive nodes the degree and the configurations: ascending tuples of numbers of labels."""
    names: tuple
    degrees: tuple
    sides: tuple

    def exchanged(self, times=1):
        return Problem(self.names, self.degrees[::-1], self.sides[::-1]) if times % 2 else self

    def labels_of(self, item, number):
        """The set of labels that an item of this line writes."""
        found = set(names_in(item))
        if not found.issubset(self.names):
            raise fault(number, "bad entry")
        return frozenset(map(self.names.index, found))


class Bound(NamedTuple):
    """A certificate: its kind and problems; of each step the rows, the map, and whether that is by rows; the renaming of a fixed point."""
    kind: str
    problems: list
    steps: list
    back: int = 0
    pairs: list = []


def lines_of(text):
    """The lines of a text; what stands behind its last line feed is one where it isn't nothing."""
    lines, start = [], 0
    for number, line in enumerate(text.split("\n"), 1):
        lines.append(Line(number, start, line))
        start += len(line) + 1
    return lines if lines[-1].text else lines[:-1]


class Reader:
    """The lines of a text, one after another."""
    def __init__(self, lines):
        self.lines, self.at = lines, 0

    def peek(self):
        return self.lines[self.at] if self.at < len(self.lines) else None

    def next_full(self):
        """The next line that isn't empty; None at the end."""
        while (line := self.peek()) and line.is_empty():
            self.at += 1
        self.at += 1
        return line

    def lines_up_to_section(self):
        while (line := self.peek()) and not line.is_section():
            self.at += 1
            yield line


def names_in(item):
    """The names of the labels of an item without power."""
    return [name.strip("()") for name in re.findall(LABEL, item)]


def items_in(line):
    """The items of a line, each with its power."""
    return [(item, int(power or 1)) for item, power in re.findall(ITEM, line.text)]


def judge_bytes(line):
    """Refuses a line with a byte that a line of items may not have."""
    if found := re.search(rf"[^A-Za-z0-9_()\[\]^%{BLANKS}]", line.text):
        raise Refused(f"input: byte {line.start + found.start()}: not allowed", 3)


def judge_form(line, form):
    """Refuses a line of another form."""
    if not (found := form.fullmatch(line.text)):
        raise fault(line.number, "not a list of items")
    return found


def spelled(line):
    """The configurations of a line, as ascending tuples of names."""
    found = {()}
    for item, power in items_in(line):
        chosen = list(itertools.combinations_with_replacement(sorted(set(names_in(item))), power))
        found = {tuple(sorted(one + other)) for one in found for other in chosen}
    return found


def read_problem(reader):
    """The problem whose lines come next, up to a section line or the end; None where its passive block hasn't begun there."""
    blocks, is_open, names = [], False, set()
    for line in reader.lines_up_to_section():
        if line.is_empty():
            is_open = False
            continue
        judge_bytes(line)
        if not is_open and len(blocks) == 2:
            raise fault(line.number, "a third block")
        empty = not is_open and EMPTY.fullmatch(line.text)
        if not empty and (is_open and blocks[-1][2] or not ITEMS.fullmatch(line.text)):
            raise fault(line.number, "not a list of items")
        degree = int(empty[1]) if empty else sum(power for _, power in items_in(line))
        if not is_open and not 2 <= degree <= 6:
            raise Refused(f"input: degree {degree} is not from 2 to 6", 3)
        if is_open and degree != blocks[-1][0]:
            raise fault(line.number, "wrong degree")
        if not is_open:
            blocks.append((degree, set(), bool(empty)))
        is_open = True
        names.update(name for item, _ in items_in(line) for name in names_in(item))
        if len(names) > 128:
            raise limit(line.number, "128 labels")
        blocks[-1][1].update(() if empty else spelled(line))
        if len(blocks[-1][1]) > 1048576:
            raise limit(line.number, "1048576 configurations")
    if len(blocks) < 2:
        return None
    names = tuple(sorted(names))
    place = {name: number for number, name in enumerate(names)}
    sides = tuple(frozenset(tuple(place[name] for name in config) for config in block[1]) for block in blocks)
    return Problem(names, tuple(block[0] for block in blocks), sides)


def read_whole_problem(lines, end):
    """The problem of lines that hold nothing else; `end` is the number of the line behind them."""
    reader = Reader(lines)
    problem, line = read_problem(reader), reader.peek()
    if problem is None:
        raise fault(line.number if line else end, "a block is missing")
    if line:
        raise fault(line.number)
    return problem


def read_section(reader, is_whole=True):
    """The section line behind a problem, or behind other lines."""
    if not (line := reader.next_full()):
        raise Refused(EARLY, 3)
    if not is_whole:
        raise fault(line.number, "a block is missing")
    return line


def expect(line, *words):
    """Refuses another section line than this one."""
    if line.words() != ["==", *words]:
        raise fault(line.number)


def read_entries(reader, read, most=None):
    """What `read` makes of each line up to a section line, no more than so many; and that line."""
    found = []
    for line in reader.lines_up_to_section():
        if not line.is_empty():
            judge_bytes(line)
            found.append(read(line))
            if most and len(found) > most:
                raise limit(line.number, f"{most} rows")
    return found, read_section(reader)


def row_of(problem):
    """Reads a row of this problem, with its sets in the order of their numbers."""
    def read(line):
        judge_form(line, ITEMS)
        sets = [problem.labels_of(item, line.number) for item, power in items_in(line) for _ in range(power)]
        if len(sets) != problem.degrees[1]:
            raise fault(line.number, "bad entry")
        return tuple(sorted(sets, key=number_of))
    return read


def number_of(labels):
    """The number of a set, by which sets are ordered."""
    return sum(1 << label for label in labels)


def entry_of(first, form, second, other_form):
    """Reads two items, each of labels of a problem and of a form: as two sets."""
    form = re.compile(rf"[{BLANKS}]*({form})[{BLANKS}]+({other_form})[{BLANKS}]*")

    def read(line):
        found = judge_form(line, form)
        return first.labels_of(found[1], line.number), second.labels_of(found[2], line.number)
    return read


def labels_of(problem, count=None):
    """Reads labels of this problem with blanks between them, without powers: so many, where that is said."""
    def read(line):
        judge_form(line, LABELS)
        labels = [min(problem.labels_of(label, line.number)) for label in re.findall(LABEL, line.text)]
        if len(labels) != (count or len(labels)):
            raise fault(line.number, "bad entry")
        return tuple(labels)
    return read


def read_header(reader):
    """The kind of a certificate, whether its maps are by rows, and the number of the problem to which it goes back."""
    if not (line := reader.next_full()):
        raise Refused(EARLY, 3)
    found = re.fullmatch("== certificate ([12]) (?:(lower|upper)|(fixed) ([0-9]|[1-5][0-9]|6[0-3]))", " ".join(line.words()))
    if not found or not line.is_section():
        raise fault(line.number)
    return found[2] or found[3], found[1] == "2" and found[2] != "upper", int(found[4] or 0)


def read_step(reader, before, kind, by_rows):
    """The next step's problem, its rows and map, and the section line behind them."""
    problem = read_problem(reader)
    line, rows = read_section(reader, problem is not None), None
    if kind == "upper":
        read, most = entry_of(problem, LABEL, before, SET), None
    else:
        expect(line, "rows")
        rows, line = read_entries(reader, row_of(before), 1024)
        read, most = (labels_of(problem, before.degrees[1]), 1024) if by_rows else (entry_of(before, SET, problem, LABEL), None)
    expect(line, "map")
    images, line = read_entries(reader, read, most)
    return problem, (rows, images, by_rows), line


def read_certificate(lines):
    reader = Reader(lines)
    kind, by_rows, back = read_header(reader)
    problems, steps, pairs = [read_problem(reader)], [], []
    line = read_section(reader, problems[0] is not None)
    while line.words() == ["==", "step"]:
        if len(steps) == 64:
            raise limit(line.number, "64 steps")
        problem, step, line = read_step(reader, problems[-1], kind, by_rows)
        problems.append(problem)
        steps.append(step)
    if kind == "fixed":
        expect(line, "back")
        if back >= len(steps):
            raise fault(line.number, "back is not before the last problem")
        pairs, line = read_entries(reader, entry_of(problems[-1], LABEL, problems[back], LABEL))
    expect(line, "end")
    if line := reader.next_full():
        raise fault(line.number)
    return Bound(kind, problems, steps, back, pairs)


def read_chain(lines, end):
    """The certificate, or the problem as a lower bound without steps, in front of the section line with this number: a text of its own."""
    full = next((line for line in lines if not line.is_empty()), None)
    if not full or not full.is_section():
        if section := next((line for line in lines if line.is_section()), None):
            read_problem(Reader(lines))
            judge_bytes(section)
        return Bound("lower", [read_whole_problem(lines, end)], [])
    try:
        return read_certificate(lines)
    except Refused as refused:
        raise fault(end) if refused.line == EARLY else refused


def read_given(lines, at):
    """The chain in front of a line `== given`, and the input problem behind it."""
    return read_chain(lines[:at], at + 1), read_whole_problem(lines[at + 1:], len(lines) + 1)


def read_graph(lines, end, degrees):
    """The passive nodes of a graph, each with its ends: (active node, port), from 0."""
    nodes, seen = [], set()
    for line in lines:
        if line.is_section():
            raise fault(line.number)
        ends = []
        for word in line.words():
            if not (found := END.fullmatch(word)):
                raise fault(line.number, "not a list of ends")
            node, port = int(found[1]), int(found[2])
            if not node or not 1 <= port <= degrees[0]:
                raise fault(line.number, "no such end")
            if node > 64:
                raise limit(line.number, "64 nodes")
            if (node - 1, port - 1) in seen:
                raise fault(line.number, "an end stands twice")
            ends.append((node - 1, port - 1))
            seen.add(ends[-1])
        if ends and len(ends) != degrees[1]:
            raise fault(line.number, "wrong degree")
        nodes += [ends] if ends else []
    if not seen or len(seen) != degrees[0] * (1 + max(seen)[0]):
        raise fault(end, "an end is missing")
    return nodes


def place_of(lines, name):
    """The place of the first line `==` with this name; None where there is none."""
    return next((at for at, line in enumerate(lines) if line.is_section() and line.words() == ["==", name]), None)


def read_labelled(lines):
    """A problem, an input problem, a graph, and its labels of the input problem, one list for each active node."""
    behind = place_of(lines, "labels")
    front = lines[:behind]
    at = place_of(front, "graph")
    given = place_of(front[:at], "given")
    if given is None or at is None:
        read_given(front[:at], given) if given is not None else read_whole_problem(front[:at], (at if at is not None else len(front)) + 1)
        raise fault((at if at is not None else behind) + 1)
    problem = read_whole_problem(front[:given], given + 1)
    named = read_whole_problem(front[given + 1:at], at + 1)
    graph = read_graph(front[at + 1:], len(front) + 1, problem.degrees)
    count, labels = 1 + max(end for ends in graph for end in ends)[0], []
    for line in lines[len(front) + 1:]:
        if line.is_section():
            raise fault(line.number)
        if not line.is_empty():
            if len(labels) == count:
                raise fault(line.number, "bad entry")
            labels.append(labels_of(named, named.degrees[0])(line))
    if len(labels) < count:
        raise Refused(EARLY, 3)
    return problem, named, graph, labels
