#!/usr/bin/env python3
"""What a reader has to believe, computed from the contracts and specs.

    tools/believe.py            prints the lists, as Markdown
    tools/believe.py --check    says whether docs/DEFINITIONS.md has exactly them between its two marks
    tools/believe.py --write    writes them there
    tools/believe.py --names    prints the definitions of each group by name, with the lines that each has
    tools/believe.py --table CRATE ..   prints the definitions of the crates as Markdown tables: each with the line that stands above it
    tools/believe.py --missing  prints the definitions that a contract of a public call names and that no line in words stands above

A group begins with the definitions that some clauses name, and takes in each definition that stands in the text of one that it has: definition
by definition, not whole modules. What an earlier group has isn't counted again. Lines are those of the definitions, without comments and empty
ones. Words of std and types of the program that stand in src/ are not followed.
"""
import os
import re
import sys
import textwrap

# The checkout, another one where contracts.py loads this file for it.
TOP = globals().get("CHECKOUT") or os.path.dirname(os.path.dirname(os.path.abspath(__file__)))
PAGE = os.path.join(TOP, "docs", "DEFINITIONS.md")
BEGIN = "<!-- What follows is written by believe.py: begin -->"
END = "<!-- written by believe.py: end -->"

# Each group: its name, what it is, the calls with the clauses that it begins with (None for all of a call), or the definitions, as MODULE.NAME,
# and the definitions at which it stops, since they are said to be no part of it.
OTHER_WORDS = ["reading_outcome", "mapping_outcome", "tabling_outcome", "extracting_outcome", "making_outcome", "running_outcome"]
GROUPS = [
    (
        "What is claimed",
        "what the clauses `means` of `re_check::check` and `check_stream` name: problems, trees of port numbers, tables on them.",
        [("re_check", "check", ["means"]), ("re_check", "check_stream", ["means"])],
        [],
    ),
    (
        "What is valid",
        "what `verdict` of `re_check::check` adds: that it accepts exactly the valid certificates, and which fault it names. "
        "These are \"Rows, goodness, the derived problem\", \"The zero-round fit\" and \"Valid certificates\" below.",
        [("re_check", "check", ["verdict"])],
        [],
    ),
    (
        "What the bytes mean",
        "what the clauses of `re_check::check_stream` and of `re_cli::run` add for the word `check`: the text of a certificate, words, "
        "status and line. The outcomes of the other words are left out. [FORMATS.md](FORMATS.md) says it in words.",
        [
            ("re_check", "check_stream", None),
            ("re_cli", "run", ["answer", "bad_words", "no", "read_fault", "read_within", "write_fault", "partly", "not_put", "done_means", "line_means", "emptied", "not_read"]),
        ],
        OTHER_WORDS,
    ),
    (
        "What runs",
        "the second half of the headline, what `answer` of `re_cli::run` adds for the word `run`, with `re_words::passive_nodes`, `re_net::run_net` "
        "and the laws `re_net::passive_law`, `re_laws::extract_law` and `re_check::upper_law`: finite trees, messages, the text of an input, and "
        "the algorithm of an upper bound.",
        [
            ("re_cli", "run", ["answer"]),
            ("re_words", "passive_nodes", None),
            ("re_net", "run_net", None),
            ("re_net", "passive_law", None),
            ("re_laws", "extract_law", None),
            ("re_check", "upper_law", None),
        ],
        [word for word in OTHER_WORDS if word != "running_outcome"],
    ),
    (
        "With unique identifiers",
        "what `re_given_bounds::unique_identifiers_law` adds: views that show input labels, identifiers, local algorithms.",
        [("re_given_bounds", "unique_identifiers_law", None)],
        [],
    ),
    (
        "With so many identifiers",
        "what `re_given_bounds::logarithmic_bound_law` adds: how many identifiers are enough.",
        [("re_given_bounds", "logarithmic_bound_law", None)],
        [],
    ),
    (
        "With random strings",
        "what `re_given_bounds::randomised_bound_law` adds: random strings, and failing rarely.",
        [("re_given_bounds", "randomised_bound_law", None)],
        [],
    ),
    (
        "With few rounds, or few colours",
        "what `re_classes::gap_law`, `beyond_ports_law`, `re_local::few_colours_local_law` and `re_given_bounds::few_edge_colours_local_law` add: "
        "towers of twos, and colourings of nodes and edges as input problems.",
        [
            ("re_classes", "gap_law", None),
            ("re_classes", "beyond_ports_law", None),
            ("re_local", "few_colours_local_law", None),
            ("re_given_bounds", "few_edge_colours_local_law", None),
        ],
        [],
    ),
    (
        "Classes",
        "what `re_classes::constant_law`, `nothing_between_law`, `order_log_star_law` and `apart_law`, `re_given_bounds::class_law` and `no_two_classes_law`, "
        "`re_given_bounds::order_edge_coloured_law`, `order_both_coloured_law` and `no_edge_coloured_law`, and "
        "`re_local::nodes_seen_law` and `no_room_law` add: classes, and how many nodes a node sees.",
        [
            ("re_classes", "constant_law", None),
            ("re_classes", "nothing_between_law", None),
            ("re_classes", "order_log_star_law", None),
            ("re_classes", "apart_law", None),
            ("re_given_bounds", "class_law", None),
            ("re_given_bounds", "no_two_classes_law", None),
            ("re_given_bounds", "order_edge_coloured_law", None),
            ("re_given_bounds", "no_edge_coloured_law", None),
            ("re_given_bounds", "order_both_coloured_law", None),
            ("re_local", "nodes_seen_law", None),
            ("re_local", "no_room_law", None),
        ],
        [],
    ),
    (
        "On finite forests",
        "what the laws of classes of `re_forests` (`constant_law`, `paths_law`, `apart_law` and their neighbours), those of `re_gap` and "
        "`re_flexible::flexibility_of` add: forests, local algorithms on them, flexible and trimmed sets, levels, and the classes.",
        [
            ("re_forests", "constant_law", None),
            ("re_forests", "nothing_between_law", None),
            ("re_forests", "below_log_star_law", None),
            ("re_forests", "below_log_law", None),
            ("re_forests", "below_linear_law", None),
            ("re_forests", "above_linear_law", None),
            ("re_forests", "never_law", None),
            ("re_forests", "above_law", None),
            ("re_forests", "below_law", None),
            ("re_forests", "paths_law", None),
            ("re_forests", "apart_law", None),
            ("re_gap", "gap_law", None),
            ("re_gap", "not_flexible_law", None),
            ("re_gap", "between_logs_law", None),
            ("re_gap", "flexible_law", None),
            ("re_gap", "above_log_on_views_law", None),
            ("re_flexible", "flexibility_of", None),
        ],
        [],
    ),
    (
        "What `explore` gives",
        "what `GoesOn` and `IsTextOf` add, and given an input problem `GoesOnGiven` and `IsGivenText`, which say what the text of a chain or of a bound "
        "that was found is worth, beside the outcomes of `check` and `given`.",
        [
            ("re_shaping", "Extensions.GoesOn", None),
            ("re_chains", "OverChains.IsTextOf", None),
            ("re_given_words", "Extensions.GoesOnGiven", None),
            ("re_chains", "GivenTexts.IsGivenText", None),
        ],
        ["IsTaken"],
    ),
    (
        "What `explore` says",
        "what the claim of `settle`, alone or given an input problem, its class and the meaning of the answers of `rounds`, `given`, `fit` and `solve` add. Nobody has to believe what shows a claim; "
        "which steps are kept behind a refusal, the line says.",
        [
            ("re_evidence", "Claims.HoldsIn", None),
            ("re_evidence", "Claims.Holds", None),
            ("re_evidence", "Claims.HoldsGiven", None),
            ("re_settle", "Claims.claim_of", None),
            ("re_settle", "GivenClaims.claim_given", None),
            ("re_evidence", "Classes.HoldsLocal", None),
            ("re_evidence", "Classes.ClassHolds", None),
            ("re_settle", "Classes.class_of", None),
            ("re_evidence", "OnForests.ClassOnForests", None),
            ("re_given_words", "Counting.CountMeans", None),
            ("re_settings", "Meanings.AnswerMeans", None),
            ("re_graph_words", "SolveWords.AnswerMeans", None),
        ],
        ["kept_steps"],
    ),
]

WORD = re.compile(r"[^\W\d][\w']*")
DOTTED = re.compile(r"(\.?)([^\W\d][\w']*)((?:\.[^\W\d][\w']*)*)")


def read(path):
    with open(path, encoding="utf-8") as file:
        return file.read()


def without_comments(text):
    return re.sub(r"--.*", "", text)


class Module:
    """A file of specs: what its `use` lines bring in, and its definitions in order."""

    def __init__(self, crate, name, text):
        self.crate, self.name = crate, name
        self.imports, self.aliases, self.definitions = {}, {}, {}
        blocks = re.split(r"(?m)^(?=(?:use|abbrev|unfoldable|pub|record|data)\b)", without_comments(text))
        for block in blocks:
            if block.startswith("use "):
                self.take_use(block)
            elif block.strip():
                self.take_definition(block)

    def take_use(self, block):
        imports_of(block, self.imports, self.aliases)

    def own(self, word):
        """The definition of this name, or the type that it is a constructor of."""
        types = (it for it in self.definitions.values() if word in it.constructors)
        return self.definitions.get(word) or next(types, None)

    def take_definition(self, block):
        lines = [line for line in block.splitlines() if line.strip()]
        head = re.match(r"(?:abbrev mutual|(?:abbrev|unfoldable|record|data|pub|\s)*\s*([^\W\d][\w']*))", lines[0])
        if lines[0].strip() == "abbrev mutual":
            names = re.findall(r"(?m)^\s*(?:abbrev |pub )*([^\W\d][\w']*)\s*:", "\n".join(lines[1:]))
        else:
            names = [head.group(1)]
        for name in names:
            self.definitions[name] = Definition(self, name, lines)


class Definition:
    def __init__(self, module, name, lines):
        self.module, self.name, self.lines = module, name, lines
        self.is_type = bool(re.match(r"(pub )?(record|data)\b", lines[0]))
        self.constructors = set()
        if re.match(r"(pub )?data\b", lines[0]):
            self.constructors = {match.group(1) for line in lines[1:] if (match := re.match(r"  ([^\W\d][\w']*)\s*:", line))}

    def key(self):
        return (self.module.crate, self.module.name, self.name)

    def mentions(self):
        """The words of the definition that aren't variables of it, each with the names behind it after dots."""
        found = set()
        for clause in self.clauses():
            bound = self.variables(clause)
            for dot, word, rest in DOTTED.findall(re.sub(r"([{;]\s*)[^\W\d][\w']*(\s*=\s)", r"\1\2", clause)):
                if dot or word in bound:
                    continue
                found.add((word, tuple(rest.split(".")[1:])))
        return found

    def clauses(self):
        """The definition cut at each equation."""
        if self.is_type:
            return ["\n".join(self.lines)]
        parts, part = [], []
        for line in self.lines:
            if part and re.match(r"\s*" + re.escape(self.name) + r"\b", line) and "=" in line or (part and line and not line[0].isspace()):
                parts.append("\n".join(part))
                part = []
            part.append(line)
        parts.append("\n".join(part))
        return parts

    def variables(self, clause):
        bound = set()
        for match in re.finditer(r"λ ([\w' ]+)\.", clause):
            bound.update(WORD.findall(match.group(1)))
        for match in re.finditer(r"[({]([\w' ]+):", clause):
            bound.update(WORD.findall(match.group(1)))
        if self.is_type:
            bound.update(re.findall(r"(?m)^\s+(?:pub )?([^\W\d][\w']*)\s*:", clause))
        elif (left := re.match(r"[^:]*?(?=\s=\s)", clause)):
            bound.update(word for word in WORD.findall(left.group()) if word != self.name and not is_constructor(self.module, word))
        return bound


def imports_of(text, imports, aliases):
    """Takes in `use` lines: a name is that of a definition of a module of the repository, or of a constructor."""
    for match in re.finditer(r"use\s+Rattle\.(re\w*)\.specs\.([\w.]+?)(?:\.\{([^}]*)\}|\s+as\s+(\w+)|(?=[;\s]))", text):
        crate, path, names, alias = match.groups()
        path = tuple(path.split("."))
        if names is None:
            if alias:
                aliases[alias] = (crate, path)
            continue
        for name in re.split(r",\s*", names.strip()):
            original, _, local = name.strip().partition(" as ")
            if original:
                imports[local.strip() or original] = (crate, path, original.strip())


def specs():
    modules = {}
    for line in read(os.path.join(TOP, "crates.txt")).splitlines():
        crate = line.split("#")[0].partition(":")[0].split()
        folder = os.path.join(TOP, "crates", crate[0], "specs") if crate else ""
        for file in sorted(os.listdir(folder)) if os.path.isdir(folder) else []:
            name = file.removesuffix(".antt")
            if name != "Lib":
                modules[crate[0], name] = Module(crate[0], name, read(os.path.join(folder, file)))
    return modules


MODULES = specs()
ORDER = {key: place for place, key in enumerate(MODULES)}


def at_path(crate, path, name):
    """The definition of this name in a module, or the type that it is a constructor of."""
    module = MODULES.get((crate, path[0]))
    if not module or path[0] == "declared":
        return None
    return module.own(name) if len(path) == 1 else module.definitions.get(path[1])


def resolve(module, word, rest):
    if module.own(word):
        return module.own(word)
    if word in module.imports:
        return at_path(*module.imports[word])
    if word in module.aliases and rest:
        return at_path(*module.aliases[word], rest[0])
    return None


def is_constructor(module, word):
    if word in module.imports and module.imports[word][1][0] == "declared":
        return True
    definition = resolve(module, word, ())
    return word in definition.constructors if definition else word[0].isupper()


def closure(roots, stops):
    found, ahead = {}, list(roots)
    while ahead:
        definition = ahead.pop()
        if definition.key() in found:
            continue
        found[definition.key()] = definition
        for word, rest in definition.mentions():
            other = resolve(definition.module, word, rest)
            if other and other.name not in stops:
                ahead.append(other)
    return found


# ---- contracts
def sources(crate):
    folder = os.path.join(TOP, "crates", crate, "src")
    return [(file, read(os.path.join(folder, file))) for file in sorted(os.listdir(folder)) if file.endswith(".rt")]


CLAUSE = re.compile(r"\b(ensures|requires)\s*(\w+)?\s*\{")


def braced(text, start):
    """The text inside the braces that open at this place."""
    depth = 0
    for place in range(start, len(text)):
        depth += (text[place] == "{") - (text[place] == "}")
        if not depth:
            return text[start + 1:place]
    return ""


class Call:
    """A function with a contract: its clauses, and how the words in them are read."""

    def __init__(self, crate, file, name, header, imports, aliases):
        self.crate, self.file, self.name = crate, file, name
        self.signature = " ".join(CLAUSE.split(header)[0].split())
        self.clauses = [(match.group(1), match.group(2) or "", braced(header, match.end() - 1)) for match in CLAUSE.finditer(header)]
        self.imports, self.aliases = imports, aliases

    def named(self, clauses=None):
        found = {}
        for _, name, text in self.clauses:
            if clauses is not None and name not in clauses:
                continue
            for dot, word, rest in DOTTED.findall(text):
                if dot:
                    continue
                definition = None
                if word in self.imports:
                    definition = at_path(*self.imports[word])
                elif word in self.aliases and rest:
                    definition = at_path(*self.aliases[word], rest.split(".")[1])
                if definition:
                    found[definition.key()] = definition
        return found


def shown(crate):
    """The names that a crate shows: those of `pub use` in its root, and the modules that are public."""
    root = read(os.path.join(TOP, "crates", crate, "src", "lib.rt"))
    names = set()
    for match in re.finditer(r"(?m)^pub use ([^;]+);", root):
        names.update(WORD.findall(match.group(1)))
    return names, set(re.findall(r"(?m)^pub mod (\w+)", root))


def calls_of(crate):
    """The functions of a crate, each with whether it is public."""
    names, modules = shown(crate)
    for file, text in sources(crate):
        text = re.sub(r"//.*", "", text)
        imports, aliases = {}, {}
        imports_of(text, imports, aliases)
        module = file.removesuffix(".rt")
        for match in re.finditer(r"(?m)^( *)(pub(?:\([a-z]+\))? )?fn (\w+)", text):
            indent, visible, name = match.groups()
            owner, is_trait = owner_at(text, match.start()) if indent else (None, False)
            public = visible == "pub " or (is_trait and not visible)
            if owner:
                public = public and (owner in names or module in modules or file == "lib.rt")
            else:
                public = public and (name in names or module in modules or file == "lib.rt")
            header = text[match.start():body_at(text, match.end())]
            yield public, owner, Call(crate, file, name, header, imports, aliases)


def owner_at(text, place):
    """The type or trait whose block a method stands in."""
    heads = list(re.finditer(r"(?m)^(pub )?(impl|trait)\b([^{\n]*)", text[:place]))
    if not heads:
        return None, False
    _, kind, rest = heads[-1].groups()
    if kind == "trait":
        return WORD.findall(rest)[0], True
    rest = re.sub(r"<[^<>]*(?:<[^<>]*>[^<>]*)*>", "", rest)
    words = WORD.findall(rest.split(" for ")[-1])
    return (words[0] if words else None), " for " in rest


def body_at(text, place):
    """Where the body of a function begins, or its declaration ends: behind its clauses."""
    while True:
        match = re.compile(r"\b(?:ensures|requires)\b\s*\w*\s*\{|\{|;").search(text, place)
        if not match:
            return len(text)
        if match.group().startswith(("ensures", "requires")):
            place = match.end() + len(braced(text, match.end() - 1)) + 1
        else:
            return match.start()


def call(crate, name):
    return next(it for public, owner, it in calls_of(crate) if public and not owner and it.name == name)


def definition_at(crate, path):
    """The definition MODULE.NAME of a crate's specs, by its key, or nothing where there is none."""
    module, _, name = path.partition(".")
    definition = at_path(crate, (module,), name)
    return {definition.key(): definition} if definition else {}


# ---- the lists
def groups():
    known = {}
    for title, what, begins, stops in GROUPS:
        roots = {}
        for crate, name, clauses in begins:
            named = definition_at(crate, name) if "." in name else call(crate, name).named(clauses)
            if not named:
                sys.exit(f"believe.py: {crate}::{name} names no definition in {clauses}")
            roots.update(named)
        found = closure(roots.values(), stops)
        yield title, what, {key: it for key, it in found.items() if key not in known}
        known.update(found)


def size(definitions):
    """The lines of these definitions, each block once."""
    return sum(len(lines) for lines in {id(it.lines): it.lines for it in definitions}.values())


def by_module(found):
    modules = {}
    for definition in found.values():
        modules.setdefault((definition.module.crate, definition.module.name), []).append(definition)
    return sorted(modules.items(), key=lambda item: ORDER[item[0]])


def markdown():
    lines = []
    for title, what, found in groups():
        counts = f"{len(found)} definitions, {size(found.values())} lines."
        lines += textwrap.wrap(f"- **{title}**: {what} {counts}", 120, subsequent_indent="  ", break_long_words=False, break_on_hyphens=False)
    return "\n".join(lines)


def page_text():
    page = read(PAGE)
    if BEGIN not in page or END not in page:
        sys.exit("believe.py: docs/DEFINITIONS.md lacks its marks")
    before, rest = page.split(BEGIN, 1)
    inside, after = rest.split(END, 1)
    return before, inside, after


def words_above(crate, name):
    """Each definition of a module of specs with the comment lines right above it, as one line."""
    above, found = [], {}
    for line in read(os.path.join(TOP, "crates", crate, "specs", name + ".antt")).splitlines():
        if line.startswith("--"):
            above.append(line.removeprefix("--").strip())
            continue
        head = re.match(r"(?:(?:abbrev|unfoldable|record|data|pub)\s+)+([^\W\d][\w']*)", line)
        if head:
            found[head.group(1)] = " ".join(above)
        if head or not line.strip():
            above = []
    return found


def table(crates):
    for crate in crates:
        print(f"## `{crate}`\n\n| Name | Meaning | Specs |\n|---|---|---|")
        for known, name in MODULES:
            if known == crate:
                for word, meaning in words_above(crate, name).items():
                    if meaning:
                        print(f"| `{word}` | {meaning} | {name} |")
        print()


def missing():
    by_name = {}
    for crate in dict.fromkeys(crate for crate, _ in MODULES):
        for public, owner, it in calls_of(crate):
            if public:
                for key, definition in it.named().items():
                    if not words_above(*key[:2]).get(definition.name):
                        place = f"{it.crate}::{owner + '::' if owner else ''}{it.name}"
                        by_name.setdefault(key, (definition, []))[1].append(place)
    return by_name


def main(words):
    if words == []:
        print(markdown())
    elif words == ["--names"]:
        for title, _, found in groups():
            print(f"{title}: {len(found)} definitions, {size(found.values())} lines")
            for (crate, module), definitions in by_module(found):
                print(f"    {crate} {module}: " + ", ".join(f"{it.name} {len(it.lines)}" for it in definitions))
    elif words[0] == "--table":
        table(words[1:])
    elif words == ["--missing"]:
        found = missing()
        for (crate, module, name), (_, places) in sorted(found.items(), key=lambda item: (ORDER[item[0][:2]], item[0])):
            print(f"{crate} {module} {name}: " + ", ".join(dict.fromkeys(places)))
        print(f"{len(found)} definitions without a line in words")
    elif words == ["--check"]:
        if page_text()[1].strip() != markdown().strip():
            sys.exit("docs/DEFINITIONS.md has other lists than tools/believe.py prints: run tools/believe.py --write")
        print("docs/DEFINITIONS.md has these lists")
    elif words == ["--write"]:
        before, _, after = page_text()
        with open(PAGE, "w", encoding="utf-8") as file:
            file.write(before + BEGIN + "\n" + markdown() + "\n\n" + END + after)
    else:
        sys.exit(__doc__)


if __name__ == "__main__":
    main(sys.argv[1:])
