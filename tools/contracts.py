#!/usr/bin/env python3
"""Whether the public contracts of two checkouts are the same, up to the crates and modules in which things stand.

    tools/contracts.py BEFORE AFTER [NAMES]   prints what is gone, what is new, and each contract that isn't the same
    tools/contracts.py TOP                    prints the public contracts of one checkout

A contract is the signature of a public function with its clauses; `ghost` items of traits and of their implementations, and public types and
constants, count as such. With it go the definitions in specs/ that it cites, and those that they cite: two contracts are the same where their
texts are, with each definition in place of its name. NAMES has a line `CRATE: FORMER ..` for each crate that other ones became.
"""
import collections
import hashlib
import importlib.util
import os
import re
import sys

sys.dont_write_bytecode = True
# How deep definitions are compared, one within another: deeper than any.
DEPTH = 80


def load(top):
    """The reader of contracts and specs, for a checkout."""
    path = os.path.join(os.path.dirname(os.path.abspath(__file__)), "believe.py")
    spec = importlib.util.spec_from_file_location("believe", path)
    module = importlib.util.module_from_spec(spec)
    module.CHECKOUT = os.path.abspath(top)
    spec.loader.exec_module(module)
    return module


def squeezed(text):
    return re.sub(r",? \)", ")", re.sub(r"\( ", "(", " ".join(text.split())))


def mark(text):
    return hashlib.sha256(text.encode()).hexdigest()[:24]


def declared(path):
    """What is left of a path to something that the code declares: the types on it."""
    return ".".join(part for part in path if part[0].isupper())


class Checkout:
    def __init__(self, top, names):
        self.believe = load(top)
        self.names = names
        self.texts = {}
        for module in self.believe.MODULES.values():
            for definition in module.definitions.values():
                if definition.key() not in self.texts:
                    self.texts[definition.key()] = self.of_definition(definition)
        self.marks = {key: mark(self.written(parts, {})) for key, parts in self.texts.items()}
        self.own_marks = dict(self.marks)
        for _ in range(DEPTH):
            self.marks = {key: mark(self.written(parts, self.marks)) for key, parts in self.texts.items()}
        self.contracts = collections.defaultdict(list)
        for crate in self.crates():
            self.take(crate)

    def crates(self):
        lines = self.believe.read(os.path.join(self.believe.TOP, "crates.txt")).splitlines()
        words = [line.split("#")[0].partition(":")[0].split() for line in lines]
        return [word[0] for word in words if word and os.path.isfile(os.path.join(self.believe.TOP, "crates", word[0], "src", "lib.rt"))]

    def parts(self, text, bound, imports, aliases, own):
        """The text as a list of pieces: strings, and the keys of definitions."""
        found, place = [], 0
        for match in self.believe.DOTTED.finditer(text):
            dot, word, rest = match.groups()
            if dot or word in bound:
                continue
            names, definition, piece = rest.split(".")[1:], own(word), None
            if definition:
                piece = [definition.key(), "." + word, rest]
            elif word in imports:
                crate, path, original = imports[word]
                definition = self.believe.at_path(crate, path, original)
                piece = [definition.key() if definition else declared(path), "." + original, rest]
            elif word in aliases and names:
                crate, path = aliases[word]
                definition = self.believe.at_path(crate, path, names[0])
                piece = [definition.key() if definition else declared(path), "." + names[0], "".join("." + name for name in names[1:])]
            if piece:
                found += [text[place:match.start()]] + piece
                place = match.end()
        return found + [text[place:]]

    def of_definition(self, definition):
        module, found = definition.module, []
        for clause in definition.clauses():
            found += self.parts(squeezed(clause), definition.variables(clause), module.imports, module.aliases, module.own) + [" "]
        return found

    def written(self, parts, marks):
        return "".join(marks.get(part, "") if isinstance(part, tuple) else part for part in parts)

    def of_text(self, text, imports, aliases):
        return self.parts(squeezed(text), set(), imports, aliases, lambda word: None)

    def add(self, crate, name, public, signature, clauses, imports, aliases):
        parts = [(kind, self.of_text(text, imports, aliases)) for kind, text in clauses]
        self.contracts[self.names.get(crate, crate), name].append(Contract(self, crate, name, public, squeezed(signature), parts))

    def take(self, crate):
        for public, owner, it in self.believe.calls_of(crate):
            clauses = [(f"{kind} {name}".strip(), text) for kind, name, text in it.clauses]
            signature = it.signature.replace("pub(crate) ", "").replace("pub ", "")
            self.add(crate, f"{owner}::{it.name}" if owner else it.name, public, signature, clauses, it.imports, it.aliases)
        names, modules = self.believe.shown(crate)
        for file, text in self.believe.sources(crate):
            text = re.sub(r"//.*", "", text)
            imports, aliases = {}, {}
            self.believe.imports_of(text, imports, aliases)
            for match in re.finditer(r"(?m)^(?:unsafe )?(?:pub )?(impl|trait)\b([^{\n]*)\{", text):
                head, body = squeezed(match.group(2)), self.believe.braced(text, match.end() - 1)
                for item in re.finditer(r"\bghost (\w+)\s*[=:]\s*\{", body):
                    if not item.group(1).startswith("inverse"):
                        self.add(crate, f"{head}: ghost {item.group(1)}", True, "", [("is", self.believe.braced(body, item.end() - 1))], imports, aliases)
            for match in re.finditer(r"(?m)^pub (const|struct|enum|type|static) (\w+)[^;{]*(;|\{|\([^;]*;)", text):
                whole = match.group() + (self.believe.braced(text, match.end() - 1) if match.group(3) == "{" else "")
                if match.group(2) in names or file == "lib.rt" or file.removesuffix(".rt") in modules:
                    self.add(crate, f"{match.group(1)} {match.group(2)}", True, whole.replace("crate::", ""), [], imports, aliases)


class Contract:
    def __init__(self, checkout, crate, name, public, signature, clauses):
        self.checkout, self.crate, self.name, self.public, self.signature, self.clauses = checkout, crate, name, public, signature, clauses

    def text(self):
        return "\n".join([self.signature] + [f"    {kind} {{ {self.checkout.written(parts, {})} }}" for kind, parts in self.clauses])

    def mark(self):
        return mark(self.signature + "".join(kind + self.checkout.written(parts, self.checkout.marks) for kind, parts in self.clauses))

    def nameless_mark(self):
        name = self.name.split("::")[-1].split(" ")[-1]
        signature = re.sub(rf"\b{re.escape(name)}\b", "", self.signature)
        return mark(signature + "".join(kind + self.checkout.written(parts, self.checkout.marks) for kind, parts in self.clauses))

    def cited(self):
        """The definitions that it cites, and those that these cite: of each the name and the mark of its own text."""
        found, ahead = set(), [part for _, parts in self.clauses for part in parts if isinstance(part, tuple)]
        while ahead:
            key = ahead.pop()
            if key not in found:
                found.add(key)
                ahead += [part for part in self.checkout.texts[key] if isinstance(part, tuple)]
        return {(key[2], self.checkout.own_marks[key]) for key in found}


def told(before, after):
    """What isn't the same of two contracts."""
    if before.text() != after.text():
        return f"before:\n{before.text()}\nafter:\n{after.text()}"
    other = {name for name, _ in before.cited() ^ after.cited()}
    return "its definitions: " + ", ".join(sorted(other))


def compare(before, after):
    gone, new, other = [], [], 0
    for key in sorted(before.contracts.keys() | after.contracts.keys()):
        olds, news = list(before.contracts.get(key, [])), list(after.contracts.get(key, []))
        for old in sorted(olds, key=lambda it: not it.public):
            alike = [it for it in news if it.mark() == old.mark()]
            same = next((it for it in alike if it.public == old.public), alike[0] if alike else None)
            if same:
                olds.remove(old)
                news.remove(same)
                if old.public and not same.public:
                    print(f"{key[0]} {key[1]}: shown no more")
                    other += 1
                elif same.public and not old.public:
                    print(f"{key[0]} {key[1]}: shown now")
        while olds and news and olds[0].public:
            print(f"{key[0]} {key[1]}: {told(olds.pop(0), news.pop(0))}")
            other += 1
        gone += [it for it in olds if it.public]
        new += [(key[0], it) for it in news if it.public]
    for old in gone:
        crate = before.names.get(old.crate, old.crate)
        called = next((it for place, it in new if place == crate and it.nameless_mark() == old.nameless_mark()), None)
        if called:
            new = [(place, it) for place, it in new if it is not called]
        print(f"{crate} {old.name}: " + (f"is called {called.name}" if called else "gone"))
    crates = collections.Counter(crate for crate, _ in new)
    whole = {crate for crate in crates if all(place != crate for place, _ in before.contracts)}
    for crate in crates:
        if crate in whole:
            print(f"{crate}: a new crate, {crates[crate]} contracts")
    for crate, it in new:
        if crate not in whole:
            print(f"{crate} {it.name}: new")
    count = sum(it.public for held in before.contracts.values() for it in held)
    print(f"{count} contracts before, {sum(it.public for held in after.contracts.values() for it in held)} after; {other} not the same, {len(gone)} gone or renamed, {len(new)} new")
    return other + len(gone)


def main(words):
    if not 1 <= len(words) <= 3:
        sys.exit(__doc__)
    names = {}
    if len(words) == 3:
        with open(words[2], encoding="utf-8") as file:
            for line in file:
                crate, _, former = line.partition(":")
                names.update({it: crate.strip() for it in former.split()})
    if len(words) == 1:
        for (crate, name), held in Checkout(words[0], names).contracts.items():
            for it in held:
                if it.public:
                    print(f"## {crate} {name}\n{it.text()}\n")
        return
    sys.exit(1 if compare(Checkout(words[0], names), Checkout(words[1], {})) else 0)


if __name__ == "__main__":
    main(sys.argv[1:])
