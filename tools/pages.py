#!/usr/bin/env python3
"""Whether what the pages name is there.

    tools/pages.py    prints each link, crate, file, definition, law and call that a page names and that isn't there, and where the picture of
                      docs/ARCHITECTURE.md hasn't the layers of crates.txt
"""
import glob
import os
import re
import sys

sys.dont_write_bytecode = True
sys.path.insert(0, os.path.dirname(os.path.abspath(__file__)))
import believe

os.chdir(believe.TOP)
PAGES = ["README.md", "page/README.md", "bench/README.md", *sorted(glob.glob("docs/*.md")), *sorted(glob.glob("examples/*/README.md"))]
DEFINITIONS = "docs/DEFINITIONS.md"
ARCHITECTURE = "docs/ARCHITECTURE.md"


def layers():
    """The layer of each crate of crates.txt."""
    found, layer = {}, 0
    for line in believe.read("crates.txt").splitlines():
        if head := re.match(r"# (\d+) ", line):
            layer = int(head.group(1))
        elif not line.startswith("#") and ":" in line:
            found[line.split(":")[0]] = layer
    return found


CRATES = layers()
SOURCES = {crate: "".join(text for _, text in believe.sources(crate)) for crate in CRATES}
LAWS = {name for text in SOURCES.values() for name in re.findall(r"\bfn (\w+_law)\b", text)}


def anchors(page):
    heads = re.findall(r"(?m)^#+ (.*)", believe.read(page))
    return {re.sub(r"[^\w\- ]", "", head.strip().lower()).replace(" ", "-") for head in heads}


def links(page, text):
    for link in re.findall(r"\]\(([^)\s]+)\)", text):
        path, _, anchor = link.partition("#")
        target = os.path.normpath(os.path.join(os.path.dirname(page), path)) if path else page
        if link.startswith("http"):
            continue
        if not os.path.exists(target):
            yield f"{link}: no such file"
        elif anchor and target.endswith(".md") and anchor not in anchors(target):
            yield f"{link}: no such heading"


def names(text):
    for crate in re.findall(r"`(re_\w+)", text):
        if crate not in CRATES:
            yield f"{crate}: no such crate"
    for path in re.findall(r"`((?:\w+)/src/\w+\.rt)`", text):
        if not os.path.exists(os.path.join("crates", path)):
            yield f"{path}: no such file"
    for crate, path in re.findall(r"`(re_\w+)::([\w:]+)", text):
        if crate in CRATES and not re.search(rf"\b{path.split('::')[-1]}\b", SOURCES[crate]):
            yield f"{crate}::{path}: no such call"
    for law in re.findall(r"`(\w+_law)`", text):
        if law not in LAWS:
            yield f"{law}: no such law"
    for crate, modules in re.findall(r"`(re_\w+)` specs ((?:[A-Z]\w+(?:, )?)+)", text):
        for module in modules.strip(", ").split(", "):
            if (crate, module) not in believe.MODULES:
                yield f"{crate} specs {module}: no such module"
    for listed, crate, module in re.findall(r"((?:`\w+`(?:, | and )?)+) of `(re_\w+)`, specs (\w+)", text):
        yield from defined(re.findall(r"`(\w+)`", listed), [crate], [module])


def defined(listed, crates, modules):
    for name in listed:
        held = [believe.MODULES[crate, module] for crate in crates for module in modules if (crate, module) in believe.MODULES]
        if not any(module.own(name) for module in held):
            yield f"{name}: no definition of {', '.join(modules)} of {', '.join(crates)}"


def definitions(page):
    """The items of DEFINITIONS: names with the module in brackets, and its crate, or else those of the heading."""
    for section in re.split(r"(?m)^## ", page)[1:]:
        crates = re.findall(r"`(re_\w+)`", section.split("\n")[0])
        for item in re.split(r"\n(?=- |\n)", section):
            head = re.match(r"- ((?:`[^`]+`(?:, | and )?)+) \(([^)]*)\)", " ".join(item.split()))
            if head:
                where = head.group(2).replace("`", "")
                listed = [re.match(r"[\w']+", name).group() for name in re.findall(r"`([^`]+)`", head.group(1))]
                yield from defined(listed, re.findall(r"re_\w+", where) or crates, re.findall(r"\b[A-Z]\w+", where))


def picture(page):
    shown, layer = {}, 0
    for line in page.split("```")[1].splitlines():
        if head := re.match(r" *(\d+) \|", line):
            layer = int(head.group(1))
        for crate in re.findall(r"\w+", line):
            if crate in CRATES and CRATES[crate] == layer:
                shown[crate] = shown.get(crate, 0) + 1
    for crate in CRATES:
        if crate not in shown:
            yield f"{crate}: not in its layer of the picture"


def main():
    wrong = 0
    for page in PAGES:
        text = believe.read(page)
        found = [*links(page, text), *names(" ".join(text.split()))]
        found += definitions(text) if page == DEFINITIONS else picture(text) if page == ARCHITECTURE else []
        for line in dict.fromkeys(found):
            print(f"{page}: {line}")
            wrong += 1
    print(f"{wrong} of what the pages name isn't there")
    sys.exit(1 if wrong else 0)


if __name__ == "__main__":
    main()
