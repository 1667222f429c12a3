#!/usr/bin/env python3
"""Wraps the pages at 120 columns.

    tools/wrap.py [PAGE ..]           writes paragraphs and items of lists anew, in lines of at most 120 columns
    tools/wrap.py --check [PAGE ..]   says which lines aren't as they would be written

Without pages: README.md, docs/*.md, bench/README.md and those of the examples. Code, tables, headings, pictures and comments stay
as they are. A piece of code in a line and a link aren't parted.
"""
import glob
import os
import re
import sys

TOP = os.path.dirname(os.path.dirname(os.path.abspath(__file__)))
WIDTH = 120
EXAMPLES = "catalogue", "gallery", "literature"
ITEM = re.compile(r"( *)([-*+]|\d+[.)]) +")
# What would begin a heading, an item or a table at the head of a line.
HEADS = re.compile(r"([-*+>]|#+|=+|-+|\d+[.)]|\|.*)$")


def pieces(text):
    """The words of a paragraph: a piece of code or a link is one, and so is a word with what can't head a line."""
    found = []
    for word in re.findall(r"(?:\[[^]`]*\]\([^)\s]*\)|`[^`]*`|[^\s`])+|`\S*", text):
        if found and HEADS.match(word):
            found[-1] += " " + word
        else:
            found.append(word)
    return found


def filled(text, first, indent):
    lines, line, empty = [], first, True
    for piece in pieces(text):
        if not empty and len(line) + 1 + len(piece) > WIDTH:
            lines.append(line)
            line, empty = indent, True
        line += piece if empty else " " + piece
        empty = False
    return lines + [line]


def wrapped(page):
    lines, paragraph, first, indent = [], [], "", ""
    inside = code = False

    def end():
        if paragraph:
            lines.extend(filled(" ".join(paragraph), first, indent))
            paragraph.clear()

    for line in page.splitlines():
        fence = line.lstrip().startswith("```")
        if inside or fence:
            end()
            inside = inside != fence
            lines.append(line)
            continue
        code = line.startswith("    ") and not paragraph and (code or not lines or not lines[-1])
        item = ITEM.match(line)
        if not line.strip() or code or re.match(r"(#|\||!\[|<!--)", line):
            end()
            lines.append(line)
        elif item:
            end()
            first, indent = item.group(), " " * len(item.group())
            paragraph.append(line[item.end():])
        else:
            if not paragraph:
                first = indent = re.match(" *", line).group()
            paragraph.append(line.strip())
    end()
    return "\n".join(lines) + "\n"


def main(words):
    checks = words[:1] == ["--check"]
    others = sorted(glob.glob("docs/*.md", root_dir=TOP))
    pages = words[checks:] or ["README.md", *others, "bench/README.md", *(f"examples/{name}/README.md" for name in EXAMPLES)]
    wrong = 0
    for name in pages:
        path = os.path.join(TOP, name)
        with open(path, encoding="utf-8") as file:
            page = file.read()
        if page == wrapped(page):
            continue
        wrong += 1
        if checks:
            print(f"{name}: run tools/wrap.py")
        else:
            with open(path, "w", encoding="utf-8") as file:
                file.write(wrapped(page))
    sys.exit(1 if checks and wrong else 0)


if __name__ == "__main__":
    main(sys.argv[1:])
