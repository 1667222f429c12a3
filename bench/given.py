#!/usr/bin/env python3
"""The processor seconds of `explore given` on each certificate of the gallery, given each input problem that has a name.

    bench/given.py EXPLORE

prints, one a line with tabs between, the certificate, the input problem, the seconds (user and system), and the answer's last line.
"""
import pathlib
import re
import resource
import subprocess
import sys

GALLERY = pathlib.Path(__file__).parent.parent / "examples/gallery"
INPUTS = ["colouring 2", "colouring 3", "colouring 4", "colouring 5", "edges", "orientation", "both", "sides"]


def degree_of(line):
    """The degree of a line of items: the sum of their powers."""
    items = re.findall(r"(?:\[[^]]*\]|\([^)]*\)|\w)(?:\^(\d+))?", line)
    return sum(int(power or 1) for power in items)


def degrees_of(text):
    lines = text.split("\n")[1:]
    return degree_of(lines[0]), degree_of(lines[lines.index("") + 1])


def run(words, text):
    """The answer, and the seconds that it took."""
    before = resource.getrusage(resource.RUSAGE_CHILDREN)
    answer = subprocess.run(words, input=text, capture_output=True, text=True).stdout
    after = resource.getrusage(resource.RUSAGE_CHILDREN)
    return answer, after.ru_utime + after.ru_stime - before.ru_utime - before.ru_stime


def main(explore):
    for path in sorted(GALLERY.glob("*.txt")):
        text = path.read_text()
        if not text.startswith("== certificate"):
            continue
        active, passive = degrees_of(text)
        for name in INPUTS:
            kind, *colours = name.split()
            given, _ = run([explore, "input", kind, str(active), str(passive), *colours], "")
            if given.startswith("words:"):
                continue
            answer, seconds = run([explore, "given"], f"{text}== given\n{given}")
            print(path.stem, name, f"{seconds:.3f}", answer.rstrip("\n").split("\n")[-1], sep="\t", flush=True)


if __name__ == "__main__":
    main(*sys.argv[1:]) if len(sys.argv) == 2 else sys.exit(__doc__)
