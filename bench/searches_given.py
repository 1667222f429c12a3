#!/usr/bin/env python3
"""The processor seconds of the searches given an input problem: on problems whose bounds are published, and on those of the gallery.

    bench/searches_given.py EXPLORE [gallery]

prints, one a line with tabs between, the problem, the input problem, the words, the seconds (user and system), and what is found: the line of
`explore given` on the text that the search gives, or the search's own line. Without `gallery` the published bounds alone. A search is ended
after 60 seconds.
"""
import pathlib
import resource
import subprocess
import sys

sys.dont_write_bytecode = True
sys.path.insert(0, str(pathlib.Path(__file__).parent))
from given import GALLERY, INPUTS, degrees_of

LONGEST = 60
PUBLISHED = [
    # maximal independent sets: given 2 colours they take d hops, and given d + 1 colours a number that hangs on d alone
    ("maximal independent sets, degree 3", "M^3\nP O^2\n\nM [PO]\nO^2\n", 3, 2, ["colouring 2", "colouring 4"]),
    ("maximal independent sets, degree 4", "M^4\nP O^3\n\nM [PO]\nO^2\n", 4, 2, ["colouring 2", "colouring 5"]),
    # maximal matchings, between two sides, and of a graph given edge colours
    ("maximal matchings of two sides, degree 3", "M O^2\nP^3\n\nM [OP]^2\nO^3\n", 3, 3, ["colouring 3", "both"]),
    ("maximal matchings of a graph, degree 3", "M O^2\nP^3\n\nM^2\nO [OP]\n", 3, 2, ["edges", "edges 5", "colouring 2", "colouring 4"]),
    # edge colourings with 2 d - 1 colours, and with fewer
    ("edge colouring, degree 3, 5 colours", "".join(f"{a} {b} {c}\n" for a in "12345" for b in "12345" for c in "12345" if a < b < c) + "\n"
     + "".join(f"{a}^2\n" for a in "12345"), 3, 2, ["sides", "colouring 4", "edges 5"]),
    ("edge colouring, degree 3, 4 colours", "".join(f"{a} {b} {c}\n" for a in "1234" for b in "1234" for c in "1234" if a < b < c) + "\n"
     + "".join(f"{a}^2\n" for a in "1234"), 3, 2, ["sides", "both"]),
    ("sinkless orientation, degree 3", "O [IO]^2\n\nI O\n", 3, 2, ["edges", "colouring 4"]),
    # ruling sets: each node is in the set, or within two of it
    ("2-ruling sets, degree 3", "M^3\nP O^2\nQ R^2\n\nM [POQR]\nP [QR]\nO [ORQ]\nR^2\nQ R\n", 3, 2, ["colouring 2", "colouring 4"]),
    ("colouring, degree 3, 3 colours", "1^3\n2^3\n3^3\n\n1 [23]\n2 3\n", 3, 2, ["colouring 4", "edges"]),
    ("colouring, degree 3, 4 colours", "1^3\n2^3\n3^3\n4^3\n\n1 [234]\n2 [34]\n3 4\n", 3, 2, ["colouring 5"]),
]
WORDS = ["longest 8 8", "shortest 8 8", "cycle 4 1 1000", "settle"]


def run(words, text):
    """The answer, the exit code, and the seconds that it took; no answer where it took too long."""
    before = resource.getrusage(resource.RUSAGE_CHILDREN)
    try:
        ran = subprocess.run(words, input=text, stdout=subprocess.PIPE, text=True, timeout=LONGEST)
        answer, code = ran.stdout, ran.returncode
    except subprocess.TimeoutExpired:
        answer, code = "", None
    after = resource.getrusage(resource.RUSAGE_CHILDREN)
    return answer, code, after.ru_utime + after.ru_stime - before.ru_utime - before.ru_stime


def tell(explore, title, name, text, words):
    answer, code, seconds = run([explore, *words.split()], text)
    if code is None:
        line = f"ended after {LONGEST} s"
    elif code == 0 and answer.startswith("=="):
        line = run([explore, "given"], answer)[0].splitlines()[-1]
    else:
        line = (answer.splitlines() or [""])[0]
    print(title, name, words, f"{seconds:.2f}", line, sep="\t", flush=True)


def given(explore, name, active, passive):
    """The input problem of that name, where these degrees have it."""
    kind, *count = name.split()
    words = [explore, "input", kind, str(active), str(passive), *(count or ["0"])]
    answer, code, _ = run(words, "")
    return answer if code == 0 else None


def main(explore, *more):
    for title, text, active, passive, names in PUBLISHED:
        for name in names:
            made = given(explore, name, active, passive)
            for words in WORDS:
                tell(explore, title, name, f"{text}== given\n{made}", words)
    if more != ("gallery",):
        return
    for path in sorted(GALLERY.glob("*.txt")):
        text = path.read_text()
        if not text.startswith("== certificate"):
            continue
        active, passive = degrees_of(text)
        first = text.split("\n", 1)[1].split("\n==")[0] + "\n"
        for name in INPUTS:
            if (made := given(explore, name, active, passive)) is not None:
                for words in WORDS:
                    tell(explore, path.stem, name, f"{first}== given\n{made}", words)


main(*sys.argv[1:])
