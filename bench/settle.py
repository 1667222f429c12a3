#!/usr/bin/env python3
"""The processor seconds of `explore settle`, to its claim, which it writes as soon as nothing can change it, and to its end.

    bench/settle.py EXPLORE [given] [NAME ..]

asks it on the problems of examples/literature, those of the gallery, and some large ones; with `given` on each given an orientation, sides, both,
as many edge colours as the active degree, and as many colours as identifiers give, in place of alone. It prints those that take a second to their
end, as a table, and behind them how many there were and what they took in all; with NAMEs all problems whose names have one of these in them. A
run is ended after 60 seconds.
"""
import os
import pathlib
import resource
import subprocess
import sys
import tempfile

sys.dont_write_bytecode = True
HERE = pathlib.Path(__file__).resolve().parent
EXAMPLES = HERE.parent / "examples"
sys.path[:0] = [str(HERE), str(EXAMPLES / "literature")]
import given
import table

LONGEST = 60
LARGE = [
    ("7 edge colours, degree 4", *table.edge_colouring(4, 7)),
    ("maximal matching, degree 6", *table.matching(6)),
    ("maximal independent set, degree 6", *table.independent(6)),
    ("maximal independent set of hypergraphs, degrees 5 and 4", ["M^5", "P O^4"], ["P M^3", "O [MO]^3"]),
    ("5 colours, degree 5", *table.colouring(5, 5)),
]


def problems():
    """Names and texts; what stands in the literature's table and in the gallery is asked twice, under both names."""
    for name, _, _, active, passive in table.PROBLEMS:
        yield name, table.text_of(active, passive)
    for path in sorted(given.GALLERY.glob("*.txt")):
        text = path.read_text()
        first = text.split("\n==")[0] if not text.startswith("==") else text.split("\n", 1)[1].split("\n==")[0]
        yield f"gallery: {path.stem}", first + "\n"
    for name, active, passive in LARGE:
        yield name, table.text_of(active, passive)


def inputs(text):
    active, passive = given.degrees_of("\n" + text)
    return ["given orientation", "given sides", "given both", f"given {active} edge colours", f"given {active * (passive - 1) + 1} colours"]


def processor_seconds(process):
    """What a program has taken so far."""
    return int(pathlib.Path(f"/proc/{process}/schedstat").read_text().split()[0]) / 1e9


def settled(explore, words, text):
    """The seconds to the first line and to the end, and the answer."""
    with tempfile.TemporaryFile("w+") as held:
        held.write(text)
        held.seek(0)
        run = subprocess.Popen([explore, "settle", *words], stdin=held, stdout=subprocess.PIPE, text=True,
                               preexec_fn=lambda: resource.setrlimit(resource.RLIMIT_CPU, (LONGEST, LONGEST)))
        first = run.stdout.readline()
        claimed = processor_seconds(run.pid)
        answer = first + run.stdout.read()
        _, status, used = os.wait4(run.pid, 0)
        run.returncode = status
    return claimed, used.ru_utime + used.ru_stime, answer


def shown(answer):
    claim, *rest = answer.splitlines() or [""]
    known = next((line.removeprefix("with identifiers: ") for line in rest if line.startswith("with identifiers: ")), "")
    return "; ".join(part.replace("*", "\\*") for part in (claim, known) if part)


def main(words):
    if not words:
        sys.exit(__doc__)
    explore, *names = words
    asked = names[:1] == ["given"]
    names = names[asked:]
    print("| Problem | `settle`, behind it | Seconds to the claim | to the end | Answer |")
    print("|---|---|---|---|---|")
    count, all_seconds = 0, 0.0
    for name, text in problems():
        if names and not any(part in name for part in names):
            continue
        for beside in inputs(text) if asked else [""]:
            claimed, seconds, answer = settled(explore, beside.split(), text)
            if answer.startswith("no: not an input"):
                continue
            count, all_seconds = count + 1, all_seconds + seconds
            if names or seconds >= 1:
                print(f"| {name} | {beside} | {claimed:.2f} | {seconds:.2f} | {shown(answer)} |", flush=True)
    print(f"\nAsked: {count}, in {all_seconds:.0f} seconds.")


if __name__ == "__main__":
    main(sys.argv[1:])
