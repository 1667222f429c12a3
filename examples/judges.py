#!/usr/bin/env python3
"""Has texts of evidence judged by `explore judge` and by judge.py beside it, and compares what they say.

    examples/judges.py EXPLORE [N [FOLDER..]]

The texts are those that `explore evidence` writes of the problems of examples/literature/table.py, or of the texts in these folders; a certificate or
another text with a line `==` there is judged as it stands. A line has, with tabs between: the name; `same`, `OTHER`, or `late` where one of them, or
`evidence`, takes more than 60 seconds of processor time; and what is said, for `OTHER` by judge.py and by `explore`, with the exit codes. Then N of
these texts, 0 if that isn't said, are changed at random at one place each, the same ones in each run, and compared so, too. The last line counts; the
exit code is 1 where some answers differ. Where judge.py refuses with `clause END` or `yes:`, the first line alone is compared.

    examples/judges.py --rows

has judge.py judge the texts of the rows of `explore judge` in crates/rows/data, and compares with what they say.
"""
import pathlib
import random
import re
import resource
import signal
import subprocess
import sys
import tempfile

import evidence_texts
import judge

SECONDS = 60
HERE = pathlib.Path(__file__).parent


class Late(Exception):
    pass


def asked(explore, word, text):
    """What the program answers, and its exit code."""
    def bounded():
        resource.setrlimit(resource.RLIMIT_CPU, (SECONDS, SECONDS))

    run = subprocess.run([explore, word], input=text.encode("latin-1"), capture_output=True, preexec_fn=bounded, check=False)
    if run.returncode < 0:
        raise Late
    return run.stdout.decode("latin-1").rstrip("\n"), run.returncode


def judged(text):
    """What judge.py answers, and its exit code."""
    def stop(*_):
        raise Late

    signal.signal(signal.SIGPROF, stop)
    signal.setitimer(signal.ITIMER_PROF, SECONDS)
    try:
        return judge.judge(text)
    finally:
        signal.setitimer(signal.ITIMER_PROF, 0)


def evidence_of(explore, path):
    """The text itself, or what is written of its problem."""
    text = path.read_text("latin-1")
    return text if re.search("^==", text, re.MULTILINE) else asked(explore, "evidence", text)[0] + "\n"


def changed(text, chance):
    """The text with one change in one of its parts: a line left out, twice, or another line in its place; another byte; or another label, or none."""
    parts = judge.parts_of(text)
    at, how = chance.randrange(len(parts)), chance.randrange(8)
    lines = parts[at].split("\n")[:-1]
    line = chance.randrange(len(lines))
    if how < 3:
        lines[line:line + 1] = [[], [lines[line]] * 2, [chance.choice(lines)]][how]
    elif how == 3:
        place = chance.randrange(len(lines[line]) + 1)
        lines[line] = lines[line][:place] + chance.choice(["", "=", "0", "2", "^", "\n", chance.choice(parts[at])]) + lines[line][place + 1:]
    else:
        full = [it for it, words in enumerate(lines) if re.search(evidence_texts.LABEL, words) and not words.startswith("==")]
        line = chance.choice(full)
        chosen = chance.choice(list(re.finditer(evidence_texts.LABEL, lines[line])))
        new = chance.choice([*re.findall(evidence_texts.LABEL, lines[chance.choice(full)]), ""])
        lines[line] = lines[line][:chosen.start()] + new + lines[line][chosen.end():]
    parts[at] = "".join(f"{it}\n" for it in lines)
    return "=====\n".join(parts)


def is_same(ours, theirs):
    if ours[0].endswith(("clause END", "yes:")):
        return (ours[0], ours[1]) == (theirs[0].split("\n")[0], theirs[1])
    return ours == theirs


def compare(explore, name, text, counts):
    """Prints the line of a text, and counts it."""
    try:
        ours, theirs = judged(text), asked(explore, "judge", text)
        how = "same" if is_same(ours, theirs) else "OTHER"
        said = theirs[0] if how == "same" else f"{ours[0]} ({ours[1]}) and {theirs[0]} ({theirs[1]})"
    except Late:
        how, said = "late", ""
    counts[how] = counts.get(how, 0) + 1
    print(f"{name}\t{how}\t{said!r}", flush=True)


def rows():
    """The rows of `explore judge`: (file, comment, text, the answer and its exit code). The notation stands in crates/rows/src/script.rt."""
    data, named = HERE.parent / "crates/rows/data", {}
    for file in (data.parent / "args").read_text().split():
        text, wanted, words, comment = "", "", "", ""
        for line in (data / file).read_text("latin-1").split("\n"):
            sign, rest = line[:1], line[1:]
            times, _, what = rest.partition(" ")
            if sign == "#":
                comment = rest.strip()
            elif sign == "$":
                words = rest
            elif sign in ("<", "-", "\\"):
                text += rest + "\n" if sign == "<" else rest if sign == "-" else rest.replace("\\n", "\n").replace("\\r", "\r").replace("\\t", "\t")
            elif sign in ("*", "@"):
                text += (named[what] if sign == "@" else what + "\n") * int(times)
            elif sign == ":":
                named[rest], text = text, ""
            elif sign == ">":
                wanted += rest + "\n"
            elif sign in ("=", "~", "!"):
                if sign == "=" and words == "explore judge":
                    yield file, comment, text, (wanted.rstrip("\n"), int(rest))
                text, wanted = "", ""


def judge_rows():
    count = other = 0
    for file, comment, text, wanted in rows():
        ours = judged(text)
        count += 1
        if not is_same(ours, wanted):
            other += 1
            print(f"{file}: {comment}: {ours[0]!r} ({ours[1]}) and {wanted[0]!r} ({wanted[1]})")
    print(f"{count} rows, {other} OTHER")
    sys.exit(1 if other else 0)


def main(words):
    if words == ["--rows"]:
        judge_rows()
    if not words or words[0].startswith("-") or not all(word.isdecimal() for word in words[1:2]):
        sys.exit(__doc__)
    explore, number, folders = words[0], int((words[1:2] or [0])[0]), words[2:]
    with tempfile.TemporaryDirectory() as own:
        if not folders:
            subprocess.run([HERE / "literature/table.py", "--texts", own], check=True)
        paths = sorted(path for folder in folders or [own] for path in pathlib.Path(folder).glob("*.txt"))
        counts, texts = {}, {}
        for path in paths:
            try:
                texts[path.stem] = evidence_of(explore, path)
            except Late:
                print(f"{path.stem}\tlate", flush=True)
                continue
            compare(explore, path.stem, texts[path.stem], counts)
    chance = random.Random(1)
    for at in range(number):
        name = chance.choice(sorted(texts))
        compare(explore, f"{name} changed {at + 1}", changed(texts[name], chance), counts)
    print(f"{len(texts)} texts, {number} changed ones: " + ", ".join(f"{count} {how}" for how, count in sorted(counts.items())))
    sys.exit(1 if "OTHER" in counts else 0)


if __name__ == "__main__":
    main(sys.argv[1:])
