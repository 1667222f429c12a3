#!/usr/bin/env bash
# Prints the processor seconds (user and system) that `explore` takes: explore.sh FOLDER EXPLORE. It writes the inputs into the folder.
# `flexible` is asked on large problems, and on all problems of 3 labels in degrees 3 and 2, one program for each. What `settle` takes on the problems
# of the literature stands in examples/literature, whose script measures it.
set -eu

folder=${1:?the folder to write into}
explore=${2:?the built program}
here=$(cd "$(dirname "$0")" && pwd)
mkdir -p "$folder"

python3 - "$folder" <<'END'
import itertools
import sys

folder = sys.argv[1]


def names(count):
    return [f"(l{number})" for number in range(count)]


def write(name, active, passive):
    with open(f"{folder}/{name}.txt", "w", encoding="ascii") as text:
        text.write("\n".join(active) + "\n\n" + "\n".join(passive) + "\n")


# All multisets on both sides: of 69 labels in degrees 4 and 4, of 27 in degrees 6 and 6, of 128 in degrees 3 and 3.
for count, degree in ((69, 4), (27, 6), (128, 3)):
    every = ["[" + " ".join(names(count)) + "]^" + str(degree)]
    write(f"all-{count}", every, every)

# 64 blocks of two labels, each of which is flexible by itself alone.
blocks = [f"[{one} {two}]^6" for one, two in zip(names(128)[::2], names(128)[1::2])]
write("blocks-64", blocks, blocks)

# A path of 128 labels, of which each round of trimming takes the last one: two by two on each side.
path = names(128)
write("trimmed-128", [f"{path[i]} {path[i + 1]}^2" for i in range(0, 128, 2)], [f"{path[i]}^2 {path[i + 1]}" for i in range(1, 126, 2)])
END

seconds() {
    { TIMEFORMAT='%U %S'; time "$@" > "$folder/answer" 2> "$folder/fault" || true; } 2>&1 | awk '{ printf "%.2f", $1 + $2 }'
}

for name in all-69 all-27 all-128 blocks-64 trimmed-128; do
    printf '%-28s %s s  %s\n' "flexible $name" "$(seconds "$explore" flexible < "$folder/$name.txt")" "$(head -c 40 "$folder/answer" | head -n 1)"
done

# The texts first, so that their writing isn't counted.
mkdir -p "$folder/three"
python3 - "$here/../examples/catalogue" "$folder/three" <<'END'
import lzma
import sys

catalogue, folder = sys.argv[1:]
for line in lzma.open(f"{catalogue}/3-3-2.tsv.xz", "rt", encoding="utf-8"):
    number, problem = line.split("\t")[:2]
    sides = (" ".join(config) for side in problem.split(" / ") for config in [*side.split(), ""])
    with open(f"{folder}/{int(number):04}.txt", "w", encoding="ascii") as text:
        text.write("\n".join(sides).rstrip() + "\n")
END
all_of_three() { for text in "$folder"/three/*.txt; do "$explore" flexible < "$text" || true; done; }
printf '%-28s %s s  %s problems\n' "flexible, 3 labels" "$(seconds all_of_three)" "$(ls "$folder/three" | wc -l)"
