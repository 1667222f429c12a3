#!/bin/sh
# Runs `evidence` on problems, has `judge` read what it writes and each part judged by its own word, and prints a table of what `settle` and `judge` say.
#
#     examples/evidence.sh EXPLORE RE [FOLDER]
#
# The problems are the texts of the FOLDER, or those of examples/literature/table.py. A line has, with tabs between: the name; the claim and the class of
# `settle`; those of `judge`; how many parts there are; and `same`, `less` where `judge` says something else, or `FAILED` where `judge` refuses the text, or
# the word of a part that part: `re check` a certificate, `explore given` one with an input problem, `explore solve` a graph. The last line counts. It is run by
# hand: on each problem `settle` runs twice. judges.py beside it has the texts judged by a second program, judge.py, too, and texts that are damaged.
set -eu
here=$(dirname "$0") explore=$(realpath "$1") re=$(realpath "$2")
folder=$(mktemp -d)
trap 'rm -rf "$folder"' EXIT
if [ $# -gt 2 ]; then
    texts=$(realpath "$3")
else
    texts=$folder/texts
    mkdir "$texts"
    "$here/literature/table.py" --texts "$texts"
fi

# The claim and the class of an answer, on standard input, in one line. Of a problem without a solution `settle` names no class.
said() {
    awk 'sub(/^with identifiers: /, "") { class = $0; next }
        NR == 1 { claim = $0 }
        END { if (claim == "no solution") print "no solution"; else if (class == "no solution") print class; else print claim "; " class }'
}

# Whether the word of the part, of this file, says yes to it.
part_holds() {
    if grep -q '^== graph$' "$1"; then
        { "$explore" solve < "$1" || true; } | grep -q '^no: no solution on this graph'
    elif grep -q '^== given$' "$1"; then
        "$explore" given < "$1" | grep -q '^accepted'
    elif grep -q '^== \(flexible\|length\|greedy\)$' "$1"; then
        true
    else
        "$re" check < "$1" | grep -q '^accepted'
    fi
}

count=0 same=0 failed=0
for text in "$texts"/*.txt; do
    rm -f "$folder"/part-*
    settled=$({ "$explore" settle < "$text" || true; } | said)
    how=less
    if "$explore" evidence < "$text" > "$folder/evidence" && "$explore" judge < "$folder/evidence" > "$folder/judged"; then
        judged=$(sed 's/^holds: //' "$folder/judged" | said)
        [ "$judged" != "$settled" ] || how=same
    else
        judged=$(head -n 1 "$folder/judged") how=FAILED
    fi
    awk -v name="$folder/part-" 'BEGIN { number = 1 } $0 == "=====" { number++; next } { print > (name number) }' "$folder/evidence"
    parts=0
    for part in "$folder"/part-*; do
        [ -f "$part" ] || continue
        parts=$((parts + 1))
        part_holds "$part" || how=FAILED
    done
    printf '%s\t%s\t%s\t%s\t%s\n' "$(basename "$text" .txt)" "$settled" "$judged" "$parts" "$how"
    count=$((count + 1))
    case $how in same) same=$((same + 1));; FAILED) failed=$((failed + 1));; esac
done
echo "$count problems, $same with the same, $failed failed"
[ "$failed" = 0 ]
