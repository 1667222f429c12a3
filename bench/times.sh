#!/usr/bin/env bash
# Prints the processor seconds (user and system) that each built program takes for each input: times.sh FOLDER PROGRAM..
# The first program makes the certificates. A program that doesn't know a word or refuses an input answers at once. RUNS says how many
# runs the best is taken of, nine if it isn't set.
set -eu

folder=${1:?the folder to write into}
shift
here=$(cd "$(dirname "$0")" && pwd)
"$here/configurations.sh" "$folder"
"$here/rows.sh" "$folder"
"$here/lines.sh" "$folder"
"$here/certificates.sh" "$1" "$folder"
"$here/runs.sh" "$folder"

# The best of the runs with this input.
seconds() {
    from=$1
    shift
    for _ in $(seq "${RUNS:-9}"); do
        { TIMEFORMAT='%U %S'; time "$@" < "$from" > "$folder/answer" 2>&1 || true; } 2>&1
    done | awk '{ printf "%.3f\n", $1 + $2 }' | sort -n | head -n 1
}

while read -r words; do
    input=${words##* }
    command=${words% *}
    line=$(printf '%-44s' "$words")
    from=$folder/$input
    [ "$input" != - ] || from=/dev/null
    for program in "$@"; do
        # shellcheck disable=SC2086
        line="$line $(seconds "$from" "$program" $command)"
    done
    echo "$line"
done <<'END'
universal six-of-16.txt
diagram passive six-of-16.txt
merge six-of-16.txt
trim six-of-16.txt
check many-rows.txt
universal colours-8-triples.txt
step 1 colours-8-triples.txt
universal colours-11-edges.txt
universal colours-12-edges.txt
step 1 colours-12-edges.txt
universal apart.txt
universal all.txt
step 1 colours-6-edges.txt
step 1 colours-6-triples.txt
step 1 complements.txt
rounds 2 colours-6-edges.txt
check colours-6-lower.txt
read 16-labels-ascending.txt
read 16-labels-descending.txt
read 16-labels-scattered.txt
check ascending.txt
check descending.txt
check scattered.txt
read 27-labels-one-line.txt
read 27-labels-ascending.txt
read 27-labels-descending.txt
read 27-labels-scattered.txt
diagram passive six-of-27.txt
step 1 colours-7-edges.txt
step 1 colours-7-triples.txt
check colours-7-lower.txt
upper 64 1 sinkless.txt
lower 3 2 independent.txt
fixed 3 2 independent.txt
fixed 3 2 colours-3-edges.txt
make 6 -
make 7 -
run run-4096.txt
END
