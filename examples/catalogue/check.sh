#!/bin/sh
# Draws 200 lines of the tables by a fixed rule, runs the words that they name for the answer and for the class, and has `re check`,
# `explore solve` or `explore given` judge what these give, where it is no number of rounds, levels or steps.
#
#     examples/catalogue/check.sh RE EXPLORE [TABLE..]
#
# Drawn are the first 20 of the lines with `exactly 0`, and the first 180 of all others, in the order of the remainders of
# 7919 times the problem's number and 31 times the line's by 10007. It writes a line for each that fails, and at last how many lines were
# drawn and how many commands were run. Without a TABLE: those of this folder.
set -eu
# shellcheck disable=SC2034
here=$(dirname "$0") re=$(realpath "$1") explore=$(realpath "$2")
. "$here/common.sh"
shift 2
[ $# -gt 0 ] || set -- "$here"/*.tsv "$here"/*.tsv.xz
folder=$(mktemp -d)
trap 'rm -rf "$folder"' EXIT

for table in "$@"; do
    case $table in *.xz) xz -dc "$table";; *) cat "$table";; esac
done | awk -F '\t' '{ printf "%d\t%s\n", ($1 * 7919 + 31 * NR) % 10007, $0 }' | sort -n > "$folder/ordered"
{
    grep "$(printf '\texactly 0')" "$folder/ordered" | head -n 20
    grep -v "$(printf '\texactly 0')" "$folder/ordered" | head -n 180
} | cut -f2- > "$folder/drawn"

count=0 commands=0 failed=0
while IFS="$(printf '\t')" read -r number problem claim by class shown; do
    problem_text "$problem" > "$folder/problem"
    count=$((count + 1))
    judge_all "problem $number ($problem)" "$folder/problem" "$claim" "$by"
    judge_all "problem $number ($problem)" "$folder/problem" "$class" "$shown"
done < "$folder/drawn"
echo "$count lines, $commands commands, $failed failed"
[ "$failed" = 0 ]
