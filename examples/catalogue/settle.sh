#!/bin/sh
# Runs `explore settle` on a list of problems, over all cores, by GNU parallel (Debian's package `parallel`).
#
#     examples/catalogue/settle.sh EXPLORE LIST TABLE [OPTION OF PARALLEL]..
#
# EXPLORE is the program, LIST what problems.py prints, or some lines of it. TABLE becomes one line for each, in the same order, with tabs
# between: its number, the problem, the first line of the answer, the words that show it, with `; ` between, and what is known with unique
# identifiers and the words that show that, if further ones do, behind what the literature says, if anything.
#
# The list is cut into parts of 50 problems, in the folder TABLE.parts. A run that was broken off goes on with the parts that are left,
# by the log of jobs in there. With `--sshloginfile FILE` among the options other machines take parts too (the manual of GNU parallel says
# what FILE holds); EXPLORE and this folder have the same absolute paths there.
set -eu
tab=$(printf '\t')
. "$(dirname "$0")/common.sh"

# The line of the table for a problem.
line() {
    status=0
    answer=$(problem_text "$2" | "$explore" settle) || status=$?
    [ "$status" -le 1 ] || { echo "settle.sh: problem $1: exit code $status: $answer" >&2; exit 1; }
    printf '%s\t%s\t%s\n' "$1" "$2" "$(printf '%s\n' "$answer" | settled_line)"
}

if [ "${1:-}" = --part ]; then
    part=$2 explore=$3
    while IFS=$tab read -r number problem; do line "$number" "$problem"; done < "$part" > "$part.new"
    mv "$part.new" "$part.table"
    exit
fi

[ $# -ge 3 ] || { sed -n '2,/^set/s/^# \{0,1\}//p' "$0" >&2; exit 2; }
explore=$(realpath "$1") list=$2 table=$(realpath "$3")
shift 3
over_parts "$(realpath "$0")" "$explore" "$list" "$table" "$@"
