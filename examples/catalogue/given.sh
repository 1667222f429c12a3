#!/bin/sh
# What is known of the problems of a table where the solution of an input problem is given, over all cores, by GNU parallel.
#
#     examples/catalogue/given.sh RE EXPLORE TABLE GIVEN [OPTION OF PARALLEL]..
#
# TABLE is one that settle.sh made. GIVEN becomes one line for each of its problems, in the same order, with tabs between: its number, and
# what is known given `both`, `sides`, `edges` and `colouring` with 4 colours, in hops: what `explore settle` answers, `never` for what is
# not solvable in any number of rounds, or `?`; or `never` where `explore given` accepts the fixed point that the table's words find, which
# comes first; where the table names `explore flexible`, that of `re fixed 4 0`, or else of `explore closure`. What 0 hops solve alone they
# solve given anything.
# `-`: there is no such input problem, as sides where passive nodes have another degree than 2.
#
# Parts, a run that was broken off, and other machines: as for settle.sh, in the folder GIVEN.parts.
set -eu
tab=$(printf '\t')
. "$(dirname "$0")/common.sh"

# The problem in the folder with the input problem behind it, or its fixed point with it.
with_input() { cat "$folder/$1"; echo '== given'; cat "$folder/input"; }

# What is known of it given the input problem with this name.
known() {
    # shellcheck disable=SC2086
    if ! "$explore" input $1 > "$folder/input"; then
        printf '\t-'
    elif [ -s "$folder/fixed" ] && with_input fixed | "$explore" given > "$folder/answer"; then
        printf '\tnever'
    else
        with_input problem | "$explore" settle > "$folder/answer" || true
        printf '\t%s' "$(sed -n '1s/ ([^)]*)//g; 1s/ given that input$//; 1s/^not solvable.*/never/; 1s/^limit:.*/?/; 1p' "$folder/answer")"
    fi
}

# The line for a problem: its number, its text, the first line of the table's answer, and the words that show it.
line() {
    problem_text "$2" > "$folder/problem"
    : > "$folder/fixed"
    case $3 in
    'exactly 0'*) printf '%s\texactly 0\texactly 0\texactly 0\texactly 0\n' "$1"; return;;
    not*)
        case $4 in
        'explore cover'*) ;;
        'explore flexible')
            "$re" fixed 4 0 < "$folder/problem" > "$folder/fixed" || "$explore" closure < "$folder/problem" > "$folder/fixed" || : > "$folder/fixed";;
        *) run_words "$4" < "$folder/problem" > "$folder/fixed";;
        esac;;
    esac
    active=${2%% *} passive=${2##* }
    degrees="${#active} ${#passive}"
    printf '%s%s%s%s%s\n' "$1" "$(known "both $degrees")" "$(known "sides $degrees")" "$(known "edges $degrees")" "$(known "colouring $degrees 4")"
}

if [ "${1:-}" = --part ]; then
    part=$2 re=${3%%:*} explore=${3#*:}
    folder=$(mktemp -d)
    trap 'rm -rf "$folder"' EXIT
    while IFS=$tab read -r number problem claim by class shown; do line "$number" "$problem" "$claim" "$by"; done < "$part" > "$part.new"
    mv "$part.new" "$part.table"
    exit
fi

[ $# -ge 4 ] || { sed -n '2,/^set/s/^# \{0,1\}//p' "$0" >&2; exit 2; }
re=$(realpath "$1") explore=$(realpath "$2") list=$3 table=$(realpath "$4")
shift 4
over_parts "$(realpath "$0")" "$re:$explore" "$list" "$table" "$@"
