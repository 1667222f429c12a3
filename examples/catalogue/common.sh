# What the scripts of this folder share; each has the programs in $re and $explore.
# shellcheck shell=sh disable=SC2154

# A problem of a list as the programs read it.
problem_text() { printf '%s\n' "$1" | sed 's| / |\n\n|; s| |\n|g' | sed 's/./& /g; s/ $//'; }

# What `settle` answers, on standard input, as a table has it: the claim, the words that show it, the class, and the words that show this behind
# what the literature says. Words have `; ` between. A note on labels is no answer.
settled_line() {
    awk '/^note: / { next }
        NR == 1 { claim = $0; next }
        sub(/^with identifiers: /, "") { class = $0; next }
        { sub(/^by: /, "") }
        class == "" { by = by (by == "" ? "" : "; ") $0; next }
        { shown = shown (shown == "" ? "" : "; ") $0 }
        END { print claim "\t" by "\t" class "\t" shown }'
}

# Runs the words that a table names, as `explore merge 'A' 'B' | explore closure` or `explore closure with diagram A B`, on standard input.
run_words() {
    # shellcheck disable=SC2086
    case $1 in
    *' | '*) run_words "${1%% | *}" | run_words "${1#* | }";;
    *"'"*) run_words "$(printf '%s' "$1" | tr -d "'")";;
    *' with diagram '*) { cat; printf '== diagram\n%s\n' "${1#* with diagram }"; } | run_words "${1%% with diagram *}";;
    're '*) "$re" ${1#re };;
    'explore '*) "$explore" ${1#explore };;
    esac
}

# What has to be said of the answer of these words where they show this claim, or this class, as `order log N`; behind them stand all words of the
# line: where others show the upper bound, `explore rounds` says no more than the lower one.
wanted() {
    case $2 in
    're zero') echo yes;;
    'explore rounds '*' given '*) echo 'exactly, given that input';;
    'explore shortest '*' given '*) echo 'accepted: given that input, solvable';;
    'explore rounds '*)
        case "$1 by $3" in
        exactly*'; '*) echo "more than $(($(echo "$1" | sed 's/^exactly //; s/ .*//') - 1))";;
        *) echo "$1" | sed 's/ ([^)]*)//; s/,.*//';;
        esac;;
    're upper '* | 'explore shortest '* | *-upper.txt) echo "accepted: solvable in $(echo "$1" | sed 's/ ([^)]*)//g; s/^exactly //; s/.*at most //') rounds";;
    're lower '* | 'explore longest '* | *-lower.txt)
        case $1 in
        exactly*) echo "accepted: not solvable in $(($(echo "$1" | sed 's/^exactly //; s/ .*//') - 1)) or fewer rounds";;
        *) echo "accepted: not solvable in $(echo "$1" | sed 's/^more than //; s/[ ,].*//') or fewer rounds";;
        esac;;
    'explore cover '*) echo 'no: no solution on this graph, so not solvable in any number of rounds';;
    'explore greedy') echo 'greedy';;
    'explore flexible')
        case $1 in
        not*) echo 'not flexible';;
        'no solution') echo 'no solution';;
        'order N') echo 'not flexible: length 1';;
        'literature: '*) echo "not flexible: length $(echo "$1" | sed 's/.*(1.//; s/).*//')";;
        *) echo flexible;;
        esac;;
    *) echo 'accepted: not solvable in any number of rounds';;
    esac
}

# What `check` says of a certificate that is held, where it begins with this problem; for these, and for what it makes, there is a $folder.
held() {
    tar -xJOf "$here/certificates.tar.xz" "$2" > "$folder/held"
    sed '1d; /^==/,$d' "$folder/held" | "$re" read > "$folder/first"
    "$re" read < "$1" | cmp -s - "$folder/first" && "$re" check < "$folder/held"
}

# What is said of the answer of these words on the problem in this file, as the line above has it.
judged() {
    case $2 in
    're zero') run_words "$2" < "$1" | sed 's/^yes: .*/yes/';;
    'explore rounds '*' given '*) run_words "$2" < "$1" | sed 's/^exactly [0-9]*$/exactly, given that input/';;
    'explore shortest '*' given '*) run_words "$2" < "$1" | "$explore" given | sed 's/ in [0-9]* rounds$//';;
    'explore rounds '*) run_words "$2" < "$1" | sed 's/,.*//';;
    'explore cover '*) run_words "$2" < "$1" | "$explore" solve;;
    'explore greedy') run_words "$2" < "$1" | sed -n '1s/^greedy: .*/greedy/; 1p';;
    'explore flexible')
        case $3 in
        'order N' | literature*) run_words "$2" < "$1";;
        *) run_words "$2" < "$1" | sed 's/^\(not \)\{0,1\}flexible: .*/\1flexible/';;
        esac;;
    certificates/*) held "$1" "$2";;
    *) run_words "$2" < "$1" | "$re" check;;
    esac
}

# Runs the words, with `; ` between, that show a claim or a class of the problem in this file, and writes a line for each that fails, behind
# this name; counts them in $commands and $failed.
#     judge_all NAME FILE CLAIM WORDS
judge_all() {
    case $3 in 'order N') echo 'explore flexible';; *) echo "$4" | sed 's/; /\n/g';; esac > "$folder/by"
    told=$3
    while IFS= read -r words; do
        case $words in '') continue;; literature:*) told=$words; continue;; esac
        commands=$((commands + 1))
        said=$(judged "$2" "$words" "$told") || true
        if [ "$said" != "$(wanted "$told" "$words" "$4")" ]; then
            failed=$((failed + 1))
            echo "$1: $3, by $words: $said"
        fi
    done < "$folder/by"
}

# Cuts a list into parts of 50 lines, in the folder TABLE.parts, has `SCRIPT --part PART PROGRAMS` make PART.table of each, by GNU parallel,
# and puts these together as the table. A run that was broken off goes on with the parts that are left.
#     over_parts SCRIPT PROGRAMS LIST TABLE [OPTION OF PARALLEL]..
over_parts() {
    script=$1 programs=$2 list=$3 table=$4
    shift 4
    parts=$table.parts
    if [ -d "$parts" ]; then
        cat "$parts"/part.*[0-9] | cmp -s - "$list" || { echo "$script: $parts is of another list" >&2; exit 1; }
    else
        mkdir "$parts"
        split -l 50 -d -a 6 "$list" "$parts/part."
    fi
    case " $* " in *' --sshlogin'* | *' -S'* | *' --slf'*) set -- --transferfile {} --return {}.table --cleanup "$@";; esac
    parallel --joblog "$parts/jobs" --resume-failed "$@" "$script" --part {} "$programs" ::: "$parts"/part.*[0-9]
    cat "$parts"/part.*.table > "$table"
}
