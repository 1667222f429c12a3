#!/usr/bin/env bash
# Refuses memory to the built program, at each of its requests in turn and then from each on: memory.sh PROGRAM FOLDER [explore]
# For each command it prints how many requests there are, and how many refusals were answered by status 7 with nothing written, or of
# `settle` with the first lines of the answer, by the whole answer, and otherwise. It ends with status 1 where a refusal was answered otherwise, or by the whole answer at more than one
# request: `main` asks for room for all of its words ahead, and goes on without it.
set -eu

program=$(realpath "${1:?the built program}")
folder=$(realpath "${2:?the folder to write into}")
commands=${3:-re}
cd "$(dirname "$0")/../examples"

# A library in front of the C library's: it refuses request number FAIL_AT, with FAIL_ON all behind it too, and makes the file
# REFUSED when it does.
cat > "$folder/refuse.c" <<'END'
#include <fcntl.h>
#include <stdlib.h>
#include <unistd.h>

extern void *__libc_malloc(size_t);
extern void *__libc_realloc(void *, size_t);

static long at = -1;
static int on;
static long count;

static int refuses(void) {
    if (at < 0) {
        const char *text = getenv("FAIL_AT");
        at = text ? atol(text) : 0;
        on = getenv("FAIL_ON") != 0;
    }
    count++;
    if (at == 0 || count < at || (count > at && !on)) return 0;
    const char *file = getenv("REFUSED");
    if (file && count == at) close(open(file, O_CREAT | O_WRONLY, 0600));
    return 1;
}

void *malloc(size_t size) { return refuses() ? 0 : __libc_malloc(size); }
void *realloc(void *old, size_t size) { return refuses() ? 0 : __libc_realloc(old, size); }
END
printf '== from\n[IO]^3\n\nI O\n== to\nA B\n\n[AB]^3\n== map\nA [I]\nB [O]\n' > "$folder/restricted.txt"
cat problems/maximal-matching-4.txt family/first.txt > "$folder/bridge.txt"
printf 'A B\nC D\n\nA B\nC D\n' > "$folder/twice.txt"
printf 'A^3\nB^2 C\n\nA C\nB^2\n== diagram\nA C\n' > "$folder/diagram.txt"
for name in first/sinkless.txt gallery/sinkless-orientation-3.txt; do
    { cat "$name"; printf '== given\n1^3\n2^3\n\n1 2\n'; } > "$folder/given-$(basename "$name")"
done
"${CC:-cc}" -O2 -shared -fPIC -o "$folder/refuse.so" "$folder/refuse.c"

# Runs the words on the input with request number $1 refused; the text goes to the file `found`, the status to `status`.
refused() {
    rm -f "$folder/refused"
    status=0
    # shellcheck disable=SC2086
    env FAIL_AT="$1" REFUSED="$folder/refused" LD_PRELOAD="$folder/refuse.so" ${2:+FAIL_ON=1} \
        "$program" $words < "$input" > "$folder/found" 2> "$folder/errors" || status=$?
}

# Whether nothing is written, or of `settle` the first lines of the whole answer.
is_begun() {
    [ -s "$folder/found" ] || return 0
    case $words in
        settle*) head -n "$(wc -l < "$folder/found")" "$folder/sure" | cmp -s - "$folder/found" ;;
        *) return 1 ;;
    esac
}

wrong=0
# Refuses each request of the words in turn, or from each on.
try() {
    number=0
    none=0
    whole=0
    other=0
    while :; do
        number=$((number + 1))
        refused "$number" "$1"
        [ -e "$folder/refused" ] || break
        if [ "$status" -eq 7 ] && is_begun && [ ! -s "$folder/errors" ]; then
            none=$((none + 1))
        elif [ "$status" -eq "$sure" ] && cmp -s "$folder/found" "$folder/sure" && [ ! -s "$folder/errors" ]; then
            whole=$((whole + 1))
        else
            other=$((other + 1))
            echo "$words: request $number${1:+ and on}: status $status" >&2
        fi
    done
    # behind the last request nothing is refused
    if [ "$status" -ne "$sure" ] || ! cmp -s "$folder/found" "$folder/sure"; then
        other=$((other + 1))
    fi
    [ "$whole" -le 1 ] || other=$((other + whole))
    wrong=$((wrong + other))
}

# The commands of each program: an input, of the examples or of the folder, and the words.
commands_of_re() {
    cat <<'END'
first/orientation-lower.txt check
first/sinkless-fixed.txt check
first/orientation-upper.txt check
first/colouring-refused.txt check
gallery/maximal-independent-set-3-lower.txt check
first/sinkless.txt check
first/sinkless.txt read
first/sinkless-fixed.txt read
first/sinkless.txt zero
first/sinkless.txt rounds 3
first/sinkless.txt step 2
first/independent.txt universal
first/independent.txt diagram active
first/independent.txt diagram passive
first/independent.txt merge
problems/proposals.txt trim
first/sinkless-derived.txt relax
first/sinkless-derived.txt rename
restricted.txt restrict
tables/orientation-by-ports.txt table
tables/orientation-clash.txt table
tables/orientation-by-ports.txt faster
tables/edges.txt slower
first/orientation-upper.txt extract
first/orientation-run.txt run
tables/tree-early.txt run
first/sinkless.txt lower 2 0
problems/orientation.txt upper 1 0
first/sinkless.txt upper 1 0
first/sinkless.txt fixed 2 0
/dev/null family mis 3 2 0
/dev/null make 3
/dev/null make 12
/dev/null step 0
END
}

commands_of_explore() {
    cat <<'END'
first/sinkless.txt begin lower
first/orientation-lower.txt last
first/sinkless.txt step
gallery/maximal-independent-set-3-lower.txt tidy
first/colouring-refused.txt why
first/independent.txt longest 2 6
first/sinkless.txt cycle 3 0 100
gallery/two-colouring-3.txt closure
diagram.txt closure
bridge.txt bridge
family/itself.txt bridge
twice.txt reduce
first/sinkless.txt settle
problems/orientation.txt shortest 2 4
first/sinkless.txt merge I O
first/sinkless.txt cover 2
gallery/three-colouring-2-graph.txt solve
given-sinkless.txt fit
given-sinkless.txt rounds 2
given-sinkless.txt product
given-sinkless-orientation-3.txt given
/dev/null input edges 3 2
first/sinkless.txt describe
gallery/maximal-matching-4-lower.txt describe
first/colouring-refused.txt describe
END
}

printf '%-20s %-52s %8s %8s %8s %8s\n' words input requests 'status 7' whole other
while read -r name words; do
    input=$name
    [ -e "$input" ] || input=$folder/$name
    sure=0
    # shellcheck disable=SC2086
    "$program" $words < "$input" > "$folder/sure" || sure=$?
    for on in '' on; do
        try "$on"
        printf '%-20s %-52s %8s %8s %8s %8s\n' "$words" "$name${on:+, and on}" $((number - 1)) "$none" "$whole" "$other"
    done
done < <("commands_of_$commands")
[ "$wrong" -eq 0 ]
