#!/usr/bin/env bash
# Tests page/workbench.html against the built program: one line for each part, then 'N passed, M failed', and the exit status by it.
#
#     page/test.sh [PART..]
#
# PART is file, program, cli, texts, drawn, chains, page, access, damage or large; none: all of them. firefox is a further one, for a machine with
# Debian's firefox-esr. The programs are $RE and $EXPLORE, or those that
# `page/build.sh` leaves in page/out, or those that `rt run` leaves in crates/re/out and crates/explore/out. PICTURES=folder keeps the pictures of README. DAMAGED and CHAINS are how many
# certificates are damaged and chains made. PAUSE is the longest pause in ms that `large` lets pass. JOBS is how
# many rows `cli` runs at once, and with EACH=n it and `program` take each n-th row alone.
set -uo pipefail
cd "$(dirname "$0")"
for name in re explore; do
    variable=${name^^}
    for program in "${!variable:-}" "out/$name" "../crates/$name/out/$name"; do
        [ -z "$program" ] || [ ! -x "$program" ] || { declare -x "$variable=$(realpath "$program")"; break; }
    done
    [ -x "${!variable:-}" ] || { echo "test.sh: no built program $name: build it by page/build.sh, or name it as $variable" >&2; exit 1; }
done
for tool in node chromium; do
    command -v $tool > /dev/null || { echo "test.sh: Debian's package of $tool is needed" >&2; exit 1; }
done

[ $# -gt 0 ] || set -- file program cli texts drawn chains page access damage large
passed=0 failed=0
for part in "$@"; do
    test=$part
    [ "$part" != file ] || test=bundle
    flags=(--test-reporter=tap)
    [ "$part" != firefox ] || flags+=(--experimental-websocket)
    said=$(node "${flags[@]}" "test/$test.test.mjs" 2>&1) || true
    if [[ $said =~ [$'\n']'# pass '([0-9]+).*'# fail '([0-9]+) ]] && [ $((BASH_REMATCH[1] + BASH_REMATCH[2])) -gt 0 ]; then
        passed=$((passed + BASH_REMATCH[1])) failed=$((failed + BASH_REMATCH[2]))
        line="$part: ${BASH_REMATCH[1]} passed, ${BASH_REMATCH[2]} failed"
        # What is told of tests that passed, and all of those that failed.
        [ "${BASH_REMATCH[2]}" = 0 ] || awk '/^ *(not )?ok /{ shown = /not ok/ } shown' <<< "$said"
        sed -n 's/^# \([^:]* \(rows\|pause\|accepted\|refused\|proof\|input\)\)/'"$part"': \1/p' <<< "$said"
        echo "$line"
    else
        failed=$((failed + 1))
        echo "$said"
        echo "$part: it did not end"
    fi
done
echo "$passed passed, $failed failed"
[ $failed = 0 ] && [ $passed -gt 0 ]
