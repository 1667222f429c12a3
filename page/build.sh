#!/usr/bin/env bash
# Makes page/workbench.html: each program proved and compiled to WebAssembly, and put into one file with the page and the examples.
#
#     page/build.sh [--unproved] [PROGRAM..]
#
# PROGRAM is the name of a crate that is a program; none: those of the list below. The proofs are those of `rt ci`, of the crates that
# the programs are made of, as they stand in the last commit: what it kept on this machine isn't proved again, so behind a gate this
# takes a few minutes. --unproved builds without proofs what stands here, for work on the page, and says so in the file. What stands
# in page/out is made anew only where its sources changed.
set -euo pipefail
cd "$(dirname "$0")/.."
how=
[ "${1:-}" != --unproved ] || { how=--unproved; shift; }
[ $# -gt 0 ] || set -- re explore
mkdir -p page/out

# What the programs are built from: the last commit that touched it, and whether files differ from it.
sources=(crates crates.txt HANDLES)
commit=$(git log -1 --format=%H -- "${sources[@]}")
changed=
[ -z "$(git status --porcelain -- "${sources[@]}")" ] || changed=' with changes'
if [ -z "$how" ] && [ -n "$changed" ]; then echo "build.sh: commit what has changed in ${sources[*]} first, or take --unproved" >&2; exit 1; fi
built="built by the kit $(rt version | sed 's/ .*//') from commit $commit$changed"
[ -z "$how" ] || built="$built, without running its proof"
sum=$( (git ls-files -co --exclude-standard -z -- "${sources[@]}" | sort -z | xargs -0 cat; cat page/host.c page/wasm.sh; rt version; echo "$how") | sha256sum)

# A folder with the crates that the programs are made of alone, in which `rt ci` proves them.
proved=
prove() {
    local name
    proved=$(mktemp -d)
    trap 'rm -rf "$proved"' EXIT
    mkdir "$proved/.git"
    git archive HEAD -- "${sources[@]}" | tar -x -C "$proved"
    # A crate is wanted where a program, or a wanted crate, names it.
    awk -v programs="$*" '
        { sub(/#.*/, "") } /:/ { split($0, part, ":"); line[part[1]] = $0; libraries[part[1]] = part[2] }
        function want(name, list, n, i) { if (!(name in line) || name in wanted) return; wanted[name]; n = split(libraries[name], list, " "); for (i = 1; i <= n; i++) want(list[i]) }
        END { n = split(programs, names, " "); for (i = 1; i <= n; i++) want(names[i]); for (name in wanted) print line[name] }
    ' crates.txt > "$proved/crates.txt"
    for name in "$proved"/crates/*; do
        grep -q "^${name##*/}[ :]" "$proved/crates.txt" || rm -r "$name"
    done
    (cd "$proved" && rt ci) > page/out/proof.log 2>&1 || { tail -20 page/out/proof.log >&2; echo 'build.sh: not proved: page/out/proof.log tells more' >&2; exit 1; }
    grep '^rt: ok' page/out/proof.log
}

programs=()
for name in "$@"; do
    if [ ! -s "page/out/$name.wasm" ] || [ "$(cat "page/out/$name.sources" 2> /dev/null)" != "$sum" ]; then
        if [ -n "$how" ]; then
            page/wasm.sh "crates/$name" "page/out/$name.wasm" --unproved "page/out/$name"
        else
            [ -n "$proved" ] || prove "$@"
            page/wasm.sh "$proved/crates/$name" "page/out/$name.wasm"
            cp "$proved/crates/$name/out/$name" "page/out/$name"
        fi
        echo "$sum" > "page/out/$name.sources"
    fi
    programs+=("$name=page/out/$name.wasm=$built")
done
node page/bundle.mjs page/workbench.html "${programs[@]}"
