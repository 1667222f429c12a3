#!/bin/sh
# Runs the commands that the pages show against a built program, and compares what they print with what the pages show.
#
#     examples/session.sh RE EXPLORE
#
# Commands are the lines that begin with `$ ` in the blocks ```console of README.md, the tutorial and the gallery; `re` and `explore` are the
# programs.
# A line that ends in \ goes on in the next one. Behind a command stands what it prints; empty lines at the end don't count.
set -eu

program=$(realpath "${1:?the built program re}")
explore=$(realpath "${2:?the built program explore}")
cd "$(dirname "$0")/.."
folder=$(mktemp -d)
trap 'rm -rf "$folder"' EXIT
mkdir "$folder/bin"
ln -s "$program" "$folder/bin/re"
ln -s "$explore" "$folder/bin/explore"
PATH="$folder/bin:$PATH"
export PATH

# Files N.command and N.shown for each command of a page.
commands_of() {
    rm -f "$folder"/*.command "$folder"/*.shown
    awk -v folder="$folder" '
        /^```/ { inside = $0 == "```console"; shown = ""; next }
        !inside { next }
        goes_on { print > command; goes_on = /\\$/; next }
        /^\$ / {
            number++
            command = sprintf("%s/%04d.command", folder, number)
            shown = sprintf("%s/%04d.shown", folder, number)
            print substr($0, 3) > command
            printf "" > shown
            goes_on = /\\$/
            next
        }
        shown { print > shown }
    ' "$1"
}

# The text without empty lines at its end.
trimmed() {
    awk '/^$/ { empty++; next } { while (empty > 0) { print ""; empty-- } print }' "$1"
}

passed=0
failed=0
for page in README.md docs/TUTORIAL.md docs/TUTORIAL-tables.md examples/gallery/README.md; do
    commands_of "$page"
    for command in "$folder"/*.command; do
        [ -e "$command" ] || continue
        sh "$command" > "$folder/printed" 2>&1 || true
        trimmed "$folder/printed" > "$folder/found"
        trimmed "${command%.command}.shown" > "$folder/wanted"
        if cmp -s "$folder/found" "$folder/wanted"; then
            passed=$((passed + 1))
        else
            failed=$((failed + 1))
            echo "$page: $(cat "$command")"
            diff "$folder/wanted" "$folder/found" | head -20 || true
        fi
    done
done
echo "$passed commands print what the pages show, $failed do not"
[ "$failed" -eq 0 ]
