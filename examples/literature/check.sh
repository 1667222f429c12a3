#!/bin/sh
# Runs the words that the table beside it names, on the problems of table.py, and has them judged as examples/catalogue/check.sh does; or those
# that `explore settle` names now, on the texts of a folder.
#
#     examples/literature/check.sh RE EXPLORE [FOLDER]
#
# It writes a line for each that fails, and at last how many problems there were and how many commands were run.
set -eu
# shellcheck disable=SC2034
here=$(dirname "$0") re=$(realpath "$1") explore=$(realpath "$2")
. "$here/../catalogue/common.sh"
folder=$(mktemp -d)
trap 'rm -rf "$folder"' EXIT

# Lines of a text's file, the claim, the words that show it, the class, and the words that show that, with tabs between.
if [ $# -gt 2 ]; then
    for text in "$3"/*.txt; do
        { "$explore" settle < "$text" || true; } | settled_line | sed "s|^|$text\t|"
    done
else
    mkdir "$folder/texts"
    "$here/table.py" --texts "$folder/texts"
    awk -F ' \\| ' -v texts="$folder/texts" 'NF > 7 && $1 != "| Problem" {
        name = tolower(substr($1, 3)); gsub(/[^a-z0-9]+/, "-", name); sub(/^-/, "", name); sub(/-$/, "", name)
        gsub(/`/, ""); gsub(/\\/, "")
        print texts "/" name ".txt\t" $4 "\t" $5 "\t" $6 "\t" $7
    }' "$here/README.md"
fi > "$folder/lines"

count=0 commands=0 failed=0
while IFS="$(printf '\t')" read -r text claim by class shown; do
    count=$((count + 1))
    judge_all "$(basename "$text")" "$text" "$claim" "$by"
    judge_all "$(basename "$text")" "$text" "$class" "$shown"
done < "$folder/lines"
echo "$count problems, $commands commands, $failed failed"
[ "$failed" = 0 ]
