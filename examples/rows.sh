#!/bin/sh
# Writes the rows of what the pages show, README.md, the tutorial and the gallery, into crates/rows/data/pages.txt.
# And the rows that damage the files of the examples, into crates/rows/data/damaged_files.txt.
#
#     examples/rows.sh
#
# Run it whenever a page, a file that it reads or a file of rows has changed: it writes the number of rows into crates/rows/stdout.
# It needs no built program.
# Taken are the lines `$ re WORDS < FILE` and `$ re WORDS < FILE | re WORDS` of the blocks ```console, also without a file, with `explore` in
# place of any `re`. Lines with other programs are run by session.sh alone. The exit code follows from the first line of the answer,
# and where that is `no solution` from the word.
set -eu
cd "$(dirname "$0")/.."

rows_of() {
    awk '
        function stop(why) { print "rows.sh: " FILENAME ": " why > "/dev/stderr"; failed = 1; exit 1 }

        # Writes the text of a file under a name, once, and gives the name.
        function name_of(file,    name, line, lines) {
            name = file
            sub(/.*\//, "", name)
            sub(/\.txt$/, "", name)
            if ((name in file_of) && file_of[name] != file) stop("two files named " name)
            if (!(name in file_of)) {
                file_of[name] = file
                while ((getline line < file) > 0) { print "<" line; lines++ }
                close(file)
                if (!lines) stop("no text in " file)
                print ":" name "\n"
            }
            return name
        }

        # `no solution` is No of `flexible`, and Done of `settle`.
        function code_of(line, words) {
            if (line ~ /^(no|no: .*|not found: .*|not flexible: .*|refused: .*)$/) return 1
            if (line == "no solution") return words ~ /explore flexible$/
            if (line ~ /^limit: /) return 4
            if (line ~ /^input: /) return 3
            if (line ~ /^words: /) return 2
            return 0
        }

        function end_command(    words, file, i, name, parts, count) {
            if (command == "") return
            words = command
            gsub(/ *\\ */, " ", words)
            command = ""
            count = split(words, parts, / \| /)
            for (i = 1; i <= count; i++) if (parts[i] !~ /^(re|explore) /) return
            file = ""
            if (match(words, / < [^ ]+/)) {
                file = substr(words, RSTART + 3, RLENGTH - 3)
                words = substr(words, 1, RSTART - 1) substr(words, RSTART + RLENGTH)
            }
            sub(/^re /, "", words)
            gsub(/ \| re /, " | ", words)
            if (words ~ /[<>]/) stop("not understood: " words)
            if (file) name = name_of(file)
            print "$" words
            if (file) print "@1 " name
            while (shown && answer[shown] == "") shown--
            for (i = 1; i <= shown; i++) print ">" answer[i]
            print "=" code_of(answer[1], words) "\n"
        }

        !inside && /^## / { print "# " substr($0, 4) ".\n"; next }
        /^```/ { end_command(); inside = $0 == "```console"; next }
        !inside { next }
        goes_on { command = command $0; goes_on = /\\$/; next }
        /^\$ / { end_command(); command = substr($0, 3); goes_on = /\\$/; shown = 0; next }
        { answer[++shown] = $0 }
        END { if (failed) exit 1 }
    ' "$@"
}

{
    echo '# == What the pages show: made by examples/rows.sh.'
    echo
    rows_of README.md docs/TUTORIAL.md docs/TUTORIAL-tables.md
    rows_of examples/gallery/README.md
} > crates/rows/data/pages.txt

# The files, each with the words that read it, and with how many places apart it is damaged: at each place where it is short.
# The drawing of a tree is for readers and left out.
examples_of() {
    find "$@" -name '*.txt' ! -name orientation-run-tree.txt | LC_ALL=C sort | xargs awk '
        function words_of() {
            if (text ~ /^<== certificate/ && text ~ /== tree/) return "run"
            if (text ~ /^<== certificate [12] upper/ && text !~ /== step.*== step/) return "check extract"
            if (text ~ /^<== certificate/) return "check"
            if (text ~ /^<== from/) return "relax rename"
            if (text ~ /<== (to|graph)/) return ""
            if (text ~ /== next/) return "slower"
            if (text ~ /^<== problem/) return "table faster"
            return "read"
        }

        function places_apart() {
            if (bytes <= 400) return 1
            if (bytes <= 2000) return 11
            if (bytes <= 20000) return 499
            return 1999
        }

        function end_file(    words, number, i) {
            if (!bytes) return
            number = split(words_of(), words, " ")
            for (i = 1; i <= number; i++) {
                print "# " file "\n$" words[i]
                printf "%s", text
                print "!damage " places_apart() "\n"
            }
            text = ""
            bytes = 0
        }

        FNR == 1 { end_file(); file = FILENAME }
        { text = text "<" $0 "\n"; bytes += length($0) + 1 }
        END { end_file() }
    '
}

{
    echo '# == The files of the examples, damaged: made by examples/rows.sh.'
    echo
    examples_of examples
} > crates/rows/data/damaged_files.txt

echo "rows as they should be: $(sed 's|^|crates/rows/data/|' crates/rows/args | xargs cat | grep -c '^[=~!]')" | tee crates/rows/stdout
