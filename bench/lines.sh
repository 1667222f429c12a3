#!/bin/sh
# Writes problems of many lines into a folder: all multisets of so many of the first letters, one a line, in three orders.
set -eu

folder=${1:?the folder to write into}
mkdir -p "$folder"

# All multisets of D of N labels as lines, in ascending order of the configurations.
multisets() {
    awk -v n="$1" -v d="$2" 'BEGIN {
        names = "ABCDEFGHIJKLMNOPQRSTUVWXYZabcdefghijklmnopqrstuvwxyz"
        for (i = 1; i <= d; i++) at[i] = 1
        while (1) {
            line = substr(names, at[1], 1)
            for (i = 2; i <= d; i++) line = line " " substr(names, at[i], 1)
            print line
            i = d
            while (i > 0 && at[i] == n) i--
            if (i == 0) break
            next_label = at[i] + 1
            for (; i <= d; i++) at[i] = next_label
        }
    }'
}

# The lines in another order that is the same on each machine: the one after so many, round and round.
scattered() {
    awk -v step="$1" '{ line[NR - 1] = $0 } END { at = 0; for (i = 0; i < NR; i++) { print line[at]; at = (at + step) % NR } }'
}

for size in "16 5 7919" "27 6 500009"; do
    set -- $size
    multisets "$1" "$2" > "$folder/lines"
    for order in ascending descending scattered; do
        case $order in
            ascending) cat "$folder/lines" ;;
            descending) tac "$folder/lines" ;;
            scattered) scattered "$3" < "$folder/lines" ;;
        esac > "$folder/order"
        { cat "$folder/order"; printf '\nA^2\n'; } > "$folder/$1-labels-$order.txt"
    done
done
rm "$folder/lines" "$folder/order"

printf '[ABCDEFGHIJKLMNOPQRSTUVWXYZa]^6\n\nA^2\n' > "$folder/27-labels-one-line.txt"
printf '[ABCDEFGHIJKLMNOP]^6\n\n[ABCDEFGHIJKLMNOP]^6\n' > "$folder/six-of-16.txt"
printf '[ABCDEFGHIJKLMNOPQRSTUVWXYZa]^6\n\n[ABCDEFGHIJKLMNOPQRSTUVWXYZa]^6\n' > "$folder/six-of-27.txt"
printf 'O I^2\n\nI [IO]\n' > "$folder/sinkless.txt"
printf 'M^3\nP O^2\n\nM [PO]\nO^2\n' > "$folder/independent.txt"
