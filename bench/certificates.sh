#!/bin/sh
# Writes certificates for `check` into a folder, with the help of the built program.
set -eu

program=${1:?the built program}
folder=${2:?the folder to write into}
mkdir -p "$folder"

# Colouring with N colours: active nodes of degree 3 see one colour, passive nodes of degree 2 see two.
colouring() {
    awk -v n="$1" 'BEGIN {
        names = "123456789abcdefg"
        for (c = 1; c <= n; c++) printf "%s^3\n", substr(names, c, 1)
        printf "\n"
        for (x = 1; x <= n; x++) for (y = x + 1; y <= n; y++) printf "%s %s\n", substr(names, x, 1), substr(names, y, 1)
    }'
}

# A lower bound of one step from a problem to its derived problem.
one_step() {
    printf '== certificate 1 lower\n'
    cat "$1"
    printf '== step\n'
    "$program" step 1 < "$1" | sed '1,/^$/d'
    printf '== rows\n'
    "$program" universal < "$1"
    printf '== map\n'
    "$program" step 1 < "$1" | sed '/^$/,$d' | awk '{ print $3, $1 }'
    printf '== end\n'
}

for n in 3 4 5 6 7; do
    colouring "$n" > "$folder/colours-$n.txt"
    one_step "$folder/colours-$n.txt" > "$folder/colours-$n-lower.txt"
done

# 1,024 rows of six sets each, all 6,144 sets different and of eight of 16 labels, where every multiset is passive.
awk 'BEGIN {
    names = "ABCDEFGHIJKLMNOP"
    print "== certificate 1 lower\nA^2\n\n[ABCDEFGHIJKLMNOP]^6\n== step\nA^6\n\nA^2\n== rows"
    sets = 0
    for (number = 0; sets < 6144; number++) {
        count = 0; text = ""; rest = number
        for (label = 1; label <= 16; label++) {
            if (rest % 2 == 1) { count++; text = text substr(names, label, 1) }
            rest = int(rest / 2)
        }
        if (count == 8) {
            all[sets] = "[" text "]"
            sets++
        }
    }
    for (row = 0; row < 1024; row++) {
        line = all[6 * row]
        for (place = 1; place < 6; place++) line = line " " all[6 * row + place]
        print line
    }
    print "== map"
    for (set = 0; set < 6144; set++) print all[set] " A"
    print "== end"
}' > "$folder/many-rows.txt"

# A lower bound of 64 steps, to and fro between two problems.
awk 'BEGIN {
    print "== certificate 1 lower\nA B\n\nA^2 B\nA B^2\nB^3"
    for (step = 0; step < 64; step++)
        if (step % 2 == 0) print "== step\nA B^2\n\nA B\nB^2\n== rows\n[B] [AB]^2\n== map\n[B] A\n[AB] B"
        else print "== step\nA B\n\nA^2 B\nA B^2\nB^3\n== rows\n[B] [AB]\n== map\n[B] A\n[AB] B"
    print "== end"
}' > "$folder/many-steps.txt"
