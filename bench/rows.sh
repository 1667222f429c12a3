#!/bin/sh
# Writes problems for `universal` and `step 1` into a folder.
set -eu

folder=${1:?the folder to write into}
mkdir -p "$folder"

# Colouring with N colours: active nodes of degree A see one colour, passive nodes of degree P see only different ones.
colouring() {
    awk -v n="$1" -v a="$2" -v p="$3" 'BEGIN {
        names = "123456789abcdefg"
        for (c = 1; c <= n; c++) printf "%s^%d\n", substr(names, c, 1), a
        printf "\n"
        for (x = 1; x <= n; x++) for (y = x + 1; y <= n; y++) {
            if (p == 2) printf "%s %s\n", substr(names, x, 1), substr(names, y, 1)
            else for (z = y + 1; z <= n; z++) printf "%s %s %s\n", substr(names, x, 1), substr(names, y, 1), substr(names, z, 1)
        }
    }'
}

for n in 3 4 5 6 7 8 11 12; do
    colouring "$n" 3 2 > "$folder/colours-$n-edges.txt"
done
for n in 4 5 6 7 8; do
    colouring "$n" 3 3 > "$folder/colours-$n-triples.txt"
done

# 1,024 configurations of degree 4, no two of which share three labels: each is a maximal row by itself.
awk 'BEGIN {
    names = "0123456789ABCDEFGHIJKLMNOPQRSTUVWXYZabcdefghijkl"
    print "0^2\n"
    for (i = 0; i < 8; i++) for (j = 0; j < 8; j++) for (k = 0; k < 16; k++)
        printf "%s %s %s %s\n", substr(names, i + 1, 1), substr(names, j + 9, 1), substr(names, k + 17, 1), substr(names, (i + j + k) % 16 + 33, 1)
}' > "$folder/apart.txt"

printf '[ABCDEFGHIJKLMNOP]^2\n\n[ABCDEFGHIJKLMNOP]^6\n' > "$folder/all.txt"
printf '[12345]^6\n\n1 [2345]\n2 [345]\n3 [45]\n4 5\n' > "$folder/complements.txt"
