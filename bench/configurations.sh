#!/bin/sh
# Writes three certificates of the largest constraints, which differ in the order of their lines alone.
set -eu

folder=${1:?the folder to write into}
mkdir -p "$folder"

# One line for each step: the configuration number (start + i * step) mod 65,536, as one label of each of five groups of letters
# and digits, 12, 12, 12, 13 and 13 of them in byte order. So lower numbers are lower configurations.
lines() {
    awk -v start="$1" -v step="$2" 'BEGIN {
        labels = "0123456789ABCDEFGHIJKLMNOPQRSTUVWXYZabcdefghijklmnopqrstuvwxyz"
        at = start
        for (i = 0; i < 65536; i++) {
            e = at % 13; rest = int(at / 13)
            d = rest % 13; rest = int(rest / 13)
            c = rest % 12; rest = int(rest / 12)
            b = rest % 12; a = int(rest / 12)
            printf "%s %s %s %s %s\n", substr(labels, a + 1, 1), substr(labels, 12 + b + 1, 1), substr(labels, 24 + c + 1, 1), substr(labels, 36 + d + 1, 1), substr(labels, 49 + e + 1, 1)
            at = (at + step) % 65536
        }
    }'
}

# Both blocks have these lines. An odd step reaches each number once.
certificate() {
    {
        printf '== certificate 1 lower\n'
        lines "$2" "$3"
        printf '\n'
        lines "$2" "$3"
        printf '== end\n'
    } > "$folder/$1.txt"
}

certificate ascending 0 1
certificate descending 65535 65535
certificate scattered 0 40503
