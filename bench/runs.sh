#!/bin/sh
# Writes an input of `run` into a folder: an upper bound of 3 steps, a tree of N nodes (4,096 unless it is said) that is grown level by
# level, and all messages of all nodes.
set -eu

folder=${1:?the folder to write into}
nodes=${2:-4096}
mkdir -p "$folder"

awk -v n="$nodes" 'BEGIN {
    print "== certificate 1 upper\n[IO]^3\n\nI O\n== step\nA B\n\n[AB]^3\n== map\nA [I]\nB [O]"
    print "== step\nC^3\n\nC^2\n== map\nC [AB]\n== step\nD^2\n\nD^3\n== map\nD [C]\n== end\n== tree\nactive"
    active[0] = 1; used[0] = 0; to = 0
    for (v = 1; v < n; v++) {
        while (used[to] == (active[to] ? 3 : 2)) to++
        used[to]++
        print to, used[to], 1
        active[v] = !active[to]; used[v] = 1
    }
    print "== deliveries"
    for (j = 0; j < 3; j++) for (v = 0; v < n; v++) for (p = 1; p <= used[v]; p++) print v, p, j
}' > "$folder/run-$nodes.txt"
