#!/bin/sh
# Writes a table of three rounds that orients the edges, in degrees 3 and 2, into a folder: 13,824 lines, one for each view. Each edge leads
# out of its second end, whatever else a node sees.
set -eu

folder=${1:?the folder to write into}
mkdir -p "$folder"

awk 'BEGIN {
    print "== problem\n[IO]^3\n\nI O\n== table 3"
    # 24 branches with a back port at each port, the back port slowest
    for (a = 0; a < 24; a++) for (b = 0; b < 24; b++) for (c = 0; c < 24; c++)
        print (a < 12 ? "I" : "O") " " (b < 12 ? "I" : "O") " " (c < 12 ? "I" : "O")
}' > "$folder/orientation-table.txt"
