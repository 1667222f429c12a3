# Turns what `diagram active` or `diagram passive` prints into a text for Graphviz, which draws it:
#
#     PROGRAM diagram passive < PROBLEM | awk -f examples/first/diagram.awk | dot -Tsvg > PICTURE.svg
#
# A box is a class of labels that are equally strong; an arrow leads to the next stronger one.
BEGIN { print "digraph diagram {\n    rankdir=BT\n    node [shape=box, style=rounded]" }
$1 == "class" { labels = $0; sub(/^class /, "", labels); printf "    \"%s\" [label=\"%s\"]\n", $2, labels }
$1 == "edge" { printf "    \"%s\" -> \"%s\"\n", $2, $3 }
END { print "}" }
