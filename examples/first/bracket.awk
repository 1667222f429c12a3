# Puts brackets around choices that stand without them, as on Round Eliminator's page: M PO becomes M [PO], and PO^2 becomes [PO]^2.
#
#     awk -f examples/first/bracket.awk PROBLEM > NEW
#
# A word of two labels or more is a choice; a label is one letter or digit, or a name in parentheses, and a power may stand behind it.
# Every other word stays as it is, and so do section lines.
/^==/ { print; next }
{
    line = $0
    written = ""
    while (match(line, /[^ \t\r]+/)) {
        written = written substr(line, 1, RSTART - 1)
        word = substr(line, RSTART, RLENGTH)
        line = substr(line, RSTART + RLENGTH)
        written = written bracketed(word)
    }
    print written line
}

function bracketed(word,    power, labels) {
    power = ""
    if (match(word, /\^[0-9]+$/)) {
        power = substr(word, RSTART)
        word = substr(word, 1, RSTART - 1)
    }
    labels = word
    gsub(/\([A-Za-z0-9_]+\)/, "L", labels)
    return (labels ~ /^[A-Za-z0-9][A-Za-z0-9]+$/ ? "[" word "]" : word) power
}
