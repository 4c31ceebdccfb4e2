# Draws what the program `report` printed as an SVG picture: for each program a bar of its bytes as tokens in five parts, over a bar of its listing's bytes; the total and what is saved
# in words; and what was refused. Names are text of UTF-8. The numbers are the report's own: nothing is computed here but sums in words and lengths of bars.
#
#   LC_ALL=C awk -f scripts/chart.awk part=words WORDS part=report REPORT >CHART.svg
#
# WORDS has the refusals, a number, a tab and its words to a line.

# A number with commas between its thousands.
function commas(n,    s) {
    s = sprintf("%d", n)
    while (s ~ /[0-9][0-9][0-9][0-9]/) sub(/[0-9][0-9][0-9]($|,)/, ",&", s)
    return s
}

# A count and its noun.
function counted(n, noun) {
    return commas(n) " " noun (n == 1 ? "" : "s")
}

# Text as XML.
function safe(s) {
    gsub(/&/, "\\&amp;", s)
    gsub(/</, "\\&lt;", s)
    gsub(/>/, "\\&gt;", s)
    gsub(/"/, "\\&quot;", s)
    gsub(/[\001-\037\177]/, "?", s)
    return s
}

# How many characters UTF-8 text has: its bytes without those that go on with one.
function size(s) {
    gsub(/[\200-\277]/, "", s)
    return length(s)
}

# The end of a text that is too long, as names differ there, after an ellipsis.
function short(s, most,    cut) {
    cut = size(s) > most
    while (size(s) > most - cut) {
        s = substr(s, 2)
        while (s ~ /^[\200-\277]/) s = substr(s, 2)
    }
    return (cut ? "\342\200\246" : "") s
}

function text(x, y, class, s) {
    printf "<text x=\"%d\" y=\"%d\" class=\"%s\">%s</text>\n", x, y, class, safe(s)
}

function bar(x, y, width, height, class) {
    if (width > 0) printf "<rect x=\"%.2f\" y=\"%d\" width=\"%.2f\" height=\"%d\" class=\"%s\"/>\n", x, y, width, height, class
}

# The least of 1, 2, 5, 10, 20, .. of which at most five are needed to pass n.
function step(n,    s, i) {
    s = 1
    i = 0
    while (s * 5 < n) s *= (i++ % 3 == 1 ? 2.5 : 2)
    return s
}

BEGIN {
    FS = "\t"
    parts = split("variables numbers strings raw all", class, " ")
    split("variables\tnumbers\tstrings\traw text\tall else", label, "\t")
}

part == "words" {
    words[$1] = $2
    next
}

# Fields are counted from the line's end, as a name may hold a tab.
$(NF - 1) == "refused" {
    number = $NF
    sub(/\trefused\t[0-9]+$/, "")
    refused[++refusals] = $0
    why[refusals] = number
    next
}

NF >= 10 {
    n = ++rows
    for (i = 1; i <= 9; i++) field[n, i] = $(NF - 9 + i)
    name[n] = $1
    for (i = 2; i <= NF - 9; i++) name[n] = name[n] "\t" $i
}

END {
    programs = rows - 1
    if (programs < 0) exit 1
    most = 0
    for (n = 1; n <= programs; n++) {
        if (field[n, 3] > most) most = field[n, 3] + 0
        if (field[n, 4] > most) most = field[n, 4] + 0
    }
    each = step(most)
    top = 132
    left = 250
    wide = 560
    high = 46
    bottom = top + programs * high + 8
    total = (programs ? bottom + 24 : top)
    below = total + 12 + refusals * 18 + (refusals ? 24 : 0)
    scale = (most ? wide / most : 0)

    store = field[rows, 3]
    listing = field[rows, 4]
    printf "<svg xmlns=\"http://www.w3.org/2000/svg\" viewBox=\"0 0 920 %d\" width=\"920\" height=\"%d\" role=\"img\" aria-label=\"What tokens save\">\n", below, below
    print "<style>"
    print "text { font-family: 'Helvetica Neue', Arial, 'Liberation Sans', sans-serif; font-size: 13px; fill: #222 }"
    print ".title { font-size: 20px; font-weight: bold } .words { font-size: 14px } .name { text-anchor: end } .small { font-size: 11px; fill: #555 } .tick { font-size: 11px; fill: #555; text-anchor: middle }"
    print ".paper { fill: #fff } .line { stroke: #ddd; stroke-width: 1 }"
    print ".variables { fill: #0072b2 } .numbers { fill: #e69f00 } .strings { fill: #009e73 } .raw { fill: #cc79a7 } .all { fill: #56b4e9 } .listing { fill: #b5b5b5 }"
    print "</style>"
    printf "<rect width=\"920\" height=\"%d\" class=\"paper\"/>\n", below
    text(24, 36, "title", "What tokens save")
    sum = counted(programs, "program") " of " counted(field[rows, 1], "line") ": " counted(store, "byte") " as tokens, " counted(listing, "byte") " as listings"
    text(24, 60, "words", sum ".")
    if (listing > store) text(24, 80, "words", sprintf("Tokens save %s, %.1f percent of the listings.", counted(listing - store, "byte"), 100 * (listing - store) / listing))
    else if (store > listing) text(24, 80, "words", sprintf("Tokens take %s more than the listings.", counted(store - listing, "byte")))
    else text(24, 80, "words", "Tokens and listings take the same.")

    x = 24
    for (i = 1; i <= parts; i++) {
        bar(x, 96, 12, 12, class[i])
        text(x + 17, 107, "small", label[i] ", " commas(field[rows, 4 + i]))
        x += 42 + 6.2 * length(label[i] ", " commas(field[rows, 4 + i]))
    }
    bar(x, 96, 12, 12, "listing")
    text(x + 17, 107, "small", "listing, " commas(listing))

    if (programs) {
        for (i = 0; i <= most; i += each) {
            printf "<line x1=\"%.2f\" y1=\"%d\" x2=\"%.2f\" y2=\"%d\" class=\"line\"/>\n", left + i * scale, top - 8, left + i * scale, bottom
            text(left + i * scale, bottom + 14, "tick", commas(i))
        }
    }
    for (n = 1; n <= programs; n++) {
        y = top + (n - 1) * high
        printf "<g><title>%s: %s as tokens, %s as a listing</title>\n", safe(name[n]), counted(field[n, 3], "byte"), counted(field[n, 4], "byte")
        text(left - 10, y + 21, "name", short(name[n], 30))
        x = left
        for (i = 1; i <= parts; i++) {
            bar(x, y, field[n, 4 + i] * scale, 15, class[i])
            x += field[n, 4 + i] * scale
        }
        text(x + 6, y + 12, "small", commas(field[n, 3]))
        bar(left, y + 17, field[n, 4] * scale, 15, "listing")
        text(left + field[n, 4] * scale + 6, y + 29, "small", commas(field[n, 4]))
        print "</g>"
    }
    if (refusals) {
        text(24, total + 18, "words", "Not read:")
        for (n = 1; n <= refusals; n++) text(24, total + 20 + n * 18, "small", short(refused[n], 70) ": refusal " why[n] ", " words[why[n]])
    }
    print "</svg>"
}
