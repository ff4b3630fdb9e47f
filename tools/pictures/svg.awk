# What all pictures share: the card, its colours, and the elements. Text is text, in a font of one width, each line as long as it is told to be.
BEGIN {
    ADVANCE = 0.6 # of the font's size, a character
}

function escaped(s) {
    gsub(/&/, "\\&amp;", s)
    gsub(/</, "\\&lt;", s)
    gsub(/>/, "\\&gt;", s)
    gsub(/"/, "\\&quot;", s)
    return s
}

# n without needless digits
function number(n) {
    n = sprintf("%.1f", n)
    sub(/\.0$/, "", n)
    return n
}

function begin(width, height, title, about) {
    printf "<svg xmlns=\"http://www.w3.org/2000/svg\" viewBox=\"0 0 %d %d\" width=\"%d\" height=\"%d\" ", width, height, width, height
    print "role=\"img\" aria-labelledby=\"t d\">"
    printf "<title id=\"t\">%s</title>\n<desc id=\"d\">%s</desc>\n", escaped(title), escaped(about)
    print "<style>"
    print "text { font-family: ui-monospace, SFMono-Regular, Menlo, Consolas, 'DejaVu Sans Mono', 'Liberation Mono', monospace;"
    print "fill: #aab6c2; white-space: pre }"
    print ".loud { fill: #f2f6fa } .quiet { fill: #8794a1 } .open { fill: #c9f7df } .bad { fill: #ffb4ab } .dark { fill: #10161d }"
    print "</style>"
    printf "<rect x=\"0.5\" y=\"0.5\" width=\"%d\" height=\"%d\" rx=\"10\" fill=\"#10161d\" stroke=\"#38434f\"/>\n", width - 1, height - 1
}

function finish() {
    print "</svg>"
}

function box(x, y, width, height, round, paint) {
    printf "<rect x=\"%s\" y=\"%s\" width=\"%s\" height=\"%s\"", number(x), number(y), number(width), number(height)
    printf "%s %s/>\n", (round ? " rx=\"" round "\"" : ""), paint
}

# text from x on, on the line y; class as above, or none
function text(x, y, size, class, s) {
    if (s == "")
        return
    printf "<text x=\"%s\" y=\"%s\" font-size=\"%s\"%s ", number(x), number(y), size, (class == "" ? "" : " class=\"" class "\"")
    printf "textLength=\"%s\" xml:space=\"preserve\">%s</text>\n", number(length(s) * size * ADVANCE), escaped(s)
}

# the same with its middle, or its end, at x
function centred(x, y, size, class, s) {
    text(x - length(s) * size * ADVANCE / 2, y, size, class, s)
}

function ended(x, y, size, class, s) {
    text(x - length(s) * size * ADVANCE, y, size, class, s)
}
