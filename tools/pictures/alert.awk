# The report of alert as a picture: some of the host's bytes around the one refused, the page with its open and guarded cells, and what members
# are sent.
# Before the report come the bytes of the stream, one a line, as byte 233.
BEGIN {
    SIZE = 16; CELL = SIZE * ADVANCE; LINE = 24; EDGE = 28
    COLUMNS = 80
    WIDTH = 2 * EDGE + COLUMNS * CELL
    split("NUL SOH STX ETX EOT ENQ ACK BEL BS HT LF VT FF CR SO SI DLE DC1 DC2 DC3 DC4 NAK SYN ETB CAN EM SUB ESC FS GS RS US", name, " ")
}

/^byte / { bytes[++count] = $2 + 0; if ($2 >= 128 && !refused) refused = count; next }
/bytes from the host$/ { next }
/^   \+/ { framed++; next }
framed == 0 && /^    / { message = substr($0, 5) }
framed == 1 && /^ *[0-9]+ \|/ { rows++; row[rows] = substr($0, 1, 2); cells[rows] = substr($0, 5, COLUMNS); next }
framed == 1 && /^ +\|/ { marks[rows] = substr($0, 5, COLUMNS); next }
framed == 2 && /^    \[/ { keys = substr($0, 5); next }
framed == 2 && /^ +rows .* empty$/ { sub(/^ +/, ""); empty = $0; next }
/^Guarded / { sub(/^Guarded +/, ""); guarded = $0; next }
/^Refused / { sub(/^Refused +/, ""); refusals = $0; why = 1; next }
why && /^          / { sub(/^ +/, ""); reason = $0; why = 0; next }
/^What members are sent/ { sent = 1; next }
sent && /^  piece / { sub(/^[^"]*"/, ""); sub(/"$/, ""); piece[++pieces] = $0; next }
sent && /units/ { sub(/^ +/, ""); cost = $0; sent = 0; next }

function spelled(byte) {
    return byte < 32 ? name[byte + 1] : byte < 127 ? sprintf("%c", byte) : sprintf("%02Xh", byte)
}

# a stretch of the row k, from column `from` up to `to`, which is open or not
function stretch(k, from, to, open, y,    part) {
    part = substr(cells[k], from, to - from)
    if (open)
        box(EDGE + (from - 1) * CELL, y - 17, (to - from) * CELL, 22, 2, "fill=\"#155a43\"")
    match(part, /^ */)
    from += RLENGTH
    part = substr(part, RLENGTH + 1)
    sub(/ +$/, "", part)
    text(EDGE + (from - 1) * CELL, y, SIZE, open ? "open" : "", part)
}

# one row: stretches of open cells, by the line of marks under it, and of guarded ones
function drawn(k, y,    c, from, open, now, mark) {
    from = 1
    open = 0
    for (c = 1; c <= COLUMNS + 1; c++) {
        mark = substr(marks[k], c, 1)
        now = mark == "-" || mark == "^"
        if (c == COLUMNS + 1 || now != open) {
            if (c > from)
                stretch(k, from, c, open, y)
            from = c
            open = now
        }
        if (mark == "^")
            cursor = c
    }
    if (cursor) {
        box(EDGE + (cursor - 1) * CELL, y - 17, CELL, 22, 2, "fill=\"#ffd479\"")
        cursor = 0
    }
}

# the bytes around the refused one, in chips, with a line down from that one; more of them stand before and after
function stream(y,    i, x, s, wide, bad) {
    x = EDGE
    for (i = refused - 10; x < WIDTH - EDGE - 36 && i <= count; i++) {
        s = spelled(bytes[i])
        bad = i == refused
        wide = length(s) > 1 ? 12 + length(s) * 9 : 20
        box(x, y - 18, wide, 26, 4, bad ? "fill=\"#8c231c\" stroke=\"#ff8a7d\"" : "fill=\"#1d2834\"")
        centred(x + wide / 2, y, 15, bad ? "loud" : bytes[i] < 32 ? "quiet" : "", s == " " ? "" : s)
        if (bad)
            box(x + wide / 2 - 1, y + 8, 2, 14, 0, "fill=\"#ff8a7d\"")
        x += wide + 3
    }
    text(x + 2, y, 15, "quiet", "..")
}

# the labelled keys under the page
function labels(y,    n, k, part, x) {
    n = split(keys, part, /[][]+/)
    x = EDGE
    for (k = 2; k < n; k++) {
        box(x, y - 16, 10 * CELL - 6, 21, 3, "fill=\"#2c3742\"")
        sub(/ +$/, "", part[k])
        text(x + 6, y, 14, "", part[k])
        x += 10 * CELL
    }
}

function swatch(x, y, paint, word) {
    box(x, y - 11, 14, 14, 3, paint)
    text(x + 20, y, 13, "", word)
    return x + 20 + length(word) * 13 * ADVANCE + 22
}

END {
    screen = 160
    lines = rows + 2 # the host's message above, the labels below
    below = screen + 14 + lines * LINE + 8
    begin(WIDTH, below + 102 + pieces * LINE, "An alert: what the host sends, the page, and what members are sent", \
        "The note has an accented letter, " spelled(bytes[refused]) ", which is refused: " reason ". " \
        "Open cells are green. Members are sent the open cells alone: " cost ".")

    text(EDGE, 36, 15, "loud", "The host sends")
    ended(WIDTH - EDGE, 36, 13, "quiet", refusals " refused")
    stream(72)
    text(EDGE, 110, 13, "bad", "Refused: " reason)

    text(EDGE, screen - 10, 15, "loud", "The page")
    x = swatch(WIDTH - EDGE - 315, screen - 10, "fill=\"#155a43\"", "open cell")
    x = swatch(x, screen - 10, "fill=\"#05080b\" stroke=\"#4a5763\"", "guarded cell")
    swatch(x, screen - 10, "fill=\"#ffd479\"", "cursor")
    box(EDGE - 10, screen, COLUMNS * CELL + 20, 14 + lines * LINE, 6, "fill=\"#05080b\" stroke=\"#38434f\"")
    y = screen + 26
    text(EDGE, y, SIZE, "quiet", message)
    for (k = 1; k <= rows; k++)
        drawn(k, y += LINE)
    labels(y += LINE)
    ended(WIDTH - EDGE, y, 13, "quiet", empty)
    text(EDGE, below + 16, 13, "", "Guarded: " guarded)

    y = below + 58
    text(EDGE, y, 15, "loud", "What members are sent")
    ended(WIDTH - EDGE, y, 13, "quiet", cost)
    box(EDGE - 10, y + 12, COLUMNS * CELL + 20, 18 + pieces * LINE, 14, "fill=\"#155a43\"")
    y += 14
    for (k = 1; k <= pieces; k++) {
        sub(/ +$/, "", piece[k])
        text(EDGE + 6, y += LINE, SIZE, "open", piece[k])
    }
    finish()
}
