# A table of docs/BENCHMARKS.md as bars: of each workload a bar for each column, as long as its nanoseconds a byte. table is peers or growth.
BEGIN {
    FS = " *[|] *"
    heading = table == "peers" ? "## Beside its peers" : "## As the input grows"
    title = table == "peers" ? "Nanoseconds a host byte, on each terminal that has the workload" : \
        "Nanoseconds a host byte of the proved terminal, by the size of its input"
    split(table == "peers" ? "#3fb984 #7f8fa0 #c98a3c #9d7fd1" : "#23704f #3fb984 #8fe0bb", paint, " ")
    BAR = 14; STEP = 17; GROUP = 14; EDGE = 28; LEFT = 126; LONGEST = 560; TOP = 92
}

/^## / { under = $0 == heading; begun = 0 }
!under || !/^\|/ || /^\|-/ { next }

!begun {
    begun = 1
    for (c = 3; c < NF; c++)
        if ($c != "instructions")
            series[++many] = $c
    next
}

{
    name[++rows] = $2
    for (c = 1; c <= many; c++) {
        value[rows, c] = $(c + 2)
        sub(/ .*/, "", value[rows, c])
        if (value[rows, c] == "-")
            value[rows, c] = ""
        else
            bars++
        if (value[rows, c] + 0 > most)
            most = value[rows, c] + 0
    }
}

END {
    if (!rows) {
        print "bars.awk: no table under " heading > "/dev/stderr"
        exit 1
    }
    begin(LEFT + LONGEST + 100, TOP + bars * STEP + (rows - 1) * GROUP + EDGE - 6, title, \
        "The bars of a table of docs/BENCHMARKS.md; shorter is faster.")
    text(EDGE, 36, 15, "loud", title)
    x = EDGE
    for (c = 1; c <= many; c++) {
        box(x, 51, 14, 14, 3, "fill=\"" paint[c] "\"")
        text(x + 20, 63, 13, "", series[c])
        x += 20 + length(series[c]) * 13 * ADVANCE + 24
    }
    y = TOP
    for (k = 1; k <= rows; k++) {
        text(EDGE, y + 12, 14, "", name[k])
        for (c = 1; c <= many; c++) {
            if (value[k, c] == "")
                continue
            long = LONGEST * value[k, c] / most
            box(LEFT, y, long < 2 ? 2 : long, BAR, 2, "fill=\"" paint[c] "\"")
            text(LEFT + long + 8, y + 12, 13, c == 1 && table == "peers" ? "loud" : "quiet", value[k, c])
            y += STEP
        }
        y += GROUP
    }
    finish()
}
