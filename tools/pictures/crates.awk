# crates.txt as a picture: each crate above those that it rests on, joined to them but where another of them rests on them already.
BEGIN {
    FS = ": *"
    HIGH = 34; GAP = 42; EDGE = 26; SIZE = 15
    TOP = 74
}

/^#/ { next }

{
    outward[++crates] = sub(/ .*/, "", $1) # a word after the name: a static library
    crate[crates] = $1
    place[$1] = crates
    rests[crates] = $2
}

END {
    for (k = 1; k <= crates; k++) {
        n = split(rests[k], word, " ")
        for (i = 1; i <= n; i++)
            if (word[i] in place)
                needs[k, place[word[i]]] = over[k, place[word[i]]] = 1
        main = "crates/" crate[k] "/src/main.rt"
        program[k] = (getline line < main) > 0
        close(main)
    }
    # over: it rests on it, if only by way of others; twice: also by way of others
    for (d = 1; d <= crates; d++)
        for (k = 1; k <= crates; k++)
            for (j = 1; j <= crates; j++)
                if (over[k, d] && over[d, j])
                    over[k, j] = twice[k, j] = 1
    # a crate's level is one more than the highest of those that it rests on
    for (turn = 1; turn <= crates; turn++)
        for (k = 1; k <= crates; k++)
            for (d = 1; d <= crates; d++)
                if (needs[k, d] && level[k] <= level[d])
                    level[k] = level[d] + 1
    for (k = 1; k <= crates; k++) {
        wide[k] = 24 + length(crate[k]) * SIZE * ADVANCE
        if (wide[k] < 92)
            wide[k] = 92
        put(k, level[k] + 0)
        if (level[k] > highest)
            highest = level[k]
    }
    nodes = crates
    for (k = 1; k <= crates; k++)
        for (d = 1; d <= crates; d++)
            if (needs[k, d] && !twice[k, d])
                join(k, d)
    order()
    spread()
    draw()
}

function put(node, l) {
    level[node] = l
    row[l, ++size[l]] = node
}

# from k down to d, by way of a narrow place in each level between
function join(k, d,    l, last) {
    last = k
    for (l = level[k] - 1; l > level[d]; l--) {
        wide[++nodes] = 14
        put(nodes, l)
        edge(last, nodes)
        last = nodes
    }
    edge(last, d)
}

function edge(upper, lower) {
    up[++edges] = upper
    down[edges] = lower
}

# the mean of what a node is joined to: in the level below it (way -1), above it (1), or both (0)
function middle(node, way, otherwise,    e, sum, n) {
    for (e = 1; e <= edges; e++) {
        if (up[e] == node && way <= 0) { sum += x[down[e]]; n++ }
        if (down[e] == node && way >= 0) { sum += x[up[e]]; n++ }
    }
    return n ? sum / n : otherwise
}

# each level sorted by the places of what its nodes are joined to, level by level, upwards and downwards by turns; the order with the fewest crossings
# is kept
function order(    turn, l, i, fewest, crossed, kept) {
    for (l = 0; l <= highest; l++)
        number_row(l)
    fewest = 1e9
    for (turn = 1; turn <= 24; turn++) {
        if (turn % 2)
            for (l = 1; l <= highest; l++)
                sort_row(l, -1)
        else
            for (l = highest - 1; l >= 0; l--)
                sort_row(l, 1)
        crossed = crossings()
        if (crossed < fewest) {
            fewest = crossed
            for (l = 0; l <= highest; l++)
                for (i = 1; i <= size[l]; i++)
                    kept[l, i] = row[l, i]
        }
    }
    for (l = 0; l <= highest; l++)
        for (i = 1; i <= size[l]; i++)
            row[l, i] = kept[l, i]
}

function crossings(    d, e, n) {
    for (d = 1; d <= edges; d++)
        for (e = 1; e < d; e++)
            if (level[up[d]] == level[up[e]] && (x[up[d]] - x[up[e]]) * (x[down[d]] - x[down[e]]) < 0)
                n++
    return n + 0
}

function number_row(l,    i) {
    for (i = 1; i <= size[l]; i++)
        x[row[l, i]] = i - (size[l] + 1) / 2
}

function sort_row(l, way,    i, j, node, key) {
    for (i = 1; i <= size[l]; i++)
        key[row[l, i]] = middle(row[l, i], way, x[row[l, i]])
    for (i = 2; i <= size[l]; i++) {
        node = row[l, i]
        for (j = i - 1; j >= 1 && key[row[l, j]] > key[node]; j--)
            row[l, j + 1] = row[l, j]
        row[l, j + 1] = node
    }
    number_row(l)
}

# how far apart the middles of two neighbours are at least
function apart(a, b) {
    return (wide[a] + wide[b]) / 2 + 26
}

# each node to the middle of what it is joined to, as far as its neighbours leave room, from levels that are centred
function spread(    turn, l, i) {
    for (l = 0; l <= highest; l++) {
        for (i = 1; i <= size[l]; i++)
            x[row[l, i]] = i == 1 ? 0 : x[row[l, i - 1]] + apart(row[l, i - 1], row[l, i])
        for (i = 1; i < size[l]; i++)
            x[row[l, i]] -= x[row[l, size[l]]] / 2
        x[row[l, size[l]]] /= 2
    }
    for (turn = 1; turn <= 100; turn++) {
        for (l = 0; l <= highest; l++)
            move_row(l)
        for (l = highest; l >= 0; l--)
            move_row(l)
    }
}

function move_row(l,    i, node, wish, left, right) {
    for (i = 1; i <= size[l]; i++) {
        node = row[l, i]
        wish[i] = left[i] = middle(node, 0, x[node])
        if (i > 1 && left[i] < left[i - 1] + apart(row[l, i - 1], node))
            left[i] = left[i - 1] + apart(row[l, i - 1], node)
    }
    for (i = size[l]; i >= 1; i--) {
        node = row[l, i]
        right[i] = wish[i]
        if (i < size[l] && right[i] > right[i + 1] - apart(node, row[l, i + 1]))
            right[i] = right[i + 1] - apart(node, row[l, i + 1])
        x[node] = (left[i] + right[i]) / 2
    }
}

function at(l) {
    return TOP + (highest - l) * (HIGH + GAP)
}

function draw(    k, e, least, most, a, b, from, to, kind) {
    least = 1e9
    most = -1e9
    for (k = 1; k <= nodes; k++) {
        if (x[k] - wide[k] / 2 < least) least = x[k] - wide[k] / 2
        if (x[k] + wide[k] / 2 > most) most = x[k] + wide[k] / 2
    }
    width = most - least + 2 * EDGE
    if (width < 700) {
        least -= (700 - width) / 2
        width = 700
    }
    for (k = 1; k <= nodes; k++)
        x[k] += EDGE - least
    begin(width, at(0) + HIGH + EDGE, "The crates, each above those that it rests on", "Drawn from crates.txt.")
    k = legend(EDGE, "fill=\"#155a43\"", "library for C and Rust")
    k = legend(k, "fill=\"#6b4a12\"", "program")
    legend(k, "fill=\"#24303c\"", "library")
    print "<g fill=\"none\" stroke=\"#6f8092\" stroke-width=\"1.5\">"
    for (e = 1; e <= edges; e++) {
        a = at(level[up[e]]) + HIGH
        b = at(level[down[e]])
        from = number(x[up[e]])
        to = number(x[down[e]])
        printf "<path d=\"M%s %s C%s %s %s %s %s %s%s\"/>\n", from, a, from, (a + b) / 2, to, (a + b) / 2, to, b, (down[e] > crates ? " v" HIGH : "")
    }
    print "</g>"
    for (k = 1; k <= crates; k++) {
        kind = program[k] ? "fill=\"#6b4a12\"" : outward[k] ? "fill=\"#155a43\"" : "fill=\"#24303c\""
        box(x[k] - wide[k] / 2, at(level[k]), wide[k], HIGH, 7, kind " stroke=\"#6f8092\"")
        centred(x[k], at(level[k]) + 22, SIZE, "loud", crate[k])
    }
    finish()
}

function legend(from, paint, word) {
    box(from, 25, 14, 14, 3, paint " stroke=\"#6f8092\"")
    text(from + 22, 37, 13, "", word)
    return from + 22 + length(word) * 13 * ADVANCE + 26
}
