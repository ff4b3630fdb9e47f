/* The floors: a loop that stores text and ends lines by 0Dh and 0Ah, one that inserts it, one that moves the cursor, one that sums a state, one
 * that shifts rows, one that sends cells, one that counts text parts, one that mends a page, and one that compares two pages and paints what
 * differs. */
#include <stdbool.h>
#include <stddef.h>
#include <stdint.h>
#include <string.h>

enum { CELLS = 1920, COLUMNS = 80, LAST_ROW = CELLS - COLUMNS };

static void scroll(uint16_t *page)
{
    memmove(page, page + COLUMNS, LAST_ROW * sizeof *page);
    for (size_t k = LAST_ROW; k < CELLS; k++)
        page[k] = ' ';
}

/* From the cursor at, which it gives back. */
size_t floor_run(uint16_t *page, size_t at, const uint8_t *bytes, size_t count)
{
    for (size_t i = 0; i < count; i++) {
        uint8_t b = bytes[i];
        if (b >= 0x20 && b < 0x7f) {
            page[at++] = b;
            if (at == CELLS) {
                scroll(page);
                at = LAST_ROW;
            }
        } else if (b == 0x0d) {
            at -= at % COLUMNS;
        } else if (b == 0x0a) {
            if (at < LAST_ROW)
                at += COLUMNS;
            else
                scroll(page);
        }
    }
    return at;
}

/* The same in insert mode: the cells up to the row's end move right by one. An ESC and the byte after it are passed over. */
size_t floor_insert(uint16_t *page, size_t at, const uint8_t *bytes, size_t count)
{
    for (size_t i = 0; i < count; i++) {
        uint8_t b = bytes[i];
        if (b >= 0x20 && b < 0x7f) {
            memmove(page + at + 1, page + at, (COLUMNS - 1 - at % COLUMNS) * sizeof *page);
            page[at++] = b;
            if (at == CELLS) {
                scroll(page);
                at = LAST_ROW;
            }
        } else if (b == 0x0d) {
            at -= at % COLUMNS;
        } else if (b == 0x0a) {
            if (at < LAST_ROW)
                at += COLUMNS;
            else
                scroll(page);
        } else if (b == 0x1b) {
            i++;
        }
    }
    return at;
}

static size_t down(uint16_t *page, size_t at)
{
    if (at < LAST_ROW)
        return at + COLUMNS;
    scroll(page);
    return at;
}

/* The moves of single bytes: 08h, 0Ah to 0Dh, 1Eh and 1Fh. */
size_t floor_move(uint16_t *page, size_t at, const uint8_t *bytes, size_t count)
{
    for (size_t i = 0; i < count; i++) {
        switch (bytes[i]) {
        case 0x08:
            at -= at > 0;
            break;
        case 0x0a:
            at = down(page, at);
            break;
        case 0x0b:
            at = at < COLUMNS ? at + LAST_ROW : at - COLUMNS;
            break;
        case 0x0c:
            at = at + 1 == CELLS ? 0 : at + 1;
            break;
        case 0x0d:
            at -= at % COLUMNS;
            break;
        case 0x1e:
            at = 0;
            break;
        case 0x1f:
            at = down(page, at - at % COLUMNS);
            break;
        }
    }
    return at;
}

/* A sum over the numbers of a state, as who keeps one in a file makes it: turned by a bit before each is added. */
uint32_t floor_sum(const uint16_t *state, size_t count)
{
    uint32_t sum = 0;
    for (size_t k = 0; k < count; k++)
        sum = (sum << 1 | sum >> 31) + state[k];
    return sum;
}

/* At a cell of the segment from `first` up to `end`, perhaps after ESC. */
struct cursor {
    size_t at, first, end;
    bool escaped;
};

/* The rows from cell `first` up to `end` move by one row, and spaces come in. */
static void rows_up(uint16_t *page, size_t first, size_t end)
{
    memmove(page + first, page + first + COLUMNS, (end - first - COLUMNS) * sizeof *page);
    for (size_t k = end - COLUMNS; k < end; k++)
        page[k] = ' ';
}

static void rows_down(uint16_t *page, size_t first, size_t end)
{
    memmove(page + first + COLUMNS, page + first, (end - first - COLUMNS) * sizeof *page);
    for (size_t k = first; k < first + COLUMNS; k++)
        page[k] = ' ';
}

/* Text that stays inside its row, 0Dh, and what shifts rows: 0Ah, ESC j, ESC E, ESC R. */
void floor_shift(uint16_t *page, struct cursor *cursor, const uint8_t *bytes, size_t count)
{
    struct cursor c = *cursor;
    for (size_t i = 0; i < count; i++) {
        uint8_t b = bytes[i];
        size_t row = c.at - c.at % COLUMNS;
        if (c.escaped) {
            c.escaped = false;
            if (b == 'j') {
                if (row == c.first)
                    rows_down(page, c.first, c.end);
                else
                    c.at -= COLUMNS;
            } else if (b == 'E') {
                rows_down(page, row, c.end);
                c.at = row;
            } else if (b == 'R') {
                rows_up(page, row, c.end);
                c.at = row;
            }
        } else if (b == 0x1b) {
            c.escaped = true;
        } else if (b >= 0x20 && b < 0x7f) {
            page[c.at] = b;
            if (c.at + 1 < c.end)
                c.at++;
        } else if (b == 0x0d) {
            c.at = row;
        } else if (b == 0x0a) {
            if (row + COLUMNS < c.end)
                c.at += COLUMNS;
            else
                rows_up(page, c.first, c.end);
        }
    }
    *cursor = c;
}

enum { PROTECTED = 0x80, FS = 0x1c, US = 0x1f };

/* The code of a text cell from 20h to 7Eh, a space for any other cell. */
static uint8_t sent(uint16_t cell)
{
    uint8_t code = cell & 0x7f;
    return cell < 0x100 && code >= 0x20 && code < 0x7f ? code : ' ';
}

/* A row's cells; gives back where the reply goes on. */
static uint8_t *send_row(const uint16_t *row, uint8_t *to)
{
    for (size_t k = 0; k < COLUMNS; k++)
        *to++ = sent(row[k]);
    return to;
}

/* The same with one FS for each stretch of protected cells. */
static uint8_t *send_open(const uint16_t *row, uint8_t *to)
{
    bool out = false;
    for (size_t k = 0; k < COLUMNS; k++) {
        if (!(row[k] & PROTECTED))
            *to++ = sent(row[k]);
        else if (!out)
            *to++ = FS;
        out = row[k] & PROTECTED;
    }
    return to;
}

/* The whole page: US between rows, CR at the end. */
static uint8_t *send_page(const uint16_t *page, bool all, uint8_t *to)
{
    for (size_t first = 0; first < CELLS; first += COLUMNS) {
        if (first > 0)
            *to++ = US;
        to = all ? send_row(page + first, to) : send_open(page + first, to);
    }
    *to++ = 0x0d;
    return to;
}

/* ESC 5 and ESC 7 with the cursor in the last cell; gives back how many bytes are replied. */
size_t floor_send(const uint16_t *page, const uint8_t *bytes, size_t count, uint8_t *reply)
{
    uint8_t *to = reply;
    bool escaped = false;
    for (size_t i = 0; i < count; i++) {
        uint8_t b = bytes[i];
        if (escaped && (b == '5' || b == '7'))
            to = send_page(page, b == '7', to);
        escaped = !escaped && b == 0x1b;
    }
    return to - reply;
}

/* The parts of a text; UINT64_MAX for a byte outside the alphabet. */
uint64_t floor_count(const uint8_t *text, size_t count)
{
    uint64_t units = 0, parts = 0, held = 153;
    while (count > 0 && text[count - 1] == ' ')
        count--;
    for (size_t i = 0; i < count; i++) {
        uint8_t b = text[i];
        unsigned cost = b == '^' || b == '{' || b == '}' || b == '\\' || b == '[' || b == '~' || b == ']' || b == '|' ? 2 : 1;
        if (b < 0x20 || b >= 0x7f || b == '`')
            return UINT64_MAX;
        units += cost;
        held += cost;
        if (held > 153) {
            parts++;
            held = cost;
        }
    }
    return units == 0 ? 0 : units <= 160 ? 1 : parts;
}

/* Whether a WY-60 writes the number. */
static bool writable(uint16_t cell)
{
    unsigned code = cell & 0x7f;
    if (cell >= 0x7c00)
        return false;
    switch (cell & 0x300) {
    case 0:
        return cell == 0 || (code >= 0x20 && code < 0x7f);
    case 0x100:
        return cell < 0x180 && (code >> 4 == 3 || (code >> 4 == 7 && code < 0x7f));
    case 0x200:
        return code >> 4 == 3;
    default:
        return false;
    }
}

/* Row, column, old number and 0 of each cell cleared, in a list that is long enough; gives back how many they are. */
size_t floor_mend(uint16_t *page, uint16_t *list)
{
    uint16_t *to = list;
    for (size_t k = 0; k < CELLS; k++) {
        if (!writable(page[k])) {
            *to++ = (uint16_t)(k / COLUMNS + 1);
            *to++ = (uint16_t)(k % COLUMNS + 1);
            *to++ = page[k];
            *to++ = page[k] = 0;
        }
    }
    return (size_t)(to - list) / 4;
}

/* Spans and bytes from one page of a WY-60 to another, both of text, in rooms that are long enough; gives back how many spans they are. */
size_t floor_propose(const uint16_t *before, const uint16_t *after, uint16_t *spans, uint8_t *bytes, size_t *count)
{
    uint16_t *to = spans;
    uint8_t *out = bytes;
    unsigned remembered = 0;
    for (size_t k = 0; k < CELLS; k++) {
        if ((before[k] & 0x3ff) - 0x20u >= 95 || (after[k] & 0x3ff) - 0x20u >= 95 || before[k] >= 0x7c00 || after[k] >= 0x7c00)
            return SIZE_MAX;
    }
    for (size_t k = 0; k < CELLS; k++) {
        if (before[k] == after[k])
            continue;
        size_t row = k / COLUMNS, first = k, end = (row + 1) * COLUMNS;
        *out++ = 0x1b;
        *out++ = '=';
        *out++ = (uint8_t)(' ' + row);
        *out++ = (uint8_t)(' ' + k % COLUMNS);
        for (; k < end && before[k] != after[k]; k++) {
            if (after[k] >> 10 != remembered) {
                remembered = after[k] >> 10;
                *out++ = 0x1b;
                *out++ = 'G';
                *out++ = (uint8_t)((remembered < 16 ? 0x30 : 0x60) + remembered);
            }
            *out++ = after[k] & 0x7f;
        }
        *to++ = (uint16_t)(row + 1);
        *to++ = (uint16_t)(first % COLUMNS + 1);
        *to++ = (uint16_t)(k - first);
        k--;
    }
    *count = (size_t)(out - bytes);
    return (size_t)(to - spans) / 3;
}
