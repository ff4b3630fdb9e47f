/* Checks repainting: both judges and the proposer against reckonings of their own, over random pages of both personalities and both widths: each answer,
 * rooms of every length about the one needed, lists and bytes with one thing removed or changed, what a terminal makes of the bytes, and a display that
 * goes on from page to page. Rooms lie between guard numbers. Compiles as C99 and as C++. Prints one line for each part, and fails by its status. */
#include "wy50.h"

#include <stdio.h>
#include <string.h>

enum { GUARD = 16, MORE = 5, MOST_NUMBERS = WY50_SPAN_NUMBERS * (WY50_MOST_SPANS + MORE), MOST_BYTES = WY50_MOST_PAINT_BYTES + MORE };
enum { ANY_NUMBER = 0x5aa5, ANY_BYTE = 0xe9 };

static uint16_t before[WY50_WIDE_CELLS], after[WY50_WIDE_CELLS], page[WY50_WIDE_CELLS], saved[WY50_WIDE_CELLS];
static uint16_t number_room[GUARD + MOST_NUMBERS + GUARD], *const numbers = number_room + GUARD;
static uint8_t byte_room[GUARD + MOST_BYTES + GUARD], *const bytes = byte_room + GUARD;
static wy50_span spans[WY50_MOST_SPANS + MORE];
static int failures, part_failures;

#define CHECK(test) check((test) != 0, #test, __LINE__)

static void check(int ok, const char *text, int line)
{
    if (!ok) {
        printf("repaint.c:%d: not so: %s\n", line, text);
        part_failures++;
    }
}

static void part(const char *name)
{
    printf("%s %s\n", part_failures ? "FAILED" : "passed", name);
    failures += part_failures != 0;
    part_failures = 0;
}

static uint32_t seed = 2463534242u;
static uint32_t chance(uint32_t n)
{
    seed ^= seed << 13;
    seed ^= seed >> 17;
    seed ^= seed << 5;
    return seed % n;
}

static const uint8_t personalities[] = {WY50_PERSONALITY_50, WY50_PERSONALITY_60};
static const size_t lengths[] = {WY50_CELLS, WY50_WIDE_CELLS};

/* A cell of unprotected text, in a WY-60 often with an attribute. */
static uint16_t text(int who)
{
    return (uint16_t)(0x20 + chance(95) + (who && chance(2) ? 1024 * chance(31) : 0));
}

/* Two pages of text that differ in about one cell of so many: 0 in none, 1 in nearly all. Their last cells are equal. */
static void pages(int who, uint32_t one_in)
{
    size_t i;
    for (i = 0; i < WY50_CELLS; i++) {
        before[i] = text(who);
        after[i] = one_in && chance(one_in) == 0 ? text(who) : before[i];
    }
    after[WY50_CELLS - 1] = before[WY50_CELLS - 1];
}

/* ---- the judge of spans */

/* The sentence, clause by clause: which cells each span covers is marked, and each pair of spans is looked at. */
static int accepted(size_t cells, const wy50_span *list, size_t n)
{
    static uint8_t covered[WY50_WIDE_CELLS];
    size_t i, j, columns = cells / WY50_ROWS;
    memset(covered, 0, sizeof covered);
    for (i = 0; i < n; i++) {
        if (list[i].length == 0 || list[i].row == 0 || list[i].row > WY50_ROWS || list[i].column == 0 || list[i].column > columns
            || list[i].length > columns - (list[i].column - 1u))
            return 0;
        for (j = 0; j < i; j++)
            if (list[j].row > list[i].row || (list[j].row == list[i].row && list[j].column >= list[i].column))
                return 0;
        for (j = 0; j < list[i].length; j++)
            if (covered[(list[i].row - 1u) * columns + list[i].column - 1u + j]++)
                return 0;
    }
    for (i = 0; i < cells; i++)
        if (before[i] != after[i] && !covered[i])
            return 0;
    return 1;
}

static int judged(size_t cells, const wy50_span *list, size_t n)
{
    int expected = accepted(cells, list, n) ? WY50_DONE : WY50_BAD_ARGUMENT, answer = wy50_judge_spans(before, cells, after, cells, list, n);
    CHECK(answer == expected);
    return answer;
}

/* Lists that cover what differs, made by looking at one cell after the other, and then perhaps one number changed, a span gone or two spans swapped. */
static size_t cover(size_t cells, int loosely)
{
    size_t i, n = 0, columns = cells / WY50_ROWS, end = 0;
    for (i = 0; i < cells && n < WY50_MOST_SPANS; i++)
        if (i >= end && (before[i] != after[i] || (loosely && chance(40) == 0))) {
            size_t left = columns - i % columns, length = 1;
            while (length < left && (before[i + length] != after[i + length] || (loosely && chance(3))) && !(loosely && chance(9) == 0))
                length++;
            spans[n].row = (uint16_t)(i / columns + 1);
            spans[n].column = (uint16_t)(i % columns + 1);
            spans[n++].length = (uint16_t)length;
            end = i + length;
        }
    return n;
}

static void change_span(size_t n)
{
    static const uint16_t odd[] = {0, 1, 24, 25, 80, 81, 132, 133, 255, 256, 4000, 32767, 32768, 65456, 65535};
    wy50_span *s = spans + chance((uint32_t)n), other;
    uint16_t *number = chance(3) == 0 ? &s->row : chance(2) ? &s->column : &s->length;
    switch (chance(3)) {
    case 0:
        *number = odd[chance(sizeof odd / sizeof *odd)];
        break;
    case 1:
        *number = (uint16_t)(*number + (chance(2) ? 1 : -1));
        break;
    default:
        other = *s;
        *s = spans[0];
        spans[0] = other;
    }
}

static void judge_of_spans(void)
{
    long counts[2] = {0, 0};
    size_t i, k, n, turn;
    for (k = 0; k < 2; k++)
        for (turn = 0; turn < 4000; turn++) {
            uint32_t one_in = chance(4) ? 200 + chance(800) : 2 + chance(30);
            for (i = 0; i < lengths[k]; i++) {
                before[i] = (uint16_t)chance(65536);
                after[i] = chance(one_in) ? before[i] : (uint16_t)chance(65536);
            }
            n = cover(lengths[k], 0);
            if (turn % 8 == 0)
                CHECK(judged(lengths[k], spans, n) == WY50_DONE || n == WY50_MOST_SPANS);
            if (turn % 2)
                n = cover(lengths[k], 1);
            for (i = n ? chance(4) : 0; i > 0; i--)
                change_span(n);
            if (n > 0 && chance(8) == 0)
                memmove(spans + chance((uint32_t)n), spans + n - 1, sizeof *spans), n--;
            counts[judged(lengths[k], spans, n) == WY50_DONE]++;
        }
    CHECK(counts[0] > 1000 && counts[1] > 1000);
    part("the judge of spans: random lists, both widths, against the clauses one by one");
}

/* Named lists over two pages of spaces that differ as each says. */
static void named_spans(void)
{
    static const wy50_span touching[] = {{3, 5, 2}, {3, 7, 1}}, overlapping[] = {{3, 5, 3}, {3, 7, 1}}, backwards[] = {{3, 7, 1}, {3, 5, 2}};
    static const wy50_span twice[] = {{3, 5, 2}, {3, 5, 2}}, whole[] = {{3, 1, 80}}, wide_row[] = {{3, 1, 132}}, over[] = {{3, 2, 80}};
    static const wy50_span short_one[] = {{3, 6, 1}}, next_row[] = {{3, 80, 2}}, last[] = {{24, 80, 1}}, below[] = {{25, 1, 1}};
    static const wy50_span row_0[] = {{0, 85, 1}}, column_0[] = {{3, 0, 10}}, empty[] = {{3, 5, 0}};
    static const wy50_span wraps[] = {{3, 65535, 2}}, wraps_too[] = {{3, 5, 65535}}, far_row[] = {{65535, 1, 1}};
    size_t i, k;
    for (k = 0; k < 2; k++) {
        size_t n = lengths[k], columns = n / WY50_ROWS;
        for (i = 0; i < n; i++)
            before[i] = after[i] = 0x20;
        CHECK(wy50_judge_spans(before, n, after, n, NULL, 0) == 0 && wy50_judge_spans(before, n, before, n, NULL, 0) == 0);
        CHECK(wy50_judge_spans(before, n, after, n, whole, 1) == 0 && wy50_judge_spans(before, n, after, n, empty, 1) == 3);
        after[2 * columns + 4] = after[2 * columns + 5] = 0x41;
        CHECK(wy50_judge_spans(before, n, after, n, NULL, 0) == 3 && wy50_judge_spans(before, n, after, n, touching, 1) == 0);
        CHECK(wy50_judge_spans(before, n, after, n, touching, 2) == 0 && wy50_judge_spans(before, n, after, n, overlapping, 2) == 3);
        CHECK(wy50_judge_spans(before, n, after, n, backwards, 2) == 3 && wy50_judge_spans(before, n, after, n, twice, 2) == 3);
        CHECK(wy50_judge_spans(before, n, after, n, whole, 1) == 0 && wy50_judge_spans(before, n, after, n, short_one, 1) == 3);
        CHECK(wy50_judge_spans(before, n, after, n, wide_row, 1) == (k ? 0 : 3) && wy50_judge_spans(before, n, after, n, over, 1) == (k ? 0 : 3));
        CHECK(wy50_judge_spans(before, n, after, n, row_0, 1) == 3 && wy50_judge_spans(before, n, after, n, column_0, 1) == 3);
        CHECK(wy50_judge_spans(before, n, after, n, wraps, 1) == 3 && wy50_judge_spans(before, n, after, n, wraps_too, 1) == 3);
        CHECK(wy50_judge_spans(before, n, after, n, far_row, 1) == 3 && wy50_judge_spans(before, n, after, n, below, 1) == 3);
        memcpy(after, before, sizeof after);
        after[24 * columns - 1] = 0x41;
        CHECK(wy50_judge_spans(before, n, after, n, last, 1) == (k ? 3 : 0) && wy50_judge_spans(before, n, after, n, next_row, 1) == 3);
    }
    part("the judge of spans: named lists at the edges");
}

/* ---- the judge of bytes */

/* Byte by byte, on a page and a state of its own, which are left in page and state. */
static wy50_state state;
static int painted(size_t cells, int who, const uint8_t *list, size_t n)
{
    size_t i;
    state = wy50_power_on(page, WY50_CELLS, personalities[who]).state;
    if (cells == WY50_WIDE_CELLS) {
        wy50_convert_result c = wy50_convert(page, WY50_CELLS, state, saved, WY50_WIDE_CELLS);
        CHECK(c.answer == WY50_DONE);
        state = c.state;
    }
    memcpy(page, before, cells * sizeof *page);
    for (i = 0; i < n; i++) {
        wy50_step_result s = wy50_step(page, cells, state, list[i], NULL, 0);
        if (s.answer != WY50_DONE)
            return 0;
        state = s.state;
    }
    return memcmp(page, after, cells * sizeof *page) == 0;
}

static int judged_bytes(size_t cells, int who, const uint8_t *list, size_t n)
{
    int expected = painted(cells, who, list, n) ? WY50_DONE : WY50_BAD_ARGUMENT;
    int answer = wy50_judge_bytes(before, cells, after, cells, personalities[who], list, n);
    CHECK(answer == expected);
    return answer;
}

/* Host bytes of every sort, made into what a terminal then shows; and with a byte changed. */
static void judge_of_bytes(void)
{
    static const char asks[] = " !\"&'()*+,./:;=AEFGHIJKNOQRTVWY]`abjklqrtxyz{}";
    static uint8_t host[400];
    long counts[2] = {0, 0};
    size_t i, k, n;
    int who, turn;
    for (who = 0; who < 2; who++)
        for (k = 0; k < 2; k++)
            for (turn = 0; turn < 400; turn++) {
                n = chance(sizeof host);
                for (i = 0; i < n; i++)
                    if (i > 0 && host[i - 1] == 27)
                        host[i] = (uint8_t)asks[chance(sizeof asks - 1)];
                    else
                        host[i] = (uint8_t)(chance(5) ? 0x20 + chance(0x5f) : chance(8) ? 27 : chance(0x20));
                for (i = 0; i < lengths[k]; i++)
                    before[i] = (uint16_t)(chance(4) ? 0x20 + chance(95) : chance(65536));
                painted(lengths[k], who, host, n);
                memcpy(after, page, sizeof after);
                counts[judged_bytes(lengths[k], who, host, n) == WY50_DONE]++;
                after[chance((uint32_t)lengths[k])] ^= 1;
                CHECK(judged_bytes(lengths[k], who, host, n) == WY50_BAD_ARGUMENT);
            }
    CHECK(counts[0] > 200 && counts[1] > 200);
    part("the judge of bytes: random hosts, both personalities and widths, against the single step");

    memset(before, 0, sizeof before);
    memset(after, 0, sizeof after);
    for (who = 0; who < 2; who++)
        for (k = 0; k < 2; k++) {
            n = lengths[k];
#define JUDGED(s) judged_bytes(n, who, (const uint8_t *)(s), sizeof(s) - 1)
            CHECK(wy50_judge_bytes(before, n, after, n, personalities[who], NULL, 0) == 0);
            CHECK(JUDGED("") == 0 && JUDGED("\007") == 0 && JUDGED("\033") == 0 && JUDGED("\033=") == 0 && JUDGED("\033Fdesk") == 0);
            CHECK(JUDGED("\005") == 3 && JUDGED("\033 ") == 3 && JUDGED("\033?") == 3 && JUDGED("\0337") == 3 && JUDGED("\033M") == 3);
            CHECK(JUDGED("\351") == 3 && JUDGED("\033\001") == 3 && JUDGED("\033=8 ") == 3 && JUDGED("A") == 3 && JUDGED("A\033*") == 0);
            CHECK(JUDGED("\033=7p") == 3 && JUDGED("\033a24R132C") == (k ? 0 : 3) && JUDGED("\033G4") == (who ? 0 : 3));
            after[0] = 0x41 + 128;
            CHECK(JUDGED("\033)A") == 0 && JUDGED("A") == 3 && JUDGED("\033G4\033)A") == 3 && JUDGED("\033)A\033&B") == 3 && JUDGED("\033)A\033") == 0);
            after[0] = 0;
        }
    part("the judge of bytes: a reply that is due, a refused byte, a sequence under way at the end");
}

/* ---- the proposer */

/* What it should propose, into these; how many spans and bytes there are. */
static uint16_t made_numbers[MOST_NUMBERS];
static uint8_t made_bytes[MOST_BYTES];
static size_t span_count, byte_count;

static void make(void)
{
    size_t row, column, end, i;
    unsigned remembered = 0;
    span_count = byte_count = 0;
    for (row = 0; row < WY50_ROWS; row++)
        for (column = 0; column < WY50_COLUMNS; column = end + 1) {
            const uint16_t *shows = before + WY50_COLUMNS * row, *wants = after + WY50_COLUMNS * row;
            for (end = column; end < WY50_COLUMNS && shows[end] != wants[end]; end++)
                ;
            if (end == column)
                continue;
            made_numbers[3 * span_count] = (uint16_t)(row + 1);
            made_numbers[3 * span_count + 1] = (uint16_t)(column + 1);
            made_numbers[3 * span_count++ + 2] = (uint16_t)(end - column);
            byte_count += (size_t)sprintf((char *)made_bytes + byte_count, "\033=%c%c", (int)(' ' + row), (int)(' ' + column));
            for (i = column; i < end; i++) {
                unsigned flags = wants[i] / 1024u;
                if (flags != remembered)
                    byte_count += (size_t)sprintf((char *)made_bytes + byte_count, "\033G%c", (flags & WY50_DIM ? 0x70 : 0x30) + (int)(flags & 15));
                remembered = flags;
                made_bytes[byte_count++] = (uint8_t)(wants[i] % 128);
            }
        }
}

/* A proposal with so many numbers and bytes of room: the rooms as they were but for what is proposed. */
static void propose(int who, size_t cells, size_t numbers_len, size_t bytes_len, int answer)
{
    wy50_propose_result r;
    size_t i, n = answer ? 0 : span_count, k = answer ? 0 : byte_count;
    for (i = 0; i < sizeof number_room / sizeof *number_room; i++)
        number_room[i] = ANY_NUMBER;
    memset(byte_room, ANY_BYTE, sizeof byte_room);
    memcpy(page, after, sizeof page);
    memcpy(saved, before, sizeof saved);
    r = wy50_propose_numbers(before, cells, after, cells, personalities[who], numbers, numbers_len, bytes, bytes_len);
    CHECK(r.answer == answer && r.spans == n && r.bytes == k);
    CHECK(memcmp(numbers, made_numbers, WY50_SPAN_NUMBERS * n * sizeof *numbers) == 0 && memcmp(bytes, made_bytes, k) == 0);
    for (i = 0; i < sizeof number_room / sizeof *number_room; i++)
        if ((i < GUARD || i >= GUARD + WY50_SPAN_NUMBERS * n) && number_room[i] != ANY_NUMBER)
            CHECK(!"the numbers' rest is untouched");
    for (i = 0; i < sizeof byte_room; i++)
        if ((i < GUARD || i >= GUARD + k) && byte_room[i] != ANY_BYTE)
            CHECK(!"the bytes' rest is untouched");
    CHECK(memcmp(page, after, sizeof page) == 0 && memcmp(saved, before, sizeof saved) == 0);
}

/* The state is power-on's but for the cursor and what a WY-60 remembers. */
static void as_at_power_on(int who)
{
    wy50_state on = wy50_power_on(page, WY50_CELLS, personalities[who]).state, now = state;
    now.screen.cursor0 = now.remembered = 0;
    CHECK(memcmp(&on, &now, sizeof on) == 0);
}

/* One span gone, longer, shorter, earlier or later; one byte gone or changed. */
static void spoil(int who)
{
    size_t i, k, turns = span_count < 40 ? span_count : 40;
    for (i = 0; i < turns; i++) {
        size_t at = turns == span_count ? i : chance((uint32_t)span_count);
        memcpy(spans, numbers, span_count * sizeof *spans);
        memmove(spans + at, spans + at + 1, (span_count - at - 1) * sizeof *spans);
        CHECK(judged(WY50_CELLS, spans, span_count - 1) == WY50_BAD_ARGUMENT);
        for (k = 0; k < 6; k++) {
            uint16_t *number;
            memcpy(spans, numbers, span_count * sizeof *spans);
            number = k / 2 == 0 ? &spans[at].row : k / 2 == 1 ? &spans[at].column : &spans[at].length;
            *number = (uint16_t)(*number + (k % 2 ? 1 : -1));
            judged(WY50_CELLS, spans, span_count);
        }
    }
    turns = byte_count < 60 ? byte_count : 6;
    for (i = 0; i < turns; i++) {
        size_t at = turns == byte_count ? i : chance((uint32_t)byte_count);
        uint8_t byte = bytes[at];
        memcpy(made_bytes, bytes, byte_count);
        memmove(made_bytes + at, made_bytes + at + 1, byte_count - at - 1);
        judged_bytes(WY50_CELLS, who, made_bytes, byte_count - 1);
        memcpy(made_bytes, bytes, byte_count);
        made_bytes[at] = (uint8_t)(chance(3) ? byte ^ 1 : chance(256));
        judged_bytes(WY50_CELLS, who, made_bytes, byte_count);
        /* the last byte is a cell's code: nothing else paints that cell */
        CHECK(judged_bytes(WY50_CELLS, who, bytes, at) == WY50_BAD_ARGUMENT);
    }
}

static void proposer(void)
{
    static const uint32_t one_in[] = {0, 1, 2, 3, 10, 80, 400, 1500};
    size_t k;
    int who, turn;
    for (who = 0; who < 2; who++)
        for (k = 0; k < sizeof one_in / sizeof *one_in; k++)
            for (turn = 0; turn < 10; turn++) {
                pages(who, one_in[k]);
                make();
                CHECK(span_count <= WY50_MOST_SPANS && byte_count <= WY50_MOST_PAINT_BYTES);
                propose(who, WY50_CELLS, 3 * span_count, byte_count, WY50_DONE);
                propose(who, WY50_CELLS, 3 * span_count + chance(9), byte_count + chance(9), WY50_DONE);
                propose(who, WY50_CELLS, MOST_NUMBERS, MOST_BYTES, WY50_DONE);
                if (span_count > 0) {
                    propose(who, WY50_CELLS, 3 * span_count - 1 - chance(3), MOST_BYTES, WY50_NO_ROOM);
                    propose(who, WY50_CELLS, MOST_NUMBERS, byte_count - 1, WY50_NO_ROOM);
                    propose(who, WY50_CELLS, 0, 0, WY50_NO_ROOM);
                    propose(who, WY50_CELLS, MOST_NUMBERS, MOST_BYTES, WY50_DONE);
                }
                memcpy(spans, numbers, span_count * sizeof *spans);
                CHECK(judged(WY50_CELLS, spans, span_count) == WY50_DONE);
                CHECK(judged_bytes(WY50_CELLS, who, bytes, byte_count) == WY50_DONE);
                as_at_power_on(who);
                spoil(who);
            }
    part("proposals: spans and bytes as reckoned, exactly fitting rooms, their rests; both judges; one span or byte removed or changed");
}

/* Every cell but the last with another attribute than the one before it; and every second cell. */
static void longest(void)
{
    size_t i;
    for (i = 0; i < WY50_CELLS; i++) {
        before[i] = 0x20;
        after[i] = (uint16_t)(i + 1 < WY50_CELLS ? 0x41 + 1024 * (1 + i % 2) : 0x20);
    }
    make();
    CHECK(span_count == WY50_ROWS && byte_count == WY50_MOST_PAINT_BYTES);
    propose(1, WY50_CELLS, 3 * WY50_MOST_SPANS, WY50_MOST_PAINT_BYTES, WY50_DONE);
    CHECK(judged_bytes(WY50_CELLS, 1, bytes, byte_count) == WY50_DONE);
    for (i = 0; i < WY50_CELLS; i++)
        after[i] = (uint16_t)(i % 2 ? 0x20 : 0x41);
    make();
    CHECK(span_count == WY50_MOST_SPANS);
    propose(0, WY50_CELLS, 3 * WY50_MOST_SPANS, WY50_MOST_PAINT_BYTES, WY50_DONE);
    propose(0, WY50_CELLS, 3 * WY50_MOST_SPANS - 1, WY50_MOST_PAINT_BYTES, WY50_NO_ROOM);
    part("the most spans and the most bytes");
}

/* Each sort of cell that is not served, in either page at any place; a last cell that differs; a wide page; whatever the rooms. */
static void not_served(void)
{
    static const uint16_t odd[] = {0, 1, 0x1f, 0x7f, 0x80, 0xa0, 0xc1, 0x130, 0x141, 0x170, 0x230, 0x241, 0x320, 0x341, 0x400, 0x47f, 0x4c1, 0x530,
        0x630, 0x7c41, 0x7c20, 0x8020, 0x8041, 0xffff};
    size_t i, k, at;
    int who;
    for (who = 0; who < 2; who++) {
        for (i = 0; i < sizeof odd / sizeof *odd; i++)
            for (k = 0; k < 12; k++) {
                uint16_t *where = k % 3 == 0 ? before : after;
                pages(who, 100);
                at = k < 3 ? 0 : k < 6 ? WY50_CELLS - 1 : chance(WY50_CELLS);
                where[at] = odd[i];
                if (k % 3 == 2)
                    before[at] = odd[i];
                propose(who, WY50_CELLS, k % 2 ? MOST_NUMBERS : 0, k % 2 ? MOST_BYTES : 0, WY50_BAD_ARGUMENT);
            }
        pages(who, 50);
        after[WY50_CELLS - 1] = before[WY50_CELLS - 1] == 0x20 ? 0x21 : 0x20;
        propose(who, WY50_CELLS, MOST_NUMBERS, MOST_BYTES, WY50_BAD_ARGUMENT);
        for (i = 0; i < WY50_WIDE_CELLS; i++)
            before[i] = after[i] = 0x20;
        propose(who, WY50_WIDE_CELLS, MOST_NUMBERS, MOST_BYTES, WY50_BAD_ARGUMENT);
        propose(who, WY50_WIDE_CELLS, 0, 0, WY50_BAD_ARGUMENT);
        CHECK(wy50_judge_spans(before, WY50_WIDE_CELLS, after, WY50_WIDE_CELLS, NULL, 0) == WY50_DONE);
    }
    /* attributes: a WY-60's, all but one; a WY-50 has none */
    for (i = 0; i < 64; i++)
        for (who = 0; who < 2; who++) {
            pages(who, 0);
            before[7] = 0x20;
            after[7] = (uint16_t)(0x41 + 1024 * i);
            make();
            propose(who, WY50_CELLS, MOST_NUMBERS, MOST_BYTES, i < (who ? 31u : 1u) ? WY50_DONE : WY50_BAD_ARGUMENT);
        }
    part("pages that are not served: 3, whatever the rooms, and nothing written");
}

static void refusals(void)
{
    static const size_t tried[] = {0, 1, 80, 132, WY50_CELLS - 1, WY50_CELLS, WY50_CELLS + 1, 24 * 131, WY50_WIDE_CELLS - 1, WY50_WIDE_CELLS};
    size_t i, j;
    int personality;
    wy50_propose_result r;
    static const wy50_span one[] = {{1, 1, 1}};
    pages(0, 0);
    memset(byte_room, ANY_BYTE, sizeof byte_room);
    memset(number_room, 0x55, sizeof number_room);
    for (i = 0; i < sizeof tried / sizeof *tried; i++)
        for (j = 0; j < sizeof tried / sizeof *tried; j++) {
            if (tried[i] == tried[j] && (tried[i] == WY50_CELLS || tried[i] == WY50_WIDE_CELLS))
                continue;
            CHECK(wy50_judge_spans(before, tried[i], after, tried[j], one, 1) == WY50_BAD_CALL);
            CHECK(wy50_judge_spans(before, tried[i], after, tried[j], NULL, 0) == WY50_BAD_CALL);
            CHECK(wy50_judge_bytes(before, tried[i], after, tried[j], WY50_PERSONALITY_60, bytes, 3) == WY50_BAD_CALL);
            CHECK(wy50_judge_bytes(before, tried[i], after, tried[j], WY50_PERSONALITY_50, NULL, 0) == WY50_BAD_CALL);
            r = wy50_propose_numbers(before, tried[i], after, tried[j], WY50_PERSONALITY_50, numbers, MOST_NUMBERS, bytes, MOST_BYTES);
            CHECK(r.answer == WY50_BAD_CALL && r.spans == 0 && r.bytes == 0);
            r = wy50_propose_numbers(before, tried[i], after, tried[j], WY50_PERSONALITY_60, NULL, 0, NULL, 0);
            CHECK(r.answer == WY50_BAD_CALL && r.spans == 0 && r.bytes == 0);
        }
    for (personality = 0; personality < 256; personality++)
        if (personality != WY50_PERSONALITY_50 && personality != WY50_PERSONALITY_60)
            for (i = 0; i < 2; i++) {
                CHECK(wy50_judge_bytes(before, lengths[i], before, lengths[i], (uint8_t)personality, NULL, 0) == WY50_BAD_CALL);
                CHECK(wy50_judge_bytes(before, lengths[i], after, lengths[i], (uint8_t)personality, bytes, 4) == WY50_BAD_CALL);
                r = wy50_propose_numbers(before, lengths[i], before, lengths[i], (uint8_t)personality, numbers, MOST_NUMBERS, bytes, MOST_BYTES);
                CHECK(r.answer == WY50_BAD_CALL && r.spans == 0 && r.bytes == 0);
            }
    for (i = 0; i < sizeof byte_room; i++)
        CHECK(byte_room[i] == ANY_BYTE);
    for (i = 0; i < sizeof number_room / sizeof *number_room; i++)
        CHECK(number_room[i] == 0x5555);
    part("unlike or wrong lengths, no personality: 7, and nothing written");
}

/* The form with structs: the same numbers, at most 960 of them are looked at. */
static void structs(void)
{
    static const size_t rooms[] = {0, 1, 23, 24, 25, WY50_MOST_SPANS - 1, WY50_MOST_SPANS, WY50_MOST_SPANS + MORE};
    size_t i, k;
    wy50_propose_result r;
    CHECK(sizeof(wy50_span) == WY50_SPAN_NUMBERS * sizeof(uint16_t) && sizeof(wy50_span) == 6);
    CHECK(offsetof(wy50_span, row) == 0 && offsetof(wy50_span, column) == 2 && offsetof(wy50_span, length) == 4);
    CHECK(sizeof(wy50_propose_result) == 6 && offsetof(wy50_propose_result, spans) == 2 && offsetof(wy50_propose_result, bytes) == 4);
    CHECK(WY50_MOST_SPANS == 960 && WY50_MOST_PAINT_BYTES == 7772);
    for (i = 0; i < sizeof rooms / sizeof *rooms; i++) {
        int fits;
        pages(1, 60);
        make();
        fits = span_count <= rooms[i];
        memset(spans, 0x55, sizeof spans);
        r = wy50_propose(before, WY50_CELLS, after, WY50_CELLS, WY50_PERSONALITY_60, rooms[i] ? spans : NULL, rooms[i], bytes, MOST_BYTES);
        CHECK(r.answer == (fits ? WY50_DONE : WY50_NO_ROOM) && r.spans == (fits ? span_count : 0) && r.bytes == (fits ? byte_count : 0));
        for (k = 0; k < sizeof spans / sizeof *spans; k++) {
            int in = fits && k < span_count;
            CHECK(spans[k].row == (in ? made_numbers[3 * k] : 0x5555) && spans[k].column == (in ? made_numbers[3 * k + 1] : 0x5555)
                  && spans[k].length == (in ? made_numbers[3 * k + 2] : 0x5555));
        }
    }
    r = wy50_propose(before, WY50_CELLS, before, WY50_CELLS, WY50_PERSONALITY_60, NULL, 0, NULL, 0);
    CHECK(r.answer == WY50_DONE && r.spans == 0 && r.bytes == 0);
    r = wy50_propose(before, WY50_CELLS, before, WY50_CELLS, WY50_PERSONALITY_60, spans, (size_t)-1, bytes, MOST_BYTES);
    CHECK(r.answer == WY50_DONE && r.spans == 0 && r.bytes == 0);
    r = wy50_propose(NULL, 0, NULL, 0, WY50_PERSONALITY_60, spans, 1, bytes, 1);
    CHECK(r.answer == WY50_BAD_CALL && r.spans == 0 && r.bytes == 0);
    for (k = 901; k <= WY50_MOST_SPANS; k++) {
        for (i = 0; i < WY50_CELLS; i++) {
            before[i] = 0x41;
            after[i] = i % 2 == 0 && i / 2 < k ? 0x42 : 0x41;
        }
        r = wy50_propose(before, WY50_CELLS, after, WY50_CELLS, WY50_PERSONALITY_50, spans, k - 1, bytes, MOST_BYTES);
        CHECK(r.answer == WY50_NO_ROOM && r.spans == 0);
        r = wy50_propose(before, WY50_CELLS, after, WY50_CELLS, WY50_PERSONALITY_50, spans, k, bytes, MOST_BYTES);
        CHECK(r.answer == WY50_DONE && r.spans == k && r.bytes == 5 * k);
        CHECK(spans[k - 1].row == (k - 1) / 40 + 1 && spans[k - 1].column == (k - 1) % 40 * 2 + 1 && spans[k - 1].length == 1);
        CHECK(wy50_judge_spans(before, WY50_CELLS, after, WY50_CELLS, spans, k) == WY50_DONE);
        CHECK(wy50_judge_spans(before, WY50_CELLS, after, WY50_CELLS, spans, k - 1) == WY50_BAD_ARGUMENT);
    }
    part("sizes; spans as structs, 901 to 960 too; one page lent twice");
}

/* A display that goes on from page to page, as wy50.h says. */
static void display(void)
{
    static const uint8_t normal[] = {27, 'G', '0'};
    static uint16_t shows[WY50_CELLS];
    int who, turn;
    for (who = 0; who < 2; who++) {
        wy50_state at = wy50_power_on(shows, WY50_CELLS, personalities[who]).state;
        wy50_run_result r = wy50_run(shows, WY50_CELLS, at, (const uint8_t *)"\032", 1, NULL, 0);
        size_t i;
        for (i = 0; i < WY50_CELLS; i++)
            before[i] = 0x20;
        CHECK(r.answer == 0 && memcmp(shows, before, sizeof shows) == 0);
        for (turn = 0; turn < 300; turn++) {
            wy50_propose_result p;
            uint32_t one_in = chance(2) ? 1 + chance(5) : 50 + chance(500);
            for (i = 0; i < WY50_CELLS - 1; i++)
                after[i] = chance(one_in) ? before[i] : text(who);
            after[WY50_CELLS - 1] = 0x20;
            p = wy50_propose(before, WY50_CELLS, after, WY50_CELLS, personalities[who], spans, WY50_MOST_SPANS, bytes, WY50_MOST_PAINT_BYTES);
            CHECK(p.answer == WY50_DONE);
            r = wy50_run(shows, WY50_CELLS, r.state, normal, who ? sizeof normal : 0, NULL, 0);
            CHECK(r.answer == 0 && r.refused == 0);
            r = wy50_run(shows, WY50_CELLS, r.state, bytes, p.bytes, NULL, 0);
            CHECK(r.answer == 0 && r.refused == 0 && memcmp(shows, after, sizeof shows) == 0);
            memcpy(before, after, sizeof before);
        }
        state = r.state;
        as_at_power_on(who);
    }
    part("a display that goes on from page to page");
}

int main(void)
{
    structs();
    named_spans();
    judge_of_spans();
    judge_of_bytes();
    proposer();
    longest();
    not_served();
    refusals();
    display();
    if (failures)
        printf("%d parts FAILED\n", failures);
    return failures != 0;
}
