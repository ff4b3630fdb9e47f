/* Checks what is read of a page: fields, texts, places and the cursor, against a reckoning written apart, on made-up pages of both widths; and against
 * what ESC 5 sends. Compiles as C99 and as C++. Prints one line for each part, and fails by its status. */
#include "wy50.h"

#include <stdio.h>
#include <string.h>

static uint16_t page[WY50_WIDE_CELLS + 1];
static uint8_t text[WY50_LONGEST_TEXT + 8], expected[WY50_LONGEST_TEXT];
static int failures, part_failures;

#define CHECK(test) check((test) != 0, #test, __LINE__)

static void check(int ok, const char *what, int line)
{
    if (!ok) {
        printf("fields.c:%d: not so: %s\n", line, what);
        part_failures++;
    }
}

static void part(const char *name)
{
    printf("%s %s\n", part_failures ? "FAILED" : "passed", name);
    failures += part_failures != 0;
    part_failures = 0;
}

static uint32_t seed = 2463534242u;
static uint32_t chance(uint32_t n)
{
    seed ^= seed << 13;
    seed ^= seed >> 17;
    seed ^= seed << 5;
    return seed % n;
}

/* Stretches of marked and unmarked cells, many spaces, any kinds and flags. */
static void make_page(size_t cells)
{
    size_t i;
    int mark = 0;
    for (i = 0; i < cells; i++) {
        if (chance(9) == 0)
            mark = !mark;
        page[i] = (uint16_t)(chance(3) ? 32 : chance(4) ? 32 + chance(96) : chance(65536));
        page[i] = (uint16_t)((page[i] & ~128u) | (mark ? 128 : 0));
    }
}

static int marked(size_t i)
{
    return (page[i] / 128) % 2;
}

/* The text of the cells from up to end, put into `expected`. */
static size_t reckon(size_t from, size_t end, int trim)
{
    size_t n = 0;
    for (; from < end; from++) {
        unsigned code = page[from] % 128;
        expected[n++] = (uint8_t)((page[from] / 256) % 4 == 0 && code >= 32 && code <= 126 ? code : 32);
    }
    while (trim && n > 0 && expected[n - 1] == 32)
        n--;
    return n;
}

static int untouched(size_t from)
{
    for (; from < sizeof text; from++)
        if (text[from] != 0xee)
            return 0;
    return 1;
}

/* A text of n bytes in `expected`, in a room that just fits, one that is too small, and a roomy one. */
static void put(wy50_text_result r, size_t n, size_t room)
{
    if (n <= room)
        CHECK(r.answer == WY50_DONE && r.length == n && memcmp(text, expected, n) == 0 && untouched(n));
    else
        CHECK(r.answer == WY50_NO_ROOM && r.length == 0 && untouched(0));
}

static size_t rooms(size_t n, int which)
{
    return which == 0 ? n : which == 1 ? (n > 0 ? n - 1 : 0) : sizeof expected;
}

static void refuse(wy50_text_result r, int answer)
{
    CHECK(r.answer == answer && r.length == 0 && untouched(0));
}

static void read_page(size_t cells)
{
    size_t width = cells / 24, i, end, next = 0, n;
    int trim, which;
    wy50_field f;
    wy50_position at;

    memset(text, 0xee, sizeof text);
    for (i = 0; i < cells; i++) {
        int starts = !marked(i) && (i % width == 0 || marked(i - 1));
        at = wy50_position_of(cells, i);
        CHECK(at.answer == 0 && at.row == i / width && at.column == i % width && wy50_cell_at(cells, at.row, at.column) == i);
        if (!starts) {
            refuse(wy50_field_text(page, cells, i, 1, text, WY50_LONGEST_TEXT), WY50_BAD_ARGUMENT);
            continue;
        }
        for (end = i + 1; end % width != 0 && !marked(end); end++)
            ;
        f = wy50_next_field(page, cells, next);
        CHECK(f.start == i && f.length == end - i && f.row == i / width && f.column == i % width);
        f = wy50_next_field(page, cells, i);
        CHECK(f.start == i && f.length == end - i);
        for (trim = 0; trim < 2; trim++)
            for (which = 0; which < 3; which++) {
                n = reckon(i, end, trim);
                put(wy50_field_text(page, cells, i, (uint8_t)(trim ? 1 + chance(255) : 0), text, rooms(n, which)), n, rooms(n, which));
                memset(text, 0xee, sizeof text);
            }
        next = i + 1;
    }
    f = wy50_next_field(page, cells, next);
    CHECK(f.start == 0 && f.length == 0 && f.row == 0 && f.column == 0);
    CHECK(wy50_next_field(page, cells, cells).length == 0 && wy50_next_field(page, cells, (size_t)-1).length == 0);
    for (i = 0; i < 24; i++)
        for (trim = 0; trim < 2; trim++)
            for (which = 0; which < 3; which++) {
                n = reckon(i * width, (i + 1) * width, trim);
                put(wy50_row_text(page, cells, i, (uint8_t)trim, text, rooms(n, which)), n, rooms(n, which));
                memset(text, 0xee, sizeof text);
            }
    refuse(wy50_row_text(page, cells, 24, 0, text, WY50_LONGEST_TEXT), WY50_BAD_ARGUMENT);
    refuse(wy50_row_text(page, cells, (size_t)-1, 1, text, WY50_LONGEST_TEXT), WY50_BAD_ARGUMENT);
    refuse(wy50_field_text(page, cells, cells, 1, text, WY50_LONGEST_TEXT), WY50_BAD_ARGUMENT);
    refuse(wy50_field_text(page, cells, (size_t)-1, 1, text, WY50_LONGEST_TEXT), WY50_BAD_ARGUMENT);
}

static void pages(void)
{
    int i;
    for (i = 0; i < 40; i++) {
        make_page(WY50_CELLS);
        read_page(WY50_CELLS);
    }
    part("fields, rows and places of 80 columns");
    for (i = 0; i < 40; i++) {
        make_page(WY50_WIDE_CELLS);
        read_page(WY50_WIDE_CELLS);
    }
    part("fields, rows and places of 132 columns");
}

static void refusals(void)
{
    static const size_t lengths[] = {0, 1, 80, 132, 1919, 1921, 3167, 3169};
    wy50_position at;
    size_t i;
    memset(page, 0, sizeof page);
    memset(text, 0xee, sizeof text);
    for (i = 0; i < sizeof lengths / sizeof *lengths; i++) {
        CHECK(wy50_next_field(page, lengths[i], 0).length == 0);
        refuse(wy50_field_text(page, lengths[i], 0, 0, text, WY50_LONGEST_TEXT), WY50_BAD_CALL);
        refuse(wy50_row_text(page, lengths[i], 24, 0, text, WY50_LONGEST_TEXT), WY50_BAD_CALL);
        at = wy50_position_of(lengths[i], 0);
        CHECK(at.answer == WY50_BAD_CALL && at.row == 0 && at.column == 0);
        CHECK(wy50_cell_at(lengths[i], 0, 0) == lengths[i]);
    }
    part("a page of another length: 7, and no field");
    at = wy50_position_of(WY50_CELLS, WY50_CELLS);
    CHECK(at.answer == WY50_BAD_ARGUMENT && at.row == 0 && at.column == 0);
    CHECK(wy50_position_of(WY50_WIDE_CELLS, (size_t)-1).answer == WY50_BAD_ARGUMENT);
    CHECK(wy50_cell_at(WY50_CELLS, 23, 79) == 1919 && wy50_cell_at(WY50_WIDE_CELLS, 23, 131) == 3167);
    CHECK(wy50_cell_at(WY50_CELLS, 24, 0) == WY50_CELLS && wy50_cell_at(WY50_CELLS, 0, 80) == WY50_CELLS);
    CHECK(wy50_cell_at(WY50_WIDE_CELLS, 0, 132) == WY50_WIDE_CELLS && wy50_cell_at(WY50_WIDE_CELLS, (size_t)-1, (size_t)-1) == WY50_WIDE_CELLS);
    part("places outside a page");
}

/* With the cursor at the last cell the pieces of ESC 5 that are not empty are the fields, protect mode on or off. */
static void as_sent(void)
{
    uint8_t reply[WY50_LONGEST_REPLY];
    int i;
    for (i = 0; i < 40; i++) {
        wy50_state state = wy50_power_on(page, WY50_CELLS, WY50_PERSONALITY_50).state;
        wy50_run_result r;
        wy50_field f;
        size_t from = 0, at;
        make_page(WY50_CELLS);
        page[WY50_CELLS - 1] &= (uint16_t)~128u;
        state.screen.cursor0 = WY50_CELLS - 1;
        state.modes.protect = (uint8_t)(i % 2);
        r = wy50_run(page, WY50_CELLS, state, (const uint8_t *)"\0335", 2, reply, sizeof reply);
        CHECK(r.answer == 0 && r.taken == 2);
        for (at = 0; at < r.replied; at++) {
            size_t n = 0;
            if (reply[at] < 32)
                continue;
            while (reply[at + n] >= 32)
                n++;
            f = wy50_next_field(page, WY50_CELLS, from);
            CHECK(f.length == n && wy50_field_text(page, WY50_CELLS, f.start, 0, text, n).length == n && memcmp(text, reply + at, n) == 0);
            from = f.start + 1;
            at += n;
        }
        CHECK(wy50_next_field(page, WY50_CELLS, from).length == 0);
    }
    part("the pieces of ESC 5 are the fields");
}

static void cursors(void)
{
    wy50_state state = wy50_power_on(page, WY50_CELLS, WY50_PERSONALITY_50).state;
    wy50_position at = wy50_cursor(state);
    CHECK(at.answer == 0 && at.row == 0 && at.column == 0);
    state.screen.cursor0 = 165;
    state.screen.cursor1 = 1919;
    at = wy50_cursor(state);
    CHECK(at.answer == 0 && at.row == 2 && at.column == 5);
    state.screen.active = 1;
    at = wy50_cursor(state);
    CHECK(at.answer == WY50_BAD_CALL && at.row == 0 && at.column == 0);
    state.screen.split = 4;
    at = wy50_cursor(state);
    CHECK(at.answer == 0 && at.row == 23 && at.column == 79);
    state.screen.cursor1 = 1920;
    at = wy50_cursor(state);
    CHECK(at.answer == WY50_BAD_CALL && at.row == 0 && at.column == 0);
    state.screen.wide = 1;
    at = wy50_cursor(state);
    CHECK(at.answer == 0 && at.row == 14 && at.column == 72);
    state.screen.cursor1 = WY50_WIDE_CELLS;
    CHECK(wy50_cursor(state).answer == WY50_BAD_CALL);
    state.screen.cursor1 = 1920;
    state.modes.protect = 2;
    CHECK(wy50_cursor(state).answer == WY50_BAD_CALL);
    state.modes.protect = 1;
    CHECK(wy50_cursor(state).answer == 0);
    part("the cursor as row and column, by the state's width; 7 for a state that is not possible");
}

int main(void)
{
    pages();
    refusals();
    as_sent();
    cursors();
    if (failures)
        printf("%d parts FAILED\n", failures);
    return failures != 0;
}
