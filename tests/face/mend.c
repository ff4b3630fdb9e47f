/* Checks the mending of a saved page: each answer, every number in a cell under both personalities and at both widths against a reckoning of its own,
 * the terminal's own writing of each number that stays, lists of every length, and what is refused. Pages and lists lie between guard numbers. Compiles
 * as C99 and as C++. Prints one line for each part, and fails by its status. */
#include "wy50.h"

#include <stdio.h>
#include <string.h>

enum { GUARD = 16, GUARDED = 0xa55a, MOST_LIST = WY50_ENTRY_NUMBERS * (WY50_WIDE_CELLS + 3) };

/* The page and the list, each with guard numbers before and behind it, and copies. */
static uint16_t page_room[GUARD + WY50_WIDE_CELLS + GUARD], list_room[GUARD + MOST_LIST + GUARD];
static uint16_t *const page = page_room + GUARD, *const list = list_room + GUARD;
static uint16_t page_before[WY50_WIDE_CELLS + 2 * GUARD], list_before[MOST_LIST + 2 * GUARD], page_mended[WY50_WIDE_CELLS];
static int failures, part_failures;

#define CHECK(test) check((test) != 0, #test, __LINE__)

static void check(int ok, const char *text, int line)
{
    if (!ok) {
        printf("mend.c:%d: not so: %s\n", line, text);
        part_failures++;
    }
}

static void part(const char *name)
{
    printf("%s %s\n", part_failures ? "FAILED" : "passed", name);
    failures += part_failures != 0;
    part_failures = 0;
}

static uint32_t seed = 2463534242u;
static uint32_t chance(uint32_t n)
{
    seed ^= seed << 13;
    seed ^= seed >> 17;
    seed ^= seed << 5;
    return seed % n;
}

static const uint8_t personalities[] = {WY50_PERSONALITY_50, WY50_PERSONALITY_60};
static const size_t widths[] = {WY50_COLUMNS, WY50_WIDE_COLUMNS};

/* The numbers that each personality writes, counted up kind by kind: text is the code, an attribute cell 256 and its code, a graphic 512 and its code;
 * 128 more is protected, and an attribute is 1,024 times its flags more. */
static uint8_t writes[2][65536];

static void written(int who, unsigned from, unsigned to, unsigned kind, unsigned attributes, int guarded)
{
    unsigned code, a;
    for (code = from; code <= to; code++)
        for (a = 0; a < attributes; a++) {
            writes[who][256 * kind + code + 1024 * a] = 1;
            if (guarded)
                writes[who][256 * kind + code + 1024 * a + 128] = 1;
        }
}

static void reckon(void)
{
    long i, count[2] = {0, 0};
    writes[0][0] = writes[1][0] = 1;
    written(0, 0x20, 0x7e, WY50_TEXT, 1, 1);
    written(0, 0x30, 0x3f, WY50_ATTRIBUTE, 1, 1);
    written(0, 0x70, 0x7e, WY50_ATTRIBUTE, 1, 1);
    written(0, 0x30, 0x3f, WY50_GRAPHIC, 1, 1);
    written(1, 0x20, 0x7e, WY50_TEXT, 31, 1);
    written(1, 0x30, 0x3f, WY50_GRAPHIC, 31, 1);
    written(1, 0x30, 0x3f, WY50_ATTRIBUTE, 1, 0);
    written(1, 0x70, 0x7e, WY50_ATTRIBUTE, 1, 0);
    for (i = 0; i < 65536; i++) {
        count[0] += writes[0][i];
        count[1] += writes[1][i];
    }
    CHECK(count[0] == 1 + 2 * (95 + 31 + 16) && count[1] == 1 + 2 * 31 * (95 + 16) + 31);
    CHECK(sizeof(wy50_mend_result) == 4 && offsetof(wy50_mend_result, needed) == 2 && WY50_ENTRY_NUMBERS == 4);
    part("sizes, and how many numbers each personality writes");
}

/* A mending of the page, with so many numbers of the list, against the reckoning: answer, count, every cell, the entries, the list's rest, the guards. */
static wy50_mend_result mend(int who, size_t columns, size_t list_len)
{
    size_t i, cells = WY50_ROWS * columns, needed = 0;
    wy50_mend_result r;
    for (i = 0; i < GUARD; i++)
        page_room[i] = list_room[i] = page[cells + i] = list[list_len + i] = GUARDED;
    for (i = 0; i < list_len; i++)
        list[i] = (uint16_t)(0x5000 + i);
    memcpy(page_before, page_room, (cells + 2 * GUARD) * sizeof *page);
    memcpy(list_before, list_room, (list_len + 2 * GUARD) * sizeof *list);
    for (i = 0; i < cells; i++)
        needed += !writes[who][page[i]];
    if (needed <= list_len / 4) {
        uint16_t *entry = list_before + GUARD;
        for (i = 0; i < cells; i++)
            if (!writes[who][page[i]]) {
                *entry++ = (uint16_t)(i / columns + 1);
                *entry++ = (uint16_t)(i % columns + 1);
                *entry++ = page[i];
                *entry++ = 0;
                page_before[GUARD + i] = 0;
            }
    }
    r = wy50_mend(page, cells, personalities[who], list, list_len);
    CHECK(r.answer == (needed <= list_len / 4 ? WY50_DONE : WY50_NO_ROOM) && r.needed == needed);
    CHECK(memcmp(page_room, page_before, (cells + 2 * GUARD) * sizeof *page) == 0);
    CHECK(memcmp(list_room, list_before, (list_len + 2 * GUARD) * sizeof *list) == 0);
    return r;
}

/* A mending with room enough; a second, with no list, then changes nothing. */
static void mend_twice(int who, size_t columns)
{
    size_t size = WY50_ROWS * columns * sizeof *page;
    wy50_mend_result r;
    CHECK(mend(who, columns, 4 * WY50_ROWS * columns).answer == WY50_DONE);
    memcpy(page_mended, page, size);
    r = wy50_mend(page, WY50_ROWS * columns, personalities[who], NULL, 0);
    CHECK(r.answer == WY50_DONE && r.needed == 0 && memcmp(page, page_mended, size) == 0);
    mend(who, columns, 8);
    CHECK(memcmp(page, page_mended, size) == 0);
}

static void every_number(void)
{
    size_t i, w, cells;
    long first;
    int who;
    for (who = 0; who < 2; who++)
        for (w = 0; w < 2; w++) {
            cells = WY50_ROWS * widths[w];
            for (first = 0; first < 65536; first += (long)cells) {
                for (i = 0; i < cells; i++)
                    page[i] = (uint16_t)(first + (long)i);
                mend_twice(who, widths[w]);
            }
        }
    part("every number, both personalities, both widths; mending twice is mending once");
}

/* The bytes that have a terminal write a number into its first cell. */
static size_t asked(uint16_t number, uint8_t *to)
{
    uint8_t kind = wy50_cell_kind(number), flags = wy50_cell_attribute(number), guarded = wy50_cell_protected(number);
    size_t n = 0;
    if (number == 0)
        return 0;
    if (guarded) {
        to[n++] = 27;
        to[n++] = ')';
    }
    if (flags != 0) {
        to[n++] = 27;
        to[n++] = 'G';
        to[n++] = (uint8_t)(flags < 16 ? 0x30 + flags : 0x60 + flags);
    }
    if (kind != WY50_TEXT) {
        to[n++] = 27;
        to[n++] = kind == WY50_GRAPHIC ? 'H' : guarded ? 'G' : '!';
    }
    to[n++] = wy50_cell_code(number);
    return n;
}

static void by_the_terminal(void)
{
    uint8_t bytes[16];
    size_t n;
    long v;
    int who;
    for (who = 0; who < 2; who++)
        for (v = 0; v < 65536; v++)
            if (writes[who][v]) {
                wy50_state state = wy50_power_on(page, WY50_CELLS, personalities[who]).state;
                n = asked((uint16_t)v, bytes);
                CHECK(wy50_run(page, WY50_CELLS, state, bytes, n, NULL, 0).taken == n && page[0] == v);
                CHECK(wy50_mend(page, WY50_CELLS, personalities[who], NULL, 0).answer == WY50_DONE && page[0] == v);
            }
    part("each number that stays, written by a terminal");
}

/* Host bytes of every sort from power-on, at either width: nothing is damaged. */
static void after_hosts(void)
{
    static const char after[] = "!\"&'()*+,./:;=AEFGHIJKNOQRTVWY]`abjklqrtxyz{}";
    static uint16_t other[WY50_WIDE_CELLS];
    static uint8_t bytes[4000], reply[WY50_LONGEST_REPLY];
    size_t i, cells;
    int who, turn;
    for (who = 0; who < 2; who++)
        for (turn = 0; turn < 200; turn++) {
            wy50_state state = wy50_power_on(page, WY50_CELLS, personalities[who]).state;
            wy50_run_result r;
            wy50_mend_result m;
            if (turn % 2) {
                wy50_convert_result c = wy50_convert(page, WY50_CELLS, state, other, WY50_WIDE_CELLS);
                CHECK(c.answer == WY50_DONE);
                state = c.state;
                memcpy(page, other, sizeof other);
            }
            cells = turn % 2 ? WY50_WIDE_CELLS : WY50_CELLS;
            for (i = 0; i < sizeof bytes; i++)
                switch (chance(4)) {
                case 0:
                    bytes[i] = 27;
                    if (i + 1 < sizeof bytes)
                        bytes[++i] = (uint8_t)after[chance(sizeof after - 1)];
                    break;
                case 1:
                    bytes[i] = (uint8_t)chance(256);
                    break;
                default:
                    bytes[i] = (uint8_t)(0x20 + chance(0x5f));
                }
            r = wy50_run(page, cells, state, bytes, sizeof bytes, reply, sizeof reply);
            CHECK(r.answer == WY50_DONE || r.answer == WY50_NO_ROOM);
            memcpy(other, page, cells * sizeof *page);
            m = wy50_mend(page, cells, personalities[who], NULL, 0);
            CHECK(m.answer == WY50_DONE && m.needed == 0 && memcmp(page, other, cells * sizeof *page) == 0);
        }
    part("no page that a terminal leaves is damaged");
}

/* Pages with few or many damaged cells, and lists of every length about theirs. */
static void lists(void)
{
    static const size_t damaged[] = {0, 1, 2, 7};
    static uint16_t saved[WY50_WIDE_CELLS];
    size_t i, k, n, w, cells;
    int who;
    for (who = 0; who < 2; who++)
        for (w = 0; w < 2; w++) {
            cells = WY50_ROWS * widths[w];
            for (k = 0; k < sizeof damaged / sizeof *damaged; k++) {
                for (i = 0; i < cells; i++)
                    saved[i] = (uint16_t)(0x20 + i % 95);
                /* the first cell, the last, and some of those between */
                for (i = 0; i < damaged[k]; i++)
                    saved[damaged[k] == 1 ? cells - 1 : i * (cells - 1) / (damaged[k] - 1)] = (uint16_t)(i % 2 ? 0x80 : 0x8041);
                for (n = 0; n <= 4 * damaged[k] + 9; n++) {
                    memcpy(page, saved, cells * sizeof *page);
                    CHECK(mend(who, widths[w], n).needed == damaged[k]);
                }
            }
            /* every cell, with a number and an entry too few, and just enough */
            for (n = 4 * cells - 4; n <= 4 * cells + 3; n++) {
                memset(page, 0xff, cells * sizeof *page);
                CHECK(mend(who, widths[w], n).needed == cells && page[0] == (n < 4 * cells ? 0xffff : 0));
            }
            for (n = 0; n < 100; n++) {
                for (i = 0; i < cells; i++)
                    page[i] = (uint16_t)(chance(1 + (uint32_t)n) ? 0x20 + chance(95) : chance(65536));
                mend(who, widths[w], chance(3) ? chance(4 * (uint32_t)cells + 12) : chance(40));
            }
        }
    part("lists of every length, too short by a number, an entry or more: 6, and nothing changed");
}

static void refusals(void)
{
    static const size_t tried[] = {0, 1, 4, 79, 80, 132, WY50_CELLS - 1, WY50_CELLS + 1, 24 * 131, WY50_WIDE_CELLS - 1, WY50_WIDE_CELLS + 1};
    size_t i, k;
    int personality;
    wy50_mend_result r;
    memset(page_room, 0x77, sizeof page_room);
    memset(list_room, 0x55, sizeof list_room);
    memcpy(page_before, page_room, sizeof page_room);
    memcpy(list_before, list_room, sizeof list_room);
    for (i = 0; i < sizeof tried / sizeof *tried; i++)
        for (k = 0; k < 4; k++) {
            r = wy50_mend(page, tried[i], personalities[k % 2], k / 2 ? list : NULL, k / 2 ? MOST_LIST : 0);
            CHECK(r.answer == WY50_BAD_CALL && r.needed == 0);
        }
    for (personality = 0; personality < 256; personality++)
        if (personality != WY50_PERSONALITY_50 && personality != WY50_PERSONALITY_60)
            for (i = 0; i < 2; i++) {
                r = wy50_mend(page, WY50_ROWS * widths[i], (uint8_t)personality, list, MOST_LIST);
                CHECK(r.answer == WY50_BAD_CALL && r.needed == 0);
            }
    r = wy50_mend(NULL, 0, WY50_PERSONALITY_50, NULL, 0);
    CHECK(r.answer == WY50_BAD_CALL && r.needed == 0);
    r = wy50_mend(NULL, 0, WY50_PERSONALITY_60, list, MOST_LIST);
    CHECK(r.answer == WY50_BAD_CALL && r.needed == 0);
    CHECK(memcmp(page_room, page_before, sizeof page_room) == 0 && memcmp(list_room, list_before, sizeof list_room) == 0);
    part("another length, no personality: 7, and nothing changed");

    for (i = 0; i < 2; i++)
        for (k = 0; k < 2; k++) {
            r = wy50_mend(page, WY50_ROWS * widths[i], personalities[k], NULL, 0);
            CHECK(r.answer == WY50_NO_ROOM && r.needed == WY50_ROWS * widths[i]);
        }
    CHECK(memcmp(page_room, page_before, sizeof page_room) == 0);
    memset(page, 0, WY50_CELLS * sizeof *page);
    r = wy50_mend(page, WY50_CELLS, WY50_PERSONALITY_50, NULL, 0);
    CHECK(r.answer == WY50_DONE && r.needed == 0);
    part("NULL with 0 asks how many entries are needed");
}

int main(void)
{
    reckon();
    every_number();
    by_the_terminal();
    after_hosts();
    lists();
    refusals();
    if (failures)
        printf("%d parts FAILED\n", failures);
    return failures != 0;
}
