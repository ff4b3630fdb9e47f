/* Checks the two widths: the wish, the conversion with each of its answers, their order and what it keeps and clears, and the calls on a wide page.
 * Pages and targets lie between guard cells. Compiles as C99 and as C++. Prints one line for each part, and fails by its status. */
#include "wy50.h"

#include <stdio.h>
#include <string.h>

enum { GUARD = 16, GUARDED = 0xa55a };

/* The page of each width, each with guard cells before and behind it, and copies. */
static uint16_t narrow_room[GUARD + WY50_CELLS + GUARD], wide_room[GUARD + WY50_WIDE_CELLS + GUARD];
static uint16_t narrow_before[WY50_CELLS], wide_before[WY50_WIDE_CELLS];
static uint16_t *const narrow = narrow_room + GUARD, *const wide = wide_room + GUARD;
static uint16_t rows[WY50_ROW_NUMBERS];
static uint8_t reply[WY50_LONGEST_REPLY + 8];
static wy50_state state, before, expected;
static int failures, part_failures;

#define CHECK(test) check((test) != 0, #test, __LINE__)

static void check(int ok, const char *text, int line)
{
    if (!ok) {
        printf("convert.c:%d: not so: %s\n", line, text);
        part_failures++;
    }
}

static void part(const char *name)
{
    printf("%s %s\n", part_failures ? "FAILED" : "passed", name);
    failures += part_failures != 0;
    part_failures = 0;
}

static int same(const wy50_state *a, const wy50_state *b)
{
    return memcmp(a, b, sizeof *a) == 0;
}

static uint32_t seed = 2463534242u;
static uint32_t chance(uint32_t n)
{
    seed ^= seed << 13;
    seed ^= seed >> 17;
    seed ^= seed << 5;
    return seed % n;
}

static void set_guards(void)
{
    int i;
    for (i = 0; i < GUARD; i++) {
        narrow_room[i] = narrow[WY50_CELLS + i] = GUARDED;
        wide_room[i] = wide[WY50_WIDE_CELLS + i] = GUARDED;
    }
}

static int guards_are_whole(void)
{
    int i;
    for (i = 0; i < GUARD; i++)
        if (narrow_room[i] != GUARDED || narrow[WY50_CELLS + i] != GUARDED || wide_room[i] != GUARDED || wide[WY50_WIDE_CELLS + i] != GUARDED)
            return 0;
    return 1;
}

/* The state's own page, and the other one. */
static uint16_t *page(void)
{
    return state.screen.wide ? wide : narrow;
}

static size_t cells(void)
{
    return state.screen.wide ? WY50_WIDE_CELLS : WY50_CELLS;
}

static uint16_t *target(void)
{
    return state.screen.wide ? narrow : wide;
}

static size_t target_cells(void)
{
    return state.screen.wide ? WY50_CELLS : WY50_WIDE_CELLS;
}

/* The answer of a conversion. The page stays, and so do state and target where it is refused. */
static int convert_to(size_t page_len, size_t target_len)
{
    wy50_convert_result r;
    before = state;
    memcpy(narrow_before, narrow, sizeof narrow_before);
    memcpy(wide_before, wide, sizeof wide_before);
    set_guards();
    r = wy50_convert(page(), page_len, state, target(), target_len);
    CHECK(guards_are_whole());
    if (r.answer != WY50_DONE || state.screen.wide)
        CHECK(memcmp(wide, wide_before, sizeof wide_before) == 0);
    if (r.answer != WY50_DONE || !state.screen.wide)
        CHECK(memcmp(narrow, narrow_before, sizeof narrow_before) == 0);
    if (r.answer != WY50_DONE)
        CHECK(same(&r.state, &before));
    state = r.state;
    return r.answer;
}

static int convert(void)
{
    return convert_to(cells(), target_cells());
}

static void power_on(uint8_t personality)
{
    memset(wide, 0x77, sizeof wide_before);
    state = wy50_power_on(narrow, WY50_CELLS, personality).state;
}

/* Host bytes, one at a time; the answer of the last, and the reply of the last. */
static size_t replied;
static int feed(const char *bytes, size_t n)
{
    size_t i;
    int answer = -1;
    for (i = 0; i < n; i++) {
        wy50_step_result r = wy50_step(page(), cells(), state, (uint8_t)bytes[i], reply, WY50_LONGEST_REPLY);
        state = r.state;
        replied = r.replied;
        answer = r.answer;
        CHECK(r.taken == 1);
    }
    return answer;
}
#define FEED(s) feed(s, sizeof(s) - 1)

static int replies(const char *bytes, size_t n)
{
    return replied == n && memcmp(reply, bytes, n) == 0;
}
#define REPLIES(s) replies(s, sizeof(s) - 1)

static void wide_power_on(void)
{
    power_on(WY50_PERSONALITY_50);
    CHECK(convert() == WY50_DONE && state.screen.wide == 1);
}

static void layout(void)
{
    CHECK(sizeof(wy50_convert_result) == 700 && offsetof(wy50_convert_result, state) == 2);
    CHECK(WY50_WIDE_CELLS == WY50_ROWS * WY50_WIDE_COLUMNS && WY50_LONGEST_REPLY == WY50_WIDE_CELLS + 24 && WY50_LONGEST_TEXT == WY50_WIDE_COLUMNS);
    part("sizes");
}

/* 3Bh and 3Ah set the wish and nothing else, at either width; the conversion leaves it. */
static void wishes(void)
{
    int i;
    for (i = 0; i < 2; i++) {
        power_on(WY50_PERSONALITY_50);
        CHECK(state.screen.wide == 0 && state.wish == 0);
        if (i == 1)
            CHECK(convert() == WY50_DONE && state.screen.wide == 1 && state.wish == 0);
        expected = state;
        CHECK(FEED("\033`:") == WY50_DONE && same(&state, &expected));
        expected.wish = 1;
        CHECK(FEED("\033`;") == WY50_DONE && same(&state, &expected) && FEED("\033`;") == WY50_DONE && same(&state, &expected));
        CHECK(convert() == WY50_DONE && state.wish == 1 && convert() == WY50_DONE && state.wish == 1);
        expected.wish = 0;
        CHECK(FEED("\033`:") == WY50_DONE && same(&state, &expected));
    }
    part("the wish, at either width");
}

/* What a conversion to w columns leaves of a state: by hand. */
static wy50_state turned(wy50_state x, const uint16_t *to, unsigned w)
{
    unsigned i;
    x.screen.wide = w == WY50_WIDE_COLUMNS;
    x.screen.active = x.screen.split = 0;
    x.screen.cursor0 = x.screen.cursor1 = 0;
    for (i = 0; x.modes.protect && i < WY50_ROWS * w; i++)
        if (to[i] / 128 % 2 == 0) {
            x.screen.cursor0 = (uint16_t)i;
            break;
        }
    for (i = w; i < WY50_WIDE_COLUMNS; i++)
        x.tabs[i] = 0;
    return x;
}

/* The cells of both pages that have the same row and column are the same, and those of the wide one beyond column 80 are 0. */
static int same_cells(void)
{
    unsigned i;
    for (i = 0; i < WY50_WIDE_CELLS; i++) {
        unsigned row = i / WY50_WIDE_COLUMNS, column = i % WY50_WIDE_COLUMNS;
        if (wide[i] != (column < WY50_COLUMNS ? narrow[row * WY50_COLUMNS + column] : 0))
            return 0;
    }
    return 1;
}

/* Every member with a number of its own; a split page, the second segment active. */
static void fill_in(void)
{
    size_t i, width = cells() / WY50_ROWS;
    state.screen.active = 1;
    state.screen.split = 7;
    state.screen.cursor0 = 321;
    state.screen.cursor1 = (uint16_t)(cells() - 9);
    state.modes.insert = state.modes.local_edit = state.modes.locked = 1;
    state.modes.autoscroll = 0;
    state.bells = 213;
    state.sequence.kind = WY50_DECIMAL_COLUMN;
    state.sequence.first = 17;
    state.sequence.second = 3;
    state.sequence.third = 789;
    for (i = 0; i < width; i++)
        state.tabs[i] = (uint8_t)(i % 3 == 1);
    for (i = 0; i < 4; i++)
        state.attributes[i] = (uint8_t)(0x31 + 2 * i);
    memcpy(state.features, "04A8>", 5);
    for (i = 0; i < WY50_KEYS; i++) {
        state.keys[i].len = (uint8_t)(i % 9);
        memset(state.keys[i].bytes, (int)(0x21 + i), WY50_KEY_BYTES);
    }
    for (i = 0; i < WY50_LABELS; i++) {
        state.labels[i].len = (uint8_t)(i % 9);
        memset(state.labels[i].bytes, (int)(0x41 + i), WY50_LABEL_BYTES);
    }
    state.message.len = 45;
    memset(state.message.bytes, 0x7e, WY50_MESSAGE_BYTES);
    state.shifted = 1;
    state.wish = (uint16_t)chance(2);
}

static void widths(void)
{
    int i;
    size_t k;
    for (i = 0; i < 60; i++) {
        power_on(i % 2 ? WY50_PERSONALITY_60 : WY50_PERSONALITY_50);
        fill_in();
        state.modes.protect = (uint8_t)(i % 3 != 0);
        state.modes.write_protect = (uint8_t)chance(2);
        state.remembered = (uint8_t)(i % 2 ? 29 : 0);
        for (k = 0; k < WY50_CELLS; k++)
            narrow[k] = (uint16_t)(chance(65536) | (i % 5 < 2 ? 128 : 0));
        CHECK(convert() == WY50_DONE && same_cells());
        expected = turned(before, wide, WY50_WIDE_COLUMNS);
        CHECK(same(&state, &expected));
        memset(narrow, 0x55, sizeof narrow_before);
        fill_in();
        CHECK(state.tabs[130] == 1);
        CHECK(convert() == WY50_DONE && same_cells());
        expected = turned(before, narrow, WY50_COLUMNS);
        CHECK(same(&state, &expected) && state.tabs[79] == 1 && state.tabs[130] == 0);
    }
    part("both ways: every cell, and every member of the state");

    power_on(WY50_PERSONALITY_50);
    CHECK(FEED("\033,\033&") == WY50_DONE && convert() == WY50_DONE && state.screen.cursor0 == 80);
    CHECK(FEED("A") == WY50_DONE && wide[80] == 'A' && state.screen.cursor0 == 81 && convert() == WY50_BARRED);
    CHECK(FEED("\010\033t") == WY50_DONE && wide[80] == 0 && convert() == WY50_DONE && state.screen.cursor0 == 0 && FEED("A") == WY50_BARRED);
    part("a page of labels alone: open beyond column 80, and settled at home without it");
}

/* Each cell beyond column 80, with each of some numbers, bars narrowing; none within does. */
static void lost_cells(void)
{
    static const uint16_t numbers[] = {1, ' ', 128, 256, 1024, 32768};
    size_t i, k;
    wide_power_on();
    for (i = 0; i < WY50_WIDE_CELLS; i++) {
        size_t column = i % WY50_WIDE_COLUMNS;
        wide[i] = numbers[i % 6];
        if (column >= WY50_COLUMNS) {
            for (k = 0; k < 6; k++) {
                wide[i] = numbers[k];
                CHECK(convert() == WY50_BARRED);
            }
            wide[i] = 0;
        } else if (column % 13 == 0) {
            CHECK(convert() == WY50_DONE && same_cells());
            state = before;
        }
        if (part_failures > 9)
            break;
    }
    CHECK(convert() == WY50_DONE && same_cells());
    part("4 exactly where a cell beyond column 80 is not 0");
}

/* 7, 6, 4: each with all that comes behind it. */
static void order(void)
{
    static const size_t lengths[] = {0, 1, 80, 132, WY50_CELLS - 1, WY50_CELLS + 1, WY50_WIDE_CELLS - 1};
    size_t i;
    int w, sends, loses;
    for (w = 0; w < 2; w++)
        for (sends = 0; sends < 2; sends++)
            for (loses = 0; loses < 2; loses++) {
                wy50_run_result r;
                power_on(WY50_PERSONALITY_60);
                if (w)
                    CHECK(convert() == WY50_DONE);
                if (w && loses)
                    CHECK(FEED("\033a3R132C.\033a3R2C") == WY50_DONE);
                if (sends) {
                    r = wy50_run(page(), cells(), state, (const uint8_t *)"\033b", 2, reply, 3);
                    CHECK(r.replied == 3 && r.state.sending.command == 'b');
                    state = r.state;
                }
                for (i = 0; i < sizeof lengths / sizeof *lengths; i++) {
                    CHECK(lengths[i] > cells() || convert_to(lengths[i], target_cells()) == WY50_BAD_CALL);
                    CHECK(lengths[i] > target_cells() || convert_to(cells(), lengths[i]) == WY50_BAD_CALL);
                }
                CHECK(convert_to(cells(), w ? 0 : WY50_CELLS) == WY50_BAD_CALL);
                state.shifted = 2;
                CHECK(convert() == WY50_BAD_CALL);
                state.shifted = 0;
                CHECK(convert() == (sends ? WY50_NO_ROOM : w && loses ? WY50_BARRED : WY50_DONE));
                if (sends) {
                    r = wy50_run(page(), cells(), state, NULL, 0, reply, sizeof reply);
                    CHECK(r.answer == WY50_DONE && r.replied == 4 && r.state.sending.command == 0);
                    state = r.state;
                    CHECK(convert() == (w && loses ? WY50_BARRED : WY50_DONE));
                }
            }
    part("the answers' order: 7, 6, 4; what is refused changes nothing");

    power_on(WY50_PERSONALITY_50);
    CHECK(wy50_convert(NULL, 0, state, wide, WY50_WIDE_CELLS).answer == WY50_BAD_CALL && wy50_convert(narrow, WY50_CELLS, state, NULL, 0).answer == WY50_BAD_CALL);
    CHECK(wy50_convert(NULL, 0, state, NULL, 0).answer == WY50_BAD_CALL);
    part("NULL with 0: 7");
}

/* A sequence under way goes on after the conversion. */
static void sequences(void)
{
    static const char *const hosts[] = {"\033", "\033=", "\033=!", "\033-", "\033-0", "\033-0!", "\033a", "\033a2", "\033a24R", "\033a24R13",
        "\033x", "\033x1", "\033G", "\033H", "\033!", "\033.", "\033`", "\033A", "\033A1", "\033z", "\033z@ke", "\033z@123456789", "\033z0lab",
        "\033zP\033", "\033Fmess", "\033Fmess\033"};
    size_t i;
    for (i = 0; i < sizeof hosts / sizeof *hosts; i++) {
        power_on(WY50_PERSONALITY_50);
        CHECK(feed(hosts[i], strlen(hosts[i])) == WY50_DONE);
        CHECK(convert() == WY50_DONE);
        expected = turned(before, wide, WY50_WIDE_COLUMNS);
        CHECK(same(&state, &expected) && convert() == WY50_DONE);
        expected.screen.wide = 0;
        CHECK(same(&state, &expected));
    }
    power_on(WY50_PERSONALITY_50);
    CHECK(FEED("\033a24R13") == WY50_DONE && convert() == WY50_DONE && FEED("2C\033b") == WY50_DONE && REPLIES("24R132C"));
    CHECK(FEED("\033a24R13") == WY50_DONE && convert() == WY50_DONE && FEED("2C") == WY50_BAD_ARGUMENT);
    CHECK(FEED("\033Fhel") == WY50_DONE && convert() == WY50_DONE && FEED("lo\r") == WY50_DONE && state.message.len == 5);
    CHECK(memcmp(state.message.bytes, "hello", 5) == 0);
    memset(state.gathered, 0xff, sizeof state.gathered);
    CHECK(convert() == WY50_DONE && state.gathered[0] == 0xff && state.gathered[45] == 0xff);
    part("a sequence under way goes on");
}

/* Numbers that are no possible state, at either width: 7 from the conversion, and given back as they came. */
#define REFUSED(change)                      \
    do {                                     \
        power_on(WY50_PERSONALITY_50);       \
        if (w)                               \
            CHECK(convert() == WY50_DONE);   \
        change;                              \
        refused();                           \
    } while (0)

static void refused(void)
{
    uint16_t *lent = page();
    size_t len = cells();
    wy50_step_result s;
    wy50_run_result r;
    wy50_next_result e;
    memcpy(narrow_before, narrow, sizeof narrow_before);
    memcpy(wide_before, wide, sizeof wide_before);
    s = wy50_step(lent, len, state, 'A', reply, sizeof reply);
    CHECK(s.answer == WY50_BAD_CALL && s.taken == 0 && s.replied == 0 && same(&s.state, &state));
    r = wy50_run(lent, len, state, (const uint8_t *)"A\005", 2, reply, sizeof reply);
    CHECK(r.answer == WY50_BAD_CALL && r.taken == 0 && r.replied == 0 && same(&r.state, &state));
    e = wy50_next(lent, len, NULL, 0, state, (const uint8_t *)"A\005", 2, reply, sizeof reply);
    CHECK(e.answer == WY50_BAD_CALL && e.taken == 0 && e.replied == 0 && same(&e.state, &state));
    CHECK(wy50_press(lent, len, state, 0x40, reply, sizeof reply).answer == WY50_BAD_CALL);
    CHECK(wy50_rebuild_rows(lent, len, rows, WY50_ROW_NUMBERS, state) == WY50_BAD_CALL);
    CHECK(memcmp(narrow, narrow_before, sizeof narrow_before) == 0 && memcmp(wide, wide_before, sizeof wide_before) == 0);
    CHECK(convert() == WY50_BAD_CALL);
}

static void send_is(uint8_t command, uint8_t kind, uint16_t place)
{
    state.sending.command = command;
    state.sending.kind = kind;
    state.sending.place = place;
}

static void impossible(void)
{
    int w, i;
    for (w = 0; w < 2; w++) {
        REFUSED(state.screen.wide = 2);
        REFUSED(state.screen.wide = 256);
        REFUSED(state.screen.wide = 257);
        REFUSED(state.screen.wide = 0xffff);
        REFUSED(state.wish = 2);
        REFUSED(state.wish = 256);
        REFUSED(state.wish = 0xffff);
        REFUSED(state.screen.cursor0 = (uint16_t)cells());
        REFUSED(state.screen.cursor1 = (uint16_t)cells());
        REFUSED((state.screen.split = 2, state.screen.cursor1 = (uint16_t)(cells() / WY50_ROWS - 1)));
        REFUSED(memset(&state, 0xff, sizeof state));
        for (i = w ? WY50_WIDE_COLUMNS : WY50_COLUMNS; i < WY50_WIDE_COLUMNS; i++)
            REFUSED(state.tabs[i] = 1);
        for (i = 0; i < WY50_WIDE_COLUMNS; i++)
            REFUSED(state.tabs[i] = 2);
        REFUSED((send_is('7', WY50_SENT_BREAK, w ? 80 : 132), state.screen.cursor0 = 300));
    }
    w = 1;
    REFUSED(send_is('?', WY50_SENT_BYTES, 1));
    REFUSED(send_is('/', WY50_SENT_BYTES, 1));
    part("numbers that are no possible state, at either width: 7, and given back as they came");
}

/* A page of the other width, or of another length: 7 from every call. */
static void lengths(void)
{
    static const size_t tried[] = {0, 80, 132, WY50_CELLS - 1, WY50_CELLS, WY50_CELLS + 1, WY50_WIDE_CELLS - 1, WY50_WIDE_CELLS};
    size_t i, k, n;
    int w;
    for (w = 0; w < 2; w++)
        for (i = 0; i < sizeof tried / sizeof *tried; i++) {
            wy50_step_result s;
            wy50_run_result r;
            wy50_next_result e;
            n = tried[i];
            power_on(WY50_PERSONALITY_50);
            if (w)
                CHECK(convert() == WY50_DONE);
            if (n == cells())
                continue;
            memset(wide, 0x77, sizeof wide_before);
            memcpy(wide_before, wide, sizeof wide_before);
            CHECK(wy50_rebuild_rows(wide, n, rows, WY50_ROW_NUMBERS, state) == WY50_BAD_CALL);
            for (k = 0; k < WY50_ROW_NUMBERS; k++)
                rows[k] = (uint16_t)(k % 2 ? 1 : cells() / WY50_ROWS);
            s = wy50_step(wide, n, state, 5, reply, sizeof reply);
            CHECK(s.answer == WY50_BAD_CALL && s.taken == 0 && s.replied == 0 && same(&s.state, &state));
            s = wy50_step_rows(wide, n, rows, WY50_ROW_NUMBERS, state, 5, reply, sizeof reply);
            CHECK(s.answer == WY50_BAD_CALL && s.taken == 0 && s.replied == 0 && same(&s.state, &state));
            r = wy50_run(wide, n, state, (const uint8_t *)"A", 1, reply, sizeof reply);
            CHECK(r.answer == WY50_BAD_CALL && r.taken == 0 && same(&r.state, &state));
            r = wy50_run_rows(wide, n, rows, WY50_ROW_NUMBERS, state, (const uint8_t *)"A", 1, reply, sizeof reply);
            CHECK(r.answer == WY50_BAD_CALL && r.taken == 0 && same(&r.state, &state));
            e = wy50_next(wide, n, NULL, 0, state, (const uint8_t *)"A", 1, reply, sizeof reply);
            CHECK(e.answer == WY50_BAD_CALL && e.taken == 0 && same(&e.state, &state));
            CHECK(wy50_press(wide, n, state, 0x40, reply, sizeof reply).answer == WY50_BAD_CALL);
            CHECK(memcmp(wide, wide_before, sizeof wide_before) == 0);
        }
    memset(wide, 0x77, sizeof wide_before);
    CHECK(wy50_power_on(wide, WY50_WIDE_CELLS, WY50_PERSONALITY_50).answer == WY50_BAD_CALL && wide[0] == 0x7777);
    part("a page of another length, the other width's too: 7");
}

/* The calls on a wide page. */
static void moves(void)
{
    char line[200];
    size_t i;
    wide_power_on();
    memset(line, 'w', 132);
    CHECK(feed(line, 131) == WY50_DONE && state.screen.cursor0 == 131 && FEED("x") == WY50_DONE && wide[131] == 'x' && state.screen.cursor0 == 132);
    CHECK(FEED("\r\n") == WY50_DONE && state.screen.cursor0 == 264);
    CHECK(FEED("\033=\x37\x6f") == WY50_DONE && state.screen.cursor0 == 23 * 132 + 79);
    CHECK(FEED("\033= \x70") == WY50_BAD_ARGUMENT && FEED("\033-0 \x70") == WY50_BAD_ARGUMENT && FEED("\033-0 \x6f") == WY50_DONE && state.screen.cursor0 == 79);
    CHECK(FEED("\033a24R132C\033b") == WY50_DONE && REPLIES("24R132C") && state.screen.cursor0 == WY50_WIDE_CELLS - 1);
    CHECK(FEED("\033a1R133C") == WY50_BAD_ARGUMENT && FEED("\033a25R1C") == WY50_BAD_ARGUMENT);
    CHECK(FEED("Z") == WY50_DONE && wide[WY50_WIDE_CELLS - 133] == 'Z' && wide[WY50_WIDE_CELLS - 1] == ' ' && state.screen.cursor0 == 23 * 132);
    CHECK(FEED("\033x1,\033}\033a2R100C\033b") == WY50_DONE && REPLIES("02R100C") && state.screen.cursor1 == 13 * 132 + 99 && state.screen.split == 13);
    part("moves, text, scrolling and segments on a wide page");

    wide_power_on();
    CHECK(FEED("\033a1R100C\0331\rA\tB") == WY50_DONE && state.tabs[99] == 1 && wide[99] == 'B');
    CHECK(FEED("\033a1R132C\0331\033a1R101C\033i") == WY50_DONE && state.screen.cursor0 == 131 && FEED("\033I") == WY50_DONE && state.screen.cursor0 == 99);
    CHECK(FEED("\033a1R132C\0332\033a1R100C\t") == WY50_DONE && state.tabs[131] == 0 && state.screen.cursor0 == 99);
    CHECK(FEED("\033=  \033t\033= (\0331") == WY50_DONE && state.tabs[8] == 1 && convert() == WY50_DONE && state.tabs[8] == 1 && state.tabs[99] == 0);
    CHECK(convert() == WY50_DONE && FEED("\033a1R132C\0331\0330") == WY50_DONE);
    for (i = 0; i < WY50_WIDE_COLUMNS; i++)
        CHECK(state.tabs[i] == 0);
    part("tab stops up to column 132");

    wide_power_on();
    for (i = 0; i < 2; i++) {
        wy50_step_result s;
        CHECK(FEED("\033?") == WY50_BAD_ARGUMENT && replied == 0 && FEED("\033/") == WY50_BAD_ARGUMENT && replied == 0);
        CHECK(FEED("\033") == WY50_DONE);
        s = wy50_step(wide, WY50_WIDE_CELLS, state, i ? '?' : '/', NULL, 0);
        CHECK(s.answer == WY50_BAD_ARGUMENT && s.taken == 1 && s.state.sequence.kind == WY50_IDLE);
        state = s.state;
        CHECK(FEED("\033a2R120C") == WY50_DONE);
    }
    CHECK(convert() == WY50_DONE && FEED("\033?") == WY50_DONE && REPLIES("  \r") && FEED("\033/") == WY50_DONE && REPLIES("0  \r"));
    part("ESC ? and ESC / on a wide page: 3, before 6");
}

static void sends(void)
{
    wy50_run_result r;
    wy50_next_result e;
    size_t all, i;
    memset(&e, 0, sizeof e);
    wide_power_on();
    CHECK(FEED("\033a1R132C!\033a24R132C") == WY50_DONE);
    memset(reply, 0x55, sizeof reply);
    CHECK(FEED("\0337") == WY50_DONE && replied == 3192 && reply[3191] == 0x0d && reply[3192] == 0x55 && reply[131] == '!' && reply[132] == 0x1f);
    CHECK(FEED("\0335") == WY50_DONE && replied == 3192 && FEED("\0336") == WY50_DONE && replied == 133 && FEED("\0334") == WY50_DONE && replied == 133);
    r = wy50_run(wide, WY50_WIDE_CELLS, state, (const uint8_t *)"\0337A", 3, reply, 3191);
    CHECK(r.answer == WY50_DONE && r.taken == 2 && r.replied == 3191 && r.state.sending.kind == WY50_SENT_RETURN && r.state.sending.place == 0);
    r = wy50_run(wide, WY50_WIDE_CELLS, r.state, (const uint8_t *)"A", 1, reply, 3191);
    CHECK(r.answer == WY50_DONE && r.taken == 1 && r.replied == 1 && reply[0] == 0x0d && r.state.sending.command == 0);
    state = r.state;
    CHECK(FEED("\033a24R132C") == WY50_DONE);
    for (all = 0, i = 2; i > 0 || state.sending.command != 0;) {
        e = wy50_next(wide, WY50_WIDE_CELLS, NULL, 0, state, (const uint8_t *)"\0337" + 2 - i, i, reply, 64);
        CHECK(e.answer == WY50_DONE && e.command == '7' && e.taken == i && e.replied > 0);
        all += e.replied;
        i = 0;
        state = e.state;
    }
    CHECK(all == 3192 && reply[e.replied - 1] == 0x0d);
    part("a send of 3,192 bytes, through narrow rooms too");
}

static int row_has(int row, int open, int first)
{
    return rows[2 * row - 2] == open && rows[2 * row - 1] == first;
}

static void lists_and_fields(void)
{
    static const uint8_t form[] = "\033,\033(\033a3R90CGuji\033a24R132C\033T\033&";
    static uint16_t other[WY50_WIDE_CELLS];
    uint8_t text[WY50_LONGEST_TEXT];
    wy50_run_result r, s;
    wy50_field f;
    wy50_position at;
    wy50_press_result k;
    wide_power_on();
    CHECK(wy50_rebuild_rows(wide, WY50_WIDE_CELLS, rows, WY50_ROW_NUMBERS, state) == WY50_DONE && row_has(1, 132, 1) && row_has(24, 132, 1));
    memcpy(other, wide, sizeof other);
    r = wy50_run_rows(wide, WY50_WIDE_CELLS, rows, WY50_ROW_NUMBERS, state, form, sizeof form - 1, reply, 0);
    s = wy50_run(other, WY50_WIDE_CELLS, state, form, sizeof form - 1, reply, 0);
    CHECK(r.answer == WY50_DONE && r.refused == 0 && r.taken == sizeof form - 1 && same(&r.state, &s.state) && memcmp(wide, other, sizeof other) == 0);
    CHECK(row_has(1, 0, 0) && row_has(3, 4, 90) && row_has(24, 1, 132));
    state = r.state;
    r = wy50_run_rows(wide, WY50_WIDE_CELLS, rows, WY50_ROW_NUMBERS, state, (const uint8_t *)"\036\036!", 3, reply, 0);
    CHECK(r.answer == WY50_DONE && wide[2 * 132 + 89] == '!' && r.state.screen.cursor0 == 2 * 132 + 90);
    state = r.state;
    at = wy50_cursor(state);
    CHECK(at.answer == WY50_DONE && at.row == 2 && at.column == 90);
    f = wy50_next_field(wide, WY50_WIDE_CELLS, 0);
    CHECK(f.start == 2 * 132 + 89 && f.length == 4 && f.row == 2 && f.column == 89);
    CHECK(wy50_field_text(wide, WY50_WIDE_CELLS, f.start, 1, text, sizeof text).length == 4 && memcmp(text, "!uji", 4) == 0);
    CHECK(wy50_row_text(wide, WY50_WIDE_CELLS, 2, 1, text, sizeof text).length == 93);
    k = wy50_press(wide, WY50_WIDE_CELLS, state, 0x41, reply, sizeof reply);
    CHECK(k.answer == WY50_DONE && k.replied == 3);
    state.screen.cursor0 = 132;
    at = wy50_cursor(state);
    CHECK(at.answer == WY50_DONE && at.row == 1 && at.column == 0);
    state.screen.cursor0 = WY50_WIDE_CELLS - 1;
    at = wy50_cursor(state);
    CHECK(at.answer == WY50_DONE && at.row == 23 && at.column == 131);
    state.screen.cursor0 = WY50_WIDE_CELLS;
    CHECK(wy50_cursor(state).answer == WY50_BAD_CALL);
    part("row lists, fields, the cursor and a key on a wide page");

    wide_power_on();
    CHECK(wy50_rebuild_rows(wide, WY50_WIDE_CELLS, rows, WY50_ROW_NUMBERS, state) == WY50_DONE && convert() == WY50_DONE);
    CHECK(wy50_run_rows(narrow, WY50_CELLS, rows, WY50_ROW_NUMBERS, state, (const uint8_t *)"A", 1, reply, 0).answer == WY50_BAD_CALL);
    CHECK(wy50_rebuild_rows(narrow, WY50_CELLS, rows, WY50_ROW_NUMBERS, state) == WY50_DONE && row_has(24, 80, 1));
    part("after a conversion a row list is rebuilt");
}

/* Stops 1 to 80 are saved; those beyond, width and wish are left by a restore. */
static void setups(void)
{
    static uint8_t store[WY50_STORE_BYTES];
    wy50_save_result s;
    wy50_restore_result r;
    int i;
    wide_power_on();
    for (i = 0; i < WY50_WIDE_COLUMNS; i++)
        state.tabs[i] = (uint8_t)(i % 2);
    state.wish = 1;
    s = wy50_save(state, store, sizeof store);
    CHECK(s.answer == WY50_DONE && s.number == 1);
    r = wy50_restore(state, store, sizeof store, 1);
    CHECK(r.answer == WY50_DONE && same(&r.state, &state));
    expected = state;
    for (i = 0; i < WY50_WIDE_COLUMNS; i++) {
        state.tabs[i] = (uint8_t)(i % 3 == 0);
        if (i >= WY50_COLUMNS)
            expected.tabs[i] = state.tabs[i];
    }
    expected.wish = state.wish = 0;
    r = wy50_restore(state, store, sizeof store, 1);
    CHECK(r.answer == WY50_DONE && same(&r.state, &expected));
    power_on(WY50_PERSONALITY_50);
    state.wish = 1;
    r = wy50_restore(state, store, sizeof store, 1);
    CHECK(r.answer == WY50_DONE && r.state.wish == 1 && r.state.screen.wide == 0 && r.state.tabs[79] == 1 && r.state.tabs[81] == 0);
    part("set-ups hold stops 1 to 80, and neither width nor wish");
}

int main(void)
{
    layout();
    wishes();
    widths();
    lost_cells();
    order();
    sequences();
    impossible();
    lengths();
    moves();
    sends();
    lists_and_fields();
    setups();
    if (failures)
        printf("%d parts FAILED\n", failures);
    return failures != 0;
}
