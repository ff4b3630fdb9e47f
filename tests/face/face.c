/* Checks the C face: that header and library agree on every member, cases 1 to 12 of the bench list, that replies through a narrow room join to
 * those of a roomy one, that a row list changes no result and is kept right, and that numbers which are no possible state are answered 7 and given back as they came. Compiles as C99 and as C++. Prints one
 * line for each part, and fails by its status. */
#include "wy50.h"

#include <stdio.h>
#include <string.h>

static uint16_t page[WY50_CELLS], rows[WY50_ROW_NUMBERS + 1];
static uint8_t reply[WY50_LONGEST_REPLY];
static wy50_state state;
static int failures, part_failures;

#define CHECK(test) check((test) != 0, #test, __LINE__)

static void check(int ok, const char *text, int line)
{
    if (!ok) {
        printf("face.c:%d: not so: %s\n", line, text);
        part_failures++;
    }
}

static void part(const char *name)
{
    printf("%s %s\n", part_failures ? "FAILED" : "passed", name);
    failures += part_failures != 0;
    part_failures = 0;
}

static void power_on_as(uint8_t personality)
{
    wy50_power_on_result r = wy50_power_on(page, WY50_CELLS, personality);
    CHECK(r.answer == WY50_DONE);
    state = r.state;
}

static void power_on(void)
{
    power_on_as(WY50_PERSONALITY_50);
}

/* Host bytes, one at a time; the answer of the last, and the reply of the last. */
static size_t replied;
static int feed(const char *bytes, size_t n)
{
    size_t i;
    int answer = -1;
    for (i = 0; i < n; i++) {
        wy50_step_result r = wy50_step(page, WY50_CELLS, state, (uint8_t)bytes[i], reply, sizeof reply);
        state = r.state;
        replied = r.replied;
        answer = r.answer;
        CHECK(r.taken == 1);
    }
    return answer;
}
#define FEED(s) feed(s, sizeof(s) - 1)

static int replies(const char *bytes, size_t n)
{
    return replied == n && memcmp(reply, bytes, n) == 0;
}
#define REPLIES(s) replies(s, sizeof(s) - 1)

static int same(const wy50_state *a, const wy50_state *b)
{
    return memcmp(a, b, sizeof *a) == 0;
}

/* What the header says of the layout: no padding, so the sizes of the members add up. */
static void layout(void)
{
    CHECK(sizeof(wy50_key) == 9);
    CHECK(sizeof(wy50_message) == 47);
    CHECK(sizeof(wy50_screen) == 8);
    CHECK(sizeof(wy50_modes) == 6);
    CHECK(sizeof(wy50_sequence) == 6);
    CHECK(sizeof(wy50_sending) == 4);
    CHECK(sizeof(wy50_state) == 698);
    CHECK(offsetof(wy50_state, screen) == 0);
    CHECK(offsetof(wy50_screen, wide) == 0);
    CHECK(offsetof(wy50_screen, active) == 2);
    CHECK(offsetof(wy50_screen, split) == 3);
    CHECK(offsetof(wy50_screen, cursor0) == 4);
    CHECK(offsetof(wy50_screen, cursor1) == 6);
    CHECK(offsetof(wy50_state, modes) == 8);
    CHECK(offsetof(wy50_state, bells) == 14);
    CHECK(offsetof(wy50_state, personality) == 16);
    CHECK(offsetof(wy50_state, remembered) == 17);
    CHECK(offsetof(wy50_state, sequence) == 18);
    CHECK(offsetof(wy50_state, sending) == 24);
    CHECK(offsetof(wy50_state, gathered) == 28);
    CHECK(offsetof(wy50_state, tabs) == 74);
    CHECK(offsetof(wy50_state, attributes) == 206);
    CHECK(offsetof(wy50_state, features) == 210);
    CHECK(offsetof(wy50_state, keys) == 215);
    CHECK(offsetof(wy50_state, labels) == 503);
    CHECK(offsetof(wy50_state, message) == 647);
    CHECK(offsetof(wy50_state, shifted) == 694);
    CHECK(offsetof(wy50_state, wish) == 696);
    CHECK(sizeof(wy50_power_on_result) == 700);
    CHECK(sizeof(wy50_step_result) == 720);
    CHECK(sizeof(wy50_run_result) == 736);
    CHECK(sizeof(wy50_press_result) == 16);
    CHECK(WY50_CELLS == WY50_ROWS * WY50_COLUMNS && WY50_ROW_NUMBERS == 2 * WY50_ROWS);
    part("sizes and offsets");
}

/* Bytes from power-on, and the one change that they make to the state: written once by the library and once here. */
static wy50_state expected;
#define EXPECT(bytes, change)                                                  \
    do {                                                                       \
        power_on();                                                            \
        expected = state;                                                      \
        change;                                                                \
        FEED(bytes);                                                           \
        CHECK(same(&state, &expected));                                        \
        CHECK(feed("\xe9", 1) == WY50_HIGH_BYTE && same(&state, &expected));   \
    } while (0)

static void sequence_is(uint16_t kind, uint8_t first, uint8_t second, uint16_t third)
{
    expected.sequence.kind = kind;
    expected.sequence.first = first;
    expected.sequence.second = second;
    expected.sequence.third = third;
}

static void set_key(wy50_key *k, const char *text)
{
    memset(k, 0, sizeof *k);
    k->len = (uint8_t)strlen(text);
    memcpy(k->bytes, text, k->len);
}

static void set_message(const char *text)
{
    memset(&expected.message, 0, sizeof expected.message);
    expected.message.len = (uint8_t)strlen(text);
    memcpy(expected.message.bytes, text, expected.message.len);
}

/* A text under way. */
static void gathering(uint16_t kind, uint8_t first, const char *text)
{
    sequence_is(kind, first, (uint8_t)strlen(text), 0);
    memcpy(expected.gathered, text, strlen(text));
}

static void members(void)
{
    EXPECT("AB", expected.screen.cursor0 = 2);
    EXPECT("\033x1\x2c", (expected.screen.split = 13, expected.screen.cursor1 = 960));
    EXPECT("\033x1\x2c\033}Z", (expected.screen.split = 13, expected.screen.cursor1 = 961, expected.screen.active = 1));
    EXPECT("\033&", expected.modes.protect = 1);
    EXPECT("\033)", expected.modes.write_protect = 1);
    EXPECT("\033q", expected.modes.insert = 1);
    EXPECT("\033N", expected.modes.autoscroll = 0);
    EXPECT("\033#", expected.modes.locked = 1);
    EXPECT("\033k", expected.modes.local_edit = 1);
    EXPECT("\007\007\007", expected.bells = 3);
    EXPECT("\033= \x25\0331", (expected.screen.cursor0 = 5, expected.tabs[5] = 1));
    EXPECT("\033= \x6f\0331", (expected.screen.cursor0 = 79, expected.tabs[79] = 1));
    EXPECT("\033A2\x34", expected.attributes[2] = 0x34);
    EXPECT("\033`0", expected.features[WY50_CURSOR_SHOWN] = '0');
    EXPECT("\033`3", expected.features[WY50_CURSOR_STYLE] = '3');
    EXPECT("\033`A", expected.features[WY50_PROTECTED_LOOK] = 'A');
    EXPECT("\033`8", expected.features[WY50_SCREEN_SHOWN] = '8');
    EXPECT("\033`<", expected.features[WY50_SCROLLING] = '<');
    EXPECT("\033`;", expected.wish = 1);
    EXPECT("\033`;\033`:", (void)0);
    EXPECT("\033z@first\177", set_key(&expected.keys[0], "first"));
    EXPECT("\033zonine byte\177", (void)0);
    EXPECT("\033zoeightlng\177", set_key(&expected.keys[31], "eightlng"));
    EXPECT("\033FThe host says\r", set_message("The host says"));
    EXPECT("\033FThe host says\r\033F\r", (void)0);
    EXPECT("\033Fold\r\033F12345678901234567890123456789012345678901234567\r", set_message("old"));
    EXPECT("\033z0first\r", set_key(&expected.labels[0], "first"));
    EXPECT("\033z7\177\r", (void)0);
    EXPECT("\033zWeightlng\r", (set_key(&expected.labels[15], "eightlng"), expected.shifted = 1));
    EXPECT("\033zPx\r\033zP\r", expected.shifted = 1);
    EXPECT("\033zPx\r\033z\177", set_key(&expected.labels[8], "x"));
    part("each member of the state, by the command that sets it");

    EXPECT("\033", sequence_is(WY50_ESCAPE, 0, 0, 0));
    EXPECT("\033=", sequence_is(WY50_ADDRESS, 0, 0, 0));
    EXPECT("\033=\x21", sequence_is(WY50_ADDRESS_ROW, 0x21, 0, 0));
    EXPECT("\033-", sequence_is(WY50_SEGMENT, 0, 0, 0));
    EXPECT("\033-\x30", sequence_is(WY50_SEGMENT_NUMBER, 0x30, 0, 0));
    EXPECT("\033-\x30\x22", sequence_is(WY50_SEGMENT_ROW, 0x30, 0x22, 0));
    EXPECT("\033a12", sequence_is(WY50_DECIMAL_ROW, 2, 12, 0));
    EXPECT("\033a7R345", sequence_is(WY50_DECIMAL_COLUMN, 7, 3, 345));
    EXPECT("\033x", sequence_is(WY50_SPLIT, 0, 0, 0));
    EXPECT("\033x1", sequence_is(WY50_SPLIT_ROW, 0, 0, 0));
    EXPECT("\033G", sequence_is(WY50_SET_ATTRIBUTE, 0, 0, 0));
    EXPECT("\033H", sequence_is(WY50_SET_GRAPHIC, 0, 0, 0));
    EXPECT("\033!", sequence_is(WY50_FILL_ATTRIBUTE, 0, 0, 0));
    EXPECT("\033.", sequence_is(WY50_FILL_CODE, 0, 0, 0));
    EXPECT("\033`", sequence_is(WY50_SET_FEATURE, 0, 0, 0));
    EXPECT("\033A", sequence_is(WY50_FIELD_ATTRIBUTE, 0, 0, 0));
    EXPECT("\033A1", sequence_is(WY50_FIELD_NUMBER, '1', 0, 0));
    EXPECT("\033z", sequence_is(WY50_KEY_VALUE, 0, 0, 0));
    EXPECT("\033zAtext", gathering(WY50_KEY_TEXT, 'A', "text"));
    EXPECT("\033zA123456789", sequence_is(WY50_KEY_OVER, 'A', 0, 0));
    EXPECT("\033z5text", gathering(WY50_LABEL_TEXT, '5', "text"));
    EXPECT("\033zR123456789", sequence_is(WY50_LABEL_SPOILT, 'R', 0, 0));
    EXPECT("\033F", gathering(WY50_MESSAGE_TEXT, 0, ""));
    EXPECT("\033Ftext of a message", gathering(WY50_MESSAGE_TEXT, 0, "text of a message"));
    EXPECT("\033Ftext\033", sequence_is(WY50_MESSAGE_SPOILT, 0, 0, 0));
    part("each sequence under way, with its numbers");
}

/* A state filled in by hand, every member with a number of its own, goes through a call that changes nothing. */
static void round_trip(void)
{
    wy50_step_result r;
    size_t i;
    power_on();
    state.screen.active = 1;
    state.screen.split = 7;
    state.screen.cursor0 = 321;
    state.screen.cursor1 = 1357;
    state.modes.protect = 1;
    state.modes.insert = 1;
    state.modes.local_edit = 1;
    state.bells = 213;
    state.sequence.kind = WY50_DECIMAL_COLUMN;
    state.sequence.first = 17;
    state.sequence.second = 3;
    state.sequence.third = 789;
    for (i = 0; i < WY50_LABELS; i++) {
        state.labels[i].len = (uint8_t)(i % 9);
        memset(state.labels[i].bytes, (int)(0x41 + i), WY50_LABEL_BYTES);
    }
    state.message.len = 45;
    memset(state.message.bytes, 0x7e, WY50_MESSAGE_BYTES);
    state.shifted = 1;
    state.wish = 1;
    for (i = 0; i < WY50_COLUMNS; i++)
        state.tabs[i] = (uint8_t)(i % 3 == 1);
    for (i = 0; i < 4; i++)
        state.attributes[i] = (uint8_t)(0x31 + 2 * i);
    memcpy(state.features, "04A8>", 5);
    for (i = 0; i < WY50_KEYS; i++) {
        state.keys[i].len = (uint8_t)(i % 9);
        memset(state.keys[i].bytes, (int)(0x21 + i), WY50_KEY_BYTES);
    }
    r = wy50_step(page, WY50_CELLS, state, 0xe9, reply, sizeof reply);
    CHECK(r.answer == WY50_HIGH_BYTE && r.replied == 0 && same(&r.state, &state));
    r = wy50_step(page, WY50_CELLS, state, 0xff, reply, 0);
    CHECK(r.answer == WY50_HIGH_BYTE && r.taken == 1 && same(&r.state, &state));
    for (i = 0; i < WY50_KEYS; i++) {
        uint8_t key = (uint8_t)(i < 16 ? 0x40 + i : 0x50 + i);
        wy50_press_result k = wy50_press(page, WY50_CELLS, state, key, reply, sizeof reply);
        CHECK(k.answer == WY50_DONE && k.replied == (i % 9 ? i % 9 : 3));
        CHECK(i % 9 ? reply[k.replied - 1] == 0x21 + i : reply[0] == 1 && reply[1] == key && reply[2] == 13);
    }
    memset(&state.sequence, 0, sizeof state.sequence);
    state.sending.command = '5';
    state.sending.kind = WY50_SENT_BREAK;
    state.sending.place = 1360;
    r = wy50_step(page, WY50_CELLS, state, 0xe9, reply, 0);
    CHECK(r.answer == WY50_BAD_CALL && r.taken == 0);
    state.sending.place = 1280;
    r = wy50_step(page, WY50_CELLS, state, 0xe9, reply, 0);
    CHECK(r.answer == WY50_NO_ROOM && r.taken == 0 && r.replied == 0 && same(&r.state, &state));
    part("a state filled in by hand comes back the same");
}

static void bench(void)
{
    size_t i;
    char number[8];
    wy50_press_result k;
    wy50_run_result r;
    wy50_step_result t;

    power_on();
    CHECK(FEED("AB\033?") == 0 && REPLIES("\x20\x22\x0d"));
    part("bench 1");

    power_on();
    CHECK(FEED("\033=\x37\x6fX") == 0 && page[1839] == 'X' && state.screen.cursor0 == 1840);
    part("bench 2");

    power_on();
    CHECK(FEED("\033=\x38\x20") == WY50_BAD_ARGUMENT);
    CHECK(FEED("\033=\x20\x70") == WY50_BAD_ARGUMENT && state.screen.cursor0 == 0);
    part("bench 3");

    power_on();
    CHECK(FEED("\033a24R80C\033b") == 0 && REPLIES("24R080C"));
    part("bench 4");

    power_on();
    CHECK(FEED("\033)No\033(\033&") == 0 && page[0] == 206 && page[1] == 239);
    CHECK(FEED("\r") == 0 && state.screen.cursor0 == 2);
    CHECK(FEED("\b") == 0 && state.screen.cursor0 == 2);
    CHECK(FEED("x\0334") == 0 && REPLIES("\x1c\x78\x20\x0d"));
    part("bench 5");

    power_on();
    CHECK(FEED("\033)Hi\033(\033&") == 0 && page[0] == 'H' + 128);
    CHECK(FEED("\r\bx\0334") == 0 && REPLIES("\x1c\x78\x20\x0d"));
    part("bench 6");

    power_on();
    CHECK(FEED("\033,\033&A") == WY50_BARRED && state.screen.cursor0 == 0);
    part("bench 7");

    power_on();
    CHECK(FEED("\033z@hi\177") == 0);
    k = wy50_press(page, WY50_CELLS, state, 0x40, reply, sizeof reply);
    replied = k.replied;
    CHECK(k.answer == 0 && REPLIES("hi"));
    k = wy50_press(page, WY50_CELLS, state, 0x41, reply, sizeof reply);
    replied = k.replied;
    CHECK(k.answer == 0 && REPLIES("\x01\x41\x0d"));
    part("bench 8");

    power_on();
    r = wy50_run(page, WY50_CELLS, state, (const uint8_t *)"Z\033\xe9=  ", 6, reply, sizeof reply);
    CHECK(r.answer == 0 && r.taken == 6 && r.refused == 1 && r.state.screen.cursor0 == 0);
    part("bench 9");

    power_on();
    CHECK(FEED("\033x1\x2c\033}\033/") == 0 && REPLIES("\x31\x20\x20\x0d"));
    CHECK(FEED("\033=\x2c\x20") == WY50_BAD_ARGUMENT);
    part("bench 10");

    power_on();
    CHECK(FEED("A\037B\0337") == 0 && replied == 84);
    CHECK(reply[0] == 'A' && reply[80] == 0x1f && memcmp(reply + 81, "B \r", 3) == 0);
    for (i = 1; i < 80; i++)
        CHECK(reply[i] == ' ');
    part("bench 11");

    power_on();
    CHECK(FEED("\033=\x37\x6f\033") == 0);
    expected = state;
    t = wy50_step(page, WY50_CELLS, state, '7', reply, 0);
    CHECK(t.answer == WY50_NO_ROOM && t.taken == 0 && t.replied == 0 && same(&t.state, &expected) && t.state.sequence.kind == WY50_ESCAPE);
    CHECK(FEED("7") == 0 && replied == 1944 && reply[1943] == 0x0d && FEED("\033") == 0 && same(&state, &expected));
    t = wy50_step(page, WY50_CELLS, state, '7', reply, 1943);
    CHECK(t.answer == WY50_DONE && t.taken == 1 && t.replied == 1943 && reply[1942] == ' ' && t.state.sequence.kind == WY50_IDLE);
    CHECK(t.state.sending.command == '7' && t.state.sending.kind == WY50_SENT_RETURN && t.state.sending.place == 0);
    t = wy50_step(page, WY50_CELLS, t.state, 'A', reply, sizeof reply);
    CHECK(t.answer == WY50_DONE && t.taken == 0 && t.replied == 1 && reply[0] == 0x0d && t.state.sending.command == 0);
    part("bench 12");

    /* the run stops before the byte that has no room, and goes on from there */
    power_on();
    r = wy50_run(page, WY50_CELLS, state, (const uint8_t *)"\005\005\033?A", 5, reply, 2);
    CHECK(r.answer == WY50_NO_ROOM && r.taken == 3 && r.replied == 2 && r.refused == 0 && memcmp(reply, "\6\6", 2) == 0);
    r = wy50_run(page, WY50_CELLS, r.state, (const uint8_t *)"?A", 2, reply, 3);
    CHECK(r.answer == 0 && r.taken == 2 && r.replied == 3 && page[0] == 'A');
    part("a run goes on where it stopped");

    for (i = 0; i < 65536; i++) {
        uint16_t v = (uint16_t)i;
        int kind = v / 256 % 4, text = kind == 0 && v % 128 >= 0x20 && v % 128 <= 0x7e;
        if (wy50_cell_code(v) != v % 128 || wy50_cell_protected(v) != v / 128 % 2 || wy50_cell_kind(v) != (kind == 3 ? 2 : kind)
            || wy50_cell_attribute(v) != v / 1024 % 32
            || wy50_cell_sent(v) != (text ? v % 128 : 0x20)) {
            snprintf(number, sizeof number, "%u", (unsigned)v);
            check(0, number, __LINE__);
        }
    }
    part("the readers of a cell, for every number");
}

/* Bytes that begin a reply longer than the room, the cursor on cell 81, and the send that is then under way. */
static void sends_as(const char *bytes, size_t room, uint8_t kind, uint16_t place)
{
    size_t n = strlen(bytes);
    wy50_run_result r;
    wy50_step_result s;
    power_on();
    CHECK(FEED("AB\033=!!") == 0);
    expected = state;
    expected.sending.command = (uint8_t)bytes[n - 1];
    expected.sending.kind = kind;
    expected.sending.place = place;
    r = wy50_run(page, WY50_CELLS, state, (const uint8_t *)bytes, n, reply, room);
    CHECK(r.answer == WY50_DONE && r.taken == n && r.replied == room && r.refused == 0 && same(&r.state, &expected));
    s = wy50_step(page, WY50_CELLS, r.state, 0xe9, reply, 0);
    CHECK(s.answer == WY50_NO_ROOM && s.taken == 0 && s.replied == 0 && same(&s.state, &expected));
    r = wy50_run(page, WY50_CELLS, s.state, (const uint8_t *)"A", 1, reply, 0);
    CHECK(r.answer == WY50_NO_ROOM && r.taken == 0 && r.replied == 0 && same(&r.state, &expected));
    r = wy50_run(page, WY50_CELLS, r.state, (const uint8_t *)"A", 0, reply, 0);
    CHECK(r.answer == WY50_DONE && r.replied == 0 && same(&r.state, &expected));
    CHECK(wy50_press(page, WY50_CELLS, state, 0x40, reply, sizeof reply).answer == WY50_DONE);
    CHECK(wy50_press(page, WY50_CELLS, r.state, 0x40, reply, sizeof reply).answer == WY50_NO_ROOM);
    CHECK(wy50_press(page, WY50_CELLS, r.state, 0x50, reply, sizeof reply).answer == WY50_BAD_ARGUMENT);
    s = wy50_step(page, WY50_CELLS, r.state, 0xe9, reply, sizeof reply);
    CHECK(s.answer == WY50_DONE && s.taken == 0 && s.replied > 0 && same(&s.state, &state));
}

/* Host bytes through rooms of one length, from power-on; how long the joined replies are. */
static uint8_t joined[4 * WY50_LONGEST_REPLY], whole[4 * WY50_LONGEST_REPLY];
static size_t through(const char *bytes, size_t n, size_t room, uint8_t *to)
{
    size_t taken = 0, all = 0;
    power_on();
    do {
        wy50_run_result r = wy50_run(page, WY50_CELLS, state, (const uint8_t *)bytes + taken, n - taken, to + all, room);
        state = r.state;
        taken += r.taken;
        all += r.replied;
        if (r.answer == WY50_BAD_CALL || (r.taken == 0 && r.replied == 0)) {
            check(0, "each call takes a byte or sends one", __LINE__);
            break;
        }
        if (room > sizeof joined - all)
            room = sizeof joined - all;
    } while (taken < n || state.sending.command != 0);
    return all;
}

static void sends(void)
{
    static const char host[] = "\033)Roast\033(dark\037\033)Date\033(24 bags\0334a\0335b\0336c\0337d\033 e\033?f\033/g\033bh\005i\033Mj\033=\x37\x6f\0335k\0337";
    static uint16_t page_after[WY50_CELLS];
    static const size_t rooms[] = {1, 2, 3, 7, 64, 80, 81, 1943, 1944, WY50_LONGEST_REPLY};
    wy50_state after;
    size_t i, n;

    sends_as("\033 ", 2, WY50_SENT_BYTES, 2);
    sends_as("\033?", 1, WY50_SENT_BYTES, 1);
    sends_as("\033/", 3, WY50_SENT_BYTES, 3);
    sends_as("\033b", 6, WY50_SENT_BYTES, 6);
    sends_as("\0334", 1, WY50_SENT_CELL, 81);
    sends_as("\0334", 2, WY50_SENT_RETURN, 0);
    sends_as("\0335", 1, WY50_SENT_CELL, 1);
    sends_as("\0335", 80, WY50_SENT_BREAK, 80);
    sends_as("\0335", 81, WY50_SENT_CELL, 80);
    sends_as("\0336", 2, WY50_SENT_RETURN, 0);
    sends_as("\0337", 79, WY50_SENT_CELL, 79);
    sends_as("\0337", 83, WY50_SENT_RETURN, 0);
    part("each send under way, with its numbers, and what it bars");

    n = through(host, sizeof host - 1, sizeof whole, whole);
    memcpy(page_after, page, sizeof page);
    after = state;
    CHECK(n > 2 * 1944);
    for (i = 0; i < sizeof rooms / sizeof *rooms; i++) {
        CHECK(through(host, sizeof host - 1, rooms[i], joined) == n && memcmp(joined, whole, n) == 0);
        CHECK(memcmp(page, page_after, sizeof page) == 0 && same(&state, &after));
    }
    part("through a narrow room: the joined replies, the page and the state of a roomy one");
}

/* The row list of the page, counted here. */
static void count_rows(uint16_t *list, int protect)
{
    int row, column;
    for (row = 0; row < WY50_ROWS; row++) {
        const uint16_t *cells = page + row * WY50_COLUMNS;
        list[2 * row] = list[2 * row + 1] = 0;
        for (column = WY50_COLUMNS; column > 0; column--) {
            if (!protect || cells[column - 1] / 128 % 2 == 0) {
                list[2 * row]++;
                list[2 * row + 1] = (uint16_t)column;
            }
        }
    }
}

static int rows_are_right(void)
{
    uint16_t right[WY50_ROW_NUMBERS];
    count_rows(right, state.modes.protect);
    return memcmp(rows, right, sizeof right) == 0;
}

static int row_has(int row, int open, int first)
{
    return rows[2 * row - 2] == open && rows[2 * row - 1] == first;
}

static uint16_t other_page[WY50_CELLS];
static uint8_t other_reply[WY50_LONGEST_REPLY];

static void copy_page(void)
{
    memcpy(other_page, page, sizeof page);
    memset(reply, 0x55, sizeof reply);
    memset(other_reply, 0x55, sizeof other_reply);
}

static int same_page_and_reply(void)
{
    return memcmp(other_page, page, sizeof page) == 0 && memcmp(other_reply, reply, sizeof reply) == 0;
}

/* Host bytes as one run with a row list and without it, and then, from where they began, one at a time; the answer of the last. */
static int feed_both(const char *bytes, size_t n, size_t room)
{
    static uint16_t page_before[WY50_CELLS], rows_before[WY50_ROW_NUMBERS];
    const uint8_t *input = (const uint8_t *)bytes;
    wy50_state before = state;
    wy50_run_result r, without;
    size_t i;
    int answer = -1;
    memcpy(page_before, page, sizeof page_before);
    memcpy(rows_before, rows, sizeof rows_before);
    copy_page();
    r = wy50_run_rows(page, WY50_CELLS, rows, WY50_ROW_NUMBERS, state, input, n, reply, room);
    without = wy50_run(other_page, WY50_CELLS, state, input, n, other_reply, room);
    CHECK(r.answer != WY50_BAD_CALL && r.answer == without.answer && r.taken == without.taken && r.replied == without.replied);
    CHECK(r.refused == without.refused && same(&r.state, &without.state) && same_page_and_reply());
    state = r.state;
    CHECK(rows_are_right());
    memcpy(page, page_before, sizeof page_before);
    memcpy(rows, rows_before, sizeof rows_before);
    state = before;
    for (i = 0; i < n; i++) {
        wy50_step_result s, alone;
        copy_page();
        s = wy50_step_rows(page, WY50_CELLS, rows, WY50_ROW_NUMBERS, state, input[i], reply, room);
        alone = wy50_step(other_page, WY50_CELLS, state, input[i], other_reply, room);
        CHECK(s.answer != WY50_BAD_CALL && s.answer == alone.answer && s.replied == alone.replied && same(&s.state, &alone.state));
        CHECK(s.taken == alone.taken);
        CHECK(same_page_and_reply());
        state = s.state;
        answer = s.answer;
        CHECK(rows_are_right());
    }
    return answer;
}
#define FEED_BOTH(s) feed_both(s, sizeof(s) - 1, sizeof reply)

/* The step and the run with the list refuse, the run over no bytes too, and nothing is changed. */
static void refused_rows(const wy50_state *x, size_t page_len, size_t rows_len)
{
    static const uint8_t input[] = "A\005\033?";
    uint16_t rows_before[WY50_ROW_NUMBERS + 1];
    size_t n;
    wy50_step_result s;
    copy_page();
    memcpy(rows_before, rows, sizeof rows);
    s = wy50_step_rows(page, page_len, rows, rows_len, *x, 5, reply, sizeof reply);
    CHECK(s.answer == WY50_BAD_CALL && s.taken == 0 && s.replied == 0 && same(&s.state, x));
    for (n = 0; n <= 4; n += 4) {
        wy50_run_result r = wy50_run_rows(page, page_len, rows, rows_len, *x, input, n, reply, sizeof reply);
        CHECK(r.answer == WY50_BAD_CALL && r.taken == 0 && r.replied == 0 && r.refused == 0 && same(&r.state, x));
    }
    CHECK(same_page_and_reply() && memcmp(rows, rows_before, sizeof rows) == 0);
}

static int rebuilt(void)
{
    return wy50_rebuild_rows(page, WY50_CELLS, rows, WY50_ROW_NUMBERS, state) == WY50_DONE && rows_are_right();
}

/* The rebuild refuses and leaves the list. */
static int rebuild_refused(const wy50_state *x, size_t page_len, size_t rows_len)
{
    uint16_t before[WY50_ROW_NUMBERS + 1];
    memcpy(before, rows, sizeof rows);
    return wy50_rebuild_rows(page, page_len, rows, rows_len, *x) == WY50_BAD_CALL && memcmp(rows, before, sizeof rows) == 0;
}

static void row_lists(void)
{
    int i;
    power_on();
    memset(rows, 0xff, sizeof rows);
    CHECK(rebuilt() && rows[WY50_ROW_NUMBERS] == 0xffff);
    for (i = 1; i <= WY50_ROWS; i++)
        CHECK(row_has(i, 80, 1));
    CHECK(FEED_BOTH("\033,\033(\033= \x25""dark \033=\x37\x6f\033T\033=\x20\x6f\033T") == WY50_DONE && row_has(1, 80, 1));
    CHECK(FEED_BOTH("\033&") == WY50_DONE && row_has(1, 6, 6) && row_has(2, 0, 0) && row_has(23, 0, 0) && row_has(24, 1, 80));
    CHECK(FEED_BOTH("\036light") == WY50_DONE && state.screen.cursor0 == 79);
    CHECK(FEED_BOTH("!\r") == WY50_DONE && state.screen.cursor0 == 1919);
    CHECK(FEED_BOTH("\033)\036A") == WY50_DONE && row_has(1, 5, 7) && state.screen.cursor0 == 6);
    CHECK(FEED_BOTH("\033'") == WY50_DONE && row_has(1, 80, 1) && row_has(2, 80, 1));
    part("a row list by its numbers");

    power_on();
    CHECK(rebuilt());
    FEED_BOTH("\033,\033(\033=\x22\x25""Guji   \033=\x29\x23""dark\033=\x29\x43""24 bags\033&\036");
    FEED_BOTH("Sidamo, washed, and more than there is room for in every field of the form");
    FEED_BOTH("\033q\036in\033r\033Q\033W\033=\x29\x24\033R\033E\033j\n\n\r\b\t\033I\x0b\x0c\037");
    FEED_BOTH("\036\033)closed as it is written\033(\0334\0335\0336\0337\033M\033b\033?");
    FEED_BOTH("\033x1\x29\036\033J\036here\033}\036there\033]\033-1  \033-1\x2a\x25\033x0");
    FEED_BOTH("\036\033T\033Y\033t\033y\033;\033:\033!4\033.x\033V");
    FEED_BOTH("\033'\033q\036shifts the row\033Q\033W\033r\033R\033E\033j\033=\x37 \n\n\n\033V\033&\036");
    FEED_BOTH("\033'\033*\033&\036A\033'\033+\033&\036A\033,\033&A\036\033'");
    part("a run and its steps with a row list and without one: the same results, and the list is right");

    power_on();
    CHECK(rebuilt());
    FEED_BOTH("\033,\033(\033=\x22\x25""Guji   \033&");
    CHECK(feed_both("\xe9", 1, 0) == WY50_HIGH_BYTE);
    CHECK(feed_both("\033\1", 2, 0) == WY50_UNKNOWN);
    CHECK(feed_both("\033=\x38 ", 4, 0) == WY50_BAD_ARGUMENT);
    CHECK(feed_both("\033E", 2, 0) == WY50_BARRED);
    CHECK(feed_both("\005\005\033", 3, 2) == WY50_DONE && feed_both("?", 1, 0) == WY50_NO_ROOM);
    CHECK(feed_both("?", 1, 2) == WY50_DONE && state.sending.command == '?');
    CHECK(feed_both("A", 1, 0) == WY50_NO_ROOM && feed_both("A", 1, 3) == WY50_DONE && state.sending.command == 0);
    part("a row list is right after every answer");

    power_on();
    FEED("\033,\033(\033=\x22\x25""Guji   \033=\x37\x6f\033T\033&");
    count_rows(rows, 1);
    rows[WY50_ROW_NUMBERS] = 0;
    for (i = 0; i < WY50_ROW_NUMBERS; i++) {
        rows[i]++;
        refused_rows(&state, WY50_CELLS, WY50_ROW_NUMBERS);
        rows[i] = (uint16_t)(rows[i] - 2);
        refused_rows(&state, WY50_CELLS, WY50_ROW_NUMBERS);
        rows[i]++;
    }
    refused_rows(&state, WY50_CELLS, WY50_ROW_NUMBERS - 1);
    refused_rows(&state, WY50_CELLS, WY50_ROW_NUMBERS + 1);
    refused_rows(&state, WY50_CELLS, 0);
    count_rows(rows, 0);
    refused_rows(&state, WY50_CELLS, WY50_ROW_NUMBERS);
    memset(rows, 0, sizeof rows);
    refused_rows(&state, WY50_CELLS, WY50_ROW_NUMBERS);
    CHECK(rebuild_refused(&state, WY50_CELLS, WY50_ROW_NUMBERS - 1) && rebuild_refused(&state, WY50_CELLS, WY50_ROW_NUMBERS + 1));
    CHECK(rebuild_refused(&state, WY50_CELLS, 0));
    CHECK(rebuilt() && row_has(3, 7, 6) && row_has(24, 1, 80));
    CHECK(FEED_BOTH("\036Sidamo!") == WY50_DONE && state.screen.cursor0 == 1919);
    part("a row list that is not right: 7, and nothing changed; the rebuild mends it");
}

/* A state that is not possible, or a page of another length: 7 from every call, and nothing is changed, though the row list is right. */
static void refused(const wy50_state *x, size_t page_len)
{
    static const uint8_t input[] = "A\005\033?";
    uint16_t before[WY50_CELLS];
    size_t i;
    wy50_step_result s;
    wy50_run_result r;
    wy50_next_result e;
    wy50_press_result k;
    for (i = 0; i < WY50_CELLS; i++)
        before[i] = page[i] = (uint16_t)(i * 37);
    memset(reply, 0x55, sizeof reply);
    s = wy50_step(page, page_len, *x, 5, reply, sizeof reply);
    CHECK(s.answer == WY50_BAD_CALL && s.taken == 0 && s.replied == 0 && same(&s.state, x));
    r = wy50_run(page, page_len, *x, input, 4, reply, sizeof reply);
    CHECK(r.answer == WY50_BAD_CALL && r.taken == 0 && r.replied == 0 && r.refused == 0 && same(&r.state, x));
    e = wy50_next(page, page_len, NULL, 0, *x, input, 4, reply, sizeof reply);
    CHECK(e.answer == WY50_BAD_CALL && e.command == 0 && e.taken == 0 && e.replied == 0 && e.refused == 0 && same(&e.state, x));
    k = wy50_press(page, page_len, *x, 0x40, reply, sizeof reply);
    CHECK(k.answer == WY50_BAD_CALL && k.replied == 0);
    CHECK(memcmp(page, before, sizeof page) == 0);
    for (i = 0; i < sizeof reply; i++)
        CHECK(reply[i] == 0x55);
    count_rows(rows, x->modes.protect);
    refused_rows(x, page_len, WY50_ROW_NUMBERS);
    memset(rows, 0x55, sizeof rows);
    CHECK(rebuild_refused(x, page_len, WY50_ROW_NUMBERS));
}
#define REFUSED(change)                  \
    do {                                 \
        power_on();                      \
        change;                          \
        refused(&state, WY50_CELLS);     \
    } while (0)

static void send_is(uint8_t command, uint8_t kind, uint16_t place)
{
    state.sending.command = command;
    state.sending.kind = kind;
    state.sending.place = place;
}

static void impossible(void)
{
    static const uint8_t bare[] = {0, 1, 2, 4, 9, 10, 11, 12, 13, 14, 15, 16, 18, 24};
    static const uint8_t one[] = {3, 5, 17, 20, 22};
    size_t i;
    power_on();
    refused(&state, WY50_CELLS - 1);
    refused(&state, 0);
    REFUSED(state.modes.protect = 2);
    REFUSED(state.modes.write_protect = 2);
    REFUSED(state.modes.insert = 2);
    REFUSED(state.modes.autoscroll = 255);
    REFUSED(state.modes.locked = 2);
    REFUSED(state.modes.local_edit = 128);
    for (i = 0; i < WY50_WIDE_COLUMNS; i++)
        REFUSED(state.tabs[i] = (uint8_t)(2 + i));
    REFUSED(state.bells = 256);
    REFUSED(state.sequence.kind = 25);
    REFUSED(state.sequence.kind = 256);
    REFUSED(state.sequence.kind = 0xffff);
    for (i = 0; i < sizeof bare; i++) {
        REFUSED((state.sequence.kind = bare[i], state.sequence.first = 1));
        REFUSED((state.sequence.kind = bare[i], state.sequence.second = 1));
        REFUSED((state.sequence.kind = bare[i], state.sequence.third = 256));
    }
    for (i = 0; i < sizeof one; i++) {
        REFUSED((state.sequence.kind = one[i], state.sequence.first = 0x41, state.sequence.second = 1));
        REFUSED((state.sequence.kind = one[i], state.sequence.first = 0x41, state.sequence.third = 1));
        REFUSED((state.sequence.kind = one[i], state.sequence.first = 0x80));
    }
    REFUSED((state.sequence.kind = WY50_SEGMENT_ROW, state.sequence.third = 1));
    REFUSED((state.sequence.kind = WY50_DECIMAL_ROW, state.sequence.third = 1));
    REFUSED((state.sequence.kind = WY50_DECIMAL_ROW, state.sequence.first = 1, state.sequence.second = 10));
    REFUSED((state.sequence.kind = WY50_DECIMAL_COLUMN, state.sequence.second = 4));
    REFUSED((state.sequence.kind = WY50_KEY_TEXT, state.sequence.first = 'A', state.sequence.third = 1));
    REFUSED((state.sequence.kind = WY50_MESSAGE_TEXT, state.sequence.first = 1));
    REFUSED((state.sequence.kind = WY50_MESSAGE_SPOILT, state.sequence.second = 1));
    REFUSED(send_is(0, 1, 0));
    REFUSED(send_is(0, 0, 1));
    REFUSED(send_is(1, 0, 1));
    REFUSED(send_is('8', WY50_SENT_RETURN, 0));
    REFUSED(send_is('7', WY50_SENT_BYTES, 1));
    REFUSED(send_is('7', 4, 0));
    REFUSED(send_is('7', WY50_SENT_RETURN, 1));
    REFUSED(send_is('b', WY50_SENT_CELL, 1));
    REFUSED(send_is('b', WY50_SENT_RETURN, 0));
    REFUSED(send_is('b', WY50_SENT_BYTES, 257));
    REFUSED(state.shifted = 2);
    REFUSED(state.shifted = 256);
    REFUSED(state.screen.wide = 2);
    REFUSED(state.screen.wide = 256);
    REFUSED(state.wish = 2);
    REFUSED(state.wish = 256);
    REFUSED(state.personality = 0);
    REFUSED(state.personality = 1);
    REFUSED(state.personality = 51);
    REFUSED(state.personality = 255);
    part("numbers that name no state: 7, and given back as they came");

    REFUSED(state.screen.wide = 1);
    REFUSED(state.tabs[WY50_COLUMNS] = 1);
    REFUSED(state.screen.active = 1);
    REFUSED(state.screen.split = 1);
    REFUSED((state.screen.split = 25, state.screen.cursor1 = 1919));
    REFUSED(state.screen.cursor0 = 1920);
    REFUSED(state.screen.cursor1 = 0xffff);
    REFUSED((state.screen.split = 2, state.screen.cursor1 = 79));
    REFUSED(state.remembered = 1);
    REFUSED((state.personality = WY50_PERSONALITY_60, state.remembered = 31));
    REFUSED((state.personality = WY50_PERSONALITY_60, state.remembered = 32));
    REFUSED((send_is(' ', WY50_SENT_BYTES, 1), state.sequence.kind = WY50_ESCAPE));
    REFUSED((send_is('7', WY50_SENT_RETURN, 0), state.sequence.kind = WY50_MESSAGE_TEXT));
    REFUSED(send_is(' ', WY50_SENT_BYTES, 0));
    REFUSED(send_is(' ', WY50_SENT_BYTES, 3));
    REFUSED(send_is('?', WY50_SENT_BYTES, 3));
    REFUSED(send_is('/', WY50_SENT_BYTES, 4));
    REFUSED(send_is('b', WY50_SENT_BYTES, 7));
    REFUSED(send_is(5, WY50_SENT_BYTES, 0));
    REFUSED(send_is(5, WY50_SENT_BYTES, 1));
    REFUSED(send_is('M', WY50_SENT_BYTES, 1));
    REFUSED((send_is('4', WY50_SENT_CELL, 80), state.screen.cursor0 = 81));
    REFUSED((send_is('6', WY50_SENT_BREAK, 80), state.screen.cursor0 = 81));
    REFUSED((send_is('5', WY50_SENT_CELL, 0), state.screen.cursor0 = 81));
    REFUSED((send_is('5', WY50_SENT_CELL, 82), state.screen.cursor0 = 81));
    REFUSED((send_is('7', WY50_SENT_BREAK, 0), state.screen.cursor0 = 81));
    REFUSED((send_is('7', WY50_SENT_BREAK, 81), state.screen.cursor0 = 81));
    REFUSED((send_is('7', WY50_SENT_BREAK, 160), state.screen.cursor0 = 81));
    REFUSED(state.attributes[3] = 0x2f);
    REFUSED(state.features[0] = '2');
    REFUSED(state.keys[31].len = 9);
    REFUSED((state.keys[7].len = 8, state.keys[7].bytes[7] = 0x7f));
    REFUSED(state.labels[15].len = 9);
    REFUSED((state.labels[0].len = 1, state.labels[0].bytes[0] = 0x1f));
    REFUSED(state.message.len = 47);
    REFUSED((state.screen.cursor0 = WY50_CELLS, memset(state.gathered, 0xff, sizeof state.gathered)));
    REFUSED((state.message.len = 1, state.message.bytes[0] = 0x7f));
    REFUSED((state.sequence.kind = WY50_KEY_TEXT, state.sequence.first = 'P'));
    REFUSED((state.sequence.kind = WY50_KEY_TEXT, state.sequence.first = 'A', state.sequence.second = 9));
    REFUSED((state.sequence.kind = WY50_LABEL_TEXT, state.sequence.first = 'P', state.sequence.second = 1));
    REFUSED((state.sequence.kind = WY50_MESSAGE_TEXT, state.sequence.second = 47));
    REFUSED((state.sequence.kind = WY50_LABEL_TEXT, state.sequence.first = '8'));
    REFUSED((state.sequence.kind = WY50_LABEL_SPOILT, state.sequence.first = 'A'));
    memset(&state, 0, sizeof state);
    refused(&state, WY50_CELLS);
    memset(&state, 0xff, sizeof state);
    refused(&state, WY50_CELLS);
    part("states that are not possible: 7, and given back as they came");

}

/* A power-on state with rubbish behind every text: keys, labels and message of two bytes each, and the bytes gathered. */
static void litter(void)
{
    size_t i;
    power_on();
    memset(state.gathered, 0xfe, sizeof state.gathered);
    memset(&state.message, 0xfd, sizeof state.message);
    state.message.len = 2;
    memcpy(state.message.bytes, "hi", 2);
    for (i = 0; i < WY50_KEYS; i++) {
        memset(&state.keys[i], 0xfc, sizeof state.keys[i]);
        state.keys[i].len = 2;
        memcpy(state.keys[i].bytes, "ok", 2);
    }
    for (i = 0; i < WY50_LABELS; i++) {
        memset(&state.labels[i], 0xfb, sizeof state.labels[i]);
        state.labels[i].len = 2;
        memcpy(state.labels[i].bytes, "go", 2);
    }
}

/* One byte by each of the calls that give a state; a wrong page for 7, no room for 6. Each answers this, and gives the numbers as they came. */
static void unchanged(uint8_t byte, size_t room, size_t cells, uint8_t answer)
{
    const wy50_state before = state;
    uint16_t rows[WY50_ROW_NUMBERS] = {0};
    wy50_step_result s = wy50_step(page, cells, state, byte, reply, room);
    wy50_run_result r = wy50_run(page, cells, state, &byte, 1, reply, room);
    wy50_next_result n = wy50_next(page, cells, NULL, 0, state, &byte, 1, reply, room);
    CHECK(s.answer == answer && same(&s.state, &before));
    CHECK(r.answer == (answer == 1 ? 0 : answer) && same(&r.state, &before));
    CHECK(n.answer == answer && same(&n.state, &before));
    wy50_rebuild_rows(page, cells, rows, WY50_ROW_NUMBERS, state);
    s = wy50_step_rows(page, cells, rows, WY50_ROW_NUMBERS, state, byte, reply, room);
    r = wy50_run_rows(page, cells, rows, WY50_ROW_NUMBERS, state, &byte, 1, reply, room);
    CHECK(s.answer == answer && same(&s.state, &before) && r.answer == (answer == 1 ? 0 : answer) && same(&r.state, &before));
}

/* "Nothing changed" is the numbers as they came, whatever stands where nothing is looked at; and where something changed, the rest is as it came. */
static void rubbish(void)
{
    static const char *const begun[] = {"", "\033", "\033F", "\033Fab", "\033zA", "\033zAab", "\033z0abc", "\033F\001", "\033="};
    size_t i;
    for (i = 0; i < sizeof begun / sizeof *begun; i++) {
        litter();
        CHECK(i == 0 || feed(begun[i], strlen(begun[i])) == 0);
        unchanged(0xe9, 9, WY50_CELLS, 1);
        unchanged('A', 9, WY50_CELLS - 1, 7);
        CHECK(wy50_run(page, WY50_CELLS, state, NULL, 0, reply, 9).answer == 0);
        expected = wy50_run(page, WY50_CELLS, state, NULL, 0, reply, 9).state;
        CHECK(same(&expected, &state));
    }
    litter();
    unchanged(5, 0, WY50_CELLS, 6);
    CHECK(FEED("\033") == 0);
    unchanged('?', 0, WY50_CELLS, 6);
    part("1, 6 and 7 give the numbers as they came, rubbish behind every text too");

    litter();
    expected = state;
    expected.screen.cursor0 = 1;
    CHECK(FEED("A") == 0 && same(&state, &expected));
    expected.sequence.kind = WY50_MESSAGE_TEXT;
    CHECK(FEED("\033F") == 0 && same(&state, &expected));
    expected.sequence.second = 2;
    memcpy(expected.gathered, "xy", 2);
    CHECK(FEED("xy") == 0 && same(&state, &expected));
    expected.sequence.kind = WY50_IDLE;
    expected.sequence.second = 0;
    memset(expected.gathered, 0, 2);
    memset(&expected.message, 0, sizeof expected.message);
    expected.message.len = 2;
    memcpy(expected.message.bytes, "xy", 2);
    CHECK(FEED("\r") == 0 && same(&state, &expected));
    memset(&expected.keys[1], 0, sizeof expected.keys[1]);
    expected.keys[1].len = 3;
    memcpy(expected.keys[1].bytes, "yes", 3);
    CHECK(FEED("\033zAyes\177") == 0 && expected.gathered[2] == 0xfe && state.gathered[2] == 0);
    memset(expected.gathered, 0, 3);
    CHECK(same(&state, &expected));
    part("a text that is written has zeros behind it, and so have bytes gathered; the others are as they came");

    litter();
    CHECK(wy50_press(page, WY50_CELLS, state, 0x40, reply, 9).replied == 2 && memcmp(reply, "ok", 2) == 0);
    CHECK(wy50_press(page, WY50_CELLS, state, 0x3f, reply, 9).answer == WY50_BAD_ARGUMENT);
    CHECK(wy50_press(page, WY50_CELLS, state, 0x40, reply, 1).answer == WY50_NO_ROOM);
    CHECK(FEED("\033#") == 0 && wy50_press(page, WY50_CELLS, state, 0x40, reply, 9).answer == WY50_LOCKED);
    state.screen.cursor0 = WY50_CELLS;
    CHECK(wy50_press(page, WY50_CELLS, state, 0x40, reply, 9).answer == WY50_BAD_CALL);
    part("a key is pressed by its length: 0, 3, 6, 8 and 7");
}

static void version(void)
{
    char text[16];
    uint32_t number = wy50_version();
    sprintf(text, "%d.%d.%d", WY50_VERSION_MAJOR, WY50_VERSION_MINOR, WY50_VERSION_PATCH);
    CHECK(strcmp(text, WY50_VERSION) == 0);
    CHECK(number == WY50_VERSION_NUMBER);
    CHECK(number / 1000000 == WY50_VERSION_MAJOR && number / 1000 % 1000 == WY50_VERSION_MINOR && number % 1000 == WY50_VERSION_PATCH);
#if WY50_VERSION_NUMBER < 9000
    CHECK(0);
#endif
    part("one version of header and library");
}

/* Words for each number, those of an answer for no other. */
static void names(void)
{
    static const char *const words[] = {"done", "a byte of 80h or above", "no such byte after ESC", "an argument outside its range",
        "barred by protection", NULL, "no room for the reply", "a page, state or row list that is not possible", "the keyboard is locked",
        "no saves could have left the store so", "no set-up is kept under that number", "all numbers are used"};
    int i;
    for (i = 0; i < 256; i++)
        CHECK(strcmp(wy50_answer_name((uint8_t)i), i <= WY50_FULL && words[i] ? words[i] : "no answer") == 0);
    part("the answers' names, of all 256 numbers");
}

/* The codes of ESC `, each by its name at its place. */
static void features(void)
{
    static const uint8_t places[][6] = {{WY50_CURSOR_SHOWN, WY50_CURSOR_OFF, WY50_CURSOR_ON},
        {WY50_CURSOR_STYLE, WY50_STEADY_BLOCK, WY50_BLINKING_LINE, WY50_STEADY_LINE, WY50_BLINKING_BLOCK},
        {WY50_PROTECTED_LOOK, WY50_PROTECTED_REVERSE, WY50_PROTECTED_DIM, WY50_PROTECTED_NORMAL},
        {WY50_SCREEN_SHOWN, WY50_SCREEN_OFF, WY50_SCREEN_ON},
        {WY50_SCROLLING, WY50_SMOOTH_1, WY50_SMOOTH_2, WY50_SMOOTH_4, WY50_SMOOTH_8, WY50_JUMP}};
    size_t i, j, named = 0, taken = 0;
    for (i = 0; i < sizeof places / sizeof *places; i++) {
        for (j = 1; j < sizeof *places && places[i][j] != 0; j++) {
            char bytes[3] = "\033`";
            power_on();
            expected = state;
            expected.features[places[i][0]] = places[i][j];
            bytes[2] = (char)places[i][j];
            CHECK(feed(bytes, 3) == WY50_DONE && same(&state, &expected));
            named++;
        }
    }
    for (i = 0; i < 128; i++) {
        char bytes[3] = "\033`";
        power_on();
        bytes[2] = (char)i;
        taken += feed(bytes, 3) == WY50_DONE && i != ':' && i != ';'; /* the wish for a width */
    }
    CHECK(named == taken);
    part("the codes of the features, by name, and no other code");
}

/* The WY-60 beside the WY-50. */
static void personalities(void)
{
    wy50_power_on_result r;
    size_t i;

    power_on();
    CHECK(state.personality == WY50_PERSONALITY_50 && state.remembered == 0);
    CHECK(FEED("\033G4A") == 0 && page[0] == 0x134 && page[1] == 'A' && state.screen.cursor0 == 2 && state.remembered == 0);
    CHECK(FEED("\033 ") == 0 && REPLIES("50\r"));
    part("a WY-50: ESC G takes a cell");

    power_on_as(WY50_PERSONALITY_60);
    CHECK(state.personality == WY50_PERSONALITY_60 && state.remembered == 0);
    CHECK(FEED("\033G4") == 0 && page[0] == 0 && state.screen.cursor0 == 0 && state.remembered == WY50_REVERSE);
    CHECK(FEED("A") == 0 && page[0] == 'A' + 4096 && wy50_cell_attribute(page[0]) == WY50_REVERSE && wy50_cell_sent(page[0]) == 'A');
    CHECK(FEED("\033G~B") == 0 && wy50_cell_attribute(page[1]) == (WY50_DIM | WY50_UNDERSCORE | WY50_REVERSE | WY50_BLINK));
    CHECK(FEED("\033G C") == 0 && page[2] == ' ' && wy50_cell_attribute(page[3]) == (WY50_DIM | WY50_UNDERSCORE | WY50_REVERSE | WY50_BLINK));
    CHECK(FEED("\033G1\033H2") == 0 && wy50_cell_kind(page[4]) == WY50_GRAPHIC && wy50_cell_attribute(page[4]) == WY50_BLANK);
    CHECK(FEED("\033G\177") == WY50_BAD_ARGUMENT && state.remembered == WY50_BLANK);
    CHECK(FEED("\032") == 0 && page[0] == ' ' && state.remembered == WY50_BLANK);
    CHECK(FEED("\033 ") == 0 && REPLIES("60\r"));
    CHECK(FEED("\033,\033&\033G0") == 0 && state.remembered == 0 && FEED("\033G ") == WY50_BARRED);
    part("a WY-60: ESC G takes none, and is kept with what is stored");

    for (i = 0; i < 256; i++) {
        if (i == WY50_PERSONALITY_50 || i == WY50_PERSONALITY_60)
            continue;
        page[7] = 7;
        r = wy50_power_on(page, WY50_CELLS, (uint8_t)i);
        CHECK(r.answer == WY50_BAD_CALL && r.state.personality == WY50_PERSONALITY_50 && page[7] == 7);
    }
    r = wy50_power_on(page, WY50_CELLS - 1, WY50_PERSONALITY_60);
    CHECK(r.answer == WY50_BAD_CALL && r.state.personality == WY50_PERSONALITY_60 && page[7] == 7);
    part("numbers that are no personality: 7");
}

int main(void)
{
    layout();
    members();
    round_trip();
    bench();
    sends();
    row_lists();
    version();
    names();
    features();
    personalities();
    impossible();
    rubbish();
    if (failures)
        printf("%d parts FAILED\n", failures);
    return failures != 0;
}
