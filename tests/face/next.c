/* Checks wy50_next: what it tells of each reply and each refusal, in rooms of any size, inside a send, with a row list and without one; that bad calls
 * change nothing; that a loop of it over random streams comes to one run, and that over one byte it is the step. Compiles as C99 and as C++. Prints one
 * line for each part, and fails by its status. */
#include "wy50.h"

#include <stdio.h>
#include <string.h>

enum { MOST = 400 };

static uint16_t page[WY50_CELLS], rows[WY50_ROW_NUMBERS + 1];
static uint8_t reply[WY50_LONGEST_REPLY];
static wy50_state state;
static int failures, part_failures;

#define CHECK(test) check((test) != 0, #test, __LINE__)

static void check(int ok, const char *text, int line)
{
    if (!ok) {
        printf("next.c:%d: not so: %s\n", line, text);
        part_failures++;
    }
}

static void part(const char *name)
{
    printf("%s %s\n", part_failures ? "FAILED" : "passed", name);
    failures += part_failures != 0;
    part_failures = 0;
}

static int same(const wy50_state *a, const wy50_state *b)
{
    return memcmp(a, b, sizeof *a) == 0;
}

/* A terminal after these host bytes. */
static void start(const char *host, size_t n)
{
    wy50_run_result r;
    state = wy50_power_on(page, WY50_CELLS, WY50_PERSONALITY_50).state;
    r = wy50_run(page, WY50_CELLS, state, (const uint8_t *)host, n, reply, sizeof reply);
    CHECK(r.answer == WY50_DONE && r.taken == n && r.refused == 0);
    state = r.state;
}
#define START(s) start(s, sizeof(s) - 1)

static wy50_next_result last;
static int next(const char *bytes, size_t n, size_t room)
{
    memset(reply, 0x55, sizeof reply);
    last = wy50_next(page, WY50_CELLS, NULL, 0, state, (const uint8_t *)bytes, n, reply, room);
    CHECK(last.replied <= room && (room == sizeof reply || reply[room] == 0x55));
    CHECK(last.refused == (last.answer >= 1 && last.answer <= 4));
    CHECK((last.command != 0) == (last.replied > 0) && (last.answer == WY50_DONE || last.replied == 0));
    state = last.state;
    return last.answer;
}
#define NEXT(s, room) next(s, sizeof(s) - 1, room)

static int told(uint8_t command, size_t taken, const char *bytes, size_t n)
{
    return last.command == command && last.taken == taken && last.replied == n && memcmp(reply, bytes, n) == 0;
}
#define TOLD(command, taken, s) told(command, taken, s, sizeof(s) - 1)

static void layout(void)
{
    CHECK(sizeof(wy50_next_result) == 736);
    CHECK(offsetof(wy50_next_result, command) == 1);
    CHECK(offsetof(wy50_next_result, taken) == 8);
    CHECK(offsetof(wy50_next_result, replied) == 16);
    CHECK(offsetof(wy50_next_result, refused) == 24);
    CHECK(offsetof(wy50_next_result, state) == 32);
    part("size and offsets");
}

/* Each command that replies, between text: it is told with its place, its number and its reply, through rooms of each length. */
static void replies(void)
{
    static const struct {
        const char *asks, *reply;
        uint8_t command;
    } all[] = {
        {"\005", "\006", WY50_ASKS_ACKNOWLEDGE},
        {"\033 ", "50\r", WY50_ASKS_IDENTITY},
        {"\033/", "0 #\r", WY50_ASKS_SEGMENT_CURSOR},
        {"\0334", "\034! \r", WY50_ASKS_OPEN_ROW},
        {"\0335", "\034! \r", WY50_ASKS_OPEN_SEGMENT},
        {"\0336", "No! \r", WY50_ASKS_ROW},
        {"\0337", "No! \r", WY50_ASKS_SEGMENT},
        {"\033?", " #\r", WY50_ASKS_CURSOR},
        {"\033M", " ", WY50_ASKS_CELL},
        {"\033b", "01R004C", WY50_ASKS_DECIMAL_CURSOR},
    };
    size_t i;
    for (i = 0; i < sizeof all / sizeof *all; i++) {
        char host[8];
        const char *whole = all[i].reply;
        size_t n = strlen(all[i].asks) + 2, length = strlen(whole), room;
        CHECK(all[i].command == (uint8_t)all[i].asks[n - 3]);
        sprintf(host, "!%sA", all[i].asks);
        START("\033)No\033(");
        CHECK(next(host, n, sizeof reply) == WY50_DONE && told(all[i].command, n - 1, whole, length) && last.state.sending.command == 0);
        CHECK(next("A", 1, sizeof reply) == WY50_DONE && told(0, 1, "", 0) && page[3] == 'A');
        START("\033)No\033(");
        CHECK(next(host, n, 0) == WY50_NO_ROOM && told(0, n - 2, "", 0) && state.screen.cursor0 == 3 && state.sending.command == 0);
        CHECK(next(host + n - 2, 2, 0) == WY50_NO_ROOM && told(0, 0, "", 0));
        for (room = 1; room <= length; room++) {
            size_t went = room;
            START("\033)No\033(");
            CHECK(next(host, n, room) == WY50_DONE && told(all[i].command, n - 1, whole, room));
            while (state.sending.command != 0) {
                size_t part = length - went < room ? length - went : room;
                CHECK(next("A", 1, 0) == WY50_NO_ROOM && told(0, 0, "", 0) && next("A", 0, 0) == WY50_DONE && told(0, 0, "", 0));
                CHECK(state.sending.command == all[i].command);
                CHECK(next("A", went % 2, room) == WY50_DONE && told(all[i].command, 0, whole + went, part));
                went += part;
            }
            CHECK(went == length);
            CHECK(next("A", 1, 0) == WY50_DONE && told(0, 1, "", 0) && page[3] == 'A');
        }
    }
    part("each command's reply and number, through rooms of each length, inside its send too");

    for (i = 0; i < 512; i++) {
        uint8_t byte = (uint8_t)(i / 2);
        size_t j, asks = 0;
        START("\033)No\033(!");
        if (i % 2)
            CHECK(NEXT("\033", 0) == WY50_DONE);
        for (j = 0; j < sizeof all / sizeof *all; j++)
            asks += all[j].command == byte && strlen(all[j].asks) == 1 + i % 2;
        next((const char *)&byte, 1, sizeof reply);
        CHECK(last.command == (asks ? byte : 0));
    }
    part("no other byte replies, alone or after ESC");

    START("");
    CHECK(NEXT("", sizeof reply) == WY50_DONE && TOLD(0, 0, ""));
    CHECK(NEXT("some text, \033=  and more", 0) == WY50_DONE && TOLD(0, 23, "") && page[0] == 'a');
    CHECK(NEXT("\005\005", sizeof reply) == WY50_DONE && TOLD(5, 1, "\006") && NEXT("\005", sizeof reply) == WY50_DONE && TOLD(5, 1, "\006"));
    CHECK(NEXT("\033", 9) == WY50_DONE && TOLD(0, 1, "") && NEXT("?", 9) == WY50_DONE && TOLD('?', 1, " (\r"));
    CHECK(NEXT("\033=\x37\x6f\0337", sizeof reply) == WY50_DONE && last.command == '7' && last.replied == 1944 && last.taken == 6);
    part("no event, one after another, a command in two pieces, the longest reply");
}

/* Each refusal is told with its place and byte, and the bytes behind it wait. */
static void refusals(void)
{
    START("");
    CHECK(NEXT("A\033\351 \005", 9) == WY50_HIGH_BYTE && TOLD(0, 3, "") && state.sequence.kind == WY50_ESCAPE);
    CHECK(NEXT(" \005", 9) == WY50_DONE && TOLD(' ', 1, "50\r"));
    CHECK(NEXT("B\033\001\005", 9) == WY50_UNKNOWN && TOLD(0, 3, "") && state.sequence.kind == WY50_IDLE);
    CHECK(NEXT("C\033=\x38 \005", 9) == WY50_BAD_ARGUMENT && TOLD(0, 5, "") && state.screen.cursor0 == 3);
    CHECK(NEXT("C\033=\x20\x70\005", 0) == WY50_BAD_ARGUMENT && TOLD(0, 5, ""));
    CHECK(NEXT("\033,\033&DE", 9) == WY50_BARRED && TOLD(0, 5, "") && NEXT("E", 9) == WY50_BARRED && TOLD(0, 1, ""));
    CHECK(NEXT("\033M\005", 9) == WY50_BARRED && TOLD(0, 2, ""));
    CHECK(NEXT("\351\377", 0) == WY50_HIGH_BYTE && TOLD(0, 1, "") && NEXT("\377", 0) == WY50_HIGH_BYTE && TOLD(0, 1, ""));
    part("each refusal, 1 to 4, with its place");
}

/* 7, and nothing has changed. */
static void bad(size_t page_len, uint16_t *list, size_t list_len)
{
    static uint16_t page_before[WY50_CELLS];
    static uint8_t reply_before[sizeof reply];
    uint16_t rows_before[WY50_ROW_NUMBERS + 1];
    size_t n, i;
    memset(reply, 0x55, sizeof reply);
    memcpy(reply_before, reply, sizeof reply);
    memcpy(page_before, page, sizeof page);
    memcpy(rows_before, rows, sizeof rows);
    for (n = 0; n <= 4; n++) {
        for (i = 0; i < 2; i++) {
            wy50_next_result r = wy50_next(page, page_len, list, list_len, state, (const uint8_t *)"A\005\033?", n, reply, i * sizeof reply);
            CHECK(r.answer == WY50_BAD_CALL && r.command == 0 && r.taken == 0 && r.replied == 0 && r.refused == 0 && same(&r.state, &state));
        }
    }
    CHECK(memcmp(page, page_before, sizeof page) == 0 && memcmp(rows, rows_before, sizeof rows) == 0);
    CHECK(memcmp(reply, reply_before, sizeof reply) == 0);
}

static void bad_calls(void)
{
    size_t i;
    START("\033)No\033(\033&");
    CHECK(wy50_rebuild_rows(page, WY50_CELLS, rows, WY50_ROW_NUMBERS, state) == WY50_DONE);
    for (i = 0; i <= WY50_ROW_NUMBERS; i += WY50_ROW_NUMBERS) {
        bad(WY50_CELLS - 1, rows, i);
        bad(0, rows, i);
    }
    bad(WY50_CELLS - 1, NULL, 0);
    bad(WY50_CELLS, rows, WY50_ROW_NUMBERS - 1);
    bad(WY50_CELLS, rows, WY50_ROW_NUMBERS + 1);
    bad(WY50_CELLS, rows, 1);
    for (i = 0; i < WY50_ROW_NUMBERS; i++) {
        rows[i]++;
        bad(WY50_CELLS, rows, WY50_ROW_NUMBERS);
        rows[i] = (uint16_t)(rows[i] - 2);
        bad(WY50_CELLS, rows, WY50_ROW_NUMBERS);
        rows[i]++;
    }
    CHECK(wy50_next(page, WY50_CELLS, rows, WY50_ROW_NUMBERS, state, NULL, 0, NULL, 0).answer == WY50_DONE);
    rows[0] = 0;
    CHECK(wy50_next(page, WY50_CELLS, rows, 0, state, NULL, 0, NULL, 0).answer == WY50_DONE && rows[0] == 0);
    CHECK(wy50_rebuild_rows(page, WY50_CELLS, rows, WY50_ROW_NUMBERS, state) == WY50_DONE);
    state.tabs[9] = 2;
    for (i = 0; i <= WY50_ROW_NUMBERS; i += WY50_ROW_NUMBERS)
        bad(WY50_CELLS, rows, i);
    START("");
    state.screen.cursor0 = WY50_CELLS;
    bad(WY50_CELLS, NULL, 0);
    START("");
    state.sending.command = '7';
    bad(WY50_CELLS, NULL, 0);
    memset(&state, 0, sizeof state);
    bad(WY50_CELLS, NULL, 0);
    memset(&state, 0xff, sizeof state);
    bad(WY50_CELLS, NULL, 0);
    part("a wrong page, row list or state: 7, and nothing changed; a list of no numbers is none");
}

/* ---- random streams */

static uint64_t seed = 22;
static size_t below(size_t n)
{
    seed ^= seed << 13;
    seed ^= seed >> 7;
    seed ^= seed << 17;
    return (size_t)((seed * 0x2545f4914f6cdd1dULL >> 11) % n);
}

static size_t host(uint8_t *to)
{
    static const char *const whole[] = {"\033=5A", "\033-15A", "\033a24R80C", "\033a12R34C", "\033x1,", "\033x0", "\033G4", "\033z@key\177", "\033Fopen\r", "\033F\033\r",
        "\033&", "\033)", "\033(", "\033'", "\033,", "\033V", "\005", "\033 ", "\033/", "\0334", "\0335", "\0336", "\0337", "\033?", "\033M", "\033b", "\033\001", "\033=\177\177"};
    size_t n = below(MOST + 1), i = 0;
    while (i < n) {
        size_t k = below(8);
        if (k < 4) {
            to[i++] = (uint8_t)(k < 3 ? 0x20 + below(95) : below(256));
        } else {
            const char *s = whole[below(sizeof whole / sizeof *whole)];
            while (*s && i < n)
                to[i++] = (uint8_t)*s++;
        }
    }
    return n;
}

static uint8_t one[(MOST / 2 + 2) * WY50_LONGEST_REPLY], joined[sizeof one];
static uint16_t page_one[WY50_CELLS], page_steps[WY50_CELLS], list[WY50_ROW_NUMBERS];

/* What next told, against single steps through the same room: only the last of them is an event. */
static void stepped(wy50_state x, const uint8_t *bytes, size_t n, size_t room, const wy50_next_result *r, const uint8_t *told_reply)
{
    uint8_t own[WY50_LONGEST_REPLY];
    size_t i;
    wy50_step_result s;
    memset(&s, 0, sizeof s);
    s.state = x;
    for (i = 0; i < n && s.answer == WY50_DONE && s.replied == 0; i += s.taken) {
        s = wy50_step(page_steps, WY50_CELLS, s.state, bytes[i], own, room);
        if (!s.taken)
            break;
    }
    if (n == 0 && x.sending.command != 0 && room > 0)
        s = wy50_step(page_steps, WY50_CELLS, x, 0xe9, own, room);
    CHECK(r->answer == s.answer && r->taken == i && r->replied == s.replied && same(&r->state, &s.state));
    CHECK(memcmp(told_reply, own, s.replied) == 0 && memcmp(page_steps, page, sizeof page) == 0);
    CHECK(r->refused == (s.answer >= 1 && s.answer <= 4));
    CHECK(r->command == (s.replied == 0 ? 0 : x.sending.command != 0 ? x.sending.command : bytes[i - 1]));
}

/* A loop of next, with a row list or without, beside the run. */
static void loop(const uint8_t *bytes, size_t n, int listed)
{
    size_t taken = 0, all = 0, refused = 0;
    wy50_state x = state;
    wy50_run_result r;
    memcpy(page_one, page, sizeof page);
    memcpy(page_steps, page, sizeof page);
    r = wy50_run(page_one, WY50_CELLS, state, bytes, n, one, sizeof one);
    CHECK(r.answer == WY50_DONE && r.taken == n && r.state.sending.command == 0);
    CHECK(wy50_rebuild_rows(page, WY50_CELLS, rows, WY50_ROW_NUMBERS, state) == WY50_DONE);
    while (taken < n || x.sending.command != 0) {
        size_t room = below(4) ? below(70) : below(WY50_LONGEST_REPLY + 1);
        wy50_next_result s = wy50_next(page, WY50_CELLS, listed ? rows : NULL, listed ? WY50_ROW_NUMBERS : 0, x, bytes + taken, n - taken, joined + all, room);
        stepped(x, bytes + taken, n - taken, room, &s, joined + all);
        taken += s.taken;
        all += s.replied;
        refused += s.refused;
        x = s.state;
        if (listed) {
            CHECK(wy50_rebuild_rows(page, WY50_CELLS, list, WY50_ROW_NUMBERS, x) == WY50_DONE && memcmp(rows, list, sizeof list) == 0);
        }
        if (part_failures)
            return;
    }
    CHECK(all == r.replied && memcmp(joined, one, all) == 0 && refused == r.refused && same(&x, &r.state));
    CHECK(memcmp(page, page_one, sizeof page) == 0);
    state = x;
}

static void streams(void)
{
    uint8_t bytes[MOST];
    int i;
    for (i = 0; i < 2000 && part_failures == 0; i++) {
        if (i % 20 == 0)
            state = wy50_power_on(page, WY50_CELLS, i % 40 ? WY50_PERSONALITY_50 : WY50_PERSONALITY_60).state;
        loop(bytes, host(bytes), i % 2);
    }
    part("a loop over random streams, through random rooms: the steps one by one, and together one run");
}

/* Over one byte it is the step. */
static void one_byte(void)
{
    static const char *const hosts[] = {"", "\033", "\033)Roast: \033(\033&dark", "\033)Roast: \033(\033&dark\033", "\033x1,\033}\033", "\033Fopen", "\033,\033&"};
    static uint16_t before[WY50_CELLS];
    static uint8_t other[WY50_LONGEST_REPLY];
    size_t i, room;
    int b;
    for (i = 0; i < 9; i++) {
        if (i < 7) {
            start(hosts[i], strlen(hosts[i]));
        } else {
            START("A\037B");
            CHECK(NEXT("\0337", 5) == WY50_DONE && state.sending.command == '7');
            if (i == 8)
                CHECK(NEXT("", 78) == WY50_DONE && last.command == '7' && last.replied == 78 && state.sending.kind == WY50_SENT_RETURN);
        }
        memcpy(before, page, sizeof page);
        for (b = 0; b < 256; b++) {
            for (room = 0; room < 4; room++) {
                uint8_t byte = (uint8_t)b;
                size_t length = room == 3 ? sizeof reply : room;
                wy50_step_result s = wy50_step(page, WY50_CELLS, state, byte, reply, length);
                wy50_next_result r;
                memcpy(page_steps, page, sizeof page);
                memcpy(page, before, sizeof page);
                r = wy50_next(page, WY50_CELLS, NULL, 0, state, &byte, 1, other, length);
                CHECK(r.answer == s.answer && r.taken == s.taken && r.replied == s.replied && same(&r.state, &s.state));
                CHECK(memcmp(reply, other, s.replied) == 0 && memcmp(page, page_steps, sizeof page) == 0);
                memcpy(page, before, sizeof page);
            }
        }
    }
    part("over one byte it is the step");
}

int main(void)
{
    layout();
    replies();
    refusals();
    bad_calls();
    streams();
    one_byte();
    if (failures)
        printf("%d parts FAILED\n", failures);
    return failures != 0;
}
