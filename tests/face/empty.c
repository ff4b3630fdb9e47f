/* Checks that NULL goes with a count of 0 in every call: page, target, row list, list of a mending, rooms of a proposal, input and reply room, one by one and together. Each call gives
 * what it gives with another pointer and 0. As C++ the pointers are those of an empty std::vector. Prints one line for each part, and fails by its status. */
#include "wy50.h"

#include <stdio.h>
#include <string.h>

#ifdef __cplusplus
#include <vector>
static std::vector<uint16_t> no_numbers;
static std::vector<uint8_t> no_bytes;
static std::vector<wy50_span> no_spans;
#define NO_NUMBERS no_numbers.data()
#define NO_BYTES no_bytes.data()
#define NO_SPANS no_spans.data()
#else
#define NO_NUMBERS NULL
#define NO_BYTES NULL
#define NO_SPANS NULL
#endif

static uint16_t page[WY50_CELLS], before[WY50_CELLS], wide[WY50_WIDE_CELLS], rows[WY50_ROW_NUMBERS];
static uint8_t reply[WY50_LONGEST_REPLY];
static wy50_state state;
static int failures, part_failures;

#define CHECK(test) check((test) != 0, #test, __LINE__)

static void check(int ok, const char *text, int line)
{
    if (!ok) {
        printf("empty.c:%d: not so: %s\n", line, text);
        part_failures++;
    }
}

static void part(const char *name)
{
    printf("%s %s\n", part_failures ? "FAILED" : "passed", name);
    failures += part_failures != 0;
    part_failures = 0;
}

static int same(const wy50_state *a, const wy50_state *b)
{
    return memcmp(a, b, sizeof *a) == 0;
}

/* A WY-60 after these host bytes, and its row list. */
static void start(const char *host)
{
    wy50_run_result r;
    state = wy50_power_on(page, WY50_CELLS, WY50_PERSONALITY_60).state;
    r = wy50_run(page, WY50_CELLS, state, (const uint8_t *)host, strlen(host), reply, sizeof reply);
    CHECK(r.answer == WY50_DONE && r.taken == strlen(host));
    state = r.state;
    CHECK(wy50_rebuild_rows(page, WY50_CELLS, rows, WY50_ROW_NUMBERS, state) == WY50_DONE);
    memcpy(before, page, sizeof page);
}

static void reset(void)
{
    memcpy(page, before, sizeof page);
    CHECK(wy50_rebuild_rows(page, WY50_CELLS, rows, WY50_ROW_NUMBERS, state) == WY50_DONE);
}

/* idle, protecting, split, gathering a text, in each kind of send */
static const char *const hosts[] = {"", "\033", "\033)Roast: \033(\033&dark", "\033x1,\033}\033", "\033Fopen", "\033z@k", "\033=0 \033,\033&"};

/* A state that has a send under way, after so many bytes of room. */
static void send_begins(const char *ask, size_t room)
{
    wy50_run_result r;
    start("\033)Roast: \033(dark\037\037more");
    r = wy50_run(page, WY50_CELLS, state, (const uint8_t *)ask, 2, reply, room);
    CHECK(r.answer == WY50_DONE && r.taken == 2 && r.state.sending.command == (uint8_t)ask[1]);
    state = r.state;
}

/* Every byte and every key with no room, and a run over no bytes. */
static void every_byte(void)
{
    static uint16_t after[WY50_CELLS];
    int i;
    wy50_run_result r, s;
    wy50_next_result n;
    for (i = 0; i < 256; i++) {
        uint8_t b = (uint8_t)i;
        wy50_step_result x = wy50_step(page, WY50_CELLS, state, b, reply, 0), y;
        wy50_press_result k = wy50_press(page, WY50_CELLS, state, b, reply, 0), l;
        memcpy(after, page, sizeof page);
        reset();
        y = wy50_step(page, WY50_CELLS, state, b, NO_BYTES, 0);
        CHECK(x.answer == y.answer && x.taken == y.taken && y.replied == 0 && same(&x.state, &y.state) && memcmp(page, after, sizeof page) == 0);
        reset();
        y = wy50_step_rows(page, WY50_CELLS, rows, WY50_ROW_NUMBERS, state, b, NO_BYTES, 0);
        CHECK(x.answer == y.answer && x.taken == y.taken && y.replied == 0 && same(&x.state, &y.state) && memcmp(page, after, sizeof page) == 0);
        reset();
        r = wy50_run(page, WY50_CELLS, state, &b, 1, NO_BYTES, 0);
        CHECK(r.taken == x.taken && r.replied == 0 && same(&x.state, &r.state) && memcmp(page, after, sizeof page) == 0);
        reset();
        r = wy50_run_rows(page, WY50_CELLS, rows, WY50_ROW_NUMBERS, state, &b, 1, NO_BYTES, 0);
        CHECK(r.taken == x.taken && r.replied == 0 && same(&x.state, &r.state) && memcmp(page, after, sizeof page) == 0);
        reset();
        n = wy50_next(page, WY50_CELLS, NO_NUMBERS, 0, state, &b, 1, NO_BYTES, 0);
        CHECK(n.answer == x.answer && n.taken == x.taken && n.replied == 0 && same(&x.state, &n.state) && memcmp(page, after, sizeof page) == 0);
        reset();
        n = wy50_next(page, WY50_CELLS, rows, WY50_ROW_NUMBERS, state, &b, 1, NO_BYTES, 0);
        CHECK(n.answer == x.answer && n.taken == x.taken && n.replied == 0 && same(&x.state, &n.state) && memcmp(page, after, sizeof page) == 0);
        reset();
        l = wy50_press(page, WY50_CELLS, state, b, NO_BYTES, 0);
        CHECK(k.answer == l.answer && k.replied == 0 && l.replied == 0);
    }
    r = wy50_run(page, WY50_CELLS, state, reply, 0, reply, sizeof reply);
    s = wy50_run(page, WY50_CELLS, state, NO_BYTES, 0, reply, sizeof reply);
    CHECK(r.answer == WY50_DONE && s.answer == WY50_DONE && s.taken == 0 && r.replied == s.replied && same(&r.state, &s.state));
    s = wy50_run_rows(page, WY50_CELLS, rows, WY50_ROW_NUMBERS, state, NO_BYTES, 0, reply, sizeof reply);
    CHECK(s.answer == WY50_DONE && s.taken == 0 && r.replied == s.replied && same(&r.state, &s.state));
    n = wy50_next(page, WY50_CELLS, NO_NUMBERS, 0, state, NO_BYTES, 0, reply, sizeof reply);
    CHECK(n.answer == WY50_DONE && n.taken == 0 && n.replied == r.replied && n.command == state.sending.command && same(&r.state, &n.state));
    n = wy50_next(page, WY50_CELLS, NO_NUMBERS, 0, state, NO_BYTES, 0, NO_BYTES, 0);
    CHECK(n.answer == WY50_DONE && n.taken == 0 && n.replied == 0 && n.command == 0 && n.refused == 0);
    r = wy50_run(page, WY50_CELLS, state, reply, 0, reply, 0);
    s = wy50_run(page, WY50_CELLS, state, NO_BYTES, 0, NO_BYTES, 0);
    CHECK(r.answer == s.answer && s.taken == 0 && s.replied == 0 && same(&r.state, &s.state));
    s = wy50_run_rows(page, WY50_CELLS, rows, WY50_ROW_NUMBERS, state, NO_BYTES, 0, NO_BYTES, 0);
    CHECK(r.answer == s.answer && s.taken == 0 && s.replied == 0 && same(&r.state, &s.state));
    CHECK(memcmp(page, before, sizeof page) == 0);
}

/* No pages, no spans, no bytes, no rooms. */
static void repaint(void)
{
    static uint16_t text[WY50_CELLS], numbers[WY50_SPAN_NUMBERS], other[WY50_CELLS];
    static wy50_span one;
    size_t i;
    wy50_propose_result p;
    for (i = 0; i < WY50_CELLS; i++)
        text[i] = other[i] = 0x20;
    other[0] = 0x41;
    memset(reply, 0x55, sizeof reply);
    CHECK(wy50_judge_spans(NO_NUMBERS, 0, NO_NUMBERS, 0, NO_SPANS, 0) == WY50_BAD_CALL && wy50_judge_spans(text, WY50_CELLS, NO_NUMBERS, 0, NO_SPANS, 0) == WY50_BAD_CALL);
    CHECK(wy50_judge_spans(NO_NUMBERS, 0, text, WY50_CELLS, &one, 1) == WY50_BAD_CALL && wy50_judge_spans(text, WY50_CELLS, text, WY50_CELLS, NO_SPANS, 0) == WY50_DONE);
    CHECK(wy50_judge_spans(text, WY50_CELLS, other, WY50_CELLS, NO_SPANS, 0) == WY50_BAD_ARGUMENT);
    CHECK(wy50_judge_bytes(NO_NUMBERS, 0, NO_NUMBERS, 0, WY50_PERSONALITY_50, NO_BYTES, 0) == WY50_BAD_CALL);
    CHECK(wy50_judge_bytes(text, WY50_CELLS, NO_NUMBERS, 0, WY50_PERSONALITY_60, reply, 1) == WY50_BAD_CALL);
    CHECK(wy50_judge_bytes(text, WY50_CELLS, text, WY50_CELLS, WY50_PERSONALITY_60, NO_BYTES, 0) == WY50_DONE);
    CHECK(wy50_judge_bytes(text, WY50_CELLS, other, WY50_CELLS, WY50_PERSONALITY_60, NO_BYTES, 0) == WY50_BAD_ARGUMENT);
    p = wy50_propose_numbers(NO_NUMBERS, 0, NO_NUMBERS, 0, WY50_PERSONALITY_50, NO_NUMBERS, 0, NO_BYTES, 0);
    CHECK(p.answer == WY50_BAD_CALL && p.spans == 0 && p.bytes == 0);
    p = wy50_propose_numbers(text, WY50_CELLS, text, WY50_CELLS, WY50_PERSONALITY_50, NO_NUMBERS, 0, NO_BYTES, 0);
    CHECK(p.answer == WY50_DONE && p.spans == 0 && p.bytes == 0);
    p = wy50_propose_numbers(text, WY50_CELLS, other, WY50_CELLS, WY50_PERSONALITY_50, NO_NUMBERS, 0, reply, sizeof reply);
    CHECK(p.answer == WY50_NO_ROOM && p.spans == 0 && p.bytes == 0 && reply[0] == 0x55);
    p = wy50_propose_numbers(text, WY50_CELLS, other, WY50_CELLS, WY50_PERSONALITY_50, numbers, WY50_SPAN_NUMBERS, NO_BYTES, 0);
    CHECK(p.answer == WY50_NO_ROOM && p.spans == 0 && p.bytes == 0 && numbers[0] == 0);
    p = wy50_propose(text, WY50_CELLS, other, WY50_CELLS, WY50_PERSONALITY_60, NO_SPANS, 0, NO_BYTES, 0);
    CHECK(p.answer == WY50_NO_ROOM && p.spans == 0 && p.bytes == 0);
    p = wy50_propose(NO_NUMBERS, 0, other, WY50_CELLS, WY50_PERSONALITY_60, &one, 1, reply, sizeof reply);
    CHECK(p.answer == WY50_BAD_CALL && p.spans == 0 && p.bytes == 0 && one.row == 0 && reply[0] == 0x55);
}

/* No page, no row list: 7, and nothing changed. */
static void no_page(void)
{
    static const uint8_t text[] = "A\005";
    uint16_t list[WY50_ROW_NUMBERS];
    wy50_step_result x;
    wy50_run_result r;
    wy50_next_result n;
    wy50_save_result s;
    wy50_restore_result y;
    wy50_convert_result c;
    wy50_mend_result m;
    memcpy(list, rows, sizeof list);
    memset(reply, 0x55, sizeof reply);
    x = wy50_step(NO_NUMBERS, 0, state, 5, reply, sizeof reply);
    CHECK(x.answer == WY50_BAD_CALL && x.taken == 0 && x.replied == 0 && same(&x.state, &state));
    x = wy50_step(NO_NUMBERS, 0, state, 5, NO_BYTES, 0);
    CHECK(x.answer == WY50_BAD_CALL && x.taken == 0 && x.replied == 0 && same(&x.state, &state));
    r = wy50_run(NO_NUMBERS, 0, state, text, 2, reply, sizeof reply);
    CHECK(r.answer == WY50_BAD_CALL && r.taken == 0 && r.replied == 0 && r.refused == 0 && same(&r.state, &state));
    r = wy50_run(NO_NUMBERS, 0, state, NO_BYTES, 0, NO_BYTES, 0);
    CHECK(r.answer == WY50_BAD_CALL && r.taken == 0 && r.replied == 0 && r.refused == 0 && same(&r.state, &state));
    CHECK(wy50_press(NO_NUMBERS, 0, state, 0x40, reply, sizeof reply).answer == WY50_BAD_CALL);
    CHECK(wy50_press(NO_NUMBERS, 0, state, 0x40, NO_BYTES, 0).answer == WY50_BAD_CALL);
    x = wy50_step_rows(NO_NUMBERS, 0, rows, WY50_ROW_NUMBERS, state, 5, reply, sizeof reply);
    CHECK(x.answer == WY50_BAD_CALL && x.taken == 0 && x.replied == 0 && same(&x.state, &state));
    x = wy50_step_rows(page, WY50_CELLS, NO_NUMBERS, 0, state, 5, reply, sizeof reply);
    CHECK(x.answer == WY50_BAD_CALL && x.taken == 0 && x.replied == 0 && same(&x.state, &state));
    x = wy50_step_rows(NO_NUMBERS, 0, NO_NUMBERS, 0, state, 5, NO_BYTES, 0);
    CHECK(x.answer == WY50_BAD_CALL && x.taken == 0 && x.replied == 0 && same(&x.state, &state));
    r = wy50_run_rows(NO_NUMBERS, 0, rows, WY50_ROW_NUMBERS, state, text, 2, reply, sizeof reply);
    CHECK(r.answer == WY50_BAD_CALL && r.taken == 0 && r.replied == 0 && r.refused == 0 && same(&r.state, &state));
    r = wy50_run_rows(page, WY50_CELLS, NO_NUMBERS, 0, state, text, 2, reply, sizeof reply);
    CHECK(r.answer == WY50_BAD_CALL && r.taken == 0 && r.replied == 0 && r.refused == 0 && same(&r.state, &state));
    r = wy50_run_rows(NO_NUMBERS, 0, NO_NUMBERS, 0, state, NO_BYTES, 0, NO_BYTES, 0);
    CHECK(r.answer == WY50_BAD_CALL && r.taken == 0 && r.replied == 0 && r.refused == 0 && same(&r.state, &state));
    n = wy50_next(NO_NUMBERS, 0, rows, WY50_ROW_NUMBERS, state, text, 2, reply, sizeof reply);
    CHECK(n.answer == WY50_BAD_CALL && n.command == 0 && n.taken == 0 && n.replied == 0 && n.refused == 0 && same(&n.state, &state));
    n = wy50_next(NO_NUMBERS, 0, NO_NUMBERS, 0, state, NO_BYTES, 0, NO_BYTES, 0);
    CHECK(n.answer == WY50_BAD_CALL && n.command == 0 && n.taken == 0 && n.replied == 0 && n.refused == 0 && same(&n.state, &state));
    CHECK(wy50_rebuild_rows(NO_NUMBERS, 0, rows, WY50_ROW_NUMBERS, state) == WY50_BAD_CALL);
    CHECK(wy50_rebuild_rows(page, WY50_CELLS, NO_NUMBERS, 0, state) == WY50_BAD_CALL);
    CHECK(wy50_rebuild_rows(NO_NUMBERS, 0, NO_NUMBERS, 0, state) == WY50_BAD_CALL);
    CHECK(memcmp(rows, list, sizeof list) == 0 && memcmp(page, before, sizeof page) == 0 && reply[0] == 0x55);
    s = wy50_save(state, NO_BYTES, 0);
    CHECK(s.answer == wy50_save(state, reply, 0).answer && s.answer != WY50_DONE && s.number == 0);
    y = wy50_restore(state, NO_BYTES, 0, 1);
    CHECK(y.answer == s.answer && same(&y.state, &state));
    c = wy50_convert(NO_NUMBERS, 0, state, wide, WY50_WIDE_CELLS);
    CHECK(c.answer == WY50_BAD_CALL && same(&c.state, &state) && wide[0] == 0);
    c = wy50_convert(page, WY50_CELLS, state, NO_NUMBERS, 0);
    CHECK(c.answer == WY50_BAD_CALL && same(&c.state, &state));
    CHECK(wy50_convert(NO_NUMBERS, 0, state, NO_NUMBERS, 0).answer == WY50_BAD_CALL);
    m = wy50_mend(NO_NUMBERS, 0, WY50_PERSONALITY_50, NO_NUMBERS, 0);
    CHECK(m.answer == WY50_BAD_CALL && m.needed == 0);
    m = wy50_mend(NO_NUMBERS, 0, WY50_PERSONALITY_60, list, WY50_ROW_NUMBERS);
    CHECK(m.answer == WY50_BAD_CALL && m.needed == 0 && memcmp(rows, list, sizeof list) == 0);
    m = wy50_mend(page, WY50_CELLS, WY50_PERSONALITY_50, NO_NUMBERS, 0);
    CHECK(m.answer == WY50_DONE && m.needed == 0);
    wide[5] = 0x80;
    m = wy50_mend(wide, WY50_WIDE_CELLS, WY50_PERSONALITY_60, NO_NUMBERS, 0);
    CHECK(m.answer == WY50_NO_ROOM && m.needed == 1 && wide[5] == 0x80);
    wide[5] = 0;
    repaint();
    CHECK(wy50_next_field(NO_NUMBERS, 0, 0).length == 0);
    CHECK(wy50_field_text(NO_NUMBERS, 0, 0, 1, NO_BYTES, 0).answer == WY50_BAD_CALL && wy50_row_text(NO_NUMBERS, 0, 0, 1, NO_BYTES, 0).answer == WY50_BAD_CALL);
    CHECK(wy50_row_text(page, WY50_CELLS, 0, 0, NO_BYTES, 0).answer == WY50_NO_ROOM);
}

int main(void)
{
    wy50_power_on_result p, q;
    size_t i;
    int personality;

    CHECK(NO_NUMBERS == NULL && NO_BYTES == NULL);
    for (personality = 0; personality < 256; personality++) {
        p = wy50_power_on(page, 0, (uint8_t)personality);
        q = wy50_power_on(NO_NUMBERS, 0, (uint8_t)personality);
        CHECK(p.answer == WY50_BAD_CALL && q.answer == WY50_BAD_CALL && same(&p.state, &q.state));
    }
    part("power-on without a page");

    for (i = 0; i < sizeof hosts / sizeof *hosts; i++) {
        start(hosts[i]);
        every_byte();
        no_page();
    }
    part("every byte and key without a room, runs without input, calls without a page or a row list");

    for (i = 0; i < 2; i++) {
        send_begins("\0337", 1 + 60 * i);
        every_byte();
        no_page();
        send_begins("\0335", 2 + 5 * i);
        every_byte();
        no_page();
        send_begins("\033b", 1 + i);
        every_byte();
        no_page();
    }
    part("the same during sends");

    memset(&state, 0xff, sizeof state);
    no_page();
    memset(&state, 0, sizeof state);
    no_page();
    part("the same with numbers that are no state");
    return failures != 0;
}
