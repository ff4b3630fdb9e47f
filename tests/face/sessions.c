/* Demand 3 over whole sessions (document 02, A14), tried on the built library. Two terminals with protect mode on that differ only in the contents of
 * protected cells are run by the same calls of every kind, good and bad, of either personality and width: step, run, next, key press, the forms with a
 * row list, the rebuild, save and restore. In half of the sessions the host's bytes are one stream, and what a call hands back comes first in the next.
 * After every call all that was given back is compared, byte by byte, and all that the two keep. A call in which the first terminal would complete one
 * of the six commands is not made.
 *
 *     sessions CALLS [SEED [LEAK]]
 *
 * With a LEAK, the name of a kind of call, calls of that kind let a bit of a protected cell out: a fault that must be found. Status 0: no difference.
 */
#include "wy50.h"

#include <stdio.h>
#include <stdlib.h>
#include <string.h>

enum { MOST_ROOM = 3300, MOST_INPUT = 400, MOST_ROWS = 60 };
enum { STEP, RUN, NEXT, PRESS, STEP_ROWS, RUN_ROWS, REBUILD, SAVE, RESTORE, KINDS };

static const char *const kind_names[KINDS] = {"step", "run", "next", "press", "step_rows", "run_rows", "rebuild", "save", "restore"};

static uint64_t random_state, made[KINDS], answered[12], sessions, streams, wide, sixties, bad, wrong_lists, bad_stores, in_sends, completing;
static int leak = KINDS;

static uint64_t next(void)
{
    random_state ^= random_state << 13;
    random_state ^= random_state >> 7;
    random_state ^= random_state << 17;
    return random_state * 0x2545f4914f6cdd1dULL >> 11;
}

static size_t below(size_t n)
{
    return (size_t)(next() % n);
}

/* What a caller keeps, and the reply room that it lends. */
typedef struct terminal {
    uint16_t page[WY50_WIDE_CELLS], rows[MOST_ROWS];
    uint8_t store[WY50_STORE_BYTES], reply[MOST_ROOM];
    wy50_state state;
} terminal;

static terminal one, other, shadow;
static size_t cells, rows_len, store_len;
static uint16_t one_before[WY50_WIDE_CELLS], other_before[WY50_WIDE_CELLS], open_cell[WY50_WIDE_CELLS];

/* Host bytes: text, controls, whole sequences, and anything. */
static size_t host(uint8_t *to, size_t most)
{
    static const char *const whole[] = {"\033=5A", "\033-15A", "\033-0! ", "\033a12R34C", "\033a24R132C", "\033`;", "\033x1,", "\033x0", "\033]", "\033}", "\033G4", "\033Gt", "\033H5", "\033!s",
        "\033.x", "\033`0", "\033A1t", "\033z@key\177", "\033Fdesk open\r", "\033z0Send\r", "\033zPUpper\r", "\033z\177", "\033z1123456789\r", "\033&", "\033)", "\033(", "\0334", "\0335", "\033 ", "\033/",
        "\033?", "\033b", "\033M", "\033V", "\033q", "\033r", "\033E", "\033R", "\033Q", "\033W", "\033T", "\033Y", "\033:", "\033;", "\033i", "\033I", "\033j", "\0331", "\0332", "\033#", "\033\"",
        "\033z*'\177", "\033=''", "\033F'*\r", "\0336", "\0337", "\033'", "\033*", "\033+", "\033,"};
    size_t n = below(most + 1), i = 0;
    while (i < n) {
        switch (below(8)) {
        case 0:
        case 1:
        case 2:
            to[i++] = (uint8_t)(0x20 + below(95));
            break;
        case 3:
            to[i++] = (uint8_t)below(0x20);
            break;
        case 4:
            to[i++] = (uint8_t)next();
            break;
        default: {
            /* the six stand last, and come seldom */
            size_t all = sizeof whole / sizeof *whole;
            const char *s = whole[below(below(40) ? all - 6 : all)];
            while (*s && i < n)
                to[i++] = (uint8_t)*s++;
        }
        }
    }
    return n;
}

static int is_protected(uint16_t cell)
{
    return cell & 128;
}

/* ---- a start: two terminals alike */

static void draw(void)
{
    size_t i, kind = below(4), density = below(9);
    uint8_t bytes[MOST_INPUT];
    size_t n = host(bytes, MOST_INPUT);
    one.state = wy50_run(one.page, cells, one.state, bytes, n, one.reply, sizeof one.reply).state;
    if (kind == 0)
        return;
    for (i = 0; i < cells; i++) {
        if (kind == 1 && below(8))
            continue;
        one.page[i] = (uint16_t)(kind == 3 ? next() : (below(4) ? 32 + below(95) : below(2) * 256 + below(128)));
        one.page[i] = (uint16_t)((one.page[i] & ~128) | (below(8) < density ? 128 : 0));
    }
}

/* The state with protect mode on and no ESC 6 or ESC 7 send; by turns with a byte or many changed. */
static void choose_state(void)
{
    uint8_t raw[sizeof one.state];
    size_t i, k = below(12);
    memcpy(raw, &one.state, sizeof raw);
    for (i = 0; k < 2 && i <= (k == 0 ? 0 : below(40)); i++)
        raw[below(sizeof raw)] = (uint8_t)next();
    memcpy(&one.state, raw, sizeof raw);
    one.state.modes.protect = 1;
    if (one.state.sending.command == '6' || one.state.sending.command == '7')
        memset(&one.state.sending, 0, sizeof one.state.sending);
}

static void choose_rows(void)
{
    size_t i, k = below(12);
    rows_len = k == 0 ? below(MOST_ROWS + 1) : WY50_ROW_NUMBERS;
    for (i = 0; i < MOST_ROWS; i++)
        one.rows[i] = (uint16_t)below(133);
    if (k > 1)
        wy50_rebuild_rows(one.page, cells, one.rows, rows_len, one.state);
    if (k == 2)
        one.rows[below(WY50_ROW_NUMBERS)] ^= (uint16_t)(1 << below(16));
    wrong_lists += k <= 2;
}

static void choose_store(void)
{
    size_t i, k = below(16), saves = below(4) ? 0 : below(12);
    store_len = k == 0 ? below(WY50_STORE_BYTES) : WY50_STORE_BYTES;
    memset(one.store, 0, sizeof one.store);
    for (i = 0; i < saves; i++)
        wy50_save(one.state, one.store, sizeof one.store);
    if (k == 1)
        one.store[below(WY50_STORE_BYTES)] ^= (uint8_t)(1 << below(8));
    bad_stores += k <= 1;
}

static void start(void)
{
    size_t i, some = below(3);
    uint8_t personality = below(2) ? WY50_PERSONALITY_50 : WY50_PERSONALITY_60;
    cells = WY50_CELLS;
    one.state = wy50_power_on(one.page, cells, personality).state;
    if (below(3) == 0) {
        one.state = wy50_convert(one.page, cells, one.state, shadow.page, WY50_WIDE_CELLS).state;
        cells = WY50_WIDE_CELLS;
        memcpy(one.page, shadow.page, sizeof one.page);
    }
    wide += cells == WY50_WIDE_CELLS;
    sixties += personality == WY50_PERSONALITY_60;
    draw();
    choose_state();
    if (below(30) == 0)
        cells = below(2) ? below(WY50_WIDE_CELLS + 1) : WY50_CELLS + WY50_WIDE_CELLS - cells;
    choose_rows();
    choose_store();
    other = one;
    for (i = 0; i < cells; i++) {
        if (is_protected(one.page[i]) && (some || below(64) == 0))
            other.page[i] ^= (uint16_t)(next() & ~128);
        open_cell[i] = is_protected(one.page[i]) ? 0 : 0xffff;
    }
    memcpy(one_before, one.page, sizeof one_before);
    memcpy(other_before, other.page, sizeof other_before);
    sessions++;
}

/* ---- a call */

typedef struct act {
    int kind, with; /* `with`: next is lent the row list */
    uint8_t byte, key;
    uint8_t input[2 * MOST_INPUT];
    size_t n, room;
    uint16_t number;
} act;

/* The numbers that a call gives back. */
typedef struct given {
    uint8_t answer, command, taken_byte;
    uint16_t number;
    size_t taken, replied, refused;
} given;

/* One bit of the first protected cell. */
static int secret(const terminal *t)
{
    size_t i;
    for (i = 0; i < cells; i++)
        if (is_protected(t->page[i]))
            return t->page[i] & 1;
    return 0;
}

/* The fault that is planted: a bit of a protected cell in what a call gives back. */
static void let_out(terminal *t, const act *a, given *g)
{
    if (g->answer != WY50_DONE || !secret(t))
        return;
    switch (a->kind) {
    case STEP:
        t->state.bells ^= 1;
        break;
    case RUN:
        if (g->replied > 0)
            t->reply[g->replied - 1] ^= 1;
        break;
    case NEXT:
        g->command ^= g->replied > 0;
        break;
    case PRESS:
        t->reply[0] ^= 1;
        break;
    case STEP_ROWS:
        t->rows[0] ^= 1;
        break;
    case RUN_ROWS:
        g->taken ^= 1;
        break;
    case REBUILD:
        t->rows[WY50_ROW_NUMBERS - 1] ^= 1;
        break;
    case SAVE:
        t->store[store_len - 1] ^= 1;
        break;
    default:
        t->state.shifted ^= 1;
    }
}

static given of_step(terminal *t, wy50_step_result r)
{
    given g = {r.answer, 0, r.taken, 0, 0, r.replied, 0};
    t->state = r.state;
    return g;
}

static given of_run(terminal *t, wy50_run_result r)
{
    given g = {r.answer, 0, 0, 0, r.taken, r.replied, r.refused};
    t->state = r.state;
    return g;
}

static given of_next(terminal *t, wy50_next_result r)
{
    given g = {r.answer, r.command, 0, 0, r.taken, r.replied, r.refused};
    t->state = r.state;
    return g;
}

static given call(terminal *t, const act *a)
{
    given g = {0, 0, 0, 0, 0, 0, 0};
    memset(t->reply, 0x55, a->room);
    switch (a->kind) {
    case STEP:
        g = of_step(t, wy50_step(t->page, cells, t->state, a->byte, t->reply, a->room));
        break;
    case RUN:
        g = of_run(t, wy50_run(t->page, cells, t->state, a->input, a->n, t->reply, a->room));
        break;
    case NEXT:
        g = of_next(t, wy50_next(t->page, cells, a->with ? t->rows : NULL, a->with ? rows_len : 0, t->state, a->input, a->n, t->reply, a->room));
        break;
    case PRESS: {
        wy50_press_result r = wy50_press(t->page, cells, t->state, a->key, t->reply, a->room);
        g.answer = r.answer;
        g.replied = r.replied;
        break;
    }
    case STEP_ROWS:
        g = of_step(t, wy50_step_rows(t->page, cells, t->rows, rows_len, t->state, a->byte, t->reply, a->room));
        break;
    case RUN_ROWS:
        g = of_run(t, wy50_run_rows(t->page, cells, t->rows, rows_len, t->state, a->input, a->n, t->reply, a->room));
        break;
    case REBUILD:
        g.answer = wy50_rebuild_rows(t->page, cells, t->rows, rows_len, t->state);
        break;
    case SAVE: {
        wy50_save_result r = wy50_save(t->state, t->store, store_len);
        g.answer = r.answer;
        g.number = r.number;
        break;
    }
    default: {
        wy50_restore_result r = wy50_restore(t->state, t->store, store_len, a->number);
        g.answer = r.answer;
        t->state = r.state;
    }
    }
    if (leak == a->kind)
        let_out(t, a, &g);
    return g;
}

/* ---- one of the six, in the first terminal */

static int is_six(uint8_t b)
{
    return b != 0 && strchr("'*+,67", b) != NULL;
}

/* Whether some byte of these comes after a bare ESC and is the last of one of the six; 80h and above leave the ESC. */
static int may_complete(const wy50_state *s, const uint8_t *bytes, size_t n)
{
    size_t i;
    int escape = s->sequence.kind == WY50_ESCAPE;
    for (i = 0; i < n; i++) {
        if (bytes[i] >= 0x80)
            continue;
        if (escape && is_six(bytes[i]))
            return 1;
        escape = bytes[i] == 0x1b;
    }
    return 0;
}

/* Whether one of them then answers 0: byte by byte, in a copy of the first terminal. */
static int completes(const uint8_t *bytes, size_t n, size_t room)
{
    size_t i, replied = 0;
    if (!may_complete(&one.state, bytes, n))
        return 0;
    shadow = one;
    for (i = 0; i < n; i++) {
        int six = shadow.state.sequence.kind == WY50_ESCAPE && is_six(bytes[i]);
        wy50_run_result r = wy50_run(shadow.page, cells, shadow.state, bytes + i, 1, shadow.reply, room - replied);
        if (r.answer != WY50_DONE || r.taken == 0)
            return 0;
        if (six && r.refused == 0)
            return 1;
        replied += r.replied;
        shadow.state = r.state;
    }
    return 0;
}

/* ---- a session */

static void differ(const char *what, const act *a, uint64_t calls)
{
    printf("sessions: %s differs after a %s, call %llu\n", what, kind_names[a->kind], (unsigned long long)calls);
    exit(1);
}

static void compare(const act *a, const given *g, const given *h, uint64_t calls)
{
    size_t i;
    uint16_t off = 0;
    if (g->answer != h->answer)
        differ("the answer", a, calls);
    if (g->command != h->command || g->taken_byte != h->taken_byte || g->number != h->number || g->taken != h->taken || g->replied != h->replied || g->refused != h->refused)
        differ("a count", a, calls);
    if (memcmp(one.reply, other.reply, a->room) != 0)
        differ("the reply", a, calls);
    if (memcmp(&one.state, &other.state, sizeof one.state) != 0)
        differ("the state", a, calls);
    if (memcmp(one.rows, other.rows, sizeof one.rows) != 0)
        differ("the row list", a, calls);
    if ((a->kind == SAVE || a->kind == RESTORE) && memcmp(one.store, other.store, sizeof one.store) != 0)
        differ("the store", a, calls);
    for (i = 0; i < cells; i++) {
        off |= (uint16_t)((one.page[i] ^ other.page[i]) & open_cell[i]);
        off |= (uint16_t)(((one.page[i] ^ one_before[i]) | (other.page[i] ^ other_before[i])) & ~open_cell[i]);
    }
    if (off != 0)
        differ("the page", a, calls);
}

static int choose_kind(void)
{
    static const int often[] = {STEP, STEP, RUN, RUN, RUN, NEXT, NEXT, PRESS, STEP_ROWS, RUN_ROWS, RUN_ROWS};
    size_t k = below(50);
    return k == 0 ? SAVE : k == 1 ? RESTORE : k < 4 ? REBUILD : often[below(sizeof often / sizeof *often)];
}

static uint64_t session(uint64_t calls, uint64_t most)
{
    static act a;
    static uint8_t left[MOST_INPUT];
    size_t length = 1 + below(400), left_len = 0, taken;
    int is_stream = (int)below(2), is_bad = 0;
    given g, h;
    start();
    streams += is_stream;
    for (; length > 0 && calls < most; length--) {
        int steps, runs;
        a.kind = choose_kind();
        a.with = (int)below(2);
        a.key = (uint8_t)(below(8) ? 0x40 + below(48) : next());
        a.number = (uint16_t)(below(4) ? below(14) : next());
        a.room = below(3) ? below(4) ? below(40) : 0 : below(MOST_ROOM + 1);
        steps = a.kind == STEP || a.kind == STEP_ROWS;
        runs = a.kind == RUN || a.kind == RUN_ROWS || a.kind == NEXT;
        if (!is_stream || left_len == 0)
            left_len = host(left, is_bad ? 8 : MOST_INPUT);
        a.n = steps ? left_len > 0 : runs ? below(left_len + 1) : 0;
        a.byte = left_len > 0 ? left[0] : 0;
        memcpy(a.input, left, a.n);
        if (steps ? completes(&a.byte, 1, a.room) : completes(a.input, a.n, a.room)) {
            completing++;
            left_len = 0;
            continue;
        }
        in_sends += one.state.sending.command != 0;
        g = call(&one, &a);
        h = call(&other, &a);
        compare(&a, &g, &h, ++calls);
        made[a.kind]++;
        answered[g.answer]++;
        /* what was not taken comes first in the next */
        taken = steps ? (size_t)(g.taken_byte && left_len > 0) : g.taken;
        memmove(left, left + taken, left_len - taken);
        left_len -= taken;
        if (g.answer == WY50_BAD_CALL && a.kind != STEP_ROWS && a.kind != RUN_ROWS && !is_bad) {
            /* an impossible state answers 7 for good */
            is_bad = a.kind == STEP || a.kind == RUN || a.kind == PRESS;
            bad += (uint64_t)is_bad;
            length = is_bad && length > 30 ? 30 : length;
        }
    }
    return calls;
}

int main(int argc, char **argv)
{
    uint64_t calls = 0, most = argc > 1 ? strtoull(argv[1], NULL, 10) : 1000000;
    int i;
    random_state = (argc > 2 ? strtoull(argv[2], NULL, 10) : 1) * 2 + 1;
    for (i = 0; argc > 3 && i < KINDS; i++)
        if (strcmp(argv[3], kind_names[i]) == 0)
            leak = i;
    if (argc > 3 && leak == KINDS) {
        printf("sessions: no such kind of call: %s\n", argv[3]);
        return 2;
    }
    while (calls < most)
        calls = session(calls, most);
    printf("sessions: no difference in %llu calls\nsessions: %llu (%llu over one stream, %llu wide, %llu of a WY-60, %llu of an impossible state or page, %llu with a wrong row list, %llu with a bad store)\ncalls:",
        (unsigned long long)calls, (unsigned long long)sessions, (unsigned long long)streams, (unsigned long long)wide, (unsigned long long)sixties, (unsigned long long)bad, (unsigned long long)wrong_lists,
        (unsigned long long)bad_stores);
    for (i = 0; i < KINDS; i++)
        printf(" %s %llu", kind_names[i], (unsigned long long)made[i]);
    printf("\nanswers:");
    for (i = 0; i < 12; i++)
        if (answered[i] > 0)
            printf(" %d: %llu", i, (unsigned long long)answered[i]);
    printf("\n%llu calls inside a send; %llu not made, since one of the six would be completed\n", (unsigned long long)in_sends, (unsigned long long)completing);
    return 0;
}
