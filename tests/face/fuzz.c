/* Calls the library with random pages of either width, states, bytes, rooms, row lists, stores, conversions, mendings and repaintings, and checks what holds of every call.
 * Compiled with the address and undefined behaviour sanitizers. Each buffer lies against a page of memory that may not be touched, before it or behind it by turns, and has guard
 * bytes on its other side. One of no bytes is often NULL.
 *
 *     fuzz SECONDS [SEED]
 */
#define _GNU_SOURCE
#include "wy50.h"

#include <stdio.h>
#include <stdlib.h>
#include <string.h>
#include <sys/mman.h>
#include <time.h>
#include <unistd.h>

enum { MOST_ROOM = 3300, MOST_INPUT = 600, MOST_PAGE = 3300, MOST_ROWS = 60, MOST_STORE = 9000, MOST_LIST = 4 * MOST_PAGE, MOST_PAINT = 9000, GUARD = 64 };

static uint64_t seed, calls, bytes, turns, answered_7, replies, lists, wrong_lists, nulls, saves, widened, narrowed_pages, mended_cells, unmended, proposals, unproposed, spans_judged[2], paints_judged[2];

static uint64_t next(void)
{
    static uint64_t s;
    if (s == 0)
        s = seed | 1;
    s ^= s << 13;
    s ^= s >> 7;
    s ^= s << 17;
    return s * 0x2545f4914f6cdd1dULL >> 11;
}

static size_t below(size_t n)
{
    return (size_t)(next() % n);
}

static void expect(int ok, const char *what)
{
    if (!ok) {
        printf("fuzz: not so: %s (seed %llu, turn %llu)\n", what, (unsigned long long)seed, (unsigned long long)turns);
        exit(1);
    }
}

/* A buffer between two pages of memory that may not be touched. */
typedef struct buffer {
    uint8_t *memory, *start;
    size_t space, size;
    int at_end;
} buffer;

static size_t step_of_memory;

static buffer make(size_t most)
{
    buffer b;
    memset(&b, 0, sizeof b);
    b.space = (most + GUARD + step_of_memory - 1) / step_of_memory * step_of_memory;
    b.memory = (uint8_t *)mmap(NULL, b.space + 2 * step_of_memory, PROT_READ | PROT_WRITE, MAP_PRIVATE | MAP_ANONYMOUS, -1, 0);
    expect(b.memory != (uint8_t *)MAP_FAILED, "memory is there");
    expect(mprotect(b.memory, step_of_memory, PROT_NONE) == 0, "the page before is barred");
    expect(mprotect(b.memory + step_of_memory + b.space, step_of_memory, PROT_NONE) == 0, "the page behind is barred");
    return b;
}

static void *place(buffer *b, size_t size)
{
    uint8_t *first = b->memory + step_of_memory;
    b->at_end = (int)below(2);
    b->size = size;
    b->start = b->at_end ? first + b->space - size : first;
    memset(b->at_end ? b->start - GUARD : b->start + size, 0xa5, GUARD);
    if (size == 0 && below(4)) {
        nulls++;
        return NULL;
    }
    return b->start;
}

/* memcpy and memcmp want no NULL, not even with 0 */
static void copy(void *to, const void *from, size_t n)
{
    if (n > 0)
        memcpy(to, from, n);
}

static int equal(const void *a, const void *b, size_t n)
{
    return n == 0 || memcmp(a, b, n) == 0;
}

static void untouched(const buffer *b)
{
    const uint8_t *guard = b->at_end ? b->start - GUARD : b->start + b->size;
    size_t i;
    for (i = 0; i < GUARD; i++)
        expect(guard[i] == 0xa5, "the guard bytes are untouched");
}

/* Bytes of a host: text, controls, whole sequences, and anything. */
static size_t host(uint8_t *to, size_t most)
{
    static const char after[] = " !\"#&'()*+,-./01245674:;=?AEFGHIJKMNOQRTVWY]`abijklqrtxyz{}";
    static const char *const whole[] = {"\033=5A", "\033-15A", "\033-0! ", "\033a12R34C", "\033a24R80C", "\033a24R132C", "\033a1R99C\0331", "\033`;", "\033`:", "\033*", "\033x1,", "\033x0", "\033G4", "\033H5", "\033!s",
        "\033.x", "\033`0", "\033A1t", "\033z@key\177", "\033Fdesk open\r", "\033F\r", "\033z0Send\r", "\033zPUpper\r", "\033zP\r", "\033z\177", "\033z1123456789\r", "\033zoeightlng\177", "\033zA123456789\177", "\033&", "\033)", "\033(", "\033'", "\0335", "\0337", "\033,", "\033V"};
    size_t n = below(most + 1), i = 0;
    while (i < n) {
        size_t k = below(8);
        if (k < 3) {
            to[i++] = (uint8_t)(0x20 + below(95));
        } else if (k < 4) {
            to[i++] = (uint8_t)below(0x20);
        } else if (k < 5) {
            to[i++] = (uint8_t)next();
        } else if (k < 6) {
            to[i++] = 27;
            if (i < n)
                to[i++] = (uint8_t)after[below(sizeof after - 1)];
        } else {
            const char *s = whole[below(sizeof whole / sizeof *whole)];
            while (*s && i < n)
                to[i++] = (uint8_t)*s++;
        }
    }
    return n;
}

/* How wide the page of a state is, and how many cells it has. */
static size_t columns(const wy50_state *x)
{
    return x->screen.wide == 1 ? WY50_WIDE_COLUMNS : WY50_COLUMNS;
}

static size_t cells_of(const wy50_state *x)
{
    return WY50_ROWS * columns(x);
}

/* A send by its numbers, mostly with no sequence. */
static void set_send(wy50_state *x)
{
    static const uint8_t commands[] = {0, 5, ' ', '/', '4', '5', '6', '7', '8', '?', 'M', 'b'};
    x->sending.command = commands[below(sizeof commands)];
    x->sending.kind = (uint8_t)below(5);
    x->sending.place = (uint16_t)(below(2) ? below(9) : below(4) ? below(24) * columns(x) : below(cells_of(x)));
    if (below(4))
        memset(&x->sequence, 0, sizeof x->sequence);
}

/* The state that the last calls left, one with a member or a byte changed, or any bytes. */
static wy50_state any_state(wy50_state last)
{
    uint8_t raw[sizeof(wy50_state)];
    size_t i, k = below(16);
    if (k < 9)
        return last;
    memcpy(raw, &last, sizeof raw);
    if (k < 11) {
        raw[below(sizeof raw)] = (uint8_t)next();
    } else if (k < 12) {
        set_send(&last);
        return last;
    } else if (k < 13) {
        /* the other width, often with its number of stops */
        last.screen.wide ^= 1;
        if (below(2))
            memset(last.tabs + WY50_COLUMNS, 0, sizeof last.tabs - WY50_COLUMNS);
        return last;
    } else if (k < 14) {
        for (i = 0; i <= below(4); i++)
            raw[below(35)] = (uint8_t)below(32);
    } else {
        for (i = 0; i < sizeof raw; i++)
            raw[i] = (uint8_t)next();
    }
    memcpy(&last, raw, sizeof raw);
    return last;
}

static wy50_state powered_on(uint16_t *page)
{
    return wy50_power_on(page, WY50_CELLS, below(2) ? WY50_PERSONALITY_50 : WY50_PERSONALITY_60).state;
}

static buffer page_buffer, reply_buffer, input_buffer;
static uint16_t page_before[MOST_PAGE], page_stepped[MOST_PAGE];
static uint8_t room_before[MOST_ROOM], joined[MOST_ROOM];

/* Nothing but the first `replied` bytes of the room is new. */
static void beyond(const uint8_t *reply, size_t room, size_t replied)
{
    replies += replied;
    expect(replied <= room, "the reply fits");
    expect(replied == room || memcmp(reply + replied, room_before + replied, room - replied) == 0, "the room beyond the reply is untouched");
}

/* zeros where nothing is gathered */
static wy50_state tidied(wy50_state x)
{
    int kind = x.sequence.kind;
    size_t n = kind == WY50_KEY_TEXT || kind == WY50_LABEL_TEXT || kind == WY50_MESSAGE_TEXT ? x.sequence.second : 0;
    if (n < sizeof x.gathered)
        memset(x.gathered + n, 0, sizeof x.gathered - n);
    return x;
}

static int same(const wy50_state *a, const wy50_state *b)
{
    return memcmp(a, b, sizeof *a) == 0;
}

/* the same, but for what means nothing: a run gives back what it was handed there, where a step puts zeros for bytes that it counts no longer */
static int alike(const wy50_state *a, const wy50_state *b)
{
    wy50_state x = tidied(*a), y = tidied(*b);
    return same(&x, &y);
}

/* The run against the single step repeated, on a page and a room of their own. */
static void repeated(size_t cells, wy50_state x, const uint8_t *input, size_t n, size_t room, const wy50_run_result *r, const uint16_t *page, const uint8_t *reply)
{
    size_t taken = 0, replied = 0, refused = 0;
    int answer = 0;
    copy(page_stepped, page_before, cells * sizeof *page);
    /* a send goes on by a step, whose own byte waits */
    if (x.sending.command != 0 && room > 0) {
        wy50_step_result s = wy50_step(page_stepped, cells, x, 0xe9, joined, room);
        answer = s.answer;
        replied = s.replied;
        x = s.state;
    }
    while (answer == 0 && taken < n && (x.sending.command == 0 || replied == 0)) {
        wy50_step_result s = wy50_step(page_stepped, cells, x, input[taken], joined + replied, room - replied);
        answer = s.answer;
        if (answer == WY50_NO_ROOM || answer == WY50_BAD_CALL)
            break;
        answer = 0;
        refused += s.answer >= 1 && s.answer <= 4;
        replied += s.replied;
        x = s.state;
        taken++;
    }
    expect(r->answer == answer || (n == 0 && r->answer == WY50_BAD_CALL), "a run answers as the steps do");
    expect(r->taken == taken && r->replied == replied && r->refused == refused, "a run counts as the steps do");
    expect(equal(reply, joined, replied), "a run replies as the steps do");
    expect(alike(&r->state, &x), "a run leaves the state of the steps");
    expect(equal(page, page_stepped, cells * sizeof *page), "a run leaves the page of the steps");
    calls += taken;
}

/* A run through small rooms against one through a large room: joined replies, counts, state and page. */
static uint8_t whole[(MOST_INPUT / 2 + 2) * WY50_LONGEST_REPLY], parts[sizeof whole];
static uint16_t page_parts[MOST_PAGE];

/* A loop of next through any rooms against that one run, whose replies and page are still there. */
static void heard(size_t cells, wy50_state x, const uint8_t *input, size_t n, const wy50_run_result *r)
{
    size_t taken = 0, all = 0, refused = 0;
    memcpy(page_parts, page_before, cells * sizeof *page_parts);
    while (taken < n || x.sending.command != 0) {
        size_t room = below(below(3) ? 70 : WY50_LONGEST_REPLY + 1);
        wy50_next_result s = wy50_next(page_parts, cells, NULL, 0, x, n ? input + taken : NULL, n - taken, parts + all, room < sizeof parts - all ? room : sizeof parts - all);
        expect(s.answer != WY50_BAD_CALL, "a good state stays good");
        expect(s.answer == 0 || s.replied == 0, "a refusal replies nothing");
        expect(s.taken == n - taken || s.answer != 0 || s.replied > 0, "a next stops at an event alone");
        taken += s.taken;
        all += s.replied;
        refused += s.refused;
        x = s.state;
        calls++;
    }
    expect(all == r->replied && memcmp(parts, whole, all) == 0, "a loop of next gives the replies of one run");
    expect(refused == r->refused && alike(&x, &r->state), "a loop of next gives the refusals and the state of one run");
    expect(memcmp(page_parts, page_stepped, cells * sizeof *page_parts) == 0, "a loop of next gives the page of one run");
}

static void narrowed(size_t cells, wy50_state x, const uint8_t *input, size_t n)
{
    size_t taken = 0, all = 0, refused = 0;
    wy50_state from;
    wy50_run_result r, s;
    memcpy(page_stepped, page_before, cells * sizeof *page_stepped);
    memcpy(page_parts, page_before, cells * sizeof *page_parts);
    r = wy50_run(page_stepped, cells, x, input, n, whole, sizeof whole);
    if (r.answer == WY50_BAD_CALL)
        return;
    expect(r.answer == 0 && r.taken == n && r.state.sending.command == 0, "a roomy run leaves nothing");
    from = x;
    do {
        size_t room = 1 + below(below(3) ? 70 : WY50_LONGEST_REPLY);
        s = wy50_run(page_parts, cells, x, n ? input + taken : NULL, n - taken, parts + all, room < sizeof parts - all ? room : sizeof parts - all);
        expect(s.answer != WY50_BAD_CALL, "a good state stays good");
        expect(s.taken + s.replied > 0 || n == 0, "each call takes a byte or sends one");
        expect(s.taken == n - taken || s.replied == room, "a run stops only where the room is used up");
        taken += s.taken;
        all += s.replied;
        refused += s.refused;
        x = s.state;
        calls++;
    } while (taken < n || x.sending.command != 0);
    expect(all == r.replied && memcmp(parts, whole, all) == 0, "through small rooms the joined replies are the same");
    expect(refused == r.refused && alike(&x, &r.state), "through small rooms the counts and the state are the same");
    expect(memcmp(page_parts, page_stepped, cells * sizeof *page_parts) == 0, "through small rooms the page is the same");
    heard(cells, from, input, n, &r);
}

/* What a call with a row list is lent: the page and the room as the call without it found them, and a list. */
static buffer lent_page_buffer, lent_reply_buffer, rows_buffer;
static uint16_t *lent_page, *rows, rows_before[MOST_ROWS];
static uint8_t *lent_reply;
static size_t rows_len;

/* The row list of a page, counted here. */
static void count_rows(uint16_t *list, const uint16_t *page, const wy50_state *x)
{
    size_t row, column;
    for (row = 0; row < WY50_ROWS; row++) {
        list[2 * row] = list[2 * row + 1] = 0;
        for (column = columns(x); column > 0; column--) {
            if (!x->modes.protect || page[row * columns(x) + column - 1] / 128 % 2 == 0) {
                list[2 * row]++;
                list[2 * row + 1] = (uint16_t)column;
            }
        }
    }
}

/* Lends them, with the right list or, by turns, one with a number off, of another length, or of any numbers. Whether it is right. */
static int lend(size_t cells, size_t room, const wy50_state *x)
{
    uint16_t right[WY50_ROW_NUMBERS];
    size_t i, k = below(12);
    int is_right;
    lent_page = (uint16_t *)place(&lent_page_buffer, cells * sizeof *lent_page);
    lent_reply = (uint8_t *)place(&lent_reply_buffer, room);
    copy(lent_page, page_before, cells * sizeof *lent_page);
    copy(lent_reply, room_before, room);
    count_rows(right, page_before, x);
    rows_len = k == 0 ? below(2) * below(MOST_ROWS + 1) : WY50_ROW_NUMBERS;
    rows = (uint16_t *)place(&rows_buffer, rows_len * sizeof *rows);
    for (i = 0; i < rows_len; i++)
        rows[i] = k == 1 || i >= WY50_ROW_NUMBERS ? (uint16_t)next() : right[i];
    if (k == 2)
        rows[below(WY50_ROW_NUMBERS)] ^= (uint16_t)(1 << below(16));
    copy(rows_before, rows, rows_len * sizeof *rows);
    is_right = rows_len == WY50_ROW_NUMBERS && memcmp(rows, right, sizeof right) == 0;
    lists++;
    wrong_lists += !is_right;
    calls++;
    return is_right;
}

/* The call gave this page and this room. The list is right after every answer but 7, which left it. */
static void lent(size_t cells, const uint16_t *page, size_t room, const uint8_t *reply, int answer, const wy50_state *x)
{
    expect(equal(lent_page, page, cells * sizeof *page), "a row list does not change the page");
    expect(equal(lent_reply, reply, room), "a row list does not change the reply");
    if (answer != WY50_BAD_CALL)
        count_rows(rows_before, lent_page, x);
    expect(equal(rows, rows_before, rows_len * sizeof *rows), "the row list is right, and 7 leaves it");
    untouched(&lent_page_buffer);
    untouched(&lent_reply_buffer);
    untouched(&rows_buffer);
}

/* The step and the run again, with a row list: what they gave without it, but 7 and nothing if the list is wrong. */
static void listed_step(size_t cells, wy50_state x, uint8_t byte, size_t room, wy50_step_result r, const uint16_t *page, const uint8_t *reply)
{
    int right = lend(cells, room, &x);
    wy50_step_result s = wy50_step_rows(lent_page, cells, rows, rows_len, x, byte, lent_reply, room);
    if (!right) {
        r.answer = WY50_BAD_CALL;
        r.taken = 0;
        r.replied = 0;
        r.state = x;
    }
    expect(s.answer == r.answer && s.taken == r.taken && s.replied == r.replied && same(&s.state, &r.state), "a step with a row list gives what it gives without");
    lent(cells, right ? page : page_before, room, right ? reply : room_before, s.answer, &s.state);
}

static void listed_run(size_t cells, wy50_state x, const uint8_t *input, size_t n, size_t room, wy50_run_result r, const uint16_t *page, const uint8_t *reply)
{
    int right = lend(cells, room, &x);
    wy50_run_result s = wy50_run_rows(lent_page, cells, rows, rows_len, x, input, n, lent_reply, room);
    if (!right) {
        r.answer = WY50_BAD_CALL;
        r.taken = r.replied = r.refused = 0;
        r.state = x;
    }
    expect(s.answer == r.answer && same(&s.state, &r.state), "a run with a row list gives what it gives without");
    expect(s.taken == r.taken && s.replied == r.replied && s.refused == r.refused, "a run with a row list counts as it does without");
    lent(cells, right ? page : page_before, room, right ? reply : room_before, s.answer, &s.state);
}

/* A next, with a row list or none: single steps up to the first event. With a wrong list 7 and nothing. */
static void listed_next(size_t cells, wy50_state x, const uint8_t *input, size_t n, size_t room)
{
    int right = lend(cells, room, &x) || rows_len == 0;
    wy50_next_result r = wy50_next(lent_page, cells, rows, rows_len, x, input, n, lent_reply, room);
    wy50_step_result s;
    size_t taken = 0;
    s = wy50_step(lent_page, cells, x, 0xe9, NULL, 0);
    if (!right || s.answer == WY50_BAD_CALL) {
        expect(r.answer == WY50_BAD_CALL && r.command == 0 && r.taken == 0 && r.replied == 0 && r.refused == 0 && same(&r.state, &x), "a next of a bad call changes nothing");
        lent(cells, page_before, room, room_before, WY50_BAD_CALL, &x);
        return;
    }
    copy(page_stepped, page_before, cells * sizeof *page_stepped);
    copy(joined, room_before, room);
    s.answer = 0;
    s.taken = 1;
    s.replied = 0;
    s.state = x;
    while (taken < n && s.taken && s.answer == 0 && s.replied == 0) {
        s = wy50_step(page_stepped, cells, s.state, input[taken], joined, room);
        taken += s.taken;
        calls++;
    }
    if (n == 0 && x.sending.command != 0 && room > 0)
        s = wy50_step(page_stepped, cells, x, 0xe9, joined, room);
    expect(r.answer == s.answer && r.taken == taken && r.replied == s.replied, "a next ends as the steps do at the first event");
    expect(r.refused == (s.answer >= 1 && s.answer <= 4), "a next counts its refusal");
    expect(r.command == (r.replied == 0 ? 0 : x.sending.command ? x.sending.command : input[taken - 1]), "a next names the command of its reply");
    expect(alike(&r.state, &s.state), "a next leaves the state of the steps");
    lent(cells, page_stepped, room, joined, r.answer, &r.state);
}

static void rebuilt(size_t cells, wy50_state x)
{
    int answer;
    lend(cells, 0, &x);
    answer = wy50_step(lent_page, cells, x, 0xe9, lent_reply, 0).answer == WY50_BAD_CALL || rows_len != WY50_ROW_NUMBERS ? WY50_BAD_CALL : WY50_DONE;
    expect(wy50_rebuild_rows(lent_page, cells, rows, rows_len, x) == answer, "the rebuild answers 7 exactly for a bad length or state");
    lent(cells, page_before, 0, room_before, answer, &x);
}

/* The store that the saves so far left. */
static buffer store_buffer;
static uint8_t kept_store[WY50_STORE_BYTES];

static int same_texts(const wy50_key *a, const wy50_key *b, size_t n)
{
    size_t i;
    for (i = 0; i < n; i++) {
        if (a[i].len != b[i].len || memcmp(a[i].bytes, b[i].bytes, a[i].len) != 0)
            return 0;
    }
    return 1;
}

static int same_settings(const wy50_state *a, const wy50_state *b)
{
    return memcmp(a->tabs, b->tabs, WY50_COLUMNS) == 0 && memcmp(a->features, b->features, sizeof a->features) == 0
        && memcmp(a->attributes, b->attributes, sizeof a->attributes) == 0 && same_texts(a->keys, b->keys, WY50_KEYS) && same_texts(a->labels, b->labels, WY50_LABELS);
}

/* A save of x and a restore of its number into the state that the last calls left; or both refused, in a store that is off or of another length. */
static wy50_state kept_setups(wy50_state last, wy50_state x)
{
    static uint16_t any_page[WY50_WIDE_CELLS];
    static uint8_t store_before[MOST_STORE];
    uint8_t none = 0;
    size_t i, k = below(12), len = k ? WY50_STORE_BYTES : below(MOST_STORE + 1), place_at;
    uint8_t *store = (uint8_t *)place(&store_buffer, len);
    int possible = wy50_step(any_page, cells_of(&x), x, 0xe9, &none, 0).answer != WY50_BAD_CALL;
    uint16_t number;
    wy50_state other;
    wy50_save_result s;
    wy50_restore_result r;
    for (i = 0; i < len; i++)
        store[i] = i < WY50_STORE_BYTES ? kept_store[i] : 0;
    if (k == 1)
        store[below(3) ? below(300) : below(len)] ^= (uint8_t)(1 << below(8));
    copy(store_before, store, len);
    s = wy50_save(x, store, len);
    untouched(&store_buffer);
    calls++;
    if (s.answer != WY50_DONE) {
        expect(s.number == 0 && equal(store, store_before, len), "a refused save gives no number and writes nothing");
        expect(possible ? s.answer == WY50_BAD_STORE || s.answer == WY50_FULL : s.answer == WY50_BAD_CALL, "a save judges the state first");
        expect(!possible || len != WY50_STORE_BYTES || memcmp(store, kept_store, len) != 0 || (store[0] == 255 && store[1] == 255), "a store that saves left is taken");
        r = wy50_restore(last, store, len, 0);
        expect(same(&r.state, &last) && (!possible || r.answer == (s.answer == WY50_FULL ? WY50_BAD_NUMBER : WY50_BAD_STORE)), "a restore judges the store before the number, and leaves the state");
        if (s.answer == WY50_FULL)
            memset(kept_store, 0, sizeof kept_store);
        return last;
    }
    saves++;
    number = (uint16_t)(store_before[0] + 256 * store_before[1] + 1);
    place_at = 2 + (size_t)(number - 1) % 8 * 1089;
    expect(possible && len == WY50_STORE_BYTES && s.number == number && store[0] + 256 * store[1] == number, "a save gives the next number");
    expect(memcmp(store + 2, store_before + 2, place_at - 2) == 0 && memcmp(store + place_at + 1089, store_before + place_at + 1089, len - place_at - 1089) == 0, "a save writes its own place");
    memcpy(kept_store, store, len);
    /* the end of the numbers comes near at times */
    if (number >= 8 && below(100) == 0) {
        kept_store[0] = (uint8_t)(250 + below(6));
        kept_store[1] = 255;
    }
    r = wy50_restore(last, store, len, number);
    expect(r.answer == WY50_DONE && same_settings(&r.state, &x), "a restore gives the settings that were saved");
    other = r.state;
    memcpy(other.tabs, last.tabs, WY50_COLUMNS);
    memcpy(other.features, last.features, sizeof other.features);
    memcpy(other.attributes, last.attributes, sizeof other.attributes);
    memcpy(other.keys, last.keys, sizeof other.keys);
    memcpy(other.labels, last.labels, sizeof other.labels);
    expect(same(&other, &last), "a restore leaves all else, bytes that mean nothing too");
    expect(wy50_restore(last, store, len, 0).answer == WY50_BAD_NUMBER && wy50_restore(last, store, len, (uint16_t)(number + 1)).answer == WY50_BAD_NUMBER, "only numbers that were saved");
    untouched(&store_buffer);
    return below(2) ? r.state : last;
}

static buffer target_buffer;
static uint16_t target_before[MOST_PAGE];

/* The page and the state that a conversion should give, reckoned here: the answer, 7 judged by a step. */
static int reckoned(const uint16_t *page, size_t cells, wy50_state *x, uint16_t *target, size_t target_len)
{
    size_t i, from = columns(x), to = from == WY50_COLUMNS ? WY50_WIDE_COLUMNS : WY50_COLUMNS;
    copy(page_stepped, page, cells * sizeof *page);
    if (wy50_step(page_stepped, cells, *x, 0xe9, NULL, 0).answer == WY50_BAD_CALL || target_len != WY50_ROWS * to)
        return WY50_BAD_CALL;
    if (x->sending.command != 0)
        return WY50_NO_ROOM;
    for (i = 0; i < cells; i++)
        if (i % from >= to && page[i] != 0)
            return WY50_BARRED;
    for (i = 0; i < target_len; i++)
        target[i] = i % to < from ? page[i / to * from + i % to] : 0;
    x->screen.wide ^= 1;
    x->screen.active = x->screen.split = 0;
    x->screen.cursor0 = x->screen.cursor1 = 0;
    for (i = 0; x->modes.protect && i < target_len; i++) {
        if (target[i] / 128 % 2 == 0) {
            x->screen.cursor0 = (uint16_t)i;
            break;
        }
    }
    memset(x->tabs + to, 0, sizeof x->tabs - to);
    return WY50_DONE;
}

/* A conversion of the page lent; the state and, in `kept`, the page that go on. */
static wy50_state converts(wy50_state last, wy50_state x, const uint16_t *page, size_t cells, uint16_t *kept)
{
    wy50_state expected = x;
    size_t i, k = below(16), len = k == 0 ? below(MOST_PAGE + 1) : k == 1 ? cells_of(&x) : WY50_CELLS + WY50_WIDE_CELLS - cells_of(&x);
    uint16_t *target = (uint16_t *)place(&target_buffer, len * sizeof *target);
    wy50_convert_result r;
    int answer;
    for (i = 0; i < len; i++)
        target[i] = target_before[i] = (uint16_t)next();
    answer = reckoned(page, cells, &expected, target_before, len);
    r = wy50_convert(page, cells, x, target, len);
    calls++;
    expect(r.answer == answer, "a conversion answers 7, 6, 4 or 0 as it should");
    expect(same(&r.state, &expected), "a conversion gives the state that it should, and a refused one that which came");
    expect(equal(target, target_before, len * sizeof *target), "a conversion gives the page that it should, and a refused one writes nothing");
    expect(equal(page, page_before, cells * sizeof *page), "a conversion leaves the old page");
    untouched(&target_buffer);
    answered_7 += answer == WY50_BAD_CALL;
    if (answer != WY50_DONE)
        return last;
    *(r.state.screen.wide ? &widened : &narrowed_pages) += 1;
    memcpy(kept, target, len * sizeof *kept);
    return r.state;
}

static buffer mend_buffer, list_buffer;

/* Whether a terminal of this personality writes the number, by its parts. */
static int writable(uint8_t personality, uint16_t cell)
{
    unsigned code = cell % 128, guarded = cell / 128 % 2, kind = cell / 256 % 4, flags = cell / 1024 % 32, top = cell / 32768;
    int wy60 = personality == WY50_PERSONALITY_60;
    if (top || flags == 31 || (flags && !wy60))
        return 0;
    if (kind == WY50_TEXT)
        return (code == 0 && !guarded && !flags) || (code >= 0x20 && code < 0x7f);
    if (kind == WY50_GRAPHIC)
        return code / 16 == 3;
    return kind == WY50_ATTRIBUTE && (code / 16 == 3 || (code / 16 == 7 && code != 0x7f)) && !(wy60 && (guarded || flags));
}

/* A mending of the page as it came, with some cells of other numbers, and a list that is often as long as it need be or just too short. */
static void mends(const uint16_t *came, size_t cells)
{
    static uint16_t list_before[MOST_LIST];
    size_t i, needed = 0, len, columns_of = cells / WY50_ROWS, spoilt = below(3) ? below(8) : below(cells + 1), kinds = below(3);
    uint8_t personality = (uint8_t)(below(16) ? below(2) ? WY50_PERSONALITY_50 : WY50_PERSONALITY_60 : next());
    int bad = (cells != WY50_CELLS && cells != WY50_WIDE_CELLS) || (personality != WY50_PERSONALITY_50 && personality != WY50_PERSONALITY_60);
    uint16_t *page = (uint16_t *)place(&mend_buffer, cells * sizeof *page), *list;
    wy50_mend_result r, again;
    int answer;
    for (i = 0; i < cells; i++)
        page[i] = kinds == 0 ? came[i] : kinds == 1 ? (uint16_t)next() : (uint16_t)(below(4) ? 32 + below(95) : below(4) * 1024 + below(1024));
    for (i = 0; i < spoilt && cells > 0; i++)
        page[below(cells)] ^= (uint16_t)(1 << below(16));
    copy(page_parts, page, cells * sizeof *page);
    for (i = 0; i < cells; i++)
        needed += !writable(personality, page[i]);
    switch (below(4)) {
    case 0:
        len = below(MOST_LIST + 1);
        break;
    case 1:
        len = below(12);
        break;
    default:
        len = 4 * needed + below(9);
        len = len < 4 ? 0 : len - 4;
    }
    len = len > MOST_LIST ? MOST_LIST : len;
    list = (uint16_t *)place(&list_buffer, len * sizeof *list);
    for (i = 0; i < len; i++)
        list[i] = list_before[i] = (uint16_t)next();
    answer = bad ? WY50_BAD_CALL : needed > len / 4 ? WY50_NO_ROOM : WY50_DONE;
    if (answer == WY50_DONE) {
        uint16_t *entry = list_before;
        for (i = 0; i < cells; i++) {
            if (!writable(personality, page_parts[i])) {
                *entry++ = (uint16_t)(i / columns_of + 1);
                *entry++ = (uint16_t)(i % columns_of + 1);
                *entry++ = page_parts[i];
                *entry++ = page_parts[i] = 0;
            }
        }
    }
    r = wy50_mend(page, cells, personality, list, len);
    calls++;
    expect(r.answer == answer, "a mending answers 7, 6 or 0 as it should");
    expect(r.needed == (bad ? 0 : needed), "a mending counts the cells that are damaged");
    expect(equal(page, page_parts, cells * sizeof *page), "a mending clears the damaged cells alone, and a refused one none");
    expect(equal(list, list_before, len * sizeof *list), "a mending lists what it changed and leaves the list's rest, a refused one all of it");
    untouched(&mend_buffer);
    untouched(&list_buffer);
    mended_cells += answer == WY50_DONE ? needed : 0;
    unmended += answer == WY50_NO_ROOM;
    answered_7 += answer == WY50_BAD_CALL;
    if (answer == WY50_DONE) {
        again = wy50_mend(page, cells, personality, NULL, 0);
        expect(again.answer == WY50_DONE && again.needed == 0 && equal(page, page_parts, cells * sizeof *page), "mending twice is mending once");
    }
}

/* Repainting: the proposer and both judges against what is reckoned here. */
static buffer shown_buffer, wanted_buffer, span_buffer, paint_buffer;
static uint16_t spans_made[WY50_SPAN_NUMBERS * WY50_WIDE_CELLS], numbers_before[WY50_SPAN_NUMBERS * MOST_PAGE];
static uint8_t paint_made[MOST_PAINT], paint_before[MOST_PAINT];

static int plain(uint8_t personality, uint16_t v)
{
    return wy50_cell_attribute(v) < (personality == WY50_PERSONALITY_60 ? 31 : 1) && v % 1024 >= 0x20 && v % 1024 < 0x7f && v < 32768;
}

/* The proposal from one narrow page to another: how many spans, and how many bytes. */
static size_t proposed(const uint16_t *shown, const uint16_t *wanted, size_t *paint)
{
    size_t i, n = 0, k = 0;
    unsigned remembered = 0;
    for (i = 0; i < WY50_CELLS; i++) {
        unsigned flags = wy50_cell_attribute(wanted[i]);
        if (shown[i] == wanted[i])
            continue;
        if (i % WY50_COLUMNS == 0 || shown[i - 1] == wanted[i - 1]) {
            spans_made[3 * n] = (uint16_t)(i / WY50_COLUMNS + 1);
            spans_made[3 * n + 1] = (uint16_t)(i % WY50_COLUMNS + 1);
            spans_made[3 * n++ + 2] = 0;
            paint_made[k++] = 27;
            paint_made[k++] = '=';
            paint_made[k++] = (uint8_t)(0x20 + i / WY50_COLUMNS);
            paint_made[k++] = (uint8_t)(0x20 + i % WY50_COLUMNS);
        }
        spans_made[3 * n - 1]++;
        if (flags != remembered) {
            paint_made[k++] = 27;
            paint_made[k++] = 'G';
            paint_made[k++] = (uint8_t)(flags < 16 ? 0x30 + flags : 0x60 + flags);
        }
        remembered = flags;
        paint_made[k++] = wy50_cell_code(wanted[i]);
    }
    *paint = k;
    return n;
}

/* Whether the spans are what the judge should accept. */
static int good_spans(const uint16_t *shown, const uint16_t *wanted, size_t cells, const wy50_span *list, size_t n)
{
    size_t i, next_cell = 0, columns_of = cells / WY50_ROWS;
    for (i = 0; i <= n; i++) {
        size_t first = cells, length = 0;
        if (i < n) {
            if (list[i].row < 1 || list[i].row > WY50_ROWS || list[i].column < 1 || list[i].length < 1 || (size_t)list[i].column + list[i].length > columns_of + 1)
                return 0;
            first = (list[i].row - 1u) * columns_of + list[i].column - 1u;
            length = list[i].length;
        }
        if (first < next_cell)
            return 0;
        for (; next_cell < first; next_cell++)
            if (shown[next_cell] != wanted[next_cell])
                return 0;
        next_cell += length;
    }
    return 1;
}

/* Whether a terminal just powered on at this width paints the one page over the other with them, its bytes all answered 0. */
static int good_paint(const uint16_t *shown, const uint16_t *wanted, size_t cells, uint8_t personality, const uint8_t *paint, size_t n)
{
    wy50_state x = wy50_power_on(page_parts, WY50_CELLS, personality).state;
    wy50_run_result r;
    x.screen.wide = cells == WY50_WIDE_CELLS;
    copy(page_parts, shown, cells * sizeof *shown);
    r = wy50_run(page_parts, cells, x, paint, n, NULL, 0);
    return r.answer == WY50_DONE && r.taken == n && r.refused == 0 && equal(page_parts, wanted, cells * sizeof *wanted);
}

static void repaints(const uint16_t *kept, size_t kept_cells)
{
    uint8_t personality = (uint8_t)(below(16) ? (below(2) ? WY50_PERSONALITY_50 : WY50_PERSONALITY_60) : next());
    size_t i, k = 0, n = 0, cells = below(12) ? below(5) ? WY50_CELLS : WY50_WIDE_CELLS : below(MOST_PAGE + 1), others = below(12) ? cells : below(MOST_PAGE + 1);
    size_t one_in = below(4) ? 1 + below(400) : 0, numbers_len, paint_len;
    int of_text = below(4) > 0, named = personality == WY50_PERSONALITY_50 || personality == WY50_PERSONALITY_60, served, answer;
    int alike = cells == others && (cells == WY50_CELLS || cells == WY50_WIDE_CELLS);
    uint16_t *shown = (uint16_t *)place(&shown_buffer, cells * sizeof *shown), *wanted = (uint16_t *)place(&wanted_buffer, others * sizeof *wanted), *numbers;
    uint8_t *paint;
    wy50_propose_result r;
    for (i = 0; i < cells; i++)
        shown[i] = (uint16_t)(of_text ? 0x20 + below(95) + (personality == WY50_PERSONALITY_60 ? 1024 * below(31) : 0) : i < kept_cells ? kept[i] : next());
    for (i = 0; i < others; i++)
        wanted[i] = (uint16_t)(i < cells && (one_in == 0 || below(one_in)) ? shown[i] : of_text ? 0x20 + below(95) : next());
    if (cells > 0 && others > 0 && below(4))
        wanted[others - 1] = shown[cells - 1];
    if (others > 0 && below(8) == 0)
        wanted[below(others)] = (uint16_t)next();
    served = alike && named && cells == WY50_CELLS && shown[cells - 1] == wanted[cells - 1];
    for (i = 0; served && i < cells; i++)
        served = plain(personality, shown[i]) && plain(personality, wanted[i]);
    if (served)
        n = proposed(shown, wanted, &k);
    /* rooms about as long as is needed, or of any length */
    numbers_len = below(4) ? WY50_SPAN_NUMBERS * n + below(7) : below(WY50_SPAN_NUMBERS * MOST_PAGE);
    numbers_len = numbers_len < 3 ? numbers_len : numbers_len - below(4);
    paint_len = below(4) ? k + below(5) : below(MOST_PAINT + 1);
    paint_len = paint_len < 3 ? paint_len : paint_len - below(3);
    numbers = (uint16_t *)place(&span_buffer, numbers_len * sizeof *numbers);
    paint = (uint8_t *)place(&paint_buffer, paint_len);
    for (i = 0; i < numbers_len; i++)
        numbers[i] = numbers_before[i] = (uint16_t)next();
    for (i = 0; i < paint_len; i++)
        paint[i] = paint_before[i] = (uint8_t)next();
    answer = !alike || !named ? WY50_BAD_CALL : !served ? WY50_BAD_ARGUMENT : n > numbers_len / 3 || k > paint_len ? WY50_NO_ROOM : WY50_DONE;
    copy(page_before, shown, cells * sizeof *shown);
    copy(page_stepped, wanted, others * sizeof *wanted);
    r = wy50_propose_numbers(shown, cells, wanted, others, personality, numbers, numbers_len, paint, paint_len);
    expect(r.answer == answer, "a proposal answers 7, 3, 6 or 0 as it should");
    if (answer != WY50_DONE)
        n = k = 0;
    expect(r.spans == n && r.bytes == k, "a proposal counts its spans and bytes, and none where it is refused");
    copy(numbers_before, spans_made, 3 * n * sizeof *numbers);
    copy(paint_before, paint_made, k);
    expect(equal(numbers, numbers_before, numbers_len * sizeof *numbers), "the spans are at the front, and their room's rest is untouched");
    expect(equal(paint, paint_before, paint_len), "the bytes are at the front, and their room's rest is untouched");
    expect(equal(shown, page_before, cells * sizeof *shown) && equal(wanted, page_stepped, others * sizeof *wanted), "a proposal leaves both pages");
    untouched(&span_buffer);
    untouched(&paint_buffer);
    proposals += answer == WY50_DONE;
    unproposed += answer != WY50_DONE;
    calls += 3;

    /* what is judged: the proposal as it is, with a thing or two changed, or anything */
    if (answer != WY50_DONE)
        n = below(3);
    numbers = (uint16_t *)place(&span_buffer, n * sizeof(wy50_span));
    copy(numbers, numbers_before, n * sizeof(wy50_span) < sizeof numbers_before ? n * sizeof(wy50_span) : 0);
    if (n > 0 && below(2))
        numbers[below(3 * n)] = (uint16_t)(below(2) ? next() : below(140));
    i = wy50_judge_spans(shown, cells, wanted, others, (const wy50_span *)numbers, n);
    expect(i == (size_t)(!alike ? WY50_BAD_CALL : good_spans(shown, wanted, cells, (const wy50_span *)numbers, n) ? WY50_DONE : WY50_BAD_ARGUMENT), "the judge of spans is right");
    if (i != WY50_BAD_CALL)
        spans_judged[i == WY50_DONE]++;
    if (answer != WY50_DONE)
        k = below(8) ? host(paint_before, MOST_INPUT) : 0;
    paint = (uint8_t *)place(&paint_buffer, k);
    copy(paint, paint_before, k);
    if (k > 0 && below(2))
        paint[below(k)] = (uint8_t)next();
    i = wy50_judge_bytes(shown, cells, wanted, others, personality, paint, k);
    expect(i == (size_t)(!alike || !named ? WY50_BAD_CALL : good_paint(shown, wanted, cells, personality, paint, k) ? WY50_DONE : WY50_BAD_ARGUMENT), "the judge of bytes is right");
    if (i != WY50_BAD_CALL)
        paints_judged[i == WY50_DONE]++;
    else
        answered_7++;
    expect(equal(shown, page_before, cells * sizeof *shown) && equal(wanted, page_stepped, others * sizeof *wanted), "a judge leaves both pages");
    untouched(&shown_buffer);
    untouched(&wanted_buffer);
    untouched(&span_buffer);
    untouched(&paint_buffer);
}

static wy50_state turn(wy50_state last, uint16_t *kept)
{
    wy50_state x = any_state(last);
    size_t i, cells = below(20) ? cells_of(&x) : below(3) ? WY50_CELLS + WY50_WIDE_CELLS - cells_of(&x) : below(2) * below(MOST_PAGE + 1);
    size_t room = below(3) ? below(MOST_ROOM + 1) : below(12);
    uint16_t *page = (uint16_t *)place(&page_buffer, cells * sizeof *page);
    uint8_t *reply = (uint8_t *)place(&reply_buffer, room);
    int converted = 0;
    size_t n;
    uint8_t *input;

    for (i = 0; i < cells; i++)
        page[i] = i < cells_of(&last) ? kept[i] : (uint16_t)next();
    if (below(8) == 0) {
        for (i = 0; i < cells; i++)
            page[i] = (uint16_t)(below(4) ? next() : 32 + 128 * below(2));
    }
    if (below(4) == 0) {
        /* nothing beyond column 80 */
        for (i = 0; i < cells; i++)
            if (i % columns(&x) >= WY50_COLUMNS)
                page[i] = 0;
    }
    for (i = 0; i < room; i++)
        reply[i] = (uint8_t)next();
    copy(page_before, page, cells * sizeof *page);
    copy(room_before, reply, room);

    switch (below(6)) {
    case 0: {
        uint8_t b = (uint8_t)(below(4) ? below(128) : next());
        wy50_step_result r = wy50_step(page, cells, x, b, reply, room);
        bytes++;
        beyond(reply, room, r.replied);
        expect(r.answer <= 7, "a step answers 0 to 7");
        expect(r.taken == (r.answer < 6 && x.sending.command == 0), "a byte is taken outside a send, unless it answers 6 or 7");
        expect(r.answer == 7 || x.sending.command == 0 || (r.answer == (room ? 0 : 6) && (r.replied > 0) == (room > 0)), "during a send a step sends");
        expect(r.answer == 0 || (r.replied == 0 && equal(page, page_before, cells * sizeof *page)), "a refusal replies and writes nothing");
        expect(r.answer != 7 || same(&r.state, &x), "7 leaves the state, bytes that mean nothing too");
        expect(r.state.personality == x.personality, "a step leaves the personality");
        listed_step(cells, x, b, room, r, page, reply);
        expect((r.answer != 1 && r.answer != 6) || same(&r.state, &x), "1 and 6 leave the state, bytes that mean nothing too");
        answered_7 += r.answer == 7;
        last = r.answer == 7 ? last : r.state;
        break;
    }
    case 1: {
        uint8_t key = (uint8_t)(below(4) ? 0x40 + below(64) : next());
        wy50_press_result r = wy50_press(page, cells, x, key, reply, room);
        beyond(reply, room, r.replied);
        expect(r.answer == 0 || r.answer == 3 || r.answer == 6 || r.answer == 7 || r.answer == 8, "a press answers 0, 3, 6, 7 or 8");
        expect(r.answer == 0 || r.replied == 0, "a refused press replies nothing");
        expect(equal(page, page_before, cells * sizeof *page), "a press leaves the page");
        answered_7 += r.answer == 7;
        break;
    }
    case 2:
        rebuilt(cells, x);
        break;
    case 3:
        n = (size_t)(widened + narrowed_pages);
        last = converts(last, x, page, cells, kept);
        converted = n != widened + narrowed_pages;
        break;
    default: {
        uint8_t text[MOST_INPUT];
        wy50_run_result r;
        n = below(16) ? host(text, MOST_INPUT) : 0;
        input = (uint8_t *)place(&input_buffer, n);
        copy(input, text, n);
        r = wy50_run(page, cells, x, input, n, reply, room);
        bytes += r.taken;
        beyond(reply, room, r.replied);
        expect(r.answer == 0 || r.answer == 6 || r.answer == 7, "a run answers 0, 6 or 7");
        expect(r.taken <= n && r.refused <= r.taken, "a run counts what there is");
        expect(r.answer != 0 || r.taken == n || r.state.sending.command != 0, "a run that answers 0 took all, or ends inside a send");
        expect(r.answer != 6 || r.taken < n, "a run that answers 6 left some");
        expect(r.answer != 6 || r.replied == room, "6 means that no room is left");
        expect(r.answer == 7 || r.state.sending.command == 0 || r.replied == room, "a send is left only where the room is used up");
        expect(r.answer != 7 || (r.taken == 0 && r.replied == 0 && r.refused == 0 && same(&r.state, &x)), "7 gives zeros and the state as it came");
        expect(r.state.personality == x.personality, "a run leaves the personality");
        expect(equal(input, text, n), "the input is not written");
        untouched(&input_buffer);
        repeated(cells, x, input, n, room, &r, page, reply);
        listed_run(cells, x, input, n, room, r, page, reply);
        listed_next(cells, x, input, n, room);
        if (below(4) == 0)
            narrowed(cells, x, input, n);
        answered_7 += r.answer == 7;
        last = r.answer == 7 ? last : r.state;
        break;
    }
    }
    if (below(8) == 0)
        last = kept_setups(last, x);
    if (below(8) == 0)
        mends(page, cells);
    if (below(8) == 0)
        repaints(page, cells);
    untouched(&page_buffer);
    untouched(&reply_buffer);
    calls++;
    if (cells == cells_of(&last) && !converted)
        memcpy(kept, page, sizeof *kept * cells);
    expect(wy50_step(kept, cells_of(&last), last, 0xe9, reply, 0).answer == (last.sending.command ? WY50_NO_ROOM : WY50_HIGH_BYTE), "a good state stays good");
    return last;
}

int main(int argc, char **argv)
{
    static uint16_t kept[WY50_WIDE_CELLS];
    wy50_state last;
    double seconds = argc > 1 ? atof(argv[1]) : 10;
    struct timespec from, to;
    step_of_memory = (size_t)sysconf(_SC_PAGESIZE);
    clock_gettime(CLOCK_MONOTONIC, &from);
    seed = argc > 2 ? strtoull(argv[2], NULL, 10) : (uint64_t)from.tv_nsec * 1000003 + (uint64_t)from.tv_sec;
    page_buffer = make(MOST_PAGE * sizeof *kept);
    reply_buffer = make(MOST_ROOM);
    input_buffer = make(MOST_INPUT);
    lent_page_buffer = make(MOST_PAGE * sizeof *kept);
    lent_reply_buffer = make(MOST_ROOM);
    rows_buffer = make(MOST_ROWS * sizeof *kept);
    store_buffer = make(MOST_STORE);
    target_buffer = make(MOST_PAGE * sizeof *kept);
    mend_buffer = make(MOST_PAGE * sizeof *kept);
    list_buffer = make(MOST_LIST * sizeof *kept);
    shown_buffer = make(MOST_PAGE * sizeof *kept);
    wanted_buffer = make(MOST_PAGE * sizeof *kept);
    span_buffer = make(WY50_SPAN_NUMBERS * MOST_PAGE * sizeof *kept);
    paint_buffer = make(MOST_PAINT);
    last = powered_on(kept);
    do {
        if (turns % 5000 == 0)
            last = powered_on(kept);
        last = turn(last, kept);
        turns++;
        clock_gettime(CLOCK_MONOTONIC, &to);
    } while ((double)(to.tv_sec - from.tv_sec) + 1e-9 * (double)(to.tv_nsec - from.tv_nsec) < seconds);
    printf("fuzz: nothing found in %.0f seconds: %llu turns (%llu answered 7), %llu row lists (%llu wrong), %llu NULLs, %llu saves, %llu pages widened and %llu narrowed, %llu cells mended (%llu lists too short), %llu repaintings proposed (%llu refused), %llu lists of spans accepted (%llu not) and %llu of bytes (%llu not), %llu calls, %llu host bytes, %llu reply bytes (seed %llu)\n",
        seconds, (unsigned long long)turns, (unsigned long long)answered_7, (unsigned long long)lists, (unsigned long long)wrong_lists,
        (unsigned long long)nulls, (unsigned long long)saves, (unsigned long long)widened, (unsigned long long)narrowed_pages, (unsigned long long)mended_cells, (unsigned long long)unmended, (unsigned long long)proposals, (unsigned long long)unproposed, (unsigned long long)spans_judged[1],
        (unsigned long long)spans_judged[0], (unsigned long long)paints_judged[1], (unsigned long long)paints_judged[0], (unsigned long long)calls, (unsigned long long)bytes, (unsigned long long)replies,
        (unsigned long long)seed);
    return 0;
}
