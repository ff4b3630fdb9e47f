/* Checks saved set-ups for C: numbers, places, what a restore sets and leaves, refusals and their order. Compiles as C99 and as C++. Prints one
 * line for each part, and fails by its status. */
#include "wy50.h"

#include <stdio.h>
#include <string.h>

static int failures, part_failures;
static uint16_t page[WY50_CELLS];
static uint8_t store[WY50_STORE_BYTES], before[WY50_STORE_BYTES];

#define CHECK(test) check((test) != 0, #test, __LINE__)

static void check(int ok, const char *test, int line)
{
    if (!ok) {
        printf("store.c:%d: not so: %s\n", line, test);
        part_failures++;
    }
}

static void part(const char *name)
{
    printf("%s %s\n", part_failures ? "FAILED" : "passed", name);
    failures += part_failures != 0;
    part_failures = 0;
}

static wy50_state fed(const char *bytes, size_t n)
{
    uint8_t reply[WY50_LONGEST_REPLY];
    wy50_power_on_result on = wy50_power_on(page, WY50_CELLS, WY50_PERSONALITY_50);
    wy50_run_result r = wy50_run(page, WY50_CELLS, on.state, (const uint8_t *)bytes, n, reply, sizeof reply);
    CHECK(r.answer == WY50_DONE && r.refused == 0 && r.taken == n);
    return r.state;
}
#define FED(s) fed(s, sizeof(s) - 1)

static int same(wy50_state a, wy50_state b)
{
    return memcmp(&a, &b, sizeof a) == 0;
}

/* What is refused leaves store and state. */
static void refused(wy50_state state, size_t len, uint16_t number, uint8_t save, uint8_t restore)
{
    wy50_save_result s;
    wy50_restore_result r;
    memcpy(before, store, sizeof store);
    s = wy50_save(state, store, len);
    CHECK(s.answer == save && s.number == 0);
    r = wy50_restore(state, store, len, number);
    CHECK(r.answer == restore && same(r.state, state));
    CHECK(memcmp(before, store, sizeof store) == 0);
}

int main(void)
{
    /* a stop in column 9, the look 41h, a key, labels of both lines */
    wy50_state set = FED("\x1b=\x20\x28\x1b" "1\x1b`A\x1bz@ab\r\x7f\x1bz0Help\r\x1bzPMore\r\x1b" "Fhello\r");
    wy50_state on = FED(""), bad = FED(""), awaits = FED("\x1bz@xy"), full;
    wy50_restore_result r;
    wy50_save_result s;
    wy50_run_result sent;
    uint8_t reply[WY50_LONGEST_REPLY];
    unsigned n;

    s = wy50_save(set, store, sizeof store);
    CHECK(s.answer == WY50_DONE && s.number == 1);
    CHECK(store[0] == 1 && store[1] == 0 && store[2] == 6 + 15 + 16 + 131 + 72 && store[3] == 0);
    CHECK(memcmp(store + 4, "\x1b=\x20\x28\x1b" "1\x1b`1\x1b`5\x1b`9\x1b`@\x1b`A\x1b" "A00", 25) == 0);
    part("the first save");

    r = wy50_restore(on, store, sizeof store, 1);
    CHECK(r.answer == WY50_DONE && r.state.tabs[8] == 1 && r.state.features[WY50_PROTECTED_LOOK] == 'A');
    CHECK(r.state.keys[0].len == 3 && memcmp(r.state.keys[0].bytes, "ab\r\0\0\0\0\0", 8) == 0);
    CHECK(r.state.labels[0].len == 4 && r.state.labels[8].len == 4 && memcmp(r.state.labels[8].bytes, "More", 4) == 0);
    /* the rest of the state is as it was: no shifted line, no message, the cursor */
    CHECK(r.state.shifted == 0 && r.state.message.len == 0 && r.state.screen.cursor0 == on.screen.cursor0);
    r = wy50_restore(set, store, sizeof store, 1);
    CHECK(r.answer == WY50_DONE && same(r.state, set));
    part("a restore");

    /* a text under way goes on after it, and so does a send */
    r = wy50_restore(awaits, store, sizeof store, 1);
    CHECK(r.answer == WY50_DONE && memcmp(&r.state.sequence, &awaits.sequence, sizeof awaits.sequence) == 0 && r.state.keys[0].len == 3);
    sent = wy50_run(page, WY50_CELLS, r.state, (const uint8_t *)"z\x7f", 2, reply, 0);
    CHECK(sent.taken == 2 && sent.state.keys[0].len == 3 && memcmp(sent.state.keys[0].bytes, "xyz", 3) == 0 && sent.state.tabs[8] == 1);
    sent = wy50_run(page, WY50_CELLS, on, (const uint8_t *)"\x1b?", 2, reply, 1);
    CHECK(sent.replied == 1 && sent.state.sending.command == '?');
    r = wy50_restore(sent.state, store, sizeof store, 1);
    CHECK(r.answer == WY50_DONE && memcmp(&r.state.sending, &sent.state.sending, sizeof sent.state.sending) == 0 && r.state.tabs[8] == 1);
    sent = wy50_run(page, WY50_CELLS, r.state, (const uint8_t *)"", 0, reply + 1, 2);
    CHECK(sent.replied == 2 && memcmp(reply, "\x20\x20\r", 3) == 0 && sent.state.sending.command == 0);
    part("a restore within a sequence and within a send");

    for (n = 2; n <= 9; n++) {
        s = wy50_save(on, store, sizeof store);
        CHECK(s.answer == WY50_DONE && s.number == n);
        r = wy50_restore(on, store, sizeof store, 1);
        CHECK(r.answer == (n <= 8 ? WY50_DONE : WY50_BAD_NUMBER));
    }
    CHECK(store[0] == 9 && store[2] == 223 && store[4] == 0x1b && store[5] == '`');
    for (n = 4 + 223; n < 2 + 1089; n++)
        CHECK(store[n] == 0);
    part("eight numbers, and the oldest overwritten");

    CHECK(wy50_restore(on, store, sizeof store, 0).answer == WY50_BAD_NUMBER);
    CHECK(wy50_restore(on, store, sizeof store, 11).answer == WY50_BAD_NUMBER);
    bad.screen.split = 1;
    refused(bad, sizeof store - 1, 0, WY50_BAD_CALL, WY50_BAD_CALL);
    refused(on, sizeof store - 1, 0, WY50_BAD_STORE, WY50_BAD_STORE);
    store[WY50_STORE_BYTES - 1] = 1;
    refused(on, sizeof store, 0, WY50_BAD_STORE, WY50_BAD_STORE);
    store[WY50_STORE_BYTES - 1] = 0;
    part("refusals");

    /* eight set-ups are kept, so any last number from 8 on is one that saves could leave */
    store[0] = store[1] = 255;
    refused(on, sizeof store, 65527, WY50_FULL, WY50_BAD_NUMBER);
    CHECK(wy50_restore(on, store, sizeof store, 65528).answer == WY50_DONE && wy50_restore(on, store, sizeof store, 65535).answer == WY50_DONE);
    part("numbers end with 65,535");

    /* the longest set-ups, and each of their bytes off by one: refused and not written, or bytes of another set-up */
    full = on;
    memset(full.tabs, 1, WY50_COLUMNS);
    for (n = 0; n < WY50_KEYS; n++) {
        full.keys[n].len = WY50_KEY_BYTES;
        memset(full.keys[n].bytes, 'k', WY50_KEY_BYTES);
    }
    for (n = 0; n < WY50_LABELS; n++) {
        full.labels[n].len = WY50_LABEL_BYTES;
        memset(full.labels[n].bytes, 'l', WY50_LABEL_BYTES);
    }
    memset(store, 0, sizeof store);
    for (n = 1; n <= 8; n++) {
        s = wy50_save(full, store, sizeof store);
        CHECK(s.answer == WY50_DONE && s.number == n);
    }
    CHECK(store[2] + 256 * store[3] == 1087 && same(wy50_restore(on, store, sizeof store, 8).state, full));
    for (n = 2; n < 2 + 1089; n++) {
        store[n] ^= 1;
        memcpy(before, store, sizeof store);
        r = wy50_restore(on, store, sizeof store, 1);
        CHECK(r.answer == WY50_DONE || (r.answer == WY50_BAD_STORE && same(r.state, on)));
        if (r.answer == WY50_DONE) {
            /* saved again, these are its bytes */
            static uint8_t again[WY50_STORE_BYTES];
            memset(again, 0, sizeof again);
            CHECK(wy50_save(r.state, again, sizeof again).answer == WY50_DONE && memcmp(again + 2, store + 2, 1089) == 0);
        } else {
            CHECK(wy50_save(on, store, sizeof store).answer == WY50_BAD_STORE && memcmp(before, store, sizeof store) == 0);
        }
        store[n] ^= 1;
    }
    part("the longest set-up, byte by byte");
    return failures != 0;
}
