/* Keeps a distant display on the page of a terminal: plays a host stream to the terminal, and after each part of it sends the display the bytes that bring
 * it to the page. The display is a terminal of its own, in a second process, at the other end of a socket; its page comes back and is compared.
 *
 *     repaint [-6] [-t] [-n BYTES] [FILE]
 *
 *     -6        both are WY-60s, else WY-50s
 *     -t        the display shows the text alone: nothing on it is protected, and what is no text is a space
 *     -n BYTES  a part has so many bytes at most
 *
 * A part ends with a 00h, which the terminal takes for nothing: host_pty -o writes one where a program went quiet. Without a file it is standard input.
 *
 * The bytes are those that wy50_propose gives. A page that it does not serve, with a null, a protected cell or another last cell, is painted whole: cleared,
 * and each cell written that is not blank then. So is one where that is shorter: most of a page differs, and much of it is blank. A whole painting is judged
 * before it is sent. One that does not come to the page (a WY-60 cannot be told to write a single attribute cell) is left out, and the display stays as
 * it is until the next part.
 *
 * At the end it says what was sent, and what it would have been had no page, or every page, been painted whole. The status is 1 if the display ever
 * showed another page. */
#define _DEFAULT_SOURCE
#include "wy50.h"

#include <errno.h>
#include <stdio.h>
#include <stdlib.h>
#include <string.h>
#include <sys/socket.h>
#include <sys/wait.h>
#include <unistd.h>

enum { ESC = 27, NEAR = 4, MOST_WHOLE = 12 * WY50_CELLS + 16, MOST_PARTS = 1 << 20 };

static uint8_t personality = WY50_PERSONALITY_50;

static void fail(const char *what)
{
    fprintf(stderr, "repaint: %s\n", what);
    exit(1);
}

/* ---- the display: what comes is fed to its terminal, and its page goes back */

static void display(int line)
{
    static uint16_t page[WY50_CELLS];
    static uint8_t bytes[MOST_WHOLE];
    wy50_state state = wy50_power_on(page, WY50_CELLS, personality).state;
    ssize_t n;
    while ((n = recv(line, bytes, sizeof bytes, 0)) > 0) {
        wy50_run_result r = wy50_run(page, WY50_CELLS, state, bytes, (size_t)n, NULL, 0);
        if (r.answer != WY50_DONE || r.refused > 0)
            fail("the display refuses a byte");
        state = r.state;
        if (send(line, page, sizeof page, 0) != sizeof page)
            fail("the display's line broke");
    }
    _exit(0);
}

/* ---- a page painted whole */

static uint8_t whole_bytes[MOST_WHOLE];
static size_t whole_count;

static void put(int byte)
{
    whole_bytes[whole_count++] = (uint8_t)byte;
}

static void escape(int byte)
{
    put(ESC);
    put(byte);
}

/* What the display has been told of protection and attributes. */
static int guards, looks;

static void put_cell(uint16_t v)
{
    int kind = wy50_cell_kind(v);
    if (wy50_cell_protected(v) != guards)
        escape((guards = !guards) ? ')' : '(');
    if (kind != WY50_ATTRIBUTE && wy50_cell_attribute(v) != looks) {
        looks = wy50_cell_attribute(v);
        escape('G');
        put(looks & WY50_DIM ? 0x60 + looks : 0x30 + looks);
    }
    if (kind != WY50_TEXT)
        escape(kind == WY50_GRAPHIC ? 'H' : 'G');
    put(wy50_cell_code(v));
}

/* Clears the page to nulls, spaces or protected spaces, and writes the cells that are not so. A null cannot be written, so where there is one it is nulls.
 * Autoscroll is off meanwhile, for the last cell. */
static void paint_whole(const uint16_t *page)
{
    enum { SPACE = ' ', GUARDED_SPACE = SPACE + 128 };
    size_t i, next = WY50_CELLS, nulls = 0, spaces = 0, guarded = 0;
    uint16_t blank;
    for (i = 0; i < WY50_CELLS; i++) {
        nulls += page[i] == 0;
        spaces += page[i] == SPACE;
        guarded += page[i] == GUARDED_SPACE;
    }
    blank = nulls ? 0 : guarded > spaces ? GUARDED_SPACE : SPACE;
    whole_count = 0;
    guards = looks = 0;
    escape(blank == 0 ? '*' : blank == SPACE ? '+' : ',');
    escape('N');
    if (personality == WY50_PERSONALITY_60) {
        escape('G');
        put('0');
    }
    for (i = 0; i < WY50_CELLS; i++) {
        if (page[i] == blank)
            continue;
        if (blank != 0 && next < i && i - next <= NEAR && next % WY50_COLUMNS != 0)
            while (next < i)
                put_cell(page[next++]);
        if (next != i) {
            escape('=');
            put((int)(' ' + i / WY50_COLUMNS));
            put((int)(' ' + i % WY50_COLUMNS));
        }
        put_cell(page[i]);
        next = i + 1;
    }
    if (guards)
        escape('(');
    escape('O');
}

/* ---- the host's side */

static uint16_t page[WY50_CELLS], shown[WY50_CELLS], wanted[WY50_CELLS];
static wy50_state state;
static size_t host_bytes, parts, proposed, whole, not_served, left_out;
static size_t sent, all_proposed, all_whole; /* bytes: those sent, those of proposals wherever there is one, those of whole paintings */

static void feed(const uint8_t *bytes, size_t n)
{
    uint8_t reply[WY50_LONGEST_REPLY]; /* the host that asked is not there */
    host_bytes += n;
    while (n > 0 || state.sending.command != 0) {
        wy50_run_result r = wy50_run(page, WY50_CELLS, state, bytes, n, reply, sizeof reply);
        if (r.answer == WY50_BAD_CALL)
            abort();
        state = r.state;
        bytes += r.taken;
        n -= r.taken;
    }
}

static void paint(int line, const uint8_t *bytes, size_t n)
{
    static uint16_t back[WY50_CELLS];
    if (send(line, bytes, n, MSG_NOSIGNAL) != (ssize_t)n || recv(line, back, sizeof back, 0) != sizeof back)
        fail("the line to the display broke");
    if (memcmp(back, wanted, sizeof back) != 0)
        fail("the display shows another page");
    memcpy(shown, wanted, sizeof shown);
    sent += n;
}

/* Brings the display to the page that is wanted. */
static void repaint(int line)
{
    static wy50_span spans[WY50_MOST_SPANS];
    static uint8_t bytes[3 + WY50_MOST_PAINT_BYTES] = {ESC, 'G', '0'};
    size_t normal = personality == WY50_PERSONALITY_60 ? 3 : 0; /* the display remembers the attribute of its last painting */
    size_t count;
    int served, accepted;
    wy50_propose_result r;
    if (memcmp(shown, wanted, sizeof shown) == 0)
        return;
    r = wy50_propose(shown, WY50_CELLS, wanted, WY50_CELLS, personality, spans, WY50_MOST_SPANS, bytes + 3, sizeof bytes - 3);
    served = r.answer == WY50_DONE;
    paint_whole(wanted);
    accepted = wy50_judge_bytes(shown, WY50_CELLS, wanted, WY50_CELLS, personality, whole_bytes, whole_count) == WY50_DONE;
    count = served ? normal + r.bytes : whole_count;
    if (served && (count <= whole_count || !accepted)) {
        paint(line, bytes + 3 - normal, count);
        proposed++;
    } else if (accepted) {
        paint(line, whole_bytes, whole_count);
        whole++;
    } else {
        left_out++;
        return;
    }
    not_served += !served;
    all_proposed += count;
    all_whole += whole_count;
}

int main(int argc, char **argv)
{
    static uint8_t bytes[MOST_PARTS];
    size_t i, most = sizeof bytes, count, from, to;
    int option, text = 0, wrong = 0, ends[2], status;
    FILE *host = stdin;
    pid_t child;

    while ((option = getopt(argc, argv, "6tn:")) != -1) {
        if (option == '6')
            personality = WY50_PERSONALITY_60;
        else if (option == 't')
            text = 1;
        else if (option != 'n' || (most = strtoul(optarg, NULL, 10)) == 0)
            wrong = 1;
    }
    if (wrong || argc - optind > 1) {
        fputs("usage: repaint [-6] [-t] [-n BYTES] [FILE]\n", stderr);
        return 2;
    }
    if (optind < argc && !(host = fopen(argv[optind], "rb")))
        fail(strerror(errno));
    count = fread(bytes, 1, sizeof bytes, host);
    if (socketpair(AF_UNIX, SOCK_SEQPACKET, 0, ends) < 0 || (child = fork()) < 0)
        fail(strerror(errno));
    if (child == 0) {
        close(ends[0]);
        display(ends[1]);
    }
    close(ends[1]);

    /* both are just powered on, and show nulls */
    state = wy50_power_on(page, WY50_CELLS, personality).state;
    for (from = 0; from < count; from = to) {
        const uint8_t *end = (const uint8_t *)memchr(bytes + from, 0, count - from);
        to = end ? (size_t)(end - bytes) + 1 : count;
        to = to - from > most ? from + most : to;
        feed(bytes + from, to - from);
        for (i = 0; i < WY50_CELLS; i++)
            wanted[i] = text ? (uint16_t)(wy50_cell_sent(page[i]) + 1024 * wy50_cell_attribute(page[i])) : page[i];
        repaint(ends[0]);
        parts++;
    }
    close(ends[0]);
    waitpid(child, &status, 0);
    if (!WIFEXITED(status) || WEXITSTATUS(status) != 0)
        return 1;
    printf("host     %zu bytes in %zu parts\n", host_bytes, parts);
    printf("painted  %zu pages: %zu as proposed, %zu whole (%zu not served); %zu left out\n", proposed + whole, proposed, whole, not_served, left_out);
    printf("sent     %zu bytes; whole only where a page is not served %zu, always whole %zu\n", sent, all_proposed, all_whole);
    return 0;
}
