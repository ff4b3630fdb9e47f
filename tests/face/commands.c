/* Holds the column "refused" of the tables in docs/COMMANDS.md, which it reads from standard input, against the library: on each of some pages, at
 * either width, with protect mode on and off, a command is tried with all arguments of some bytes, and the answers other than 0 must be those of its
 * row; "if wide" stands behind those of a wide page alone. */
#include "wy50.h"

#include <ctype.h>
#include <stdio.h>
#include <string.h>

static const uint8_t tried[] = {0x00, 0x0d, 0x1b, 0x1f, 0x20, 0x21, 0x22, 0x2f, 0x30, 0x31, 0x32, 0x33, 0x34, 0x37, 0x38, 0x3a, 0x3b, 0x3f,
                                0x40, 0x43, 0x4f, 0x50, 0x52, 0x57, 0x58, 0x60, 0x6f, 0x70, 0x7e, 0x7f};
static const char *const pages[] = {"", "label", "\033)label\033(\033&\036", "\033,\033&", "\033x1,", "\033x1,\033)label\033(\033}\033&", "\033q\033,\033&"};

static uint16_t narrow[WY50_CELLS], page[WY50_WIDE_CELLS];
static uint8_t reply[WY50_LONGEST_REPLY];

static size_t cells(const wy50_state *state)
{
    return state->screen.wide ? WY50_WIDE_CELLS : WY50_CELLS;
}

static wy50_state drawn(const char *bytes, uint8_t personality, int wide)
{
    wy50_state state = wy50_power_on(wide ? narrow : page, WY50_CELLS, personality).state;
    if (wide)
        state = wy50_convert(narrow, WY50_CELLS, state, page, WY50_WIDE_CELLS).state;
    return wy50_run(page, cells(&state), state, (const uint8_t *)bytes, strlen(bytes), reply, sizeof reply).state;
}

/* The answers, as bits, of the byte and of up to `more` bytes after it. The page may change: no answer to a later argument depends on more than
 * the protected cells, which are there again for each command. */
static unsigned answers(wy50_state state, uint8_t byte, int more)
{
    wy50_step_result r = wy50_step(page, cells(&state), state, byte, reply, sizeof reply);
    unsigned seen = 1u << r.answer;
    size_t i;
    if (more > 0 && r.state.sequence.kind != WY50_IDLE)
        for (i = 0; i < sizeof tried; i++)
            seen |= answers(r.state, tried[i], more - 1);
    return seen;
}

static unsigned refusals(int escape, unsigned byte, int wide)
{
    unsigned seen = 0, i, personality;
    for (personality = WY50_PERSONALITY_50; personality <= WY50_PERSONALITY_60; personality += 10)
        for (i = 0; i < sizeof pages / sizeof *pages; i++) {
            wy50_state state = drawn(pages[i], (uint8_t)personality, wide);
            if (escape)
                state = wy50_step(page, cells(&state), state, 0x1b, reply, sizeof reply).state;
            seen |= answers(state, (uint8_t)byte, byte == 0x1b && !escape ? 0 : 3);
        }
    return seen & ~1u;
}

/* The digits of the fourth column, as bits. One before "if wide" is of a wide page alone. */
static unsigned said(const char *row, int wide)
{
    unsigned bits = 0;
    int bars = 0;
    for (; *row && bars < 5; row++) {
        bars += *row == '|';
        if (bars == 4 && isdigit((unsigned char)*row) && (wide || strncmp(row + 1, " if wide", 8) != 0))
            bits |= 1u << (*row - '0');
    }
    return bits;
}

int main(void)
{
    char row[1024];
    int escape = 0, rows = 0, wrong = 0;
    while (fgets(row, sizeof row, stdin)) {
        unsigned byte;
        int wide;
        char h;
        if (strncmp(row, "## After ESC", 12) == 0)
            escape = 1;
        if (sscanf(row, "| %2x%c |", &byte, &h) != 2 || h != 'h')
            continue;
        rows++;
        for (wide = 0; wide < 2; wide++)
            if (refusals(escape, byte, wide) != said(row, wide)) {
                wrong++;
                printf("%s: answers %x, and the page says %x: %s", wide ? "wide" : "narrow", refusals(escape, byte, wide), said(row, wide), row);
            }
    }
    printf("%d rows, %d wrong\n", rows, wrong);
    return rows == 0 || wrong > 0;
}
