/* One proposal from one page of text to another that differs in one cell of so many (0: in none), by the library and by floor.c, and both judges over it: for
 * tests/bench/instructions. The pages are those of workloads.rs. */
#include "wy50.h"

#include <stdlib.h>
#include <string.h>

size_t floor_propose(const uint16_t *before, const uint16_t *after, uint16_t *spans, uint8_t *bytes, size_t *count);

static uint16_t before[WY50_CELLS], after[WY50_CELLS], numbers[WY50_SPAN_NUMBERS * WY50_MOST_SPANS];
static wy50_span spans[WY50_MOST_SPANS];
static uint8_t bytes[WY50_MOST_PAINT_BYTES], plain[WY50_MOST_PAINT_BYTES];

static unsigned below(unsigned n)
{
    static uint64_t s = 0x2545f4914f6cdd1d;
    s ^= s << 13;
    s ^= s >> 7;
    s ^= s << 17;
    return (unsigned)(s >> 32) % n;
}

static uint16_t letter(void)
{
    unsigned code = 0x20 + below(95);
    return (uint16_t)(code + 1024 * below(31));
}

int main(int argc, char **argv)
{
    size_t i, n, k = 0, one_in = argc > 1 ? strtoul(argv[1], NULL, 10) : 0;
    wy50_propose_result r;
    for (i = 0; i < WY50_CELLS; i++)
        after[i] = before[i] = letter();
    for (i = 1; one_in > 0 && i < WY50_CELLS; i += one_in)
        after[WY50_CELLS - 1 - i] = letter();
    r = wy50_propose(before, WY50_CELLS, after, WY50_CELLS, WY50_PERSONALITY_60, spans, WY50_MOST_SPANS, bytes, sizeof bytes);
    n = floor_propose(before, after, numbers, plain, &k);
    return r.answer != WY50_DONE || r.spans != n || r.bytes != k || memcmp(spans, numbers, n * sizeof *spans) != 0 || memcmp(bytes, plain, k) != 0
        || wy50_judge_spans(before, WY50_CELLS, after, WY50_CELLS, spans, n) != WY50_DONE
        || wy50_judge_bytes(before, WY50_CELLS, after, WY50_CELLS, WY50_PERSONALITY_60, bytes, k) != WY50_DONE;
}
