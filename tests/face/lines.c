/* Counts line by line through the counter for C: `count HEX FIRST LAST` and `entry HEX` on standard input, as docs/TRANSCRIPTS.md spells them,
 * `result=R` or `parts=N` on standard output. Fails by its status at a line of another form. */
#include "wy50_counter.h"

#include <inttypes.h>
#include <stdio.h>
#include <string.h>

static char line[1 << 17], hex[1 << 17];
static uint8_t bytes[1 << 16];

/* The bytes that hex digits spell, `-` for none; how many there are, or -1. */
static long spelled(void)
{
    size_t n = strcmp(hex, "-") == 0 ? 0 : strlen(hex), i;
    unsigned byte;
    for (i = 0; i < n; i += 2) {
        if (sscanf(hex + i, "%2x", &byte) != 1)
            return -1;
        bytes[i / 2] = (uint8_t)byte;
    }
    return (long)(n / 2);
}

static void told(wy50_count c)
{
    switch (c.refusal) {
    case WY50_COUNTED: printf("result=parts:%" PRIu64 "\n", c.parts); break;
    case WY50_NO_RETURN: puts("result=no-cr"); break;
    case WY50_BAD_FIRST: puts("result=first"); break;
    case WY50_BAD_LAST: puts("result=last"); break;
    default: printf("result=byte:%" PRIu64 "\n", c.place); break;
    }
}

int main(void)
{
    size_t first, last;
    while (fgets(line, sizeof line, stdin)) {
        long n;
        if (sscanf(line, "count %131071s %zu %zu", hex, &first, &last) == 3 && (n = spelled()) >= 0)
            told(wy50_count_reply(bytes, (size_t)n, first, last));
        else if (sscanf(line, "entry %131071s", hex) == 1 && (n = spelled()) >= 0)
            printf("parts=%" PRIu64 "\n", wy50_count_parts(bytes, (size_t)n));
        else
            return 1;
    }
    return 0;
}
