/* Checks the counter for C: the worked texts of docs/ALERTS.md, pieces, refusals and their order, empty and NULL texts. Compiles as C99 and as C++,
 * and links with libwy50_counter.a alone. Prints one line for each part, and fails by its status. */
#include "wy50_counter.h"

#include <stdio.h>
#include <string.h>

static int failures, part_failures;
static uint8_t text[4096];

#define CHECK(test) check((test) != 0, #test, __LINE__)

static void check(int ok, const char *test, int line)
{
    if (!ok) {
        printf("counter.c:%d: not so: %s\n", line, test);
        part_failures++;
    }
}

static void part(const char *name)
{
    printf("%s %s\n", part_failures ? "FAILED" : "passed", name);
    failures += part_failures != 0;
    part_failures = 0;
}

/* n bytes c at the end of the text of length at; its length then. */
static size_t put(size_t at, size_t n, int c)
{
    memset(text + at, c, n);
    return at + n;
}

static int counted(size_t n, uint64_t units, uint64_t parts)
{
    wy50_count c = wy50_count_text(text, n);
    return c.refusal == WY50_COUNTED && c.units == units && c.parts == parts && c.place == 0 && wy50_count_parts(text, n) == parts;
}

static int refused(size_t n, uint64_t place)
{
    wy50_count c = wy50_count_text(text, n);
    return c.refusal == WY50_BAD_BYTE && c.place == place && c.units == 0 && c.parts == 0 && wy50_count_parts(text, n) == UINT64_MAX;
}

static int reply(const char *bytes, size_t n, size_t first, size_t last, int refusal, uint64_t units, uint64_t parts, uint64_t place)
{
    wy50_count c = wy50_count_reply((const uint8_t *)bytes, n, first, last);
    return c.refusal == refusal && c.units == units && c.parts == parts && c.place == place;
}

#define REPLY(bytes, first, last, refusal, units, parts, place) CHECK(reply(bytes, sizeof bytes - 1, first, last, refusal, units, parts, place))

static void texts(void)
{
    size_t lengths[] = {0, 1, 160, 161, 306, 307, 459, 460}, i, n;
    uint64_t parts[] = {0, 1, 1, 2, 2, 3, 3, 4};
    for (i = 0; i < sizeof lengths / sizeof *lengths; i++)
        CHECK(counted(put(0, lengths[i], 'a'), lengths[i], parts[i]));
    memcpy(text, "^{}\\[~]|", 8);
    CHECK(counted(8, 16, 1));
    CHECK(counted(put(0, 80, '~'), 160, 1));
    CHECK(counted(put(0, 81, '~'), 162, 2));
    CHECK(counted(put(put(put(0, 152, 'a'), 1, '~'), 152, 'a'), 306, 3));
    CHECK(counted(put(put(put(0, 151, 'a'), 1, '~'), 153, 'a'), 306, 2));
    n = put(put(put(0, 2, ' '), 158, 'a'), 40, ' ');
    CHECK(counted(n, 160, 1));
    CHECK(counted(put(0, 300, ' '), 0, 0));
    part("texts: units, parts, a character of two units on the seam, trailing spaces");
}

static void bytes(void)
{
    int c;
    for (c = 0; c < 256; c++) {
        int inside = c >= 0x20 && c < 0x7f && c != '`';
        int two = c != 0 && strchr("^{}\\[~]|", c) != NULL;
        text[0] = 'a';
        text[1] = (uint8_t)c;
        text[2] = 'b';
        CHECK(inside ? counted(3, two ? 4 : 3, 1) : refused(3, 1));
    }
    put(put(0, 400, 'a'), 1, 0xe9);
    CHECK(refused(401, 400));
    part("every byte, alone outside the alphabet or not");
}

static void replies(void)
{
    static const char form[] = "\x1cGuji \x1c" "24\x1f" "Cafe\x1c\r";
    REPLY(form, 1, 5, WY50_COUNTED, 11, 1, 0);
    REPLY(form, 2, 3, WY50_COUNTED, 7, 1, 0);
    REPLY(form, 2, 2, WY50_COUNTED, 4, 1, 0);
    REPLY(form, 5, 5, WY50_COUNTED, 0, 0, 0);
    REPLY("\r", 1, 1, WY50_COUNTED, 0, 0, 0);
    REPLY("ab\x1f" "c`\r", 1, 2, WY50_BAD_BYTE, 0, 0, 3);
    REPLY("ab\x1f" "c`\r", 1, 1, WY50_COUNTED, 2, 1, 0);
    REPLY("a\rb\r", 1, 1, WY50_BAD_BYTE, 0, 0, 1);
    part("pieces of a reply");
    REPLY("`", 0, 9, WY50_NO_RETURN, 0, 0, 0);
    REPLY("", 1, 1, WY50_NO_RETURN, 0, 0, 0);
    REPLY("`\r", 0, 9, WY50_BAD_FIRST, 0, 0, 0);
    REPLY("`\r", 3, 2, WY50_BAD_FIRST, 0, 0, 0);
    REPLY("`\r", 1, 2, WY50_BAD_LAST, 0, 0, 0);
    REPLY("`\r", SIZE_MAX, SIZE_MAX, WY50_BAD_LAST, 0, 0, 0);
    REPLY("`\r", 1, 1, WY50_BAD_BYTE, 0, 0, 0);
    part("refusals, in their order");
}

static void nothing(void)
{
    wy50_count c = wy50_count_text(NULL, 0);
    CHECK(wy50_count_parts(NULL, 0) == 0);
    CHECK(c.refusal == WY50_COUNTED && c.units == 0 && c.parts == 0 && c.place == 0);
    CHECK(wy50_count_reply(NULL, 0, 1, 1).refusal == WY50_NO_RETURN);
    part("NULL with 0 bytes");
}

static void version(void)
{
    char text_of_it[16];
    sprintf(text_of_it, "%d.%d.%d", WY50_COUNTER_VERSION_MAJOR, WY50_COUNTER_VERSION_MINOR, WY50_COUNTER_VERSION_PATCH);
    CHECK(strcmp(text_of_it, WY50_COUNTER_VERSION) == 0);
    CHECK(wy50_counter_version() == WY50_COUNTER_VERSION_NUMBER);
    part("one version of header and library");
}

int main(void)
{
    version();
    texts();
    bytes();
    replies();
    nothing();
    return failures != 0;
}
