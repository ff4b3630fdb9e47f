/* The terminal and the counter in one program: the alert on the page is asked for with ESC 5 and counted. Fails by its status. */
#include "wy50.h"
#include "wy50_counter.h"

#include <stdio.h>
#include <string.h>

int main(void)
{
    /* a label, a field, a label, a field */
    static const char host[] = "\x1b)Roast:\x1b(dark~ \x1b)Bags:\x1b(24\x1b&\x1b" "5";
    static const char sent[] = "\x1c" "dark~ \x1c" "24 \r";
    uint16_t page[WY50_CELLS];
    uint8_t reply[WY50_LONGEST_REPLY];
    wy50_power_on_result on = wy50_power_on(page, WY50_CELLS, WY50_PERSONALITY_50);
    wy50_run_result r = wy50_run(page, WY50_CELLS, on.state, (const uint8_t *)host, sizeof host - 1, reply, sizeof reply);
    wy50_count all = wy50_count_reply(reply, r.replied, 1, 3), field = wy50_count_reply(reply, r.replied, 2, 2);
    int ok = r.answer == WY50_DONE && r.replied == sizeof sent - 1 && memcmp(reply, sent, sizeof sent - 1) == 0;
    ok = ok && all.refusal == WY50_COUNTED && all.units == 9 && all.parts == 1 && field.units == 6;
    ok = ok && wy50_count_reply(reply, r.replied, 1, 4).refusal == WY50_BAD_LAST && wy50_count_parts(reply, r.replied) == UINT64_MAX;
    puts(ok ? "passed the alert on the page" : "FAILED the alert on the page");
    return !ok;
}
