/* What wy50.h shows of a display that goes on, which tests/face/run puts into display.h: a display follows a host's page three times. */
#include "wy50.h"

#include <stdio.h>
#include <string.h>

static uint16_t distant[WY50_CELLS];
static wy50_state display;

static void send_to_display(const void *bytes, size_t count)
{
    wy50_run_result r = wy50_run(distant, WY50_CELLS, display, (const uint8_t *)bytes, count, NULL, 0);
    display = r.state;
    if (r.answer != WY50_DONE || r.refused > 0)
        puts("refused");
}

int main(void)
{
    static const char *const hosts[] = {"\032Roast: \033G4dark\033G0\n", "\rready \033Gtnow\033=7  ", ""};
    static uint16_t page[WY50_CELLS], shown[WY50_CELLS];
    static wy50_span spans[WY50_MOST_SPANS];
    static uint8_t bytes[WY50_MOST_PAINT_BYTES];
    wy50_state state = wy50_power_on(page, WY50_CELLS, WY50_PERSONALITY_60).state;
    size_t i;
    display = wy50_power_on(distant, WY50_CELLS, WY50_PERSONALITY_60).state;
    send_to_display("\032", 1);
    memcpy(shown, distant, sizeof shown);
    for (i = 0; i < sizeof hosts / sizeof *hosts; i++) {
        wy50_propose_result r;
        state = wy50_run(page, WY50_CELLS, state, (const uint8_t *)hosts[i], strlen(hosts[i]), NULL, 0).state;
#include "display.h"
        if (memcmp(distant, page, sizeof page) != 0)
            puts("the display differs");
        printf("%d spans, %d bytes\n", r.spans, r.bytes);
    }
    return 0;
}
