/* The loop that wy50.h shows, which tests/face/run puts into loop.h: what it tells of some host bytes. */
#include "wy50.h"

#include <stdio.h>
#include <stdlib.h>

static void refusal(uint8_t byte, uint8_t answer)
{
    printf("%02X: %s\n", byte, wy50_answer_name(answer));
}

static void reply(uint8_t command, const uint8_t *room, size_t count, int whole)
{
    printf("ESC %c: %.*s%s\n", command, (int)(whole ? count - 1 : count), (const char *)room, whole ? ", whole" : "");
}

int main(void)
{
    static uint16_t page[WY50_CELLS];
    static const uint8_t host[] = "Roast: dark\351\0335x\033 ";
    const uint8_t *bytes = host;
    uint8_t room[8];
    size_t left = sizeof host - 1;
    wy50_state state = wy50_power_on(page, WY50_CELLS, WY50_PERSONALITY_50).state;
#include "loop.h"
    return 0;
}
