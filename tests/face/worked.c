/* The table of worked texts: reads docs/ALERTS.md on standard input and counts the text of each row under its heading. A row is
 * `| TEXT | UNITS | PARTS |`, its text runs of characters, as `152 a, 1 ~, 152 a`; `_` stands for a space. Fails by its status. */
#include "wy50_counter.h"

#include <stdio.h>
#include <stdlib.h>
#include <string.h>

static uint8_t text[4096];

/* The text that a row spells; its length. */
static size_t spelled(const char *row)
{
    size_t n = 0;
    unsigned run;
    char c;
    int taken;
    while (sscanf(row, "%u %c%n", &run, &c, &taken) == 2 && n + run <= sizeof text) {
        memset(text + n, c == '_' ? ' ' : c, run);
        n += run;
        row += taken + (row[taken] == ',' ? 2 : 0);
    }
    return n;
}

int main(void)
{
    char line[1024];
    int under = 0, rows = 0, wrong = 0;
    while (fgets(line, sizeof line, stdin)) {
        unsigned long long units, parts;
        char *second;
        if (strncmp(line, "## ", 3) == 0)
            under = strcmp(line, "## Texts and their parts\n") == 0;
        if (!under || line[0] != '|' || (second = strchr(line + 1, '|')) == NULL || sscanf(second, "| %llu | %llu |", &units, &parts) != 2)
            continue;
        wy50_count c = wy50_count_text(text, spelled(line + 1));
        if (c.refusal != WY50_COUNTED || c.units != units || c.parts != parts) {
            printf("not so: %s", line);
            wrong++;
        }
        rows++;
    }
    printf("%d rows, %d wrong\n", rows, wrong);
    return rows < 10 || wrong > 0;
}
