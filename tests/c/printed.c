#include "printed.h"

#include <stdio.h>
#include <string.h>

void printed_text(char *text, uint32_t number, const camera *c, const uint8_t *memory)
{
    if (number) {
        sprintf(text, "refused %u\n", (unsigned)number);
        return;
    }
    text += sprintf(text, "samples %u\nwords %u\nheld %u\ndiscarded %u\nflags %02X\n", (unsigned)c->samples, (unsigned)c->landed, (unsigned)c->held,
                    (unsigned)c->discarded, (unsigned)c->ris);
    for (uint32_t k = 0; k < c->landed; k++) {
        const uint8_t *b = memory + 4 * k;
        text += sprintf(text, "%02X%02X%02X%02X\n", b[3], b[2], b[1], b[0]);
    }
}

uint32_t printed_file(char *text, const uint8_t *file, size_t length)
{
    static uint8_t memory[PRINTER_MEMORY];
    camera c;
    memset(memory, 0, sizeof memory);
    const uint32_t number = model_run_file(&c, file, length, memory, PRINTER_MEMORY, 0);
    printed_text(text, number, &c, memory);
    return number;
}
