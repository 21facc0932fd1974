/* W7: the frame printer on a trace that is made while it reads: pictures of 640 by 480 at 14 bits, one after the other, through a pipe. What is printed is
 * compared with the model, and the peak memory with that of a program that does nothing and that of the printer on no input.
 * usage: many_samples PROGRAM SAMPLES */
#include <inttypes.h>
#include <stdio.h>
#include <stdlib.h>
#include <string.h>

#include "child.h"
#include "inputs.h"
#include "printed.h"

enum { MOST_PEAK = 1024, PART = 5000 }; /* KiB; samples */

static char expected[MOST_PRINTED], printed[MOST_PRINTED];

/* Of a program on no input, which prints this and nothing else. */
static long peak_on_nothing(const char *program, const char *text)
{
    child c;
    int status = 0;
    long peak = 0;
    child_start(&c, program, 0);
    const size_t got = child_finish(&c, printed, sizeof printed, &status, &peak);
    if (status == 0 && got == strlen(text) && memcmp(printed, text, got) == 0) return peak;
    fprintf(stderr, "%s did not do on no input what it should\n", program);
    exit(1);
}

int main(int count, char **words)
{
    if (count < 3) return fprintf(stderr, "usage: many_samples PROGRAM SAMPLES\n"), 2;
    const uint64_t samples = strtoull(words[2], NULL, 10);
    if (samples <= 16384 || samples > UINT32_MAX) return 2;
    static uint8_t memory[PRINTER_MEMORY];
    const long least = peak_on_nothing("/bin/true", ""), nothing = peak_on_nothing(words[1], "refused 13\n");
    const uint8_t head[15] = { 'F', 'G', 'T', 2, 0, 1, (uint8_t)samples, (uint8_t)(samples >> 8), (uint8_t)(samples >> 16), (uint8_t)(samples >> 24),
                               0x00, 0xE1, 0x4C, 0x00, 0x00 };
    picture p = { .random = 12345 };
    camera model;
    child c;
    model_reset(&model);
    model_write(&model, 0x00, 0x4CE1);
    child_start(&c, words[1], 1);
    child_feed(&c, head, sizeof head);
    for (uint64_t made = 0; made < samples && !c.ended;) {
        uint32_t part[PART];
        uint8_t bytes[3 * PART];
        size_t n = 0;
        for (; n < PART && made < samples; n++, made++) {
            part[n] = picture_sample(&p);
            for (unsigned i = 0; i < 3; i++) bytes[3 * n + i] = (uint8_t)(part[n] >> 8 * i);
        }
        model_run(&model, memory, sizeof memory, 0, part, n);
        child_feed(&c, bytes, 3 * n);
    }
    if (!child_waits(&c) || child_printed(&c)) return fprintf(stderr, "printed or ended before the end of the input\n"), 1;
    int status = 0;
    long peak = 0;
    const size_t got = child_finish(&c, printed, sizeof printed - 1, &status, &peak);
    printed[got] = 0;
    printed_text(expected, 0, &model, memory);
    if (status || strcmp(printed, expected)) return fprintf(stderr, "status %d, expected\n%.400s\nprinted\n%.400s\n", status, expected, printed), 1;
    printf("The frame printer, %" PRIu64 " samples by parts: as the model says; ", samples);
    printf("peak memory %ld KiB, on no input %ld KiB, that of a program that does nothing %ld KiB.\n", peak, nothing, least);
    if (peak - nothing <= MOST_PEAK && peak - least <= MOST_PEAK) return 0;
    fprintf(stderr, "the peak is more than %d KiB above the others\n", MOST_PEAK);
    return 1;
}
