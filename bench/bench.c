/* The cost of a sample: the library through the C header, and the plain C model of tests/c, on the same traces.
 * usage: bench lib|one|lib2|one2|held2|file|little|model|model2|modelheld2|none|nofile|trace WIDTH CROP OVERRUN ROWS [TIMES [DEPTH WAITING [SAMPLES]]]
 * one gives the samples one at a time; lib2, one2 and model2 do the same over two memories, in which the pictures land in turn. held2 and modelheld2 take
 * one picture (CM 1) over memories too short for its last two words, with CROP 0 and no jpeg: these stay held, and CAPTURE is 0 from its end on. file runs
 * the trace's file, little over as much memory as the frame printer has. none only makes the trace, nofile makes it and writes its file too: what the
 * others, and what file and little, do besides running. trace prints the file.
 * WIDTH is 8, 10, 12 or 14, jpeg for compressed pictures, with CROP and WAITING 0, or ess for pictures with codes in the data, with WAITING 0; CROP and
 * OVERRUN are 0 or 1; ROWS is the number of rows of a picture, of 660 pixel clocks, two samples a clock. DEPTH is the FIFO's, four where none is named;
 * WAITING is how many words wait in it, at most the depth and only with CROP 0; 0 stands for the reference trace. SAMPLES is how many there are, one
 * picture after the other; those of one picture where none is named. */
#include <stdio.h>
#include <stdlib.h>
#include <string.h>
#include <time.h>

#include "dcmi.h"
#include "model.h"

enum { CLOCKS = 660, COLUMNS = 640, MOST_SAMPLES = 10000000, LITTLE = 16384 };

static uint32_t samples[MOST_SAMPLES];
static uint8_t memory[MOST_SAMPLES], memory_b[MOST_SAMPLES], file[10 + 5 * 255 + 3 * MOST_SAMPLES];

/* The middle rows of a picture, all but ten, and the first 640 clocks of each are not blanked; both polarities are 1; two samples a clock with the same
 * pins and data; a grant at every fourth sample, or none. With words waiting there are others: none until so many are held, then one with each sample
 * that completes a word. */
static void make(size_t count, unsigned rows, int overrun, unsigned width, unsigned waiting)
{
    size_t n = 0, pixels = 0, a_word = width == 8 ? 4 : 2;
    uint32_t random = 12345;
    for (unsigned row = 0; n < count; row = row + 1 == rows ? 0 : row + 1)
        for (unsigned clock = 0; clock < CLOCKS; clock++) {
            random = random * 1664525u + 1013904223u;
            uint32_t pins = random >> 18;
            if (clock >= COLUMNS)
                pins |= 1u << 14;
            if (row < 5 || row + 5 >= rows)
                pins |= 1u << 15;
            if (!(pins >> 14))
                pixels++;
            int completes = !(pins >> 14) && pixels % a_word == 0 && pixels / a_word > waiting;
            for (uint32_t level = 0; level < 2 && n < count; level++, n++)
                samples[n] = pins | level << 16 | (!overrun && (waiting ? completes && level : n % 4 == 3) ? 1u << 17 : 0);
        }
}

/* Compressed pictures with the same blanking at their ends and the same grants: a row is a packet of 512 to 639 bytes, HSYNC blanks for the rest of it. The
 * last packet is cut so that 1, 2 or 3 bytes are left over for a padded word, in turn. */
static void make_compressed(size_t count, unsigned rows, int overrun)
{
    size_t n = 0, bytes = 0, picture = 0;
    uint32_t random = 12345;
    for (unsigned row = 0; n < count; row = row + 1 == rows ? 0 : row + 1) {
        unsigned packet = 512 + (random >> 25);
        if (row == 5)
            bytes = 0, picture++;
        if (row + 6 == rows)
            packet -= (unsigned)(bytes + packet - picture % 3 - 1) % 4;
        if (row >= 5)
            bytes += packet;
        for (unsigned clock = 0; clock < CLOCKS; clock++) {
            random = random * 1664525u + 1013904223u;
            uint32_t pins = random >> 18 | (clock >= packet ? 1u << 14 : 0) | (row < 5 || row + 5 >= rows ? 1u << 15 : 0);
            for (uint32_t level = 0; level < 2 && n < count; level++, n++)
                samples[n] = pins | level << 16 | (!overrun && n % 4 == 3 ? 1u << 17 : 0);
        }
    }
}

/* Pictures with SAV and EAV in pairs, with the same blanking at their ends and the same grants: a row is a code, 640 bytes, a code and 12 bytes of blanking.
 * The middle rows begin with 0x80 and end with 0x9D, the others have 0xAB and 0xB6, which end a frame. No byte but those of codes is 00 or FF. */
static void make_coded(size_t count, unsigned rows, int overrun)
{
    size_t n = 0;
    uint32_t random = 12345;
    for (unsigned row = 0; n < count; row = row + 1 == rows ? 0 : row + 1) {
        int blank = row < 5 || row + 5 >= rows;
        for (unsigned clock = 0; clock < CLOCKS; clock++) {
            random = random * 1664525u + 1013904223u;
            unsigned in_code = clock < 4 ? clock : clock - COLUMNS - 4;
            uint32_t xy = clock < 4 ? (blank ? 0xAB : 0x80) : (blank ? 0xB6 : 0x9D);
            uint32_t byte = in_code == 0 ? 0xFF : in_code == 1 || in_code == 2 ? 0 : in_code == 3 ? xy : 1 + (random >> 24) * 254 / 256;
            for (uint32_t level = 0; level < 2 && n < count; level++, n++)
                samples[n] = byte | level << 16 | (!overrun && n % 4 == 3 ? 1u << 17 : 0);
        }
    }
}

static double seconds(void)
{
    struct timespec t;
    timespec_get(&t, TIME_UTC);
    return (double)t.tv_sec + 1e-9 * (double)t.tv_nsec;
}

static void set_up(dcmi_writes *writes, uint8_t offset, uint32_t value)
{
    writes->offset[writes->count] = offset;
    writes->value[writes->count++] = value;
}

int main(int count, char **words)
{
    if (count < 6 || count == 8)
        return fprintf(stderr, "usage: bench lib|one|lib2|one2|held2|file|little|model|model2|modelheld2|none|nofile|trace WIDTH CROP "
                               "OVERRUN ROWS [TIMES [DEPTH WAITING [SAMPLES]]]\n"), 2;
    int jpeg = !strcmp(words[2], "jpeg"), ess = !strcmp(words[2], "ess");
    unsigned width = jpeg || ess ? 8 : (unsigned)atoi(words[2]), rows = (unsigned)atoi(words[5]), times = count > 6 ? (unsigned)atoi(words[6]) : 1;
    unsigned depth = count > 8 ? (unsigned)atoi(words[7]) : 4, waiting = count > 8 ? (unsigned)atoi(words[8]) : 0;
    size_t n = count > 9 ? (size_t)atol(words[9]) : (size_t)2 * CLOCKS * rows;
    int crop = atoi(words[3]), overrun = atoi(words[4]);
    int held2 = !strcmp(words[1], "held2"), modelheld2 = !strcmp(words[1], "modelheld2"), short_of_room = held2 || modelheld2;
    if (rows < 11 || n > MOST_SAMPLES || width < 8 || width > 14 || waiting > depth || (waiting && crop) || (jpeg && (crop || waiting))
        || (ess && waiting) || (short_of_room && (crop || jpeg)))
        return 2;
    uint32_t cr = 0x40E1u | (short_of_room ? 2u : 0) | (width - 8) / 2 << 10 | (crop ? 4u : 0) | (jpeg ? 8u : 0) | (ess ? 16u : 0);
    uint32_t start = 100 * rows / 490 << 16 | 100, size = (200 * rows / 490 - 1) << 16 | 299; /* of 490 rows 200 lines from line 100 on */
    if (jpeg)
        make_compressed(n, rows, overrun);
    else if (ess)
        make_coded(n, rows, overrun);
    else
        make(n, rows, overrun, width, waiting);
    int one2 = !strcmp(words[1], "one2"), model2 = modelheld2 || !strcmp(words[1], "model2");
    int two = one2 || model2 || held2 || !strcmp(words[1], "lib2");
    int one = one2 || !strcmp(words[1], "one"), little = !strcmp(words[1], "little"), run = little || !strcmp(words[1], "file");
    int trace = !strcmp(words[1], "trace"), filed = run || trace || !strcmp(words[1], "nofile");

    static dcmi_writes writes;
    if (ess)
        set_up(&writes, DCMI_ESCR, 0xFF9D80FF), set_up(&writes, DCMI_ESUR, 0xFFFFFFFF);
    if (crop)
        set_up(&writes, DCMI_CWSTRT, start), set_up(&writes, DCMI_CWSIZE, size);
    set_up(&writes, DCMI_CR, cr);
    size_t length = 0;
    if (filed && dcmi_trace_write(&writes, samples, n, file, sizeof file, &length))
        return 1;
    if (trace)
        return fwrite(file, 1, length, stdout) != length;

    size_t room_two = short_of_room ? (size_t)(rows - 10) * COLUMNS * (width == 8 ? 1 : 2) - 8 : sizeof memory; /* of each of two memories */
    unsigned landed = 0, held = 0;
    double best = 1e9;
    for (unsigned k = 0; k < times; k++) {
        double begin = seconds();
        if (model2 || !strcmp(words[1], "model")) {
            camera c;
            lent both[BUFFERS] = { { memory, room_two, 0 }, { memory_b, room_two, 0 } };
            if (model_reset_depth(&c, depth) || (two && model_two_buffers(&c)))
                return 1;
            for (size_t i = 0; i < writes.count; i++)
                model_write(&c, writes.offset[i], writes.value[i]);
            if (two ? model_run_two(&c, both, samples, n) : model_run(&c, memory, sizeof memory, 0, samples, n))
                return 1;
            landed = c.landed, held = c.held;
        } else if (two) {
            dcmi_device d;
            dcmi_answer answer;
            if (dcmi_reset_depth(&d, depth) || dcmi_two_buffers(&d))
                return 1;
            for (size_t i = 0; i < writes.count; i++)
                dcmi_write(&d, writes.offset[i], writes.value[i]);
            if (!one && dcmi_run_two(&d, memory, room_two, 0, memory_b, room_two, 0, samples, n))
                return 1;
            for (size_t i = 0; one && i < n; i++)
                if (dcmi_sample_two(&d, memory, room_two, 0, memory_b, room_two, 0, samples[i], &answer))
                    return 1;
            landed = d.word[DCMI_W_LANDED], held = d.word[DCMI_W_HELD];
        } else if (one || !strcmp(words[1], "lib")) {
            dcmi_device d;
            dcmi_answer answer;
            if (dcmi_reset_depth(&d, depth))
                return 1;
            for (size_t i = 0; i < writes.count; i++)
                dcmi_write(&d, writes.offset[i], writes.value[i]);
            if (!one && dcmi_run(&d, memory, sizeof memory, 0, samples, n))
                return 1;
            for (size_t i = 0; one && i < n; i++)
                if (dcmi_sample(&d, memory, sizeof memory, 0, samples[i], &answer))
                    return 1;
            landed = d.word[DCMI_W_LANDED], held = d.word[DCMI_W_HELD];
        } else if (run) {
            dcmi_device d;
            size_t room = little ? LITTLE : sizeof memory;
            if (depth == 4 ? dcmi_run_file(&d, file, length, memory, room, 0) : dcmi_run_file_depth(&d, depth, file, length, memory, room, 0))
                return 1;
            landed = d.word[DCMI_W_LANDED], held = d.word[DCMI_W_HELD];
        }
        double took = seconds() - begin;
        if (took < best)
            best = took;
    }
    printf("%zu samples, %u landed, %u held, %.2f ns a sample\n", n, landed, held, 1e9 * best / (double)n);
    return 0;
}
