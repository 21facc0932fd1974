/* W7: the frame printer fed by parts through a pipe, against the model. Every cut is real: the next part comes when the program has taken the one before
 * and waits. While the outcome is not certain nothing may be printed; when it is, the program ends by itself, its input still open.
 * usage: parts PROGRAM PICTURE [CASE]; PICTURE is the file of a full picture (long_traces picture) */
#include <stdio.h>
#include <stdlib.h>
#include <string.h>

#include "child.h"
#include "inputs.h"
#include "printed.h"

enum { ROOM = 1 << 21 };

static const char *program;
static unsigned number, only; /* the case at hand, and the one to run alone */
static unsigned accepted, refused[32], pieces;

static trace t;
static uint8_t file[ROOM];
static size_t length;
static char expected[MOST_PRINTED], printed[MOST_PRINTED];

/* Each case begins here: its random numbers are its own, whether the others are run or not. */
static bool next_case(void)
{
    random_seed(700000 + ++number);
    return !only || only == number;
}

/* How a file is cut: once, into equal parts, or at random. */
typedef struct cutting {
    enum { ONCE, EQUAL, RANDOM } kind;
    size_t bytes;   /* where it is cut, the size of a part, the largest */
    unsigned watch; /* the program is waited for after every so many parts; else they are only taken */
} cutting;

static size_t piece(const cutting *how, size_t at)
{
    const size_t left = length - at, next = how->kind == RANDOM ? between(1, (uint32_t)how->bytes) : how->kind == EQUAL || at < how->bytes ? how->bytes : left;
    return next < left ? next : left;
}

/* Whether the first bytes decide the outcome: a refused header, or more bytes than it says. */
static bool certain(size_t at)
{
    if (at < 8) return false;
    const unsigned version = file[3] | file[4] << 8, header = version == 2 ? 10 : 8;
    if (memcmp(file, "FGT", 3) || version == 0 || version > 2) return true;
    if (at < header) return false;
    uint64_t samples = file[6] | file[7] << 8;
    if (version == 2) samples |= (uint64_t)file[8] << 16 | (uint64_t)file[9] << 24;
    return (samples > 16384) != (version == 2) || at > header + 5u * file[5] + 3 * samples;
}

static void failed(const char *what, size_t at)
{
    fprintf(stderr, "case %u (alone: parts PROGRAM PICTURE %u), %zu of %zu bytes given: %s\n  begins", number, number, at, length, what);
    for (size_t i = 0; i < length && i < 40; i++) fprintf(stderr, " %02X", file[i]);
    fprintf(stderr, "\nexpected\n%.400s\nprinted\n%.400s\n", expected, printed);
    exit(1);
}

/* Ends the input and compares. */
static void compare_printed(child *c, size_t at)
{
    int status = 0;
    long peak;
    const size_t got = child_finish(c, printed, sizeof printed - 1, &status, &peak);
    printed[got] = 0;
    if (status) failed("the printer did not end as it should", at);
    if (got != strlen(expected) || memcmp(printed, expected, got)) failed("printed something else", at);
}

/* After some bytes, with more to come. */
static void look(child *c, size_t at)
{
    const bool waits = child_waits(c);
    printed[0] = 0;
    if (waits && certain(at)) failed("the outcome is certain, and the printer waits", at);
    if (waits && child_printed(c)) failed("printed before the outcome was certain", at);
    if (!waits && !certain(at)) {
        compare_printed(c, at);
        failed("ended before the outcome was certain", at);
    }
}

/* The file at hand, cut, then its end. */
static void fed(const cutting *how)
{
    child c;
    size_t at = 0;
    unsigned count = 0;
    const uint32_t refusal = printed_file(expected, file, length);
    child_start(&c, program, number);
    while (at < length && !c.ended) {
        const size_t next = piece(how, at);
        if (child_feed(&c, file + at, next)) {
            at += next;
            if (how->watch && ++count % how->watch == 0) look(&c, at);
            else child_drains(&c);
        }
    }
    pieces += count;
    if (refusal < 32) refused[refusal]++;
    accepted += !refusal;
    compare_printed(&c, at);
}

/* ---- small files ---- */

/* Trace T of the paper; the other files are T with something wrong. */
static const uint8_t trace_t[37] = {
    0x46, 0x47, 0x54, 0x01, 0x00, 0x01, 0x08, 0x00, 0x00, 0xE3, 0x48, 0x00, 0x00, 0x00, 0xC0, 0x00, 0x00, 0xC0, 0x01,
    0xAB, 0x0A, 0x00, 0xAB, 0x0A, 0x01, 0x1B, 0x09, 0x00, 0x1B, 0x09, 0x01, 0x00, 0xC0, 0x02, 0x00, 0xC0, 0x01,
};

enum { VERSION = 3, WRITES = 5, COUNT = 6, OFFSET = 8, MIDDLE = 21, LAST = 36 };

static const struct {
    uint32_t number;                       /* what is printed; 0 for none */
    int more;                              /* bytes more or fewer */
    struct { uint8_t at, value; } byte[5]; /* bytes changed, up to one at 0 with 0 */
} small[] = {
    { 0, 0, { { 0, 'F' } } },
    { 0, 0, { { OFFSET, 0x0C }, { 9, 0x1F }, { 10, 0 } } },                             /* IER, so that nothing is captured */
    { 7, 0, { { LAST, 0x04 } } },                                                       /* a bad sample, the last */
    { 7, 0, { { MIDDLE, 0x80 } } },                                                     /* one in the middle */
    { 2, 0, { { OFFSET, 0x28 } } },                                                     /* a refused write */
    { 3, 0, { { OFFSET, 0x08 } } },
    { 4, 0, { { 11, 0x01 } } },
    { 5, 0, { { 9, 0xEB } } },
    { 2, 0, { { OFFSET, 0x28 }, { LAST, 0x04 } } },                                     /* a refused write and a bad sample */
    { 13, -1, { { 0, 'F' } } },                                                         /* a byte too few */
    { 13, -29, { { 0, 'F' } } },                                                        /* the header alone */
    { 13, -1, { { OFFSET, 0x28 } } },                                                   /* and a refused write */
    { 13, -1, { { MIDDLE, 0x80 } } },                                                   /* and a bad sample */
    { 13, -3, { { OFFSET, 0x28 }, { MIDDLE, 0x80 } } },                                 /* and both */
    { 13, 1, { { 0, 'F' } } },                                                          /* a byte too many */
    { 13, 7, { { OFFSET, 0x28 }, { LAST, 0x04 } } },                                    /* more, a refused write and a bad sample */
    { 10, 0, { { 0, 'f' } } },
    { 10, 0, { { 2, 0x00 }, { VERSION, 9 }, { 7, 0xFF } } },                            /* the mark, the version and the count */
    { 11, 0, { { VERSION, 3 } } },
    { 11, 0, { { 4, 1 }, { 7, 0xFF } } },                                               /* version 257 and the count */
    { 11, 0, { { VERSION, 2 }, { 4, 1 } } },                                            /* version 258 */
    { 12, 0, { { 7, 0x41 } } },                                                         /* 16,648 samples in version 1 */
    { 12, 0, { { 6, 0x01 }, { 7, 0x40 } } },                                            /* 16,385 */
    { 13, 0, { { 6, 0x00 }, { 7, 0x40 } } },                                            /* 16,384 in version 1, too few bytes */
    { 12, 0, { { VERSION, 2 }, { 8, 0 }, { 9, 0 } } },                                  /* version 2 of 8 samples */
    { 12, 0, { { VERSION, 2 }, { 6, 0x00 }, { 7, 0x40 }, { 8, 0 }, { 9, 0 } } },        /* version 2 of 16,384 */
    { 13, 0, { { VERSION, 2 }, { 6, 0x01 }, { 7, 0x40 }, { 8, 0 }, { 9, 0 } } },        /* version 2 of 16,385, too few bytes */
    { 13, 0, { { VERSION, 2 }, { 8, 0 }, { 9, 1 } } },                                  /* version 2 of 16,777,224 */
    { 13, -28, { { VERSION, 2 } } },                                                    /* version 2 of nine bytes */
    { 13, -29, { { VERSION, 2 } } },                                                    /* version 2 of eight */
    { 10, -29, { { 0, 'G' }, { VERSION, 2 } } },                                        /* and the mark */
    { 13, -34, { { 0, 'x' }, { 1, 'y' }, { 2, 'z' } } },                                /* three wrong bytes */
    { 13, -37, { { 0, 'F' } } },                                                        /* nothing */
};

enum { SMALL = sizeof small / sizeof *small };

static void make_small(unsigned which)
{
    memcpy(file, trace_t, sizeof trace_t);
    for (unsigned i = 0; i < 5 && (small[which].byte[i].at || small[which].byte[i].value); i++) file[small[which].byte[i].at] = small[which].byte[i].value;
    length = (size_t)((int)sizeof trace_t + small[which].more);
    memset(file + sizeof trace_t, 0x5A, 64);
    if (printed_file(expected, file, length) != small[which].number) failed("the model answers another number than the test's table", 0);
}

/* Cut at every place; byte by byte; all at once; and each beginning of it as a file. */
static void small_files(void)
{
    for (unsigned which = 0; which < SMALL; which++) {
        make_small(which);
        const size_t whole = length;
        for (size_t cut = 1; cut < whole; cut++)
            if (next_case()) fed(&(cutting){ ONCE, cut, 1 });
        if (next_case()) fed(&(cutting){ EQUAL, 1, 1 });
        if (next_case()) fed(&(cutting){ EQUAL, 2, 1 });
        if (next_case()) fed(&(cutting){ EQUAL, 64, 0 });
        for (length = 0; length < whole && length < 16; length++)
            if (next_case()) fed(&(cutting){ EQUAL, 64, 0 });
    }
}

/* ---- large files ---- */

/* What is wrong with a large file: nothing, a bad sample, a refused write, the length, or several of these. */
enum { BAD_SAMPLE = 1, BAD_WRITE = 2, SHORTER = 4, LONGER = 8, WRONGS = 12 };

static void make_large(size_t count, unsigned wrong)
{
    do trace_valid(&t, count);
    while (!t.writes.count);
    if (wrong & BAD_SAMPLE) t.samples[chance(1, 2) ? count - 1 : below((uint32_t)count)] |= 0x400000;
    if (wrong & BAD_WRITE) t.writes.offset[below((uint32_t)t.writes.count)] = 0x28;
    length = trace_file(&t, file);
    random_bytes(file + length, 4096);
    if (wrong & SHORTER) length -= chance(1, 2) ? 1 : between(1, (uint32_t)(3 * count));
    if (wrong & LONGER) length += chance(1, 2) ? 1 : between(1, 4000);
}

static size_t any_large(void)
{
    static const size_t counts[] = { 16384, 16385, 16386, 20000, 21846, 40000 };
    return counts[below(6)];
}

static void large_files(void)
{
    static const size_t most[] = { 7, 100, 4096, 5000, 70000 };
    for (unsigned i = 0; i < 5 * WRONGS; i++) {
        if (!next_case()) continue;
        make_large(any_large(), i % WRONGS);
        fed(&(cutting){ RANDOM, most[i / WRONGS], i / WRONGS < 2 ? 64 : 1 });
    }
    static const size_t sizes[] = { 1, 3, 1024, 4096, 16384, 32768, 65536 };
    for (unsigned i = 0; i < 7; i++) {
        if (!next_case()) continue;
        make_large(16385, 0);
        fed(&(cutting){ EQUAL, sizes[i], i < 2 ? 500 : 1 });
    }
}

/* A version 2 file cut once: in the header and the writes, near the ends of usual buffers, and at the end. */
static void version_2_cuts(void)
{
    static const size_t near[] = { 1024, 4096, 8192, 16384, 24576, 32768, 40960, 49152 };
    for (unsigned i = 0; i < 30 + 8 * 7 + 8; i++) {
        if (!next_case()) continue;
        make_large(16385, i % 3 == 2 ? BAD_SAMPLE : 0);
        const size_t cut = i < 30 ? i + 1 : i < 86 ? near[(i - 30) / 7] + (i - 30) % 7 - 3 : length - (i - 85);
        fed(&(cutting){ ONCE, cut, 1 });
    }
}

/* ---- input without an end ---- */

static void endless(void)
{
    enum { ENOUGH = 64 << 20 };
    for (unsigned i = 0; i < SMALL + 2; i++) {
        if (!next_case()) continue;
        if (i < SMALL) make_small(i);
        else make_large(16384 + (i - SMALL), 0);
        if (length < 8) continue;
        length = length < 10 && file[VERSION] == 2 ? 10 : length; /* what comes after the beginning is 0x5A or random */
        child c;
        size_t at = 0;
        const size_t beginning = length;
        length = beginning + 4096;
        const uint32_t refusal = printed_file(expected, file, length);
        if (!certain(length)) continue; /* that many samples take longer than this test */
        child_start(&c, program, number);
        child_feed(&c, file, beginning);
        for (at = beginning; !c.ended && at < ENOUGH; at += 4096) child_feed(&c, file + beginning, 4096);
        if (!c.ended) failed("did not end by itself", at);
        refused[refusal]++;
        compare_printed(&c, at);
    }
}

/* ---- the full picture ---- */

static void full_picture(const char *name)
{
    FILE *in = fopen(name, "rb");
    const size_t whole = in ? fread(file, 1, sizeof file, in) : 0;
    if (in) fclose(in);
    if (whole != 10 + 5 + 3 * PICTURE_SAMPLES) {
        fprintf(stderr, "%s is not the picture's file\n", name);
        exit(2);
    }
    length = whole;
    if (next_case()) fed(&(cutting){ EQUAL, 65536, 0 });
    if (next_case()) fed(&(cutting){ RANDOM, 5000, 16 });
    if (next_case()) fed(&(cutting){ RANDOM, 200000, 1 });
    length = whole - 1;
    if (next_case()) fed(&(cutting){ RANDOM, 200000, 1 });
}

int main(int count, char **words)
{
    if (count < 3) return fprintf(stderr, "usage: parts PROGRAM PICTURE [CASE]\n"), 2;
    program = words[1];
    only = count > 3 ? (unsigned)strtoul(words[3], NULL, 10) : 0;
    small_files();
    large_files();
    version_2_cuts();
    endless();
    full_picture(words[2]);
    if (only) return 0;
    printf("The frame printer by parts: %u inputs printed", accepted);
    bool complete = accepted > 0;
    for (unsigned i = 1; i < 32; i++) {
        const bool due = (2 <= i && i <= 5) || i == 7 || (10 <= i && i <= 13);
        if (refused[i]) printf(", %u refused %u", refused[i], i);
        complete &= !due || refused[i];
    }
    printf("; as the model says, nothing before it was certain.\n");
    return !complete;
}
