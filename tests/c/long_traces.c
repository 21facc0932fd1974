/* W7: the limits of the two versions of trace file, tried on the library and compared with the model.
 *
 *   long_traces                  every part; prints what was compared
 *   long_traces PART [CALLS]     one part alone, or its first calls only: what a difference prints as the command to make it again
 *   long_traces picture FILE     writes a full picture's trace to a file, by the library's writer alone
 *
 * The exit status is 0 if nothing differs. */
#define _DEFAULT_SOURCE
#include <inttypes.h>
#include <stdio.h>
#include <stdlib.h>
#include <string.h>
#include <sys/mman.h>
#include <unistd.h>

#include "checked.h"
#include "inputs.h"

static trace t;
static uint8_t file[MOST_FILE];

static void expect(const char *what, uint64_t want, uint64_t got)
{
    if (want == got) return;
    printf("%s: expected %" PRIu64 ", the model has %" PRIu64 "\n", what, want, got);
    differs("not as it should be");
}

/* The three calls that read a file. */
static void ask(const uint8_t *bytes, size_t length, size_t place)
{
    check_run_file(bytes, length, 0);
    check_run_file_depth(any_depth(), bytes, length, 0);
    check_trace_item(bytes, length, place, NULL);
}

/* ---- counts: 16,384 and 16,385 samples, written, read item by item and run ---- */

static void written_and_read(size_t count)
{
    const unsigned version = count == 16384 ? 1 : 2;
    size_t length = 0;
    trace_valid(&t, count);
    expect("the writer", 0, check_trace_write(&t.writes, t.samples, count, sizeof file));
    const uint8_t *bytes = written_file(&length);
    memcpy(file, bytes, length);
    expect("the version", version, file[3]);
    expect("the length", header_length(version) + 5 * t.writes.count + 3 * count, length);
    for (size_t place = 0; place < t.writes.count + count + 2; place++) {
        dcmi_item item;
        const bool sample = place >= t.writes.count && place < t.writes.count + count;
        expect("an item", 0, check_trace_item(file, length, place, &item));
        if (sample) expect("a sample", t.samples[place - t.writes.count], item.value);
    }
    lend_memory(16384);
    expect("the run", 0, check_run_file(file, length, 0));
    expect("the samples", count, device()[DCMI_W_SAMPLES]);
    expect("the run at a depth", 0, check_run_file_depth(32, file, length, 0));
    length = trace_file_as(&t, 3 - version, file);
    expect("the other version, run", 12, check_run_file(file, length, 0));
    expect("the other version, run at a depth", 12, check_run_file_depth(32, file, length, 0));
    expect("the other version, read", 12, check_trace_item(file, length, 0, NULL));
}

static void counts(void)
{
    written_and_read(16384);
    written_and_read(16385);
}

/* ---- limits: what is beyond 32 bits ---- */

static bool left_out; /* something, for want of addresses */

/* Addresses without memory behind them, until they are written to. */
static uint8_t *addresses(size_t bytes, int access)
{
    uint8_t *at = mmap(NULL, bytes, access, MAP_PRIVATE | MAP_ANONYMOUS | MAP_NORESERVE, -1, 0);
    left_out |= at == MAP_FAILED;
    return at == MAP_FAILED ? NULL : at;
}

/* Zeros that can all be read: the same few everywhere, but for the last page, which is memory and can be written. */
static uint8_t *many_zeros(size_t bytes)
{
    const size_t few = (size_t)1 << 24, page = 4096;
    FILE *same = tmpfile();
    uint8_t *all = addresses(bytes + few, PROT_NONE);
    bool mapped = same && all && ftruncate(fileno(same), (off_t)few) == 0;
    for (size_t at = 0; at < bytes && mapped; at += few) mapped = mmap(all + at, few, PROT_READ, MAP_SHARED | MAP_FIXED, fileno(same), 0) != MAP_FAILED;
    const size_t last = (bytes - 1) / page * page;
    mapped = mapped && mmap(all + last, page, PROT_READ | PROT_WRITE, MAP_PRIVATE | MAP_ANONYMOUS | MAP_FIXED, -1, 0) != MAP_FAILED;
    if (same) fclose(same);
    left_out |= !mapped;
    return mapped ? all : NULL;
}

/* 4,294,967,295 samples are all looked at; one more, and none may be. */
static void most_samples(void)
{
    static const uint64_t beyond[] = { 1, 2, 16384, 16385, 65536, UINT64_C(0xFFFFFFFF), UINT64_C(0x100000000), UINT64_C(0xF00000001) };
    const size_t most = UINT32_MAX;
    for (unsigned i = 0; i < sizeof beyond / sizeof *beyond; i++) {
        bool missing = false;
        trace_valid(&t, 0);
        for (unsigned turn = 0; turn < 4 && !missing; turn++) { /* room for nothing, or some; too many writes */
            if (turn == 3) t.writes.count = 256;
            const uint32_t answer = check_trace_write_unread(&t.writes, most + beyond[i], turn == 1 ? 100 : turn == 2 ? MOST_FILE : 0, &missing);
            if (!missing) expect("too many samples", turn == 3 ? 14 : 12, answer);
        }
        left_out |= missing;
    }
    uint32_t *samples = (uint32_t *)(void *)many_zeros(4 * most);
    if (!samples) return;
    trace_valid(&t, 0);
    expect("4,294,967,295 samples and no room", 15, check_trace_write(&t.writes, samples, most, 100));
    samples[most - 1] = 0x40000;
    expect("the last of 4,294,967,295 is bad", 7, check_trace_write(&t.writes, samples, most, 100));
    munmap(samples, 4 * most + (1 << 24));
}

/* A header of version 2. */
static void put_header(uint8_t *at, size_t writes, uint64_t samples)
{
    memcpy(at, "FGT\2\0", 5);
    at[5] = (uint8_t)writes;
    for (unsigned i = 0; i < 4; i++) at[6 + i] = (uint8_t)(samples >> 8 * i);
}

/* The longest file there can be, its samples 0: read, and refused before a sample is looked at. */
static void longest_file(void)
{
    const size_t writes = 255, samples = UINT32_MAX, length = 10 + 5 * writes + 3 * samples, end = writes + samples;
    uint8_t *bytes = addresses(length + 4096, PROT_READ | PROT_WRITE);
    if (!bytes) return;
    expect("the longest file", UINT64_C(12884903170), length);
    put_header(bytes, writes, samples);
    memset(bytes + length - 3, 1, 3);
    lend_memory(16);
    for (size_t place = 0; place < writes + 2; place++) expect("an item", 0, check_trace_item(bytes, length, place, NULL));
    for (size_t place = end - 2; place < end + 3; place++) expect("a last item", 0, check_trace_item(bytes, length, place, NULL));
    for (unsigned wrong = 1; wrong <= 3; wrong++) {
        ask(bytes, length - wrong, end - 1);
        ask(bytes, length + wrong, end - 1);
        ask(bytes, length - ((size_t)wrong << 32), 0);
    }
    bytes[6]--;
    expect("a sample less", 13, check_trace_item(bytes, length, 0, NULL));
    expect("a sample less, its length", 0, check_trace_item(bytes, length - 3, end - 1, NULL));
    bytes[6]++;
    expect("its start", 9, check_run_file(bytes, length, 17));
    bytes[length - 1] = 0xFF;
    expect("its start, its last sample", 9, check_run_file_depth(32, bytes, length, 17));
    expect("its last sample", 7, check_trace_item(bytes, length, end - 1, NULL));
    bytes[10 + 5 * 254] = 0x28;
    expect("its last write", 2, check_run_file(bytes, length, 0));
    munmap(bytes, length + 4096);
}

/* A length that is right only modulo 2^32: the paper's largest counts, some writes, few bytes. */
static void modulo(void)
{
    uint64_t tried = 0;
    for (size_t writes = 0; writes < 4; writes++) {
        for (uint64_t times = 1; times <= 3; times++) {
            for (size_t length = 10; length < 40; length++) {
                const uint64_t rest = (times << 32) + length - 10 - 5 * writes;
                if (rest % 3 || rest / 3 > UINT32_MAX || rest / 3 < 16385) continue;
                memset(file, 0, length);
                put_header(file, writes, rest / 3);
                expect("modulo 2^32, run", 13, check_run_file(file, length, 0));
                expect("modulo 2^32, run at a depth", 13, check_run_file_depth(1, file, length, 0));
                expect("modulo 2^32, read", 13, check_trace_item(file, length, 0, NULL));
                tried += length == 12 && writes == 0 && rest / 3 == 1431655766;
            }
        }
    }
    expect("1,431,655,766 samples in 12 bytes", 1, tried);
}

static void limits(void)
{
    most_samples();
    longest_file();
    modulo();
}

/* ---- headers: every byte with every value ---- */

static void every_value(size_t length)
{
    const size_t items = t.writes.count + t.count;
    for (unsigned at = 0; at < header_length(file[3]); at++) {
        const uint8_t right = file[at];
        for (unsigned value = 0; value < 256; value++) {
            file[at] = (uint8_t)value;
            ask(file, length, below((uint32_t)items));
        }
        file[at] = right;
    }
}

static void headers(void)
{
    static const size_t samples[] = { 0, 5, 16385, 65536 + 300 };
    lend_memory(64);
    for (unsigned i = 0; i < 4; i++) {
        do trace_valid(&t, samples[i]);
        while (t.writes.count < 2);
        every_value(trace_file(&t, file));
        if (samples[i] <= 16384) every_value(trace_file_as(&t, 2, file));
    }
}

/* ---- cuts: files of every length ---- */

static void cuts(void)
{
    do trace_valid(&t, 200);
    while (t.writes.count < 3);
    lend_memory(64);
    size_t length = trace_file(&t, file);
    const size_t items = t.writes.count + t.count;
    random_bytes(file + length, 4096);
    for (size_t cut = 0; cut < length + 20; cut++) ask(file, cut, below((uint32_t)items));
    do trace_valid(&t, 16385);
    while (t.writes.count < 3);
    length = trace_file(&t, file);
    random_bytes(file + length, 4096);
    for (size_t cut = 0; cut < 1400; cut++) ask(file, cut, below(16385));
    for (unsigned n = 300; n; n--) {
        const size_t cut = between(1400, (uint32_t)length - 1);
        ask(file, cut, below(16385));
    }
    for (size_t cut = length - 20; cut < length + 20; cut++) ask(file, cut, below(16385));
}

/* ---- picture: 640 by 480 at 14 bits ---- */

enum { PICTURE_FILE = 10 + 5 + 3 * PICTURE_SAMPLES, PICTURE_MEMORY = 2 * PICTURE_COLUMNS * PICTURE_LINES };

static const dcmi_writes picture_writes = { .count = 1, .offset = { DCMI_CR }, .value = { 0x4CE1 } };
static uint32_t picture_samples[PICTURE_SAMPLES];

static void make_picture(void)
{
    picture p = { .random = 12345 };
    for (size_t i = 0; i < PICTURE_SAMPLES; i++) picture_samples[i] = picture_sample(&p);
}

/* Each pixel in its place: the sample of its line and column, two bytes. */
static void expect_pixels(void)
{
    for (size_t line = 0; line < PICTURE_LINES; line++) {
        for (size_t column = 0; column < PICTURE_COLUMNS; column++) {
            const uint8_t *byte = memory_bytes() + 2 * (PICTURE_COLUMNS * line + column);
            expect("a pixel", picture_samples[2 * (660 * (line + 5) + column)] & 0x3FFF, byte[0] | (uint32_t)byte[1] << 8);
        }
    }
}

static void full_picture(void)
{
    static const uint32_t depths[] = { 1, 4, 32 };
    size_t length = 0;
    make_picture();
    expect("a byte too few", 15, check_trace_write(&picture_writes, picture_samples, PICTURE_SAMPLES, PICTURE_FILE - 1));
    expect("the writer", 0, check_trace_write(&picture_writes, picture_samples, PICTURE_SAMPLES, PICTURE_FILE));
    const uint8_t *bytes = written_file(&length);
    expect("the length", PICTURE_FILE, length);
    memcpy(file, bytes, PICTURE_FILE);
    for (unsigned i = 0; i < 3; i++) {
        lend_memory(PICTURE_MEMORY);
        expect("the run at a depth", 0, check_run_file_depth(depths[i], file, length, 0));
        expect_pixels();
    }
    lend_memory(PICTURE_MEMORY);
    expect("the run", 0, check_run_file(file, length, 0));
    expect("landed", PICTURE_MEMORY / 4, device()[DCMI_W_LANDED]);
    expect("held and discarded", 0, device()[DCMI_W_HELD] + device()[DCMI_W_DISCARDED]);
    expect("RIS", 0x19, device()[DCMI_W_RIS]);
    expect_pixels();
    for (unsigned n = 100; n; n--) check_trace_item(file, length, below(PICTURE_SAMPLES + 3), NULL);
    file[length - 1] |= 4;
    expect("the last sample is bad", 7, check_run_file(file, length, 0));
    expect("a byte too few", 13, check_run_file(file, length - 1, 0));
}

static int write_picture(const char *name)
{
    size_t written = 0;
    make_picture();
    if (dcmi_trace_write(&picture_writes, picture_samples, PICTURE_SAMPLES, file, sizeof file, &written)) return 1;
    FILE *out = fopen(name, "wb");
    if (out && fwrite(file, 1, written, out) == written && fclose(out) == 0) return 0;
    perror(name);
    return 2;
}

/* ---- parts ---- */

static const struct {
    void (*run)(void);
    const char *what;
} parts[] = {
    { counts, "16,384 and 16,385 samples: written, read item by item, run; in the other version refused 12" },
    { limits, "4,294,967,295 samples and more given to the writer; the longest file; lengths that are right modulo 2^32" },
    { headers, "every byte of the header with every value, both versions" },
    { cuts, "a version 1 file of every length, a version 2 file of many" },
    { full_picture, "a picture of 640 by 480: written, run at four depths, every pixel where it belongs" },
};

enum { PARTS = sizeof parts / sizeof *parts };

static void run_part(unsigned part, uint64_t last)
{
    const lending how = { .at_end = true, .read_only = part % 2 == 1 };
    random_seed(70 + part);
    checked_seed(part, how, UINT64_MAX, last);
    parts[part].run();
    printf("  %s\n", parts[part].what);
}

int main(int count, char **arguments)
{
    setvbuf(stdout, NULL, _IOLBF, 0);
    if (count > 2 && strcmp(arguments[1], "picture") == 0) return write_picture(arguments[2]);
    checked_start(arguments[0]);
    if (count > 1) {
        const unsigned part = (unsigned)strtoul(arguments[1], NULL, 10);
        if (part >= PARTS) return 2;
        run_part(part, count > 2 ? strtoull(arguments[2], NULL, 10) : 0);
        return 0;
    }
    printf("Longer traces, the library against the model:\n");
    for (unsigned part = 0; part < PARTS; part++) run_part(part, 0);
    if (left_out) printf("So many addresses were not to be had: of the limits something was left out.\n");
    return 0;
}
