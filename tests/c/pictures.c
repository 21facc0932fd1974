/* W4: JPEG pictures sent as an imager sends them, through the library. Memory must hold each file, byte for byte, and the zeros that fill its last word.
 * W2: so must each of two memories, in turn.
 *
 *   pictures FILE FOLDER
 *
 * FILE is a JPEG picture. Sent are it and copies with a comment of 0 to 3 bytes in them, so that a picture ends with every number of bytes left over. FOLDER
 * gets each picture as memory holds it, picture_N.jpg, two traces, pictures_N.fgt, and what the frame printer is to print for them, pictures_N.shown.
 * The exit status is 0 if all is as it should be. */
#include <inttypes.h>
#include <stdio.h>
#include <stdlib.h>
#include <string.h>

#include "dcmi.h"
#include "inputs.h"

enum { PICTURES = 5, MOST_BYTES = 2048, MOST_SENT = 1 << 16, MEMORY = 16384 };

/* 8 bits, JPEG, all polarities 1. */
enum { CONTINUOUS = 0x40E9, SNAPSHOT = 0x40EB, UNCOMPRESSED = 0x40E1 };
enum { HBLANK = 0x4000, VBLANK = 0x8000, EDGE = 0x10000, GRANT = 0x20000, BESIDE = 0xEE };

static struct { size_t length; uint8_t byte[MOST_BYTES]; } pictures[PICTURES];
static uint32_t samples[MOST_SENT];
static size_t sent;
static uint8_t memory[MEMORY], file[10 + 5 * 255 + 3 * MOST_SENT];
static const char *part = "";

static void expect(const char *what, uint64_t want, uint64_t got)
{
    if (want == got) return;
    printf("%s, %s: expected %" PRIu64 ", it is %" PRIu64 "\n", part, what, want, got);
    exit(1);
}

/* ---- the pictures ---- */

static bool marker(const uint8_t *at, uint8_t second) { return at[0] == 0xFF && at[1] == second; }

/* A picture is a whole file: it begins with FF D8 and ends with its only FF D9. */
static void expect_picture(unsigned p)
{
    const uint8_t *byte = pictures[p].byte;
    const size_t length = pictures[p].length;
    expect("the first marker", 1, length > 4 && marker(byte, 0xD8));
    for (size_t i = 0; i + 1 < length; i++) expect("the last marker", i + 2 == length, marker(byte + i, 0xD9));
}

static void read_picture(const char *name)
{
    FILE *in = fopen(name, "rb");
    if (!in) {
        perror(name);
        exit(2);
    }
    pictures[0].length = fread(pictures[0].byte, 1, MOST_BYTES - 16, in);
    fclose(in);
    expect_picture(0);
    expect("bytes left over", 1, pictures[0].length % 4 != 0);
    for (unsigned p = 1; p < PICTURES; p++) {
        const uint8_t comment[7] = { 0xFF, 0xFE, 0, (uint8_t)(p + 1), 'D', 'C', 'M' }; /* its length counts its own two bytes */
        memcpy(pictures[p].byte, pictures[0].byte, 2);
        memcpy(pictures[p].byte + 2, comment, p + 3);
        memcpy(pictures[p].byte + p + 5, pictures[0].byte + 2, pictures[0].length - 2);
        pictures[p].length = pictures[0].length + p + 3;
        expect_picture(p);
    }
}

/* How many words the pictures fill, so many of them sent one after the other; with JPEG 0 all their bytes are packed on, and a frame's last ones dropped. */
static size_t words_of(unsigned count, bool padded)
{
    size_t words = 0;
    for (unsigned p = 0; p < count; p++) words += (pictures[p % PICTURES].length + (padded ? 3 : 0)) / 4;
    return words;
}

/* ---- the imager ---- */

/* How it sends: clocks between packets and between pictures, at most. With none between packets a picture is one packet, and the next begins behind one
 * clock of vertical blanking. */
typedef struct timing {
    uint32_t packet, gap, vertical; /* bytes; clocks; clocks */
} timing;

static void clock_pins(uint32_t pins)
{
    samples[sent++] = pins;
    samples[sent++] = pins | EDGE;
}

/* Data while a sync blanks are no data; nor are the bits above a byte. */
static void noise(uint32_t syncs, uint32_t clocks)
{
    while (clocks--) clock_pins(syncs | below(0x4000));
}

static void send(unsigned p, const timing *how)
{
    size_t at = 0;
    while (at < pictures[p].length) {
        uint32_t bytes = how->gap ? between(1, how->packet) : MOST_BYTES;
        for (; bytes && at < pictures[p].length; bytes--) clock_pins(below(64) << 8 | pictures[p].byte[at++]);
        if (how->gap && (at < pictures[p].length || chance(1, 2))) noise(HBLANK, between(1, how->gap));
    }
    noise(VBLANK | (chance(1, 2) ? HBLANK : 0), 1);
    noise(VBLANK | HBLANK, below(how->vertical));
}

/* Grants for a depth: as many as the depth in every four times as many samples, which is what is asked for with JPEG. They come every fourth sample, all at
 * once, or at random in each period. */
typedef enum { EVEN, AT_ONCE, AT_RANDOM, GRANTS } granting;

static void put_grants(uint32_t depth, granting how)
{
    bool granted[4 * 32] = { false };
    const uint32_t period = 4 * depth;
    for (uint32_t i = 0; i < depth; i++) {
        uint32_t at = how == EVEN ? 4 * i + 3 : how == AT_ONCE ? i : below(period);
        while (granted[at]) at = (at + 1) % period;
        granted[at] = true;
    }
    for (size_t i = 0; i < sent; i++) samples[i] = (samples[i] & ~(uint32_t)GRANT) | (granted[i % period] ? GRANT : 0);
}

/* So many pictures, and at the end as many samples as the last word may take to land. */
static void send_pictures(unsigned count, const timing *how, uint32_t depth, granting grants)
{
    sent = 0;
    noise(VBLANK | HBLANK, between(1, how->vertical));
    for (unsigned p = 0; p < count; p++) send(p % PICTURES, how);
    noise(VBLANK | HBLANK, 2 * depth);
    put_grants(depth, grants);
}

/* ---- what lands ---- */

/* Memory from a byte on: the pictures, each from a word on, zeros behind it. Returns the byte after them. */
static size_t expect_bytes(size_t at, unsigned count)
{
    for (unsigned p = 0; p < count; p++) {
        const size_t length = pictures[p % PICTURES].length, filled = (length + 3) / 4 * 4;
        for (size_t i = 0; i < filled; i++) expect("a byte of memory", i < length ? pictures[p % PICTURES].byte[i] : 0, memory[at + i]);

        /* What a reader knows is where the last word ends: the picture ends in it, with the last FF D9. */
        size_t end = filled;
        while (end >= 2 && !marker(memory + at + end - 2, 0xD9)) end--;
        expect("the picture's bytes", length, end);
        expect("bytes of padding, below 4", 1, filled - end < 4);
        at += filled;
    }
    return at;
}

/* After all samples: everything landed, nothing else was written. */
static void expect_landed(const dcmi_device *device, size_t start, unsigned count)
{
    const uint32_t *word = device->word;
    expect("samples", sent, word[DCMI_W_SAMPLES]);
    expect("completed", words_of(count, true), word[DCMI_W_COMPLETED]);
    expect("landed", words_of(count, true), word[DCMI_W_LANDED]);
    expect("held and discarded", 0, word[DCMI_W_HELD] + word[DCMI_W_DISCARDED]);
    expect("flags", 0x19, word[DCMI_W_RIS]);
    const size_t end = expect_bytes(start, count);
    for (size_t i = 0; i < MEMORY; i++)
        if (i < start || i >= end) expect("a byte beside them", BESIDE, memory[i]);
}

static void fresh_device(dcmi_device *device, uint32_t depth, uint32_t cr)
{
    memset(memory, BESIDE, sizeof memory);
    expect("a device", DCMI_OK, dcmi_reset_depth(device, depth));
    expect("CR", DCMI_OK, dcmi_write(device, DCMI_CR, cr));
}

/* ---- parts ---- */

static const timing packets_of = { 40, 9, 20 }, one_packet = { 0, 0, 1 };

/* dcmi_run: every depth, every way of granting; the whole trace at once. */
static void runs(void)
{
    dcmi_device device;
    part = "one run";
    for (uint32_t depth = 1; depth <= 32; depth++) {
        for (unsigned n = 0; n < 2 * GRANTS; n++) {
            const size_t start = below(40);
            send_pictures(PICTURES, n % 2 ? &one_packet : &packets_of, depth, (granting)(n / 2));
            fresh_device(&device, depth, CONTINUOUS);
            expect("the run", DCMI_OK, dcmi_run(&device, memory, sizeof memory, start, samples, sent));
            expect_landed(&device, start, PICTURES);
        }
    }
}

/* dcmi_sample: no word is lost, each lands within four times the depth of samples, and words come down to four samples apart. */
static void singles(void)
{
    static size_t completed[MOST_SENT];
    static const uint32_t depths[] = { 1, 2, 4, 5, 32 };
    dcmi_device device;
    part = "sample by sample";
    for (unsigned n = 0; n < 5 * GRANTS; n++) {
        const uint32_t depth = depths[n % 5];
        size_t words = 0, landed = 0, least = MOST_SENT;
        send_pictures(PICTURES, n % 2 ? &one_packet : &packets_of, depth, (granting)(n / 5));
        fresh_device(&device, depth, CONTINUOUS);
        for (size_t i = 0; i < sent; i++) {
            dcmi_answer answer;
            expect("a sample", DCMI_OK, dcmi_sample(&device, memory, sizeof memory, 0, samples[i], &answer));
            expect("lost", 0, answer.packed == DCMI_LOST);
            if (answer.landed) expect("its byte", 4 * landed, answer.byte);
            if (answer.landed) expect("landed in time", 1, i - completed[landed++] <= 4 * depth);
            if (answer.packed != DCMI_COMPLETED) continue;
            if (words && i - completed[words - 1] < least) least = i - completed[words - 1];
            completed[words++] = i;
        }
        if (n % 2) expect("the smallest distance", 4, least);
        expect_landed(&device, 0, PICTURES);
    }
}

/* Snapshots: the picture alone lands, FRAME says that it is there, and the next one is asked for into the same memory. */
static void snapshots(void)
{
    dcmi_device device;
    part = "snapshots";
    fresh_device(&device, 4, SNAPSHOT);
    for (unsigned p = 0; p < PICTURES; p++) {
        uint32_t cr = 0, ris = 0;
        sent = 0;
        noise(VBLANK | HBLANK, 3);
        send(p, &packets_of);
        noise(VBLANK | HBLANK, 8);
        for (unsigned more = 0; more < 2; more++) send((p + more) % PICTURES, &packets_of); /* which the snapshot leaves out */
        put_grants(4, AT_RANDOM);
        memset(memory, BESIDE, sizeof memory);
        expect("the run", DCMI_OK, dcmi_run(&device, memory, sizeof memory, 0, samples, sent));
        expect("CR", DCMI_OK, dcmi_read(&device, DCMI_CR, &cr));
        expect("CAPTURE", SNAPSHOT & ~1, cr);
        expect("RIS", DCMI_OK, dcmi_read(&device, DCMI_RIS, &ris));
        expect("flags", 0x19, ris);
        const uint32_t words = device.word[DCMI_W_PLACE];
        expect("words", (pictures[p].length + 3) / 4, words);
        for (size_t i = 0; i < 4 * words; i++) expect("a byte of memory", i < pictures[p].length ? pictures[p].byte[i] : 0, memory[i]);
        expect("the byte after it", BESIDE, memory[4 * words]);
        expect("ICR", DCMI_OK, dcmi_write(&device, DCMI_ICR, 0x1F));
        expect("re-arming", DCMI_OK, dcmi_rearm(&device));
        expect("CAPTURE again", DCMI_OK, dcmi_write(&device, DCMI_CR, SNAPSHOT));
    }
}

/* With JPEG 0 the same samples leave no picture whole that has bytes left over. */
static void uncompressed(void)
{
    dcmi_device device;
    part = "JPEG 0";
    send_pictures(PICTURES, &packets_of, 4, EVEN);
    fresh_device(&device, 4, UNCOMPRESSED);
    expect("the run", DCMI_OK, dcmi_run(&device, memory, sizeof memory, 0, samples, sent));
    expect("landed", words_of(PICTURES, false), device.word[DCMI_W_LANDED]);
    expect("a word fewer for each of four", words_of(PICTURES, true) - 4, words_of(PICTURES, false));
}

/* W2: the pictures in turn to A and B, in runs of a few hundred samples. What is handed back between them is none or a whole picture, the last that came. */
static void in_turn(void)
{
    static uint8_t memory_b[MEMORY];
    dcmi_device device;
    part = "two buffers in turn";
    for (unsigned n = 0; n < 32 * GRANTS; n++) {
        const uint32_t depth = 1 + n % 32;
        const size_t start_a = below(40), start_b = below(40);
        unsigned shown = 0;
        send_pictures(PICTURES, n % 2 ? &one_packet : &packets_of, depth, (granting)(n / 32));
        memset(memory, BESIDE, sizeof memory);
        memset(memory_b, BESIDE, sizeof memory_b);
        expect("a device", DCMI_OK, dcmi_reset_depth(&device, depth));
        expect("two buffers", DCMI_OK, dcmi_two_buffers(&device));
        expect("CR", DCMI_OK, dcmi_write(&device, DCMI_CR, CONTINUOUS));
        for (size_t i = 0; i < sent;) {
            const size_t few = between(1, 400), count = few < sent - i ? few : sent - i;
            dcmi_frame frame;
            expect("the run", DCMI_OK, dcmi_run_two(&device, memory, sizeof memory, start_a, memory_b, sizeof memory_b, start_b, samples + i, count));
            expect("handing back", DCMI_OK, dcmi_latest_frame(&device, sizeof memory, start_a, sizeof memory_b, start_b, &frame));
            i += count;
            if (frame.kind == DCMI_NO_FRAME && !shown) continue;
            const uint64_t last_kind = shown % 2 ? DCMI_FRAME_IN_A : DCMI_FRAME_IN_B;
            if (!shown || frame.kind != last_kind) shown++;
            const unsigned p = shown - 1;
            const uint8_t *from = p % 2 ? memory_b : memory;
            expect("A or B", p % 2 ? DCMI_FRAME_IN_B : DCMI_FRAME_IN_A, frame.kind);
            expect("the start", p % 2 ? start_b : start_a, frame.offset);
            expect("the length", (pictures[p].length + 3) / 4 * 4, frame.length);
            for (size_t k = 0; k < frame.length; k++) expect("a byte", k < pictures[p].length ? pictures[p].byte[k] : 0, from[frame.offset + k]);
        }
        expect("pictures shown", PICTURES, shown);
        expect("landed", words_of(PICTURES, true), device.word[DCMI_W_LANDED]);
        expect("a byte before A", start_a ? BESIDE : memory[0], memory[0]);
        expect("a byte behind them", BESIDE, memory[start_a + MOST_BYTES]);
        expect("a byte behind them", BESIDE, memory_b[start_b + MOST_BYTES]);
    }
}

static FILE *made(const char *folder, const char *name, unsigned number, const char *end)
{
    char path[512];
    snprintf(path, sizeof path, "%s/%s_%u.%s", folder, name, number, end);
    FILE *out = fopen(path, "wb");
    if (out) return out;
    perror(path);
    exit(2);
}

static void written(FILE *out, const uint8_t *bytes, size_t count)
{
    expect("a file written", 1, fwrite(bytes, 1, count, out) == count && fclose(out) == 0);
}

/* What the frame printer is to print, from the pictures themselves. */
static void print_shown(FILE *out, unsigned count)
{
    fprintf(out, "samples %zu\nwords %zu\nheld 0\ndiscarded 0\nflags 19\n", sent, words_of(count, true));
    for (unsigned n = 0; n < count; n++) {
        const unsigned p = n % PICTURES;
        for (size_t i = 0; i < pictures[p].length; i += 4) {
            uint8_t four[4] = { 0, 0, 0, 0 };
            memcpy(four, pictures[p].byte + i, pictures[p].length - i < 4 ? pictures[p].length - i : 4);
            fprintf(out, "%02X%02X%02X%02X\n", four[3], four[2], four[1], four[0]);
        }
    }
    expect("a file written", 0, (uint64_t)fclose(out));
}

/* dcmi_run_file: a trace of version 1, and one of version 2 with the pictures several times over. */
static void files(const char *folder)
{
    part = "a trace file";
    for (unsigned version = 1; version <= 2; version++) {
        const dcmi_writes writes = { .count = 1, .offset = { DCMI_CR }, .value = { CONTINUOUS } };
        const unsigned count = version == 1 ? PICTURES : 4 * PICTURES;
        size_t length = 0;
        dcmi_device device;
        send_pictures(count, &packets_of, 4, AT_RANDOM);
        expect("the writer", DCMI_OK, dcmi_trace_write(&writes, samples, sent, file, sizeof file, &length));
        expect("the version", version, file[3]);
        memset(memory, BESIDE, sizeof memory);
        expect("the run", DCMI_OK, dcmi_run_file(&device, file, length, memory, sizeof memory, 0));
        expect_landed(&device, 0, count);
        written(made(folder, "pictures", version, "fgt"), file, length);
        print_shown(made(folder, "pictures", version, "shown"), count);
    }
    for (unsigned p = 0, at = 0; p < PICTURES; p++) {
        const unsigned filled = (unsigned)(pictures[p].length + 3) / 4 * 4;
        written(made(folder, "picture", p, "jpg"), memory + at, filled);
        at += filled;
    }
}

int main(int count, char **arguments)
{
    if (count != 3) return fprintf(stderr, "usage: pictures FILE FOLDER\n"), 2;
    part = arguments[1];
    random_seed(4);
    read_picture(arguments[1]);
    runs();
    singles();
    snapshots();
    uncompressed();
    in_turn();
    files(arguments[2]);
    printf("Compressed pictures: %s, %zu bytes, and four copies with 0 to 3 bytes left over at their end, landed byte for byte, then zeros:\n", arguments[1],
           pictures[0].length);
    printf("  by dcmi_run at every depth d, with d grants in every 4d samples; one by one, no word lost, each within 4d samples, down to four apart;\n");
    printf("  as snapshots; from trace files of versions 1 and 2. The end of each is found in its last word; with JPEG 0 that word is missing.\n");
    printf("  Two buffers in turn: what dcmi_latest_frame hands back between runs is no picture or the last whole one, at every depth.\n");
    return 0;
}
