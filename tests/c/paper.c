/* The paper's examples: trace T, crop, W1, W9, refusals and trace files. */
#include <inttypes.h>
#include <stdio.h>
#include <string.h>

#include "kinds.h"
#include "paper.h"

void expect(const char *what, uint64_t want, uint64_t got)
{
    if (want == got) return;
    printf("the paper's examples, %s: the paper has 0x%" PRIX64 ", the model 0x%" PRIX64 "\n", what, want, got);
    differs("not as the paper says");
}

void expect_register(const char *what, uint32_t offset, uint32_t want)
{
    uint32_t value = 0;
    expect(what, 0, check_read(offset, &value));
    expect(what, want, value);
}

void expect_word(const char *what, size_t at, uint32_t want)
{
    const uint8_t *byte = memory_bytes() + at;
    expect(what, want, byte[0] | (uint32_t)byte[1] << 8 | (uint32_t)byte[2] << 16 | (uint32_t)byte[3] << 24);
}

void expect_device(const char *what, uint32_t landed, uint32_t held, uint32_t discarded, uint32_t ris)
{
    expect(what, landed, device()[DCMI_W_LANDED]);
    expect(what, held, device()[DCMI_W_HELD]);
    expect(what, discarded, device()[DCMI_W_DISCARDED]);
    expect_register(what, DCMI_RIS, ris);
}

static const uint32_t trace_t[8] = { 0x0C000, 0x1C000, 0x00AAB, 0x10AAB, 0x0091B, 0x1091B, 0x2C000, 0x1C000 };

/* Trace T with some CR, sample by sample; the word that it completes. */
static uint32_t word_of_t(uint32_t cr)
{
    uint32_t word = 0;
    check_reset();
    lend_memory(16);
    expect("setting up T", 0, check_write(DCMI_CR, cr));
    for (unsigned i = 0; i < 8; i++) {
        dcmi_answer answer;
        expect("T", 0, check_sample(0, trace_t[i], &answer));
        if (answer.packed == DCMI_COMPLETED) word = (uint32_t)answer.value;
        expect("the landing of T", cr != 0x40E3 && i == 6, answer.landed);
    }
    return word;
}

void pixels(unsigned count, bool grant)
{
    lend_memory(16);
    check_write(DCMI_CR, 0x48E3);
    check_sample(0, 0x0C000, NULL);
    check_sample(0, 0x1C000, NULL);
    for (unsigned i = 1; i <= count; i++) {
        check_sample(0, i, NULL);
        check_sample(0, 0x10000 | i | (grant && i == count ? 0x20000 : 0), NULL);
    }
}

static void paper_crop(void)
{
    static const uint32_t data[4] = { 2731, 2331, 2732, 2733 };
    dcmi_answer answer = { 0, 0, 0, 0 };
    uint64_t word = 0;
    check_reset();
    lend_memory(16);
    check_write(DCMI_CWSTRT, 1);
    check_write(DCMI_CWSIZE, 1);
    check_write(DCMI_CR, 0x48E7);
    check_sample(0, 0x2C000, NULL);
    check_sample(0, 0x3C000, NULL);
    for (unsigned i = 0; i < 4; i++) {
        check_sample(0, 0x20000 | data[i], NULL);
        check_sample(0, 0x30000 | data[i], &answer);
        if (answer.packed) word = answer.value;
    }
    expect("cropped word", 0x0AAC091B, word);
    expect_word("memory of the crop", 0, 0x0AAC091B);
    expect_device("crop", 1, 0, 0, 0x18);
}

void clocks(unsigned count, uint32_t pins)
{
    for (unsigned i = 0; i < count; i++) {
        check_sample(0, pins, NULL);
        check_sample(0, 0x10000 | pins, NULL);
    }
}

void expect_flags(const char *what, uint32_t pins, uint32_t ris)
{
    clocks(1, pins);
    expect_register(what, DCMI_RIS, ris);
}

/* 12 bits and a window whose last line is line 1, then one blank edge. */
static void window_set_up(uint32_t cr, uint32_t cwstrt, uint32_t cwsize)
{
    check_reset();
    lend_memory(16);
    check_write(DCMI_CWSTRT, cwstrt);
    check_write(DCMI_CWSIZE, cwsize);
    expect("W1, setting up", 0, check_write(DCMI_CR, cr));
    expect_flags("W1, blank edge", HBLANK | VBLANK, 0x18);
}

/* Lines 0 and 1 of three pixels; FRAME comes with the end of line 1 and not before. */
static void two_lines(const char *what)
{
    clocks(3, 1);
    expect_flags(what, HBLANK, 0x18);
    clocks(3, 2);
    check_sample(0, HBLANK, NULL);
    expect_register(what, DCMI_RIS, 0x18);
    check_sample(0, 0x10000 | HBLANK, NULL);
    expect_register(what, DCMI_RIS, 0x19);
}

/* Continuous, lines 0 and 1, columns 0 and 1: FRAME once in each frame, also if it is cleared inside it. */
static void paper_window_continuous(void)
{
    window_set_up(0x48E5, 0, 0x10001);
    for (unsigned frame = 0; frame < 2; frame++) {
        two_lines("W1, end of the window's last line");
        expect("W1, the frame is open", 2, device()[DCMI_W_FRAME]);
        check_write(DCMI_ICR, 1);
        expect_flags("W1, HSYNC blanks on", HBLANK, 0x18);
        expect_flags("W1, the next line begins", 3, 0x18);
        expect_flags("W1, the next line ends", HBLANK, 0x18);
        expect_flags("W1, frame end", HBLANK | VBLANK, 0x18);
        expect("W1, the frame is closed", 0, device()[DCMI_W_FRAME]);
    }
    expect_device("W1, two words a frame", 0, 4, 0, 0x18);
    expect_register("W1, CR", DCMI_CR, 0x48E5);
}

/* Snapshot, line 1 from column 3 on, so that nothing is captured: FRAME all the same, CAPTURE cleared at frame end. */
static void paper_window_snapshot(void)
{
    window_set_up(0x48E7, 0x10003, 0);
    two_lines("W1, nothing captured");
    expect_register("W1, CAPTURE stays", DCMI_CR, 0x48E7);
    check_write(DCMI_ICR, 1);
    clocks(1, 3);
    expect_flags("W1, frame end", VBLANK, 0x18);
    expect_register("W1, CAPTURE cleared", DCMI_CR, 0x48E6);
    expect_device("W1, no word", 0, 0, 0, 0x18);
}

/* With CROP 0, or in an untaken frame, the end of line 1 is nothing special. */
static void paper_window_none(void)
{
    window_set_up(0x48E1, 0, 0x10001);
    clocks(1, 1);
    clocks(1, HBLANK);
    clocks(1, 2);
    expect_flags("W1, CROP 0", HBLANK, 0x18);
    expect_flags("W1, frame end", HBLANK | VBLANK, 0x19);
    window_set_up(0x49E5, 0, 0x10001); /* every second frame */
    two_lines("W1, a taken frame");
    check_write(DCMI_ICR, 1);
    clocks(1, HBLANK | VBLANK);
    clocks(1, 1);
    clocks(1, HBLANK);
    clocks(1, 2);
    expect_flags("W1, an untaken frame", HBLANK, 0x18);
    expect_flags("W1, its end", HBLANK | VBLANK, 0x18);
}

/* Line 1 never ends: it does not begin, it runs when VSYNC blanks, both syncs blank at once. Then an overrun in it. */
static void paper_window_unended(void)
{
    window_set_up(0x48E7, 0, 0x10001);
    clocks(1, 1);
    expect_flags("W1, line 0 ends", HBLANK, 0x18);
    expect_flags("W1, line 1 never begins", HBLANK | VBLANK, 0x19);
    expect_register("W1, CAPTURE cleared", DCMI_CR, 0x48E6);
    for (unsigned both = 0; both < 2; both++) {
        window_set_up(0x48E7, 0, 0x10001);
        clocks(1, 1);
        clocks(1, HBLANK);
        expect_flags("W1, line 1 runs", 2, 0x18);
        expect_flags("W1, VSYNC blanks in line 1", both ? HBLANK | VBLANK : VBLANK, 0x19);
        expect_register("W1, CAPTURE cleared", DCMI_CR, 0x48E6);
    }
    window_set_up(0x48E5, 0x10000, 9);
    clocks(1, 1);
    clocks(1, HBLANK);
    clocks(9, 2);
    expect_flags("W1, overrun in line 1", 2, 0x1A);
    expect_flags("W1, end of line 1 after the overrun", HBLANK, 0x1A);
    expect_flags("W1, frame end after the overrun", HBLANK | VBLANK, 0x1A);
}

/* W9. A device that holds as many words as its depth, handed in with another depth: one less is malformed, one more is not, up to 32. */
static void paper_held(uint32_t depth)
{
    uint32_t image[DCMI_WORDS], other[DCMI_WORDS];
    memcpy(image, device(), sizeof image);
    memcpy(other, device(), sizeof other);
    other[DCMI_W_DEPTH] = depth - 1;
    set_device(other);
    expect("W9, more held than the depth", 1, check_interrupt());
    other[DCMI_W_DEPTH] = depth + 1;
    set_device(other);
    expect("W9, fewer held than the depth", depth < 32 ? 0 : 1, check_interrupt());
    set_device(image);
}

/* W9. The paper's nine and ten pixels at a depth: two fill a word, the next overruns, a grant with it makes room; all in the order they came. */
static void paper_depth(uint32_t depth)
{
    expect("W9, a depth", 0, check_reset_depth(depth));
    pixels(2 * depth + 1, false);
    expect_device("W9, as many as the depth", 0, depth, 0, 0x18);
    expect("W9, disabling", 0, check_write(DCMI_CR, 0x08E2));
    expect_device("W9, disabling discards them", 0, 0, depth, 0x18);
    expect("W9, disabling leaves the depth", depth, device()[DCMI_W_DEPTH]);

    check_reset_depth(depth);
    pixels(2 * depth + 2, false);
    expect_device("W9, one more", 0, 0, depth + 1, 0x1A);
    expect_register("W9, CAPTURE cleared", DCMI_CR, 0x48E2);

    check_reset_depth(depth);
    pixels(2 * depth + 2, true);
    expect_device("W9, one more, granted", 1, depth, 0, 0x18);
    expect("W9, the depth stays", depth, device()[DCMI_W_DEPTH]);
    paper_held(depth);
    check_rearm();
    lend_memory(4 * depth);
    for (uint32_t i = 0; i < depth; i++) {
        dcmi_answer answer = { 0, 0, 0, 0 };
        check_sample(0, 0x20000, &answer);
        expect("W9, the byte", 4 * i, answer.byte);
        expect_word("W9, the order", 4 * i, (2 * i + 4) << 16 | (2 * i + 3));
    }
    expect_device("W9, all landed", depth + 1, 0, 0, 0x18);
}

/* W9. A file of no bytes is refused 18 before 13, one that is accepted too; the device stays. In a device that is handed in a bad depth is 1. */
static void paper_bad_depth(uint32_t depth)
{
    static const uint8_t empty[8] = { 'F', 'G', 'T', 1, 0, 0, 0, 0 };
    uint32_t image[DCMI_WORDS];
    check_reset_depth(7);
    memcpy(image, device(), sizeof image);
    pixels(5, false);
    expect("W9, a bad depth", 18, check_reset_depth(depth));
    expect("W9, a file of no bytes", 18, check_run_file_depth(depth, NULL, 0, 17));
    expect("W9, an accepted file", 18, check_run_file_depth(depth, empty, 8, 0));
    expect("W9, the same at a depth", 13, check_run_file_depth(32, empty, 7, 0));
    expect_device("W9, the device stays", 0, 2, 0, 0x18);
    image[DCMI_W_DEPTH] = depth;
    set_device(image);
    expect("W9, handed in, written", 1, check_write(DCMI_IER, 0));
    expect("W9, handed in, read", 1, check_read(DCMI_SR, NULL));
    expect("W9, handed in, the line", 1, check_interrupt());
    expect("W9, handed in, re-armed", 1, check_rearm());
    expect("W9, handed in, one sample", 1, check_sample(17, 0x40000, NULL));
    expect("W9, handed in, a run", 1, check_run(0, NULL, 0));
    expect("W9, handed in, a file", 0, check_run_file_depth(32, empty, 8, 0));
    expect("W9, the file's depth", 32, device()[DCMI_W_DEPTH]);
    expect("W9, a file where none is named", 0, check_run_file(empty, 8, 0));
    expect("W9, four", 4, device()[DCMI_W_DEPTH]);
    set_device(image);
    expect("W9, handed in, a depth", 0, check_reset_depth(1));
    set_device(image);
    expect("W9, reset where none is named", 0, check_reset());
    expect("W9, four", 4, device()[DCMI_W_DEPTH]);
}

/* W9. Unused slots are all from the held words on to the last, also beyond the depth. */
static void paper_slots(void)
{
    uint32_t image[DCMI_WORDS];
    for (uint32_t depth = 1; depth <= 32; depth++) {
        for (uint32_t slot = 0; slot < 32; slot++) {
            memset(image, 0, sizeof image);
            image[DCMI_W_DEPTH] = depth;
            set_device(image);
            expect("W9, a fresh device", 0, check_rearm());
            image[DCMI_W_SLOT + slot] = 1;
            set_device(image);
            expect("W9, a slot with no word held", 1, check_rearm());
        }
    }
}

static void paper_depths(void)
{
    static const uint32_t bad[] = { 0, 33, 34, 256, 257, 288, 0x10004, 0x80000020, UINT32_MAX };
    for (uint32_t depth = 1; depth <= 32; depth++) paper_depth(depth);
    for (unsigned i = 0; i < sizeof bad / sizeof *bad; i++) paper_bad_depth(bad[i]);
    paper_slots();
}

/* W4. CR values on a fresh device, and in one that is handed in; the answer of a write. */

static void paper_refusals(void)
{
    check_reset();
    expect("CR 0x1008", 4, check_write(DCMI_CR, 0x1008));
    expect("CR 0x8", 0, check_write(DCMI_CR, 0x8)); /* W4 */
    expect("sample 0x40000", 7, check_sample(0, 0x40000, NULL));
    expect("sample 0x3FFFF", 0, check_sample(0, 0x3FFFF, NULL));
    check_write(DCMI_CR, 0x4000);
    expect("CWSTRT while enabled", 6, check_write(DCMI_CWSTRT, 0));
}

static void paper_memory(void)
{
    static const struct { size_t start; uint32_t answer, landed; } rows[] = { { 4, 0, 1 }, { 5, 0, 0 }, { 8, 0, 0 }, { 9, 9, 0 } };
    for (unsigned i = 0; i < 4; i++) {
        check_reset();
        lend_memory(8);
        check_write(DCMI_CR, 0x48E3);
        expect("start byte", rows[i].answer, check_run(rows[i].start, trace_t, 8));
        expect("landed", rows[i].landed, device()[DCMI_W_LANDED]);
        if (rows[i].landed) expect_word("memory of T", rows[i].start, 0x091B0AAB);
        expect("empty run", rows[i].answer, check_run(rows[i].start, NULL, 0));
    }
}

static void paper_file(void)
{
    static const uint8_t printed[37] = {
        0x46, 0x47, 0x54, 0x01, 0x00, 0x01, 0x08, 0x00, 0x00, 0xE3, 0x48, 0x00, 0x00, 0x00, 0xC0, 0x00, 0x00, 0xC0, 0x01,
        0xAB, 0x0A, 0x00, 0xAB, 0x0A, 0x01, 0x1B, 0x09, 0x00, 0x1B, 0x09, 0x01, 0x00, 0xC0, 0x02, 0x00, 0xC0, 0x01,
    };
    lend_memory(16384);
    expect("printed file", 0, check_run_file(printed, sizeof printed, 0));
    expect("samples", 8, device()[DCMI_W_SAMPLES]);
    expect_word("memory of the printed file", 0, 0x091B0AAB);
    expect_device("printed file", 1, 0, 0, 0x19);
    expect_register("CR after T", DCMI_CR, 0x48E2);
    expect_register("SR after T", DCMI_SR, 3);
    expect("ICR", 0, check_write(DCMI_ICR, 1));
    expect_register("RIS after ICR", DCMI_RIS, 0x18);
}

/* W7. A header alone, answered alike by the three calls that read a file. */
static void expect_header(const char *what, uint32_t want, const uint8_t *header, size_t length)
{
    expect(what, want, check_run_file(header, length, 0));
    expect(what, want, check_run_file_depth(1, header, length, 0));
    expect(what, want, check_trace_item(header, length, 0, NULL));
}

static void paper_headers(void)
{
    static const uint8_t none[12] = { 'F', 'G', 'T', 2 }, last[12] = { 'F', 'G', 'T', 2, 0, 0, 0x00, 0x40 };
    static const uint8_t first[12] = { 'F', 'G', 'T', 2, 0, 0, 0x01, 0x40 }, wraps[12] = { 'F', 'G', 'T', 2, 0, 0, 0x56, 0x55, 0x55, 0x55 };
    static const uint8_t more[12] = { 'F', 'G', 'T', 1, 0, 0, 0x01, 0x40 }, third[12] = { 'F', 'G', 'T', 3 }, high[12] = { 'F', 'G', 'T', 2, 1 };
    static const uint8_t high_1[12] = { 'F', 'G', 'T', 1, 1 }, mark[12] = { 'F', 'G', 't', 2 };
    lend_memory(16);
    for (size_t length = 0; length < 8; length++) expect_header("W7, below 8 bytes", 13, mark, length);
    expect_header("W7, mark, 8 bytes", 10, mark, 8);
    expect_header("W7, version 3", 11, third, 8);
    expect_header("W7, version 258", 11, high, 9);
    expect_header("W7, version 257", 11, high_1, 8);
    expect_header("W7, version 2, 8 bytes", 13, none, 8);
    expect_header("W7, version 2, 9 bytes", 13, none, 9);
    expect_header("W7, version 2, no sample", 12, none, 10);
    expect_header("W7, version 2, 16,384 samples, 9 bytes", 13, last, 9);
    expect_header("W7, version 2, 16,384 samples", 12, last, 10);
    expect_header("W7, version 2, 16,385 samples", 13, first, 10);
    expect_header("W7, version 1, 16,385 samples", 12, more, 8);
    expect_header("W7, length modulo 2^32", 13, wraps, 12);
}

/* W7. 16,384 samples are version 1, 16,385 version 2; what was written is accepted, and in the other version it is not. */
static void paper_versions(void)
{
    static const uint8_t head[2][10] = { { 'F', 'G', 'T', 1, 0, 1, 0x00, 0x40, 0x00, 0xE3 }, { 'F', 'G', 'T', 2, 0, 1, 0x01, 0x40, 0x00, 0x00 } };
    lend_memory(16);
    for (unsigned i = 0; i < 2; i++) {
        const size_t length = i == 0 ? 8 + 5 + 3 * 16384 : 10 + 5 + 3 * 16385;
        size_t written = 0;
        t.writes = (dcmi_writes){ .count = 1, .offset = { DCMI_CR }, .value = { 0x48E3 } };
        t.count = 16384 + i;
        for (size_t k = 0; k < t.count; k++) t.samples[k] = trace_t[k % 8];
        expect("W7, a byte too few", 15, check_trace_write(&t.writes, t.samples, t.count, length - 1));
        expect("W7, written", 0, check_trace_write(&t.writes, t.samples, t.count, length));
        const uint8_t *bytes = written_file(&written);
        expect("W7, the length", length, written);
        expect("W7, the header", 0, (uint64_t)(memcmp(bytes, head[i], 10) != 0));
        memcpy(file, bytes, length);
        expect("W7, run", 0, check_run_file(file, length, 0));
        expect("W7, samples", t.count, device()[DCMI_W_SAMPLES]);
        expect_word("W7, memory", 0, 0x091B0AAB);
        expect("W7, the last sample", 0, check_trace_item(file, length, t.count, NULL));
        expect("W7, in the other version", 12, check_run_file(file, trace_file_as(&t, 2 - i, file), 0));
    }
}

void paper_examples(void)
{
    check_reset();
    expect_register("fresh SR", DCMI_SR, 3);
    expect("T at 12 bits", 0x091B0AAB, word_of_t(0x48E3));
    expect("T at 10 bits", 0x011B02AB, word_of_t(0x44E3));
    expect("T at 8 bits", 0, word_of_t(0x40E3));
    expect_device("T at 8 bits", 0, 0, 0, 0x19);
    check_reset();
    pixels(9, false);
    expect_device("nine pixels", 0, 4, 0, 0x18);
    check_reset();
    pixels(10, false);
    expect_device("ten pixels", 0, 0, 5, 0x1A);
    check_reset();
    pixels(10, true);
    expect_device("ten pixels, granted", 1, 4, 0, 0x18);
    paper_crop();
    paper_window_continuous();
    paper_window_snapshot();
    paper_window_none();
    paper_window_unended();
    paper_depths();
    paper_compressed();
    paper_codes();
    paper_buffers();
    paper_refusals();
    paper_memory();
    paper_file();
    paper_headers();
    paper_versions();
}
