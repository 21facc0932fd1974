/* The paper's examples of compressed pictures, W4. */
#include <string.h>

#include "paper.h"

static void paper_jpeg_values(void)
{
    static const struct { uint32_t cr, answer; } rows[] = {
        { 0x8, 0 },    { 0xA, 0 },    { 0xE8, 0 },    { 0x108, 0 },  { 0x208, 0 },  { 0x4008, 0 }, { 0x40E9, 0 }, { 0x40EB, 0 }, { 0x42EB, 0 },
        { 0xC, 5 },    { 0x408, 5 },  { 0x808, 5 },   { 0xC08, 5 },  { 0x40C, 5 },  { 0x18, 5 },   { 0x30C, 5 },  { 0x308, 5 },  { 0x9, 5 },
        { 0x40ED, 5 }, { 0x44E9, 5 }, { 0x48EB, 5 },  { 0x4CE9, 5 }, { 0x40F9, 5 }, { 0x1008, 4 }, { 0x200C, 4 }, { 0x10408, 4 },
    };
    for (unsigned i = 0; i < sizeof rows / sizeof *rows; i++) {
        uint32_t image[DCMI_WORDS] = { [DCMI_W_CR] = rows[i].cr, [DCMI_W_DEPTH] = 4 };
        check_reset();
        expect("W4, CR written", rows[i].answer, check_write(DCMI_CR, rows[i].cr));
        expect_register("W4, CR", DCMI_CR, rows[i].answer ? 0 : rows[i].cr);
        set_device(image);
        expect("W4, CR handed in", rows[i].answer != 0, check_rearm());
    }
    check_reset();
    check_write(DCMI_CR, 0x40E1);
    expect("W4, set while enabled", 6, check_write(DCMI_CR, 0x40E9));
    check_write(DCMI_CR, 0xE0);
    check_write(DCMI_CR, 0x40E9);
    expect("W4, cleared while enabled", 6, check_write(DCMI_CR, 0x40E1));
    expect("W4, CROP while enabled", 5, check_write(DCMI_CR, 0x40ED));
}

/* W4. A device with a frame open, and so many bytes in it: 0x11, 0x12 and so on, the data bits above them 1. */
static void jpeg_bytes(uint32_t first, unsigned count)
{
    for (unsigned i = 0; i < count; i++) clocks(1, 0x3F00 | (first + i));
}

static void jpeg_frame(uint32_t cr, uint32_t depth, unsigned count)
{
    check_reset_depth(depth);
    lend_memory(16);
    check_write(DCMI_CWSTRT, 0x10001); /* plays no part with CROP 0 */
    expect("W4, setting up", 0, check_write(DCMI_CR, cr));
    expect_flags("W4, blank edge", HBLANK | VBLANK, 0x18);
    expect_flags("W4, the frame starts", HBLANK, 0x18);
    jpeg_bytes(0x11, count);
}

/* The word of the last bytes, so many, when there were `count`. */
static uint32_t jpeg_word(unsigned count, unsigned last)
{
    uint32_t word = 0;
    for (unsigned i = 0; i < last; i++) word |= (0x11 + count - last + i) << 8 * i;
    return word;
}

/* The clock of frame end: what its working edge answers, and the flags. */
static void expect_end(const char *what, uint32_t pins, uint64_t packed, uint64_t value, uint32_t ris)
{
    dcmi_answer answer = { 0, 0, 0, 0 };
    check_sample(0, pins & ~UINT32_C(0x20000), NULL);
    check_sample(0, 0x10000 | pins, &answer);
    expect(what, packed, answer.packed);
    expect(what, value, answer.value);
    expect_register(what, DCMI_RIS, ris);
    expect("W4, the frame is closed", 0, device()[DCMI_W_FRAME] | device()[DCMI_W_PARTIAL_COUNT] | device()[DCMI_W_PARTIAL_BITS]);
}

/* W4. Frames of 0 to 9 bytes, continuous and snapshot, ended by VSYNC alone and by both syncs; what lands. With JPEG 0 the rest is dropped. */
static void paper_jpeg_left(uint32_t cr, uint32_t pins)
{
    for (unsigned count = 0; count < 10; count++) {
        const unsigned left = count % 4;
        const bool pads = (cr & 0x8) && left;
        jpeg_frame(cr, 4, count);
        expect("W4, whole words", count / 4, device()[DCMI_W_COMPLETED]);
        expect_end("W4, frame end", pins, pads ? DCMI_COMPLETED : DCMI_NOTHING, pads ? jpeg_word(count, left) : 0, 0x19);
        expect_register("W4, CAPTURE", DCMI_CR, cr & 0x2 ? cr & ~UINT32_C(1) : cr);
        expect_device("W4, the words", 0, count / 4 + pads, 0, 0x19);
        for (unsigned i = 0; i < count / 4 + pads; i++) {
            check_sample(0, 0x30000 | pins, NULL);
            expect_word("W4, memory", 4 * i, i < count / 4 ? jpeg_word(4 * i + 4, 4) : jpeg_word(count, left));
        }
        expect_device("W4, landed", count / 4 + pads, 0, 0, 0x19);
    }
}

/* W4. The FIFO full at frame end: with nothing left over it stays so; a padded word is lost with the rest, or finds room by a grant in that sample. */
static void paper_jpeg_full(uint32_t cr, uint32_t depth)
{
    const uint32_t after = cr & 0x2 ? cr & ~UINT32_C(1) : cr, end = HBLANK | VBLANK;
    jpeg_frame(cr, depth, 4 * depth);
    expect_end("W4, full, nothing left over", end, DCMI_NOTHING, 0, 0x19);
    expect_device("W4, full, nothing left over", 0, depth, 0, 0x19);
    for (unsigned left = 1; left < 4; left++) {
        const unsigned count = 4 * depth + left;
        jpeg_frame(cr, depth, count);
        expect_end("W4, lost", end, DCMI_LOST, 0, 0x1A);
        expect_device("W4, lost", 0, 0, depth + 1, 0x1A);
        expect("W4, completed", depth + 1, device()[DCMI_W_COMPLETED]);
        expect_register("W4, CAPTURE, lost", DCMI_CR, after);

        jpeg_frame(cr, depth, count);
        expect_end("W4, granted", 0x20000 | end, DCMI_COMPLETED, jpeg_word(count, left), 0x19);
        expect_device("W4, granted", 1, depth, 0, 0x19);
        expect_register("W4, CAPTURE, granted", DCMI_CR, after);

        jpeg_frame(cr, depth, count);
        lend_memory(3);
        expect_end("W4, granted without room", 0x20000 | end, DCMI_LOST, 0, 0x1A);
        expect_device("W4, granted without room", 0, 0, depth + 1, 0x1A);

        jpeg_frame(cr, depth, count - 4);
        expect_end("W4, the last slot", end, DCMI_COMPLETED, jpeg_word(count - 4, left), 0x19);
        expect_device("W4, the last slot", 0, depth, 0, 0x19);
    }
}

/* W4. FRAME of the frame before stays 1 where a padded word is lost, and so does the place; the VSYNC flag rises all the same. The next frame is captured. */
static void paper_jpeg_after(void)
{
    jpeg_frame(0x40E9, 2, 1);
    expect_end("W4, the frame before", HBLANK | VBLANK, DCMI_COMPLETED, 0x11, 0x19);
    check_sample(0, 0x30000 | HBLANK | VBLANK, NULL);
    check_write(DCMI_ICR, 0x18);
    clocks(1, HBLANK);
    jpeg_bytes(0x11, 10);
    expect_end("W4, lost, FRAME stays", VBLANK, DCMI_LOST, 0, 0x0B);
    expect_device("W4, lost, FRAME stays", 1, 0, 3, 0x0B);
    expect("W4, lost, the place", 1, device()[DCMI_W_PLACE]);
    check_write(DCMI_ICR, 0x1F);
    jpeg_bytes(0x21, 7);
    expect_end("W4, the frame after", VBLANK, DCMI_COMPLETED, 0x272625, 0x09);
    expect_device("W4, the frame after", 1, 2, 3, 0x09);
    check_sample(0, 0x30000 | VBLANK, NULL);
    expect_word("W4, its first word", 4, 0x24232221);
}

/* W4. A full word that overruns inside the frame closes it, and nothing is left to pad. Zeros are bytes too. A frame end counts as one also in a device
 * that is handed in with VSYNC remembered as blanking. */
static void paper_jpeg_others(void)
{
    uint32_t image[DCMI_WORDS];
    jpeg_frame(0x40E9, 1, 7);
    expect_device("W4, before the overrun", 0, 1, 0, 0x18);
    jpeg_bytes(0x18, 1);
    expect_device("W4, overrun inside the frame", 0, 0, 2, 0x1A);
    expect("W4, overrun inside the frame", 0, device()[DCMI_W_FRAME]);
    jpeg_bytes(0x19, 3);
    expect_end("W4, after the overrun", VBLANK, DCMI_NOTHING, 0, 0x1A);

    for (unsigned left = 1; left < 4; left++) {
        jpeg_frame(0x40E9, 4, 4);
        clocks(left, 0x3F00);
        expect_end("W4, zeros", VBLANK, DCMI_COMPLETED, 0, 0x19);
        expect_device("W4, zeros", 0, 2, 0, 0x19);
    }

    jpeg_frame(0x40E9, 4, 3);
    check_write(DCMI_ICR, 0x1F);
    memcpy(image, device(), sizeof image);
    image[DCMI_W_VSYNC_BLANKED] = 1;
    set_device(image);
    expect_end("W4, VSYNC remembered as blanking", HBLANK | VBLANK, DCMI_COMPLETED, 0x131211, 0x11);
}

/* W4. HSYNC marks valid data: what comes while it blanks is none, the word goes on after it, LINE rises, lines and columns count. */
static void paper_jpeg_packets(void)
{
    jpeg_frame(0x40E9, 4, 2);
    check_write(DCMI_ICR, 0x1F);
    expect_flags("W4, the packet ends", HBLANK | 0xEE, 0x10);
    clocks(2, HBLANK | 0xEE);
    check_write(DCMI_ICR, 0x1F);
    jpeg_bytes(0x13, 3);
    expect_device("W4, the word goes on", 0, 1, 0, 0);
    expect("W4, its bytes", 0x14131211, device()[DCMI_W_SLOT]);
    expect("W4, lines", 2, device()[DCMI_W_LINES]);
    expect("W4, columns", 3, device()[DCMI_W_PIXELS]);
    expect_flags("W4, the packet ends", HBLANK | 0xEE, 0x10);
    expect_end("W4, after the packet", HBLANK | VBLANK | 0xEE, DCMI_COMPLETED, 0x15, 0x19);
}

/* W4. Nothing is padded in a frame that is not taken, or where disabling ends it; CAPTURE cleared inside a frame changes nothing. */
static void paper_jpeg_without(void)
{
    jpeg_frame(0x41E9, 4, 5); /* every second frame */
    expect_end("W4, a taken frame", HBLANK | VBLANK, DCMI_COMPLETED, 0x15, 0x19);
    check_write(DCMI_ICR, 0x1F);
    jpeg_bytes(0x21, 7);
    expect("W4, an untaken frame", 1, device()[DCMI_W_FRAME]);
    expect_end("W4, its end", HBLANK | VBLANK, DCMI_NOTHING, 0, 0x18);
    expect_device("W4, its end", 0, 2, 0, 0x18);

    jpeg_frame(0x40E9, 4, 7);
    check_write(DCMI_CR, 0xE8);
    expect_device("W4, disabled", 0, 0, 1, 0x18);
    expect("W4, disabled, completed", 1, device()[DCMI_W_COMPLETED]);
    expect("W4, disabled, left over", 0, device()[DCMI_W_PARTIAL_COUNT] | device()[DCMI_W_PARTIAL_BITS]);

    jpeg_frame(0x40EB, 4, 6);
    check_write(DCMI_CR, 0x40EA);
    expect_end("W4, CAPTURE cleared", HBLANK | VBLANK, DCMI_COMPLETED, 0x1615, 0x19);
    expect_register("W4, CAPTURE cleared", DCMI_CR, 0x40EA);
}

/* W4. A padded word comes four samples after the one before, with two bytes left over six: the bytes and the frame end are an edge each. */
static void paper_jpeg_pace(void)
{
    for (unsigned left = 1; left < 4; left++) {
        jpeg_frame(0x40E9, 4, 4);
        const uint32_t before = device()[DCMI_W_SAMPLES];
        expect("W4, the word before", 1, device()[DCMI_W_COMPLETED]);
        jpeg_bytes(0x15, left);
        expect_end("W4, a padded word", VBLANK, DCMI_COMPLETED, jpeg_word(4 + left, left), 0x19);
        expect("W4, samples between them", 2 * left + 2, device()[DCMI_W_SAMPLES] - before);
    }
}

void paper_compressed(void)
{
    static const uint32_t values[] = { 0x40E9, 0x40EB, 0x40E1, 0x40E3 };
    paper_jpeg_values();
    for (unsigned i = 0; i < 4; i++) {
        paper_jpeg_left(values[i], VBLANK);
        paper_jpeg_left(values[i], HBLANK | VBLANK);
    }
    for (uint32_t depth = 1; depth <= 32; depth++) {
        paper_jpeg_full(0x40E9, depth);
        paper_jpeg_full(0x40EB, depth);
    }
    paper_jpeg_after();
    paper_jpeg_others();
    paper_jpeg_packets();
    paper_jpeg_without();
    paper_jpeg_pace();
}
