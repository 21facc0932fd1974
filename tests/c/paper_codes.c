/* The paper's examples of codes in the data, W6. */
#include <string.h>

#include "paper.h"

/* W6. Bytes of an imager with codes, two samples each, the second at the working edge; the sync pins go through all levels, the data bits above are 1. The
 * answer is the last byte's. */
static dcmi_answer send(const uint8_t *bytes, size_t count)
{
    static uint32_t pins;
    dcmi_answer answer = { 0, 0, 0, 0 };
    for (size_t i = 0; i < count; i++) {
        check_sample(0, 0x3F00 | (pins++ & 3) << 14 | bytes[i], NULL);
        check_sample(0, 0x13F00 | (pins++ & 3) << 14 | bytes[i], &answer);
    }
    return answer;
}

#define SEND(...) send((const uint8_t[]){ __VA_ARGS__ }, sizeof (const uint8_t[]){ __VA_ARGS__ })

static const uint32_t in_pairs = 0xFF9D80FF; /* no frame codes: line start and line end are SAV and EAV of lines that are not blanking */

static void coded(uint32_t depth, uint32_t cr, uint32_t escr, uint32_t esur)
{
    check_reset_depth(depth);
    lend_memory(16);
    check_write(DCMI_ESCR, escr);
    check_write(DCMI_ESUR, esur);
    expect("W6, setting up", 0, check_write(DCMI_CR, cr));
}

static void coded_usual(uint32_t cr) { coded(4, cr, FOUR_CODES, UINT32_MAX); }

void expect_answer(const char *what, dcmi_answer answer, uint64_t packed, uint64_t value)
{
    expect(what, packed, answer.packed);
    expect(what, value, answer.value);
}

/* SR without FNE, RIS, the frame, lines and pixels. */
static void expect_place(const char *what, uint32_t sr, uint32_t ris, uint32_t frame, uint32_t lines, uint32_t pixels_of_line)
{
    uint32_t value = 0;
    check_read(DCMI_SR, &value);
    expect(what, sr, value & 3);
    expect_register(what, DCMI_RIS, ris);
    expect(what, frame, device()[DCMI_W_FRAME]);
    expect(what, lines, device()[DCMI_W_LINES]);
    expect(what, pixels_of_line, device()[DCMI_W_PIXELS]);
}

static void paper_codes_registers(void)
{
    static const uint32_t values[] = { 0, 1, 0x54535251, 0x80000000, UINT32_MAX };
    check_reset();
    expect_register("W6, fresh ESCR", DCMI_ESCR, 0);
    expect_register("W6, fresh ESUR", DCMI_ESUR, 0);
    for (unsigned i = 0; i < 5; i++) {
        expect("W6, ESCR written", 0, check_write(DCMI_ESCR, values[i]));
        expect("W6, ESUR written", 0, check_write(DCMI_ESUR, ~values[i]));
        expect_register("W6, ESCR", DCMI_ESCR, values[i]);
        expect_register("W6, ESUR", DCMI_ESUR, ~values[i]);
    }
    check_write(DCMI_CR, 0x4000); /* enabled, ESS 0 */
    expect("W6, ESCR while enabled", 6, check_write(DCMI_ESCR, UINT32_MAX));
    expect("W6, ESUR while enabled", 6, check_write(DCMI_ESUR, 0));
    expect("W6, another ESUR while enabled", 6, check_write(DCMI_ESUR, 1));
    expect("W6, ESS set while enabled", 6, check_write(DCMI_CR, 0x4010));
    expect("W6, ESS with JPEG before enabled", 5, check_write(DCMI_CR, 0x4018));
    expect("W6, a word after CWSIZE", 2, check_write(0x28, 0));
}

/* Every CR value with ESS 1, written and handed in. */
static void paper_codes_values(void)
{
    for (uint32_t cr = 0x10; cr < 0x8000; cr = (cr + 1) | 0x10) {
        uint32_t image[DCMI_WORDS] = { [DCMI_W_CR] = cr, [DCMI_W_DEPTH] = 4 };
        const bool bad = (cr & 0xC08) || (cr & 0x300) == 0x300 || (cr & 0x4001) == 1;
        const uint32_t answer = cr & 0x3000 ? 4 : bad ? 5 : 0;
        check_reset();
        expect("W6, CR written", answer, check_write(DCMI_CR, cr));
        set_device(image);
        expect("W6, CR handed in", answer != 0, check_rearm());
    }
}

/* Two lines, the second ended by the frame's end, and what is around them. */
static void paper_codes_picture(uint32_t cr)
{
    coded_usual(cr);
    SEND(0x41);
    expect_place("W6, a byte after enabling", 3, 0, 0, 0, 0);
    expect("W6, FNE", 0, device()[DCMI_W_HELD]);
    SEND(0xFF, 0x00, 0x00);
    expect("W6, three bytes wait", 3, device()[DCMI_W_WAITING]);
    SEND(FS);
    expect_place("W6, frame start", 0, 0, 2, 1, 0);
    SEND(0x11, 0x12, 0x13);
    expect_answer("W6, the first word", SEND(0x14), DCMI_COMPLETED, 0x14131211);
    SEND(0x15);
    expect_place("W6, five bytes", 0, 0, 2, 1, 5);
    SEND(0xFF, 0x00);
    expect_place("W6, bytes that wait are counted", 0, 0, 2, 1, 7);
    SEND(0x00, LE);
    expect_place("W6, line end", 1, 0x10, 2, 1, 5);
    SEND(0x21, 0xFF, 0x22, 0xFF, 0x00, 0x23);
    expect_place("W6, between lines", 1, 0x10, 2, 1, 5);
    SEND(CODE(NO_CODE));
    expect_place("W6, a code without a meaning between lines", 1, 0x10, 2, 1, 5);
    check_write(DCMI_ICR, 0x1F);
    SEND(CODE(LS));
    expect_place("W6, line start", 0, 0, 2, 2, 0);
    SEND(CODE(NO_CODE), 0x16, 0x17);
    expect_place("W6, a code without a meaning", 0, 0, 2, 2, 2);
    expect_answer("W6, packing runs on", SEND(0x18), DCMI_COMPLETED, 0x18171615);
    SEND(0x19, 0xFF, 0x00, 0x00);
    expect_answer("W6, frame end", SEND(FE), DCMI_NOTHING, 0);
    expect_place("W6, frame end", 3, 0x19, 0, 0, 0);
    expect_device("W6, two words", 0, 2, 0, 0x19);
    expect_register("W6, CAPTURE", DCMI_CR, cr & 0x2 ? cr & ~UINT32_C(1) : cr);
    SEND(0x31, 0x32, CODE(FE), 0x33, 0x34);
    expect_place("W6, a frame end outside a frame", 3, 0x19, 0, 0, 0);
}

/* What is released, and in which order: the word after one byte, 0x11, of a line. */
static void paper_codes_release(void)
{
    static const struct { uint8_t count, bytes[8]; uint32_t waits, word; } rows[] = {
        { 3, { 0xFF, 0x21, 0x22 }, 0, 0x2221FF11 },       { 3, { 0xFF, 0x00, 0x21 }, 0, 0x2100FF11 },
        { 4, { 0xFF, 0xFF, 0xFF, 0x21 }, 0, 0xFFFFFF11 }, { 4, { 0xFF, 0xFF, 0xFF, 0xFF }, 1, 0xFFFFFF11 },
        { 5, { 0xFF, 0x00, 0xFF, 0x00, 0x21 }, 0, 0xFF00FF11 }, { 4, { 0xFF, 0x00, 0xFF, 0xFF }, 1, 0xFF00FF11 },
        { 3, { 0x00, 0x00, 0x00 }, 0, 0x00000011 },       { 4, { 0x00, 0x00, 0xFF, 0x21 }, 0, 0xFF000011 },
        { 7, { 0xFF, 0x00, 0x00, 0xFF, 0x00, 0x00, 0xAB }, 0, 0xAB000011 },
    };
    for (unsigned i = 0; i < sizeof rows / sizeof *rows; i++) {
        coded_usual(CONTINUOUS);
        SEND(CODE(FS), 0x11);
        const dcmi_answer answer = send(rows[i].bytes, rows[i].count);
        expect_answer("W6, released", answer, DCMI_COMPLETED, rows[i].word);
        expect("W6, bytes that wait", rows[i].waits, device()[DCMI_W_WAITING]);
        check_sample(0, 0x10000, NULL); /* no working edge */
        expect("W6, bytes that wait on", rows[i].waits, device()[DCMI_W_WAITING]);
        expect_device("W6, released", 0, 1, 0, 0);
    }
    coded_usual(CONTINUOUS); /* dropped by disabling, where they count nowhere */
    SEND(CODE(FS), 0xFF, 0x00);
    check_write(DCMI_CR, CONTINUOUS & ~0x4001);
    expect("W6, disabling", 0, device()[DCMI_W_WAITING]);
    expect_device("W6, disabling", 0, 0, 0, 0);
    expect("W6, disabling", 0, device()[DCMI_W_COMPLETED]);
    check_sample(0, 0xC000, NULL);
    expect_register("W6, SR while disabled", DCMI_SR, 3);
    check_write(DCMI_CR, 0x20);
    expect_register("W6, SR with ESS 0", DCMI_SR, 0);
}

/* Bytes of which the last raises ERR. What follows it does nothing until a frame start. */
static void expect_error(const char *what, uint32_t cr, const uint8_t *bytes, size_t count)
{
    coded_usual(cr);
    send(bytes, count - 1);
    check_write(DCMI_ICR, 0x1F);
    const uint32_t held = device()[DCMI_W_HELD];
    expect_answer(what, SEND(bytes[count - 1]), DCMI_NOTHING, 0);
    expect_place(what, 3, 0x04, 0, 0, 0);
    expect_device(what, 0, 0, held, 0x04);
    expect(what, 0, device()[DCMI_W_PARTIAL_COUNT] | device()[DCMI_W_PARTIAL_BITS]);
    expect_register(what, DCMI_CR, cr);
    SEND(CODE(LS), CODE(LE), CODE(FE), CODE(LE), 0x11, 0x12, 0x13, 0x14);
    expect_place("W6, after ERR other codes do nothing", 3, 0x04, 0, 0, 0);
    SEND(CODE(FS), 0x11);
    expect_place("W6, a frame start after ERR", 0, 0x04, cr & 1 ? 2 : 1, 1, 1);
}

#define EXPECT_ERROR(what, cr, ...) expect_error(what, cr, (const uint8_t[]){ __VA_ARGS__ }, sizeof (const uint8_t[]){ __VA_ARGS__ })
#define FIVE 1, 2, 3, 4, 5

static void paper_codes_errors(uint32_t cr)
{
    EXPECT_ERROR("W6, a line start in an open line", cr, CODE(FS), FIVE, CODE(LS));
    EXPECT_ERROR("W6, a line start in the second line", cr, CODE(FS), CODE(LE), CODE(LS), FIVE, CODE(LS));
    EXPECT_ERROR("W6, a line end outside a line", cr, CODE(FS), FIVE, CODE(LE), CODE(LE));
    EXPECT_ERROR("W6, a frame start in a line", cr, CODE(FS), FIVE, CODE(FS));
    EXPECT_ERROR("W6, a frame start between lines", cr, CODE(FS), FIVE, CODE(LE), CODE(FS));
    if (cr & 0x2) return; /* the snapshot is over with its frame */
    EXPECT_ERROR("W6, a line start outside a frame", cr, CODE(FS), FIVE, CODE(FE), CODE(LS));
    EXPECT_ERROR("W6, a line end outside a frame", cr, CODE(FS), FIVE, CODE(FE), CODE(LE));
}

/* ERR while the sample's grant lands a word: the others are discarded. */
static void paper_codes_error_granted(void)
{
    coded_usual(CONTINUOUS);
    SEND(CODE(FS), FIVE, FIVE, 0xFF, 0x00, 0x00);
    expect_device("W6, before ERR", 0, 2, 0, 0);
    check_sample(0, LS, NULL);
    check_sample(0, 0x30000 | LS, NULL);
    expect_device("W6, ERR, granted", 1, 0, 1, 0x04);
}

/* The depth full, then one byte that is released too many, as the first, second or third of those released. The others find no frame. */
static void paper_codes_overrun(uint32_t depth, uint32_t cr)
{
    for (unsigned left = 1; left <= 3; left++) {
        coded(depth, cr, FOUR_CODES, UINT32_MAX);
        SEND(CODE(FS));
        for (uint32_t i = 0; i < 4 * depth + left; i++) SEND(0x41);
        SEND(0xFF, 0x00);
        expect_device("W6, full", 0, depth, 0, 0);
        expect_answer("W6, overrun", left == 2 ? SEND(0xFF) : SEND(0x42), DCMI_LOST, 0);
        expect_device("W6, overrun", 0, 0, depth + 1, 0x02);
        expect_place("W6, overrun", 3, 0x02, 0, 0, 0);
        expect("W6, nothing is left over", 0, device()[DCMI_W_PARTIAL_COUNT] | device()[DCMI_W_PARTIAL_BITS]);
        expect("W6, FF waits on", left == 2, device()[DCMI_W_WAITING]);
        expect_register("W6, CAPTURE", DCMI_CR, cr & 0x2 ? cr & ~UINT32_C(1) : cr);
        SEND(0x43, CODE(LE), CODE(LS), CODE(FE), CODE(LS));
        expect_place("W6, after an overrun other codes do nothing", 3, 0x02, 0, 0, 0);
        SEND(CODE(FS));
        expect_place("W6, a frame start after an overrun", 0, 0x02, cr & 0x2 ? 1 : 2, 1, 0);
    }
    coded(depth, cr, FOUR_CODES, UINT32_MAX);
    SEND(CODE(FS));
    for (uint32_t i = 0; i < 4 * depth; i++) SEND(0x41);
    SEND(CODE(FS));
    expect_device("W6, ERR with the FIFO full", 0, 0, depth, 0x04);
}

/* SAV and EAV in pairs, EAV with the V of the line that it ends: no frame start, every other code is a frame end; the first line start after one starts a
 * frame. */
static void paper_codes_in_pairs(void)
{
    coded(4, CONTINUOUS, in_pairs, UINT32_MAX);
    SEND(CODE(0x80), 1, 2, 3, 4, CODE(0x9D), CODE(0x80), CODE(0x80));
    expect_place("W6, in pairs, before a frame end", 3, 0, 0, 0, 0);
    SEND(CODE(0xB6));
    expect_place("W6, in pairs, a frame end", 3, 0, 0, 0, 0);
    for (unsigned frame = 0; frame < 2; frame++) {
        SEND(CODE(0x80));
        expect_place("W6, in pairs, the first line", 0, 0, 2, 1, 0);
        SEND(1, 2, 3, 4, CODE(0x9D));
        expect_place("W6, in pairs, its end", 1, 0x10, 2, 1, 4);
        SEND(CODE(0x80), 5, 6, 7, 8, CODE(0x9D));
        expect_place("W6, in pairs, the second line", 1, 0x10, 2, 2, 4);
        SEND(CODE(0xFF)); /* FF is an other code too */
        expect_place("W6, in pairs, frame end", 3, 0x19, 0, 0, 0);
        SEND(CODE(0xAB), CODE(0xB6));
        check_write(DCMI_ICR, 0x1F);
    }
    expect_device("W6, in pairs, four words", 0, 4, 0, 0);
    SEND(CODE(0x9D));
    expect_place("W6, in pairs, a line end outside a frame", 3, 0x04, 0, 0, 0);
    SEND(CODE(0x80));
    expect_place("W6, in pairs, a line start after ERR", 3, 0x04, 0, 0, 0);
    SEND(CODE(0xB6), CODE(0x80));
    expect_place("W6, in pairs, after a frame end", 0, 0x04, 2, 1, 0);
    SEND(CODE(0x80));
    expect_place("W6, in pairs, a line start in a line", 3, 0x04, 0, 0, 0);
}

/* ITU-R BT.656's own order: EAV has the V of the line that it begins. Behind the blanking 0x9D is a line end outside a line, in each frame, and then only a
 * frame end counts. With FSC 0xAB, FEC 0xB6 and a window from line 1 on the lines are captured: the frame begins with the last line of blanking. */
static void paper_codes_656_order(void)
{
    coded(4, CONTINUOUS, in_pairs, UINT32_MAX);
    for (unsigned frame = 0; frame < 2; frame++) {
        SEND(CODE(0xB6), 0x80, 0x10, CODE(0xAB), 0x80, 0x10);
        expect_place("W6, 656's order, blanking", 3, 0, 0, 0, 0);
        SEND(CODE(0x9D));
        expect_place("W6, 656's order, the first line's EAV", 3, 0x04, 0, 0, 0);
        SEND(0x80, 0x10, CODE(0x80), 1, 2, 3, 4, CODE(0x9D), 0x80, 0x10, CODE(0x80), 5, 6, 7, 8);
        expect_place("W6, 656's order, two lines", 3, 0x04, 0, 0, 0);
        check_write(DCMI_ICR, 0x1F);
    }
    expect_device("W6, 656's order, no word", 0, 0, 0, 0);
    coded(4, CROPPED & ~DCMI_CR_ENABLE & ~DCMI_CR_CAPTURE, 0xB69D80AB, UINT32_MAX);
    check_write(DCMI_CWSTRT, 0x10000);
    check_write(DCMI_CWSIZE, 0x10003);
    check_write(DCMI_CR, CROPPED);
    SEND(CODE(0xB6), 0x80, 0x10, CODE(0xAB), 0x80, 0x10, 0x80, 0x10, CODE(0xB6), 0x80, 0x10, CODE(0xAB), 0x80, 0x10, 0x80, 0x10);
    expect_place("W6, 656's order, a frame for each line of blanking", 0, 0x19, 2, 1, 4);
    SEND(CODE(0x9D), 0x80, 0x10, CODE(0x80), 1, 2, 3, 4, CODE(0x9D), 0x80, 0x10, CODE(0x80), 5, 6, 7, 8);
    expect_place("W6, 656's order, line 2", 0, 0x19, 2, 3, 4);
    SEND(CODE(0xB6));
    expect_device("W6, 656's order, two words", 0, 2, 0, 0x19);
}

/* The meaning of a code where ESCR and ESUR are these: the frame, and what is raised, after it in an open line, between lines and between frames. */
static void expect_meaning(const char *what, uint32_t escr, uint32_t esur, uint8_t xy, unsigned meaning)
{
    static const struct { uint32_t frame, hsync, vsync, ris, after; } rows[3][5] = {
        { { 2, 0, 0, 0x00, 2 }, { 2, 0, 0, 0x19, 0 }, { 2, 0, 0, 0x04, 0 }, { 2, 0, 0, 0x10, 2 }, { 2, 0, 0, 0x04, 0 } },
        { { 2, 1, 0, 0x00, 2 }, { 2, 1, 0, 0x09, 0 }, { 2, 1, 0, 0x04, 0 }, { 2, 1, 0, 0x04, 0 }, { 2, 1, 0, 0x00, 2 } },
        { { 0, 1, 1, 0x00, 0 }, { 0, 1, 1, 0x00, 0 }, { 0, 1, 1, 0x00, 2 }, { 0, 1, 1, 0x04, 0 }, { 0, 1, 1, 0x04, 0 } },
    };
    for (unsigned i = 0; i < 3; i++) {
        const bool by_line = i == 2 && meaning == 4 && (escr & 0xFF) == 0xFF;
        uint32_t image[DCMI_WORDS] = {
            [DCMI_W_CR] = CONTINUOUS, [DCMI_W_DEPTH] = 4, [DCMI_W_SAMPLES] = 9, [DCMI_W_ESCR] = escr, [DCMI_W_ESUR] = esur, [DCMI_W_WAITING] = 3,
            [DCMI_W_FRAME] = rows[i][meaning].frame, [DCMI_W_HSYNC_BLANKED] = rows[i][meaning].hsync, [DCMI_W_VSYNC_BLANKED] = rows[i][meaning].vsync,
        };
        image[DCMI_W_LINES] = image[DCMI_W_FRAME] ? 1 : 0;
        set_device(image);
        SEND(xy);
        expect_register(what, DCMI_RIS, by_line ? 0 : rows[i][meaning].ris);
        expect(what, by_line ? 2 : rows[i][meaning].after, device()[DCMI_W_FRAME]);
    }
}

/* Every XY, with delimiters of which one bit is compared, of 0xFF, and where several match. 1: frame end, 2: frame start, 3: line end, 4: line start. */
static void paper_codes_meanings(void)
{
    for (unsigned xy = 0; xy < 256; xy++) {
        const uint8_t byte = (uint8_t)xy;
        const unsigned four = xy == FE ? 1 : xy == FS ? 2 : xy == LE ? 3 : xy == LS ? 4 : 0;
        const unsigned bits = xy & 0x80 ? 1 : xy & 0x10 ? 2 : xy & 0x40 ? 3 : xy & 0x20 ? 4 : 0;
        expect_meaning("W6, four codes", FOUR_CODES, UINT32_MAX, byte, four);
        expect_meaning("W6, a bit of each", 0x80402010, 0x80402010, byte, bits);
        expect_meaning("W6, FS 0xA5, unmask 0x10", 0x545352A5, 0xFFFFFF10, byte, xy == FE ? 1 : !(xy & 0x10) ? 2 : xy == LE ? 3 : xy == LS ? 4 : 0);
        expect_meaning("W6, unmask 0", FOUR_CODES, 0x00000000, byte, 1);
        expect_meaning("W6, unmask 0 but of FE", FOUR_CODES, 0xFF000000, byte, xy == FE ? 1 : 2);
        expect_meaning("W6, unmask 0 of LE and LS", FOUR_CODES, 0xFF0000FF, byte, xy == FE ? 1 : xy == FS ? 2 : 3);
        expect_meaning("W6, unmask 0 of LS", FOUR_CODES, 0xFFFF00FF, byte, xy == FE ? 1 : xy == FS ? 2 : xy == LE ? 3 : 4);
        expect_meaning("W6, FEC 0xFF", 0xFF535251, UINT32_MAX, byte, xy == FS ? 2 : xy == LE ? 3 : xy == LS ? 4 : 1);
        expect_meaning("W6, FEC 0xFF, unmask 0", 0xFF535251, 0x00FFFFFF, byte, xy == FS ? 2 : xy == LE ? 3 : xy == LS ? 4 : 1);
        expect_meaning("W6, FEC 0xFF and FSC of unmask 0", 0xFF535251, 0xFFFFFF00, byte, 2);
        expect_meaning("W6, FSC 0xFF", 0x545352FF, UINT32_MAX, byte, xy == FE ? 1 : xy == LE ? 3 : xy == LS ? 4 : 0);
        expect_meaning("W6, FSC 0xFF, unmask 0", 0x545352FF, 0xFFFFFF00, byte, xy == FE ? 1 : xy == LE ? 3 : xy == LS ? 4 : 0);
        expect_meaning("W6, FEC and FSC 0xFF", in_pairs, UINT32_MAX, byte, xy == 0x9D ? 3 : xy == 0x80 ? 4 : 1);
        expect_meaning("W6, LEC 0xFF", 0x54FF5251, UINT32_MAX, byte, xy == FE ? 1 : xy == FS ? 2 : xy == 0xFF ? 3 : xy == LS ? 4 : 0);
        expect_meaning("W6, LSC 0xFF", 0x5453FF51, UINT32_MAX, byte, xy == FE ? 1 : xy == FS ? 2 : xy == LE ? 3 : xy == 0xFF ? 4 : 0);
        expect_meaning("W6, all 0xFF", UINT32_MAX, UINT32_MAX, byte, xy == 0xFF ? 3 : 1);
        expect_meaning("W6, all 0xFF, unmask 0", UINT32_MAX, 0, byte, 3);
    }
}

/* With CAPTURE 0 at its start a frame is open, not taken, not counted; no flag rises in it or at its end unless CAPTURE is 1 by then. */
static void paper_codes_capture(void)
{
    coded_usual(0x4131); /* every second frame */
    SEND(CODE(FS), 1, 2, 3, 4, CODE(FE));
    expect_device("W6, the first frame", 0, 1, 0, 0x19);
    expect("W6, rate", 1, device()[DCMI_W_RATE]);
    check_write(DCMI_ICR, 0x1F);
    check_write(DCMI_CR, 0x4130);
    SEND(CODE(FS), 1, 2, 3, 4, CODE(LE), CODE(LS));
    expect_place("W6, CAPTURE 0", 0, 0, 1, 2, 0);
    expect("W6, CAPTURE 0, rate", 1, device()[DCMI_W_RATE]);
    check_write(DCMI_CR, 0x4131);
    expect("W6, CAPTURE 0 to 1 inside, rate", 1, device()[DCMI_W_RATE]);
    SEND(1, 2, 3, 4, CODE(LE));
    expect_place("W6, CAPTURE 1 again, line end", 1, 0x10, 1, 2, 4);
    SEND(CODE(FE));
    expect_place("W6, CAPTURE 1 again, frame end", 3, 0x18, 0, 0, 0);
    SEND(CODE(FS), 1, 2, 3, 4, CODE(FE));
    expect_device("W6, the second one, untaken", 0, 1, 0, 0x18);
    expect("W6, rate", 0, device()[DCMI_W_RATE]);
    check_write(DCMI_ICR, 0x1F);
    SEND(CODE(FS), 1, 2, 3, 4);
    check_write(DCMI_CR, 0x4130);
    SEND(CODE(LE));
    expect_place("W6, CAPTURE cleared, line end", 1, 0, 2, 1, 4);
    SEND(CODE(FE));
    expect_place("W6, CAPTURE cleared, frame end", 3, 0x01, 0, 0, 0);
    SEND(CODE(LE));
    expect_place("W6, ERR with CAPTURE 0", 3, 0x05, 0, 0, 0);
    expect_device("W6, ERR with CAPTURE 0", 0, 0, 2, 0x05);
}

/* W1 with codes: the window is line 1, columns 1 and 2. */
static void paper_codes_window(uint32_t cr)
{
    check_reset();
    lend_memory(16);
    check_write(DCMI_ESCR, FOUR_CODES);
    check_write(DCMI_ESUR, UINT32_MAX);
    check_write(DCMI_CWSTRT, 0x10001);
    check_write(DCMI_CWSIZE, 1);
    check_write(DCMI_CR, cr);
    SEND(CODE(FS), 1, 2, 3, 4, CODE(LE));
    expect_place("W6, W1, line 0 ends", 1, 0x10, 2, 1, 4);
    SEND(CODE(LS), 0xFF, 0x00, 0xFF, 0x00, 5); /* columns 0 to 4 */
    expect("W6, columns 1 and 2", 0xFF00, device()[DCMI_W_PARTIAL_BITS]);
    expect("W6, columns 1 and 2", 2, device()[DCMI_W_PARTIAL_COUNT]);
    check_write(DCMI_ICR, 0x1F);
    SEND(CODE(LE));
    expect_place("W6, W1, line 1 ends", 1, 0x11, 2, 2, 5);
    expect_register("W6, W1, CAPTURE stays", DCMI_CR, cr);
    check_write(DCMI_ICR, 0x1F);
    SEND(CODE(LS), CODE(LE), CODE(LS));
    expect_place("W6, W1, later lines", 0, 0x10, 2, 4, 0);
    SEND(CODE(FE));
    expect_place("W6, W1, frame end", 3, 0x18, 0, 0, 0);
    expect_register("W6, W1, CAPTURE", DCMI_CR, cr & 0x2 ? cr & ~UINT32_C(1) : cr);

    check_write(DCMI_CR, cr);
    check_write(DCMI_ICR, 0x1F);
    SEND(CODE(FS), CODE(LE), CODE(LS), 1, CODE(FE));
    expect_place("W6, W1, frame end in line 1", 3, 0x19, 0, 0, 0);
    check_write(DCMI_CR, cr);
    check_write(DCMI_ICR, 0x1F);
    SEND(CODE(FS), CODE(FE));
    expect_place("W6, W1, line 1 never began", 3, 0x19, 0, 0, 0);
}

/* Released bytes bring two words four samples apart: FF fills the first; 00, 21, 22, 23 are the second. */
static void paper_codes_pace(void)
{
    coded_usual(CONTINUOUS);
    SEND(CODE(FS), 1, 2, 3, 0xFF, 0x00);
    expect_answer("W6, the first word", SEND(0x21), DCMI_COMPLETED, 0xFF030201);
    const uint32_t before = device()[DCMI_W_SAMPLES];
    SEND(0x22);
    expect_answer("W6, the second word", SEND(0x23), DCMI_COMPLETED, 0x23222100);
    expect("W6, samples between them", 4, device()[DCMI_W_SAMPLES] - before);
}

/* With d grants in every 4d samples, all of them together, no word of a line is lost and each lands within 4d. Of the bytes many are released late, and the
 * codes among them mean nothing. */
static void paper_codes_grants(uint32_t depth)
{
    static const uint8_t made_of[] = { 0xFF, 0xFF, 0x00, 0x60, 0x61, 0x62 };
    uint32_t noted[512], count = 0, landed = 0, nearest = UINT32_MAX;
    coded(depth, CONTINUOUS, FOUR_CODES, UINT32_MAX);
    lend_memory(4 * 512);
    SEND(CODE(FS));
    for (uint32_t i = 0; i < 4000; i++) {
        dcmi_answer answer = { 0, 0, 0, 0 };
        static uint32_t byte;
        if (i % 2 == 0) byte = made_of[below(6)];
        check_sample(0, (i % (4 * depth) < depth) << 17 | (i & 1) << 16 | byte, &answer);
        if (answer.landed && i - noted[landed++] > 4 * depth) differs("W6, a word landed late");
        if (answer.packed == DCMI_LOST) differs("W6, a word was lost");
        if (answer.packed == DCMI_COMPLETED) {
            if (count && i - noted[count - 1] < nearest) nearest = i - noted[count - 1];
            noted[count++] = i;
        }
        if (landed < count && i - noted[landed] >= 4 * depth) differs("W6, a word has not landed in time");
    }
    expect("W6, the nearest words", 4, nearest);
}

/* Devices handed in: few pixels where a code takes three out, a line with no line begun, what the codes said in every combination. */
static void paper_codes_images(void)
{
    for (uint32_t i = 0; i < 4 * 2 * 2 * 3; i++) {
        uint32_t image[DCMI_WORDS] = {
            [DCMI_W_CR] = CONTINUOUS, [DCMI_W_DEPTH] = 4, [DCMI_W_SAMPLES] = 9, [DCMI_W_ESCR] = FOUR_CODES, [DCMI_W_ESUR] = UINT32_MAX,
            [DCMI_W_WAITING] = 3, [DCMI_W_HSYNC_BLANKED] = i & 1, [DCMI_W_VSYNC_BLANKED] = i >> 1 & 1, [DCMI_W_FRAME] = i / 16,
        };
        const bool open = i / 16, line = open && !(i & 1), lost = !open && !(i & 2);
        const uint32_t few = open ? i >> 2 & 3 : 0;
        image[DCMI_W_PIXELS] = few;
        set_device(image);
        expect_register("W6, handed in, SR", DCMI_SR, (line ? 0 : 1) | (open ? 0 : 2));
        SEND(NO_CODE);
        expect("W6, three pixels less", line ? 0 : few, device()[DCMI_W_PIXELS]);
        expect("W6, what the codes said", i & 3, device()[DCMI_W_HSYNC_BLANKED] | device()[DCMI_W_VSYNC_BLANKED] << 1);
        set_device(image);
        SEND(LE);
        expect_register("W6, handed in, a line end", DCMI_RIS, line ? 0x10 : lost ? 0 : 0x04);
        set_device(image);
        SEND(FE);
        expect_register("W6, handed in, a frame end", DCMI_RIS, !open ? 0 : (line ? 0x18 : 0x08) | (i / 16 == 2));
    }
    for (uint32_t frame = 1; frame <= 2; frame++) { /* bytes that wait and are not among the pixels are in column 0, with no line begun in line 0 */
        const uint32_t image[DCMI_WORDS] = {
            [DCMI_W_CR] = CROPPED, [DCMI_W_DEPTH] = 4, [DCMI_W_SAMPLES] = 9, [DCMI_W_ESCR] = FOUR_CODES, [DCMI_W_ESUR] = UINT32_MAX,
            [DCMI_W_WAITING] = 2, [DCMI_W_FRAME] = frame,
        };
        set_device(image);
        SEND(0x21);
        expect("W6, column 0", frame == 2 ? 0x2100FF : 0, device()[DCMI_W_PARTIAL_BITS]);
        expect("W6, one pixel", 1, device()[DCMI_W_PIXELS]);
        SEND(0x22);
        expect("W6, column 1", frame == 2 ? 3 : 0, device()[DCMI_W_PARTIAL_COUNT]);
    }
    for (uint32_t waits = 0; waits < 6; waits++) {
        uint32_t image[DCMI_WORDS] = { [DCMI_W_DEPTH] = 4, [DCMI_W_WAITING] = waits };
        set_device(image);
        expect("W6, bytes waiting while disabled", waits > 3, check_rearm());
        expect("W6, enabling", waits > 3, check_write(DCMI_CR, CONTINUOUS));
        expect("W6, enabling drops them", waits > 3 ? waits : 0, device()[DCMI_W_WAITING]);
    }
}

void paper_codes(void)
{
    paper_codes_registers();
    paper_codes_values();
    paper_codes_picture(CONTINUOUS);
    paper_codes_picture(SNAPSHOT);
    paper_codes_release();
    paper_codes_errors(CONTINUOUS);
    paper_codes_errors(SNAPSHOT);
    paper_codes_errors(CONTINUOUS & ~1);
    paper_codes_error_granted();
    for (uint32_t depth = 1; depth <= 32; depth++) {
        paper_codes_overrun(depth, CONTINUOUS);
        paper_codes_overrun(depth, SNAPSHOT);
        paper_codes_grants(depth);
    }
    paper_codes_in_pairs();
    paper_codes_656_order();
    paper_codes_meanings();
    paper_codes_capture();
    paper_codes_window(CROPPED);
    paper_codes_window(CROPPED | 0x2);
    paper_codes_pace();
    paper_codes_images();
}
