#include <string.h>

#include "kinds.h"

/* ---- compressed: JPEG frames, at whose end the FIFO is full or nearly so ---- */

/* What may come in the middle of a frame. */
static void compressed_action(void)
{
    const uint32_t cr = cr_of_device();
    switch (below(8)) {
    case 0: case 1: check_write(DCMI_CR, cr ^ 1); break;
    case 2: check_write(DCMI_CR, cr & ~UINT32_C(0x4001)); break;
    case 3: check_write(DCMI_CR, cr ^ 0x8); break;
    case 4: check_rearm(); break;
    case 5: check_read(DCMI_SR, NULL); break;
    default: check_write(DCMI_ICR, chance(1, 2) ? 0x1F : below(32)); break;
    }
}

/* One frame, often without a grant before its end: whole words for the free slots, often for all of them, then 0 to 3 bytes. It is cut somewhere, often
 * near its end, for what may come there; the last samples are single ones. */
static void compressed_frame(size_t start)
{
    const uint32_t free_slots = device()[DCMI_W_DEPTH] - device()[DCMI_W_HELD], words = chance(2, 3) ? free_slots : below(free_slots + 2);
    const uint32_t bytes = 4 * words + below(4), grant = chance(3, 4) ? 0 : below(64);
    const uint32_t count = (uint32_t)packets(cr_of_device(), bytes, grant, t.samples), last = count < 6 ? count : 6;
    const uint32_t cut = chance(1, 3) ? below(count) : count - between(1, last), single = count - cut < last ? cut : count - last;
    if (chance(1, 3)) t.samples[count - 1] |= 0x20000;
    check_run(start, t.samples, cut);
    if (chance(1, 3)) compressed_action();
    if (cut < single) check_run(start, t.samples + cut, single - cut);
    for (uint32_t i = single; i < count; i++) check_sample(start, t.samples[i], NULL);
}

/* CR as it was set up, if that has been changed: a snapshot is followed by another, a disabled device is enabled. */
static void compressed_again(uint32_t cr)
{
    if (cr_of_device() != cr) check_write(DCMI_CR, cr);
    if (chance(1, 4)) check_write(DCMI_ICR, 0x1F);
    if (4 * (size_t)device()[DCMI_W_PLACE] + 4 > memory_length() && chance(3, 4)) check_rearm();
}

void compressed_kind(void)
{
    while (more()) {
        const uint32_t cr = (valid_jpeg() | 1) & ~(chance(2, 3) ? UINT32_C(0x300) : 0);
        fresh();
        lend_memory(chance(1, 8) ? any_length() : between(256, 4096));
        const size_t start = good_start();
        if (chance(1, 4)) check_write(DCMI_CR, any_jpeg());
        if (chance(1, 4)) check_write(DCMI_CWSIZE, valid_cwsize());
        if (cr_of_device() & 0x4000) check_write(DCMI_CR, cr_of_device() & ~UINT32_C(0x4001));
        check_write(DCMI_CR, cr);
        for (unsigned n = between(2, 12); n && more(); n--) {
            compressed_frame(start);
            compressed_again(cr);
        }
    }
}

/* ---- codes: imagers without sync wires ---- */

/* What may come in the middle of a picture. */
static void codes_action(void)
{
    const uint32_t cr = cr_of_device(), held = chance(1, 2) ? device()[DCMI_W_ESCR] : device()[DCMI_W_ESUR];
    switch (below(12)) {
    case 0: case 1: check_write(DCMI_CR, cr ^ 1); break;
    case 2: check_write(DCMI_CR, cr & ~UINT32_C(0x4001)); break;
    case 3: check_write(DCMI_CR, cr ^ 0x10); break;
    case 4: check_write(DCMI_ESCR, held); break;
    case 5: check_write(DCMI_ESUR, held); break;
    case 6: read_all(); break;
    case 7: check_rearm(); break;
    case 8: check_interrupt(); break;
    case 9: check_read(DCMI_SR, NULL); break;
    default: check_write(DCMI_ICR, chance(1, 2) ? 0x1F : below(32)); break;
    }
}

/* The same samples on other sync pins: nothing but the remembered levels differs. */
static void other_pins(size_t start, size_t count)
{
    static uint8_t memory[4096];
    uint32_t image[DCMI_WORDS], after[DCMI_WORDS];
    memcpy(image, device(), sizeof image);
    check_run(start, t.samples, count);
    memcpy(after, device(), sizeof after);
    memcpy(memory, memory_bytes(), memory_length());
    set_device(image);
    for (size_t i = 0; i < count; i++) t.samples[i] ^= below(4) << 14;
    check_run(start, t.samples, count);
    after[DCMI_W_HSYNC] = device()[DCMI_W_HSYNC];
    after[DCMI_W_VSYNC] = device()[DCMI_W_VSYNC];
    if (memcmp(after, device(), sizeof after)) differs("the sync pins changed a device with ESS 1");
    if (memcmp(memory, memory_bytes(), memory_length())) differs("the sync pins changed what landed with ESS 1");
}

/* A picture, often as long as what the FIFO has room for, in runs and single samples. */
static void codes_picture(size_t start)
{
    static const uint32_t grants[] = { 0, 0, 0, 8, 64 };
    static uint8_t bytes[MOST_CODED];
    const uint32_t cr = cr_of_device(), room = 4 * (device()[DCMI_W_DEPTH] - device()[DCMI_W_HELD]);
    const uint32_t width = chance(1, 2) ? below(14) : room + below(8);
    const size_t length = coded_picture(device()[DCMI_W_ESCR], device()[DCMI_W_ESUR], width, chance(1, 2), bytes), count = 2 * length;
    byte_samples(cr, bytes, length, grants[below(5)], t.samples);
    if ((cr & 0x4010) == 0x4010 && chance(1, 8)) {
        other_pins(start, count);
        return;
    }
    for (size_t i = 0; i < count && more();) {
        const size_t rest = count - i, wanted = chance(1, 2) ? between(1, 12) : between(1, 200), n = wanted < rest ? wanted : rest;
        if (wanted <= 12) {
            for (size_t k = 0; k < n; k++) check_sample(start, t.samples[i + k], NULL);
        } else {
            check_run(start, t.samples + i, n);
        }
        if (chance(1, 6)) codes_action();
        i += n;
    }
}

/* A disabled device gets codes, at times also values that are refused. */
static void codes_set_up(uint32_t cr)
{
    uint32_t escr, esur;
    any_codes(&escr, &esur);
    check_write(DCMI_ESCR, escr);
    check_write(DCMI_ESUR, esur);
    if (chance(1, 2)) check_write(DCMI_CWSTRT, valid_cwstrt());
    if (chance(1, 2)) check_write(DCMI_CWSIZE, valid_cwsize());
    if (chance(1, 4)) check_write(DCMI_CR, any_ess());
    if (cr_of_device() & 0x4000) check_write(DCMI_CR, cr_of_device() & ~UINT32_C(0x4001));
    check_write(DCMI_CR, cr);
}

void codes_kind(void)
{
    while (more()) {
        const uint32_t cr = (valid_ess() | chance(7, 8)) & ~(chance(2, 3) ? UINT32_C(0x300) : 0) & ~(chance(1, 2) ? UINT32_C(0x4) : 0);
        fresh();
        lend_memory(chance(1, 8) ? any_length() : between(256, 4096));
        const size_t start = good_start();
        codes_set_up(cr);
        for (unsigned n = between(2, 12); n && more(); n--) {
            codes_picture(start);
            if (cr_of_device() != cr) check_write(DCMI_CR, cr);
            if (chance(1, 4)) check_write(DCMI_ICR, 0x1F);
            if (4 * (size_t)device()[DCMI_W_PLACE] + 4 > memory_length() && chance(3, 4)) check_rearm();
        }
    }
}
