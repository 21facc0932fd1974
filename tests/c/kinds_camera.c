#include "kinds.h"

/* ---- camera: realistic traces, with register writes between them ---- */

/* A disabled device becomes an enabled one, with a camera that fits it. */
static void set_up(scene *s, size_t start)
{
    const uint32_t cr = valid_cr();
    scene_make(s, cr);
    if (chance(1, 2)) check_write(DCMI_CWSTRT, valid_cwstrt());
    if (chance(1, 2)) check_write(DCMI_CWSIZE, valid_cwsize());
    if (chance(1, 2)) check_write(DCMI_IER, below(32));
    if (chance(1, 4)) check_write(DCMI_CR, cr & ~UINT32_C(0x4001));
    if (chance(1, 4)) runs(s, start, below(20));
    if (chance(1, 4)) {
        check_write(DCMI_CR, cr & ~UINT32_C(1));
        runs(s, start, below(20));
    }
    check_write(DCMI_CR, cr);
}

static void disable(scene *s, size_t start)
{
    check_write(DCMI_CR, cr_of_device() & ~UINT32_C(0x4001));
    if (chance(1, 2)) singles(s, start, below(8));
    set_up(s, start);
}

/* A run whose last or some other sample is damaged. */
static void damaged_run(scene *s, size_t start)
{
    const uint32_t count = between(1, 30), at = chance(1, 2) ? count - 1 : below(count);
    scene_samples(s, t.samples, count);
    t.samples[at] = damaged(t.samples[at]);
    check_run(start, t.samples, count);
    check_sample(start, t.samples[at], NULL);
}

/* Whether the next sample completes a word, if it carries a pixel. */
static bool completes(const scene *s)
{
    const uint32_t datum = cr_of_device() & 0xC00 ? 1 : 3;
    return s->part >= s->hold && device()[DCMI_W_FRAME] == 2 && device()[DCMI_W_PARTIAL_COUNT] == datum;
}

/* Samples that find the FIFO full or nearly so: no grants before, then some, often only where a word is completed. */
static void fill(scene *s, size_t start, unsigned actions)
{
    static const uint32_t grants[] = { 0, 0, 0, 32, 128 };
    const uint32_t grant = s->grant;
    while (actions-- && more()) {
        const uint32_t held = device()[DCMI_W_HELD], depth = device()[DCMI_W_DEPTH];
        s->grant = held + 1 < depth ? 0 : completes(s) && chance(1, 2) ? 256 : grants[below(5)];
        if (held + 1 < depth) runs(s, start, between(1, 6 * (depth - held)));
        else if (chance(1, 8)) runs(s, start, below(16));
        else singles(s, start, 1);
    }
    s->grant = grant;
}

static void camera_action(scene *s, size_t *start)
{
    const bool idle = !(cr_of_device() & 1), full = 4 * (size_t)device()[DCMI_W_PLACE] + 4 > memory_length();
    if (idle && chance(1, 2)) check_write(DCMI_CR, cr_of_device() | 1);
    if (full && chance(1, 4)) check_rearm();
    switch (below(42)) {
    case 40: fill(s, *start, between(4, 40)); break;
    case 41: if (chance(1, 4)) check_reset_depth(bad_depth()); break;
    case 0: case 1: check_write(DCMI_CR, cr_of_device() ^ 1); break;
    case 2: disable(s, *start); break;
    case 3: check_write(DCMI_ICR, below(32)); break;
    case 4: check_write(DCMI_IER, below(32)); break;
    case 5: any_write(device()); break;
    case 6: read_all(); break;
    case 7: check_interrupt(); break;
    case 8: check_rearm(); break;
    case 9: damaged_run(s, *start); break;
    case 10: runs(s, bad_start(), 5); break;
    case 11: lend_memory(frame_length()); *start = good_start(); break;
    case 12: *start = good_start(); break;
    case 13: s->grant = chance(1, 3) ? 0 : below(257); break;
    case 14: check_write(DCMI_CR, cr_of_device()); break;
    case 15: runs(s, *start, chance(1, 8) ? 4000 : between(200, 600)); break;
    case 16: case 17: case 18: case 19: case 20: case 21: case 22: case 23: singles(s, *start, between(1, 30)); break;
    default: runs(s, *start, below(80)); break;
    }
}

void camera_history(unsigned actions)
{
    scene s;
    fresh();
    lend_memory(frame_length());
    size_t start = good_start();
    set_up(&s, start);
    while (actions-- && more()) camera_action(&s, &start);
}

void camera_kind(void)
{
    while (more()) camera_history(between(10, 80));
}

/* ---- driver: the register calls of the Linux driver in its order, with a cropped picture ---- */

/* It sets and clears bits by reading a register and writing it back. Of a register whose read is refused it has 0. */
static void set_bits(uint32_t offset, uint32_t bits)
{
    uint32_t value = 0;
    check_read(offset, &value);
    check_write(offset, value | bits);
}

static void clear_bits(uint32_t offset, uint32_t bits)
{
    uint32_t value = 0;
    check_read(offset, &value);
    check_write(offset, value & ~bits);
}

static void driver_set_up(scene *s)
{
    const uint32_t cr = valid_cr() & ~UINT32_C(0x400D);
    uint32_t cwstrt, cwsize;
    scene_cropped(s, cr, &cwstrt, &cwsize);
    check_write(DCMI_CR, cr);
    check_write(DCMI_CWSIZE, cwsize);
    check_write(DCMI_CWSTRT, cwstrt);
    set_bits(DCMI_CR, 0x4);    /* CROP */
    set_bits(DCMI_CR, 0x4000); /* ENABLE */
    set_bits(DCMI_CR, 0x1);    /* CAPTURE */
    set_bits(DCMI_IER, 0x7);   /* FRAME, OVR, ERR */
}

/* The flags are cleared by a write of ICR; the read before it is refused 3. A snapshot is followed by another, or the next buffer. */
static void driver_interrupt(void)
{
    uint32_t raised = 0;
    check_interrupt();
    check_read(DCMI_MIS, &raised);
    if (!raised) return;
    set_bits(DCMI_ICR, 0x7);
    if (!(cr_of_device() & 1)) set_bits(DCMI_CR, 0x1);
    if (chance(1, 2)) check_rearm();
}

/* To clear ENABLE alone while CAPTURE is 1 is refused 5. */
static void driver_stop(void)
{
    clear_bits(DCMI_IER, 0x7);
    clear_bits(DCMI_CR, 0x4000);
    clear_bits(DCMI_CR, 0x4001);
}

void driver_kind(void)
{
    while (more()) {
        scene s;
        if (chance(1, 2)) fresh();
        lend_memory(between(256, 4096));
        const size_t start = good_start();
        driver_set_up(&s);
        for (unsigned n = between(2, 20); n; n--) {
            if (chance(1, 4)) singles(&s, start, between(1, 60));
            else runs(&s, start, between(20, 400));
            driver_interrupt();
        }
        driver_stop();
    }
}

/* ---- random: samples and writes without a plan ---- */

static void random_action(void)
{
    const size_t count = chance(1, 50) ? 300 : below(12);
    switch (below(12)) {
    case 0: check_write(DCMI_CR, (cr_of_device() & 0x4000) ? cr_of_device() ^ 1 : valid_cr()); break;
    case 1: any_write(device()); break;
    case 2: check_read(any_offset(), NULL); break;
    case 3: chance(1, 2) ? check_interrupt() : check_rearm(); break;
    case 4: case 5: case 6: case 7: any_single(); break;
    default:
        for (size_t i = 0; i < count; i++) t.samples[i] = random_u32() & 0x3FFFF;
        if (count && chance(1, 10)) t.samples[count - 1] = any_sample();
        check_run(any_start(), t.samples, count);
        break;
    }
}

void random_kind(void)
{
    while (more()) {
        fresh();
        lend_memory(any_length());
        for (unsigned n = between(20, 200); n && more(); n--) random_action();
    }
}

/* ---- full: FIFOs of every depth that are full or nearly so ---- */

static void full_action(scene *s, size_t start)
{
    const uint32_t cr = cr_of_device();
    if (!(cr & 1)) check_write(DCMI_CR, cr | 1);
    if (4 * (size_t)device()[DCMI_W_PLACE] + 4 > memory_length() && chance(1, 2)) check_rearm();
    switch (below(16)) {
    case 0: /* disabled, often with a full FIFO */
        check_write(DCMI_CR, cr & ~UINT32_C(0x4001));
        check_write(DCMI_CR, cr | 0x4001);
        break;
    case 1: /* emptied */
        s->grant = 256;
        runs(s, start, between(1, 40));
        s->grant = 0;
        break;
    case 2: runs(s, start, between(100, 700)); break;
    case 3: check_read(DCMI_SR, NULL); break;
    case 4: check_interrupt(); break;
    case 5: check_write(DCMI_ICR, below(32)); break;
    case 6: check_rearm(); break;
    default: fill(s, start, between(4, 30)); break;
    }
}

void full_kind(void)
{
    while (more()) {
        scene s;
        const uint32_t cr = (valid_cr() | 1) & ~UINT32_C(0x4);
        fresh();
        lend_memory(chance(1, 8) ? any_length() : between(256, 4096));
        const size_t start = good_start();
        scene_full(&s, cr);
        check_write(DCMI_CR, cr);
        for (unsigned n = between(4, 60); n && more(); n--) full_action(&s, start);
    }
}
