#include <string.h>

#include "kinds.h"

/* ---- buffers: two frame buffers in turn ---- */

/* The memories' starts, and what sends the samples. */
typedef enum { WIRES, PACKETS, CODES } sender;

typedef struct board {
    size_t start_a, start_b;
    sender from;
    scene s;
    uint32_t cr;
} board;

/* Memory for a few words, at times for none, or for more than there are. */
static size_t buffer_length(void) { return chance(1, 3) ? below(13) : chance(1, 3) ? between(256, 1024) : between(4, 60); }

static void lend_boths(board *b)
{
    lend_memory(buffer_length());
    lend_memory_b(chance(1, 4) ? memory_length() : buffer_length());
    b->start_a = good_start();
    b->start_b = chance(1, 4) && b->start_a <= memory_b_length() ? b->start_a : good_start_b();
}

/* Handing back after a call: mostly with the lengths and starts that the runs have. */
static void ask_latest(const board *b)
{
    if (chance(1, 4)) any_latest();
    else check_latest(b->start_a, b->start_b, NULL);
}

/* Calls that do not match the mode. */
static void other_mode(const board *b)
{
    const uint32_t sample = any_sample();
    const bool two = device()[DCMI_W_MODE];
    switch (below(4)) {
    case 0: two ? check_sample(any_start(), sample, NULL) : check_sample_two(any_start(), any_start_b(), sample, NULL); break;
    case 1: two ? check_run(any_start(), &sample, 1) : check_run_two(any_start(), any_start_b(), &sample, 1); break;
    case 2: two ? check_run(any_start(), NULL, 0) : check_run_two(any_start(), any_start_b(), NULL, 0); break;
    default: two ? check_run(b->start_a, t.samples, below(5)) : check_latest(any_start(), any_start_b(), NULL); break;
    }
}

/* A disabled device gets a mode, at times twice, or first the other. */
static void set_two(const board *b)
{
    if (chance(1, 6)) other_mode(b);
    if (chance(1, 8)) {
        check_one_buffer();
        if (chance(1, 2)) other_mode(b);
    }
    if (chance(7, 8)) check_two_buffers();
    if (chance(1, 16)) check_two_buffers();
    if (!device()[DCMI_W_MODE]) check_two_buffers();
}

/* It is enabled, with a camera that fits. */
static void board_set_up(board *b)
{
    uint32_t escr, esur;
    b->from = below(3);
    b->cr = b->from == WIRES ? valid_cr() & ~UINT32_C(0x8) : b->from == PACKETS ? valid_jpeg() : valid_ess();
    b->cr |= 1;
    if (chance(2, 3)) b->cr &= ~UINT32_C(0x300);
    if (chance(2, 3)) b->cr &= ~UINT32_C(0x6);
    scene_small(&b->s, b->cr);
    if (b->from == CODES) {
        any_codes(&escr, &esur);
        if (chance(1, 2)) escr = FOUR_CODES, esur = UINT32_MAX;
        check_write(DCMI_ESCR, escr);
        check_write(DCMI_ESUR, esur);
    }
    if (b->cr & 0x4) {
        check_write(DCMI_CWSTRT, below(2) << 16 | below(3));
        check_write(DCMI_CWSIZE, below(2) << 16 | below(6));
    }
    check_write(DCMI_CR, b->cr);
}

/* What may come between the samples. */
static void board_action(board *b)
{
    const uint32_t cr = cr_of_device();
    switch (below(20)) {
    case 0: case 1: case 2: check_rearm(); break;
    case 3: check_two_buffers(); break;
    case 4: check_one_buffer(); break;
    case 5: other_mode(b); break;
    case 6: case 7: check_write(DCMI_CR, cr ^ 1); break;
    case 8: case 9: /* disabled and enabled again, at times with a mode change between */
        check_write(DCMI_CR, cr & ~UINT32_C(0x4001));
        ask_latest(b);
        if (chance(1, 3)) check_rearm();
        if (chance(1, 4)) set_two(b);
        if (chance(1, 3)) board_set_up(b);
        else check_write(DCMI_CR, b->cr);
        break;
    case 10: lend_boths(b); break;
    case 11: b->start_a = good_start(); break;
    case 12: b->start_b = good_start_b(); break;
    case 13: any_single_two(); break;
    case 14: t.samples[0] = any_sample(); check_run_two(any_start(), any_start_b(), t.samples, 1); break;
    case 15: check_read(DCMI_SR, NULL); break;
    case 16: check_interrupt(); break;
    case 17: check_write(DCMI_ICR, chance(1, 2) ? 0x1F : below(32)); break;
    default: b->s.grant = chance(1, 2) ? 0 : below(257); break;
    }
}

/* Samples of a picture, or some of a camera's: so many. */
static size_t board_samples(board *b)
{
    static uint8_t bytes[MOST_CODED];
    const uint32_t room = device()[DCMI_W_DEPTH] - device()[DCMI_W_HELD], grant = chance(1, 2) ? b->s.grant : chance(1, 2) ? 0 : below(64);
    size_t length;
    switch (b->from) {
    case PACKETS: return packets(b->cr, chance(1, 6) ? 4 * room + below(6) : below(10), grant, t.samples);
    case CODES:
        length = coded_picture(device()[DCMI_W_ESCR], device()[DCMI_W_ESUR], chance(1, 6) ? 4 * room + below(6) : below(7), chance(1, 6), bytes);
        byte_samples(b->cr, bytes, length, grant, t.samples);
        return 2 * length;
    default:
        length = between(1, 60);
        scene_samples(&b->s, t.samples, length);
        return length;
    }
}

/* They come in runs and single samples; after almost every call the latest frame is asked for. */
static void board_picture(board *b)
{
    const size_t count = board_samples(b);
    for (size_t i = 0; i < count && more();) {
        const size_t rest = count - i, wanted = chance(1, 2) ? between(1, 6) : between(1, 80), n = wanted < rest ? wanted : rest;
        if (wanted <= 6) {
            for (size_t k = 0; k < n; k++) {
                check_sample_two(b->start_a, b->start_b, t.samples[i + k], NULL);
                if (chance(1, 4)) ask_latest(b);
            }
        } else {
            check_run_two(b->start_a, b->start_b, t.samples + i, n);
        }
        if (chance(9, 10)) ask_latest(b);
        if (chance(1, 6)) {
            static uint32_t rest_of[TRACE_SAMPLES];
            memcpy(rest_of, t.samples, count * sizeof *rest_of); /* an action may make samples of its own */
            board_action(b);
            memcpy(t.samples, rest_of, count * sizeof *rest_of);
        }
        i += n;
    }
}

/* All that is held is taken, as far as there is room; or nothing more for a while. */
static void board_grants(board *b)
{
    for (unsigned n = between(1, 8); n && device()[DCMI_W_HELD] && more(); n--) {
        check_sample_two(b->start_a, b->start_b, 0x20000 | device()[DCMI_W_CLOCK] << 16 | (random_u32() & 0xFFFF), NULL);
        ask_latest(b);
    }
}

void buffers_kind(void)
{
    while (more()) {
        board b = { .start_a = 0 };
        if (chance(1, 16)) check_run_file_depth(any_depth(), file, trace_file(&t, file), 0);
        fresh();
        lend_boths(&b);
        set_two(&b);
        board_set_up(&b);
        for (unsigned n = between(2, 30); n && more(); n--) {
            board_picture(&b);
            if (chance(1, 3)) board_grants(&b);
            if (!(cr_of_device() & 1) && chance(3, 4)) check_write(DCMI_CR, cr_of_device() | (b.cr & 0x4001));
        }
    }
}

/* ---- many runs: whole pictures in turn, in runs of many samples ---- */

void turns_kind(void)
{
    while (more()) {
        board b = { .start_a = 0 };
        fresh();
        lend_memory(between(16, 4096));
        lend_memory_b(between(16, 4096));
        b.start_a = good_start();
        b.start_b = good_start_b();
        check_two_buffers();
        board_set_up(&b);
        b.s.grant = between(32, 256);
        for (unsigned n = between(2, 12); n && more(); n--) {
            size_t count = 0;
            const size_t wanted = between(100, 1500);
            while (count < wanted) {
                static uint32_t all[1 << 14];
                const size_t made = board_samples(&b);
                memcpy(all + count, t.samples, made * sizeof *all);
                count += made;
                if (count >= wanted) memcpy(t.samples, all, count * sizeof *all);
            }
            check_run_two(b.start_a, b.start_b, t.samples, count);
            ask_latest(&b);
            if (chance(1, 4)) board_grants(&b);
            if (chance(1, 4)) board_action(&b);
            if (cr_of_device() != b.cr && (cr_of_device() & 0x4000)) check_write(DCMI_CR, b.cr);
        }
    }
}
