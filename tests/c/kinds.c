/* What several kinds of history have in common. */
#include "kinds.h"

trace t;
uint8_t file[MOST_FILE];

uint32_t cr_of_device(void) { return device()[DCMI_W_CR]; }

void fresh(void)
{
    if (chance(1, 8)) check_reset_depth(bad_depth());
    if (chance(1, 6)) check_reset();
    else check_reset_depth(any_depth());
}

uint32_t run_file(const uint8_t *bytes, size_t length, size_t start)
{
    if (chance(1, 3)) return check_run_file(bytes, length, start);
    return check_run_file_depth(chance(1, 5) ? bad_depth() : any_depth(), bytes, length, start);
}

size_t any_length(void) { return chance(2, 3) ? below(41) : between(41, 256); }
size_t frame_length(void) { return chance(1, 3) ? below(41) : between(256, 4096); }

/* A start byte within a memory, and beyond one. */
static size_t start_within(size_t bytes)
{
    const uint32_t length = (uint32_t)bytes;
    switch (below(4)) {
    case 0: return below(length + 1);
    case 1: return length < 9 ? length : length - below(9);
    default: return 0;
    }
}

static size_t start_beyond(size_t length)
{
    switch (below(5)) {
    case 0: return length + 1;
    case 1: return length + between(1, 9);
    case 2: return SIZE_MAX - below(9);
    case 3: return ((size_t)1 << between(32, 63)) + 2;
    default: return length + random_u32() + 1;
    }
}

size_t good_start(void) { return start_within(memory_length()); }
size_t bad_start(void) { return start_beyond(memory_length()); }
size_t any_start(void) { return chance(1, 8) ? bad_start() : good_start(); }
size_t good_start_b(void) { return start_within(memory_b_length()); }
size_t any_start_b(void) { return chance(1, 8) ? start_beyond(memory_b_length()) : good_start_b(); }

uint32_t damaged(uint32_t sample) { return sample | UINT32_C(1) << between(18, 31); }

uint32_t any_sample(void)
{
    const uint32_t sample = random_u32() & 0x3FFFF;
    if (chance(1, 40)) return damaged(sample);
    return chance(1, 100) ? 0x3FFFF + below(2) : sample;
}

void any_write(const uint32_t *image)
{
    const uint32_t offset = any_offset();
    check_write(offset, any_value(image));
}

void any_single(void)
{
    const size_t start = any_start();
    check_sample(start, any_sample(), NULL);
}

void any_single_two(void)
{
    const size_t start_a = any_start(), start_b = any_start_b();
    check_sample_two(start_a, start_b, any_sample(), NULL);
}

void any_latest(void)
{
    const size_t start_a = any_start(), start_b = any_start_b();
    if (chance(1, 2)) {
        check_latest(start_a, start_b, NULL);
        return;
    }
    size_t length_a = chance(1, 2) ? memory_length() : below(64), length_b = chance(1, 2) ? memory_b_length() : below(64);
    if (chance(1, 2)) length_a = start_a + 4 * (size_t)device()[DCMI_W_PLACE] - (chance(1, 2) ? below(2) : below(6));
    if (chance(1, 2)) length_b = start_b + 4 * (size_t)device()[DCMI_W_PLACE_B] - (chance(1, 2) ? below(2) : below(6));
    check_latest_frame(length_a, start_a, length_b, start_b, NULL);
}

void read_all(void)
{
    for (uint32_t offset = 0; offset <= 0x28; offset += 4) check_read(offset, NULL);
    check_read(any_offset(), NULL);
}

void runs(scene *s, size_t start, size_t count)
{
    scene_samples(s, t.samples, count);
    check_run(start, t.samples, count);
}

void singles(scene *s, size_t start, size_t count)
{
    for (size_t i = 0; i < count; i++) check_sample(start, scene_sample(s), NULL);
}
