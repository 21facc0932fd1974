#include <string.h>

#include "kinds.h"

/* ---- images: devices by hand, well-formed and damaged ---- */

static void one_call(const uint32_t *image, unsigned which)
{
    set_device(image);
    const size_t count = below(6);
    switch (which) {
    case 0: any_write(image); break;
    case 1: check_read(any_offset(), NULL); break;
    case 2: check_interrupt(); break;
    case 3: check_rearm(); break;
    case 4: any_single(); break;
    case 5: check_one_buffer(); break;
    case 6: check_two_buffers(); break;
    case 7: any_latest(); break;
    case 8: any_single_two(); break;
    default:
        for (size_t i = 0; i < count; i++) t.samples[i] = any_sample();
        if (which == 9) check_run(any_start(), t.samples, count);
        else check_run_two(any_start(), any_start_b(), t.samples, count);
        break;
    }
}

enum { EVERY_CALL = 11 };

static void every_call(const uint32_t *image)
{
    for (unsigned which = 0; which < EVERY_CALL; which++) one_call(image, which);
}

/* Each word with each value near a bound. */
static void every_bound(const uint32_t *image)
{
    uint32_t changed[DCMI_WORDS], values[MOST_BOUNDS];
    for (unsigned word = 0; word < DCMI_WORDS && more(); word++) {
        const unsigned count = image_bounds(image, word, values);
        for (unsigned i = 0; i < count; i++) {
            memcpy(changed, image, sizeof changed);
            changed[word] = values[i];
            one_call(changed, (word + i) % EVERY_CALL);
        }
    }
}

/* A device that a history made, or one by hand. */
static void some_image(uint32_t *image)
{
    if (chance(1, 8)) {
        camera_history(between(5, 20));
        memcpy(image, device(), 4 * DCMI_WORDS);
    } else {
        image_well_formed(image);
    }
}

/* The camera's samples over two memories, with some calls between them. */
static void two_history(const uint32_t *image)
{
    scene s;
    if (chance(1, 2)) scene_make(&s, image[DCMI_W_CR]);
    else scene_small(&s, image[DCMI_W_CR]);
    if (chance(1, 2)) s.grant = 128;
    set_device(image);
    const size_t start_a = good_start(), start_b = good_start_b();
    for (unsigned n = between(1, 12); n; n--) {
        check_sample_two(start_a, start_b, scene_sample(&s), NULL);
        if (chance(1, 3)) any_latest();
    }
    if (chance(1, 4)) check_rearm();
    if (chance(1, 2)) check_write(DCMI_CR, chance(1, 2) ? cr_of_device() ^ 1 : cr_of_device() & ~UINT32_C(0x4001));
    const size_t count = below(60);
    scene_samples(&s, t.samples, count);
    check_run_two(start_a, start_b, t.samples, count);
    any_latest();
    check_write(DCMI_CR, cr_of_device() & 0x4000 ? cr_of_device() & ~UINT32_C(0x4001) : valid_cr());
    if (chance(1, 2)) any_latest();
    chance(1, 2) ? check_two_buffers() : check_one_buffer();
}

static void image_history(const uint32_t *image)
{
    scene s;
    set_device(image);
    lend_memory(any_length());
    lend_memory_b(any_length());
    const size_t start = good_start();
    scene_make(&s, image[DCMI_W_CR]);
    every_call(image);
    if (image[DCMI_W_MODE]) {
        two_history(image);
        return;
    }
    set_device(image);
    singles(&s, start, between(1, 6));
    if (chance(1, 2)) check_write(DCMI_CR, chance(1, 2) ? cr_of_device() ^ 1 : cr_of_device() & ~UINT32_C(0x4001));
    runs(&s, start, below(40));
    check_read(DCMI_SR, NULL);
}

/* A working edge before the window's last line, in it and after it: HSYNC remembered as blanking or not, each sync blanking now or not. */
static void window_edges(const uint32_t *image)
{
    uint32_t changed[DCMI_WORDS];
    memcpy(changed, image, sizeof changed);
    if (!image_window(changed)) return;
    const uint32_t lines = changed[DCMI_W_LINES], working = ~changed[DCMI_W_CLOCK] & 1;
    for (unsigned i = 0; i < 24; i++) {
        changed[DCMI_W_LINES] = lines + i % 3;
        changed[DCMI_W_HSYNC_BLANKED] = i / 3 % 2;
        set_device(changed);
        check_sample(good_start(), working << 16 | i / 6 << 14 | below(0x4000), NULL);
    }
}

/* A working edge at which VSYNC blanks in a JPEG frame: 0 to 3 bytes left over, the FIFO full or not, granted or not, HSYNC blanking or not. */
static void compressed_edges(const uint32_t *image)
{
    uint32_t changed[DCMI_WORDS];
    memcpy(changed, image, sizeof changed);
    if (!image_compressed(changed)) return;
    const uint32_t syncs = changed[DCMI_W_CR] >> 7 & 1, working = ~changed[DCMI_W_CLOCK] & 1;
    for (unsigned i = 0; i < 16; i++) {
        const uint32_t left = changed[DCMI_W_FRAME] == 2 ? i % 4 : 0;
        changed[DCMI_W_PARTIAL_COUNT] = left;
        changed[DCMI_W_PARTIAL_BITS] = chance(1, 8) ? 0 : random_u32() & ((UINT32_C(1) << 8 * left) - 1);
        set_device(changed);
        check_sample(good_start(), below(2) << 17 | working << 16 | syncs << 15 | i / 8 << 14 | below(0x4000), NULL);
    }
}

/* A working edge with ESS 1: so many bytes wait, the codes said this or that, and a byte comes of which codes are made. */
static void code_edges(const uint32_t *image)
{
    uint32_t changed[DCMI_WORDS];
    memcpy(changed, image, sizeof changed);
    if (!image_codes(changed)) return;
    const uint32_t working = ~changed[DCMI_W_CLOCK] & 1;
    for (unsigned i = 0; i < 48; i++) {
        if (i % 16 == 0) any_codes(&changed[DCMI_W_ESCR], &changed[DCMI_W_ESUR]);
        changed[DCMI_W_WAITING] = i % 4;
        changed[DCMI_W_HSYNC_BLANKED] = i / 4 % 2;
        changed[DCMI_W_VSYNC_BLANKED] = i / 8 % 2;
        set_device(changed);
        const uint32_t byte = code_byte(changed[DCMI_W_ESCR], changed[DCMI_W_ESUR]), upper = below(256);
        check_sample(good_start(), below(2) << 17 | working << 16 | upper << 8 | byte, NULL);
    }
}

/* A working edge in mode two at which something happens to a frame: it ends or goes on, with a byte left over or not, the FIFO empty, full or neither,
 * granted or not, its words landing or not, begun or not. */
static void two_edges(const uint32_t *image)
{
    uint32_t changed[DCMI_WORDS];
    memcpy(changed, image, sizeof changed);
    if (!(changed[DCMI_W_CR] & 0x4000) || changed[DCMI_W_SAMPLES] == UINT32_MAX) return;
    const uint32_t cr = changed[DCMI_W_CR], working = cr >> 5 & 1, blank = cr >> 6 & 3;
    changed[DCMI_W_CLOCK] = !working;
    for (unsigned i = 0; i < 24; i++) {
        changed[DCMI_W_TURN] = i & 1;
        changed[DCMI_W_BEGUN] = i >> 1 & 1;
        changed[DCMI_W_FRAME_A] = i >> 2 & 1 ? 1 : below(3);
        changed[DCMI_W_FRAME_B] = i >> 2 & 1 ? 1 : below(3);
        if (changed[DCMI_W_FRAME] == 2 && i >= 8) changed[DCMI_W_PARTIAL_COUNT] = cr & 0xC00 ? 1 : 3;
        if (i == 8) changed[DCMI_W_PARTIAL_BITS] &= 0xFF;
        set_device(changed);
        const uint32_t syncs = i < 16 ? blank ^ (below(2) ? 0 : 1) : blank ^ 3;
        check_sample_two(good_start(), good_start_b(), below(2) << 17 | working << 16 | syncs << 14 | below(0x4000), NULL);
        any_latest();
    }
}

/* The same device in mode two, whatever the held words carry and the buffers hold. */
static void two_images(const uint32_t *image)
{
    uint32_t two[DCMI_WORDS], changed[DCMI_WORDS];
    memcpy(two, image, sizeof two);
    if (!two[DCMI_W_MODE]) image_two(two);
    image_history(two);
    if (chance(1, 2)) two_edges(two);
    for (unsigned n = below(12); n; n--) {
        const bool damaged_before = !image[DCMI_W_MODE] && chance(1, 3);
        memcpy(changed, damaged_before ? image : two, sizeof changed);
        image_damage(changed);
        if (chance(1, 4)) image_damage(changed);
        if (damaged_before) image_two(changed);
        every_call(changed);
    }
    if (chance(1, 40)) every_bound(two);
}

void images_kind(void)
{
    uint32_t image[DCMI_WORDS], changed[DCMI_WORDS];
    while (more()) {
        some_image(image);
        image_history(image);
        if (chance(1, 2)) two_images(image);
        if (chance(1, 2)) window_edges(image);
        if (chance(1, 2)) compressed_edges(image);
        if (chance(1, 2)) code_edges(image);
        for (unsigned n = below(12); n; n--) {
            memcpy(changed, image, sizeof changed);
            image_damage(changed);
            if (chance(1, 3)) image_damage(changed);
            every_call(changed);
        }
        if (chance(1, 40)) every_bound(image);
        if (chance(1, 20)) {
            random_bytes((uint8_t *)changed, sizeof changed);
            every_call(changed);
            fresh();
        }
    }
}

/* ---- limits: the last samples of the count, places and lengths above 32 bits ---- */

/* Runs that just fit, just do not, and none. */
static void last_samples(void)
{
    uint32_t image[DCMI_WORDS];
    scene s;
    do image_well_formed(image);
    while (UINT32_MAX - image[DCMI_W_SAMPLES] > 60);
    const uint32_t left = UINT32_MAX - image[DCMI_W_SAMPLES];
    lend_memory(any_length());
    scene_make(&s, image[DCMI_W_CR]);
    set_device(image);
    runs(&s, any_start(), left + 1 + left % 3);
    t.samples[left] = damaged(t.samples[left]);
    check_run(any_start(), t.samples, left + 1);
    singles(&s, good_start(), left % 4);
    while (device()[DCMI_W_SAMPLES] != UINT32_MAX && chance(15, 16)) {
        const uint32_t rest = UINT32_MAX - device()[DCMI_W_SAMPLES], count = chance(1, 2) ? rest : between(1, rest);
        runs(&s, good_start(), count);
    }
    any_single();
    check_run(good_start(), NULL, 0);
    runs(&s, good_start(), 2);
    check_rearm();
    check_write(DCMI_CR, cr_of_device() & ~UINT32_C(0x4001));
}

/* The same over two memories. */
static void last_samples_two(void)
{
    uint32_t image[DCMI_WORDS];
    scene s;
    do image_well_formed(image);
    while (UINT32_MAX - image[DCMI_W_SAMPLES] > 60);
    image_two(image);
    const uint32_t left = UINT32_MAX - image[DCMI_W_SAMPLES];
    lend_memory(any_length());
    lend_memory_b(any_length());
    scene_make(&s, image[DCMI_W_CR]);
    set_device(image);
    scene_samples(&s, t.samples, left + 3);
    check_run_two(any_start(), any_start_b(), t.samples, left + 1 + left % 3);
    check_run(any_start(), t.samples, left + 1);
    if (left) check_run_two(good_start(), good_start_b(), t.samples, left - below(2));
    const uint32_t last = t.samples[left];
    t.samples[left] = damaged(last);
    check_run_two(any_start(), any_start_b(), t.samples, left + 1);
    for (unsigned n = 3; n; n--) any_single_two();
    any_single();
    check_run_two(good_start(), good_start_b(), NULL, 0);
    check_run_two(good_start(), good_start_b(), &last, 1);
    any_latest();
    check_rearm();
    check_write(DCMI_CR, cr_of_device() & ~UINT32_C(0x4001));
    check_two_buffers();
}

/* A device that holds words, whose next one lands at place k. */
static void image_at_place(uint32_t *image, uint32_t place)
{
    do image_well_formed(image);
    while (image[DCMI_W_HELD] < 1);
    image[DCMI_W_PLACE] = place;
    image[DCMI_W_LANDED] = place;
    image[DCMI_W_DISCARDED] = 0;
    image[DCMI_W_COMPLETED] = place + image[DCMI_W_HELD];
    if (image[DCMI_W_SAMPLES] < image[DCMI_W_COMPLETED]) image[DCMI_W_SAMPLES] = image[DCMI_W_COMPLETED];
}

static bool far_landing(void)
{
    static const uint32_t places[] = { 0, 1, 0x3FFFFFFE, 0x3FFFFFFF, 0x40000000, 0x40000001, 0x7FFFFFFF, 0x80000000, 0xC0000000, 0xFFFFFFC0 };
    static const uint64_t starts[] = { 0, 1, 7, 0xFFFFFFFF, 0x100000000, 0x100000005 };
    const uint32_t place = places[below(10)];
    const uint64_t start = place < 0xC0000000 ? starts[below(6)] : below(16), end = start + 4 * (uint64_t)place;
    uint32_t image[DCMI_WORDS];
    if (!lend_far_memory((size_t)(end + below(16)))) return false;
    image_at_place(image, place);
    set_device(image);
    for (unsigned i = 0; i < 3; i++) check_sample((size_t)start, 0x20000 | any_sample(), NULL);
    set_device(image);
    for (unsigned i = 0; i < 4; i++) t.samples[i] = 0x20000 | (random_u32() & 0x3FFFF);
    check_run((size_t)start, t.samples, 4);
    check_run((size_t)start | (size_t)1 << 40, t.samples, 4);
    return true;
}

/* The same over two memories of which one is far, or both. */
static bool far_landing_two(void)
{
    static const uint32_t places[] = { 0, 1, 0x3FFFFFFF, 0x40000000, 0x40000001, 0xFFFFFFC0 };
    const uint32_t place = places[below(6)];
    const uint64_t start = below(16), end = start + 4 * (uint64_t)place + below(24);
    const bool in_b = chance(1, 2);
    uint32_t image[DCMI_WORDS];
    lend_memory(any_length());
    lend_memory_b(any_length());
    if (!(in_b ? lend_far_memory_b((size_t)end) : lend_far_memory((size_t)end))) return false;
    image_at_place(image, place);
    image_two(image);
    image[DCMI_W_PLACE] = image[DCMI_W_PLACE_B] = place;
    image[DCMI_W_IN_B] = in_b ? UINT32_MAX >> (32 - image[DCMI_W_HELD]) : 0;
    if (chance(2, 3)) image[DCMI_W_OPENING] = 0;
    set_device(image);
    for (unsigned i = 0; i < 4; i++) t.samples[i] = 0x20000 | (random_u32() & 0x3FFFF);
    const size_t start_a = in_b ? good_start() : (size_t)start, start_b = in_b ? (size_t)start : good_start_b();
    for (unsigned i = 0; i < 2; i++) {
        check_sample_two(start_a, start_b, t.samples[i], NULL);
        check_latest(start_a, start_b, NULL);
    }
    set_device(image);
    check_run_two(start_a, start_b, t.samples, 4);
    check_latest(start_a, start_b, NULL);
    check_run_two(start_a | (size_t)1 << 40, start_b, t.samples, 4);
    check_run_two(start_a, start_b | (size_t)1 << 40, t.samples, 4);
    return true;
}

/* The writer, given more samples than it can count; the first may be bad. */
static void too_many_samples(void)
{
    const size_t above = (size_t)1 << 32;
    uint32_t *samples = (uint32_t *)(void *)far_memory();
    samples[0] = chance(1, 2) ? 0x40000 : 0;
    t.writes.count = chance(1, 4) ? 256 : t.writes.count;
    check_trace_write(&t.writes, samples, above + below(4), below(100));
    check_trace_write(&t.writes, samples, above + t.count, MOST_FILE);
}

/* W7. A file of more than 4 GiB; all but the first few of its samples and the last are 0. */
static void far_version_2(void)
{
    const size_t above = (size_t)1 << 32, count = above / 3 + below(1 << 20);
    uint8_t *bytes = far_memory();
    trace_valid(&t, 1);
    const size_t header = trace_file_as(&t, 2, bytes) - 3, length = header + 3 * count;
    for (unsigned i = 0; i < 4; i++) bytes[6 + i] = (uint8_t)(count >> 8 * i);
    bytes[length - 3] = 1;
    for (size_t place = 0; place < t.writes.count + 2; place++) check_trace_item(bytes, length, place, NULL);
    for (unsigned n = 4; n; n--) check_trace_item(bytes, length, t.writes.count + count - 2 + below(4), NULL);
    check_trace_item(bytes, length, below((uint32_t)count), NULL);
    check_trace_item(bytes, length - above, 0, NULL);
    check_trace_item(bytes, length + 1, 0, NULL);
    run_file(bytes, length - 1, any_start());
    run_file(bytes, length - above, any_start());
    check_run_file_depth(any_depth(), bytes, length, bad_start());
}

/* A file, a count of samples and an output buffer that are right only without their upper bits. */
static void far_file(void)
{
    trace_valid(&t, below(8));
    const size_t length = trace_file(&t, file), above = (size_t)1 << 32;
    lend_far_memory(2 * above);
    check_trace_write(&t.writes, t.samples, t.count, above + below(40));
    lend_memory(any_length());
    too_many_samples();
    memcpy(far_memory(), file, length);
    run_file(far_memory(), above + length, 0);
    check_trace_item(far_memory(), above + length, below(8), NULL);
    far_version_2();
}

void limits_kind(void)
{
    while (more()) {
        for (unsigned n = 40; n && more(); n--) chance(3, 4) ? last_samples() : last_samples_two();
        for (unsigned n = 8; n && far_landing_two(); n--) continue;
        lend_memory_b(0);
        if (far_landing()) far_file();
        lend_memory(0);
    }
}
