#include <string.h>

#include "kinds.h"

/* ---- files ---- */

static size_t any_place(size_t items)
{
    switch (below(5)) {
    case 0: return items + below(3);
    case 1: return SIZE_MAX - below(3);
    case 2: return ((size_t)1 << between(32, 63)) + 2;
    default: return below((uint32_t)items + 1);
    }
}

/* A file on which both readers are asked. */
static void ask(const uint8_t *bytes, size_t length)
{
    run_file(bytes, length, any_start());
    check_trace_item(bytes, length, chance(1, 2) ? 0 : any_place(t.writes.count + t.count), NULL);
}

/* The writer gives the file back from the items of the reader. */
static void rewrite(const uint8_t *bytes, size_t length)
{
    static uint32_t samples[TRACE_SAMPLES];
    dcmi_writes writes = { .count = 0 };
    dcmi_item item = { .kind = DCMI_WRITE };
    size_t count = 0, place = 0, written;
    for (; item.kind != DCMI_END; place = (size_t)item.next) {
        if (check_trace_item(bytes, length, place, &item)) return;
        if (item.kind == DCMI_WRITE) {
            writes.offset[writes.count] = (uint8_t)item.offset;
            writes.value[writes.count++] = (uint32_t)item.value;
        } else if (item.kind == DCMI_SAMPLE) {
            samples[count++] = (uint32_t)item.value;
        }
    }
    check_trace_item(bytes, length, place, NULL);
    if (check_trace_write(&writes, samples, count, length + below(3))) differs("the writer refused the items of an accepted file");
    const uint8_t *again = written_file(&written);
    if (written != length || memcmp(again, bytes, length)) differs("the writer made another file of the items of an accepted one");
}

/* Each byte of the header with each value; two of them at once. */
static void damaged_header(unsigned version, size_t length)
{
    const unsigned bytes = (unsigned)header_length(version);
    for (unsigned at = 0; at < bytes; at++) {
        const uint8_t right = file[at];
        for (unsigned value = 0; value < 256; value++) {
            file[at] = (uint8_t)value;
            ask(file, length);
        }
        file[at] = right;
    }
    for (unsigned n = 100; n; n--) {
        uint8_t header[10];
        memcpy(header, file, bytes);
        const uint32_t one = below(bytes), other = below(bytes);
        file[one] ^= (uint8_t)(1 << below(8));
        file[other] = (uint8_t)random_u32();
        ask(file, chance(1, 2) ? length : below((uint32_t)length + 4));
        memcpy(file, header, bytes);
    }
}

/* Every cut, and some bytes too many. */
static void wrong_length(size_t length)
{
    for (size_t cut = 0; cut < length; cut++) ask(file, cut);
    random_bytes(file + length, 65536);
    for (size_t more_bytes = 1; more_bytes <= 9; more_bytes++) ask(file, length + more_bytes);
    ask(file, length + 256);
    ask(file, length + 65536);
}

static void every_item(size_t length)
{
    const size_t items = t.writes.count + t.count;
    for (size_t place = 0; place < items + 4; place++) check_trace_item(file, length, place, NULL);
    for (unsigned n = 8; n; n--) check_trace_item(file, length, any_place(items), NULL);
}

/* Writes and samples that are refused when the file is run. */
static void refused_content(void)
{
    uint32_t last[DCMI_WORDS] = { 0 };
    if (t.writes.count) last[DCMI_W_CR] = t.writes.value[t.writes.count - 1];
    for (unsigned n = below(4); n; n--) {
        const size_t at = chance(1, 2) ? t.writes.count : below((uint32_t)t.writes.count + 1);
        t.writes.offset[at] = (uint8_t)any_offset();
        t.writes.value[at] = any_value(last);
        if (at == t.writes.count) t.writes.count++;
    }
    if (t.count && chance(1, 2)) {
        const size_t at = chance(1, 2) ? t.count - 1 : below((uint32_t)t.count);
        t.samples[at] |= UINT32_C(1) << between(18, 23);
    }
    const size_t length = trace_file(&t, file);
    run_file(file, length, any_start());
    every_item(length);
    rewrite(file, length);
    const uint32_t at = below(5); /* the mark or the version */
    file[at] ^= (uint8_t)(1 << below(8));
    run_file(file, length, any_start());
}

/* As many writes as fit, all accepted: they end as they began. */
static void fill_writes(size_t count)
{
    const dcmi_writes w = t.writes;
    for (size_t i = 0; i < count; i++) {
        const bool own = i + w.count >= count;
        t.writes.offset[i] = own ? w.offset[i + w.count - count] : chance(1, 2) ? DCMI_IER : DCMI_CWSIZE;
        t.writes.value[i] = own ? w.value[i + w.count - count] : below(32);
    }
    t.writes.count = count;
}

/* A file of many samples, accepted or not, and what damage makes of it. */
static void large_file(unsigned version)
{
    const size_t length = trace_file_as(&t, version, file), items = t.writes.count + t.count;
    lend_memory(chance(1, 2) ? 16384 : chance(1, 2) ? any_length() : between(257, 70000));
    run_file(file, length, any_start());
    for (unsigned wrong = 1; wrong <= 3; wrong++) {
        ask(file, length + wrong);
        ask(file, length - wrong);
    }
    for (unsigned n = 12; n; n--) check_trace_item(file, length, any_place(items), NULL);
    check_trace_item(file, length, items - 1, NULL);
    const uint8_t last = file[length - 1];
    file[length - 1] |= (uint8_t)(1 << between(2, 7)); /* the last sample */
    ask(file, length);
    check_trace_item(file, length, items - 1, NULL);
    if (chance(1, 2)) file[length - 1] = last;
    file[below(3)] ^= 0x20;
    ask(file, length);
    check_trace_item(file, length, items - 1, NULL);
    memcpy(file, "FGT", 3);
    file[4] = (uint8_t)random_u32();
    ask(file, length);
    check_trace_item(file, length, items - 1, NULL);
    file[4] = 0;
    file[3] ^= 3; /* the other version */
    ask(file, length);
    ask(file, version == 1 ? length + 2 : length - 2);
    file[3] ^= 3;
    if (version == 2) { /* the upper bytes of the count */
        file[between(8, 9)] ^= (uint8_t)(1 << below(8));
        ask(file, length);
        trace_file_as(&t, version, file);
    }
    if (t.writes.count) file[header_length(version) + 5 * below((uint32_t)t.writes.count)] |= 0x40; /* a write's offset */
    ask(file, length);
}

static void large_files(void)
{
    static const struct { unsigned version; uint32_t count; } files[] = {
        { 1, 16383 }, { 1, 16384 }, { 1, 16384 }, { 1, 16384 }, { 1, 16385 }, { 1, 16386 }, { 1, 32768 }, { 1, 65535 },
        { 2, 16383 }, { 2, 16384 }, { 2, 16385 }, { 2, 16385 }, { 2, 16386 },
    };
    for (unsigned i = 0; i < sizeof files / sizeof *files; i++) {
        trace_valid(&t, files[i].count);
        if (files[i].version == 1 ? i >= 2 : i != 10) fill_writes(255);
        if (i == 10) t.writes.count = 0;
        large_file(files[i].version);
    }
    trace_valid(&t, chance(1, 4) ? between(65536, 65540) : between(16387, 24000));
    large_file(2);
    trace_valid(&t, 16384 + below(2));
    rewrite(file, trace_file(&t, file));
}

/* Files that overrun at every depth, each at some. */
static void full_files(void)
{
    for (unsigned n = 4; n; n--) {
        trace_full(&t, between(100, 900));
        const size_t length = trace_file(&t, file);
        for (unsigned depths = 8; depths; depths--) {
            const size_t start = good_start();
            check_run_file_depth(any_depth(), file, length, start);
        }
    }
}

/* Version 2 with few samples: refused 12, and otherwise where it is damaged. */
static void small_version_2(void)
{
    const size_t length = trace_file_as(&t, 2, file);
    ask(file, length);
    if (chance(1, 2)) damaged_header(2, length);
    else wrong_length(length);
}

void files_kind(void)
{
    for (unsigned turn = 0; more(); turn++) {
        if (turn == 3) large_files();
        uint32_t image[DCMI_WORDS];
        random_bytes((uint8_t *)image, sizeof image);
        set_device(image);
        lend_memory(any_length());
        trace_valid(&t, chance(1, 4) ? 0 : below(12));
        if (chance(1, 4)) t.writes.count = 0;
        const size_t length = trace_file(&t, file);
        run_file(file, length, any_start());
        every_item(length);
        rewrite(file, length);
        if (chance(1, 6)) damaged_header(1, length);
        if (chance(1, 4)) wrong_length(length);
        if (chance(1, 4)) small_version_2();
        for (unsigned n = 20; n; n--) {
            const size_t bytes = header_only(file);
            ask(file, bytes);
        }
        for (unsigned n = 20; n; n--) {
            trace_valid(&t, below(chance(1, 8) ? 400 : 30));
            run_file(file, trace_file(&t, file), any_start());
            refused_content();
        }
        full_files();
    }
}

/* ---- writer ---- */

static size_t any_writes_count(void)
{
    static const size_t counts[] = { 0, 1, 2, 254, 255, 255, 256, 257, 511, 65536, (size_t)1 << 32, ((size_t)1 << 32) + 1, SIZE_MAX, SIZE_MAX / 5 + 1 };
    return chance(1, 2) ? below(10) : counts[below(14)];
}

static size_t any_sample_count(void)
{
    static const size_t counts[] = { 16383, 16384, 16384, 16384, 16385, 16385, 16385, 16386, 16387, 20000, 32768, 65536, 65537, TRACE_SAMPLES };
    return chance(23, 24) ? below(20) : counts[below(14)];
}

static size_t any_buffer(size_t needed)
{
    switch (below(8)) {
    case 0: return 0;
    case 1: return needed - between(1, 3);
    case 2: return needed + 1;
    case 3: return needed + below(200);
    case 4: return below((uint32_t)needed);
    default: return needed;
    }
}

/* What was written, read back at every place, and run. */
static void read_back(void)
{
    size_t length;
    const uint8_t *bytes = written_file(&length);
    memcpy(file, bytes, length);
    if (t.count < 100) every_item(length);
    run_file(file, length, any_start());
    if (t.count < 100 || (t.count < 20000 && chance(1, 8))) rewrite(file, length);
}

void writer_kind(void)
{
    while (more()) {
        scene s;
        scene_make(&s, valid_cr());
        lend_memory(any_length());
        random_bytes(t.writes.offset, sizeof t.writes.offset);
        random_bytes((uint8_t *)t.writes.value, sizeof t.writes.value);
        if (chance(1, 2)) trace_valid(&t, 0);
        else t.writes.count = any_writes_count();
        t.count = any_sample_count();
        scene_samples(&s, t.samples, t.count);
        if (t.count && chance(1, 4)) {
            const size_t at = chance(1, 2) ? t.count - 1 : below((uint32_t)t.count);
            t.samples[at] = chance(1, 2) ? 0x3FFFF : damaged(t.samples[at]);
        }
        const size_t writes = t.writes.count > 255 ? 255 : t.writes.count, header = header_length(t.count > 16384 ? 2 : 1);
        if (!check_trace_write(&t.writes, t.samples, t.count, any_buffer(header + 5 * writes + 3 * t.count))) read_back();
    }
}
