/* The order of a call's refusals: the reasons that hold, two at once, and which is answered. */
#include <inttypes.h>
#include <stdio.h>
#include <string.h>

#include "cases.h"

enum { MOST_REASONS = 16 };

/* The reasons for a refusal of each call, in the paper's order; 0 stands for the number of a refused write. */
static const struct {
    unsigned count;
    uint8_t number[MOST_REASONS];
    uint32_t never[MOST_REASONS]; /* bit j of entry i: reasons i and j cannot stand together */
} order[CALLS] = {
    [RESET_DEPTH] = { 1, { 18 }, { 0 } },
    [WRITE] = { 6, { 1, 2, 3, 4, 5, 6 }, { 0, 0x3C, 0x30 } },
    [READ] = { 3, { 1, 2, 3 }, { 0, 0x4 } },
    [INTERRUPT] = { 1, { 1 }, { 0 } },
    [REARM] = { 1, { 1 }, { 0 } },
    [ONE_BUFFER] = { 2, { 1, 6 }, { 0 } },
    [TWO_BUFFERS] = { 2, { 1, 6 }, { 0 } },
    [LATEST_FRAME] = { 3, { 1, 16, 9 }, { 0 } },
    [SAMPLE] = { 5, { 1, 16, 9, 7, 8 }, { 0 } },
    [SAMPLE_TWO] = { 5, { 1, 16, 9, 7, 8 }, { 0 } },
    [RUN] = { 5, { 1, 16, 9, 7, 8 }, { 0 } },
    [RUN_TWO] = { 5, { 1, 16, 9, 7, 8 }, { 0 } },
    [RUN_FILE] = { 9, { 13, 10, 11, 13, 12, 13, 0, 9, 7 }, { 0x178, 0, 0x8, 0x170, 0, 0x140 } },
    [RUN_FILE_DEPTH] = { 10, { 18, 13, 10, 11, 13, 12, 13, 0, 9, 7 }, { 0, 0x2F0, 0, 0x10, 0x2E0, 0, 0x280 } },
    [TRACE_WRITE] = { 4, { 14, 12, 7, 15 }, { 0 } },
    [TRACE_ITEM] = { 7, { 13, 10, 11, 13, 12, 13, 7 }, { 0x78, 0, 0x8, 0x70, 0, 0x40 } },
};

static uint64_t together[CALLS][MOST_REASONS][MOST_REASONS] COUNTER; /* calls with two reasons at once */

static uint32_t reason(bool holds, unsigned at) { return (uint32_t)holds << at; }

static uint32_t write_reasons(const call *made, bool malformed)
{
    const uint32_t offset = made->offset, value = made->value, cr = made->before[DCMI_W_CR];
    const bool read_only = offset == DCMI_SR || offset == DCMI_RIS || offset == DCMI_MIS;
    const bool set_up = offset == DCMI_ESCR || offset == DCMI_ESUR || offset == DCMI_CWSTRT || offset == DCMI_CWSIZE;
    const bool known = read_only || set_up || offset == DCMI_CR || offset == DCMI_IER || offset == DCMI_ICR;
    const bool change = (value ^ cr) & ~(uint32_t)(CAPTURE | ENABLE);
    return reason(malformed, 0)
         | reason(!known, 1)
         | reason(read_only, 2)
         | reason(known && (value & ~bits_of(offset)), 3)
         | reason(offset == DCMI_CR && unsupported(value), 4)
         | reason((cr & ENABLE) && (set_up || (offset == DCMI_CR && change)), 5);
}

static uint32_t read_reasons(const call *made, bool malformed)
{
    const bool known = made->offset % 4 == 0 && made->offset <= 0x24;
    return reason(malformed, 0) | reason(!known, 1) | reason(made->offset == DCMI_ICR, 2);
}

static bool has_bad(const uint32_t *samples, size_t count)
{
    uint32_t all = 0;
    for (size_t i = 0; i < count; i++) all |= samples[i];
    return all >> 18;
}

static bool bad_starts(const call *made)
{
    return made->lent[BUFFER_A].start > made->lent[BUFFER_A].length || made->lent[BUFFER_B].start > made->lent[BUFFER_B].length;
}

static uint32_t run_reasons(const call *made, bool malformed)
{
    const bool single = made->kind == SAMPLE || made->kind == SAMPLE_TWO, two = made->kind == SAMPLE_TWO || made->kind == RUN_TWO;
    const uint32_t *samples = single ? &made->value : made->samples;
    const size_t count = single ? 1 : made->count;
    return reason(malformed, 0)
         | reason(made->before[DCMI_W_MODE] != two, 1)
         | reason(two ? bad_starts(made) : made->start > made->memory_length, 2)
         | reason(has_bad(samples, count), 3)
         | reason(made->before[DCMI_W_SAMPLES] + (uint64_t)count > UINT32_MAX, 4);
}

/* W2. */
static uint32_t mode_reasons(const call *made, bool malformed) { return reason(malformed, 0) | reason(made->before[DCMI_W_CR] & ENABLE, 1); }

static uint32_t latest_reasons(const call *made, bool malformed)
{
    return reason(malformed, 0) | reason(made->before[DCMI_W_MODE] != 1, 1) | reason(bad_starts(made), 2);
}

/* More samples than this are not walked through: of those the first and the last are looked at. */
enum { MANY = 1 << 20 };

/* The first six reasons of a file. W7: the fourth is a version 2 header of which only eight or nine bytes are there. */
static uint32_t header_reasons(const call *made, const heading *h)
{
    const uint8_t *file = made->file;
    const size_t length = made->length;
    return reason(length < 8, 0)
         | reason(length >= 3 && memcmp(file, "FGT", 3) != 0, 1)
         | reason(length >= 5 && h->version != 1 && h->version != 2, 2)
         | reason(length >= 8 && !h->whole, 3)
         | reason(h->whole && (h->version == 2 ? h->samples <= 16384 : h->samples > 16384), 4)
         | reason(h->whole && length != h->length, 5);
}

static bool bad_at(const uint8_t *file, const heading *h, uint64_t i) { return file[h->body + 3 * i + 2] > 3; }

/* Whether a write is refused on a fresh device; its depth makes no difference. */
static bool refused_write(const uint8_t *file, const heading *h)
{
    camera c;
    model_reset(&c);
    for (uint64_t i = 0; i < h->writes; i++) {
        const uint8_t *at = file + h->bytes + 5 * i;
        if (model_write(&c, at[0], number_at(at + 1, 4))) return true;
    }
    return false;
}

static uint32_t file_reasons(const call *made)
{
    const heading h = read_header(made->file, made->length);
    const bool as_said = h.whole && made->length == h.length;
    bool bad = as_said && h.samples && bad_at(made->file, &h, h.samples - 1);
    for (uint64_t i = 0; as_said && i < (h.samples <= MANY ? h.samples : 1) && !bad; i++) bad = bad_at(made->file, &h, i);
    return header_reasons(made, &h) | reason(as_said && refused_write(made->file, &h), 6) | reason(made->start > made->memory_length, 7)
         | reason(bad, 8);
}

static uint32_t item_reasons(const call *made)
{
    const heading h = read_header(made->file, made->length);
    const bool as_said = h.whole && made->length == h.length;
    const bool sample = as_said && made->place >= h.writes && made->place - h.writes < h.samples;
    return header_reasons(made, &h) | reason(sample && bad_at(made->file, &h, made->place - h.writes), 6);
}

static bool has_bad_far(const uint32_t *samples, size_t count)
{
    if (!samples) return false;
    return count <= MANY ? has_bad(samples, count) : has_bad(samples, 1) || has_bad(samples + count - 1, 1);
}

/* Counts for which there are no arrays: nothing fits. */
static uint32_t writer_reasons(const call *made)
{
    const size_t writes = made->writes->count, count = made->count, header = count > 16384 ? 10 : 8;
    return reason(writes > 255, 0)
         | reason(count > UINT32_MAX, 1)
         | reason(has_bad_far(made->samples, count), 2)
         | reason(writes > MANY || count > MANY || header + 5 * writes + 3 * count > made->length, 3);
}

/* W9: 18. */
static bool bad_depth(uint32_t depth) { return depth - 1 >= SLOTS; }

uint32_t reasons_of(const call *made)
{
    const bool on_device = WRITE <= made->kind && made->kind <= RUN_TWO, malformed = on_device && reached_image(made->before);
    switch (made->kind) {
    case WRITE: return write_reasons(made, malformed);
    case READ: return read_reasons(made, malformed);
    case ONE_BUFFER: case TWO_BUFFERS: return mode_reasons(made, malformed);
    case LATEST_FRAME: return latest_reasons(made, malformed);
    case SAMPLE: case SAMPLE_TWO: case RUN: case RUN_TWO: return run_reasons(made, malformed);
    case RESET_DEPTH: return reason(bad_depth(made->depth), 0);
    case RUN_FILE: return file_reasons(made);
    case RUN_FILE_DEPTH: return reason(bad_depth(made->depth), 0) | file_reasons(made) << 1;
    case TRACE_WRITE: return writer_reasons(made);
    case TRACE_ITEM: return item_reasons(made);
    default: return reason(malformed, 0);
    }
}

bool reached_reasons(const call *made, uint32_t reasons)
{
    const unsigned count = order[made->kind].count;
    unsigned first = 0;
    while (first < count && !(reasons >> first & 1)) first++;
    for (unsigned i = first; i < count; i++)
        for (unsigned j = i + 1; j < count; j++)
            if ((reasons >> i & 1) && (reasons >> j & 1)) together[made->kind][i][j]++;
    if (first == count) return made->answer == 0;
    const uint32_t number = order[made->kind].number[first];
    return number ? made->answer == number : made->answer >= 2 && made->answer <= 6;
}

static void print_reason(unsigned number, const char *before)
{
    if (number) printf("%s%u", before, number);
    else printf("%sw", before);
}

void print_count(uint64_t count)
{
    if (count) printf(": %" PRIu64, count);
    else printf(": NEVER");
}

bool orders_summary(void)
{
    bool complete = true;
    printf("Two reasons for a refusal at once, the first one answered (w: a refused write of a file):\n");
    for (unsigned kind = 0; kind < CALLS; kind++) {
        if (order[kind].count < 2) continue;
        printf("  %-19s", call_name[kind]);
        for (unsigned i = 0; i < order[kind].count; i++) {
            for (unsigned j = i + 1; j < order[kind].count; j++) {
                if (order[kind].never[i] >> j & 1) continue;
                print_reason(order[kind].number[i], " ");
                print_reason(order[kind].number[j], "<");
                print_count(together[kind][i][j]);
                complete &= together[kind][i][j] != 0;
            }
        }
        printf("\n");
    }
    return complete;
}
