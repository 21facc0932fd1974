/* Runs and trace files, W7: their samples one by one; items; the writer. */
#include <string.h>

#include "cases.h"

uint64_t samples_made COUNTER;

/* The next sample of a run that was accepted; a word lands again where it landed. */
static void walk_sample(camera *c, const call *made, uint32_t sample)
{
    const camera before = *c;
    outcome unused;
    model_sample(c, made->memory, made->memory_length, made->start, sample, &unused);
    reached_sample(&before, sample, c);
    const bool overrun = c->completed != before.completed && c->discarded != before.discarded;
    SEEN_AT("rule 9: overrun inside a run", made->kind == RUN_FILE ? 0 : c->depth, overrun && made->kind == RUN);
    SEEN_AT("rule 9: overrun inside a file at a named depth", made->kind == RUN_FILE ? 0 : c->depth, overrun && made->kind != RUN);
    samples_made++;

    const bool run = made->kind == RUN, padded = (before.cr & JPEG) && before.data && (c->blanked & VSYNC) && c->completed != before.completed;
    const bool lost = c->discarded != before.discarded, ess = before.cr & ESS;
    const uint32_t raised = c->ris & ~before.ris;
    SEEN("W6: ERR inside a run", (raised & F_ERR) && run);
    SEEN("W6: ERR inside a file", (raised & F_ERR) && !run);
    SEEN("W6: a frame end with FRAME raised inside a run", ess && (raised & F_FRAME) && run);
    SEEN("W6: a frame end with FRAME raised inside a file", ess && (raised & F_FRAME) && !run);
    SEEN("W6: a frame end with FRAME raised inside a file of version 2", ess && (raised & F_FRAME) && !run && made->file[3] == 2);
    SEEN("W4: padded and held inside a run", padded && !lost && run);
    SEEN("W4: padded and held inside a file", padded && !lost && !run);
    SEEN("W4: padded and lost inside a run", padded && lost && run);
    SEEN("W4: padded and lost inside a file", padded && lost && !run);
    SEEN("W4: padded and held inside a file of version 2", padded && !run && made->file[3] == 2);
}

/* The next sample over two memories. */
static void walk_sample_two(camera *c, const call *made, uint32_t sample)
{
    const camera before = *c;
    outcome unused;
    model_sample_two(c, made->lent, sample, &unused);
    reached_sample(&before, sample, c);
    reached_two(&before, sample, made->lent, c);
    SEEN("W2: overrun inside a run over two memories", c->completed != before.completed && c->discarded != before.discarded);
    samples_made++;
}

static bool walked_well(const camera *c, const call *made)
{
    uint32_t image[DCMI_WORDS];
    model_to_image(c, image);
    return memcmp(image, made->after, sizeof image) == 0;
}

/* Whether the samples of a run, one by one, come to the same device. */
bool reached_run(const call *made)
{
    camera c;
    model_from_image(&c, made->before);
    for (size_t i = 0; i < made->count; i++) walk_sample(&c, made, made->samples[i]);
    return walked_well(&c, made);
}

bool reached_run_two(const call *made)
{
    camera c;
    unsigned complete = 0;
    model_from_image(&c, made->before);
    for (size_t i = 0; i < made->count; i++) {
        const bool was_a = c.in[BUFFER_A] == CONTENT_COMPLETE, was_b = c.in[BUFFER_B] == CONTENT_COMPLETE;
        walk_sample_two(&c, made, made->samples[i]);
        complete += (!was_a && c.in[BUFFER_A] == CONTENT_COMPLETE) + (!was_b && c.in[BUFFER_B] == CONTENT_COMPLETE);
    }
    SEEN("W2: a frame becomes complete inside a run", complete);
    SEEN("W2: so do three frames in one run", complete >= 3);
    return walked_well(&c, made);
}

uint32_t number_at(const uint8_t *bytes, unsigned count)
{
    uint32_t value = 0;
    while (count--) value = value << 8 | bytes[count];
    return value;
}

heading read_header(const uint8_t *file, size_t length)
{
    heading h = { .version = length < 5 ? 0 : number_at(file + 3, 2) };
    h.bytes = h.version == 2 ? 10 : 8;
    h.whole = length >= h.bytes;
    if (!h.whole) return h;
    h.writes = file[5];
    h.samples = number_at(file + 6, h.version == 2 ? 4 : 2);
    h.body = h.bytes + 5 * h.writes;
    h.length = h.body + 3 * h.samples;
    return h;
}

/* What every call that reads a file is to reach. */
static void reached_form(const call *made)
{
    const call_kind kind = made->kind;
    const uint32_t answer = made->answer;
    const size_t length = made->length;
    const heading h = read_header(made->file, length);
    const bool one = h.version == 1, two = h.version == 2, long_header = length >= 10;
    SEEN_BY("fewer than 8 bytes: 13", kind, answer == 13 && length < 8);
    SEEN_BY("W7: version 2 of 8 bytes: 13", kind, answer == 13 && two && length == 8);
    SEEN_BY("W7: version 2 of 9 bytes: 13", kind, answer == 13 && two && length == 9);
    SEEN_BY("W7: version 2 of 10 bytes, the count above 16,384: 13", kind, answer == 13 && two && length == 10);
    SEEN_BY("version 0: 11", kind, answer == 11 && h.version == 0);
    SEEN_BY("W7: version 3: 11", kind, answer == 11 && h.version == 3);
    SEEN_BY("W7: version 257 or 258, whose low byte is 1 or 2: 11", kind, answer == 11 && (h.version == 257 || h.version == 258));
    if (!h.whole) return;
    SEEN_BY("W7: version 1, 16,385 samples, all of them there: 12", kind, answer == 12 && one && h.samples == 16385 && length == h.length);
    SEEN_BY("W7: version 2, 16,384 samples, all of them there: 12", kind, answer == 12 && two && h.samples == 16384 && length == h.length);
    SEEN_BY("W7: version 2, no sample, the length as it says: 12", kind, answer == 12 && two && h.samples == 0 && length == h.length);
    SEEN_BY("version 1, length not as the header says: 13", kind, answer == 13 && one);
    SEEN_BY("W7: version 2, length not as the header says: 13", kind, answer == 13 && two);
    SEEN_BY("W7: version 2, length as of version 1: 13", kind, answer == 13 && two && length == h.length - 2);
    SEEN_BY("W7: version 1, length as of version 2: 13", kind, answer == 13 && one && long_header && length == h.length + 2);
    SEEN_BY("W7: version 2, length right for the count's low 16 bits: 13", kind, answer == 13 && two && length == h.body + 3 * (h.samples & 0xFFFF));
    SEEN_BY("W7: version 2, length right only modulo 2^32: 13", kind, answer == 13 && two && length == (uint32_t)h.length);
    SEEN_BY("W7: version 2, a bad sample: 7", kind, answer == 7 && two);
    if (answer) return;
    SEEN_BY("version 1, 16,384 samples, accepted", kind, one && h.samples == 16384);
    SEEN_BY("W7: version 2, 16,385 samples, accepted", kind, two && h.samples == 16385);
    SEEN_BY("W7: version 2, more than 65,535 samples, accepted", kind, two && h.samples > 65535);
    SEEN_BY("version 1, no writes, no samples, accepted", kind, h.writes == 0 && h.samples == 0);
    SEEN_BY("version 1, 255 writes, 16,384 samples, accepted", kind, one && h.writes == 255 && h.samples == 16384);
    SEEN_BY("W7: version 2, no writes, accepted", kind, two && h.writes == 0);
    SEEN_BY("W7: version 2, 255 writes, accepted", kind, two && h.writes == 255);
}

/* The writes of a file up to the refused one; how many are accepted. */
static uint64_t walk_writes(camera *c, const uint8_t *file, const heading *h)
{
    for (uint64_t i = 0; i < h->writes; i++) {
        const uint8_t *at = file + h->bytes + 5 * i;
        const camera before = *c;
        if (model_write(c, at[0], number_at(at + 1, 4))) return i;
        reached_write(&before, at[0], c);
    }
    return h->writes;
}

/* Whether the writes and samples of a file, one by one, come to the same device. */
bool reached_file(const call *made)
{
    reached_form(made);
    if (made->answer > 6) return true;
    camera c;
    model_reset_depth(&c, made->depth);
    const heading h = read_header(made->file, made->length);
    const uint64_t accepted = walk_writes(&c, made->file, &h);
    SEEN("W7: file: version 2, a write refused after an accepted one", made->answer && accepted && h.version == 2);
    SEEN("file: version 1, a write refused after an accepted one", made->answer && accepted && h.version != 2);
    if (made->answer) return accepted < h.writes;
    for (uint64_t i = 0; i < h.samples; i++) walk_sample(&c, made, number_at(made->file + h.body + 3 * i, 3));
    SEEN_AT("dcmi_run_file_depth accepted", made->depth, made->kind == RUN_FILE_DEPTH);
    return walked_well(&c, made);
}

void reached_item(const call *made)
{
    reached_form(made);
    if (made->answer) return;
    const heading h = read_header(made->file, made->length);
    const bool two = h.version == 2, sample = made->output == DCMI_SAMPLE;
    SEEN("W7: item: version 2, a write", made->output == DCMI_WRITE && two);
    SEEN("item: version 1, a write", made->output == DCMI_WRITE && !two);
    SEEN("W7: item: version 2, a sample", sample && two);
    SEEN("item: version 1, a sample", sample && !two);
    SEEN("W7: item: version 2, the end", made->output == DCMI_END && two);
    SEEN("item: version 1, the end", made->output == DCMI_END && !two);
    SEEN("W7: item: version 2, the last sample", two && sample && made->place == h.writes + h.samples - 1);
    SEEN("W7: item: a sample of a file above 4 GiB", two && sample && made->length > UINT32_MAX);
}

void reached_writer(const call *made)
{
    const size_t writes = made->writes->count, count = made->count;
    const bool two = count > 16384;
    SEEN("W7: writer: version 2 refused 15, a header of 8 bytes would fit", made->answer == 15 && two && made->length - (8 + 5 * writes + 3 * count) < 2);
    SEEN("W7: writer: 4,294,967,296 samples refused 12", made->answer == 12 && count == (size_t)1 << 32);
    SEEN("W7: writer: more refused 12, the low 32 bits are 16,384 or less", made->answer == 12 && (uint32_t)count <= 16384);
    if (made->answer) return;
    SEEN("W7: writer: version 2, the output fills the buffer", made->output == made->length && two);
    SEEN("writer: version 1, the output fills the buffer", made->output == made->length && !two);
    SEEN("W7: writer: version 2, bytes after the output stay", made->output < made->length && two);
    SEEN("writer: version 1, bytes after the output stay", made->output < made->length && !two);
    SEEN("writer: 255 writes, 16,384 samples", writes == 255 && count == 16384);
    SEEN("W7: writer: version 2, 16,385 samples", count == 16385);
    SEEN("W7: writer: version 2, 255 writes", two && writes == 255);
}
