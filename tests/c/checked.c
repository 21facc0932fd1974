#define _DEFAULT_SOURCE
#include "checked.h"

#include <inttypes.h>
#include <signal.h>
#include <stdio.h>
#include <stdlib.h>
#include <string.h>
#include <sys/mman.h>
#include <unistd.h>

#include "guard.h"
#include "inputs.h"
#include "model.h"
#include "reached.h"

/* The name of a word of the image, until the next is asked for. */
static const char *word_name(unsigned word)
{
    static const char *const before[DCMI_W_SLOT] = {
        "CR", "RIS", "IER", "CWSTRT", "CWSIZE", "HSYNC", "VSYNC", "CLOCK", "HSYNC_BLANKED", "VSYNC_BLANKED", "FRAME", "LINES", "PIXELS", "RATE",
        "PARTIAL_COUNT", "PARTIAL_BITS",
    };
    static const char *const after[DCMI_WORDS - DCMI_W_HELD] = {
        "HELD", "PLACE", "SAMPLES", "COMPLETED", "LANDED", "DISCARDED", "DEPTH", "ESCR", "ESUR", "WAITING", "MODE", "PLACE_B", "IN_B", "OPENING", "TURN",
        "BEGUN", "FRAME_A", "FRAME_B", "LATEST",
    };
    static char slot[24];
    if (word < DCMI_W_SLOT) return before[word];
    if (word >= DCMI_W_HELD) return after[word - DCMI_W_HELD];
    snprintf(slot, sizeof slot, "SLOT %u", word - DCMI_W_SLOT);
    return slot;
}

static call now; /* the call that is being made */
static const char *program;
static uint64_t seed, limit, last;
static lending how;
static unsigned differences;

/* What the model holds. */
static uint32_t want_device[DCMI_WORDS];
static uint8_t own_memory[BUFFERS][MOST_MEMORY];

/* What the library is lent. */
static guarded g_device, g_samples, g_file, g_out, g_output, g_writes, g_offsets, g_values;

/* A memory, A or B: the model's, the library's, and its guarded buffer. */
typedef struct both_sides {
    uint8_t *want, *lent;
    size_t length;
    bool far;
    guarded guard;
} both_sides;

static both_sides memories[BUFFERS];
static both_sides *const a = &memories[BUFFER_A], *const b = &memories[BUFFER_B];

static uint64_t far_missing COUNTER; /* memories that the system does not give */

/* ---- reports ---- */

static void print_words(const uint32_t *words, size_t count)
{
    const size_t shown = count > 64 ? 64 : count;
    for (size_t i = 0; i < shown; i++) printf("%s%05" PRIX32, i % 16 ? " " : "\n    ", words[i]);
    printf(count > shown ? "\n    and so on\n" : "\n");
}

static void print_bytes(const uint8_t *bytes, size_t count)
{
    const size_t shown = count > 128 ? 128 : count;
    for (size_t i = 0; i < shown; i++) printf("%s%02X", i % 32 ? " " : "\n    ", bytes[i]);
    printf(count > shown ? "\n    and so on\n" : "\n");
}

static void print_call(void)
{
    printf("seed %" PRIu64 ", call %" PRIu64 ": %s", seed, now.number, call_name[now.kind]);
    switch (now.kind) {
    case RESET_DEPTH: printf(", depth %" PRIu32, now.depth); break;
    case WRITE: printf(", offset 0x%" PRIX32 ", value 0x%" PRIX32, now.offset, now.value); break;
    case READ: printf(", offset 0x%" PRIX32, now.offset); break;
    case SAMPLE: printf(", memory of %zu bytes, start %zu, sample 0x%05" PRIX32, a->length, now.start, now.value); break;
    case RUN: printf(", memory of %zu bytes, start %zu, %zu samples", a->length, now.start, now.count); break;
    case LATEST_FRAME: case SAMPLE_TWO: case RUN_TWO:
        printf(", memories of %zu and %zu bytes, starts %zu and %zu", now.lent[BUFFER_A].length, now.lent[BUFFER_B].length, now.lent[BUFFER_A].start,
               now.lent[BUFFER_B].start);
        if (now.kind == SAMPLE_TWO) printf(", sample 0x%05" PRIX32, now.value);
        if (now.kind == RUN_TWO) printf(", %zu samples", now.count);
        break;
    case RUN_FILE_DEPTH: printf(", depth %" PRIu32, now.depth); /* fall through */
    case RUN_FILE: printf(", file of %zu bytes, memory of %zu bytes, start %zu", now.length, a->length, now.start); break;
    case TRACE_WRITE: printf(", %zu writes, %zu samples, buffer of %zu bytes", now.writes->count, now.count, now.length); break;
    case TRACE_ITEM: printf(", file of %zu bytes, place %zu", now.length, now.place); break;
    default: break;
    }
    printf("\n");
}

/* Also the data of the call; not for the signal handler. */
static void print_inputs(void)
{
    if (now.samples && now.count) {
        printf("  samples");
        print_words(now.samples, now.count);
    }
    if (now.file && now.length) {
        printf("  file");
        print_bytes(now.file, now.length);
    }
    if (now.kind > RUN_FILE_DEPTH) return;
    printf("  device before, words that are not 0:\n");
    for (unsigned i = 0; i < DCMI_WORDS; i++)
        if (now.before[i]) printf("    %-14s 0x%08" PRIX32 "\n", word_name(i), now.before[i]);
}

/* The last call that this makes is the one at hand. */
static void print_command(void) { printf("again: %s %" PRIu64 " %" PRIu64 "\n", program, seed, now.number); }

/* Called before each difference is described. */
static void difference(void)
{
    if (differences++ == 0) {
        print_call();
        print_inputs();
    }
}

static void stop_if_different(void)
{
    if (!differences) return;
    print_command();
    exit(1);
}

void differs(const char *what)
{
    difference();
    printf("  %s\n", what);
    stop_if_different();
}

/* The process is lost when this runs, so it may print as it likes. */
static void on_signal(int number)
{
    const char *name = number == SIGALRM ? "no answer" : number == SIGSEGV || number == SIGBUS ? "access outside the lent buffers" : "died";
    printf("%s (signal %d)\n", name, number);
    print_call();
    print_command();
    fflush(stdout);
    _exit(1);
}

static void catch_signals(void)
{
    static uint8_t stack[1 << 16];
    const stack_t other = { .ss_sp = stack, .ss_size = sizeof stack };
    const struct sigaction action = { .sa_handler = on_signal, .sa_flags = SA_ONSTACK };
    static const int caught[] = { SIGSEGV, SIGBUS, SIGILL, SIGFPE, SIGABRT, SIGALRM };
    sigaltstack(&other, NULL);
    for (size_t i = 0; i < sizeof caught / sizeof *caught; i++) sigaction(caught[i], &action, NULL);
}

/* ---- the two sides ---- */

void checked_start(const char *name)
{
    program = name;
    catch_signals();
    guard_make(&g_device, sizeof(dcmi_device));
    guard_make(&a->guard, MOST_MEMORY);
    guard_make(&b->guard, MOST_MEMORY);
    guard_make(&g_samples, 4 * MOST_SAMPLES);
    guard_make(&g_file, MOST_FILE);
    guard_make(&g_out, MOST_FILE);
    guard_make(&g_output, 64);
    guard_make(&g_writes, sizeof(dcmi_writes));
    guard_make(&g_offsets, 255);
    guard_make(&g_values, 4 * 255);
}

void checked_seed(uint64_t number, lending lent, uint64_t calls, uint64_t last_call)
{
    seed = number;
    how = lent;
    limit = calls;
    last = last_call;
    now = (call){ 0 };
    memset(want_device, 0, sizeof want_device);
    guard_lend(&g_device, sizeof(dcmi_device), how.at_end);
    memset(g_device.at, 0, sizeof(dcmi_device));
    lend_memory(0);
    lend_memory_b(0);
    alarm(120);
}

bool more(void) { return now.number < limit; }

const uint32_t *device(void) { return want_device; }

void set_device(const uint32_t *image)
{
    memcpy(want_device, image, sizeof want_device);
    memcpy(g_device.at, image, sizeof want_device);
}

static void lend_one(buffer which, size_t length)
{
    both_sides *m = &memories[which];
    m->far = false;
    m->length = length;
    m->want = own_memory[which];
    m->lent = guard_lend(&m->guard, length, how.at_end);
    random_bytes(m->want, length);
    memcpy(m->lent, m->want, length);
}

void lend_memory(size_t length) { lend_one(BUFFER_A, length); }
void lend_memory_b(size_t length) { lend_one(BUFFER_B, length); }
size_t memory_length(void) { return a->length; }
size_t memory_b_length(void) { return b->length; }
const uint8_t *memory_bytes(void) { return a->want; }
const uint8_t *memory_b_bytes(void) { return b->want; }

/* The far memories, one for each side. */
static struct { uint8_t *lent, *want; } far[BUFFERS];
static const size_t far_size = ((size_t)1 << 34) + (1 << 16);

static uint8_t *far_pages(void)
{
    const int flags = MAP_PRIVATE | MAP_ANONYMOUS | MAP_NORESERVE;
    uint8_t *pages = mmap(NULL, far_size, PROT_READ | PROT_WRITE, flags, -1, 0);
    far_missing += pages == MAP_FAILED;
    return pages;
}

static bool have_far(void)
{
    static bool tried;
    if (!tried)
        for (unsigned i = 0; i < BUFFERS; i++) {
            far[i].lent = far_pages();
            far[i].want = far_pages();
        }
    tried = true;
    return !far_missing;
}

uint8_t *far_memory(void) { return have_far() ? far[BUFFER_A].lent : NULL; }

static bool lend_far(buffer which, size_t length)
{
    if (!have_far()) return false;
    madvise(far[which].lent, far_size, MADV_DONTNEED);
    madvise(far[which].want, far_size, MADV_DONTNEED);
    both_sides *m = &memories[which];
    m->far = true;
    m->length = length;
    m->lent = far[which].lent;
    m->want = far[which].want;
    return true;
}

bool lend_far_memory(size_t length) { return lend_far(BUFFER_A, length); }
bool lend_far_memory_b(size_t length) { return lend_far(BUFFER_B, length); }

/* ---- comparing ---- */

static void compare_bytes(const char *what, const uint8_t *want, const uint8_t *got, size_t count)
{
    if (memcmp(want, got, count) == 0) return;
    difference();
    unsigned shown = 0;
    for (size_t i = 0; i < count && shown < 16; i++)
        if (want[i] != got[i] && ++shown) printf("  %s, byte %zu: the model has %02X, the library %02X\n", what, i, want[i], got[i]);
}

static void compare_device(void)
{
    const uint32_t *got = g_device.at;
    if (memcmp(want_device, got, sizeof want_device) == 0) return;
    difference();
    for (unsigned i = 0; i < DCMI_WORDS; i++) {
        if (want_device[i] == got[i]) continue;
        printf("  device word %u, %s: the model has 0x%08" PRIX32 ", the library 0x%08" PRIX32 "\n", i, word_name(i), want_device[i], got[i]);
    }
}

/* A part of a far memory around a byte. */
static void compare_around(const both_sides *m, const char *name, uint64_t byte)
{
    const size_t from = byte > 4096 ? byte - 4096 : 0;
    if (from >= m->length) return;
    const size_t count = m->length - from < 8192 ? m->length - from : 8192;
    char what[64];
    snprintf(what, sizeof what, "%s from %zu on", name, from);
    compare_bytes(what, m->want + from, m->lent + from, count);
}

static void compare_memory(const both_sides *m, const char *name, size_t start, uint32_t place)
{
    if (!m->far) {
        compare_bytes(name, m->want, m->lent, m->length);
        return;
    }
    const uint64_t landing = start + 4 * (uint64_t)place;
    compare_around(m, name, 0);
    compare_around(m, name, start);
    compare_around(m, name, landing);
    compare_around(m, name, (uint32_t)landing);
    compare_around(m, name, m->length);
}

static void compare_memories(void)
{
    const bool two = now.kind == SAMPLE_TWO || now.kind == RUN_TWO;
    compare_memory(a, two ? "memory A" : "memory", two ? now.lent[BUFFER_A].start : now.start, now.before[DCMI_W_PLACE]);
    compare_memory(b, "memory B", two ? now.lent[BUFFER_B].start : 0, now.before[DCMI_W_PLACE_B]);
}

static void compare_beside(const char *what, const guarded *g)
{
    if (guard_intact(g)) return;
    difference();
    printf("  bytes beside the lent %s changed\n", what);
}

/* ---- one call ---- */

static void begin(call_kind kind)
{
    if (last && now.number == last) {
        printf("no difference up to here\n");
        exit(0);
    }
    now = (call){ .kind = kind, .number = now.number + 1, .memory = a->want, .memory_length = a->length };
    memcpy(now.before, want_device, sizeof want_device);
}

static uint32_t finish(uint32_t want, uint32_t got)
{
    if (want != got) {
        difference();
        printf("  the model answers %" PRIu32 ", the library %" PRIu32 "\n", want, got);
    }
    compare_device();
    compare_memories();
    compare_beside("device", &g_device);
    compare_beside("memory", &a->guard);
    compare_beside("memory B", &b->guard);
    stop_if_different();
    now.answer = want;
    memcpy(now.after, want_device, sizeof want_device);
    const char *wrong = reached_call(&now);
    if (wrong) differs(wrong);
    if (now.number == last) print_call();
    return want;
}

/* Half of the calls go to the library's own functions, so that an empty buffer too is one of ours; in the rest it is a null pointer. */
static bool direct(void) { return now.number & 1; }

static void *or_null(void *at, size_t length) { return length ? at : NULL; }

/* A const buffer for the library: lent, and taken back. */
static void *lend(guarded *g, const void *bytes, size_t count)
{
    guard_lend(g, count, how.at_end);
    if (count) memcpy(g->at, bytes, count);
    if (how.read_only) guard_lock(g);
    return g->at;
}

static void take_back(const char *what, const guarded *g, const void *bytes, size_t count)
{
    if (how.read_only) guard_unlock(g);
    if (count) compare_bytes(what, bytes, g->at, count);
    compare_beside(what, g);
}

/* An output: both sides begin with the same bytes, which a refusal must leave. */
static void *lend_output(guarded *g, void *want, size_t count)
{
    const int filling = 0xC0 | (int)(now.number & 0x3F);
    guard_lend(g, count, how.at_end);
    memset(g->at, filling, count);
    memset(want, filling, count);
    return g->at;
}

static void compare_output(const char *what, const guarded *g, const void *want, size_t count)
{
    compare_bytes(what, want, g->at, count);
    compare_beside(what, g);
}

/* An output of 64-bit numbers. */
static void compare_fields(const char *const *name, const uint64_t *want, unsigned count)
{
    const uint64_t *got = g_output.at;
    for (unsigned i = 0; i < count; i++) {
        if (want[i] == got[i]) continue;
        difference();
        printf("  output %s: the model has 0x%" PRIX64 ", the library 0x%" PRIX64 "\n", name[i], want[i], got[i]);
    }
    compare_beside("output", &g_output);
}

/* ---- the calls ---- */

uint32_t check_reset(void)
{
    begin(RESET);
    now.depth = USUAL_DEPTH;
    camera c;
    model_reset(&c);
    model_to_image(&c, want_device);
    return finish(0, dcmi_reset(g_device.at));
}

uint32_t check_reset_depth(uint32_t depth)
{
    begin(RESET_DEPTH);
    now.depth = depth;
    camera c;
    const uint32_t want = model_reset_depth(&c, depth);
    if (!want) model_to_image(&c, want_device);
    return finish(want, dcmi_reset_depth(g_device.at, depth));
}

uint32_t check_write(uint32_t offset, uint32_t value)
{
    begin(WRITE);
    now.offset = offset;
    now.value = value;
    camera c;
    uint32_t want = 1;
    if (model_from_image(&c, want_device)) {
        want = model_write(&c, offset, value);
        model_to_image(&c, want_device);
    }
    return finish(want, dcmi_write(g_device.at, offset, value));
}

uint32_t check_read(uint32_t offset, uint32_t *value)
{
    begin(READ);
    now.offset = offset;
    camera c;
    uint32_t want = 1, want_value;
    uint32_t *lent = lend_output(&g_output, &want_value, sizeof want_value);
    if (model_from_image(&c, want_device)) want = model_read(&c, offset, &want_value);
    if (how.read_only) guard_lock(&g_device);
    const uint32_t got = dcmi_read(g_device.at, offset, lent);
    if (how.read_only) guard_unlock(&g_device);
    compare_output("output value", &g_output, &want_value, sizeof want_value);
    now.output = want_value;
    if (value && !want) *value = want_value;
    return finish(want, got);
}

uint32_t check_interrupt(void)
{
    begin(INTERRUPT);
    camera c;
    bool up = false;
    uint32_t want = 1, want_line;
    uint32_t *lent = lend_output(&g_output, &want_line, sizeof want_line);
    if (model_from_image(&c, want_device)) want = model_interrupt(&c, &up);
    if (!want) want_line = up;
    if (how.read_only) guard_lock(&g_device);
    const uint32_t got = dcmi_interrupt(g_device.at, lent);
    if (how.read_only) guard_unlock(&g_device);
    compare_output("output line", &g_output, &want_line, sizeof want_line);
    now.output = want_line;
    return finish(want, got);
}

uint32_t check_rearm(void)
{
    begin(REARM);
    camera c;
    uint32_t want = 1;
    if (model_from_image(&c, want_device)) {
        want = model_rearm(&c);
        model_to_image(&c, want_device);
    }
    return finish(want, dcmi_rearm(g_device.at));
}

static uint32_t check_mode(call_kind kind)
{
    begin(kind);
    camera c;
    uint32_t want = 1;
    if (model_from_image(&c, want_device)) {
        want = kind == ONE_BUFFER ? model_one_buffer(&c) : model_two_buffers(&c);
        model_to_image(&c, want_device);
    }
    return finish(want, kind == ONE_BUFFER ? dcmi_one_buffer(g_device.at) : dcmi_two_buffers(g_device.at));
}

uint32_t check_one_buffer(void) { return check_mode(ONE_BUFFER); }
uint32_t check_two_buffers(void) { return check_mode(TWO_BUFFERS); }

/* The two memories of a call: of the model, as they are lent here. */
static void lend_both(size_t length_a, size_t start_a, size_t length_b, size_t start_b)
{
    now.lent[BUFFER_A] = (lent){ a->want, length_a, start_a };
    now.lent[BUFFER_B] = (lent){ b->want, length_b, start_b };
}

uint32_t check_latest_frame(size_t length_a, size_t start_a, size_t length_b, size_t start_b, dcmi_frame *frame)
{
    static const char *const name[] = { "kind", "offset", "length" };
    begin(LATEST_FRAME);
    lend_both(length_a, start_a, length_b, start_b);
    camera c;
    handed found;
    uint32_t want = 1;
    uint64_t want_frame[3];
    dcmi_frame *lent_frame = lend_output(&g_output, want_frame, sizeof want_frame);
    if (model_from_image(&c, want_device)) want = model_latest_frame(&c, now.lent, &found);
    if (!want) {
        static const uint64_t kinds[] = { DCMI_NO_FRAME, DCMI_FRAME_IN_A, DCMI_FRAME_IN_B, DCMI_TOO_SHORT_A, DCMI_TOO_SHORT_B };
        want_frame[0] = kinds[found.kind];
        want_frame[1] = found.offset;
        want_frame[2] = found.length;
    }
    if (how.read_only) guard_lock(&g_device);
    const uint32_t got = dcmi_latest_frame(g_device.at, length_a, start_a, length_b, start_b, lent_frame);
    if (how.read_only) guard_unlock(&g_device);
    compare_fields(name, want_frame, 3);
    now.output = want_frame[0];
    now.part_offset = want_frame[1];
    now.part_length = want_frame[2];
    if (frame && !want) memcpy(frame, g_output.at, sizeof *frame);
    return finish(want, got);
}

uint32_t check_latest(size_t start_a, size_t start_b, dcmi_frame *frame) { return check_latest_frame(a->length, start_a, b->length, start_b, frame); }

/* The answer of one sample as numbers of the header. */
static const char *const answer_name[] = { "landed", "byte", "packed", "value" };

static void answer_of(const outcome *out, uint64_t *fields)
{
    fields[0] = out->landed == LANDED_A ? 1 : out->landed == LANDED_B ? 2 : 0;
    fields[1] = out->byte;
    fields[2] = out->packed == PACKED_WORD ? DCMI_COMPLETED : out->packed == PACKED_LOST ? DCMI_LOST : DCMI_NOTHING;
    fields[3] = out->word;
}

uint32_t check_sample(size_t start, uint32_t sample, dcmi_answer *answer)
{
    begin(SAMPLE);
    now.start = start;
    now.value = sample;
    camera c;
    outcome out;
    uint32_t want = 1;
    uint64_t want_answer[4];
    dcmi_answer *lent = lend_output(&g_output, want_answer, sizeof want_answer);
    if (model_from_image(&c, want_device)) {
        want = model_sample(&c, a->want, a->length, start, sample, &out);
        model_to_image(&c, want_device);
    }
    if (!want) answer_of(&out, want_answer);
    const uint32_t got = direct() ? dcmi_sample_slices(g_device.at, a->lent, a->length, start, sample, lent)
                                  : dcmi_sample(g_device.at, or_null(a->lent, a->length), a->length, start, sample, lent);
    compare_fields(answer_name, want_answer, 4);
    if (answer && !want) memcpy(answer, g_output.at, sizeof *answer);
    return finish(want, got);
}

uint32_t check_run(size_t start, const uint32_t *samples, size_t count)
{
    begin(RUN);
    now.start = start;
    now.samples = samples;
    now.count = count;
    camera c;
    uint32_t want = 1;
    if (model_from_image(&c, want_device)) {
        want = model_run(&c, a->want, a->length, start, samples, count);
        model_to_image(&c, want_device);
    }
    uint32_t *lent = lend(&g_samples, samples, 4 * count);
    const uint32_t got = direct() ? dcmi_run_slices(g_device.at, a->lent, a->length, start, lent, count)
                                  : dcmi_run(g_device.at, or_null(a->lent, a->length), a->length, start, or_null(lent, count), count);
    take_back("samples", &g_samples, samples, 4 * count);
    return finish(want, got);
}

static uint32_t call_sample_two(uint32_t sample, dcmi_answer *answer)
{
    const size_t start_a = now.lent[BUFFER_A].start, start_b = now.lent[BUFFER_B].start;
    if (direct()) return dcmi_sample_two_slices(g_device.at, a->lent, a->length, start_a, b->lent, b->length, start_b, sample, answer);
    return dcmi_sample_two(g_device.at, or_null(a->lent, a->length), a->length, start_a, or_null(b->lent, b->length), b->length, start_b, sample, answer);
}

uint32_t check_sample_two(size_t start_a, size_t start_b, uint32_t sample, dcmi_answer *answer)
{
    begin(SAMPLE_TWO);
    lend_both(a->length, start_a, b->length, start_b);
    now.value = sample;
    camera c;
    outcome out;
    uint32_t want = 1;
    uint64_t want_answer[4];
    dcmi_answer *lent_answer = lend_output(&g_output, want_answer, sizeof want_answer);
    if (model_from_image(&c, want_device)) {
        want = model_sample_two(&c, now.lent, sample, &out);
        model_to_image(&c, want_device);
    }
    if (!want) answer_of(&out, want_answer);
    const uint32_t got = call_sample_two(sample, lent_answer);
    compare_fields(answer_name, want_answer, 4);
    now.output = want_answer[0];
    if (answer && !want) memcpy(answer, g_output.at, sizeof *answer);
    return finish(want, got);
}

static uint32_t call_run_two(uint32_t *samples, size_t count)
{
    const size_t start_a = now.lent[BUFFER_A].start, start_b = now.lent[BUFFER_B].start;
    if (direct()) return dcmi_run_two_slices(g_device.at, a->lent, a->length, start_a, b->lent, b->length, start_b, samples, count);
    return dcmi_run_two(g_device.at, or_null(a->lent, a->length), a->length, start_a, or_null(b->lent, b->length), b->length, start_b,
                        or_null(samples, count), count);
}

uint32_t check_run_two(size_t start_a, size_t start_b, const uint32_t *samples, size_t count)
{
    begin(RUN_TWO);
    lend_both(a->length, start_a, b->length, start_b);
    now.samples = samples;
    now.count = count;
    camera c;
    uint32_t want = 1;
    if (model_from_image(&c, want_device)) {
        want = model_run_two(&c, now.lent, samples, count);
        model_to_image(&c, want_device);
    }
    const uint32_t got = call_run_two(lend(&g_samples, samples, 4 * count), count);
    take_back("samples", &g_samples, samples, 4 * count);
    return finish(want, got);
}

static uint32_t call_run_file(uint8_t *file, size_t file_length, size_t start)
{
    uint8_t *memory = a->lent;
    const size_t length = a->length;
    if (direct()) return dcmi_run_file_slices(g_device.at, file, file_length, memory, length, start);
    return dcmi_run_file(g_device.at, or_null(file, file_length), file_length, or_null(memory, length), length, start);
}

static uint32_t call_run_file_depth(uint8_t *file, size_t file_length, size_t start)
{
    uint8_t *memory = a->lent;
    const size_t length = a->length;
    if (direct()) return dcmi_run_file_depth_slices(g_device.at, now.depth, file, file_length, memory, length, start);
    return dcmi_run_file_depth(g_device.at, now.depth, or_null(file, file_length), file_length, or_null(memory, length), length, start);
}

static uint32_t check_file(call_kind kind, uint32_t depth, const uint8_t *file, size_t file_length, size_t start)
{
    begin(kind);
    now.depth = depth;
    now.file = file;
    now.length = file_length;
    now.start = start;
    camera c;
    const bool own = file_length <= MOST_FILE;
    const uint32_t want = kind == RUN_FILE ? model_run_file(&c, file, file_length, a->want, a->length, start)
                                           : model_run_file_depth(&c, depth, file, file_length, a->want, a->length, start);
    if (!want) model_to_image(&c, want_device);
    uint8_t *lent = own ? lend(&g_file, file, file_length) : (uint8_t *)file;
    const uint32_t got = kind == RUN_FILE ? call_run_file(lent, file_length, start) : call_run_file_depth(lent, file_length, start);
    if (own) take_back("file", &g_file, file, file_length);
    return finish(want, got);
}

uint32_t check_run_file(const uint8_t *file, size_t file_length, size_t start)
{
    return check_file(RUN_FILE, USUAL_DEPTH, file, file_length, start);
}

uint32_t check_run_file_depth(uint32_t depth, const uint8_t *file, size_t file_length, size_t start)
{
    return check_file(RUN_FILE_DEPTH, depth, file, file_length, start);
}

static uint8_t want_out[MOST_FILE];
static const uint8_t *last_file;
static size_t last_length;

const uint8_t *written_file(size_t *length)
{
    *length = last_length;
    return last_file;
}

/* The writer: through the struct, or with its two arrays apart. */
static uint32_t call_writer(uint32_t *samples, uint8_t *out, size_t *written)
{
    const dcmi_writes *w = now.writes;
    uint32_t got;
    if (direct()) {
        uint8_t *offsets = lend(&g_offsets, w->offset, sizeof w->offset);
        uint32_t *values = lend(&g_values, w->value, sizeof w->value);
        got = dcmi_trace_write_slices(w->count, offsets, values, samples, now.count, out, now.length, written);
        take_back("offsets", &g_offsets, w->offset, sizeof w->offset);
        take_back("values", &g_values, w->value, sizeof w->value);
    } else {
        dcmi_writes *writes = lend(&g_writes, w, sizeof *w);
        got = dcmi_trace_write(writes, or_null(samples, now.count), now.count, or_null(out, now.length), now.length, written);
        take_back("writes", &g_writes, w, sizeof *w);
    }
    return got;
}

/* `readable` samples may be looked at. */
static uint32_t check_writer(const dcmi_writes *writes, const uint32_t *samples, bool readable, size_t count, size_t length)
{
    begin(TRACE_WRITE);
    now.writes = writes;
    now.samples = readable ? samples : NULL;
    now.count = count;
    now.length = length;
    const bool far_samples = count > MOST_SAMPLES, far_out = length > MOST_FILE;
    const size_t compared = far_out ? 8192 : length;
    size_t want_written;
    size_t *written = lend_output(&g_output, &want_written, sizeof want_written);
    uint8_t *model_out = far_out ? a->want : want_out;
    uint8_t *out = far_out ? a->lent : lend_output(&g_out, want_out, length);
    const uint32_t want = model_trace_write(writes->count, writes->offset, writes->value, samples, count, model_out, length, &want_written);
    uint32_t *lent = far_samples ? (uint32_t *)samples : lend(&g_samples, samples, 4 * count);
    const uint32_t got = call_writer(lent, out, written);
    if (!far_samples) take_back("samples", &g_samples, samples, 4 * count);
    compare_bytes("output buffer", model_out, out, compared);
    if (!far_out) compare_beside("output buffer", &g_out);
    compare_output("output written", &g_output, &want_written, sizeof want_written);
    now.output = want_written;
    if (!want) {
        last_file = model_out;
        last_length = want_written;
    }
    return finish(want, got);
}

uint32_t check_trace_write(const dcmi_writes *writes, const uint32_t *samples, size_t count, size_t length)
{
    return check_writer(writes, samples, true, count, length);
}

uint32_t check_trace_write_unread(const dcmi_writes *writes, size_t count, size_t length, bool *missing)
{
    uint32_t *nowhere = mmap(NULL, 4 * count, PROT_NONE, MAP_PRIVATE | MAP_ANONYMOUS | MAP_NORESERVE, -1, 0);
    *missing = nowhere == MAP_FAILED;
    if (*missing) return 0;
    const uint32_t answer = check_writer(writes, nowhere, false, count, length);
    munmap(nowhere, 4 * count);
    return answer;
}

uint32_t check_trace_item(const uint8_t *file, size_t length, size_t place, dcmi_item *item)
{
    static const char *const name[] = { "kind", "offset", "value", "next" };
    begin(TRACE_ITEM);
    now.file = file;
    now.length = length;
    now.place = place;
    const bool own = length <= MOST_FILE;
    trace_item found;
    uint64_t want_item[4];
    dcmi_item *lent_item = lend_output(&g_output, want_item, sizeof want_item);
    const uint32_t want = model_trace_item(file, length, place, &found);
    if (!want) {
        want_item[0] = found.kind == ITEM_WRITE ? DCMI_WRITE : found.kind == ITEM_SAMPLE ? DCMI_SAMPLE : DCMI_END;
        want_item[1] = found.offset;
        want_item[2] = found.value;
        want_item[3] = found.next;
    }
    uint8_t *lent = own ? lend(&g_file, file, length) : (uint8_t *)file;
    const uint32_t got = direct() ? dcmi_trace_item_slices(lent, length, place, lent_item)
                                  : dcmi_trace_item(or_null(lent, length), length, place, lent_item);
    if (own) take_back("file", &g_file, file, length);
    compare_fields(name, want_item, 4);
    now.output = want_item[0];
    if (item && !want) memcpy(item, g_output.at, sizeof *item);
    return finish(want, got);
}

/* ---- the summary ---- */

bool checked_summary(void)
{
    const bool complete = reached_summary();
    if (far_missing) printf("Memory of more than 4 GiB was not to be had: that part was left out.\n");
    return complete;
}
