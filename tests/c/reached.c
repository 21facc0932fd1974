#include "reached.h"

#include <inttypes.h>
#include <stdio.h>
#include <stdlib.h>
#include <string.h>

#include "cases.h"
#include "frames.h"

const char *const call_name[CALLS] = {
    "dcmi_reset", "dcmi_reset_depth", "dcmi_write", "dcmi_read", "dcmi_interrupt", "dcmi_rearm", "dcmi_one_buffer", "dcmi_two_buffers", "dcmi_latest_frame",
    "dcmi_sample", "dcmi_sample_two", "dcmi_run", "dcmi_run_two", "dcmi_run_file", "dcmi_run_file_depth", "dcmi_trace_write", "dcmi_trace_item",
};

/* W9: no device is made, for its depth alone, and one in use, that is one with samples, stays. */
static void reached_refused_depth(const call *made, uint32_t reasons)
{
    const uint32_t depth = made->depth, low = depth & 0xFF;
    const bool stays = made->answer == 18 && reasons == 1 && made->before[DCMI_W_SAMPLES] && memcmp(made->before, made->after, sizeof made->before) == 0;
    const bool reset = stays && made->kind == RESET_DEPTH, file = stays && made->kind == RUN_FILE_DEPTH;
    SEEN("W9: dcmi_reset_depth refused at depth 0, a device in use stays", reset && depth == 0);
    SEEN("W9: dcmi_reset_depth refused at depth 33, a device in use stays", reset && depth == 33);
    SEEN("W9: dcmi_reset_depth refused above 33, a device in use stays", reset && depth > 33);
    SEEN("W9: dcmi_reset_depth refused, the depth's low byte is 1 to 32", reset && 1 <= low && low <= 32);
    SEEN("W9: an accepted file refused at depth 0, a device in use stays", file && depth == 0);
    SEEN("W9: an accepted file refused at depth 33, a device in use stays", file && depth == 33);
    SEEN("W9: an accepted file refused above 33, a device in use stays", file && depth > 33);
    SEEN("W9: an accepted file refused, the depth's low byte is 1 to 32", file && 1 <= low && low <= 32);
}

/* Accepted calls on a device; dcmi_run_file_depth is in reached_files.c. */
static void reached_at_depth(const call *made)
{
    const uint32_t depth = made->after[DCMI_W_DEPTH];
    SEEN_AT("dcmi_reset_depth accepted, over a device in use", depth, made->kind == RESET_DEPTH && made->before[DCMI_W_SAMPLES]);
    SEEN_AT("dcmi_write accepted", depth, made->kind == WRITE);
    SEEN_AT("dcmi_read accepted", depth, made->kind == READ);
    SEEN_AT("dcmi_interrupt accepted", depth, made->kind == INTERRUPT);
    SEEN_AT("dcmi_rearm accepted", depth, made->kind == REARM);
    SEEN_AT("dcmi_one_buffer accepted", depth, made->kind == ONE_BUFFER);
    SEEN_AT("dcmi_two_buffers accepted", depth, made->kind == TWO_BUFFERS);
    SEEN_AT("dcmi_latest_frame accepted", depth, made->kind == LATEST_FRAME);
    SEEN_AT("dcmi_sample accepted", depth, made->kind == SAMPLE);
    SEEN_AT("dcmi_sample_two accepted", depth, made->kind == SAMPLE_TWO);
    SEEN_AT("dcmi_run accepted", depth, made->kind == RUN);
    SEEN_AT("dcmi_run_two accepted", depth, made->kind == RUN_TWO);
}

static void reached_device(const call *made)
{
    camera before, after;
    model_from_image(&before, made->before);
    model_from_image(&after, made->after);
    switch (made->kind) {
    case WRITE: reached_write(&before, made->offset, &after); break;
    case READ: reached_read(made); break;
    case INTERRUPT:
        SEEN("interrupt line up", made->output);
        SEEN("interrupt line down, RIS not 0", !made->output && before.ris);
        break;
    case REARM: reached_rearm(&before, &after); break;
    case ONE_BUFFER: case TWO_BUFFERS: reached_mode(&before, &after); break;
    case LATEST_FRAME: reached_handed(made, &before); break;
    case SAMPLE:
        reached_sample(&before, made->value, &after);
        samples_made++;
        break;
    case SAMPLE_TWO:
        reached_sample(&before, made->value, &after);
        reached_two(&before, made->value, made->lent, &after);
        samples_made++;
        break;
    default: break;
    }
}

static uint64_t answers[CALLS][REFUSAL_NUMBERS] COUNTER;

const char *reached_call(const call *made)
{
    if (made->answer >= REFUSAL_NUMBERS) return "the answer is beyond the table of refusal numbers";
    const uint32_t reasons = reasons_of(made);
    if (!reached_reasons(made, reasons)) return "the answer is not the first reason in the paper's order";
    answers[made->kind][made->answer]++;
    follow_driver(made);
    if (made->answer == 0) reached_at_depth(made);
    if (made->answer == 18) reached_refused_depth(made, reasons);
    if (made->kind == WRITE && made->answer) reached_refused_write(made);
    if (made->kind >= LATEST_FRAME && made->kind <= RUN_TWO) reached_lent(made);
    if (made->before[DCMI_W_MODE] == 1 || made->answer == 6 || made->answer == 16) reached_other_mode(made, reasons);
    frames_begin(made->before);
    if (made->answer == 0 && made->kind < RUN) reached_device(made);
    if (made->answer == 0 && made->kind == RUN && !reached_run(made)) return "the model's run is not its samples one by one";
    if (made->answer == 0 && made->kind == RUN_TWO && !reached_run_two(made)) return "the model's run over two memories is not its samples one by one";
    const char *wrong = frames_call(made);
    if (wrong) return wrong;
    if ((made->kind == RUN_FILE || made->kind == RUN_FILE_DEPTH) && !reached_file(made)) return "the model's file is not its writes and samples one by one";
    if (made->kind == TRACE_ITEM) reached_item(made);
    if (made->kind == TRACE_WRITE) reached_writer(made);
    return NULL;
}

/* ---- the summary ---- */

#define ANSWER(number) (UINT32_C(1) << (number))
#define RUN_ANSWERS (ANSWER(0) | ANSWER(1) | ANSWER(7) | ANSWER(8) | ANSWER(9) | ANSWER(16))
#define FILE_ANSWERS \
    (ANSWER(0) | ANSWER(2) | ANSWER(3) | ANSWER(4) | ANSWER(5) | ANSWER(6) | ANSWER(7) | ANSWER(9) | ANSWER(10) | ANSWER(11) | ANSWER(12) | ANSWER(13))

/* The answers that each call must have given. */
static const uint32_t expected[CALLS] = {
    [RESET] = ANSWER(0),
    [RESET_DEPTH] = ANSWER(0) | ANSWER(18),
    [WRITE] = ANSWER(0) | ANSWER(1) | ANSWER(2) | ANSWER(3) | ANSWER(4) | ANSWER(5) | ANSWER(6),
    [READ] = ANSWER(0) | ANSWER(1) | ANSWER(2) | ANSWER(3),
    [INTERRUPT] = ANSWER(0) | ANSWER(1),
    [REARM] = ANSWER(0) | ANSWER(1),
    [ONE_BUFFER] = ANSWER(0) | ANSWER(1) | ANSWER(6),
    [TWO_BUFFERS] = ANSWER(0) | ANSWER(1) | ANSWER(6),
    [LATEST_FRAME] = ANSWER(0) | ANSWER(1) | ANSWER(9) | ANSWER(16),
    [SAMPLE] = RUN_ANSWERS,
    [SAMPLE_TWO] = RUN_ANSWERS,
    [RUN] = RUN_ANSWERS,
    [RUN_TWO] = RUN_ANSWERS,
    [RUN_FILE] = FILE_ANSWERS,
    [RUN_FILE_DEPTH] = FILE_ANSWERS | ANSWER(18),
    [TRACE_WRITE] = ANSWER(0) | ANSWER(7) | ANSWER(12) | ANSWER(14) | ANSWER(15),
    [TRACE_ITEM] = ANSWER(0) | ANSWER(7) | ANSWER(10) | ANSWER(11) | ANSWER(12) | ANSWER(13),
};

static bool answers_summary(void)
{
    bool complete = true;
    uint64_t all = 0;
    printf("Calls compared, by answer:\n");
    for (unsigned kind = 0; kind < CALLS; kind++) {
        uint64_t calls = 0;
        for (unsigned n = 0; n < REFUSAL_NUMBERS; n++) calls += answers[kind][n];
        all += calls;
        printf("  %-19s %9" PRIu64 ":", call_name[kind], calls);
        for (unsigned n = 0; n < REFUSAL_NUMBERS; n++) {
            const bool due = expected[kind] >> n & 1, given = answers[kind][n];
            if (!due && !given) continue;
            printf(" %u", n);
            print_count(answers[kind][n]);
            complete &= due && given;
        }
        printf("\n");
    }
    printf("  in all %" PRIu64 " calls, %" PRIu64 " accepted samples\n", all, samples_made);
    return complete;
}

/* ---- the cases ---- */

extern const reached_case *const __start_cases[], *const __stop_cases[];
extern const reached_case *const __start_cases_by[], *const __stop_cases_by[];
extern const reached_case *const __start_cases_at[], *const __stop_cases_at[];
extern uint64_t __start_counters[], __stop_counters[];

uint64_t *reached_counters(size_t *count)
{
    *count = (size_t)(__stop_counters - __start_counters);
    return __start_counters;
}

/* Of one file in its order; the files by their names. */
static int in_order(const void *left, const void *right)
{
    const reached_case *const *a = left, *const *b = right;
    const int files = strcmp((*a)->file, (*b)->file);
    return files ? files : (*a)->number - (*b)->number;
}

enum { MOST_CASES = 2000 };
static const reached_case *listed[MOST_CASES];

/* Lists the cases of a section in order; how many. */
static size_t list(const reached_case *const *first, const reached_case *const *end)
{
    const size_t count = (size_t)(end - first);
    if (count > MOST_CASES) {
        printf("More than %d cases: MOST_CASES of reached.c is to be raised.\n", MOST_CASES);
        exit(2);
    }
    for (size_t i = 0; i < count; i++) listed[i] = first[i];
    qsort(listed, count, sizeof *listed, in_order);
    return count;
}

static bool cases_summary(void)
{
    bool complete = true;
    const size_t count = list(__start_cases, __stop_cases);
    printf("Reached:\n");
    for (size_t i = 0; i < count; i++) {
        const uint64_t hits = *listed[i]->count;
        printf("  %-68s %10" PRIu64 "%s\n", listed[i]->text, hits, hits ? "" : " NEVER");
        complete &= hits != 0;
    }
    return complete;
}

static bool by_file_summary(void)
{
    static const call_kind kinds[3] = { RUN_FILE, RUN_FILE_DEPTH, TRACE_ITEM };
    bool complete = true;
    const size_t count = list(__start_cases_by, __stop_cases_by);
    printf("Reached with files, by %s, %s and %s:\n", call_name[RUN_FILE], call_name[RUN_FILE_DEPTH], call_name[TRACE_ITEM]);
    for (size_t i = 0; i < count; i++) {
        printf("  %-60s", listed[i]->text);
        for (unsigned k = 0; k < 3; k++) {
            const uint64_t hits = listed[i]->count[kinds[k]];
            printf(" %10" PRIu64 "%s", hits, hits ? "" : " NEVER");
            complete &= hits != 0;
        }
        printf("\n");
    }
    return complete;
}

static bool numbers_summary(void)
{
    bool complete = true;
    const size_t count = list(__start_cases_at, __stop_cases_at);
    printf("Reached for each depth from 1 to 32, or what else is numbered so; the least of the 32 counts:\n");
    for (size_t i = 0; i < count; i++) {
        const uint64_t *hits = listed[i]->count;
        unsigned least = 1;
        for (unsigned n = 2; n <= SLOTS; n++)
            if (hits[n] < hits[least]) least = n;
        printf("  %-68s %10" PRIu64 "%s at %u\n", listed[i]->text, hits[least], hits[least] ? "" : " NEVER", least);
        complete &= hits[least] != 0;
    }
    return complete;
}

static int by_text(const void *left, const void *right)
{
    const reached_case *const *a = left, *const *b = right;
    return strcmp((*a)->text, (*b)->text);
}

/* Whether no two cases of a section have one text. */
static bool texts_differ(const reached_case *const *first, const reached_case *const *end)
{
    bool differ = true;
    const size_t count = list(first, end);
    qsort(listed, count, sizeof *listed, by_text);
    for (size_t i = 1; i < count; i++) {
        if (by_text(&listed[i - 1], &listed[i])) continue;
        printf("Two cases are both called: %s\n", listed[i]->text);
        differ = false;
    }
    return differ;
}

bool reached_summary(void)
{
    const bool answered = answers_summary(), ordered = orders_summary(), reached = cases_summary(), by_file = by_file_summary(), every = numbers_summary();
    const bool differ = texts_differ(__start_cases, __stop_cases) & texts_differ(__start_cases_by, __stop_cases_by)
                      & texts_differ(__start_cases_at, __stop_cases_at);
    return differ && answered && ordered && reached && by_file && every;
}
