/* The cases that the comparison is to reach. Each is written once, where it is tested, as a line of its own:
 *
 *     SEEN("rule 1: granted, ENABLE 0", granted && !enabled);
 *
 * and is printed in the summary, also where the program never came to that line: the cases stand in a section of their own, of which the linker gives
 * the beginning and the end. So do the counters. The sections, their symbols and __COUNTER__ are GNU C on ELF, which gcc and clang have; ISO C would
 * need a list of the cases beside their tests.
 *
 * Below them is what the files reached_*.c have for each other. */
#ifndef CASES_H
#define CASES_H

#include "model.h"
#include "reached.h"

typedef struct reached_case {
    const char *text, *file;
    int number;            /* in the order of its file */
    uint64_t *count;       /* one, or one for each call or for each number from 1 to 32 */
} reached_case;

#define CASE(group, size, text) \
    static uint64_t case_count[size] COUNTER; \
    static const reached_case case_of = { text, __FILE__, __COUNTER__, case_count }; \
    static const reached_case *const case_listed __attribute__((section(#group), used)) = &case_of

/* A case: counted where the condition holds. */
#define SEEN(text, holds) \
    do { \
        const bool case_holds = holds; \
        CASE(cases, 1, text); \
        *case_count += case_holds; \
    } while (0)

/* To be reached by each call that reads a file. */
#define SEEN_BY(text, kind, holds) \
    do { \
        const bool case_holds = holds; \
        CASE(cases_by, CALLS, text); \
        case_count[kind] += case_holds; \
    } while (0)

/* To be reached for each number from 1 to 32, of depths where nothing else is said; others are not counted. */
#define SEEN_AT(text, at, holds) \
    do { \
        const bool case_holds = holds; \
        const uint32_t case_number = at; \
        CASE(cases_at, SLOTS + 1, text); \
        if (case_holds && 1 <= case_number && case_number <= SLOTS) case_count[case_number]++; \
    } while (0)

static inline uint32_t fcrc(uint32_t cr) { return cr >> 8 & 3; }
static inline uint32_t edm(uint32_t cr) { return cr >> 10 & 3; }

/* ---- an accepted sample ---- */

void reached_sample(const camera *before, uint32_t sample, const camera *after);

/* With codes: a working edge with ENABLE and ESS 1. */
void reached_byte(const camera *before, uint32_t sample, const camera *after);

/* In mode two, beside reached_sample. */
void reached_two(const camera *before, uint32_t sample, const lent *both, const camera *after);

/* ---- registers and modes ---- */

/* The bits of a register that are not reserved; CR contents of refusal 5. */
uint32_t bits_of(uint32_t offset);
bool unsupported(uint32_t cr);

/* What alone gives CR contents refusal 5 beside JPEG or beside ESS: CROP, ESS and EDM of the one, EDM of the other; else 0. */
uint32_t beside_jpeg(uint32_t cr);
uint32_t beside_ess(uint32_t cr);

/* Accepted calls. */
void reached_write(const camera *before, uint32_t offset, const camera *after);
void reached_read(const call *made);
void reached_enable_of_two(const camera *before, const camera *after);
void reached_rearm(const camera *before, const camera *after);
void reached_mode(const camera *before, const camera *after);
void reached_handed(const call *made, const camera *c);

/* Any call: refused writes of CR, ESCR, ESUR; lent memories; modes, with the reasons for a refusal; the Linux driver's order. */
void reached_refused_write(const call *made);
void reached_lent(const call *made);
void reached_other_mode(const call *made, uint32_t reasons);
void follow_driver(const call *made);

/* ---- images ---- */

/* Whether an image is refused 1. */
bool reached_image(const uint32_t *image);

/* ---- runs and files ---- */

/* Samples of accepted calls. */
extern uint64_t samples_made;

/* What the first bytes of a file say. A version that is neither 1 nor 2 is read as 1. */
typedef struct heading {
    bool whole;                       /* no byte of the header is missing */
    uint32_t version;
    uint64_t bytes, writes, samples;  /* of the header; how many of each */
    uint64_t body, length;            /* where the samples begin; where they end */
} heading;

heading read_header(const uint8_t *file, size_t length);
uint32_t number_at(const uint8_t *bytes, unsigned count);

/* Accepted runs, files whatever was answered: whether their samples, one by one, come to the same device. */
bool reached_run(const call *made);
bool reached_run_two(const call *made);
bool reached_file(const call *made);
void reached_item(const call *made);
void reached_writer(const call *made);

/* ---- the order of refusals ---- */

/* The reasons for a refusal of a call, as bits, in the paper's order. */
uint32_t reasons_of(const call *made);

/* Counts the pairs of reasons that hold at once; whether the first was answered. */
bool reached_reasons(const call *made, uint32_t reasons);

/* A count as the summary prints it, with NEVER for none. */
void print_count(uint64_t count);
bool orders_summary(void);

#endif
