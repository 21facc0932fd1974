/* What the comparison has reached, told from outside the model: from the device before a call or a sample, what it was given, and the device and the
 * answer after it. */
#ifndef REACHED_H
#define REACHED_H

#include <stdbool.h>
#include <stddef.h>
#include <stdint.h>

#include "dcmi.h"
#include "model.h"

/* Places for refusal numbers in tables, 0 for none among them; a set of numbers is 32 bits. */
enum { REFUSAL_NUMBERS = 32 };

typedef enum {
    RESET, RESET_DEPTH, WRITE, READ, INTERRUPT, REARM, ONE_BUFFER, TWO_BUFFERS, LATEST_FRAME, SAMPLE, SAMPLE_TWO, RUN, RUN_TWO, RUN_FILE, RUN_FILE_DEPTH,
    TRACE_WRITE, TRACE_ITEM, CALLS
} call_kind;

extern const char *const call_name[CALLS];

/* A call, as both sides made it. */
typedef struct call {
    call_kind kind;
    uint64_t number;               /* counted from 1 in each seed */
    uint32_t depth;                /* of the device that is made; four where none is named */
    uint32_t offset, value;        /* of a register; the value is a sample too */
    size_t start, place;
    const uint32_t *samples;       /* a null pointer if they may not be read */
    const uint8_t *file;
    const dcmi_writes *writes;
    size_t count, length;          /* of the samples; of the file or the writer's buffer */
    uint8_t *memory;               /* the model's */
    size_t memory_length;
    lent lent[BUFFERS];            /* the two memories of a call over two, and their starts */
    uint32_t before[DCMI_WORDS];   /* the device */
    uint32_t after[DCMI_WORDS];
    uint32_t answer;
    uint64_t output;               /* the value read, the line, the kind of the item or of the frame, the length written, where a word landed */
    uint64_t part_offset, part_length; /* of the frame that is handed back */
} call;

/* Counts what a call reached; what is wrong with its answer, or a null pointer. */
const char *reached_call(const call *made);

/* Where a counter is kept (GNU C, ELF), and all of them, one after another: the processes of one comparison add theirs up. */
#define COUNTER __attribute__((section("counters")))
uint64_t *reached_counters(size_t *count);

/* Prints the counts; false if something that is expected was never reached. */
bool reached_summary(void);

#endif
