/* Each call of the library, made together with the model's and compared with it: the answer, the device image, every byte of the memory, every
 * output. A difference is reported with the command that repeats the call, and ends the program. */
#ifndef CHECKED_H
#define CHECKED_H

#include <stdbool.h>
#include <stddef.h>
#include <stdint.h>

#include "dcmi.h"

enum {
    MOST_MEMORY = 1 << 20,       /* bytes of lent memory */
    MOST_FILE = 1 << 21,         /* bytes of a file, and of the writer's buffer */
    MOST_SAMPLES = 1 << 20,      /* samples of one call */
};

/* How buffers are lent during a seed. */
typedef struct lending {
    bool at_end;    /* they end at a forbidden page; else they begin after one */
    bool read_only; /* const buffers are in read-only pages during the call */
} lending;

void checked_start(const char *program);

/* A seed: `limit` is how many calls are enough; after call number `last` the program ends, where it is not 0. */
void checked_seed(uint64_t seed, lending how, uint64_t limit, uint64_t last);

/* Whether the seed is to make further calls. */
bool more(void);

/* The device, and the memory from here on; A is that of the calls over one. Both sides hold the same. */
const uint32_t *device(void);
void set_device(const uint32_t *image);
void lend_memory(size_t length);
void lend_memory_b(size_t length);
size_t memory_length(void);
size_t memory_b_length(void);
const uint8_t *memory_bytes(void);
const uint8_t *memory_b_bytes(void);

/* Memory of more than 4 GiB, of which only the neighbourhood of what can change is compared; false if the system gives none. It is zero. */
bool lend_far_memory(size_t length);
bool lend_far_memory_b(size_t length);
uint8_t *far_memory(void);

/* The calls. Each returns the answer, on which both sides agree. */
uint32_t check_reset(void);
uint32_t check_reset_depth(uint32_t depth);
uint32_t check_write(uint32_t offset, uint32_t value);
uint32_t check_read(uint32_t offset, uint32_t *value);
uint32_t check_interrupt(void);
uint32_t check_rearm(void);
uint32_t check_one_buffer(void);
uint32_t check_two_buffers(void);
/* Of any memories, and of those that are lent. */
uint32_t check_latest_frame(size_t length_a, size_t start_a, size_t length_b, size_t start_b, dcmi_frame *frame);
uint32_t check_latest(size_t start_a, size_t start_b, dcmi_frame *frame);
uint32_t check_sample(size_t start, uint32_t sample, dcmi_answer *answer);
uint32_t check_run(size_t start, const uint32_t *samples, size_t count);
uint32_t check_sample_two(size_t start_a, size_t start_b, uint32_t sample, dcmi_answer *answer);
uint32_t check_run_two(size_t start_a, size_t start_b, const uint32_t *samples, size_t count);
uint32_t check_run_file(const uint8_t *file, size_t file_length, size_t start);
uint32_t check_run_file_depth(uint32_t depth, const uint8_t *file, size_t file_length, size_t start);
uint32_t check_trace_write(const dcmi_writes *writes, const uint32_t *samples, size_t count, size_t length);
/* The writer with so many samples in pages that may not even be read; `missing` if the system has not so many. */
uint32_t check_trace_write_unread(const dcmi_writes *writes, size_t count, size_t length, bool *missing);
uint32_t check_trace_item(const uint8_t *file, size_t length, size_t place, dcmi_item *item);

/* What the last accepted check_trace_write wrote. */
const uint8_t *written_file(size_t *length);

/* Reports a difference that a test found by itself, and ends the program. */
void differs(const char *what);

/* Prints what was compared and reached; false if something expected was not. */
bool checked_summary(void);

#endif
