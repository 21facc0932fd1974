/* The kinds of histories that the seeds make. */
#ifndef KINDS_H
#define KINDS_H

#include "checked.h"
#include "inputs.h"

/* Realistic traces, with register writes between them; the Linux driver's register calls in its order; samples and writes without a plan; FIFOs that are
 * full or nearly so, at every depth. */
void camera_kind(void);
void driver_kind(void);
void random_kind(void);
void full_kind(void);

/* Devices by hand, well-formed and damaged; the last samples of the count, places and lengths above 32 bits. */
void images_kind(void);
void limits_kind(void);

void files_kind(void);
void writer_kind(void);

/* JPEG frames, at whose end the FIFO is full or nearly so; imagers without sync wires. */
void compressed_kind(void);
void codes_kind(void);

/* Two frame buffers in turn; whole pictures so, in runs of many samples. */
void buffers_kind(void);
void turns_kind(void);

/* ---- what they have in common ---- */

extern trace t; /* the trace at hand, and the file */
extern uint8_t file[MOST_FILE];

uint32_t cr_of_device(void);

/* A fresh device, often of a named depth; at times a depth is refused before. */
void fresh(void);

/* A file, often at a named depth, which may be refused. */
uint32_t run_file(const uint8_t *bytes, size_t length, size_t start);

/* Bytes of memory: few, or enough for some frames. */
size_t any_length(void);
size_t frame_length(void);

/* A start byte within the memory, beyond it, or either; so for B. */
size_t good_start(void);
size_t bad_start(void);
size_t any_start(void);
size_t good_start_b(void);
size_t any_start_b(void);

/* A sample with a bit above 17; one that may have such a bit. */
uint32_t damaged(uint32_t sample);
uint32_t any_sample(void);

/* One call: a write, a sample over one memory, over two. */
void any_write(const uint32_t *image);
void any_single(void);
void any_single_two(void);

/* Handing back: lengths and starts of the memories, or others; often just enough for the frame in one of them, or a byte less. */
void any_latest(void);

void read_all(void);

/* The next samples of a camera: in one run, or one by one. */
void runs(scene *s, size_t start, size_t count);
void singles(scene *s, size_t start, size_t count);

/* Actions of the camera kind on a fresh device. */
void camera_history(unsigned actions);

#endif
