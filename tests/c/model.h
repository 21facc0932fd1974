/* The camera interface written a second time, in plain C, from the scope paper and the change requests alone. The comparison and the benchmark
 * measure the library against it. "Rule n" in the comments is step n of "One sample", "Wn" a request; a bare number that is returned is a refusal
 * number of the paper's table. */
#ifndef MODEL_H
#define MODEL_H

#include <stdbool.h>
#include <stddef.h>
#include <stdint.h>

/* Bits of CR and of RIS. */
enum { CAPTURE = 1 << 0, CM = 1 << 1, CROP = 1 << 2, JPEG = 1 << 3, ESS = 1 << 4, PCKPOL = 1 << 5, HSPOL = 1 << 6, VSPOL = 1 << 7, ENABLE = 1 << 14 };
enum { F_FRAME = 1 << 0, F_OVR = 1 << 1, F_ERR = 1 << 2, F_VSYNC = 1 << 3, F_LINE = 1 << 4 };

/* Bits of the remembered levels and blankings, in a sample's order. */
enum { HSYNC = 1 << 0, VSYNC = 1 << 1, CLOCK = 1 << 2 };

/* W9: a FIFO has a depth of 1 to 32, fixed when the device is made; four where none is named. */
enum { SLOTS = 32, USUAL_DEPTH = 4 };

typedef enum { FRAME_CLOSED, FRAME_UNTAKEN, FRAME_TAKEN } frame_state;

/* W2: one memory, or two frame buffers in turn. What is known of the frame in a buffer: nothing; that all its words that landed did so since the last
 * re-arming; that it is complete. */
typedef enum { MODE_ONE, MODE_TWO } buffer_mode;
typedef enum { BUFFER_A, BUFFER_B, BUFFERS } buffer;
typedef enum { CONTENT_NONE, CONTENT_LANDING, CONTENT_COMPLETE } content;

typedef struct camera {
    uint32_t cr, ris, ier, escr, esur, cwstrt, cwsize;
    uint32_t pins;                /* levels at the last sample: HSYNC, VSYNC, CLOCK */
    uint32_t blanked;             /* which syncs blanked at the last working edge: HSYNC, VSYNC; with ESS 1 which blank by the codes */
    uint32_t waiting;             /* bytes that may begin a code: of FF 00 00 so many */
    frame_state frame;
    uint32_t lines, pixels;       /* lines begun in the open frame, pixels of the last one; with ESS 1 bytes that wait in it too */
    uint32_t rate;                /* the rate counter */
    uint32_t data, partial;       /* the partial word: how many data, and their bits */
    uint32_t fifo[SLOTS], held;   /* held words, oldest first, then zeros */
    uint32_t depth;               /* how many words the FIFO can hold */
    uint32_t place[BUFFERS];      /* number of the next word to land; in mode one that of A, and all below is 0 */
    uint32_t samples, completed, landed, discarded;
    buffer_mode mode;
    uint32_t in_b, opening;       /* of each held word a bit, the oldest being bit 0: it goes to B; it opens a frame */
    buffer turn;                  /* where the frame goes that completed a word last */
    bool begun;                   /* that is the open frame */
    content in[BUFFERS];
    buffer latest;                /* the one whose frame became complete last */
} camera;

/* A memory and its start byte. */
typedef struct lent {
    uint8_t *memory;
    size_t length, start;
} lent;

/* The two answers of one sample. */
typedef enum { PACKED_NOTHING, PACKED_WORD, PACKED_LOST } packing;
typedef enum { LANDED_NOWHERE, LANDED_A, LANDED_B } landing; /* one memory is A */

typedef struct outcome {
    landing landed;
    size_t byte;     /* where in the memory the word landed, else 0 */
    packing packed;
    uint32_t word;   /* the completed word, else 0 */
} outcome;

/* W2: what handing back answers, and the part of that memory, or the part that it should have. */
typedef enum { HANDED_NONE, HANDED_A, HANDED_B, HANDED_SHORT_A, HANDED_SHORT_B } handed_kind;

typedef struct handed {
    handed_kind kind;
    size_t offset, length;
} handed;

/* An item of a trace file. */
typedef enum { ITEM_END, ITEM_WRITE, ITEM_SAMPLE } item_kind;

typedef struct trace_item {
    item_kind kind;
    uint8_t offset;
    uint32_t value;
    size_t next;
} trace_item;

/* The calls. Each answers 0 or a refusal number; a refusal changes nothing. */
void model_reset(camera *c);
uint32_t model_reset_depth(camera *c, uint32_t depth);
uint32_t model_write(camera *c, uint32_t offset, uint32_t value);
uint32_t model_read(const camera *c, uint32_t offset, uint32_t *value);
uint32_t model_interrupt(const camera *c, bool *up);
uint32_t model_rearm(camera *c);
uint32_t model_one_buffer(camera *c);
uint32_t model_two_buffers(camera *c);
uint32_t model_latest_frame(const camera *c, const lent both[BUFFERS], handed *out); /* the memories themselves are not looked at */
uint32_t model_sample(camera *c, uint8_t *memory, size_t length, size_t start, uint32_t sample, outcome *out);
uint32_t model_run(camera *c, uint8_t *memory, size_t length, size_t start, const uint32_t *samples, size_t count);
uint32_t model_sample_two(camera *c, const lent both[BUFFERS], uint32_t sample, outcome *out);
uint32_t model_run_two(camera *c, const lent both[BUFFERS], const uint32_t *samples, size_t count);
uint32_t model_run_file(camera *c, const uint8_t *file, size_t file_length, uint8_t *memory, size_t length, size_t start);
uint32_t model_run_file_depth(camera *c, uint32_t depth, const uint8_t *file, size_t file_length, uint8_t *memory, size_t length, size_t start);
uint32_t model_trace_write(size_t writes, const uint8_t *offsets, const uint32_t *values, const uint32_t *samples, size_t count, uint8_t *out,
                           size_t length, size_t *written);
uint32_t model_trace_item(const uint8_t *file, size_t length, size_t place, trace_item *item);

/* A device image of the C interface as a camera; false if the image encodes none. And back. */
bool model_from_image(camera *c, const uint32_t *image);
void model_to_image(const camera *c, uint32_t *image);

#endif
