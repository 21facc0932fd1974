/* The camera interface model for C: numbers and bytes, nothing else.
 *
 * Every call answers DCMI_OK (0) or a refusal number, for every argument. A refused call leaves the device, the memory and every output as they
 * were. Nothing is kept between calls: what a call needs stands in its arguments, and the caller owns all of it.
 *
 * A pointer must be valid for the length beside it, or for the one object that it points to. Buffers that are passed to one call must not overlap.
 * A null pointer is allowed where the length beside it is 0, and nowhere else. No call keeps a pointer, allocates, locks or writes elsewhere.
 *
 * Link with libdcmi.a (x86-64). It needs `memcpy`, `memmove` and `memset` of the C library. Usable from C11 and C++17. */
#ifndef DCMI_H
#define DCMI_H

#include <stddef.h>
#include <stdint.h>

#ifdef __cplusplus
extern "C" {
#endif

/* The answer of every call. */
enum {
    DCMI_OK = 0,
    DCMI_MALFORMED = 1,     /* the device is malformed, or its image encodes no device */
    DCMI_NO_REGISTER = 2,   /* no register at the offset */
    DCMI_ACCESS = 3,        /* read of ICR, or write of SR, RIS, MIS */
    DCMI_RESERVED = 4,      /* a reserved bit of the written value is 1 */
    DCMI_UNSUPPORTED = 5,   /* CR with FCRC 3, CAPTURE 1 and ENABLE 0, JPEG 1 and not both EDM 0 and CROP 0, or ESS 1 and not both EDM 0 and JPEG 0 */
    DCMI_ENABLED = 6,       /* ENABLE is 1, and ESCR, ESUR, CWSTRT or CWSIZE is written, even with the value it holds, a CR bit other than 0 and 14
                             * would change, or the buffer mode is set */
    DCMI_SAMPLE_BITS = 7,   /* a sample has a bit above 17 */
    DCMI_SAMPLES = 8,       /* samples in all would pass 4,294,967,295 */
    DCMI_START = 9,         /* start byte above the memory length; of two memories, either start above its own length */
    DCMI_MARK = 10,         /* the file's mark is not FGT */
    DCMI_VERSION = 11,      /* the file's version is neither 1 nor 2 */
    DCMI_COUNT = 12,        /* version 1 with more than 16,384 samples, version 2 with no more, or more than 4,294,967,295 given to the writer */
    DCMI_LENGTH = 13,       /* fewer than 8 bytes, fewer than 10 in version 2, or length not as the header says */
    DCMI_WRITES = 14,       /* more than 255 writes given to the writer */
    DCMI_ROOM = 15,         /* the writer's output does not fit */
    DCMI_MODE = 16,         /* one memory is lent in mode two, or two in mode one; or dcmi_latest_frame is called in mode one */
    DCMI_NO_SAMPLE = 17,    /* a sample number 0 or beyond the file; given by no call yet (W3) */
    DCMI_DEPTH = 18,        /* depth 0 or above 32 where a device is made */
    DCMI_PICTURE_SIZE = 19, /* EDM above 3, a side 0 or above 2048, or pixels that do not exactly fill the words given, or whole words on reading;
                             * given by no call yet (W11, W13) */
    DCMI_PICTURE = 20,      /* a picture's header or length is not ours, or a pixel is above its maximum; given by no call yet (W11, W13) */
    DCMI_SHEET = 21         /* more than 65,536 frames in a sheet, or more than 4,194,304 pixels in a frame; given by no call yet (W13) */
};

/* Register offsets. */
enum {
    DCMI_CR = 0x00, DCMI_SR = 0x04, DCMI_RIS = 0x08, DCMI_IER = 0x0C, DCMI_MIS = 0x10, DCMI_ICR = 0x14, DCMI_ESCR = 0x18, DCMI_ESUR = 0x1C,
    DCMI_CWSTRT = 0x20, DCMI_CWSIZE = 0x24
};

/* Bits of CR; FCRC and EDM are fields of two bits, with a name for each content but FCRC 3, which is refused. */
enum {
    DCMI_CR_CAPTURE = 1 << 0, DCMI_CR_CM = 1 << 1 /* 1 snapshot, 0 continuous */, DCMI_CR_CROP = 1 << 2, DCMI_CR_JPEG = 1 << 3, DCMI_CR_ESS = 1 << 4,
    DCMI_CR_PCKPOL = 1 << 5, DCMI_CR_HSPOL = 1 << 6, DCMI_CR_VSPOL = 1 << 7,
    DCMI_CR_FCRC = 3 << 8, DCMI_CR_FCRC_ALL = 0 << 8, DCMI_CR_FCRC_SECOND = 1 << 8, DCMI_CR_FCRC_FOURTH = 2 << 8, /* which frames are taken */
    DCMI_CR_EDM = 3 << 10, DCMI_CR_EDM_8 = 0 << 10, DCMI_CR_EDM_10 = 1 << 10, DCMI_CR_EDM_12 = 2 << 10, DCMI_CR_EDM_14 = 3 << 10, /* data bits */
    DCMI_CR_ENABLE = 1 << 14
};

/* The flags: bits of RIS, and the same of IER, MIS and ICR. */
enum { DCMI_FLAG_FRAME = 1 << 0, DCMI_FLAG_OVR = 1 << 1, DCMI_FLAG_ERR = 1 << 2, DCMI_FLAG_VSYNC = 1 << 3, DCMI_FLAG_LINE = 1 << 4 };

/* Bits of SR. */
enum { DCMI_SR_HSYNC = 1 << 0, DCMI_SR_VSYNC = 1 << 1, DCMI_SR_FNE = 1 << 2 };

/* Bits of a sample, above the data in 13:0. */
enum { DCMI_PIN_HSYNC = 1 << 14, DCMI_PIN_VSYNC = 1 << 15, DCMI_PIN_CLOCK = 1 << 16, DCMI_GRANT = 1 << 17 };

/* A device: an image of 32-bit words that the caller owns, copies and stores as it likes. `dcmi_reset` and `dcmi_reset_depth` make a fresh one.
 * A word that is 0 or 1 says no or yes; an image with another value there, a frame above 2, more than 3 waiting bytes, lines or pixels in a closed frame,
 * or in mode one a word from DCMI_W_PLACE_B on that is not 0 encodes no device: every call that reads a device refuses it with DCMI_MALFORMED, as it does
 * a device that breaks one of the rules for well-formed devices. */
enum {
    DCMI_WORDS = 67,
    DCMI_W_CR = 0,             /* registers */
    DCMI_W_RIS = 1,
    DCMI_W_IER = 2,
    DCMI_W_CWSTRT = 3,
    DCMI_W_CWSIZE = 4,
    DCMI_W_HSYNC = 5,          /* levels of the pins at the last sample: 0 or 1 */
    DCMI_W_VSYNC = 6,
    DCMI_W_CLOCK = 7,
    DCMI_W_HSYNC_BLANKED = 8,  /* whether each sync blanked at the last working edge: 0 or 1. With ESS 1 what the codes said: in an open frame
                                * HSYNC_BLANKED is 0 in a line; with no frame open VSYNC_BLANKED is 0 after enabling, ERR or an overrun, where only a
                                * frame start counts, with FSC 0xFF a frame end, and 1 after a frame end that counted */
    DCMI_W_VSYNC_BLANKED = 9,
    DCMI_W_FRAME = 10,         /* 0 closed, 1 open and not taken, 2 open and taken */
    DCMI_W_LINES = 11,         /* lines begun in the open frame and pixels of the last line; both 0 in a closed frame. The last pixel's column is */
    DCMI_W_PIXELS = 12,        /* PIXELS - 1; in an open line with ESS 1, where the bytes that wait are counted too, that less WAITING */
    DCMI_W_RATE = 13,          /* the rate counter */
    DCMI_W_PARTIAL_COUNT = 14, /* the partial word: how many data, and their bits */
    DCMI_W_PARTIAL_BITS = 15,
    DCMI_W_SLOT = 16,          /* 32 FIFO slots, 16 to 47, at every depth: the held words, oldest first, then zeros */
    DCMI_W_HELD = 48,          /* how many words are held, at most the depth */
    DCMI_W_PLACE = 49,         /* the number of the next word to land; in mode two of the next in A */
    DCMI_W_SAMPLES = 50,       /* counts since reset */
    DCMI_W_COMPLETED = 51,
    DCMI_W_LANDED = 52,
    DCMI_W_DISCARDED = 53,
    DCMI_W_DEPTH = 54,         /* the depth of the FIFO, 1 to 32, fixed when the device is made */
    DCMI_W_ESCR = 55,          /* registers of embedded codes */
    DCMI_W_ESUR = 56,
    DCMI_W_WAITING = 57,       /* how many bytes wait that may begin a code: none, FF, FF 00 or FF 00 00 */
    DCMI_W_MODE = 58,          /* the buffer mode: 0 one, 1 two. In mode one all words below are 0 */
    DCMI_W_PLACE_B = 59,       /* the number of the next word in B */
    DCMI_W_IN_B = 60,          /* of each held word a bit, the oldest being bit 0: whether it goes to B, and whether it opens a frame */
    DCMI_W_OPENING = 61,
    DCMI_W_TURN = 62,          /* the buffer of the frame that completed a word last: 0 A, 1 B */
    DCMI_W_BEGUN = 63,         /* whether that is the open frame: 0 or 1 */
    DCMI_W_FRAME_A = 64,    /* the frame in A and in B: 0 none is known, 1 one of which all words that landed did so since the last re-arming, */
    DCMI_W_FRAME_B = 65,    /* 2 a complete one */
    DCMI_W_LATEST = 66         /* the buffer whose frame became complete last: 0 A, 1 B */
};

typedef struct dcmi_device {
    uint32_t word[DCMI_WORDS];
} dcmi_device;

/* The two answers of one sample: where a word landed, and what became of the word that the sample completed. One that raises ERR completes none. */
enum { DCMI_NOTHING = 0, DCMI_COMPLETED = 1, DCMI_LOST = 2 };

typedef struct dcmi_answer {
    uint64_t landed; /* 1 if a word landed in memory, else 0; over two memories 1 if it landed in A, 2 if in B */
    uint64_t byte;   /* the byte of the memory at which it landed; 0 if none did */
    uint64_t packed; /* DCMI_NOTHING, DCMI_COMPLETED or DCMI_LOST */
    uint64_t value;  /* the completed word; 0 if none was, or it was lost */
} dcmi_answer;

/* Where the latest complete frame is, in mode two: nowhere, or from byte `offset` of A or B on, `length` bytes; or that memory is too short for it, and must
 * have at least `offset` + `length` bytes. */
enum { DCMI_NO_FRAME = 0, DCMI_FRAME_IN_A = 1, DCMI_FRAME_IN_B = 2, DCMI_TOO_SHORT_A = 3, DCMI_TOO_SHORT_B = 4 };

typedef struct dcmi_frame {
    uint64_t kind;   /* DCMI_NO_FRAME, DCMI_FRAME_IN_A, DCMI_FRAME_IN_B, DCMI_TOO_SHORT_A or DCMI_TOO_SHORT_B */
    uint64_t offset; /* that memory's start byte; 0 without a frame */
    uint64_t length; /* 4 for each word of the frame; 0 without one */
} dcmi_frame;

/* A trace file, version 1 or 2, all numbers little-endian:
 *
 *     bytes 0-2    FGT
 *     bytes 3-4    the version
 *     byte 5       the number of writes
 *     bytes 6-7    the number of samples, version 1: at most 16,384
 *     bytes 6-9    the number of samples, version 2: 16,385 to 4,294,967,295
 *
 * then each write, its offset (1 byte) and value (4), then each sample (3). The number of samples decides the version. */

/* One item of a trace file. */
enum { DCMI_END = 0, DCMI_WRITE = 1, DCMI_SAMPLE = 2 };

typedef struct dcmi_item {
    uint64_t kind;   /* DCMI_END, DCMI_WRITE or DCMI_SAMPLE */
    uint64_t offset; /* a write's offset; else 0 */
    uint64_t value;  /* a write's value, or a sample; 0 at the end */
    uint64_t next;   /* the place after the item; at the end it stays */
} dcmi_item;

/* The register writes of a trace file that is to be written: as many as count says, first at index 0. */
typedef struct dcmi_writes {
    size_t count;
    uint8_t offset[255];
    uint32_t value[255];
} dcmi_writes;

/* What a refusal number says, in English, as docs/BENCH.md has it; DCMI_OK is "accepted". */
static inline const char *dcmi_refusal_text(uint32_t number)
{
    switch (number) {
    case DCMI_OK: return "accepted";
    case DCMI_MALFORMED: return "the image is malformed: not reset, overwritten, or made by hand";
    case DCMI_NO_REGISTER: return "no register at the offset; DR is not modelled";
    case DCMI_ACCESS: return "ICR was read, or SR, RIS or MIS written";
    case DCMI_RESERVED: return "a 1 in CR 31:15 or 13:12, IER or ICR 31:5, CWSTRT 31:29 or 15:14, CWSIZE 31:30 or 15:14";
    case DCMI_UNSUPPORTED: return "CR with FCRC 3, JPEG with CROP or an EDM other than 0, ESS with JPEG or an EDM other than 0, or CAPTURE 1 with ENABLE 0";
    case DCMI_ENABLED: return "enabled, and ESCR, ESUR, CWSTRT or CWSIZE is written, a CR bit other than CAPTURE and ENABLE changes, or the buffer mode is set";
    case DCMI_SAMPLE_BITS: return "a sample, maybe a late one, has a bit above 17; none was run";
    case DCMI_SAMPLES: return "the device would have taken more than 4,294,967,295 samples since reset";
    case DCMI_START: return "the start byte lies beyond the end of memory; of two memories, one of them beyond its own";
    case DCMI_MARK: return "bytes 0 to 2 are not FGT";
    case DCMI_VERSION: return "bytes 3 and 4 are neither 1 nor 2, low byte first";
    case DCMI_COUNT: return "version 1 with more than 16,384 samples, version 2 with no more, or more than 4,294,967,295 given to the writer";
    case DCMI_LENGTH: return "fewer than 8 bytes, in version 2 than 10; or not that many + 5 for each write + 3 for each sample";
    case DCMI_WRITES: return "more than 255 writes given to the writer";
    case DCMI_ROOM: return "the output buffer is shorter than the file";
    case DCMI_MODE: return "one memory was lent in mode two, or two in mode one; or the latest frame was asked for in mode one";
    case DCMI_NO_SAMPLE: return "a sample number of 0, or beyond the file";
    case DCMI_DEPTH: return "a depth of 0 or above 32, where a device is made";
    case DCMI_PICTURE_SIZE: return "an EDM above 3, a side of 0 or above 2048, or pixels that do not exactly fill the words given, or whole words on reading";
    case DCMI_PICTURE: return "a picture's header or length is not ours, or a pixel is above its maximum";
    case DCMI_SHEET: return "more than 65,536 frames in a sheet, or more than 4,194,304 pixels in a frame";
    default: return "no refusal has this number";
    }
}

/* A fresh device with a FIFO of four words. Never refused, whatever the image held. */
uint32_t dcmi_reset(dcmi_device *device);

/* A fresh device with a FIFO of `depth` words, whatever the image held. Refusal 18. */
uint32_t dcmi_reset_depth(dcmi_device *device, uint32_t depth);

/* A register write. Refusals 1, 2, 3, 4, 5, 6 in order. */
uint32_t dcmi_write(dcmi_device *device, uint32_t offset, uint32_t value);

/* A register read into *value. Refusals 1, 2, 3 in order. */
uint32_t dcmi_read(const dcmi_device *device, uint32_t offset, uint32_t *value);

/* The interrupt line into *line: 1 up, 0 down. Refusal 1. */
uint32_t dcmi_interrupt(const dcmi_device *device, uint32_t *line);

/* The place of the next word becomes 0; in mode two both places, and no frame is complete. Refusal 1. */
uint32_t dcmi_rearm(dcmi_device *device);

/* The buffer mode becomes one: one memory, as after reset. It is set anew, and re-arms, also if it is the same. Refusals 1, 6 in order. */
uint32_t dcmi_one_buffer(dcmi_device *device);

/* The buffer mode becomes two: frame buffers A and B in turn, A first. It is set anew, and re-arms, also if it is the same. Refusals 1, 6 in order. */
uint32_t dcmi_two_buffers(dcmi_device *device);

/* In mode two: where the latest complete frame is in the memories of the runs, of which the lengths and starts are given, into *frame. Refusals 1, 16, 9 in
 * order. */
uint32_t dcmi_latest_frame(const dcmi_device *device, size_t length_a, size_t start_a, size_t length_b, size_t start_b, dcmi_frame *frame);

/* What the static library exports for the calls below, which pass a slice as a pointer that is not null and a length. Call those. */
uint32_t dcmi_sample_slices(dcmi_device *device, uint8_t *memory, size_t length, size_t start, uint32_t sample, dcmi_answer *answer);
uint32_t dcmi_run_slices(dcmi_device *device, uint8_t *memory, size_t length, size_t start, const uint32_t *samples, size_t count);
uint32_t dcmi_sample_two_slices(dcmi_device *device, uint8_t *memory_a, size_t length_a, size_t start_a, uint8_t *memory_b, size_t length_b, size_t start_b,
                                uint32_t sample, dcmi_answer *answer);
uint32_t dcmi_run_two_slices(dcmi_device *device, uint8_t *memory_a, size_t length_a, size_t start_a, uint8_t *memory_b, size_t length_b, size_t start_b,
                             const uint32_t *samples, size_t count);
uint32_t dcmi_run_file_slices(dcmi_device *device, const uint8_t *file, size_t file_length, uint8_t *memory, size_t length, size_t start);
uint32_t dcmi_run_file_depth_slices(dcmi_device *device, uint32_t depth, const uint8_t *file, size_t file_length, uint8_t *memory, size_t length,
                                    size_t start);
uint32_t dcmi_trace_write_slices(size_t count, const uint8_t *offsets, const uint32_t *values, const uint32_t *samples, size_t samples_count,
                                 uint8_t *out, size_t length, size_t *written);
uint32_t dcmi_trace_item_slices(const uint8_t *file, size_t length, size_t place, dcmi_item *item);

/* One sample over the memory from the start byte on, its two answers into *answer. Refusals 1, 16, 9, 7, 8 in order. */
static inline uint32_t dcmi_sample(dcmi_device *device, uint8_t *memory, size_t length, size_t start, uint32_t sample, dcmi_answer *answer)
{
    uint8_t none = 0;
    return dcmi_sample_slices(device, length ? memory : &none, length, start, sample, answer);
}

/* A run of samples over the memory from the start byte on. Refusals 1, 16, 9, 7, 8 in order. */
static inline uint32_t dcmi_run(dcmi_device *device, uint8_t *memory, size_t length, size_t start, const uint32_t *samples, size_t count)
{
    uint8_t none = 0;
    uint32_t nothing = 0;
    return dcmi_run_slices(device, length ? memory : &none, length, start, count ? samples : &nothing, count);
}

/* In mode two: one sample over two memories, which must not overlap, each from its start byte on, its two answers into *answer. Refusals 1, 16, 9, 7, 8 in
 * order. */
static inline uint32_t dcmi_sample_two(dcmi_device *device, uint8_t *memory_a, size_t length_a, size_t start_a, uint8_t *memory_b, size_t length_b,
                                       size_t start_b, uint32_t sample, dcmi_answer *answer)
{
    uint8_t none_a = 0;
    uint8_t none_b = 0;
    return dcmi_sample_two_slices(device, length_a ? memory_a : &none_a, length_a, start_a, length_b ? memory_b : &none_b, length_b, start_b, sample,
                                  answer);
}

/* In mode two: a run of samples over two memories, which must not overlap, each from its start byte on. Refusals 1, 16, 9, 7, 8 in order. */
static inline uint32_t dcmi_run_two(dcmi_device *device, uint8_t *memory_a, size_t length_a, size_t start_a, uint8_t *memory_b, size_t length_b,
                                    size_t start_b, const uint32_t *samples, size_t count)
{
    uint8_t none_a = 0;
    uint8_t none_b = 0;
    uint32_t nothing = 0;
    return dcmi_run_two_slices(device, length_a ? memory_a : &none_a, length_a, start_a, length_b ? memory_b : &none_b, length_b, start_b,
                               count ? samples : &nothing, count);
}

/* A trace file of either version on a fresh device with a FIFO of four words: its writes, then its samples as one run. *device is written only, and
 * becomes the device after the file. Refusals 13 (below 8 bytes), 10, 11, 13 (version 2 below 10), 12, 13, the first refused write's number, 9, 7 in
 * order. */
static inline uint32_t dcmi_run_file(dcmi_device *device, const uint8_t *file, size_t file_length, uint8_t *memory, size_t length, size_t start)
{
    uint8_t none = 0;
    uint8_t nothing = 0;
    return dcmi_run_file_slices(device, file_length ? file : &nothing, file_length, length ? memory : &none, length, start);
}

/* The same on a fresh device with a FIFO of `depth` words. Refusals 18, then as dcmi_run_file. */
static inline uint32_t dcmi_run_file_depth(dcmi_device *device, uint32_t depth, const uint8_t *file, size_t file_length, uint8_t *memory, size_t length,
                                           size_t start)
{
    uint8_t none = 0;
    uint8_t nothing = 0;
    return dcmi_run_file_depth_slices(device, depth, file_length ? file : &nothing, file_length, length ? memory : &none, length, start);
}

/* A trace file of some writes and samples into the lent buffer, version 1 up to 16,384 samples and version 2 above; its length into *written. Bytes of
 * the buffer after it stay. Refusals 14, 12, 7, 15 in order. */
static inline uint32_t dcmi_trace_write(const dcmi_writes *writes, const uint32_t *samples, size_t count, uint8_t *out, size_t length, size_t *written)
{
    uint8_t none = 0;
    uint32_t nothing = 0;
    return dcmi_trace_write_slices(writes->count, writes->offset, writes->value, count ? samples : &nothing, count, length ? out : &none, length, written);
}

/* The item at a place of a trace file, places numbered from 0: first the writes, then the samples; every further place is the end.
 * Refusals 13, 10, 11, 13, 12, 13 in order, as dcmi_run_file's, then 7 at a sample. */
static inline uint32_t dcmi_trace_item(const uint8_t *file, size_t length, size_t place, dcmi_item *item)
{
    uint8_t none = 0;
    return dcmi_trace_item_slices(length ? file : &none, length, place, item);
}

#ifdef __cplusplus
}
#endif

#endif
