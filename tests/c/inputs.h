/* Random inputs: numbers, camera samples, register writes, device images, trace files. */
#ifndef INPUTS_H
#define INPUTS_H

#include <stdbool.h>
#include <stddef.h>
#include <stdint.h>

#include "dcmi.h"

void random_seed(uint64_t seed);
uint64_t random_u64(void);
uint32_t random_u32(void);
uint32_t below(uint32_t bound);                  /* 0 to bound - 1 */
uint32_t between(uint32_t first, uint32_t last); /* ends included */
bool chance(uint32_t of, uint32_t out_of);
void random_bytes(uint8_t *bytes, size_t count);

/* A camera that sends frames: vertical blanking, then lines of pixels with horizontal blanking between them. */
typedef struct scene {
    uint32_t polarity;                        /* the CR bits 5 to 7 that fit it */
    uint32_t width, height, hblank, vblank;   /* in clocks and lines */
    uint32_t hold;                            /* samples of each clock level */
    uint32_t grant;                           /* chance of a grant, of 256 */
    uint32_t glitch;                          /* chance of other pins between working edges, of 256 */
    uint32_t gap;                             /* chance that HSYNC blanks in place of a pixel, of 256 */
    bool pixels_first;                        /* lines begin with pixels, else with blanking */
    bool hsync_idle;                          /* HSYNC does not blank in vertical blanking */
    uint32_t clock, part;                     /* place in the frame, and in the clock */
} scene;

void scene_make(scene *s, uint32_t cr);
/* One of many pixels, most of whose words find no grant. */
void scene_full(scene *s, uint32_t cr);
/* One whose picture has a window in it, and most of whose words find a grant. */
void scene_cropped(scene *s, uint32_t cr, uint32_t *cwstrt, uint32_t *cwsize);
/* One of few pixels, whose frames have no word or a few. */
void scene_small(scene *s, uint32_t cr);
uint32_t scene_sample(scene *s);
void scene_samples(scene *s, uint32_t *samples, size_t count);

/* A frame that comes in packets: vertical blanking, so many bytes with HSYNC blanking here and there between them, and one clock at which VSYNC blanks
 * again. Two samples a clock; each has a chance of a grant, of 256. The last sample is the frame end's working edge. Returns how many there are. */
enum { MOST_PACKETS = 1024 };
size_t packets(uint32_t cr, uint32_t bytes, uint32_t grant, uint32_t *samples);

/* W6. ESCR and ESUR: as for the codes of ITU 656, four codes, often with 0xFF for FSC or FEC and few unmask bits, or anything. */
void any_codes(uint32_t *escr, uint32_t *esur);
/* ESCR of four codes: frame start 0x51, line start 0x52, line end 0x53, frame end 0x54. */
enum { FOUR_CODES = 0x54535251 };
/* A byte of which codes are made: FF, 00, one of ESCR with any masked bits, or any. */
uint32_t code_byte(uint32_t escr, uint32_t esur);
/* The bytes of a picture with codes, its lines about so long; returns how many there are. Often its data have bytes of which codes are made. A damaged one
 * has codes that are missing, doubled, out of order or others. */
enum { MOST_CODED = 2048 };
size_t coded_picture(uint32_t escr, uint32_t esur, uint32_t width, bool damaged, uint8_t *bytes);
/* Two samples a byte, the second at the working edge; each has a chance of a grant, of 256, and any sync pins and data bits above the byte. */
void byte_samples(uint32_t cr, const uint8_t *bytes, size_t count, uint32_t grant, uint32_t *samples);
/* So many samples of pictures with codes. */
void coded_samples(uint32_t cr, uint32_t escr, uint32_t esur, uint32_t *samples, size_t count);

/* Depths of the FIFO, often 1, 2, 4 or 32; and numbers that are none. */
uint32_t any_depth(void);
uint32_t bad_depth(void);

/* A CR value that a disabled device accepts, with ENABLE 1; one with JPEG 1; one with JPEG 1 that may be refused for it. */
uint32_t valid_cr(void);
uint32_t valid_jpeg(void);
uint32_t any_jpeg(void);
/* One with ESS 1; one with ESS 1 that may be refused for it. */
uint32_t valid_ess(void);
uint32_t any_ess(void);
uint32_t valid_cwstrt(void);
uint32_t valid_cwsize(void);
uint32_t any_offset(void);
uint32_t any_value(const uint32_t *device);

/* A well-formed device, often at the bounds of what is well-formed. */
void image_well_formed(uint32_t *image);
/* One with an open frame gets CROP 1, FRAME 0, often another window, and the line before the window's last; the next sample can be a working edge.
 * False if it has no open frame, or too few samples for so many lines. */
bool image_window(uint32_t *image);
/* One with an open frame gets JPEG 1, EDM 0 and CROP 0; the next sample can be a working edge. False if it has no open frame, or no sample is left. */
bool image_compressed(uint32_t *image);
/* One with ENABLE 1 gets ESS 1, EDM 0 and JPEG 0, often few pixels; the next sample can be a working edge. False if it has ENABLE 0, or no sample is left. */
bool image_codes(uint32_t *image);
/* One in mode one becomes one in mode two, with any turn, places, frames, and anything that the held words carry. */
void image_two(uint32_t *image);
/* One word becomes something else; the device is mostly malformed then. */
void image_damage(uint32_t *image);
/* Values for a word of an image that lie near a bound; returns how many. */
enum { MOST_BOUNDS = 64 };
unsigned image_bounds(const uint32_t *image, unsigned word, uint32_t *values);

/* The parts of a trace file. */
enum { TRACE_SAMPLES = 1 << 17 };
typedef struct trace {
    dcmi_writes writes;
    size_t count;
    uint32_t samples[TRACE_SAMPLES];
} trace;

/* A trace that is accepted: a set-up, then a camera's samples; at times one with codes. */
void trace_valid(trace *t, size_t count);
/* One of a scene_full, nothing cropped. */
void trace_full(trace *t, size_t count);
/* Its file, whatever it holds, in the version that its number of samples asks for, or in the one named; returns the length. Version 1 has no more than
 * the low 16 bits of that number. */
size_t trace_file(const trace *t, uint8_t *file);
size_t trace_file_as(const trace *t, unsigned version, uint8_t *file);
/* The bytes of a header. */
size_t header_length(unsigned version);
/* A header of version 2 and a few bytes: often damaged, or with a length that is right only without the upper bits of the number of samples or of the
 * whole length. Returns the length, at most 64 bytes. */
size_t header_only(uint8_t *file);

/* The samples of a camera with a picture of 640 by 480 and all polarities 1, one after the other: rows of 660 pixel clocks, of which the first 640 are
 * not blanked; 490 rows a picture, the first and the last five blanked; two samples a clock, a grant at every fourth. It begins with `random` set and the
 * rest 0; from 12345 on it is the benchmark's trace. */
enum { PICTURE_COLUMNS = 640, PICTURE_LINES = 480, PICTURE_SAMPLES = 490 * 660 * 2 };
typedef struct picture {
    uint32_t row, clock, level, random;
    uint64_t made;
} picture;
uint32_t picture_sample(picture *p);

#endif
