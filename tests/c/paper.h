/* The paper's examples, of which the numbers stand in the paper: what both sides answer is compared with them. */
#ifndef PAPER_H
#define PAPER_H

#include "checked.h"
#include "inputs.h"

void paper_examples(void);

/* By request: W4, W6, W2. */
void paper_compressed(void);
void paper_codes(void);
void paper_buffers(void);

/* ---- what is expected ---- */

void expect(const char *what, uint64_t want, uint64_t got);
void expect_register(const char *what, uint32_t offset, uint32_t want);
/* A word in the memory, little-endian. */
void expect_word(const char *what, size_t at, uint32_t want);
void expect_device(const char *what, uint32_t landed, uint32_t held, uint32_t discarded, uint32_t ris);
void expect_answer(const char *what, dcmi_answer answer, uint64_t packed, uint64_t value);
/* RIS after one more clock. */
void expect_flags(const char *what, uint32_t pins, uint32_t ris);

/* ---- cameras ---- */

enum { HBLANK = 0x4000, VBLANK = 0x8000 };

/* Pixel clocks of a camera with all polarities 1; the working edge is the second sample. */
void clocks(unsigned count, uint32_t pins);

/* A blank edge, then pixels without grants on a fresh device; the last one's working sample is granted or not. */
void pixels(unsigned count, bool grant);

/* A code, and those of FOUR_CODES; CR with ENABLE, PCKPOL, ESS and CAPTURE. */
#define CODE(xy) 0xFF, 0x00, 0x00, xy
enum { FS = 0x51, LS = 0x52, LE = 0x53, FE = 0x54, NO_CODE = 0x55 };
enum { CONTINUOUS = 0x4031, SNAPSHOT = 0x4033, CROPPED = 0x4035 };

#endif
