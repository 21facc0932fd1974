/* What the frame printer prints, by the paper's section on it. */
#ifndef PRINTED_H
#define PRINTED_H

#include "model.h"

enum { PRINTER_MEMORY = 16384, MOST_PRINTED = 1 << 16 };

/* After a run that was refused with a number, or that left a camera and memory. */
void printed_text(char *text, uint32_t number, const camera *c, const uint8_t *memory);

/* For a whole input; returns the number of its refusal, or 0. */
uint32_t printed_file(char *text, const uint8_t *file, size_t length);

#endif
