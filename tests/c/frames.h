/* W2 followed by its sentences, from the mode change on: each word with its frame and buffer, each frame with how many words it completed, how many of them
 * landed and whether it ended by rule 4. What is complete follows from that; a device in mode two must say the same. */
#ifndef FRAMES_H
#define FRAMES_H

#include "reached.h"

/* What one sample did, as far as frames are concerned. */
typedef struct event {
    bool landed, word, lost, padded, error;
    bool ended; /* rule 4 closed the frame that was open: nothing was lost, no ERR */
} event;

/* What only the history tells. */
enum {
    FRAMES_FIRST = 1 << 0,   /* the first word since the mode change was completed */
    FRAMES_LATER = 1 << 1,   /* so, and a taken frame without a word had ended before */
    FRAMES_REARMED = 1 << 2, /* a frame became complete whose first word was held at a re-arming */
    FRAMES_PADDED = 1 << 3,  /* a frame became complete with the landing of its padded word */
};

/* Before each call: a device that is not the last call's is not followed, until its mode is set. */
void frames_begin(const uint32_t *device);

/* An accepted sample in mode two. */
unsigned frames_sample(const camera *before, const event *e);

/* After each call: what is wrong with its device, or a null pointer. */
const char *frames_call(const call *made);

#endif
