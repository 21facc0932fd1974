#include "frames.h"

#include <string.h>

/* A frame that has completed a word. */
typedef struct shot {
    uint64_t number;           /* counted from 1 */
    uint32_t completed, landed;
    bool ended;                /* by rule 4 */
    bool landed_before;        /* some word landed before the last re-arming */
    bool held_then;            /* at a re-arming its first word was held */
} shot;

/* A held word. */
typedef struct noted {
    shot *of;
    bool first, padded;
    buffer to;
} noted;

enum { SHOTS = SLOTS + 4 }; /* at most those of the held words, the two in the buffers and the open one are in use */

static bool known; /* the device is followed */
static uint32_t last[DCMI_WORDS];
static shot shots[SHOTS], *open, *in[BUFFERS];
static noted queue[SLOTS];
static uint32_t held;
static buffer turn;
static uint64_t numbers;
static bool no_word_before;

void frames_begin(const uint32_t *device) { known &= memcmp(device, last, sizeof last) == 0; }

static bool in_use(const shot *s)
{
    for (uint32_t i = 0; i < held; i++)
        if (queue[i].of == s) return true;
    return s == open || s == in[BUFFER_A] || s == in[BUFFER_B];
}

static shot *new_shot(void)
{
    shot *s = shots;
    while (in_use(s)) s++;
    *s = (shot){ .number = ++numbers };
    return s;
}

/* "A buffer's frame is complete when it ended by rule 4 and all its words, at least one, have landed since the last re-arming." */
static bool complete(const shot *s) { return s && s->ended && s->completed && s->landed == s->completed && !s->landed_before; }

/* "The latest complete frame." */
static const shot *latest(void)
{
    const shot *a = complete(in[BUFFER_A]) ? in[BUFFER_A] : NULL, *b = complete(in[BUFFER_B]) ? in[BUFFER_B] : NULL;
    return !a ? b : !b || a->number > b->number ? a : b;
}

static void mode_set(void)
{
    known = true;
    open = in[BUFFER_A] = in[BUFFER_B] = NULL;
    held = 0;
    turn = BUFFER_B; /* "the first after a mode change goes to A" */
    numbers = 0;
    no_word_before = false;
}

static void rearmed(void)
{
    for (unsigned i = 0; i < SHOTS; i++) shots[i].landed_before |= shots[i].landed != 0;
    for (uint32_t i = 0; i < held; i++) queue[i].of->held_then |= queue[i].first;
}

/* "The first word a frame completes switches to the other, and each held word carries its buffer and whether it opens a frame." */
static void word_completed(const event *e)
{
    const bool first = !open;
    if (first) {
        open = new_shot();
        turn = turn == BUFFER_A ? BUFFER_B : BUFFER_A;
    }
    open->completed++;
    if (!e->lost) queue[held++] = (noted){ open, first, e->padded, turn };
}

/* "Ceases to be when another frame's first word lands there." */
static noted word_landed(void)
{
    const noted w = queue[0];
    memmove(queue, queue + 1, --held * sizeof *queue);
    w.of->landed++;
    if (w.first) in[w.to] = w.of;
    return w;
}

unsigned frames_sample(const camera *before, const event *e)
{
    unsigned told = 0;
    if (!known) return 0;
    if (e->landed) {
        const noted w = word_landed();
        if (w.padded && w.of == in[w.to] && complete(w.of)) told |= FRAMES_PADDED;
    }
    if (e->word && numbers == 0) told |= FRAMES_FIRST | (no_word_before ? FRAMES_LATER : 0);
    if (e->word) word_completed(e);
    if (e->lost || e->error) held = 0, open = NULL;
    if (e->ended) {
        no_word_before |= before->frame == FRAME_TAKEN && !open;
        if (open) open->ended = true;
        open = NULL;
    }
    for (unsigned i = 0; i < BUFFERS; i++) {
        if (!complete(in[i]) || !in[i]->held_then) continue;
        told |= FRAMES_REARMED;
        in[i]->held_then = false;
    }
    return told;
}

/* What a device must say. */
static const char *wrong(const uint32_t *w)
{
    uint32_t in_b = 0, opening = 0;
    for (uint32_t i = 0; i < held; i++) {
        in_b |= (uint32_t)queue[i].to << i;
        opening |= (uint32_t)queue[i].first << i;
    }
    const bool complete_a = complete(in[BUFFER_A]), complete_b = complete(in[BUFFER_B]);
    const bool says_a = w[DCMI_W_FRAME_A] == 2, says_b = w[DCMI_W_FRAME_B] == 2;
    const shot *s = latest();
    if (w[DCMI_W_HELD] != held || w[DCMI_W_IN_B] != in_b || w[DCMI_W_OPENING] != opening) return "a held word carries what W2 does not say";
    if (w[DCMI_W_TURN] != turn || w[DCMI_W_BEGUN] != (open != NULL)) return "the turn is not as W2 says";
    if (complete_a != says_a || complete_b != says_b) return "a frame is complete that W2 does not say, or the other way round";
    if ((complete_a && w[DCMI_W_PLACE] != in[BUFFER_A]->completed) || (complete_b && w[DCMI_W_PLACE_B] != in[BUFFER_B]->completed))
        return "a complete frame has not the words that it completed";
    if (complete_a && complete_b && s != in[w[DCMI_W_LATEST]]) return "the latest complete frame is not as W2 says";
    return NULL;
}

const char *frames_call(const call *made)
{
    const bool accepted = made->answer == 0, disabled = made->before[DCMI_W_CR] & ~made->after[DCMI_W_CR] & ENABLE;
    memcpy(last, made->after, sizeof last);
    if (accepted && made->kind == TWO_BUFFERS) mode_set();
    if (made->after[DCMI_W_MODE] != 1) known = false;
    if (!known || made->kind > RUN_TWO) return NULL;
    if (accepted && made->kind == REARM) rearmed();
    if (accepted && made->kind == WRITE && disabled) held = 0, open = NULL;
    const shot *s = latest();
    if (accepted && made->kind == LATEST_FRAME) {
        const bool is_short = made->output == DCMI_TOO_SHORT_A || made->output == DCMI_TOO_SHORT_B;
        const uint64_t in_a = is_short ? DCMI_TOO_SHORT_A : DCMI_FRAME_IN_A, in_b = is_short ? DCMI_TOO_SHORT_B : DCMI_FRAME_IN_B;
        const uint64_t kind = !s ? DCMI_NO_FRAME : s == in[BUFFER_A] ? in_a : in_b;
        if (made->output != kind || made->part_length != (s ? 4 * (uint64_t)s->completed : 0)) return "the frame that is handed back is not as W2 says";
    }
    return wrong(made->after);
}
