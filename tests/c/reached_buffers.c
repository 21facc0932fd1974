/* Two frame buffers in turn, W2. */
#include "cases.h"

#include "frames.h"

/* A working edge with ENABLE 1. */
static bool works(const camera *before, uint32_t sample)
{
    const bool was_high = before->pins & CLOCK, high = sample >> 16 & 1;
    return high != was_high && high == (bool)(before->cr & PCKPOL) && (before->cr & ENABLE);
}

/* ERR closes the frame, and leaves no sync remembered as blanking; so does an overrun, at which a word is completed. */
static event event_of(const camera *before, uint32_t sample, const camera *after)
{
    const bool open = before->frame != FRAME_CLOSED, closed = after->frame == FRAME_CLOSED, ess = before->cr & ESS;
    event e = { .landed = after->landed != before->landed, .word = after->completed != before->completed };
    e.lost = e.word && after->discarded != before->discarded;
    e.error = ess && works(before, sample) && closed && !e.word && !after->blanked && (open || (before->blanked & VSYNC));
    e.padded = e.word && (before->cr & JPEG) && (after->blanked & VSYNC);
    e.ended = open && closed && !e.lost && !e.error;
    return e;
}

/* Room for a word at a place. */
static bool room(const lent *m, uint32_t place) { return 4 * (uint64_t)place + 4 <= m->length - m->start; }

static unsigned ones(uint32_t bits)
{
    unsigned count = 0;
    for (; bits; bits &= bits - 1) count++;
    return count;
}

/* Rule 1, granted: no room for the oldest held word. */
static void reached_no_room(const camera *before, const lent *both)
{
    const buffer to = before->in_b & 1, away = 1 - to, behind = before->in_b >> 1 & 1;
    const bool opens = before->opening & 1, behind_opens = before->opening >> 1 & 1;
    SEEN("W2: granted, no room in A, in B there is", room(&both[away], before->place[away]) && to == BUFFER_A);
    SEEN("W2: granted, no room in B, in A there is", room(&both[away], before->place[away]) && to == BUFFER_B);
    SEEN("W2: granted, no room for an opening word", opens);
    SEEN("W2: granted, no room for a later word, at place 0 there is", !opens && room(&both[to], 0));
    SEEN("W2: granted, no room; the word behind goes to the other and waits",
         before->held > 1 && behind == away && room(&both[away], behind_opens ? 0 : before->place[away]));
}

/* Rule 1: the oldest held word has landed, with others held or not. `over` is whether none of its frame is left to come. */
static void reached_landing(const camera *before, const lent *both, const camera *after, const event *e)
{
    const buffer to = before->in_b & 1, away = 1 - to;
    const bool opens = before->opening & 1, several = before->held > 1, next_opens = before->opening >> 1 & 1;
    const uint32_t place = before->place[to], at = opens ? 0 : place;
    const content was = before->in[to], is = after->in[to];
    const bool over = several ? next_opens : !before->begun, becomes = over && is == CONTENT_COMPLETE && (opens || was == CONTENT_LANDING);
    if (after->place[to] != at + 1) return;
    SEEN_AT("W2: a word lands, for each number held", before->held, true);
    SEEN("W2: an opening word lands at place 0 of A, the place was above 0", opens && place && to == BUFFER_A);
    SEEN("W2: an opening word lands at place 0 of B, the place was above 0", opens && place && to == BUFFER_B);
    SEEN("W2: an opening word lands, the place was 0", opens && !place);
    SEEN("W2: an opening word lands, at the place was no room", opens && !room(&both[to], place));
    SEEN("W2: a later word lands at the place of A, above 0", !opens && place && to == BUFFER_A);
    SEEN("W2: a later word lands at the place of B, above 0", !opens && place && to == BUFFER_B);
    SEEN("W2: a later word lands at place 0, after a re-arming", !opens && !place && was == CONTENT_NONE && before->begun);
    SEEN("W2: a word lands in the last four bytes of its memory", 4 * (uint64_t)at + 4 == both[to].length - both[to].start);
    SEEN("W2: a word lands at B from a start above 0 on, that of A is another", to == BUFFER_B && both[to].start && both[to].start != both[away].start);
    SEEN("W2: a landing leaves the other place, above 0", before->place[away] && after->place[away] == before->place[away]);
    SEEN("W2: a word lands in B beyond 4 GiB", to == BUFFER_B && 4 * (uint64_t)at > UINT32_MAX);

    SEEN("W2: an opening word lands, the frame in A is complete no more", opens && was == CONTENT_COMPLETE && is == CONTENT_LANDING && to == BUFFER_A);
    SEEN("W2: an opening word lands, the frame in B is complete no more", opens && was == CONTENT_COMPLETE && is == CONTENT_LANDING && to == BUFFER_B);
    SEEN("W2: a frame of one word lands on a complete one, complete at once", opens && was == CONTENT_COMPLETE && becomes);
    SEEN("W2: the last word lands after the end, none held: complete in A", becomes && !several && to == BUFFER_A);
    SEEN("W2: the last word lands after the end, none held: complete in B", becomes && !several && to == BUFFER_B);
    SEEN("W2: it lands, the next held opens a frame: complete in A", becomes && several && to == BUFFER_A);
    SEEN("W2: it lands, the next held opens a frame: complete in B", becomes && several && to == BUFFER_B);
    SEEN("W2: complete at the landing of its only word", becomes && opens);
    SEEN("W2: complete at the landing of its last of several words", becomes && !opens);
    SEEN("W2: the last word lands after a re-arming inside the frame: not complete", over && !opens && was == CONTENT_NONE && is == CONTENT_NONE);
    SEEN("W2: a word lands, others of its frame are held: not complete", several && !next_opens && is == CONTENT_LANDING);
    SEEN("W2: the only held word lands, the frame is open: not complete", !several && before->begun && !e->ended && is == CONTENT_LANDING);
}

/* Rule 9: a word is completed, held or lost. */
static void reached_turn(const camera *before, const camera *after, const event *e)
{
    const bool first = !before->begun, switched = after->turn != before->turn, in_b = after->turn == BUFFER_B;
    const buffer of = after->turn;
    if (first != switched) return;
    if (e->lost) {
        const bool gone = !after->in_b && !after->opening && !after->begun, ended = before->held && first, kept = after->in[of] == CONTENT_LANDING;
        const bool both = before->in[BUFFER_A] == CONTENT_COMPLETE && before->in[BUFFER_B] == CONTENT_COMPLETE;
        SEEN("W2: a frame's first word is lost, the turn goes to B all the same", first && in_b);
        SEEN("W2: a frame's first word is lost, the turn goes to A all the same", first && !in_b);
        SEEN("W2: a later word is lost, no switch", !first);
        SEEN("W2: overrun after words of the frame landed: not complete", !first && before->in[of] == CONTENT_LANDING && kept);
        SEEN("W2: overrun discards words of a frame that has ended: not complete",
             ended && before->in[1 - of] == CONTENT_LANDING && after->in[1 - of] == CONTENT_LANDING);
        SEEN("W2: overrun leaves complete frames", both && after->in[BUFFER_A] == CONTENT_COMPLETE && after->in[BUFFER_B] == CONTENT_COMPLETE);
        SEEN("W2: a padded word is lost, others of the frame landed: not complete", e->padded && !first && before->in[of] == CONTENT_LANDING && kept);
        SEEN("W2: a padded word that is the frame's first is lost, switch", e->padded && first);
        SEEN_AT("W2: overrun, what the held words carried is gone", before->depth, gone && (before->in_b | before->opening));
        return;
    }
    const uint32_t slot = after->held - 1;
    const bool opens = after->opening >> slot & 1, goes_to_b = after->in_b >> slot & 1;
    if (opens != first || goes_to_b != in_b) return;
    SEEN("W2: a frame's first word is held, the turn goes to B", first && in_b);
    SEEN("W2: a frame's first word is held, the turn goes to A", first && !in_b);
    SEEN("W2: a later word of a frame for B is held, no switch", !first && in_b);
    SEEN("W2: a later word of a frame for A is held, no switch", !first && !in_b);
    SEEN("W2: a padded word is the frame's first", first && e->padded);
    SEEN("W2: a word of released bytes is the frame's first", first && (before->cr & ESS) && before->waiting);
    SEEN("W2: a first word is held for a buffer whose frame stays complete",
         first && !e->landed && before->in[of] == CONTENT_COMPLETE && after->in[of] == CONTENT_COMPLETE);
    SEEN_AT("W2: a frame's first word held, as the first to the 32nd", after->held, first);
    SEEN_AT("W2: a word for B held, as the first to the 32nd", after->held, in_b);
    SEEN_AT("W2: of so many frames the first word is held", ones(after->opening), first);
}

/* Rule 4: the frame that was open has ended. */
static void reached_end_of_two(const camera *before, const camera *after, const event *e)
{
    const buffer of = before->turn;
    const bool taken = before->frame == FRAME_TAKEN, left = before->held > e->landed, cleared = before->cr & ~after->cr & CAPTURE;
    const bool turn_stays = after->turn == before->turn, was_landing = before->in[of] == CONTENT_LANDING, complete = after->in[of] == CONTENT_COMPLETE;
    const bool opened = e->landed && (before->opening & 1), now = before->begun && !left && !e->word && complete && (was_landing || opened);
    if (after->begun) return;
    SEEN("W2: frame end, all words landed before: complete in A", now && !e->landed && of == BUFFER_A);
    SEEN("W2: frame end, all words landed before: complete in B", now && !e->landed && of == BUFFER_B);
    SEEN("W2: the last word lands in the frame end's sample: complete", now && e->landed);
    SEEN("W2: a frame end code: complete", now && (before->cr & ESS));
    SEEN("W2: frame end, CM 1, CAPTURE cleared: complete", now && (before->cr & CM) && cleared);
    SEEN("W2: frame end, CAPTURE was cleared inside the frame: complete", now && !(before->cr & CAPTURE));
    SEEN("W2: frame end after an early FRAME: complete", now && (before->cr & CROP) && before->lines > (before->cwstrt >> 16) + (before->cwsize >> 16) + 1);
    SEEN("W2: frame end: complete, and the other frame is too", now && after->in[1 - of] == CONTENT_COMPLETE);
    SEEN("W2: frame end, the frame in the buffer is complete already",
         before->begun && !left && !e->landed && !e->word && before->in[of] == CONTENT_COMPLETE && complete);
    SEEN("W2: frame end with words held: not complete yet", before->begun && left && !e->landed && !e->word && was_landing && !complete);
    SEEN("W2: frame end, held are also words of an earlier frame", before->begun && left && (before->opening & (before->opening - 1)));
    SEEN("W2: a taken frame without a word ends, the turn stays A", taken && !before->begun && !e->word && turn_stays && of == BUFFER_A);
    SEEN("W2: a taken frame without a word ends, the turn stays B", taken && !before->begun && !e->word && turn_stays && of == BUFFER_B);
    SEEN("W2: an untaken frame ends, nothing changes", !taken && !before->begun && turn_stays && !e->landed && after->in[BUFFER_A] == before->in[BUFFER_A]);
    SEEN("W2: frame end, a word landed before a re-arming: not complete",
         before->begun && !left && !e->word && before->in[of] == CONTENT_NONE && after->in[of] == CONTENT_NONE);
    SEEN("W2: frame end, padded and held: not complete yet", e->padded && before->begun && !before->held && was_landing && !complete);
    SEEN("W2: so where the word before lands in that sample", e->padded && before->begun && before->held == 1 && e->landed && !complete);
}

/* ERR, at which the open frame, if there is one, is closed. */
static void reached_error_of_two(const camera *before, const camera *after)
{
    const buffer of = before->turn;
    const bool gone = !after->in_b && !after->opening && !after->begun && after->turn == before->turn;
    if (!gone) return;
    SEEN("W2: ERR after words of the frame landed: not complete", before->begun && before->in[of] == CONTENT_LANDING && after->in[of] == CONTENT_LANDING);
    SEEN("W2: ERR discards words of a frame that has ended: not complete",
         !before->begun && before->held && before->in[of] == CONTENT_LANDING && after->in[of] == CONTENT_LANDING);
    SEEN("W2: ERR leaves complete frames", before->in[of] == CONTENT_COMPLETE && after->in[of] == CONTENT_COMPLETE);
    SEEN("W2: ERR leaves the turn at A", of == BUFFER_A);
    SEEN_AT("W2: ERR, so too, for each number held", before->held, before->in_b | before->opening);
}

/* An accepted sample in mode two. */
void reached_two(const camera *before, uint32_t sample, const lent *both, const camera *after)
{
    const event e = event_of(before, sample, after);
    const bool granted = sample >> 17 & 1, enabled = before->cr & ENABLE, raised = after->ris & ~before->ris & F_FRAME;
    const bool starts = before->frame == FRAME_CLOSED && after->frame != FRAME_CLOSED;
    if (granted && enabled && before->held && !e.landed) reached_no_room(before, both);
    if (e.landed) reached_landing(before, both, after, &e);
    if (e.word) reached_turn(before, after, &e);
    if (e.ended) reached_end_of_two(before, after, &e);
    if (e.error) reached_error_of_two(before, after);
    const unsigned told = frames_sample(before, &e);
    SEEN("W2: the first word after a mode change goes to A", (told & FRAMES_FIRST) && after->turn == BUFFER_A);
    SEEN("W2: so where the first frame after it completed no word", (told & FRAMES_LATER) && after->turn == BUFFER_A);
    SEEN("W2: a frame whose first word was held at a re-arming is complete", told & FRAMES_REARMED);
    SEEN("W2: complete at the landing of a padded word", told & FRAMES_PADDED);
    SEEN("W2: a frame starts where one is begun: its next word opens none", starts && before->begun && after->begun);
    SEEN("W2: W1: FRAME rises early, all words have landed: not complete yet",
         raised && after->frame != FRAME_CLOSED && before->begun && !before->held && before->in[before->turn] == CONTENT_LANDING
             && after->in[before->turn] == CONTENT_LANDING);
}

/* ENABLE rises or falls in mode two. */
void reached_enable_of_two(const camera *before, const camera *after)
{
    const bool rises = after->cr & ~before->cr & ENABLE, falls = before->cr & ~after->cr & ENABLE;
    const buffer of = before->turn;
    const bool both = before->in[BUFFER_A] == CONTENT_COMPLETE && before->in[BUFFER_B] == CONTENT_COMPLETE;
    const bool stays = after->in[BUFFER_A] == before->in[BUFFER_A] && after->in[BUFFER_B] == before->in[BUFFER_B] && after->turn == of;
    const bool gone = !after->in_b && !after->opening && !after->begun;
    if (before->mode != MODE_TWO || !stays) return;
    SEEN("W2: disabling after words of the frame landed: not complete", falls && gone && before->begun && before->in[of] == CONTENT_LANDING);
    SEEN("W2: disabling discards words of a frame that has ended", falls && gone && !before->begun && before->held && before->in[of] == CONTENT_LANDING);
    SEEN("W2: disabling leaves complete frames", falls && both);
    SEEN("W2: disabling leaves the turn at A", falls && gone && before->begun && of == BUFFER_A);
    SEEN("W2: disabling leaves the turn at B", falls && gone && before->begun && of == BUFFER_B);
    SEEN_AT("W2: ENABLE falls with the FIFO full, so too",
            before->depth, falls && gone && (before->in_b | before->opening) && before->held == before->depth);
    SEEN("W2: enabling leaves complete frames", rises && both);
    SEEN("W2: enabling leaves the turn at A", rises && of == BUFFER_A);
    SEEN("W2: enabling leaves a frame begun that was handed in so", rises && before->begun && after->begun);
}

void reached_rearm(const camera *before, const camera *after)
{
    const bool none = after->in[BUFFER_A] == CONTENT_NONE && after->in[BUFFER_B] == CONTENT_NONE, begun = before->begun && after->begun;
    if (after->place[BUFFER_A] || after->place[BUFFER_B] || !none) return;
    SEEN("re-arming: place above 0", before->mode == MODE_ONE && before->place[BUFFER_A]);
    SEEN("W2: re-arming: both places above 0", before->place[BUFFER_A] && before->place[BUFFER_B]);
    SEEN("W2: re-arming: both frames complete no more", before->in[BUFFER_A] == CONTENT_COMPLETE && before->in[BUFFER_B] == CONTENT_COMPLETE);
    SEEN("W2: re-arming after words of the open frame landed", begun && before->in[before->turn] == CONTENT_LANDING);
    SEEN("W2: re-arming, opening words held: they stay so", before->opening && after->opening == before->opening && after->in_b == before->in_b);
    SEEN("W2: re-arming leaves the turn at A and the frame begun",
         begun && before->mode == MODE_TWO && before->turn == BUFFER_A && after->turn == BUFFER_A);
}

/* An accepted mode change. */
void reached_mode(const camera *before, const camera *after)
{
    const bool to_two = after->mode == MODE_TWO, was_two = before->mode == MODE_TWO;
    const bool complete = before->in[BUFFER_A] == CONTENT_COMPLETE && before->in[BUFFER_B] == CONTENT_COMPLETE;
    const bool places = before->place[BUFFER_A] && before->place[BUFFER_B];
    if (after->place[BUFFER_A] || after->place[BUFFER_B] || after->in[BUFFER_A] || after->in[BUFFER_B] || after->begun || after->latest) return;
    SEEN("W2: two buffers set, from one", to_two && !was_two && before->place[BUFFER_A] && after->turn == BUFFER_B);
    SEEN("W2: two set again: both places 0, no frame complete", to_two && was_two && places && complete);
    SEEN("W2: two set again: the next frame goes to A, not to B", to_two && was_two && before->turn == BUFFER_A && after->turn == BUFFER_B);
    SEEN("W2: two set again: no frame has begun", to_two && was_two && before->begun);
    SEEN("W2: one buffer set, from two: place 0", !to_two && was_two && places && after->turn == BUFFER_A);
    SEEN("W2: one set again: place 0", !to_two && !was_two && before->place[BUFFER_A]);
}

/* What handing back answers. */
void reached_handed(const call *made, const camera *c)
{
    const bool a = made->output == DCMI_FRAME_IN_A, b = made->output == DCMI_FRAME_IN_B, some = a || b;
    const bool short_a = made->output == DCMI_TOO_SHORT_A, is_short = short_a || made->output == DCMI_TOO_SHORT_B;
    const bool complete_a = c->in[BUFFER_A] == CONTENT_COMPLETE, complete_b = c->in[BUFFER_B] == CONTENT_COMPLETE, both = complete_a && complete_b;
    const buffer of = a || short_a ? BUFFER_A : BUFFER_B, away = 1 - of;
    const lent *m = &made->lent[of], *other = &made->lent[away];
    const uint64_t bytes = 4 * (uint64_t)c->place[of], rest = m->length - m->start;
    SEEN("W2: the frame in A is handed back", a);
    SEEN("W2: the frame in B is handed back", b);
    SEEN("W2: both are complete, that in A is the latest", a && both);
    SEEN("W2: both are complete, that in B is the latest", b && both);
    SEEN("W2: that in B ceased to be complete, the older in A is the latest", a && c->latest == BUFFER_B && c->in[BUFFER_B] == CONTENT_LANDING);
    SEEN("W2: that in A ceased to be complete, the older in B is the latest", b && c->latest == BUFFER_A && c->in[BUFFER_A] == CONTENT_LANDING);
    for (uint32_t i = 0; some && i < c->held; i++)
        SEEN("W2: handed back, the next frame's first word for that buffer is held", (c->opening >> i & 1) && (c->in_b >> i & 1) == of);
    SEEN("W2: no frame, no word has landed", made->output == DCMI_NO_FRAME && !c->landed);
    SEEN("W2: no frame, words have landed in both",
         made->output == DCMI_NO_FRAME && c->in[BUFFER_A] == CONTENT_LANDING && c->in[BUFFER_B] == CONTENT_LANDING);
    SEEN("W2: too short, A", is_short && made->part_offset == m->start && made->part_length == bytes && short_a);
    SEEN("W2: too short, B", is_short && made->part_offset == m->start && made->part_length == bytes && !short_a);
    SEEN("W2: too short, the older frame's memory is not", is_short && both && 4 * (uint64_t)c->place[away] <= other->length - other->start);
    SEEN("W2: handed back, the memory ends with the frame", some && bytes && bytes == rest && made->part_length == bytes);
    SEEN("W2: too short by one byte", is_short && bytes == rest + 1);
    SEEN("W2: too short, without the start byte it would do", is_short && bytes <= m->length);
    SEEN("W2: handed back from a start byte above 0 on", some && bytes && m->start && m->start != other->start && made->part_offset == m->start);
    SEEN("W2: handed back, the other memory is too short for any word", some && bytes && other->length - other->start < 4);
    SEEN("W2: handed back while a frame is open", some && c->frame != FRAME_CLOSED);
    SEEN("W2: handed back while enabled, no frame open", some && (c->cr & ENABLE) && c->frame == FRAME_CLOSED);
    SEEN("W2: handed back while disabled", some && !(c->cr & ENABLE));
    SEEN("W2: handed back, a frame of more than 4 GiB", some && made->part_length > UINT32_MAX);
    SEEN("W2: too short for a frame of more than 4 GiB, not for its low 32 bits", is_short && bytes > UINT32_MAX && (uint32_t)bytes <= rest);
    SEEN("W2: a complete frame at place 0 is handed in: no bytes", some && !bytes && !made->part_length);
}

/* Where two memories are lent, or one in mode two: 16 and 9, and what is accepted for all that. */
void reached_lent(const call *made)
{
    const lent *a = &made->lent[BUFFER_A], *b = &made->lent[BUFFER_B];
    const bool over_a = a->start > a->length, over_b = b->start > b->length, run = made->kind == RUN_TWO, accepted = made->answer == 0;
    const bool only_a = made->answer == 9 && over_a && !over_b, only_b = made->answer == 9 && over_b && !over_a;
    SEEN("W2: a run of no sample over one memory in mode two: 16", made->answer == 16 && made->kind == RUN && !made->count);
    SEEN("W2: a run of no sample over two memories in mode one: 16", made->answer == 16 && run && !made->count);
    if (made->kind == SAMPLE || made->kind == RUN) return;
    SEEN("W2: one sample, the start of A alone above its length: 9", only_a && made->kind == SAMPLE_TWO);
    SEEN("W2: one sample, the start of B alone above its length: 9", only_b && made->kind == SAMPLE_TWO);
    SEEN("W2: a run, the start of A alone above its length: 9", only_a && run);
    SEEN("W2: a run, the start of B alone above its length: 9", only_b && run);
    SEEN("W2: handing back, the start of A alone above its length: 9", only_a && made->kind == LATEST_FRAME);
    SEEN("W2: handing back, the start of B alone above its length: 9", only_b && made->kind == LATEST_FRAME);
    SEEN("W2: a run of no sample, a start above its length: 9", made->answer == 9 && run && !made->count);
    SEEN("W2: the start of A above the length of B, not its own: accepted", accepted && a->start > b->length);
    SEEN("W2: the start of B above the length of A, not its own: accepted", accepted && b->start > a->length);
    SEEN("W2: both starts at their lengths: accepted", accepted && a->start && b->start && a->start == a->length && b->start == b->length);
}

/* W2: a mode change while enabled, and devices that are made. */
void reached_other_mode(const call *made, uint32_t reasons)
{
    const bool two = made->before[DCMI_W_MODE] == 1, well = two && made->answer == 0 && made->after[DCMI_W_MODE] == 0;
    const bool only = made->answer == 16 && reasons == 2;
    SEEN("W2: two set while enabled, in mode two: 6", made->kind == TWO_BUFFERS && made->answer == 6 && two);
    SEEN("W2: two set while enabled, in mode one: 6", made->kind == TWO_BUFFERS && made->answer == 6 && !two);
    SEEN("W2: one set while enabled, in mode two: 6", made->kind == ONE_BUFFER && made->answer == 6 && two);
    SEEN("W2: one set while enabled, in mode one: 6", made->kind == ONE_BUFFER && made->answer == 6 && !two);
    SEEN("W2: dcmi_reset over a device in mode two: mode one", made->kind == RESET && well);
    SEEN("W2: dcmi_reset_depth over a device in mode two: mode one", made->kind == RESET_DEPTH && well);
    SEEN("W2: a file over a device in mode two: mode one", (made->kind == RUN_FILE || made->kind == RUN_FILE_DEPTH) && well);
    SEEN("W2: dcmi_write accepted in mode two", two && made->answer == 0 && made->kind == WRITE);
    SEEN("W2: dcmi_read accepted in mode two", two && made->answer == 0 && made->kind == READ);
    SEEN("W2: dcmi_interrupt accepted in mode two", two && made->answer == 0 && made->kind == INTERRUPT);
    SEEN("W2: dcmi_rearm accepted in mode two", two && made->answer == 0 && made->kind == REARM);
    SEEN("W2: one sample over one memory in mode two: 16, and nothing else", only && made->kind == SAMPLE);
    SEEN("W2: a run over one memory in mode two: 16, and nothing else", only && made->kind == RUN);
    SEEN("W2: one sample over two in mode one: 16, and nothing else", only && made->kind == SAMPLE_TWO);
    SEEN("W2: a run over two memories in mode one: 16, and nothing else", only && made->kind == RUN_TWO);
    SEEN("W2: handing back in mode one: 16, and nothing else", only && made->kind == LATEST_FRAME);
}
