/* Rules 1 to 9 of a sample, with W1 and W4; codes are in reached_codes.c. */
#include "cases.h"

/* Rules 8 and 9, of a captured pixel. */
static void reached_word(const camera *before, uint32_t sample, const camera *after, bool line_begins)
{
    const bool full = after->completed != before->completed, landed = after->landed != before->landed, lost = after->discarded != before->discarded;
    const uint32_t cleared = before->cr & ~after->cr;
    SEEN("rule 8: 8 bits, not yet full", !full && edm(before->cr) == 0);
    SEEN("rule 8: 10 bits, not yet full", !full && edm(before->cr) == 1);
    SEEN("rule 8: 12 bits, not yet full", !full && edm(before->cr) == 2);
    SEEN("rule 8: 14 bits, not yet full", !full && edm(before->cr) == 3);
    SEEN("rule 8: 8 bits, full word", full && edm(before->cr) == 0);
    SEEN("rule 8: 10 bits, full word", full && edm(before->cr) == 1);
    SEEN("rule 8: 12 bits, full word", full && edm(before->cr) == 2);
    SEEN("rule 8: 14 bits, full word", full && edm(before->cr) == 3);
    SEEN("rule 8: a line's first pixel goes on with a partial word", line_begins && before->data);
    if (!full) return;
    SEEN_AT("rule 9: held, as the first and so on to the 32nd", after->held, !lost);
    SEEN_AT("rule 9: held as the last that the depth allows", before->depth, !lost && !landed && after->held == before->depth);
    SEEN_AT("rule 9: held because the same sample's grant made room", before->depth, !lost && landed && before->held == before->depth);
    SEEN_AT("rule 9: overrun, CM 0", before->depth, lost && !(before->cr & CM));
    SEEN_AT("rule 9: overrun, CM 1, CAPTURE cleared", before->depth, lost && (cleared & CAPTURE));
    SEEN("rule 9: overrun, granted, but memory had no room", lost && sample >> 17 & 1);
    SEEN("W1: overrun in the window, FRAME stays 0", lost && (before->cr & CROP) && !(after->ris & F_FRAME));
}

/* Rules 6 and 7, of a pixel: at a working edge in a frame that was open or starts, with no sync blanking. */
static void reached_pixel(const camera *before, uint32_t sample, const camera *after)
{
    const bool blanked = before->blanked & HSYNC, begins = blanked || before->lines == 0;
    SEEN("rule 6: a line begins after HSYNC blanked", blanked);
    SEEN("rule 6: the first line begins, HSYNC did not blank", begins && !blanked);
    SEEN("rule 6: the line goes on", !begins);
    SEEN("rule 6: the frame's first edge carries a pixel", before->frame == FRAME_CLOSED);
    SEEN("rule 6: a pixel of an untaken frame", after->frame == FRAME_UNTAKEN);
    if (after->frame == FRAME_UNTAKEN) return;

    const bool captured = after->data != before->data || after->completed != before->completed, crop = before->cr & CROP;
    const uint32_t line = before->lines - !begins, first_line = before->cwstrt >> 16, last_line = first_line + (before->cwsize >> 16);
    const uint32_t column = begins ? 0 : before->pixels, first_column = before->cwstrt & 0x3FFF, last_column = first_column + (before->cwsize & 0x3FFF);
    SEEN("rule 7: CROP 0", captured && !crop);
    SEEN("rule 7: inside the window", captured && crop);
    SEEN("rule 7: the window's first pixel", captured && crop && line == first_line && column == first_column);
    SEEN("rule 7: the window's last pixel", captured && crop && line == last_line && column == last_column);
    SEEN("rule 7: line before the window", !captured && line < first_line);
    SEEN("rule 7: line after the window", !captured && line > last_line);
    SEEN("rule 7: column before the window", !captured && first_line <= line && line <= last_line && column < first_column);
    SEEN("rule 7: column after the window", !captured && first_line <= line && line <= last_line && column > last_column);
    if (captured) reached_word(before, sample, after, begins);
}

/* Rule 4 with W1, of a frame that was open: FRAME and line VST + VLINE, the window's last. */
static void reached_window(const camera *before, const camera *after)
{
    const uint32_t blanks = after->blanked, capture = before->cr & CAPTURE, cleared = before->cr & ~after->cr;
    const uint32_t first_line = before->cwstrt >> 16, last_line = first_line + (before->cwsize >> 16), first_column = before->cwstrt & 0x3FFF;
    const bool crop = before->cr & CROP, cm = before->cr & CM, taken = before->frame == FRAME_TAKEN, hsync = blanks == HSYNC;
    const bool raised = after->ris & ~before->ris & F_FRAME, stays_0 = !((before->ris | after->ris) & F_FRAME);

    /* How far the frame had come: no line after the window's last had begun, and it ran or had ended; or one had. */
    const bool blanked = before->blanked & HSYNC, at_last = before->lines == last_line + 1, later = before->lines > last_line + 1;
    const bool runs = at_last && !blanked, just_ended = at_last && blanked;

    const bool early = taken && crop && runs && hsync && raised;
    SEEN("W1: FRAME at the end of the window's last line, CM 0", early && !cm);
    SEEN("W1: FRAME there, CM 1, CAPTURE stays 1", early && cm && capture && !cleared);
    SEEN("W1: FRAME there, CAPTURE 0", early && !capture);
    SEEN("W1: FRAME there, nothing was captured", early && first_line == last_line && before->pixels <= first_column && !before->data);
    SEEN("W1: FRAME there, a partial word stays", early && before->data && after->data == before->data && after->partial == before->partial);
    SEEN("W1: FRAME there, held words stay", early && before->held && after->held == before->held);
    SEEN("W1: FRAME there, VST + VLINE above 16,383", early && last_line > 0x3FFF);
    SEEN("W1: FRAME there, VSYNC was remembered as blanking", early && (before->blanked & VSYNC));
    SEEN("W1: end of the window's last line, untaken frame, FRAME stays 0", before->frame == FRAME_UNTAKEN && crop && runs && hsync && stays_0);
    SEEN("W1: HSYNC blanks after line VST + VLINE, CROP 0, FRAME stays 0", taken && !crop && runs && hsync && stays_0);
    if (!taken || !crop) return;

    SEEN("W1: an earlier line ends, FRAME stays 0", before->lines && !at_last && !later && !blanked && hsync && stays_0);
    SEEN("W1: a later line ends, FRAME is 0 and not raised again", later && !blanked && hsync && stays_0);
    SEEN("W1: HSYNC blanks on after that line, FRAME is 0, not raised again", just_ended && hsync && stays_0);
    SEEN("W1: the line after the window begins, FRAME is 0, not raised again", just_ended && !blanks && stays_0);
    if (!(blanks & VSYNC)) return;

    SEEN("W1: frame end, the last line never began, FRAME raised", !at_last && !later && raised);
    SEEN("W1: frame end, VSYNC alone blanks in the last line, FRAME raised", runs && blanks == VSYNC && raised);
    SEEN("W1: frame end, both syncs blank in the last line, FRAME raised", runs && blanks != VSYNC && raised);
    SEEN("W1: frame end, FRAME raised, CM 1, CAPTURE cleared", raised && (cleared & CAPTURE));
    SEEN("W1: frame end after the last line, FRAME is 0, not raised again", just_ended && stays_0);
    SEEN("W1: frame end after a later line, FRAME is 0, not raised again", later && stays_0);
    SEEN("W1: frame end, the last line had ended, CM 1, CAPTURE cleared", (just_ended || later) && (cleared & CAPTURE));
}

/* W4, of the end of a frame that was open, with JPEG 1. */
static void reached_compressed_end(const camera *before, uint32_t sample, const camera *after)
{
    const uint32_t raised = after->ris & ~before->ris, cleared = before->cr & ~after->cr, depth = before->depth, left = before->data;
    const bool taken = before->frame == FRAME_TAKEN, cm = before->cr & CM, image = before->blanked & VSYNC, granted = sample >> 17 & 1;
    const bool word = after->completed != before->completed, lost = after->discarded != before->discarded, landed = after->landed != before->landed;
    const bool held = word && !lost && (after->ris & F_FRAME), no_word = taken && !word && !left;
    const bool stays_0 = !((before->ris | after->ris) & F_FRAME), closed = after->frame == FRAME_CLOSED && !after->data;
    if (!closed) return;

    SEEN("W4: end of an untaken frame with bytes, no word, FRAME stays 0", !taken && before->lines && !word && stays_0);
    SEEN("W4: frame end, no byte left over, no word, FRAME raised", no_word && before->lines && (raised & F_FRAME));
    SEEN("W4: frame end, no byte left over, CM 1, CAPTURE cleared", no_word && before->lines && (cleared & CAPTURE));
    SEEN("W4: end of a taken frame without a byte, no word, FRAME raised", no_word && !before->lines && (raised & F_FRAME));
    SEEN_AT("W4: frame end with the FIFO full, no byte left over, FRAME raised", depth, no_word && before->held == depth && !landed && (raised & F_FRAME));
    if (!word) return;

    SEEN("W4: frame end, 1 byte left over, padded and held, FRAME raised", held && (raised & F_FRAME) && left == 1);
    SEEN("W4: frame end, 2 bytes left over, padded and held, FRAME raised", held && (raised & F_FRAME) && left == 2);
    SEEN("W4: frame end, 3 bytes left over, padded and held, FRAME raised", held && (raised & F_FRAME) && left == 3);
    SEEN("W4: the bytes left over are zeros, a word all the same", held && !before->partial);
    SEEN("W4: padded and held, CM 1, CAPTURE cleared", held && cm && (cleared & CAPTURE));
    SEEN("W4: padded and held, CAPTURE was cleared inside the frame", held && !(before->cr & CAPTURE));
    SEEN("W4: padded where VSYNC alone blanks", held && after->blanked == VSYNC);
    SEEN("W4: padded where both syncs blank at once", held && after->blanked == (HSYNC | VSYNC) && !(before->blanked & HSYNC));
    SEEN("W4: padded after the last packet has ended", held && (before->blanked & HSYNC));
    SEEN("W4: padded, VSYNC was remembered as blanking", held && image && !(raised & F_VSYNC));
    SEEN_AT("W4: padded and held, as the first and so on to the 32nd", after->held, held);
    SEEN_AT("W4: padded and held as the last that the depth allows", depth, held && !landed && after->held == depth);
    SEEN_AT("W4: padded and held because the same sample's grant made room", depth, held && landed && before->held == depth);

    SEEN("W4: frame end, 1 byte left over, padded and lost", lost && left == 1);
    SEEN("W4: frame end, 2 bytes left over, padded and lost", lost && left == 2);
    SEEN("W4: frame end, 3 bytes left over, padded and lost", lost && left == 3);
    SEEN("W4: padded and lost, FRAME stays 0", lost && stays_0);
    SEEN("W4: padded and lost, FRAME was 1 and stays 1", lost && before->ris & after->ris & F_FRAME);
    SEEN("W4: padded and lost, VSYNC and OVR raised at once", lost && (raised & F_VSYNC) && (raised & F_OVR));
    SEEN("W4: padded and lost, CAPTURE was cleared inside the frame", lost && !(before->cr & CAPTURE));
    SEEN("W4: padded and lost, granted, but memory had no room", lost && granted);
    SEEN("W4: padded and lost, VSYNC was remembered as blanking", lost && image);
    SEEN_AT("W4: padded and lost, CM 0, CAPTURE stays", depth, lost && !cm && before->cr == after->cr && (after->cr & CAPTURE));
    SEEN_AT("W4: padded and lost, CM 1, CAPTURE cleared", depth, lost && cm && (cleared & CAPTURE));
}

/* W4, of a working edge in a taken frame that goes on, with JPEG 1. */
static void reached_compressed(const camera *before, uint32_t sample, const camera *after)
{
    const uint32_t raised = after->ris & ~before->ris;
    const bool blanks = after->blanked & HSYNC, blanked = before->blanked & HSYNC, stays = after->data == before->data && after->partial == before->partial;
    const bool lost = after->discarded != before->discarded;
    SEEN("W4: HSYNC blanks inside a word, LINE raised, the bytes stay", before->data && blanks && !blanked && stays && (raised & F_LINE));
    SEEN("W4: HSYNC blanks on inside a word, the bytes stay", before->data && blanks && blanked && stays);
    SEEN("W4: HSYNC ends in a new line, the word goes on",
         before->data && !blanks && blanked && after->data == (before->data + 1) % 4 && after->lines > before->lines);
    SEEN("W4: a byte of which the upper data bits are not 0",
         !blanks && sample >> 8 & 0x3F && after->data > before->data && after->partial >> (8 * before->data) == (sample & 0xFF));
    SEEN("W4: a full word overruns inside the frame", !blanks && lost && after->frame == FRAME_CLOSED);
}

/* Rules 3 to 5, and on to a pixel: a working edge with ENABLE 1. */
static void reached_edge(const camera *before, uint32_t sample, const camera *after)
{
    const uint32_t blanks = after->blanked, begins = blanks & ~before->blanked, ends = before->blanked & ~blanks, raised = after->ris & ~before->ris;
    const bool closed = before->frame == FRAME_CLOSED, cm = before->cr & CM, crop = before->cr & CROP;
    SEEN("rule 3: VSYNC alone raised", begins == VSYNC && (raised & F_VSYNC));
    SEEN("rule 3: LINE alone raised", begins == HSYNC && (raised & F_LINE));
    SEEN("rule 3: VSYNC and LINE raised at once", (raised & F_VSYNC) && (raised & F_LINE));
    SEEN("rule 3: a flag raised while CAPTURE is 0", (raised & (F_VSYNC | F_LINE)) && !(before->cr & CAPTURE));
    SEEN("rule 3: both syncs blank as before", blanks == (HSYNC | VSYNC) && !begins);

    if (!closed) reached_window(before, after);
    if (!closed && (before->cr & JPEG) && (blanks & VSYNC)) reached_compressed_end(before, sample, after);
    if (before->frame == FRAME_TAKEN && (before->cr & JPEG) && !(blanks & VSYNC)) reached_compressed(before, sample, after);
    if (blanks & VSYNC) {
        SEEN("rule 4: VSYNC blanks, no frame open", closed);
        SEEN("rule 4: end of a taken frame, CROP 0, CM 0, FRAME raised", before->frame == FRAME_TAKEN && !crop && !cm && (raised & F_FRAME));
        SEEN("rule 4: end of a taken frame, CROP 0, FRAME raised, CAPTURE cleared",
             before->frame == FRAME_TAKEN && !crop && (raised & F_FRAME) && (before->cr & ~after->cr & CAPTURE));
        SEEN("rule 4: end of an untaken frame, FRAME stays 0", before->frame == FRAME_UNTAKEN && !(after->ris & F_FRAME));
        SEEN("rule 4: a partial word dropped, 8 bits, JPEG 0",
             before->data && !edm(before->cr) && !(before->cr & JPEG) && after->completed == before->completed);
        SEEN("rule 4: a partial word dropped, 10 to 14 bits", before->data && edm(before->cr) && after->completed == before->completed);
        return;
    }

    const bool started = closed && after->frame != FRAME_CLOSED;
    SEEN("rule 5: start of a taken frame, CM 0", started && !cm && after->frame == FRAME_TAKEN);
    SEEN("rule 5: start of an untaken frame", started && after->frame == FRAME_UNTAKEN);
    SEEN("rule 5: start of a taken frame, CM 1", started && cm);
    SEEN("rule 5: CM 1, rate counter above 0", started && cm && before->rate);
    SEEN("rule 5: rate counter modulo 1", started && !cm && fcrc(before->cr) == 0);
    SEEN("rule 5: rate counter wraps at 2", started && fcrc(before->cr) == 1 && before->rate == 1 && after->rate == 0);
    SEEN("rule 5: rate counter wraps at 4", started && fcrc(before->cr) == 2 && before->rate == 3 && after->rate == 0);
    SEEN("rule 5: rate counter goes up", started && after->rate > before->rate);
    SEEN("rule 5: VSYNC ends, CAPTURE 0", closed && (ends & VSYNC) && !(before->cr & CAPTURE));
    SEEN("rule 5: not blanking, but no frame has started", closed && !(ends & VSYNC));

    if (closed && !started) return;
    SEEN("rule 6: HSYNC blanks in an open frame", blanks & HSYNC);
    if (!blanks) reached_pixel(before, sample, after);
}

/* An accepted sample. */
void reached_sample(const camera *before, uint32_t sample, const camera *after)
{
    const bool enabled = before->cr & ENABLE, granted = sample >> 17 & 1, landed = after->landed != before->landed;
    SEEN("rule 1: a held word lands", landed);
    SEEN_AT("rule 1: a held word lands, for each number held", before->held, landed);
    SEEN("rule 1: a held word lands while CAPTURE is 0", landed && !(before->cr & CAPTURE));
    SEEN("rule 1: granted, no room", granted && enabled && before->held && !landed);
    SEEN("rule 1: granted, no word held", granted && enabled && !before->held);
    SEEN("rule 1: granted, ENABLE 0", granted && !enabled);
    SEEN("rule 1: a word held, no grant", !granted && before->held);

    const bool was_high = before->pins & CLOCK, high = sample >> 16 & 1, edge = high != was_high, right = high == (bool)(before->cr & PCKPOL);
    SEEN("rule 2: no edge", !edge);
    SEEN("rule 2: the other edge", edge && !right);
    SEEN("rule 2: the right edge, ENABLE 0", edge && right && !enabled);
    SEEN("rule 2: working edge, rising clock", edge && right && enabled && high);
    SEEN("rule 2: working edge, falling clock", edge && right && enabled && !high);
    const bool works = edge && right && enabled;
    SEEN("W6: bytes wait on through a sample without a working edge",
         !works && before->waiting && (before->cr & ESS) && enabled && after->waiting == before->waiting);
    SEEN("W6: ESS 0: a number of waiting bytes stays at a working edge",
         works && before->waiting && !(before->cr & ESS) && after->waiting == before->waiting);
    if (works && (before->cr & ESS)) reached_byte(before, sample, after);
    else if (works) reached_edge(before, sample, after);
}
