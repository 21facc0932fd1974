/* Samples with codes in the data, W6. */
#include "cases.h"

typedef enum { NONE, ENDS, STARTS, LINE_ENDS, LINE_STARTS } meaning;

/* Which delimiters a byte agrees with on their unmask bits: of ESCR the bytes FSC, LSC, LEC, FEC are bits 0 to 3. */
static uint32_t agrees(const camera *c, uint32_t xy)
{
    uint32_t which = 0;
    for (unsigned i = 0; i < 4; i++) {
        const uint32_t differs = (xy ^ c->escr >> 8 * i) & 0xFF, unmask = c->esur >> 8 * i & 0xFF;
        which |= (uint32_t)((differs & unmask) == 0) << i;
    }
    return which;
}

enum { FSC = 1 << 0, LSC = 1 << 1, LEC = 1 << 2, FEC = 1 << 3 };

/* FSC and FEC of 0xFF match by no bits. */
static uint32_t matched(const camera *c, uint32_t xy)
{
    const uint32_t never = ((c->escr & 0xFF) == 0xFF ? FSC : 0) | (c->escr >> 24 == 0xFF ? FEC : 0);
    return agrees(c, xy) & ~never;
}

static meaning meant(const camera *c, uint32_t xy)
{
    const uint32_t which = matched(c, xy);
    if (which & FEC) return ENDS;
    if (which & FSC) return STARTS;
    if (which & LEC) return LINE_ENDS;
    if (which & LSC) return LINE_STARTS;
    return c->escr >> 24 == 0xFF ? ENDS : NONE;
}

static bool same_but_pins(const camera *before, const camera *after)
{
    return before->frame == after->frame && before->blanked == after->blanked && before->ris == after->ris && before->cr == after->cr
        && before->lines == after->lines && before->data == after->data && before->partial == after->partial && before->rate == after->rate
        && before->discarded == after->discarded && before->completed == after->completed;
}

/* Which delimiter a code was taken for, told from what it did: those that the byte matched, and their masked bits. */
static void reached_matching(const camera *before, uint32_t xy, meaning m)
{
    const uint32_t which = matched(before, xy), all = agrees(before, xy), fe = before->escr >> 24, le = before->escr >> 16 & 0xFF;
    const uint32_t ls = before->escr >> 8 & 0xFF, fs = before->escr & 0xFF;
    const bool fe_ff = fe == 0xFF, fs_ff = fs == 0xFF;
    SEEN("W6: a frame end that differs from FEC in masked bits", m == ENDS && !fe_ff && xy != fe);
    SEEN("W6: a frame start that differs from FSC in masked bits", m == STARTS && xy != fs);
    SEEN("W6: a line end that differs from LEC in masked bits", m == LINE_ENDS && xy != le);
    SEEN("W6: a line start that differs from LSC in masked bits", m == LINE_STARTS && xy != ls);
    for (unsigned i = 0; i < 4; i++) SEEN("W6: a delimiter with unmask 0 is matched", (which >> i & 1) && !(before->esur >> 8 * i & 0xFF));
    SEEN("W6: frame end and frame start match: a frame end", (which & FEC) && (which & FSC));
    SEEN("W6: frame end and line end match: a frame end", (which & FEC) && (which & LEC));
    SEEN("W6: frame end and line start match: a frame end", (which & FEC) && (which & LSC));
    SEEN("W6: frame start and line end match: a frame start", m == STARTS && (which & LEC));
    SEEN("W6: frame start and line start match: a frame start", m == STARTS && (which & LSC));
    SEEN("W6: line end and line start match: a line end", m == LINE_ENDS && (which & LSC));
    SEEN("W6: FEC 0xFF: a code that matches no other ends a frame", m == ENDS && fe_ff);
    SEEN("W6: FEC 0xFF: so does one that differs from it in unmask bits", m == ENDS && fe_ff && !(all & FEC));
    SEEN("W6: FEC 0xFF: one that agrees with it and another is the other", m != ENDS && fe_ff && (all & FEC));
    SEEN("W6: FSC 0xFF: XY FF is no frame start", fs_ff && xy == 0xFF && m != STARTS);
    SEEN("W6: FSC 0xFF: with unmask 0 neither", fs_ff && !(before->esur & 0xFF) && m != STARTS);
    SEEN("W6: LEC 0xFF: XY FF is a line end", m == LINE_ENDS && le == 0xFF && xy == 0xFF);
    SEEN("W6: LSC 0xFF: XY FF is a line start", m == LINE_STARTS && ls == 0xFF && xy == 0xFF);
}

/* A code that opens a frame. */
static void reached_code_start(const camera *before, const camera *after, bool by_line)
{
    const bool capture = before->cr & CAPTURE, cm = before->cr & CM, line_0 = after->lines == 1 && !after->pixels && !after->blanked;
    const bool stays = after->rate == before->rate, ordered = before->blanked & VSYNC;
    if (after->frame == FRAME_CLOSED || !line_0) return;
    SEEN("W6: FSC 0xFF: a line start after a frame end starts the frame", by_line);
    SEEN("W6: a frame start opens a taken frame and its line 0, CM 0", after->frame == FRAME_TAKEN && !cm && !by_line);
    SEEN("W6: a frame start, CM 1", after->frame == FRAME_TAKEN && cm && stays);
    SEEN("W6: a frame start, untaken by FCRC", after->frame == FRAME_UNTAKEN && capture);
    SEEN("W6: a frame start, the rate counter goes up", after->rate > before->rate);
    SEEN("W6: a frame start, the rate counter wraps", after->rate < before->rate);
    SEEN("W6: a frame start with CAPTURE 0: open, not taken, no counting", after->frame == FRAME_UNTAKEN && !capture && !cm && stays && fcrc(before->cr));
    SEEN("W6: so with CM 1", after->frame == FRAME_UNTAKEN && !capture && cm && stays);
    SEEN("W6: a frame start where only one counts", !by_line && !ordered);
}

/* A line end in a line, or a frame end in a frame, which closed it. Lines of the window: told from how many had begun. */
static void reached_code_end(const camera *before, const camera *after, bool line, meaning m)
{
    const uint32_t raised = after->ris & ~before->ris, syncs = F_VSYNC | F_LINE, last = (before->cwstrt >> 16) + (before->cwsize >> 16) + 1;
    const bool capture = before->cr & CAPTURE, taken = before->frame == FRAME_TAKEN, crop = before->cr & CROP, cm = before->cr & CM;
    const bool stays_0 = !((before->ris | after->ris) & F_FRAME), none = !((before->ris | after->ris) & syncs), cleared = before->cr & ~after->cr & CAPTURE;
    const bool runs = line && before->lines == last, behind = before->lines > last || (before->lines == last && !line);
    const bool same = after->data == before->data && after->partial == before->partial && after->held == before->held;
    if (m == LINE_ENDS) {
        const bool ended = line && after->frame == before->frame && after->blanked == HSYNC, early = taken && crop && runs && (raised & F_FRAME);
        SEEN("W6: a line end closes a line, LINE raised, VSYNC not", ended && capture && (raised & syncs) == F_LINE);
        SEEN("W6: a line end with CAPTURE 0, LINE stays 0", ended && !capture && none);
        SEEN("W6: a line end in an untaken frame with CAPTURE 1, LINE raised", ended && capture && !taken && (raised & F_LINE));
        SEEN("W6: a line of no bytes ends and counts", ended && before->pixels == 3 && !after->pixels && after->lines == before->lines);
        SEEN("W6: W1: FRAME at the line end code of the window's last line", early && !cm);
        SEEN("W6: W1: FRAME there, CM 1, CAPTURE stays 1", early && cm && capture && !cleared);
        SEEN("W6: W1: FRAME there, CAPTURE 0, LINE stays 0", early && !capture && !(raised & F_LINE));
        SEEN("W6: W1: FRAME there, nothing was captured",
             early && !before->data && before->cwsize >> 16 == 0 && before->pixels <= (before->cwstrt & 0x3FFF));
        SEEN("W6: W1: FRAME there, partial word and held words stay", early && before->data && before->held && same);
        SEEN("W6: W1: an earlier line ends, FRAME stays 0", ended && taken && crop && before->lines < last && stays_0);
        SEEN("W6: W1: a later line ends, FRAME is 0 and not raised again", ended && taken && crop && before->lines > last && stays_0);
        SEEN("W6: W1: the last line of an untaken frame ends, FRAME stays 0", ended && !taken && crop && runs && stays_0);
        return;
    }
    if (after->frame != FRAME_CLOSED || after->blanked != (HSYNC | VSYNC) || after->data) return;
    SEEN("W6: a frame end in a line, VSYNC and LINE raised", capture && line && (raised & syncs) == syncs);
    SEEN("W6: a frame end between lines, VSYNC raised, LINE not", capture && !line && (raised & F_VSYNC) && !(raised & F_LINE));
    SEEN("W6: a frame end with CAPTURE 0, neither raised", !capture && none);
    SEEN("W6: the end of an untaken frame, CAPTURE 1, VSYNC raised, FRAME not", !taken && capture && (raised & F_VSYNC) && stays_0);
    SEEN("W6: the end of a taken frame, CROP 0, CM 0, FRAME raised", taken && !crop && !cm && (raised & F_FRAME));
    SEEN("W6: CM 1: VSYNC and FRAME raised and CAPTURE cleared at once", (raised & F_VSYNC) && (raised & F_FRAME) && cleared);
    SEEN("W6: FRAME raised with CAPTURE 0", taken && !capture && (raised & F_FRAME));
    SEEN("W6: a frame end drops a partial word", before->data && after->completed == before->completed);
    SEEN("W6: a frame end leaves held words", before->held && after->discarded == before->discarded);
    if (!taken || !crop) return;
    SEEN("W6: W1: a frame end closes the window's last line, FRAME raised", runs && (raised & F_FRAME));
    SEEN("W6: W1: a frame end before that line, FRAME raised", before->lines < last && (raised & F_FRAME));
    SEEN("W6: W1: a frame end after that line, FRAME is 0, not raised again", behind && stays_0);
    SEEN("W6: W1: there CAPTURE of a snapshot is cleared", behind && cleared);
}

/* A code that is out of order: where, and what is gone. */
static void reached_code_error(const camera *before, const camera *after, bool line, meaning m)
{
    const bool open = before->frame != FRAME_CLOSED, capture = before->cr & CAPTURE, by_line = (before->escr & 0xFF) == 0xFF;
    const bool closed = (after->ris & F_ERR) && after->frame == FRAME_CLOSED && !after->blanked && !after->data && !after->partial && !after->held;
    const uint32_t raised = after->ris & ~before->ris;
    if (!closed) return;
    SEEN("W6: a line start in an open line: ERR", m == LINE_STARTS && line);
    SEEN("W6: a line start outside a frame: ERR", m == LINE_STARTS && !open && !by_line);
    SEEN("W6: a line end between lines: ERR", m == LINE_ENDS && open && !line);
    SEEN("W6: a line end outside a frame: ERR", m == LINE_ENDS && !open);
    SEEN("W6: FSC 0xFF: after a frame end a line end outside a frame is ERR", m == LINE_ENDS && !open && by_line);
    SEEN("W6: a frame start in a line: ERR, no frame starts", m == STARTS && line);
    SEEN("W6: a frame start between lines: ERR, no frame starts", m == STARTS && open && !line);
    SEEN("W6: ERR discards held words, in a frame", open && after->discarded - before->discarded == before->held && before->held);
    SEEN("W6: ERR discards held words, between frames", !open && after->discarded - before->discarded == before->held && before->held);
    SEEN_AT("W6: ERR discards the held words, for each number held", before->held, after->discarded - before->discarded == before->held);
    SEEN("W6: ERR drops a partial word", before->data);
    SEEN("W6: ERR closes a taken frame, FRAME stays 0", before->frame == FRAME_TAKEN && !((before->ris | after->ris) & F_FRAME));
    SEEN("W6: ERR in an untaken frame", before->frame == FRAME_UNTAKEN);
    SEEN("W6: ERR with CAPTURE 0", !capture && after->cr == before->cr);
    SEEN("W6: ERR with CM 1 in a frame, CAPTURE stays 1", open && capture && (before->cr & CM) && after->cr == before->cr);
    SEEN("W6: ERR in a line, neither VSYNC nor LINE raised", line && capture && raised == F_ERR);
    SEEN("W6: ERR leaves a rate counter above 0", before->rate && after->rate == before->rate);
    SEEN("W6: ERR where ERR is 1 already", before->ris & F_ERR);
    SEEN("W6: ERR in a sample whose grant landed a word", after->landed != before->landed);
    SEEN("W6: ERR counts no word as completed", before->data == 3 && after->completed == before->completed);
}

/* A code where only a frame start counts, or, with FSC 0xFF, a frame end: after enabling, ERR or overrun. */
static void reached_code_lost(const camera *before, const camera *after, meaning m)
{
    const bool by_line = (before->escr & 0xFF) == 0xFF, same = same_but_pins(before, after);
    SEEN("W6: while only a frame start counts, one that matches none", m == NONE && same);
    SEEN("W6: FSC 0xFF: there a line start does nothing", m == LINE_STARTS && same && by_line);
    SEEN("W6: while only a frame start counts, a line start does nothing", m == LINE_STARTS && same && !by_line);
    SEEN("W6: FSC 0xFF: there a line end does nothing", m == LINE_ENDS && same && by_line);
    SEEN("W6: while only a frame start counts, a line end does nothing", m == LINE_ENDS && same && !by_line);
    SEEN("W6: while only a frame start counts, a frame end does nothing", m == ENDS && !by_line && same);
    SEEN("W6: FSC 0xFF: there a frame end counts, and raises nothing",
         m == ENDS && by_line && after->blanked == (HSYNC | VSYNC) && after->ris == before->ris && after->frame == FRAME_CLOSED);
    SEEN("W6: there held words stay", (m == LINE_STARTS || m == LINE_ENDS) && same && before->held);
    SEEN("W6: there, with ERR 1, a code does nothing", (m == LINE_STARTS || m == LINE_ENDS) && same && (before->ris & F_ERR));
    SEEN("W6: there, with OVR 1, a code does nothing", (m == LINE_STARTS || m == LINE_ENDS) && same && (before->ris & F_OVR));
}

/* The last byte of a code. */
static void reached_code(const camera *before, uint32_t xy, const camera *after)
{
    const bool open = before->frame != FRAME_CLOSED, line = open && !(before->blanked & HSYNC), by_line = (before->escr & 0xFF) == 0xFF;
    const bool captured = after->completed != before->completed || after->data > before->data;
    const meaning m = meant(before, xy);
    SEEN("W6: a code in a line of a taken frame, none of its bytes captured", line && before->frame == FRAME_TAKEN && !captured && !after->waiting);
    SEEN("W6: a code outside a line", !line && !after->waiting);
    SEEN("W6: FF 00 00 FF is a code, and its last byte does not wait", xy == 0xFF && !after->waiting);
    SEEN("W6: a code that matches no delimiter in a line, nothing happens", m == NONE && line && same_but_pins(before, after));
    SEEN("W6: a code in a line takes its three bytes out of the pixels", line && before->pixels > 3 && after->pixels == before->pixels - 3);
    SEEN("W6: a code in a line with fewer than three pixels, 0 are left", line && before->pixels < 3 && after->frame != FRAME_CLOSED && !after->pixels);
    reached_matching(before, xy, m);
    if (!open && !(before->blanked & VSYNC)) {
        reached_code_lost(before, after, m);
        if (m == STARTS) reached_code_start(before, after, false);
        return;
    }
    SEEN("W6: a frame end outside a frame does nothing", m == ENDS && !open && same_but_pins(before, after));
    const bool starts = !open && (m == STARTS || (m == LINE_STARTS && by_line)), next = m == LINE_STARTS && open && !line;
    if (starts) reached_code_start(before, after, m == LINE_STARTS);
    else if (next) {
        SEEN("W6: a line start opens the next line", after->lines == before->lines + 1 && !after->pixels && !after->blanked);
        SEEN("W6: FSC 0xFF: the second line start of a frame opens its next line", by_line && after->lines == 2 && after->frame == before->frame);
        SEEN("W6: a line start, a partial word stays", before->data && after->data == before->data && after->partial == before->partial);
    } else if ((m == ENDS && open) || (m == LINE_ENDS && line)) reached_code_end(before, after, line, m);
    else if (m != NONE && m != ENDS) reached_code_error(before, after, line, m);
}

/* Bytes that are released in a line of a taken frame, so many; with CROP 1 their columns. */
static void reached_released(const camera *before, uint32_t byte, const camera *after, uint32_t released)
{
    const bool waits = byte == 0xFF, full = after->completed != before->completed, lost = after->discarded != before->discarded && full;
    const bool crop = before->cr & CROP, three = released == 3;
    const uint32_t filled_by = 4 - before->data, kept = full ? before->data + released - 4 : after->data - before->data;
    const uint32_t first_column = before->cwstrt & 0x3FFF, last_column = first_column + (before->cwsize & 0x3FFF), first_line = before->cwstrt >> 16;
    const uint32_t line = before->lines ? before->lines - 1 : 0, column = before->pixels < before->waiting ? 0 : before->pixels - before->waiting;
    const bool all = full ? lost || after->data == (before->data + released) % 4 : after->data == before->data + released;
    const bool in_lines = first_line <= line && line <= first_line + (before->cwsize >> 16);
    const bool fills = three && !crop && full && !lost;
    const bool overruns = three && !crop && lost && !after->data && !after->partial && after->frame == FRAME_CLOSED;
    SEEN("W6: 00 with none waiting is captured", all && before->waiting == 0 && byte == 0);
    SEEN("W6: a byte is captured at once", all && before->waiting == 0);
    SEEN("W6: FF x gives FF, x", all && before->waiting == 1 && !waits);
    SEEN("W6: FF 00 x gives FF, 00, x", all && before->waiting == 2 && !waits);
    SEEN("W6: FF FF releases the first, the second waits", all && before->waiting == 1 && waits && after->waiting == 1);
    SEEN("W6: FF 00 FF releases two, the last waits", all && before->waiting == 2 && waits && after->waiting == 1);
    SEEN("W6: the first of three released fills a word", fills && filled_by == 1 && after->data == 2);
    SEEN("W6: the second of three released fills a word", fills && filled_by == 2 && after->data == 1);
    SEEN("W6: the third of three released fills a word", fills && filled_by == 3 && after->data == 0);
    SEEN("W6: the first of three released overruns, the others find no frame", overruns && filled_by == 1);
    SEEN("W6: the second of three released overruns", overruns && filled_by == 2);
    SEEN("W6: the third of three released overruns", overruns && filled_by == 3);
    SEEN("W6: released bytes overrun, an FF that came then waits on", lost && waits && after->waiting == 1);
    SEEN("W6: overrun, CM 1, CAPTURE cleared", lost && (before->cr & ~after->cr & CAPTURE));
    SEEN("W6: overrun, neither VSYNC nor LINE nor ERR raised", lost && (after->ris & ~before->ris) == F_OVR);
    SEEN("W6: overrun, from then on only a frame start counts",
         lost && after->frame == FRAME_CLOSED && after->blanked == before->blanked && !(after->blanked & VSYNC));
    SEEN_AT("W6: released bytes overrun, CM 0", before->depth, lost && !(before->cr & CM));
    SEEN_AT("W6: released bytes overrun, CM 1", before->depth, lost && (before->cr & CM));
    SEEN_AT("W6: a word of released bytes held, as the first to the 32nd", after->held, full && !lost);
    if (!crop || full) return;
    SEEN("W6: CROP 1: with no line begun a byte of an open line is in line 0", !before->lines && kept);
    SEEN("W6: CROP 1: a byte that waited beyond the pixels is in column 0", before->pixels < before->waiting && kept == released && !first_column);
    SEEN("W6: CROP 1: released bytes are all in the window", in_lines && kept == released && released > 1);
    SEEN("W6: CROP 1: of released bytes the first are before the window", in_lines && column < first_column && kept && kept < released);
    SEEN("W6: CROP 1: of released bytes the last are behind the window",
         in_lines && column <= last_column && column >= first_column && kept && kept < released);
    SEEN("W6: CROP 1: a byte of a line that is not in the window", !in_lines && !kept);
}

/* A working edge with ENABLE and ESS 1. */
void reached_byte(const camera *before, uint32_t sample, const camera *after)
{
    const uint32_t byte = sample & 0xFF, waiting = before->waiting;
    const bool open = before->frame != FRAME_CLOSED, line = open && !(before->blanked & HSYNC);
    const bool captured = after->completed != before->completed || after->data != before->data;
    const bool blank = (sample >> 14 & 3) == (before->cr >> 6 & 3);
    SEEN("W6: the pins are remembered at a working edge", after->pins == (sample >> 14 & 7) && (before->pins ^ after->pins) & (HSYNC | VSYNC));
    if (waiting == 3) {
        reached_code(before, byte, after);
        return;
    }
    const bool waits = byte == (waiting ? 0x00 : 0xFF);
    const uint32_t released = waits ? 0 : waiting + (byte != 0xFF);
    const bool one_more = waits && line && !captured && after->waiting == waiting + 1 && after->pixels == before->pixels + 1;
    SEEN("W6: FF begins to wait, nothing is captured", one_more && waiting == 0);
    SEEN("W6: 00 waits after FF", one_more && waiting == 1);
    SEEN("W6: 00 waits after FF 00", one_more && waiting == 2);
    SEEN("W6: FF begins to wait outside a line", waits && !line && !waiting && after->waiting == 1);
    SEEN("W6: released outside a line, nothing is captured", !line && released && waiting && !captured && after->pixels == before->pixels);
    SEEN("W6: a byte between lines is no pixel and counts nowhere",
         open && !line && released && !captured && after->pixels == before->pixels && after->lines == before->lines);
    SEEN("W6: released in a line of an untaken frame, nothing is captured",
         line && before->frame == FRAME_UNTAKEN && released && !captured && after->pixels == before->pixels + 1);
    if (!line || before->frame != FRAME_TAKEN || !released) return;
    SEEN("W6: a byte is captured, the data bits above it are not 0",
         captured && !waiting && sample >> 8 & 0x3F && after->data > before->data && after->partial >> 8 * before->data == byte);
    SEEN("W6: a byte is captured while both pins are at their polarity", captured && blank);
    SEEN("W6: packing runs on in the next line", captured && before->data && before->lines > 1 && before->pixels == waiting);
    reached_released(before, byte, after, released);
}
