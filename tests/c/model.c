/* The paper's sections and rules, in its order. */
#include "model.h"

#include <string.h>

#include "dcmi.h" /* only for the places of the words in a device image */

/* ---- Registers ---- */

enum { CR = 0x00, SR = 0x04, RIS = 0x08, IER = 0x0C, MIS = 0x10, ICR = 0x14, ESCR = 0x18, ESUR = 0x1C, CWSTRT = 0x20, CWSIZE = 0x24 };

static inline uint32_t fcrc(uint32_t cr) { return cr >> 8 & 3; }
static inline uint32_t edm(uint32_t cr) { return cr >> 10 & 3; }
static inline uint32_t vst(uint32_t cwstrt) { return cwstrt >> 16; }
static inline uint32_t hoffcnt(uint32_t cwstrt) { return cwstrt & 0x3FFF; }
static inline uint32_t vline(uint32_t cwsize) { return cwsize >> 16; }
static inline uint32_t capcnt(uint32_t cwsize) { return cwsize & 0x3FFF; }

static bool is_register(uint32_t offset)
{
    return offset == CR || offset == SR || offset == RIS || offset == IER || offset == MIS || offset == ICR || offset == ESCR || offset == ESUR
        || offset == CWSTRT || offset == CWSIZE;
}

/* The bits of a register that can be written; all others are reserved. */
static uint32_t bits_of(uint32_t offset)
{
    switch (offset) {
    case CR: return 0x00004FFF;
    case ESCR: case ESUR: return 0xFFFFFFFF;
    case CWSTRT: return 0x1FFF3FFF;
    case CWSIZE: return 0x3FFF3FFF;
    default: return 0x0000001F; /* IER, ICR */
    }
}

/* The syncs that blank: those whose pin equals its polarity bit. HSPOL and VSPOL are bits 6 and 7 of CR. */
static inline uint32_t blanking(uint32_t pins, uint32_t cr) { return ~(pins ^ cr >> 6) & (HSYNC | VSYNC); }

/* W6: a line is open in a frame until a code ends it. */
static inline bool in_line(const camera *c) { return c->frame != FRAME_CLOSED && !(c->blanked & HSYNC); }

/* W6: with ESS 1 HSYNC blanks outside a line, VSYNC outside a frame. */
static uint32_t outside(const camera *c) { return (in_line(c) ? 0 : HSYNC) | (c->frame != FRAME_CLOSED ? 0 : VSYNC); }

/* SR: the pins of the last sample and the polarities of now, W6: with ESS 1 neither; FNE is bit 2. */
static uint32_t status(const camera *c) { return (c->cr & ESS ? outside(c) : blanking(c->pins, c->cr)) | (c->held > 0) << 2; }

/* MIS. The interrupt line is up exactly if it is not 0. */
static uint32_t masked(const camera *c) { return c->ris & c->ier; }

/* Lines and pixels are 0 outside a frame, and the partial word is dropped. */
static inline void close_frame(camera *c)
{
    c->frame = FRAME_CLOSED;
    c->lines = c->pixels = 0;
    c->data = c->partial = 0;
}

/* All held words are discarded. W2: what they carry goes with them, and the open frame, which is closed without rule 4, never becomes complete. */
static inline void empty_fifo(camera *c)
{
    c->discarded += c->held;
    memset(c->fifo, 0, c->held * sizeof *c->fifo);
    c->held = 0;
    c->in_b = c->opening = 0;
    c->begun = false;
}

/* Writing CR. CAPTURE cleared inside an open frame: the frame goes on, so nothing is done. W6: no bytes wait after enabling and disabling. */
static void write_cr(camera *c, uint32_t value)
{
    const uint32_t rises = value & ~c->cr, falls = c->cr & ~value;
    c->cr = value;
    if (rises & ENABLE) {
        c->blanked = 0;
        c->waiting = 0;
        close_frame(c);
        c->rate = 0;
    }
    if (falls & ENABLE) {
        c->waiting = 0;
        empty_fifo(c);
        close_frame(c);
        c->rate = 0;
    }
    if ((rises & CAPTURE) && c->frame == FRAME_CLOSED) c->rate = 0;
}

/* ---- One sample ---- */

/* The low bytes of a number, little-endian; the byte after them. */
static inline uint8_t *put(uint8_t *bytes, uint32_t value, unsigned count)
{
    for (unsigned i = 0; i < count; i++) *bytes++ = (uint8_t)(value >> (8 * i));
    return bytes;
}

/* Rule 1. Grant: with ENABLE 1, a word held and room for it, the oldest held word goes to memory, at the place where it is to land. Whether it does. */
static inline bool land(camera *c, uint8_t *memory, size_t length, size_t start, uint32_t place, outcome *out)
{
    const uint64_t at = 4 * (uint64_t)place;
    if (!(c->cr & ENABLE) || c->held == 0 || at + 4 > length - start) return false;
    put(memory + start + at, c->fifo[0], 4);
    c->held--;
    if (c->held) memmove(c->fifo, c->fifo + 1, c->held * sizeof *c->fifo);
    c->fifo[c->held] = 0;
    c->landed++;
    out->byte = start + at;
    return true;
}

static inline void grant(camera *c, uint8_t *memory, size_t length, size_t start, outcome *out)
{
    if (!land(c, memory, length, start, c->place[BUFFER_A], out)) return;
    c->place[BUFFER_A]++;
    out->landed = LANDED_A;
}

/* ---- Two frame buffers in turn, W2 ---- */

static buffer other(buffer of) { return of == BUFFER_A ? BUFFER_B : BUFFER_A; }

/* A frame has ended and all its words have landed: it is complete, if that was since the last re-arming. */
static void becomes_complete(camera *c, buffer of)
{
    if (c->in[of] != CONTENT_LANDING) return;
    c->in[of] = CONTENT_COMPLETE;
    c->latest = of;
}

/* Rule 1. The oldest held word goes to its own buffer: to place 0 if it opens a frame, and the frame that was there is complete no more. No word of its
 * frame is behind it if the next one opens another; or if none is held and it is not the open frame's. */
static void grant_two(camera *c, const lent both[BUFFERS], outcome *out)
{
    const buffer to = c->in_b & 1 ? BUFFER_B : BUFFER_A;
    const bool opens = c->opening & 1;
    const uint32_t place = opens ? 0 : c->place[to];
    if (!land(c, both[to].memory, both[to].length, both[to].start, place, out)) return;
    out->landed = to == BUFFER_A ? LANDED_A : LANDED_B;
    c->place[to] = place + 1;
    if (opens) c->in[to] = CONTENT_LANDING;
    c->in_b >>= 1;
    c->opening >>= 1;
    if (c->held ? c->opening & 1 : !c->begun) becomes_complete(c, to);
}

/* Rule 9. The first word that a frame completes switches to the other buffer, also if it is lost. Whether this word is one. */
static bool switches(camera *c)
{
    if (c->begun) return false;
    c->begun = true;
    c->turn = other(c->turn);
    return true;
}

/* A word that is held next carries its buffer and whether it opens a frame. */
static void carries(camera *c, bool opens)
{
    const uint32_t bit = UINT32_C(1) << c->held;
    if (c->turn == BUFFER_B) c->in_b |= bit;
    if (opens) c->opening |= bit;
}

/* Rule 4 has ended the open frame. With words held that is not yet all: if they are of this frame, it becomes complete where the last of them lands. */
static void ended(camera *c)
{
    if (c->begun && c->held == 0) becomes_complete(c, c->turn);
    c->begun = false;
}

/* ---- One sample, from rule 2 on ---- */

/* Rule 2. Working edge: the clock fell (PCKPOL 0) or rose (PCKPOL 1) since the last sample. */
static inline bool working_edge(const camera *c, uint32_t pins)
{
    const uint32_t fell = c->pins & ~pins, rose = pins & ~c->pins;
    return (c->cr & PCKPOL ? rose : fell) & CLOCK;
}

/* Rule 3. Blanking: a sync that did not blank at the last working edge and blanks now raises its flag. */
static inline void sync_flags(camera *c, uint32_t begins)
{
    if (begins & VSYNC) c->ris |= F_VSYNC;
    if (begins & HSYNC) c->ris |= F_LINE;
}

/* Rule 4, whether FRAME rises in a taken frame in which a sync blanks: at frame end. W1: with CROP 1 where HSYNC blanks after line VST + VLINE,
 * once in a frame; at frame end if that line never ended. */
static inline bool frame_rises(const camera *c, uint32_t blanked, uint32_t blanks)
{
    const uint32_t lines = vst(c->cwstrt) + vline(c->cwsize) + 1; /* begun when that line is the last one */
    if (!(c->cr & CROP) || c->lines < lines) return blanks & VSYNC;
    return c->lines == lines && !(blanked & HSYNC); /* it runs, and either sync ends it */
}

/* W4: with JPEG 1 a partial word at frame end is filled with zero bytes, which its unused bits are, and completed by rule 9. False if it was lost. */
static inline bool complete(camera *c, uint32_t word, outcome *out);
static inline bool pad(camera *c, outcome *out) { return !(c->cr & JPEG) || c->data == 0 || complete(c, c->partial, out); }

/* Rule 4. Frame end: an open frame closes when VSYNC blanks. A snapshot's CAPTURE is cleared, W1: also if FRAME rose before. W4: padding comes before
 * FRAME, which does not rise if the padded word is lost; W2: nor has the frame then ended by this rule. An untaken frame has no partial word. */
static void frame_end(camera *c, uint32_t blanked, uint32_t blanks, outcome *out)
{
    const bool taken = c->frame == FRAME_TAKEN, rises = taken && frame_rises(c, blanked, blanks);
    if (pad(c, out)) {
        if (rises) c->ris |= F_FRAME;
        if (c->mode == MODE_TWO) ended(c);
    }
    if (taken && (c->cr & CM)) c->cr &= ~(uint32_t)CAPTURE;
    close_frame(c);
}

/* Rule 5. Frame start: taken if CM is 1 or the rate counter is 0; the counter goes up modulo 1, 2 or 4, with CM 1 it stays. */
static inline void frame_start(camera *c)
{
    c->frame = (c->cr & CM) || c->rate == 0 ? FRAME_TAKEN : FRAME_UNTAKEN;
    if (!(c->cr & CM)) c->rate = (c->rate + 1) % (1u << fcrc(c->cr));
}

/* Rule 6. Place: a line begins if HSYNC blanked at the last working edge or no line has begun in this frame. */
static inline void place_pixel(camera *c, bool hsync_blanked)
{
    if (hsync_blanked || c->lines == 0) {
        c->lines++;
        c->pixels = 0;
    }
    c->pixels++;
}

/* Rule 7. Capture: the pixel at a place; lines and columns count from 0, the window's ends are included. */
static inline bool captured(const camera *c, uint32_t line, uint32_t column)
{
    if (c->frame != FRAME_TAKEN) return false;
    if (!(c->cr & CROP)) return true;
    const uint32_t first_line = vst(c->cwstrt), last_line = first_line + vline(c->cwsize);
    const uint32_t first_column = hoffcnt(c->cwstrt), last_column = first_column + capcnt(c->cwsize);
    return first_line <= line && line <= last_line && first_column <= column && column <= last_column;
}

/* Rule 8. Packing: EDM 0 keeps 8 bits of a datum, four to a word; 1, 2, 3 keep 10, 12, 14 bits in 16, two to a word; first lowest. */
static inline uint32_t kept_bits(uint32_t cr) { return 8 + 2 * edm(cr); }
static inline uint32_t lane_bits(uint32_t cr) { return edm(cr) ? 16 : 8; }

/* Whether the word is now full; it is then in *word, and no data are left. */
static inline bool pack(camera *c, uint32_t sample, uint32_t *word)
{
    const uint32_t lane = lane_bits(c->cr), datum = sample & ((1u << kept_bits(c->cr)) - 1);
    c->partial |= datum << (lane * c->data);
    if (lane * ++c->data < 32) return false;
    *word = c->partial;
    c->data = c->partial = 0;
    return true;
}

/* Rule 9. A full word is completed: held, or, W9, with as many held as the depth, lost with them. Whether it is held. */
static inline bool complete(camera *c, uint32_t word, outcome *out)
{
    const bool opens = c->mode == MODE_TWO && switches(c);
    c->completed++;
    if (c->held < c->depth) {
        if (c->mode == MODE_TWO) carries(c, opens);
        c->fifo[c->held++] = word;
        out->packed = PACKED_WORD;
        out->word = word;
        return true;
    }
    c->ris |= F_OVR;
    empty_fifo(c);
    c->discarded++;
    close_frame(c);
    if (c->cr & CM) c->cr &= ~(uint32_t)CAPTURE;
    out->packed = PACKED_LOST;
    return false;
}

/* ---- Codes in the data, W6 ---- */

/* Where each delimiter stands in ESCR, and its unmask bits in ESUR. */
enum { FSC = 0, LSC = 8, LEC = 16, FEC = 24 };

typedef enum { NO_MEANING, FRAME_ENDS, FRAME_STARTS, LINE_ENDS, LINE_STARTS } meaning;

/* XY and a delimiter agree on the unmask bits that are 1. */
static inline bool matches(const camera *c, uint32_t xy, unsigned delimiter) { return !((xy ^ c->escr >> delimiter) & c->esur >> delimiter & 0xFF); }

static inline bool is_ff(const camera *c, unsigned delimiter) { return (c->escr >> delimiter & 0xFF) == 0xFF; }

/* Frame end, frame start, line end, line start is the order. FEC 0xFF: a frame end is just what matches no other. FSC 0xFF matches nothing. */
static meaning meaning_of(const camera *c, uint32_t xy)
{
    if (!is_ff(c, FEC) && matches(c, xy, FEC)) return FRAME_ENDS;
    if (!is_ff(c, FSC) && matches(c, xy, FSC)) return FRAME_STARTS;
    if (matches(c, xy, LEC)) return LINE_ENDS;
    if (matches(c, xy, LSC)) return LINE_STARTS;
    return is_ff(c, FEC) ? FRAME_ENDS : NO_MEANING;
}

/* The start code opens the frame and its first line. With CAPTURE 0 the frame is neither taken nor counted. */
static void open_frame(camera *c)
{
    if (c->cr & CAPTURE) frame_start(c);
    else c->frame = FRAME_UNTAKEN;
    c->lines = 1;
    c->pixels = 0;
    c->blanked = 0;
}

static void open_line(camera *c)
{
    c->lines++;
    c->pixels = 0;
    c->blanked = 0;
}

/* LINE rises with CAPTURE 1; rule 4 with W1: FRAME may rise. */
static void close_line(camera *c)
{
    if (c->cr & CAPTURE) c->ris |= F_LINE;
    if (c->frame == FRAME_TAKEN && frame_rises(c, c->blanked, HSYNC)) c->ris |= F_FRAME;
    c->blanked = HSYNC;
}

/* VSYNC rises with CAPTURE 1, and LINE if a line is closed too; CAPTURE is read before rule 4 clears a snapshot's. */
static void end_frame(camera *c, outcome *out)
{
    if (c->cr & CAPTURE) c->ris |= F_VSYNC | (in_line(c) ? F_LINE : 0);
    frame_end(c, c->blanked, HSYNC | VSYNC, out);
    c->blanked = HSYNC | VSYNC;
}

/* ERR: FIFO and partial word are emptied, the frame closes without FRAME, CAPTURE stays. */
static void sync_error(camera *c)
{
    c->ris |= F_ERR;
    empty_fifo(c);
    close_frame(c);
    c->blanked = 0;
}

/* After enabling, ERR or overrun: only a frame start counts, with FSC 0xFF a frame end. */
static inline bool out_of_order(const camera *c) { return c->frame == FRAME_CLOSED && !(c->blanked & VSYNC); }

/* A code, at its last byte. The bytes before it were no pixels of the line. */
static void take_code(camera *c, uint32_t xy, outcome *out)
{
    const bool open = c->frame != FRAME_CLOSED, line = in_line(c);
    const meaning m = meaning_of(c, xy);
    if (line) c->pixels -= c->pixels < 3 ? c->pixels : 3;
    if (out_of_order(c)) {
        if (m == FRAME_STARTS) open_frame(c);
        if (m == FRAME_ENDS && is_ff(c, FSC)) c->blanked = HSYNC | VSYNC;
        return;
    }
    switch (m) {
    case FRAME_ENDS:
        if (open) end_frame(c, out);
        break;
    case FRAME_STARTS:
        if (open) sync_error(c);
        else open_frame(c);
        break;
    case LINE_ENDS:
        if (line) close_line(c);
        else sync_error(c);
        break;
    case LINE_STARTS:
        if (open && !line) open_line(c);
        else if (!open && is_ff(c, FSC)) open_frame(c);
        else sync_error(c);
        break;
    case NO_MEANING: break;
    }
}

/* Rules 7 to 9 of a released byte, after which so many others came. */
static inline void take_byte(camera *c, uint32_t byte, uint32_t later, outcome *out)
{
    const uint32_t line = c->lines ? c->lines - 1 : 0, column = c->pixels > later ? c->pixels - 1 - later : 0;
    uint32_t word;
    if (in_line(c) && captured(c, line, column) && pack(c, byte, &word)) complete(c, word, out);
}

/* The byte of a working edge: the last of a code, one that waits, or one that releases those before it. Kept out of the step, which is slower with it. */
__attribute__((noinline)) static void arrive(camera *c, uint32_t byte, outcome *out)
{
    const uint32_t waited = c->waiting;
    if (waited == 3) {
        c->waiting = 0;
        take_code(c, byte, out);
        return;
    }
    if (in_line(c)) c->pixels++;
    if (byte == (waited ? 0x00 : 0xFF)) {
        c->waiting++;
        return;
    }
    c->waiting = byte == 0xFF;
    for (uint32_t i = 0; i < waited; i++) take_byte(c, i ? 0x00 : 0xFF, waited - i, out);
    if (byte != 0xFF) take_byte(c, byte, 0, out);
}

/* Rules 2 to 9 of an accepted sample, in order. *out is written only where it says that something happened. */
static inline void step_on(camera *c, uint32_t sample, outcome *out)
{
    const uint32_t pins = sample >> 14 & (HSYNC | VSYNC | CLOCK);
    uint32_t word;

    /* Rule 2. Each sample leaves its levels remembered, one that goes on also whether each sync blanks. */
    const bool goes_on = working_edge(c, pins) && (c->cr & ENABLE);
    c->pins = pins;
    if (!goes_on) return;
    if (c->cr & ESS) {
        arrive(c, sample & 0xFF, out);
        return;
    }
    const uint32_t blanked = c->blanked, blanks = blanking(pins, c->cr);
    c->blanked = blanks;

    /* Rule 3. */
    sync_flags(c, blanks & ~blanked);

    /* Rule 4. Where a frame ends, none starts and no pixel comes. W1: FRAME may rise before. */
    if (blanks && c->frame != FRAME_CLOSED) {
        if (blanks & VSYNC) {
            frame_end(c, blanked, blanks, out);
            return;
        }
        if (c->frame == FRAME_TAKEN && frame_rises(c, blanked, blanks)) c->ris |= F_FRAME;
    }

    /* Rule 5. */
    if (c->frame == FRAME_CLOSED && (c->cr & CAPTURE) && (blanked & VSYNC) && !(blanks & VSYNC)) frame_start(c);

    /* Rule 6. With both syncs not blanking in an open frame, the edge carries a pixel. */
    if (c->frame == FRAME_CLOSED || blanks) return;
    place_pixel(c, blanked & HSYNC);

    /* Rules 7, 8 and 9. */
    if (captured(c, c->lines - 1, c->pixels - 1) && pack(c, sample, &word)) complete(c, word, out);
}

/* An accepted sample: rule 1, and the others. W2: the same over two memories. */
static inline void step(camera *c, uint8_t *memory, size_t length, size_t start, uint32_t sample, outcome *out)
{
    c->samples++;
    if (sample >> 17 & 1) grant(c, memory, length, start, out);
    step_on(c, sample, out);
}

static inline void step_two(camera *c, const lent both[BUFFERS], uint32_t sample, outcome *out)
{
    c->samples++;
    if (sample >> 17 & 1) grant_two(c, both, out);
    step_on(c, sample, out);
}

/* ---- Refusal numbers ---- */

/* 5: CR contents. W4: JPEG 1 with EDM 0 and CROP 0 only. W6: ESS 1 with EDM 0 and JPEG 0 only. */
static bool unsupported(uint32_t cr)
{
    return ((cr & JPEG) && (edm(cr) || (cr & CROP))) || ((cr & ESS) && (edm(cr) || (cr & JPEG))) || fcrc(cr) == 3
        || ((cr & CAPTURE) && !(cr & ENABLE));
}

/* 6: what an enabled device keeps. */
static bool changes_set_up(const camera *c, uint32_t offset, uint32_t value)
{
    return offset == ESCR || offset == ESUR || offset == CWSTRT || offset == CWSIZE
        || (offset == CR && ((value ^ c->cr) & ~(uint32_t)(CAPTURE | ENABLE)));
}

/* 7. */
static bool bad_sample(const uint32_t *samples, size_t count)
{
    uint32_t all = 0;
    for (size_t i = 0; i < count; i++) all |= samples[i];
    return all >> 18;
}

/* 9. W2: of two memories, either start above its own length. */
static bool bad_starts(const lent both[BUFFERS])
{
    return both[BUFFER_A].start > both[BUFFER_A].length || both[BUFFER_B].start > both[BUFFER_B].length;
}

/* 18, and a clause of malformed. W9. */
static bool bad_depth(uint32_t depth) { return depth == 0 || depth > 32; }

/* Malformed, 1: the clauses of its paragraph. W9: the depth for four; slots beyond the depth are unused too. W2: both places. */
static bool unused_slot(const camera *c)
{
    for (uint32_t i = c->held; i < SLOTS; i++)
        if (c->fifo[i]) return true;
    return false;
}

/* W2: what an unused slot carries. */
static bool unused_marks(const camera *c) { return c->held < SLOTS && (c->in_b | c->opening) >> c->held; }

static bool unused_partial_bits(const camera *c)
{
    uint32_t used = 0;
    for (uint32_t i = 0; i < 32 / lane_bits(c->cr) && i < c->data; i++) used |= ((1u << kept_bits(c->cr)) - 1) << (i * lane_bits(c->cr));
    return c->partial & ~used;
}

static bool malformed(const camera *c)
{
    return bad_depth(c->depth)
        || c->held > c->depth
        || unused_slot(c) || unused_marks(c) || unused_partial_bits(c)
        || c->data >= 32 / lane_bits(c->cr)
        || (c->cr & ~bits_of(CR)) || (c->cwstrt & ~bits_of(CWSTRT)) || (c->cwsize & ~bits_of(CWSIZE)) || unsupported(c->cr)
        || c->ris > 31 || c->ier > 31
        || (!(c->cr & ENABLE) && (c->frame != FRAME_CLOSED || c->held || c->data || c->rate))
        || (c->data && c->frame != FRAME_TAKEN)
        || c->rate >= 1u << fcrc(c->cr)
        || c->lines > c->samples || c->pixels > c->samples || c->completed > c->samples
        || c->place[BUFFER_A] > c->landed || c->place[BUFFER_B] > c->landed
        || c->completed != (uint64_t)c->landed + c->held + c->discarded;
}

/* The order 2, 3, 4, 5, 6 for a register that is written. */
static uint32_t write_refusal(const camera *c, uint32_t offset, uint32_t value)
{
    if (!is_register(offset)) return 2;
    if (offset == SR || offset == RIS || offset == MIS) return 3;
    if (value & ~bits_of(offset)) return 4;
    if (offset == CR && unsupported(value)) return 5;
    if ((c->cr & ENABLE) && changes_set_up(c, offset, value)) return 6;
    return 0;
}

/* The order 1, W2: 16, 9, 7, 8 for a run or one sample, over one memory or two. */
static uint32_t run_refusal(const camera *c, buffer_mode mode, bool bad_start, const uint32_t *samples, size_t count)
{
    if (malformed(c)) return 1;
    if (c->mode != mode) return 16;
    if (bad_start) return 9;
    if (bad_sample(samples, count)) return 7;
    if (count > UINT32_MAX - c->samples) return 8;
    return 0;
}

/* ---- The calls on a device ---- */

/* W9: 18 is the first check where a device is made. */
uint32_t model_reset_depth(camera *c, uint32_t depth)
{
    if (bad_depth(depth)) return 18;
    *c = (camera){ .depth = depth };
    return 0;
}

void model_reset(camera *c) { model_reset_depth(c, USUAL_DEPTH); }

/* A write to a device that is known to be well-formed. */
static uint32_t write_register(camera *c, uint32_t offset, uint32_t value)
{
    const uint32_t refusal = write_refusal(c, offset, value);
    if (refusal) return refusal;
    switch (offset) {
    case CR: write_cr(c, value); break;
    case IER: c->ier = value; break;
    case ICR: c->ris &= ~value; break;
    case ESCR: c->escr = value; break;
    case ESUR: c->esur = value; break;
    case CWSTRT: c->cwstrt = value; break;
    case CWSIZE: c->cwsize = value; break;
    }
    return 0;
}

uint32_t model_write(camera *c, uint32_t offset, uint32_t value)
{
    if (malformed(c)) return 1;
    return write_register(c, offset, value);
}

uint32_t model_read(const camera *c, uint32_t offset, uint32_t *value)
{
    if (malformed(c)) return 1;
    if (!is_register(offset)) return 2;
    if (offset == ICR) return 3;
    switch (offset) {
    case CR: *value = c->cr; break;
    case SR: *value = status(c); break;
    case RIS: *value = c->ris; break;
    case IER: *value = c->ier; break;
    case MIS: *value = masked(c); break;
    case ESCR: *value = c->escr; break;
    case ESUR: *value = c->esur; break;
    case CWSTRT: *value = c->cwstrt; break;
    case CWSIZE: *value = c->cwsize; break;
    }
    return 0;
}

uint32_t model_interrupt(const camera *c, bool *up)
{
    if (malformed(c)) return 1;
    *up = masked(c) != 0;
    return 0;
}

/* W2: both places, and no frame is complete. The turn stays. */
static void rearm(camera *c)
{
    c->place[BUFFER_A] = c->place[BUFFER_B] = 0;
    c->in[BUFFER_A] = c->in[BUFFER_B] = CONTENT_NONE;
}

uint32_t model_rearm(camera *c)
{
    if (malformed(c)) return 1;
    rearm(c);
    return 0;
}

/* W2: 1, 6. Also the same mode is set anew; the next frame with a word goes to A. A disabled device holds no word. */
static uint32_t set_mode(camera *c, buffer_mode mode)
{
    if (malformed(c)) return 1;
    if (c->cr & ENABLE) return 6;
    rearm(c);
    c->mode = mode;
    c->turn = mode == MODE_TWO ? BUFFER_B : BUFFER_A;
    c->begun = false;
    c->latest = BUFFER_A;
    return 0;
}

uint32_t model_one_buffer(camera *c) { return set_mode(c, MODE_ONE); }
uint32_t model_two_buffers(camera *c) { return set_mode(c, MODE_TWO); }

/* W2: of the frames that are complete now the one that became so last. 1, 16, 9. "Too short" is about its memory alone, and says which and for how much. */
uint32_t model_latest_frame(const camera *c, const lent both[BUFFERS], handed *out)
{
    if (malformed(c)) return 1;
    if (c->mode != MODE_TWO) return 16;
    if (bad_starts(both)) return 9;
    *out = (handed){ .kind = HANDED_NONE };
    const buffer of = c->in[c->latest] == CONTENT_COMPLETE ? c->latest : other(c->latest);
    if (c->in[of] != CONTENT_COMPLETE) return 0;
    const uint64_t bytes = 4 * (uint64_t)c->place[of];
    const bool is_short = bytes > both[of].length - both[of].start;
    out->kind = of == BUFFER_A ? (is_short ? HANDED_SHORT_A : HANDED_A) : (is_short ? HANDED_SHORT_B : HANDED_B);
    out->offset = both[of].start;
    out->length = bytes;
    return 0;
}

uint32_t model_sample(camera *c, uint8_t *memory, size_t length, size_t start, uint32_t sample, outcome *out)
{
    const uint32_t refusal = run_refusal(c, MODE_ONE, start > length, &sample, 1);
    if (refusal) return refusal;
    *out = (outcome){ 0 };
    step(c, memory, length, start, sample, out);
    return 0;
}

uint32_t model_run(camera *c, uint8_t *memory, size_t length, size_t start, const uint32_t *samples, size_t count)
{
    const uint32_t refusal = run_refusal(c, MODE_ONE, start > length, samples, count);
    outcome unused;
    if (refusal) return refusal;
    for (size_t i = 0; i < count; i++) step(c, memory, length, start, samples[i], &unused);
    return 0;
}

uint32_t model_sample_two(camera *c, const lent both[BUFFERS], uint32_t sample, outcome *out)
{
    const uint32_t refusal = run_refusal(c, MODE_TWO, bad_starts(both), &sample, 1);
    if (refusal) return refusal;
    *out = (outcome){ 0 };
    step_two(c, both, sample, out);
    return 0;
}

uint32_t model_run_two(camera *c, const lent both[BUFFERS], const uint32_t *samples, size_t count)
{
    const uint32_t refusal = run_refusal(c, MODE_TWO, bad_starts(both), samples, count);
    outcome unused;
    if (refusal) return refusal;
    for (size_t i = 0; i < count; i++) step_two(c, both, samples[i], &unused);
    return 0;
}

/* ---- Trace file, versions 1 and 2 ---- */

/* W7: version 2 has two bytes more for the number of samples. Lengths and places have 64 bits: the longest file has 12,884,903,170 bytes. */
enum { WRITE_BYTES = 5, SAMPLE_BYTES = 3, MOST_WRITES = 255, MOST_SAMPLES_1 = 16384 };

/* What a header says. */
typedef struct layout {
    uint32_t version;
    uint64_t header, writes, samples; /* the header's bytes; how many of each */
} layout;

static uint32_t number(const uint8_t *bytes, unsigned count)
{
    uint32_t value = 0;
    for (unsigned i = 0; i < count; i++) value |= (uint32_t)bytes[i] << (8 * i);
    return value;
}

static unsigned count_bytes(uint32_t version) { return version == 1 ? 2 : 4; }
static uint64_t header_bytes(uint32_t version) { return 6 + count_bytes(version); }

/* Where items begin, and how long the file is. */
static uint64_t write_place(const layout *l, uint64_t i) { return l->header + WRITE_BYTES * i; }
static uint64_t sample_place(const layout *l, uint64_t i) { return write_place(l, l->writes) + SAMPLE_BYTES * i; }
static uint64_t file_bytes(const layout *l) { return sample_place(l, l->samples); }

static const uint8_t *write_at(const uint8_t *file, const layout *l, uint64_t i) { return file + write_place(l, i); }
static uint32_t sample_at(const uint8_t *file, const layout *l, uint64_t i) { return number(file + sample_place(l, i), SAMPLE_BYTES); }

/* W7: version 1 up to 16,384 samples, version 2 above. */
static uint32_t version_for(uint64_t samples) { return samples <= MOST_SAMPLES_1 ? 1 : 2; }

/* The form checks on opening: 13 (below 8 bytes), 10, 11, W7: 13 (version 2 below 10), 12, 13 (length). */
static uint32_t header_refusal(const uint8_t *file, uint64_t length, layout *l)
{
    if (length < 8) return 13;
    if (file[0] != 'F' || file[1] != 'G' || file[2] != 'T') return 10;
    l->version = number(file + 3, 2);
    if (l->version != 1 && l->version != 2) return 11;
    l->header = header_bytes(l->version);
    if (length < l->header) return 13;
    l->writes = file[5];
    l->samples = number(file + 6, count_bytes(l->version));
    if (l->version != version_for(l->samples)) return 12;
    if (length != file_bytes(l)) return 13;
    return 0;
}

/* W9: 18 first. Then the form checks, the first refused write's number, 9, 7, on a fresh device (W8: neither 1 nor 8). */
uint32_t model_run_file_depth(camera *c, uint32_t depth, const uint8_t *file, size_t file_length, uint8_t *memory, size_t length, size_t start)
{
    layout l;
    camera fresh;
    outcome unused;
    uint32_t refusal = model_reset_depth(&fresh, depth);
    if (refusal) return refusal;
    refusal = header_refusal(file, file_length, &l);
    if (refusal) return refusal;
    for (uint64_t i = 0; i < l.writes; i++) {
        const uint8_t *at = write_at(file, &l, i);
        refusal = write_register(&fresh, at[0], number(at + 1, 4));
        if (refusal) return refusal;
    }
    if (start > length) return 9;
    for (uint64_t i = 0; i < l.samples; i++) {
        const uint32_t sample = sample_at(file, &l, i);
        if (bad_sample(&sample, 1)) return 7;
    }
    for (uint64_t i = 0; i < l.samples; i++) step(&fresh, memory, length, start, sample_at(file, &l, i), &unused);
    *c = fresh;
    return 0;
}

uint32_t model_run_file(camera *c, const uint8_t *file, size_t file_length, uint8_t *memory, size_t length, size_t start)
{
    return model_run_file_depth(c, USUAL_DEPTH, file, file_length, memory, length, start);
}

/* The writer: 14, 12, 7, 15. W7: it chooses the version; 12 is beyond what version 2 can count. Bytes after what it writes stay. */
uint32_t model_trace_write(size_t writes, const uint8_t *offsets, const uint32_t *values, const uint32_t *samples, size_t count, uint8_t *out,
                           size_t length, size_t *written)
{
    if (writes > MOST_WRITES) return 14;
    if (count > UINT32_MAX) return 12;
    if (bad_sample(samples, count)) return 7;
    const uint32_t version = version_for(count);
    const layout l = { version, header_bytes(version), writes, count };
    if (file_bytes(&l) > length) return 15;
    out[0] = 'F';
    out[1] = 'G';
    out[2] = 'T';
    uint8_t *at = put(out + 3, version, 2);
    at = put(at, (uint32_t)writes, 1);
    at = put(at, (uint32_t)count, count_bytes(version));
    for (size_t i = 0; i < writes; i++) {
        at = put(at, offsets[i], 1);
        at = put(at, values[i], 4);
    }
    for (size_t i = 0; i < count; i++) at = put(at, samples[i], SAMPLE_BYTES);
    *written = file_bytes(&l);
    return 0;
}

/* The reader: one write or sample at a time, 7 at a sample. */
uint32_t model_trace_item(const uint8_t *file, size_t length, size_t place, trace_item *item)
{
    layout l;
    const uint32_t refusal = header_refusal(file, length, &l);
    if (refusal) return refusal;
    if (place < l.writes) {
        const uint8_t *at = write_at(file, &l, place);
        *item = (trace_item){ ITEM_WRITE, at[0], number(at + 1, 4), place + 1 };
    } else if (place - l.writes < l.samples) {
        const uint32_t sample = sample_at(file, &l, place - l.writes);
        if (bad_sample(&sample, 1)) return 7;
        *item = (trace_item){ ITEM_SAMPLE, 0, sample, place + 1 };
    } else {
        *item = (trace_item){ ITEM_END, 0, 0, place };
    }
    return 0;
}

/* ---- Device images, of which the paper says nothing: see dcmi.h ---- */

/* W2: in mode one the words of mode two are 0. */
static bool no_mode(const uint32_t *w)
{
    uint32_t any = 0;
    for (unsigned i = DCMI_W_PLACE_B; i <= DCMI_W_LATEST; i++) any |= w[i];
    if (w[DCMI_W_MODE] == 0) return any != 0;
    return w[DCMI_W_MODE] > 1 || w[DCMI_W_TURN] > 1 || w[DCMI_W_BEGUN] > 1 || w[DCMI_W_FRAME_A] > 2 || w[DCMI_W_FRAME_B] > 2 || w[DCMI_W_LATEST] > 1;
}

bool model_from_image(camera *c, const uint32_t *w)
{
    if (w[DCMI_W_HSYNC] > 1 || w[DCMI_W_VSYNC] > 1 || w[DCMI_W_CLOCK] > 1) return false;
    if (w[DCMI_W_HSYNC_BLANKED] > 1 || w[DCMI_W_VSYNC_BLANKED] > 1) return false;
    if (w[DCMI_W_FRAME] > 2 || w[DCMI_W_WAITING] > 3) return false;
    if (w[DCMI_W_FRAME] == 0 && (w[DCMI_W_LINES] || w[DCMI_W_PIXELS])) return false;
    if (no_mode(w)) return false;
    *c = (camera){
        .cr = w[DCMI_W_CR], .ris = w[DCMI_W_RIS], .ier = w[DCMI_W_IER], .cwstrt = w[DCMI_W_CWSTRT], .cwsize = w[DCMI_W_CWSIZE],
        .escr = w[DCMI_W_ESCR], .esur = w[DCMI_W_ESUR], .waiting = w[DCMI_W_WAITING],
        .pins = w[DCMI_W_HSYNC] | w[DCMI_W_VSYNC] << 1 | w[DCMI_W_CLOCK] << 2,
        .blanked = w[DCMI_W_HSYNC_BLANKED] | w[DCMI_W_VSYNC_BLANKED] << 1,
        .frame = (frame_state)w[DCMI_W_FRAME], .lines = w[DCMI_W_LINES], .pixels = w[DCMI_W_PIXELS], .rate = w[DCMI_W_RATE],
        .data = w[DCMI_W_PARTIAL_COUNT], .partial = w[DCMI_W_PARTIAL_BITS], .held = w[DCMI_W_HELD],
        .place = { w[DCMI_W_PLACE], w[DCMI_W_PLACE_B] },
        .samples = w[DCMI_W_SAMPLES], .completed = w[DCMI_W_COMPLETED], .landed = w[DCMI_W_LANDED], .discarded = w[DCMI_W_DISCARDED],
        .depth = w[DCMI_W_DEPTH],
        .mode = (buffer_mode)w[DCMI_W_MODE], .in_b = w[DCMI_W_IN_B], .opening = w[DCMI_W_OPENING], .turn = (buffer)w[DCMI_W_TURN],
        .begun = w[DCMI_W_BEGUN], .in = { (content)w[DCMI_W_FRAME_A], (content)w[DCMI_W_FRAME_B] }, .latest = (buffer)w[DCMI_W_LATEST],
    };
    memcpy(c->fifo, w + DCMI_W_SLOT, sizeof c->fifo);
    return true;
}

void model_to_image(const camera *c, uint32_t *w)
{
    w[DCMI_W_CR] = c->cr;
    w[DCMI_W_RIS] = c->ris;
    w[DCMI_W_IER] = c->ier;
    w[DCMI_W_CWSTRT] = c->cwstrt;
    w[DCMI_W_CWSIZE] = c->cwsize;
    w[DCMI_W_HSYNC] = c->pins & 1;
    w[DCMI_W_VSYNC] = c->pins >> 1 & 1;
    w[DCMI_W_CLOCK] = c->pins >> 2 & 1;
    w[DCMI_W_HSYNC_BLANKED] = c->blanked & 1;
    w[DCMI_W_VSYNC_BLANKED] = c->blanked >> 1 & 1;
    w[DCMI_W_FRAME] = c->frame;
    w[DCMI_W_LINES] = c->lines;
    w[DCMI_W_PIXELS] = c->pixels;
    w[DCMI_W_RATE] = c->rate;
    w[DCMI_W_PARTIAL_COUNT] = c->data;
    w[DCMI_W_PARTIAL_BITS] = c->partial;
    memcpy(w + DCMI_W_SLOT, c->fifo, sizeof c->fifo);
    w[DCMI_W_HELD] = c->held;
    w[DCMI_W_PLACE] = c->place[BUFFER_A];
    w[DCMI_W_SAMPLES] = c->samples;
    w[DCMI_W_COMPLETED] = c->completed;
    w[DCMI_W_LANDED] = c->landed;
    w[DCMI_W_DISCARDED] = c->discarded;
    w[DCMI_W_DEPTH] = c->depth;
    w[DCMI_W_ESCR] = c->escr;
    w[DCMI_W_ESUR] = c->esur;
    w[DCMI_W_WAITING] = c->waiting;
    w[DCMI_W_MODE] = c->mode;
    w[DCMI_W_PLACE_B] = c->place[BUFFER_B];
    w[DCMI_W_IN_B] = c->in_b;
    w[DCMI_W_OPENING] = c->opening;
    w[DCMI_W_TURN] = c->turn;
    w[DCMI_W_BEGUN] = c->begun;
    w[DCMI_W_FRAME_A] = c->in[BUFFER_A];
    w[DCMI_W_FRAME_B] = c->in[BUFFER_B];
    w[DCMI_W_LATEST] = c->latest;
}
