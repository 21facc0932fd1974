/* Register calls, and those of the Linux driver in its order. */
#include "cases.h"

/* The bits that are not reserved; RIS, IER and ICR have the same. */
uint32_t bits_of(uint32_t offset)
{
    if (offset == DCMI_ESCR || offset == DCMI_ESUR) return UINT32_MAX;
    return offset == DCMI_CR ? 0x4FFF : offset == DCMI_CWSTRT ? 0x1FFF3FFF : offset == DCMI_CWSIZE ? 0x3FFF3FFF : 0x1F;
}

/* CR contents of refusal 5. */
bool unsupported(uint32_t cr)
{
    const bool beside_jpeg = (cr & JPEG) && (cr & (CROP | 0xC00)), beside_ess = (cr & ESS) && (cr & (JPEG | 0xC00));
    return beside_jpeg || beside_ess || fcrc(cr) == 3 || (cr & (CAPTURE | ENABLE)) == CAPTURE;
}

/* W4. */
uint32_t beside_jpeg(uint32_t cr)
{
    const uint32_t excluded = cr & (CROP | ESS | 0xC00);
    return (cr & JPEG) && !unsupported(cr & ~excluded) ? excluded : 0;
}

/* W6. */
uint32_t beside_ess(uint32_t cr) { return (cr & ESS) && !unsupported(cr & ~(uint32_t)0xC00) ? cr & 0xC00 : 0; }

/* W4, W6: a CR write that was refused. */
static void reached_refused_cr(const call *made)
{
    const uint32_t cr = made->value, change = made->before[DCMI_W_CR] ^ cr;
    const uint32_t jpeg = made->answer == 5 ? beside_jpeg(cr) : 0, ess = made->answer == 5 ? beside_ess(cr) : 0;
    SEEN("W4: JPEG 1 refused 5, CROP 1 and nothing else", jpeg == CROP);
    SEEN("W4: JPEG 1 refused 5, EDM 1 and nothing else", jpeg == 1 << 10);
    SEEN("W4: JPEG 1 refused 5, EDM 2 and nothing else", jpeg == 2 << 10);
    SEEN("W4: JPEG 1 refused 5, EDM 3 and nothing else", jpeg == 3 << 10);
    SEEN("W4: JPEG 1 refused 5, ESS 1 and nothing else", jpeg == ESS);
    SEEN("W6: ESS 1 refused 5, EDM 1 and nothing else", ess == 1 << 10);
    SEEN("W6: ESS 1 refused 5, EDM 2 and nothing else", ess == 2 << 10);
    SEEN("W6: ESS 1 refused 5, EDM 3 and nothing else", ess == 3 << 10);
    SEEN("W6: ESS 1 refused 5, JPEG 1 and nothing else", made->answer == 5 && (cr & ESS) && (cr & JPEG) && !unsupported(cr & ~(uint32_t)JPEG));
    SEEN("W6: ESS 0 to 1 while enabled, and nothing else, refused 6", made->answer == 6 && change == ESS && (cr & ESS));
    SEEN("W6: ESS 1 to 0 while enabled, and nothing else, refused 6", made->answer == 6 && change == ESS && !(cr & ESS));
    SEEN("W4: JPEG 1 refused 4, a reserved bit and nothing else", made->answer == 4 && (cr & JPEG) && !unsupported(cr));
    SEEN("W4: JPEG 0 to 1 while enabled, and nothing else, refused 6", made->answer == 6 && change == JPEG && (cr & JPEG));
    SEEN("W4: JPEG 1 to 0 while enabled, and nothing else, refused 6", made->answer == 6 && change == JPEG && !(cr & JPEG));
}

/* W6: ESCR and ESUR while enabled. */
static void reached_refused_codes(const call *made)
{
    const bool escr = made->offset == DCMI_ESCR, esur = made->offset == DCMI_ESUR;
    const bool same = made->value == made->before[escr ? DCMI_W_ESCR : DCMI_W_ESUR];
    if (!escr && !esur) return;
    SEEN("W6: ESCR written while enabled, refused 6", !same && escr);
    SEEN("W6: ESUR written while enabled, refused 6", !same && !escr);
    SEEN("W6: ESCR written while enabled with its value, refused 6", same && escr);
    SEEN("W6: ESUR written while enabled with its value, refused 6", same && !escr);
}

static void reached_cr(const camera *before, const camera *after)
{
    const uint32_t rises = after->cr & ~before->cr, falls = before->cr & ~after->cr;
    const bool open = before->frame != FRAME_CLOSED, disabled = falls & ENABLE;
    SEEN("CR: the value it holds", after->cr == before->cr);
    SEEN("CR: written while disabled, stays so", after->cr != before->cr && !((after->cr | before->cr) & ENABLE));
    SEEN("CR: ENABLE rises", rises & ENABLE);
    SEEN("CR: ENABLE rises, a sync was remembered as blanking", (rises & ENABLE) && before->blanked && !after->blanked);
    SEEN("CR: ENABLE falls", disabled);
    SEEN("CR: ENABLE falls, held words discarded", disabled && after->discarded != before->discarded);
    SEEN_AT("CR: ENABLE falls with the FIFO full, all discarded",
            before->depth, disabled && before->held == before->depth && after->discarded == before->discarded + before->depth);
    SEEN("CR: ENABLE falls, partial word dropped", disabled && before->data && !after->data);
    SEEN("CR: ENABLE falls in a taken frame", disabled && before->frame == FRAME_TAKEN);
    SEEN("CR: ENABLE falls in an untaken frame", disabled && before->frame == FRAME_UNTAKEN);
    SEEN("CR: ENABLE falls, rate counter above 0", disabled && before->rate && !after->rate);
    SEEN("CR: CAPTURE rises outside a frame, rate counter above 0", (rises & CAPTURE) && !open && before->rate && !after->rate);
    SEEN("CR: CAPTURE rises inside a frame, rate counter above 0", (rises & CAPTURE) && open && before->rate && after->rate);
    SEEN("CR: CAPTURE cleared inside a frame", (falls & CAPTURE) && !disabled && open && after->frame == before->frame);
    SEEN("CR: CAPTURE cleared outside a frame", (falls & CAPTURE) && !disabled && !open);

    const bool ess = after->cr & ESS, waited = before->waiting && !after->waiting;
    SEEN("W6: CR 0x10 accepted", after->cr == ESS);
    SEEN("W6: ESS 1 accepted with ENABLE and CAPTURE", ess && (after->cr & CAPTURE));
    SEEN("W6: ESS 1 accepted, CROP 1", ess && (after->cr & CROP));
    SEEN("W6: ESS 1 accepted, CM 1", ess && (after->cr & CM));
    SEEN("W6: ESS 1 accepted, FCRC 1 or 2", ess && fcrc(after->cr));
    SEEN("W6: ESS 1 to 0 while disabled, with EDM or JPEG set", (falls & ESS) && ((after->cr & JPEG) || edm(after->cr)));
    SEEN("W6: ENABLE falls, bytes that waited are dropped", disabled && (before->cr & ESS) && waited);
    SEEN("W6: ENABLE falls in a line, no flag raised", disabled && (before->cr & ESS) && open && !(before->blanked & HSYNC) && after->ris == before->ris);
    SEEN("W6: ENABLE rises with ESS 1, no bytes wait, order is not checked",
         (rises & ENABLE) && ess && before->blanked && !after->blanked && !after->waiting);
    SEEN("W6: ENABLE rises, bytes that waited while disabled are dropped", (rises & ENABLE) && ess && waited);
    SEEN("W6: CAPTURE rises in a frame with ESS 1, the rate counter stays",
         (rises & CAPTURE) && ess && open && before->rate && after->rate == before->rate);

    const bool jpeg = after->cr & JPEG, left = jpeg && before->data, no_word = after->completed == before->completed;
    SEEN("W4: CR 0x8 accepted", after->cr == JPEG);
    SEEN("W4: JPEG 1 accepted, CM 0", jpeg && !(after->cr & CM));
    SEEN("W4: JPEG 1 accepted, CM 1", jpeg && (after->cr & CM));
    SEEN("W4: JPEG 1 accepted, FCRC 1 or 2", jpeg && fcrc(after->cr));
    SEEN("W4: JPEG 1 accepted, CWSTRT and CWSIZE not 0", (rises & JPEG) && before->cwstrt && before->cwsize);
    SEEN("W4: JPEG 1 to 0 while disabled, with CROP or EDM set", (falls & JPEG) && ((after->cr & CROP) || edm(after->cr)));
    SEEN("W4: CAPTURE cleared with bytes left over, they stay",
         left && (falls & CAPTURE) && !disabled && after->data == before->data && after->partial == before->partial);
    SEEN("W4: ENABLE falls with bytes left over, no word, FRAME stays 0",
         left && disabled && no_word && !after->data && !((before->ris | after->ris) & F_FRAME));
}

/* An accepted write. */
void reached_write(const camera *before, uint32_t offset, const camera *after)
{
    switch (offset) {
    case DCMI_CR:
        reached_cr(before, after);
        reached_enable_of_two(before, after);
        break;
    case DCMI_ICR:
        SEEN("ICR: clears a raised flag", after->ris != before->ris);
        SEEN("ICR: clears nothing", after->ris == before->ris);
        break;
    case DCMI_IER: SEEN("IER: changed", after->ier != before->ier); break;
    case DCMI_ESCR: SEEN("W6: ESCR changed", after->escr != before->escr); break;
    case DCMI_ESUR: SEEN("W6: ESUR changed", after->esur != before->esur); break;
    case DCMI_CWSTRT: SEEN("CWSTRT: changed", after->cwstrt != before->cwstrt); break;
    case DCMI_CWSIZE: SEEN("CWSIZE: changed", after->cwsize != before->cwsize); break;
    }
}

void reached_refused_write(const call *made)
{
    if (made->offset == DCMI_CR && made->answer) reached_refused_cr(made);
    if (made->answer == 6) reached_refused_codes(made);
}

/* W6: SR, where the pins would give another than the codes. */
static void reached_code_status(const call *made, uint32_t pins_blank)
{
    const uint32_t cr = made->before[DCMI_W_CR], codes_said = made->before[DCMI_W_HSYNC_BLANKED];
    const bool open = made->before[DCMI_W_FRAME], disabled = !(cr & ENABLE);
    const uint32_t syncs = made->output & 3;
    const uint32_t by_codes = (open && !codes_said ? 0 : 1) | (open ? 0 : 2);
    SEEN("W6: ESS 0: SR shows the pins, not what codes would have said", !(cr & ESS) && syncs == pins_blank && syncs != by_codes);
    if (!(cr & ESS)) return;
    SEEN("W6: SR 0 in a line, the pins blank", open && !codes_said && syncs == 0 && pins_blank == 3);
    SEEN("W6: SR 1 between lines, the pins say otherwise", open && codes_said && syncs == 1 && pins_blank != 1);
    SEEN("W6: SR 3 outside a frame, no pin blanks", !open && !disabled && syncs == 3 && !pins_blank);
    SEEN("W6: SR 3 while disabled, no pin blanks", disabled && syncs == 3 && !pins_blank);
}

void reached_read(const call *made)
{
    SEEN("W6: ESCR read, not 0", made->offset == DCMI_ESCR && made->output && made->output == made->before[DCMI_W_ESCR]);
    SEEN("W6: ESUR read, not 0", made->offset == DCMI_ESUR && made->output && made->output == made->before[DCMI_W_ESUR]);
    if (made->offset == DCMI_SR) {
        const uint32_t pins = made->before[DCMI_W_HSYNC] | made->before[DCMI_W_VSYNC] << 1, blank = ~(pins ^ made->before[DCMI_W_CR] >> 6) & 3;
        reached_code_status(made, blank);
        SEEN("SR: FNE 1", made->output & 4);
        SEEN("SR: HSYNC 1, VSYNC 0", (made->output & 3) == 1);
        SEEN("SR: VSYNC 1, HSYNC 0", (made->output & 3) == 2);
    }
    SEEN("MIS: not 0, and not RIS", made->offset == DCMI_MIS && made->output && made->output != made->before[DCMI_W_RIS]);
}

/* ---- the Linux driver ---- */

static bool wrote(const call *made, uint32_t offset) { return made->kind == WRITE && made->offset == offset && made->answer == 0; }

/* Whether a call is the one that comes after so many of the driver's set-up. */
static bool sets_up(const call *made, unsigned after)
{
    const uint32_t changes = made->before[DCMI_W_CR] ^ made->after[DCMI_W_CR];
    switch (after) {
    case 0: return wrote(made, DCMI_CR) && !(made->value & (ENABLE | CROP));
    case 1: return wrote(made, DCMI_CWSIZE);
    case 2: return wrote(made, DCMI_CWSTRT);
    case 3: return wrote(made, DCMI_CR) && changes == CROP;
    case 4: return wrote(made, DCMI_CR) && changes == ENABLE;
    case 5: return wrote(made, DCMI_CR) && changes == CAPTURE;
    default: return wrote(made, DCMI_IER);
    }
}

/* Follows the calls of a seed; reads that are accepted may stand anywhere. */
void follow_driver(const call *made)
{
    enum { SET_UP = 7 };
    static unsigned done;                      /* how many calls of the set-up; all, until the device is disabled */
    static bool read_refused, disable_refused; /* what the last register call was */
    const uint32_t cr = made->before[DCMI_W_CR], changes = cr ^ made->after[DCMI_W_CR];
    if (made->number == 1 || made->kind <= RESET_DEPTH || made->kind == RUN_FILE || made->kind == RUN_FILE_DEPTH) done = 0;
    if (made->kind == SAMPLE || made->kind == RUN)
        SEEN("Linux driver, set up: a word of its cropped picture lands", done == SET_UP && made->after[DCMI_W_LANDED] != made->before[DCMI_W_LANDED]);
    if (made->kind != WRITE && (made->kind != READ || made->answer == 0)) return;
    if (done < SET_UP) {
        done = sets_up(made, done) ? done + 1 : sets_up(made, 0) ? 1 : 0;
    } else {
        SEEN("Linux driver, set up: read of ICR refused, then a flag cleared",
             read_refused && wrote(made, DCMI_ICR) && made->after[DCMI_W_RIS] != made->before[DCMI_W_RIS]);
        SEEN("Linux driver, set up: ENABLE alone refused, then both cleared", disable_refused && wrote(made, DCMI_CR) && changes == (ENABLE | CAPTURE));
        if (!(made->after[DCMI_W_CR] & ENABLE)) done = 0;
    }
    read_refused = made->kind == READ && made->offset == DCMI_ICR && made->answer == 3;
    disable_refused = made->kind == WRITE && made->offset == DCMI_CR && made->answer == 5 && (cr ^ made->value) == ENABLE;
}
