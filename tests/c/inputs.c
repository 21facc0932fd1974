#include "inputs.h"

#include <string.h>

/* ---- numbers ---- */

static uint64_t state;

uint64_t random_u64(void)
{
    uint64_t z = state += UINT64_C(0x9E3779B97F4A7C15);
    z = (z ^ z >> 30) * UINT64_C(0xBF58476D1CE4E5B9);
    z = (z ^ z >> 27) * UINT64_C(0x94D049BB133111EB);
    return z ^ z >> 31;
}

/* The numbers of two seeds must not be the same ones, some places on: what they make would soon be the same too. */
void random_seed(uint64_t seed)
{
    state = seed;
    state = random_u64();
}

uint32_t random_u32(void) { return (uint32_t)(random_u64() >> 32); }
uint32_t below(uint32_t bound) { return (uint32_t)((uint64_t)random_u32() * bound >> 32); }
uint32_t between(uint32_t first, uint32_t last) { return first + (uint32_t)((uint64_t)random_u32() * ((uint64_t)last - first + 1) >> 32); }
bool chance(uint32_t of, uint32_t out_of) { return below(out_of) < of; }

void random_bytes(uint8_t *bytes, size_t count)
{
    for (size_t i = 0; i < count; i += 8) {
        const uint64_t eight = random_u64();
        memcpy(bytes + i, &eight, count - i < 8 ? count - i : 8);
    }
}

/* ---- camera samples ---- */

void scene_make(scene *s, uint32_t cr)
{
    static const uint32_t grants[] = { 0, 4, 16, 32, 64, 128, 256 };
    *s = (scene){ .polarity = cr & 0xE0 };
    s->width = between(1, chance(1, 4) ? 24 : 9);
    s->height = between(1, chance(1, 4) ? 8 : 4);
    s->hblank = below(4);
    s->vblank = between(1, 4);
    s->hold = chance(1, 8) ? between(2, 3) : 1;
    s->grant = grants[below(7)];
    s->glitch = chance(1, 2) ? 0 : below(64);
    s->gap = chance(1, 4) ? below(128) : 0;
    s->pixels_first = chance(1, 2);
    s->hsync_idle = chance(1, 2);
    if (chance(1, 8)) s->polarity = below(8) << 5;
    if (chance(1, 20)) s->width = between(100, 700);
    if (chance(1, 20)) {
        s->height = between(100, 700);
        s->width = between(1, 3);
    }
    s->clock = below(s->vblank + s->height * (s->hblank + s->width));
}

void scene_full(scene *s, uint32_t cr)
{
    *s = (scene){ .polarity = cr & 0xE0, .hold = 1 };
    s->width = between(4, 40);
    s->height = between(1, 6);
    s->hblank = below(3);
    s->vblank = between(1, 2);
    s->grant = chance(1, 2) ? 0 : below(24);
    s->gap = chance(1, 4) ? below(128) : 0;
    s->pixels_first = chance(1, 2);
    s->hsync_idle = chance(1, 2);
}

void scene_cropped(scene *s, uint32_t cr, uint32_t *cwstrt, uint32_t *cwsize)
{
    *s = (scene){ .polarity = cr & 0xE0, .hold = 1 };
    s->width = between(4, 24);
    s->height = between(2, 8);
    s->hblank = between(1, 4);
    s->vblank = between(1, 4);
    s->grant = between(64, 256);
    s->pixels_first = chance(1, 2);
    s->hsync_idle = chance(1, 2);
    const uint32_t line = below(s->height), column = below(s->width);
    *cwstrt = line << 16 | column;
    *cwsize = below(s->height - line) << 16;
    *cwsize |= below(s->width - column);
}

void scene_small(scene *s, uint32_t cr)
{
    static const uint32_t grants[] = { 0, 0, 16, 64, 128, 256 };
    *s = (scene){ .polarity = cr & 0xE0, .hold = 1 };
    s->width = between(1, 9);
    s->height = between(1, chance(1, 2) ? 1 : 3);
    s->hblank = below(2);
    s->vblank = between(1, 2);
    s->grant = grants[below(6)];
    s->pixels_first = chance(1, 2);
    s->hsync_idle = chance(1, 2);
    if (chance(1, 3)) s->width = cr & 0xC00 ? 2 : 4; /* frames of one word */
    if (chance(1, 8)) s->width = between(20, 80);
}

uint32_t scene_sample(scene *s)
{
    const bool working = s->part >= s->hold;
    const uint32_t line = s->hblank + s->width, column = s->clock < s->vblank ? 0 : (s->clock - s->vblank) % line;
    const bool vblank = s->clock < s->vblank;
    const bool between_lines = s->pixels_first ? column >= s->width : column < s->hblank;
    const uint64_t random = random_u64();
    const bool hblank = vblank ? !s->hsync_idle : between_lines || random >> 56 < s->gap;
    uint32_t sample = random & 0x3FFF;
    sample |= (uint32_t)(hblank == (s->polarity >> 6 & 1)) << 14;
    sample |= (uint32_t)(vblank == (s->polarity >> 7 & 1)) << 15;
    sample |= (uint32_t)(working == (s->polarity >> 5 & 1)) << 16;
    sample |= (uint32_t)((random >> 32 & 0xFF) < s->grant) << 17;
    if (!working && (random >> 40 & 0xFF) < s->glitch) sample ^= (random >> 48 & 3) << 14;
    if (++s->part == 2 * s->hold) {
        s->part = 0;
        if (++s->clock == s->vblank + s->height * line) s->clock = 0;
    }
    return sample;
}

void scene_samples(scene *s, uint32_t *samples, size_t count)
{
    for (size_t i = 0; i < count; i++) samples[i] = scene_sample(s);
}

/* One clock of the camera that fits some CR: the level before the working edge, then the edge. */
static uint32_t *clock_out(uint32_t *at, uint32_t cr, bool hblank, bool vblank, uint32_t grant)
{
    const uint32_t syncs = (uint32_t)(hblank == (cr >> 6 & 1)) << 14 | (uint32_t)(vblank == (cr >> 7 & 1)) << 15, working = cr >> 5 & 1;
    for (unsigned edge = 0; edge < 2; edge++) {
        const uint64_t random = random_u64();
        *at++ = syncs | (edge == working) << 16 | (uint32_t)((random >> 32 & 0xFF) < grant) << 17 | (random & 0x3FFF);
    }
    return at;
}

size_t packets(uint32_t cr, uint32_t bytes, uint32_t grant, uint32_t *samples)
{
    const uint32_t gap = chance(1, 2) ? 0 : below(96);
    uint32_t *at = samples;
    for (unsigned n = between(1, 2); n; n--) at = clock_out(at, cr, chance(1, 2), true, grant);
    for (bool first = true; bytes; first = false) {
        const bool blanks = below(256) < gap && at - samples < MOST_PACKETS - 600;
        if (blanks || (first && chance(1, 2))) at = clock_out(at, cr, true, false, grant);
        else bytes--, at = clock_out(at, cr, false, false, grant);
    }
    if (chance(1, 2)) at = clock_out(at, cr, true, false, grant); /* the last packet ends before the frame does */
    at = clock_out(at, cr, chance(1, 2), true, grant);
    return (size_t)(at - samples);
}

/* ---- codes in the data ---- */

/* Bytes of ESCR and ESUR by the delimiter. */
enum { FRAME_START, LINE_START, LINE_END, FRAME_END };
static uint32_t field(uint32_t codes, unsigned delimiter) { return codes >> 8 * delimiter & 0xFF; }

void any_codes(uint32_t *escr, uint32_t *esur)
{
    *escr = 0xFF9D80FF; /* no frame codes, line start and line end of ITU 656 */
    *esur = UINT32_MAX;
    const uint32_t kind = below(8);
    if (kind == 0) return;
    *escr = random_u32();
    if (kind == 1) { /* one bit tells a delimiter from the others */
        *escr = 0x80402010;
        *esur = 0x80402010;
    }
    if (kind == 2) *esur = random_u32();
    if (kind == 3) *esur = random_u32() & random_u32() & random_u32();
    if (kind == 4) *esur = UINT32_C(0xFF) << 8 * below(4) | random_u32();
    for (unsigned i = 0; i < 4; i++) {
        const uint32_t all = UINT32_C(0xFF) << 8 * i;
        if (chance(1, 5)) *escr |= all;
        if (chance(1, 16)) *esur &= ~all;
    }
}

/* One that agrees with a delimiter on its unmask bits. */
static uint32_t agreeing(uint32_t escr, uint32_t esur, unsigned delimiter)
{
    const uint32_t unmask = field(esur, delimiter);
    return (field(escr, delimiter) & unmask) | (random_u32() & 0xFF & ~unmask);
}

/* One that agrees with none but the frame end, if a few trials find it: what FEC 0xFF means. */
static uint32_t other_byte(uint32_t escr, uint32_t esur)
{
    uint32_t xy = 0;
    for (unsigned tries = 64; tries; tries--) {
        bool alone = true;
        xy = below(256);
        for (unsigned i = FRAME_START; i < FRAME_END; i++) alone &= ((xy ^ field(escr, i)) & field(esur, i)) != 0;
        if (alone) break;
    }
    return xy;
}

uint32_t code_byte(uint32_t escr, uint32_t esur)
{
    switch (below(8)) {
    case 0: return 0xFF;
    case 1: return 0x00;
    case 2: return below(256);
    case 3: return other_byte(escr, esur);
    default: return agreeing(escr, esur, below(4));
    }
}

/* A picture's bytes that are being made. */
typedef struct pen {
    uint32_t escr, esur;
    uint32_t like_codes;  /* chance of a byte of which codes are made, of 256 */
    bool damaged;
    uint8_t *at;
} pen;

static void put_data(pen *p, uint32_t count)
{
    static const uint8_t made_of[4] = { 0xFF, 0x00, 0x00, 0xFF };
    while (count--) *p->at++ = (uint8_t)(below(256) < p->like_codes ? made_of[below(4)] : between(1, 254));
}

static void put_xy(pen *p, uint32_t xy)
{
    *p->at++ = 0xFF;
    *p->at++ = 0x00;
    *p->at++ = 0x00;
    *p->at++ = (uint8_t)xy;
}

/* A code for a delimiter; of a damaged picture it may be none, two or another. */
static void put_code(pen *p, unsigned delimiter)
{
    const bool other = delimiter == FRAME_END && field(p->escr, FRAME_END) == 0xFF;
    const uint32_t xy = other ? other_byte(p->escr, p->esur) : agreeing(p->escr, p->esur, delimiter);
    switch (p->damaged ? below(40) : 40) {
    case 0: return;
    case 1: put_xy(p, xy); break;
    case 2: put_xy(p, code_byte(p->escr, p->esur)); return;
    case 3: put_xy(p, code_byte(p->escr, p->esur)); break;
    case 4: put_xy(p, below(256)); return;
    default: break;
    }
    put_xy(p, xy);
}

size_t coded_picture(uint32_t escr, uint32_t esur, uint32_t width, bool damaged, uint8_t *bytes)
{
    static const uint32_t chances[] = { 0, 0, 16, 64, 160 };
    pen p = { .escr = escr, .esur = esur, .like_codes = chances[below(5)], .damaged = damaged, .at = bytes };
    const bool by_line = field(escr, FRAME_START) == 0xFF;
    const uint32_t lines = between(1, 5);
    put_data(&p, chance(1, 2) ? 0 : below(8));
    if (by_line && chance(1, 2)) put_code(&p, FRAME_END);
    for (uint32_t line = 0; line < lines; line++) {
        put_code(&p, line || by_line ? LINE_START : FRAME_START);
        if (chance(7, 8)) put_data(&p, chance(1, 2) ? width : below(width + 1));
        if (line + 1 < lines || chance(1, 2)) put_code(&p, LINE_END);
        put_data(&p, chance(1, 2) ? 0 : below(6));
    }
    put_code(&p, FRAME_END);
    put_data(&p, chance(1, 2) ? 0 : below(6));
    return (size_t)(p.at - bytes);
}

void byte_samples(uint32_t cr, const uint8_t *bytes, size_t count, uint32_t grant, uint32_t *samples)
{
    const uint32_t working = cr >> 5 & 1;
    for (size_t i = 0; i < 2 * count; i++) {
        const uint64_t random = random_u64();
        samples[i] = bytes[i / 2] | (random & 0xFF00) | (i % 2 == working) << 16 | (uint32_t)((random >> 32 & 0xFF) < grant) << 17;
    }
}

void coded_samples(uint32_t cr, uint32_t escr, uint32_t esur, uint32_t *samples, size_t count)
{
    static const uint32_t grants[] = { 0, 16, 64, 256 };
    static uint8_t bytes[MOST_CODED];
    static uint32_t made[2 * MOST_CODED];
    const uint32_t grant = grants[below(4)];
    while (count) {
        const size_t of_picture = coded_picture(escr, esur, below(chance(1, 2) ? 12 : 48), chance(1, 4), bytes);
        const size_t taken = 2 * of_picture < count ? 2 * of_picture : count;
        byte_samples(cr, bytes, of_picture, grant, made);
        memcpy(samples, made, taken * sizeof *made);
        samples += taken;
        count -= taken;
    }
}

/* ---- depths ---- */

uint32_t any_depth(void)
{
    static const uint32_t often[] = { 1, 2, 4, 32 };
    return chance(1, 3) ? often[below(4)] : between(1, 32);
}

/* Near the ends, or with a good number in the low bits. */
uint32_t bad_depth(void)
{
    const uint32_t above = UINT32_C(1) << between(6, 31);
    switch (below(6)) {
    case 0: return 0;
    case 1: return 33;
    case 2: return between(34, 300);
    case 3: return above | between(1, 32);
    case 4: return UINT32_MAX - below(34);
    default: return random_u32() | above;
    }
}

/* ---- register values ---- */

uint32_t valid_cr(void)
{
    uint32_t cr = 0x4000 | (random_u32() & 0xCE6);
    cr |= below(3) << 8;
    if (chance(7, 8)) cr |= 1;
    if (chance(1, 5)) cr = (cr & ~UINT32_C(0xC04)) | 0x8; /* JPEG, with EDM 0 and CROP 0 */
    return cr;
}

uint32_t valid_jpeg(void) { return (valid_cr() & ~UINT32_C(0xC04)) | 0x8; }

uint32_t any_jpeg(void)
{
    const uint32_t cr = chance(1, 2) ? valid_jpeg() : valid_jpeg() & ~UINT32_C(0x4001);
    switch (below(6)) {
    case 0: return cr | 0x4;                   /* CROP */
    case 1: return cr | between(1, 3) << 10;   /* EDM */
    case 2: return cr | 0x10;                  /* ESS */
    case 3: return cr | (random_u32() & 0x1F1C);
    default: return cr;
    }
}

uint32_t valid_ess(void) { return (valid_cr() & ~UINT32_C(0xC08)) | 0x10; }

uint32_t any_ess(void)
{
    const uint32_t cr = chance(1, 2) ? valid_ess() : valid_ess() & ~UINT32_C(0x4001);
    switch (below(5)) {
    case 0: return cr | between(1, 3) << 10;   /* EDM */
    case 1: return cr | 0x8;                   /* JPEG */
    case 2: return cr | (random_u32() & 0x1F1C);
    default: return cr;
    }
}

uint32_t valid_cwstrt(void)
{
    if (chance(1, 8)) return random_u32() & 0x1FFF3FFF;
    const uint32_t line = below(3);
    return line << 16 | below(5);
}

uint32_t valid_cwsize(void)
{
    if (chance(1, 8)) return random_u32() & 0x3FFF3FFF;
    const uint32_t lines = below(3);
    return lines << 16 | below(8);
}

uint32_t any_offset(void)
{
    const uint32_t known = 4 * below(10);
    if (chance(7, 8)) return known;
    switch (below(4)) {
    case 0: return 0x28;
    case 1: return below(0x30);
    case 2: return known | UINT32_C(1) << between(6, 31);
    default: return random_u32();
    }
}

uint32_t any_value(const uint32_t *device)
{
    switch (below(13)) {
    case 0: return 0;
    case 1: return below(32);
    case 2: return valid_cr();
    case 9: return any_jpeg();
    case 10: return any_ess();
    case 11: return chance(1, 2) ? device[DCMI_W_ESCR] : device[DCMI_W_ESUR];
    case 3: return device[DCMI_W_CR] ^ UINT32_C(1) << below(16);
    case 4: return device[DCMI_W_CR] ^ 1;
    case 5: return device[DCMI_W_CR] & ~UINT32_C(0x4001);
    case 6: return UINT32_C(1) << below(32);
    case 7: return valid_cwsize();
    case 8: return random_u32() & random_u32() & random_u32();
    default: return chance(1, 4) ? UINT32_MAX : random_u32();
    }
}

/* ---- device images ---- */

/* A number from 0 to most, often an end or near one. */
static uint32_t up_to(uint32_t most)
{
    switch (below(6)) {
    case 0: return 0;
    case 1: return most;
    case 2: return most < 4 ? most : most - below(4);
    case 3: return most < 4 ? below(most + 1) : below(4);
    case 4: return most < 64 ? most : below(64);
    default: return between(0, most);
    }
}

static void image_counts(uint32_t *w)
{
    switch (below(4)) {
    case 0: w[DCMI_W_SAMPLES] = below(40); break;
    case 1: w[DCMI_W_SAMPLES] = UINT32_MAX - below(40); break;
    case 2: w[DCMI_W_SAMPLES] = UINT32_MAX - below(4); break;
    default: w[DCMI_W_SAMPLES] = random_u32(); break;
    }
    if (w[DCMI_W_SAMPLES] < w[DCMI_W_HELD]) w[DCMI_W_SAMPLES] = w[DCMI_W_HELD];
    w[DCMI_W_COMPLETED] = w[DCMI_W_HELD] + up_to(w[DCMI_W_SAMPLES] - w[DCMI_W_HELD]);
    w[DCMI_W_LANDED] = up_to(w[DCMI_W_COMPLETED] - w[DCMI_W_HELD]);
    w[DCMI_W_DISCARDED] = w[DCMI_W_COMPLETED] - w[DCMI_W_HELD] - w[DCMI_W_LANDED];
    w[DCMI_W_PLACE] = up_to(w[DCMI_W_LANDED]);
    /* Places at which 4k leaves 32 bits. */
    if (chance(1, 4) && w[DCMI_W_LANDED] >= UINT32_C(0xC0000010)) w[DCMI_W_PLACE] = (between(1, 3) << 30) + 2;
}

/* A line or column number in the window or near an end of it; at times with a bit more that a narrow comparison would lose. */
static uint32_t near_window(uint32_t first, uint32_t more)
{
    const uint32_t wide = chance(1, 8) ? UINT32_C(1) << between(13, 31) : 0;
    const uint32_t end = chance(1, 2) ? first + more : first;
    return wide + (chance(1, 3) ? between(first, first + more) : end + below(3));
}

static void image_frame(uint32_t *w)
{
    const uint32_t most = w[DCMI_W_SAMPLES], start = w[DCMI_W_CWSTRT], size = w[DCMI_W_CWSIZE];
    w[DCMI_W_LINES] = chance(1, 3) ? up_to(most) : near_window(start >> 16, size >> 16);
    w[DCMI_W_PIXELS] = chance(1, 3) ? up_to(most) : near_window(start & 0x3FFF, size & 0x3FFF);
    if (w[DCMI_W_LINES] > most) w[DCMI_W_LINES] = up_to(most);
    if (w[DCMI_W_PIXELS] > most) w[DCMI_W_PIXELS] = up_to(most);
}

static void image_partial(uint32_t *w)
{
    const uint32_t edm = w[DCMI_W_CR] >> 10 & 3;
    w[DCMI_W_PARTIAL_COUNT] = below(edm ? 2 : 4);
    if (edm) w[DCMI_W_PARTIAL_BITS] = w[DCMI_W_PARTIAL_COUNT] ? random_u32() & ((UINT32_C(1) << (8 + 2 * edm)) - 1) : 0;
    else w[DCMI_W_PARTIAL_BITS] = random_u32() & ((UINT32_C(1) << 8 * w[DCMI_W_PARTIAL_COUNT]) - 1);
}

void image_well_formed(uint32_t *w)
{
    const bool enabled = chance(7, 8);
    const uint32_t cr = chance(1, 5) ? valid_ess() : valid_cr();
    memset(w, 0, 4 * DCMI_WORDS);
    w[DCMI_W_DEPTH] = any_depth();
    w[DCMI_W_CR] = enabled ? cr : cr & ~UINT32_C(0x4001);
    w[DCMI_W_RIS] = below(32);
    w[DCMI_W_IER] = below(32);
    w[DCMI_W_CWSTRT] = chance(1, 4) ? random_u32() & 0x1FFF3FFF : valid_cwstrt();
    w[DCMI_W_CWSIZE] = chance(1, 4) ? random_u32() & 0x3FFF3FFF : valid_cwsize();
    for (unsigned i = DCMI_W_HSYNC; i <= DCMI_W_VSYNC_BLANKED; i++) w[i] = below(2);
    any_codes(&w[DCMI_W_ESCR], &w[DCMI_W_ESUR]);
    w[DCMI_W_WAITING] = below(4);
    if (enabled) {
        w[DCMI_W_FRAME] = below(3);
        w[DCMI_W_RATE] = below(UINT32_C(1) << (w[DCMI_W_CR] >> 8 & 3));
        w[DCMI_W_HELD] = chance(1, 3) ? w[DCMI_W_DEPTH] : below(w[DCMI_W_DEPTH] + 1);
    }
    for (unsigned i = 0; i < w[DCMI_W_HELD]; i++) w[DCMI_W_SLOT + i] = random_u32();
    image_counts(w);
    if (w[DCMI_W_FRAME]) image_frame(w);
    if (w[DCMI_W_FRAME] == 2) image_partial(w);
}

bool image_window(uint32_t *w)
{
    if (chance(1, 2)) w[DCMI_W_CWSTRT] = random_u32() & 0x1FFF3FFF;
    if (chance(1, 2)) w[DCMI_W_CWSIZE] = random_u32() & 0x3FFF3FFF;
    const uint32_t last_line = (w[DCMI_W_CWSTRT] >> 16) + (w[DCMI_W_CWSIZE] >> 16);
    if (!w[DCMI_W_FRAME] || w[DCMI_W_SAMPLES] < last_line + 2 || w[DCMI_W_SAMPLES] == UINT32_MAX) return false;
    w[DCMI_W_CR] = (w[DCMI_W_CR] & ~UINT32_C(0x18)) | 0x4; /* CROP, and neither JPEG nor ESS */
    w[DCMI_W_RIS] &= ~UINT32_C(1);
    w[DCMI_W_CLOCK] = ~w[DCMI_W_CR] >> 5 & 1; /* PCKPOL */
    w[DCMI_W_LINES] = last_line;
    return true;
}

bool image_compressed(uint32_t *w)
{
    if (!w[DCMI_W_FRAME] || w[DCMI_W_SAMPLES] == UINT32_MAX) return false;
    w[DCMI_W_CR] = (w[DCMI_W_CR] & ~UINT32_C(0xC14)) | 0x8;
    w[DCMI_W_CLOCK] = ~w[DCMI_W_CR] >> 5 & 1; /* PCKPOL */
    if (w[DCMI_W_FRAME] == 2) image_partial(w);
    return true;
}

bool image_codes(uint32_t *w)
{
    if (!(w[DCMI_W_CR] & 0x4000) || w[DCMI_W_SAMPLES] == UINT32_MAX) return false;
    w[DCMI_W_CR] = (w[DCMI_W_CR] & ~UINT32_C(0xC08)) | 0x10;
    w[DCMI_W_CLOCK] = ~w[DCMI_W_CR] >> 5 & 1; /* PCKPOL */
    if (w[DCMI_W_FRAME] == 2) image_partial(w);
    if (w[DCMI_W_FRAME] && chance(1, 2)) w[DCMI_W_PIXELS] = below(w[DCMI_W_SAMPLES] < 6 ? w[DCMI_W_SAMPLES] + 1 : 6);
    return true;
}

void image_two(uint32_t *w)
{
    const uint32_t used = w[DCMI_W_HELD] < 32 ? (UINT32_C(1) << w[DCMI_W_HELD]) - 1 : UINT32_MAX;
    w[DCMI_W_MODE] = 1;
    w[DCMI_W_PLACE_B] = chance(1, 4) ? w[DCMI_W_PLACE] : up_to(w[DCMI_W_LANDED]);
    w[DCMI_W_IN_B] = (chance(1, 4) ? below(2) * UINT32_MAX : random_u32()) & used;
    w[DCMI_W_OPENING] = (chance(1, 4) ? below(2) : random_u32()) & used;
    w[DCMI_W_TURN] = below(2);
    w[DCMI_W_BEGUN] = below(2);
    w[DCMI_W_FRAME_A] = below(3);
    w[DCMI_W_FRAME_B] = below(3);
    w[DCMI_W_LATEST] = below(2);
    /* Places of few words, which there may be room for. */
    if (chance(1, 2) && w[DCMI_W_PLACE] > 8) w[DCMI_W_PLACE] = below(8);
    if (chance(1, 2) && w[DCMI_W_PLACE_B] > 8) w[DCMI_W_PLACE_B] = below(8);
}

/* W2: an unused slot goes to B or opens a frame; in mode one that is no device. */
static void image_marks(uint32_t *w)
{
    const uint32_t held = w[DCMI_W_HELD];
    if (held < 32) w[chance(1, 2) ? DCMI_W_IN_B : DCMI_W_OPENING] |= UINT32_C(1) << between(held, 31);
}

/* W2: a word of mode two, beyond what it can be, or any. */
static void image_turns(uint32_t *w)
{
    static const struct { uint8_t word, most; } bounded[] = {
        { DCMI_W_MODE, 1 }, { DCMI_W_TURN, 1 }, { DCMI_W_BEGUN, 1 }, { DCMI_W_FRAME_A, 2 }, { DCMI_W_FRAME_B, 2 }, { DCMI_W_LATEST, 1 },
    };
    const unsigned i = below(6);
    if (chance(1, 3)) w[between(DCMI_W_MODE, DCMI_W_LATEST)] = chance(1, 2) ? 1 + below(3) : random_u32();
    else w[bounded[i].word] = bounded[i].most + 1 + (chance(1, 2) ? 0 : below(UINT32_MAX - 3));
}

/* JPEG with what it excludes: what the image has of it, or something of it more. */
static void image_no_jpeg(uint32_t *w)
{
    w[DCMI_W_CR] |= 0x8;
    if (w[DCMI_W_CR] & 0xC04 && chance(3, 4)) return;
    w[DCMI_W_CR] |= chance(1, 2) ? 0x4 : chance(1, 2) ? 0x10 : between(1, 3) << 10;
}

/* ESS with an EDM other than 0. */
static void image_no_ess(uint32_t *w)
{
    w[DCMI_W_CR] |= 0x10;
    if (!(w[DCMI_W_CR] & 0xC00)) w[DCMI_W_CR] |= between(1, 3) << 10;
}

/* Too many held words, the equation of counts kept; at times as many as a depth that is too large. */
static void image_overfull(uint32_t *w)
{
    const uint32_t depth = w[DCMI_W_DEPTH], more = depth + 1;
    const uint32_t held = chance(1, 2) ? more : chance(1, 2) ? between(more, more + 40) : w[DCMI_W_HELD] + (UINT32_C(1) << between(6, 30));
    if (held > 32 && chance(1, 4)) w[DCMI_W_DEPTH] = held;
    w[DCMI_W_SAMPLES] |= UINT32_C(1) << 31;
    w[DCMI_W_COMPLETED] = held + w[DCMI_W_LANDED] % 1000;
    w[DCMI_W_LANDED] %= 1000;
    w[DCMI_W_PLACE] %= w[DCMI_W_LANDED] + 1;
    w[DCMI_W_DISCARDED] = 0;
    w[DCMI_W_HELD] = held;
}

/* Counts that fulfil the equation only if it wraps. */
static void image_wrap(uint32_t *w)
{
    w[DCMI_W_LANDED] = w[DCMI_W_COMPLETED] + below(3) - w[DCMI_W_HELD];
    if (chance(1, 2)) w[DCMI_W_LANDED] = random_u32();
    w[DCMI_W_DISCARDED] = w[DCMI_W_COMPLETED] - w[DCMI_W_HELD] - w[DCMI_W_LANDED];
    if (w[DCMI_W_PLACE] > w[DCMI_W_LANDED]) w[DCMI_W_PLACE] = 0;
}

unsigned image_bounds(const uint32_t *w, unsigned word, uint32_t *values)
{
    static const uint32_t fixed[] = {
        0, 1, 2, 3, 4, 5, 7, 8, 9, 15, 16, 31, 32, 33, 0xFF, 0x100, 0x1FF, 0x3FF, 0x400, 0x3FFF, 0x4000, 0xFFFF, 0x10000, 0xFFFFFF, 0x1000000,
        0x1FFF3FFF, 0x20000000, 0x3FFF3FFF, 0x40000000, 0x80000000, 0xFFFFFFFE, 0xFFFFFFFF,
    };
    const uint64_t random = random_u64();
    const uint32_t near[] = {
        w[word] + 1, w[word] - 1, ~w[word], w[word] ^ 0x80000000, w[DCMI_W_SAMPLES], w[DCMI_W_SAMPLES] + 1, w[DCMI_W_LANDED],
        w[DCMI_W_LANDED] + 1, w[DCMI_W_COMPLETED] + 1, w[word] ^ UINT32_C(1) << (random & 31), w[word] ^ UINT32_C(1) << (random >> 8 & 15),
        (uint32_t)(random >> 32),
    };
    const unsigned first = sizeof fixed / sizeof *fixed, second = sizeof near / sizeof *near;
    memcpy(values, fixed, sizeof fixed);
    memcpy(values + first, near, sizeof near);
    return first + second;
}

/* A word of an image; the slots are as often chosen as four others. */
static unsigned any_word(void)
{
    enum { FEWER = DCMI_W_HELD - DCMI_W_SLOT - 4 };
    const unsigned word = below(DCMI_WORDS - FEWER);
    if (word < DCMI_W_SLOT) return word;
    return word < DCMI_W_SLOT + 4 ? between(DCMI_W_SLOT, DCMI_W_HELD - 1) : word + FEWER;
}

void image_damage(uint32_t *w)
{
    switch (below(32)) {
    case 26: case 27: image_marks(w); return;
    case 28: case 29: image_turns(w); return;
    case 30: w[DCMI_W_PLACE_B] = w[DCMI_W_LANDED] + 1 + (chance(1, 2) ? 0 : below(1000)); return;
    case 31: w[DCMI_W_PLACE] = w[DCMI_W_LANDED] + 1; return;
    case 0: image_wrap(w); return;
    case 1: case 2: image_overfull(w); return;
    case 3: w[DCMI_W_DEPTH] = bad_depth(); return;
    case 4: image_no_jpeg(w); return;
    case 5: image_no_ess(w); return;
    case 6: w[DCMI_W_WAITING] = chance(1, 2) ? 4 : between(4, UINT32_MAX); return;
    default: break;
    }
    uint32_t values[MOST_BOUNDS];
    const unsigned word = any_word(), count = image_bounds(w, word, values);
    w[word] = values[below(count)];
}

/* ---- trace files ---- */

static void trace_put(trace *t, uint8_t offset, uint32_t value)
{
    t->writes.offset[t->writes.count] = offset;
    t->writes.value[t->writes.count++] = value;
}

void trace_valid(trace *t, size_t count)
{
    scene s;
    const bool coded = chance(1, 6);
    const uint32_t cr = coded ? valid_ess() : valid_cr();
    uint32_t escr, esur;
    any_codes(&escr, &esur);
    t->writes.count = 0;
    if (chance(3, 4)) trace_put(t, DCMI_CWSTRT, valid_cwstrt());
    if (chance(3, 4)) trace_put(t, DCMI_CWSIZE, valid_cwsize());
    if (chance(1, 2)) trace_put(t, DCMI_IER, below(32));
    if (chance(1, 2)) trace_put(t, DCMI_ICR, below(32));
    if (coded || chance(1, 4)) trace_put(t, DCMI_ESCR, escr);
    if (coded || chance(1, 4)) trace_put(t, DCMI_ESUR, esur);
    if (chance(1, 4)) trace_put(t, DCMI_CR, cr & ~UINT32_C(1));
    if (chance(7, 8)) trace_put(t, DCMI_CR, cr);
    scene_make(&s, cr);
    t->count = count;
    if (coded) coded_samples(cr, escr, esur, t->samples, count);
    else scene_samples(&s, t->samples, count);
    if (count && chance(1, 4)) t->samples[below((uint32_t)count)] = 0x3FFFF;
}

void trace_full(trace *t, size_t count)
{
    scene s;
    const uint32_t cr = (valid_cr() | 0x1) & ~UINT32_C(0x4);
    t->writes.count = 0;
    trace_put(t, DCMI_CR, cr);
    scene_full(&s, cr);
    t->count = count;
    scene_samples(&s, t->samples, count);
}

static uint8_t *number_out(uint8_t *at, uint32_t value, unsigned bytes)
{
    for (unsigned i = 0; i < bytes; i++) *at++ = (uint8_t)(value >> 8 * i);
    return at;
}

size_t header_length(unsigned version) { return version == 1 ? 8 : 10; }

static uint8_t *header_out(uint8_t *at, unsigned version, size_t writes, size_t samples)
{
    at = number_out(at, 0x544746, 3); /* FGT */
    at = number_out(at, version, 2);
    at = number_out(at, (uint32_t)writes, 1);
    return number_out(at, (uint32_t)samples, version == 1 ? 2 : 4);
}

size_t trace_file_as(const trace *t, unsigned version, uint8_t *file)
{
    uint8_t *at = header_out(file, version, t->writes.count, t->count);
    for (size_t i = 0; i < t->writes.count; i++) {
        at = number_out(at, t->writes.offset[i], 1);
        at = number_out(at, t->writes.value[i], 4);
    }
    for (size_t i = 0; i < t->count; i++) at = number_out(at, t->samples[i], 3);
    return (size_t)(at - file);
}

size_t trace_file(const trace *t, uint8_t *file) { return trace_file_as(t, t->count > 16384 ? 2 : 1, file); }

size_t header_only(uint8_t *file)
{
    const size_t writes = below(3), items = below(6), fixed = header_length(2) + 5 * writes;
    const uint32_t times = between(1, 2);
    const uint64_t above = (uint64_t)times << (16 + 8 * below(3)); /* with 3 - times added, a multiple of 3 */
    uint64_t samples = random_u32() >> below(32);
    size_t length = fixed + below(20);
    switch (below(3)) {
    case 0: /* right without the upper bits of the length */
        samples = (above + 3 - times) / 3 + items;
        length = fixed + 3 - times + 3 * items;
        break;
    case 1: /* right without those of the number */
        samples = above + items;
        length = fixed + 3 * items;
        break;
    default: break;
    }
    random_bytes(file, 64);
    header_out(file, 2, writes, samples);
    if (chance(1, 4)) file[below(10)] = (uint8_t)random_u32();
    if (chance(1, 8)) file[4] = 1;
    return chance(1, 4) ? below(12) : length;
}

/* ---- a full picture ---- */

uint32_t picture_sample(picture *p)
{
    if (p->level == 0) p->random = p->random * 1664525u + 1013904223u;
    uint32_t sample = p->random >> 18 | p->level << 16;
    if (p->clock >= PICTURE_COLUMNS) sample |= 1u << 14;
    if (p->row < 5 || p->row >= 5 + PICTURE_LINES) sample |= 1u << 15;
    if (p->made++ % 4 == 3) sample |= 1u << 17;
    p->level ^= 1;
    if (p->level) return sample;
    if (++p->clock == 660) {
        p->clock = 0;
        if (++p->row == 490) p->row = 0;
    }
    return sample;
}
