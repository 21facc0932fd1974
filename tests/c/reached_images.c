/* Images of devices, and what makes one malformed. */
#include "cases.h"

/* A fault is one line: its name, when an image has it, and the case, which counts where the image has no other. `w` are the words of the image, the other
 * names those of `device_faults` below. */

/* What makes an image one of no device; in mode one (W2) the words of two buffers are 0. */
#define IMAGE_FAULTS(X) \
    X(NO_LEVEL, w[DCMI_W_HSYNC] > 1 || w[DCMI_W_VSYNC] > 1 || w[DCMI_W_CLOCK] > 1, "image: a pin level above 1, and nothing else") \
    X(NO_BLANK, w[DCMI_W_HSYNC_BLANKED] > 1 || w[DCMI_W_VSYNC_BLANKED] > 1, "image: a remembered blanking above 1, and nothing else") \
    X(NO_FRAME, w[DCMI_W_FRAME] > 2, "image: frame above 2, and nothing else") \
    X(NO_WAITING, w[DCMI_W_WAITING] > 3, "W6: image: more than 3 bytes wait, and nothing else") \
    X(NO_LINES, closed && w[DCMI_W_LINES], "image: lines in a closed frame, and nothing else") \
    X(NO_PIXELS, closed && w[DCMI_W_PIXELS], "image: pixels in a closed frame, and nothing else") \
    X(NO_MODE, !one && !two, "W2: image: mode above 1, and nothing else") \
    X(NO_ONE_PLACE_B, one && w[DCMI_W_PLACE_B], "W2: image: mode one, PLACE_B not 0, and nothing else") \
    X(NO_ONE_IN_B, one && w[DCMI_W_IN_B], "W2: image: mode one, IN_B not 0, and nothing else") \
    X(NO_ONE_OPENING, one && w[DCMI_W_OPENING], "W2: image: mode one, OPENING not 0, and nothing else") \
    X(NO_ONE_TURN, one && w[DCMI_W_TURN], "W2: image: mode one, TURN not 0, and nothing else") \
    X(NO_ONE_BEGUN, one && w[DCMI_W_BEGUN], "W2: image: mode one, BEGUN not 0, and nothing else") \
    X(NO_ONE_FRAME_A, one && w[DCMI_W_FRAME_A], "W2: image: mode one, FRAME_A not 0, and nothing else") \
    X(NO_ONE_FRAME_B, one && w[DCMI_W_FRAME_B], "W2: image: mode one, FRAME_B not 0, and nothing else") \
    X(NO_ONE_LATEST, one && w[DCMI_W_LATEST], "W2: image: mode one, LATEST not 0, and nothing else") \
    X(NO_TURN, two && w[DCMI_W_TURN] > 1, "W2: image: mode two, TURN above 1, and nothing else") \
    X(NO_BEGUN, two && w[DCMI_W_BEGUN] > 1, "W2: image: mode two, BEGUN above 1, and nothing else") \
    X(NO_FRAME_A, two && w[DCMI_W_FRAME_A] > 2, "W2: image: mode two, FRAME_A above 2, and nothing else") \
    X(NO_FRAME_B, two && w[DCMI_W_FRAME_B] > 2, "W2: image: mode two, FRAME_B above 2, and nothing else") \
    X(NO_LATEST, two && w[DCMI_W_LATEST] > 1, "W2: image: mode two, LATEST above 1, and nothing else")

/* What makes a device malformed; BESIDE is for a fault that cannot be the only one. */
#define DEVICE_FAULTS(X, BESIDE) \
    X(M_DEPTH_0, depth == 0, "malformed: depth 0, and nothing else") \
    X(M_DEPTH_33, depth == SLOTS + 1, "malformed: depth 33, and nothing else") \
    X(M_DEPTH_ABOVE, depth > SLOTS + 1, "malformed: depth above 33, and nothing else") \
    X(M_HELD, held > depth, "malformed: more held than the depth, and nothing else") \
    X(M_SLOT, slots_not_0(w, held, depth), "malformed: unused slots below the depth not 0, and nothing else") \
    X(M_SLOT_BEYOND, slots_not_0(w, held > depth ? held : depth, SLOTS), "malformed: slots beyond the depth not 0, and nothing else") \
    X(M_PARTIAL, data < full && w[DCMI_W_PARTIAL_BITS] >> used, "malformed: unused partial bits not 0, and nothing else") \
    X(M_DATA, data >= full, "malformed: as many partial data as a full word, and nothing else") \
    X(M_CR_RESERVED, cr & ~bits_of(DCMI_CR), "malformed: reserved bit of CR, and nothing else") \
    X(M_CR, unsupported(cr), "malformed: CR contents of refusal 5, and nothing else") \
    X(M_CWSTRT, w[DCMI_W_CWSTRT] & ~bits_of(DCMI_CWSTRT), "malformed: reserved bit of CWSTRT, and nothing else") \
    X(M_CWSIZE, w[DCMI_W_CWSIZE] & ~bits_of(DCMI_CWSIZE), "malformed: reserved bit of CWSIZE, and nothing else") \
    X(M_RIS, w[DCMI_W_RIS] > 31, "malformed: RIS above 31, and nothing else") \
    X(M_IER, w[DCMI_W_IER] > 31, "malformed: IER above 31, and nothing else") \
    X(M_OFF_FRAME, off && w[DCMI_W_FRAME], "malformed: a frame open, ENABLE 0, and nothing else") \
    X(M_OFF_HELD, off && held, "malformed: a held word, ENABLE 0, and nothing else") \
    BESIDE(M_OFF_PARTIAL, off && data, "malformed: a partial word, ENABLE 0") \
    X(M_OFF_RATE, off && w[DCMI_W_RATE], "malformed: rate counter above 0, ENABLE 0, and nothing else") \
    X(M_UNTAKEN, data && w[DCMI_W_FRAME] != 2, "malformed: a partial word outside a taken frame, and nothing else") \
    X(M_RATE, w[DCMI_W_RATE] >> fcrc(cr), "malformed: rate counter not below its modulus, and nothing else") \
    X(M_LINES, w[DCMI_W_LINES] > most, "malformed: lines above samples, and nothing else") \
    X(M_PIXELS, w[DCMI_W_PIXELS] > most, "malformed: pixels above samples, and nothing else") \
    X(M_COMPLETED, w[DCMI_W_COMPLETED] > most, "malformed: completed above samples, and nothing else") \
    X(M_PLACE, !two && w[DCMI_W_PLACE] > landed, "malformed: place above landed, and nothing else") \
    X(M_PLACE_TWO, two && w[DCMI_W_PLACE] > landed, "W2: malformed: mode two, place of A above landed, and nothing else") \
    X(M_PLACE_B, w[DCMI_W_PLACE_B] > landed, "W2: malformed: mode two, place of B above landed, and nothing else") \
    X(M_IN_B, from_on(w[DCMI_W_IN_B], held), "W2: malformed: mode two, an unused slot goes to B, and nothing else") \
    X(M_OPENING, from_on(w[DCMI_W_OPENING], held), "W2: malformed: mode two, an unused slot opens, and nothing else") \
    X(M_EQUATION, w[DCMI_W_COMPLETED] != (uint64_t)landed + held + w[DCMI_W_DISCARDED], "malformed: equation of counts, and nothing else")

#define FAULT_NAME(name, holds, text) name,
#define FAULT_BIT(name, holds, text) | (uint64_t)((holds) != 0) << name
#define FAULT_ALONE(name, holds, text) SEEN(text, faults == UINT64_C(1) << name);
#define FAULT_BESIDE(name, holds, text) SEEN(text, faults >> name & 1);

enum { IMAGE_FAULTS(FAULT_NAME) DEVICE_FAULTS(FAULT_NAME, FAULT_NAME) FAULTS };

/* Whether unused slots from one on are not 0, before another. */
static bool slots_not_0(const uint32_t *w, uint32_t first, uint32_t end)
{
    for (uint32_t i = first; i < end && i < SLOTS; i++)
        if (w[DCMI_W_SLOT + i]) return true;
    return false;
}

/* Whether a bit is set at or above a number. */
static bool from_on(uint32_t bits, uint32_t number) { return number < 32 && bits >> number; }

static uint64_t image_faults(const uint32_t *w)
{
    const bool closed = w[DCMI_W_FRAME] == 0, one = w[DCMI_W_MODE] == 0, two = w[DCMI_W_MODE] == 1;
    return 0 IMAGE_FAULTS(FAULT_BIT);
}

static uint64_t device_faults(const uint32_t *w)
{
    const uint32_t depth = w[DCMI_W_DEPTH], cr = w[DCMI_W_CR], held = w[DCMI_W_HELD], data = w[DCMI_W_PARTIAL_COUNT], most = w[DCMI_W_SAMPLES];
    const uint32_t full = edm(cr) ? 2 : 4, used = data * (8 + 2 * edm(cr)), landed = w[DCMI_W_LANDED];
    const bool off = !(cr & ENABLE), two = w[DCMI_W_MODE] == 1;
    return 0 DEVICE_FAULTS(FAULT_BIT, FAULT_BIT);
}

/* The number of the one unused slot that is not 0; 0 if there are several. */
static uint32_t only_slot(const uint32_t *w)
{
    uint32_t found = 0, count = 0;
    for (uint32_t i = w[DCMI_W_HELD]; i < SLOTS; i++) {
        if (!w[DCMI_W_SLOT + i]) continue;
        found = i + 1;
        count++;
    }
    return count == 1 ? found : 0;
}

/* W2: so of the one bit of an unused slot. */
static uint32_t only_mark(uint32_t bits, uint32_t held)
{
    for (uint32_t i = held; i < SLOTS; i++)
        if (bits >> held << held == UINT32_C(1) << i) return i + 1;
    return 0;
}

/* W2: what a well-formed device in mode two may be. */
static void reached_board(const uint32_t *w)
{
    const bool off = !(w[DCMI_W_CR] & ENABLE), closed = !w[DCMI_W_FRAME];
    const uint32_t held = w[DCMI_W_HELD], landed = w[DCMI_W_LANDED];
    if (w[DCMI_W_MODE] == 0) return;
    SEEN("W2: a disabled device with a frame begun is well-formed", off && w[DCMI_W_BEGUN]);
    SEEN("W2: an enabled one with a frame begun and none open is well-formed", !off && closed && w[DCMI_W_BEGUN]);
    SEEN("W2: one whose oldest word goes to B and opens none is well-formed", held && (w[DCMI_W_IN_B] & 1) && !(w[DCMI_W_OPENING] & 1));
    SEEN("W2: one whose last held word is not for the turn is well-formed", held && (w[DCMI_W_IN_B] >> (held - 1) & 1) != w[DCMI_W_TURN]);
    SEEN("W2: one with a complete frame at place 0 is well-formed",
         (w[DCMI_W_FRAME_A] == 2 && !w[DCMI_W_PLACE]) || (w[DCMI_W_FRAME_B] == 2 && !w[DCMI_W_PLACE_B]));
    SEEN("W2: one with both places as high as landed is well-formed", landed && w[DCMI_W_PLACE] == landed && w[DCMI_W_PLACE_B] == landed);
}

/* A device of one fault: which depth, slot or bits it is about. */
static void reached_fault(const uint32_t *w, uint64_t faults)
{
    const uint32_t depth = w[DCMI_W_DEPTH], held = w[DCMI_W_HELD];
    const bool too_deep = faults == UINT64_C(1) << M_DEPTH_33 || faults == UINT64_C(1) << M_DEPTH_ABOVE;
    const bool slot = faults == UINT64_C(1) << M_SLOT || faults == UINT64_C(1) << M_SLOT_BEYOND, contents = faults == UINT64_C(1) << M_CR;
    SEEN("malformed: depth above 32 and as many held, and nothing else", too_deep && held == depth);
    SEEN_AT("malformed: one more held than the depth, and nothing else", depth, faults == UINT64_C(1) << M_HELD && held == depth + 1);
    if (slot) SEEN_AT("malformed: one unused slot not 0, for each slot, and nothing else", only_slot(w), true);
    if (faults == UINT64_C(1) << M_IN_B)
        SEEN_AT("W2: malformed: one unused slot goes to B, for each, and nothing else", only_mark(w[DCMI_W_IN_B], held), true);
    if (faults == UINT64_C(1) << M_OPENING)
        SEEN_AT("W2: malformed: one unused slot opens, for each, and nothing else", only_mark(w[DCMI_W_OPENING], held), true);
    if (!contents) return;
    const uint32_t jpeg = beside_jpeg(w[DCMI_W_CR]), ess = beside_ess(w[DCMI_W_CR]);
    SEEN("W4: malformed: JPEG 1 with CROP 1, and nothing else", jpeg == CROP);
    SEEN("W4: malformed: JPEG 1 with EDM 1, and nothing else", jpeg == 1 << 10);
    SEEN("W4: malformed: JPEG 1 with EDM 2, and nothing else", jpeg == 2 << 10);
    SEEN("W4: malformed: JPEG 1 with EDM 3, and nothing else", jpeg == 3 << 10);
    SEEN("W4: malformed: JPEG 1 with ESS 1, and nothing else", jpeg == ESS);
    SEEN("W6: malformed: ESS 1 with EDM 1, and nothing else", ess == 1 << 10);
    SEEN("W6: malformed: ESS 1 with EDM 2, and nothing else", ess == 2 << 10);
    SEEN("W6: malformed: ESS 1 with EDM 3, and nothing else", ess == 3 << 10);
}

bool reached_image(const uint32_t *image)
{
    uint64_t faults = image_faults(image);
    if (!faults) faults = device_faults(image);
    SEEN("W6: a disabled device with bytes waiting is well-formed", !faults && image[DCMI_W_WAITING] && !(image[DCMI_W_CR] & ENABLE));
    if (!faults) reached_board(image);
    if (!faults) return false;
    IMAGE_FAULTS(FAULT_ALONE)
    DEVICE_FAULTS(FAULT_ALONE, FAULT_BESIDE)
    reached_fault(image, faults);
    return true;
}
