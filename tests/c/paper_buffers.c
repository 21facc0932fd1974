/* The paper's examples of two frame buffers in turn, W2. */
#include <string.h>

#include "paper.h"

/* W2. Edges of a camera with all polarities 1, two samples each, in one run over both memories; A begins at byte 0, B at byte 4. */
enum { A_FROM = 0, B_FROM = 4, BLANK = HBLANK | VBLANK };

static void feed(const uint32_t *edges, size_t count)
{
    uint32_t samples[64];
    for (size_t i = 0; i < 2 * count; i++) samples[i] = edges[i / 2] | (i & 1) << 16;
    expect("W2, a run", 0, check_run_two(A_FROM, B_FROM, samples, 2 * count));
}

#define FEED(...) feed((const uint32_t[]){ __VA_ARGS__ }, sizeof (const uint32_t[]){ __VA_ARGS__ } / sizeof(uint32_t))
#define FEED_CODE(xy) FEED(CODE(xy))

/* A sample that grants and has no working edge: where a word lands, 1 in A, 2 in B, and at which byte. */
static void lands(const char *what, uint64_t in, uint64_t byte)
{
    dcmi_answer answer = { 9, 9, 9, 9 };
    expect(what, 0, check_sample_two(A_FROM, B_FROM, 0x2C000, &answer));
    expect(what, in, answer.landed);
    expect(what, byte, answer.byte);
    expect_answer(what, answer, DCMI_NOTHING, 0);
}

enum { IN_A = 1, IN_B = 2, BOTH = 2 };

static void hands(const char *what, uint64_t kind, uint64_t words)
{
    dcmi_frame frame = { 9, 9, 9 };
    expect(what, 0, check_latest(A_FROM, B_FROM, &frame));
    expect(what, kind, frame.kind);
    expect(what, kind == DCMI_FRAME_IN_B ? B_FROM : 0, frame.offset);
    expect(what, 4 * words, frame.length);
}

/* Handing back from memories of other lengths and starts. */
static void hands_of(const char *what, const size_t *of, uint32_t answer, uint64_t kind, uint64_t words)
{
    dcmi_frame frame = { 9, 9, 9 };
    expect(what, answer, check_latest_frame(of[0], of[1], of[2], of[3], &frame));
    if (answer) return;
    expect(what, kind, frame.kind);
    const bool in_a = kind == DCMI_FRAME_IN_A || kind == DCMI_TOO_SHORT_A, in_b = kind == DCMI_FRAME_IN_B || kind == DCMI_TOO_SHORT_B;
    expect(what, in_a ? of[1] : in_b ? of[3] : 0, frame.offset);
    expect(what, 4 * words, frame.length);
}

#define HANDS_OF(what, answer, kind, words, ...) hands_of(what, (const size_t[4]){ __VA_ARGS__ }, answer, kind, words)

static void expect_places(const char *what, uint32_t place_a, uint32_t place_b)
{
    expect(what, place_a, device()[DCMI_W_PLACE]);
    expect(what, place_b, device()[DCMI_W_PLACE_B]);
}

static void expect_word_b(const char *what, size_t at, uint32_t want)
{
    const uint8_t *byte = memory_b_bytes() + at;
    expect(what, want, byte[0] | (uint32_t)byte[1] << 8 | (uint32_t)byte[2] << 16 | (uint32_t)byte[3] << 24);
}

/* A fresh device of a depth in mode two; A has room for three words, B for two. */
static void two_set_up(uint32_t depth, uint32_t cr)
{
    check_reset_depth(depth);
    lend_memory(12);
    lend_memory_b(12);
    expect("W2, two buffers", 0, check_two_buffers());
    check_write(DCMI_ESCR, FOUR_CODES);
    check_write(DCMI_ESUR, UINT32_MAX);
    expect("W2, setting up", 0, check_write(DCMI_CR, cr));
}

enum { PAIRS = 0x48E1, BYTES = 0x40E9 }; /* CR: 12 bits, and JPEG; both continuous */

/* "The first after a mode change goes to A, the first word a frame completes switches to the other, such a word lands at place 0." */
static void paper_in_turn(void)
{
    two_set_up(4, PAIRS);
    hands("W2, fresh", DCMI_NO_FRAME, 0);
    FEED(BLANK, 1, 2);
    lands("W2, the first frame", IN_A, 0);
    hands("W2, the frame is open", DCMI_NO_FRAME, 0);
    FEED(BLANK);
    hands("W2, its end", DCMI_FRAME_IN_A, 1);
    FEED(3, 4);
    hands("W2, the second frame", DCMI_FRAME_IN_A, 1);
    lands("W2, the second frame", IN_B, 4);
    hands("W2, it has landed", DCMI_FRAME_IN_A, 1);
    FEED(BLANK);
    hands("W2, the later of two", DCMI_FRAME_IN_B, 1);
    FEED(5, 6, 7, 8);
    hands("W2, the third frame", DCMI_FRAME_IN_B, 1);
    expect("W2, the old frame in A", 2, device()[DCMI_W_FRAME_A]);
    lands("W2, place 0 again", IN_A, 0);
    expect("W2, it ceases", 1, device()[DCMI_W_FRAME_A]);
    hands("W2, it ceases", DCMI_FRAME_IN_B, 1);
    lands("W2, the next place", IN_A, 4);
    expect_places("W2, places", 2, 1);
    FEED(BLANK);
    hands("W2, the third frame's end", DCMI_FRAME_IN_A, 2);
    expect_word("W2, A", 0, 0x00060005);
    expect_word("W2, A", 4, 0x00080007);
    expect_word_b("W2, B", 4, 0x00040003);
    FEED(9, 10);
    lands("W2, B again", IN_B, 4);
    hands("W2, the older one is not asked for", DCMI_FRAME_IN_A, 2);
    FEED(BLANK, 11, 12, 13, 14);
    lands("W2, A again", IN_A, 0);
    hands("W2, that in B", DCMI_FRAME_IN_B, 1);
    FEED(BLANK);
    lands("W2, A, the last word", IN_A, 4);
    hands("W2, that in A", DCMI_FRAME_IN_A, 2);
    FEED(15, 16, 17, 18, BLANK);
    lands("W2, on the older one", IN_B, 4);
    hands("W2, the older one has ceased", DCMI_FRAME_IN_A, 2);
    lands("W2, its last word", IN_B, 8);
    hands("W2, that in B", DCMI_FRAME_IN_B, 2);
    FEED(19, 20, 21, 22);
    lands("W2, on the latest but one", IN_A, 0);
    FEED(BLANK, BLANK);
    lands("W2, its last word", IN_A, 4);
    FEED(23, 24, 25, 26);
    lands("W2, on the older one", IN_B, 4);
    hands("W2, the latest stays", DCMI_FRAME_IN_A, 2);
}

/* "All its words have landed": at the last landing after the end, and of frames that wait one behind the other. If the latest ceases, the older one is it. */
static void paper_last_landing(void)
{
    two_set_up(4, PAIRS);
    FEED(BLANK, 1, 2, BLANK, 3, 4, BLANK);
    hands("W2, two frames wait", DCMI_NO_FRAME, 0);
    lands("W2, the first", IN_A, 0);
    hands("W2, the first", DCMI_FRAME_IN_A, 1);
    lands("W2, the second", IN_B, 4);
    hands("W2, the second", DCMI_FRAME_IN_B, 1);
    lands("W2, none is held", 0, 0);
    FEED(5, 6, BLANK, 7, 8, 9, 10);
    lands("W2, the third, of one word", IN_A, 0);
    hands("W2, the third", DCMI_FRAME_IN_A, 1);
    lands("W2, the fourth ends the second", IN_B, 4);
    hands("W2, the third stays", DCMI_FRAME_IN_A, 1);
    FEED(BLANK, 11, 12);
    lands("W2, the fourth", IN_B, 8);
    hands("W2, the fourth", DCMI_FRAME_IN_B, 2);
    FEED(BLANK, 13, 14);
    lands("W2, the fifth", IN_A, 0);
    hands("W2, the fifth, which has ended", DCMI_FRAME_IN_A, 1);
    lands("W2, the sixth", IN_B, 4);
    hands("W2, the fifth", DCMI_FRAME_IN_A, 1);

    two_set_up(4, PAIRS); /* the latest ceases, though the older one was complete before it */
    FEED(BLANK, 1, 2, BLANK, 3, 4, BLANK);
    lands("W2, A", IN_A, 0);
    lands("W2, B", IN_B, 4);
    FEED(5, BLANK, 6, BLANK);
    hands("W2, frames without a word", DCMI_FRAME_IN_B, 1);
    uint32_t image[DCMI_WORDS];
    memcpy(image, device(), sizeof image);
    image[DCMI_W_TURN] = 0; /* so that the next frame goes to B */
    set_device(image);
    FEED(7, 8);
    lands("W2, on the latest", IN_B, 4);
    hands("W2, the older one is the latest again", DCMI_FRAME_IN_A, 1);
}

/* A grant in the sample of the frame end: the landing comes first. */
static void paper_same_sample(void)
{
    dcmi_answer answer = { 0, 0, 0, 0 };
    two_set_up(4, PAIRS);
    FEED(BLANK, 1, 2);
    check_sample_two(A_FROM, B_FROM, BLANK, NULL);
    check_sample_two(A_FROM, B_FROM, 0x30000 | BLANK, &answer);
    expect("W2, landed at the end", IN_A, answer.landed);
    hands("W2, landed at the end", DCMI_FRAME_IN_A, 1);
    two_set_up(1, PAIRS); /* the oldest makes room for a word of the same frame */
    FEED(BLANK, 1, 2, 3);
    check_sample_two(A_FROM, B_FROM, 4, NULL);
    check_sample_two(A_FROM, B_FROM, 0x30004, &answer);
    expect("W2, landed for another", IN_A, answer.landed);
    expect_answer("W2, landed for another", answer, DCMI_COMPLETED, 0x00040003);
    hands("W2, landed for another", DCMI_NO_FRAME, 0);
    FEED(BLANK);
    lands("W2, the other", IN_A, 4);
    hands("W2, the other", DCMI_FRAME_IN_A, 2);
}

/* "The first word a frame completes" switches also if it is lost; frames without a word do not. */
static void paper_switching(void)
{
    dcmi_answer answer = { 0, 0, 0, 0 };
    two_set_up(1, PAIRS);
    FEED(BLANK, 1, 2, BLANK, 3);
    check_sample_two(A_FROM, B_FROM, 4, NULL);
    check_sample_two(A_FROM, B_FROM, 0x10004, &answer);
    expect_answer("W2, the first word is lost", answer, DCMI_LOST, 0);
    expect_register("W2, overrun", DCMI_RIS, 0x1B);
    FEED(BLANK, 5, 6);
    lands("W2, after the lost one", IN_A, 0);

    two_set_up(4, PAIRS);
    FEED(BLANK, 1, BLANK, 2, BLANK, 3, 4);
    lands("W2, frames without a word", IN_A, 0);

    two_set_up(4, PAIRS); /* held and thrown away */
    FEED(BLANK, 1, 2);
    check_write(DCMI_CR, PAIRS & ~0x4001);
    check_write(DCMI_CR, PAIRS);
    FEED(BLANK, 3, 4);
    lands("W2, after one thrown away", IN_B, 4);

    two_set_up(2, BYTES); /* W4: the padded word is the first; then it is lost */
    FEED(BLANK, 1, BLANK, 2, BLANK, 3, BLANK);
    expect_device("W2, a padded first word is lost", 0, 0, 3, 0x1B);
    FEED(4, BLANK);
    lands("W2, the fourth goes to B", IN_B, 4);
    expect_word_b("W2, the fourth goes to B", 4, 4);
    hands("W2, the fourth", DCMI_FRAME_IN_B, 1);
}

/* "Room is room for each frame in its buffer." */
static void paper_room(void)
{
    two_set_up(4, PAIRS);
    lend_memory_b(4);
    FEED(BLANK, 1, 2, BLANK, 3, 4, BLANK, 5, 6);
    lands("W2, A has room", IN_A, 0);
    lands("W2, B has none", 0, 0);
    lands("W2, the word behind waits", 0, 0);
    lend_memory_b(8);
    lands("W2, B has room", IN_B, 4);
    lands("W2, the word behind", IN_A, 0);
    FEED(7, 8, BLANK, 9, 10, 11, 12);
    lands("W2, the next place", IN_A, 4);
    lands("W2, place 0", IN_B, 4);
    lands("W2, no room at place 1", 0, 0);
    FEED(BLANK);
    hands("W2, it waits", DCMI_FRAME_IN_A, 2);
    check_rearm();
    lands("W2, room at place 0", IN_B, 4);
    hands("W2, re-armed", DCMI_NO_FRAME, 0);
    two_set_up(4, PAIRS); /* that of the other plays no part */
    lend_memory(3);
    FEED(BLANK, 1, 2, BLANK, 3, 4);
    lands("W2, A has no room", 0, 0);
    lend_memory(4);
    lands("W2, A has room", IN_A, 0);
    lend_memory(0);
    lands("W2, B has room", IN_B, 4);
}

/* "That memory is too short": the latest frame's; an older one is not handed back for it. Accepted enabled, in a frame and disabled. */
static void paper_handing_back(void)
{
    two_set_up(4, PAIRS);
    FEED(BLANK, 1, 2, BLANK, 3, 4, 5, 6, BLANK);
    lands("W2, A", IN_A, 0);
    lands("W2, B", IN_B, 4);
    lands("W2, B", IN_B, 8);
    hands("W2, B", DCMI_FRAME_IN_B, 2);
    HANDS_OF("W2, too short by a byte", 0, DCMI_TOO_SHORT_B, 2, 12, 0, 11, 4);
    HANDS_OF("W2, too short without a byte", 0, DCMI_TOO_SHORT_B, 2, 12, 0, 8, 8);
    HANDS_OF("W2, it would do without the start", 0, DCMI_TOO_SHORT_B, 2, 12, 0, 8, 1);
    HANDS_OF("W2, A plays no part", 0, DCMI_FRAME_IN_B, 2, 0, 0, 8, 0);
    HANDS_OF("W2, at the end", 0, DCMI_FRAME_IN_B, 2, 12, 12, 100, 92);
    HANDS_OF("W2, far away", 0, DCMI_FRAME_IN_B, 2, 0, 0, SIZE_MAX, SIZE_MAX - 8);
    HANDS_OF("W2, far away, too short", 0, DCMI_TOO_SHORT_B, 2, 0, 0, SIZE_MAX, SIZE_MAX - 7);
    HANDS_OF("W2, start of A", 9, 0, 0, 3, 4, 12, 0);
    HANDS_OF("W2, start of B", 9, 0, 0, 12, 0, 3, 4);
    HANDS_OF("W2, start of A, B too short", 9, 0, 0, 3, 4, 4, 0);
    FEED(7, 8);
    hands("W2, in a frame", DCMI_FRAME_IN_B, 2);
    check_write(DCMI_CR, PAIRS & ~0x4001);
    hands("W2, disabled", DCMI_FRAME_IN_B, 2);
    check_write(DCMI_CR, PAIRS);
    hands("W2, enabled", DCMI_FRAME_IN_B, 2);
}

/* A frame of more than 4 GiB, handed in; and one of no word. */
static void paper_far_frame(void)
{
    uint32_t image[DCMI_WORDS] = {
        [DCMI_W_DEPTH] = 4, [DCMI_W_MODE] = 1, [DCMI_W_SAMPLES] = UINT32_MAX, [DCMI_W_COMPLETED] = UINT32_MAX, [DCMI_W_LANDED] = UINT32_MAX,
        [DCMI_W_PLACE] = UINT32_MAX, [DCMI_W_PLACE_B] = 0x40000000, [DCMI_W_FRAME_A] = 2, [DCMI_W_FRAME_B] = 2,
    };
    const size_t bytes = (size_t)4 * UINT32_MAX, above = (size_t)1 << 32;
    set_device(image);
    HANDS_OF("W2, a long frame", 0, DCMI_FRAME_IN_A, UINT32_MAX, bytes + 5, 5, 0, 0);
    HANDS_OF("W2, a long frame, too short", 0, DCMI_TOO_SHORT_A, UINT32_MAX, bytes + 4, 5, above, 0);
    HANDS_OF("W2, its low 32 bits", 0, DCMI_TOO_SHORT_A, UINT32_MAX, (uint32_t)bytes, 0, 0, 0);
    image[DCMI_W_LATEST] = 1;
    set_device(image);
    HANDS_OF("W2, a long frame in B", 0, DCMI_FRAME_IN_B, 0x40000000, 0, 0, above, 0);
    HANDS_OF("W2, a long frame in B, too short", 0, DCMI_TOO_SHORT_B, 0x40000000, above, 0, above - 1, 0);
    HANDS_OF("W2, its low 32 bits", 0, DCMI_TOO_SHORT_B, 0x40000000, above, 0, 0, 0);
    image[DCMI_W_PLACE_B] = 0;
    set_device(image);
    HANDS_OF("W2, no word", 0, DCMI_FRAME_IN_B, 0, above, 0, 7, 7);
}

/* "Ended by rule 4": not by an overrun, by disabling, by ERR. */
static void paper_not_ended(void)
{
    two_set_up(1, PAIRS);
    FEED(BLANK, 1, 2);
    lands("W2, before the overrun", IN_A, 0);
    FEED(3, 4, 5, 6, BLANK);
    expect_register("W2, overrun", DCMI_RIS, 0x1A);
    hands("W2, overrun", DCMI_NO_FRAME, 0);
    expect("W2, what landed", 1, device()[DCMI_W_FRAME_A]);

    two_set_up(4, PAIRS);
    FEED(BLANK, 1, 2);
    lands("W2, before disabling", IN_A, 0);
    check_write(DCMI_CR, PAIRS & ~0x4001);
    hands("W2, disabled", DCMI_NO_FRAME, 0);
    check_write(DCMI_CR, PAIRS);
    FEED(BLANK, 3, 4);
    lands("W2, the turn stays", IN_B, 4);
    hands("W2, the next one is open", DCMI_NO_FRAME, 0);
    FEED(BLANK);
    hands("W2, the next one", DCMI_FRAME_IN_B, 1);

    two_set_up(4, PAIRS); /* a frame that had ended, a word of which is discarded */
    FEED(BLANK, 1, 2, 3, 4, BLANK);
    lands("W2, its first word", IN_A, 0);
    check_write(DCMI_CR, PAIRS & ~0x4001);
    hands("W2, its second was discarded", DCMI_NO_FRAME, 0);

    two_set_up(4, CONTINUOUS);
    FEED_CODE(FS);
    FEED(1, 2, 3, 4);
    lands("W2, before ERR", IN_A, 0);
    FEED_CODE(LS);
    expect_register("W2, ERR", DCMI_RIS, 0x04);
    hands("W2, ERR", DCMI_NO_FRAME, 0);
    FEED_CODE(FS);
    FEED(5, 6, 7, 8);
    lands("W2, after ERR", IN_B, 4);
    FEED_CODE(FE);
    hands("W2, a frame end code", DCMI_FRAME_IN_B, 1);
    FEED_CODE(LS);
    hands("W2, ERR leaves it", DCMI_FRAME_IN_B, 1);

    two_set_up(1, BYTES); /* W4: the padded word is lost */
    FEED(BLANK, 1, 2, 3, 4, 5, BLANK);
    lands("W2, padded and lost", 0, 0);
    hands("W2, padded and lost", DCMI_NO_FRAME, 0);
    two_set_up(1, BYTES);
    FEED(BLANK, 1, 2, 3, 4);
    lands("W2, before it", IN_A, 0);
    FEED(5, 6, 7, 8, 9, BLANK);
    expect_device("W2, padded and lost, one had landed", 1, 0, 2, 0x1A);
    hands("W2, padded and lost, one had landed", DCMI_NO_FRAME, 0);
    two_set_up(2, BYTES);
    FEED(BLANK, 1, 2, 3, 4, 5, BLANK);
    lands("W2, padded and held", IN_A, 0);
    hands("W2, padded and held", DCMI_NO_FRAME, 0);
    lands("W2, the padded word", IN_A, 4);
    expect_word("W2, the padded word", 4, 5);
    hands("W2, the padded word", DCMI_FRAME_IN_A, 2);
}

/* A frame without a word ends after one that was closed otherwise, or in another's turn: nothing becomes complete. W1: nor where FRAME rises early. */
static void paper_other_ends(void)
{
    two_set_up(4, PAIRS);
    FEED(BLANK, 1, 2);
    lands("W2, before disabling", IN_A, 0);
    check_write(DCMI_CR, PAIRS & ~0x4001);
    check_write(DCMI_CR, PAIRS);
    FEED(BLANK, 3, BLANK);
    hands("W2, a frame without a word ends after it", DCMI_NO_FRAME, 0);
    check_write(DCMI_CR, PAIRS & ~0x4001);
    check_write(DCMI_CR, 0x49E1); /* every second frame */
    FEED(BLANK, 4, 5, BLANK, 6, 7);
    expect("W2, an untaken frame", 1, device()[DCMI_W_FRAME]);
    expect("W2, an untaken frame", 1, device()[DCMI_W_HELD]);
    FEED(BLANK);
    lands("W2, the taken one", IN_B, 4);
    hands("W2, the taken one", DCMI_FRAME_IN_B, 1);

    for (unsigned snapshot = 0; snapshot < 2; snapshot++) { /* the window is line 0, columns 0 and 1 */
        const uint32_t cr = PAIRS | 0x4 | snapshot << 1;
        two_set_up(4, PAIRS & ~0x4001);
        check_write(DCMI_CWSIZE, 1);
        check_write(DCMI_CR, cr);
        FEED(BLANK, 1, 2);
        lands("W2, in the window", IN_A, 0);
        FEED(HBLANK);
        expect_register("W2, an early FRAME", DCMI_RIS, 0x19);
        hands("W2, an early FRAME", DCMI_NO_FRAME, 0);
        FEED(3, 4, BLANK);
        hands("W2, the frame end", DCMI_FRAME_IN_A, 1);
        expect_register("W2, CAPTURE", DCMI_CR, snapshot ? cr & ~UINT32_C(1) : cr);
    }
}

/* "Have landed since the last re-arming." */
static void paper_rearming(void)
{
    two_set_up(4, PAIRS);
    FEED(BLANK, 1, 2);
    lands("W2, before re-arming", IN_A, 0);
    check_rearm();
    expect_places("W2, re-armed", 0, 0);
    FEED(3, 4);
    lands("W2, from place 0 on", IN_A, 0);
    FEED(BLANK);
    hands("W2, one landed before", DCMI_NO_FRAME, 0);
    FEED(5, 6, 7, 8, BLANK);
    lands("W2, before re-arming", IN_B, 4);
    check_rearm();
    lands("W2, from place 0 on", IN_B, 4);
    hands("W2, one landed before, at the last landing", DCMI_NO_FRAME, 0);

    two_set_up(4, PAIRS);
    FEED(BLANK, 1, 2);
    check_rearm();
    lands("W2, its first word was held", IN_A, 0);
    FEED(BLANK);
    hands("W2, its first word was held", DCMI_FRAME_IN_A, 1);
    check_rearm();
    hands("W2, re-armed", DCMI_NO_FRAME, 0);
    FEED(3, 4);
    lands("W2, the turn stays", IN_B, 4);
    FEED(BLANK);
    hands("W2, after re-arming", DCMI_FRAME_IN_B, 1);
}

/* "Setting it, also to the same, is a change and re-arms"; "mode change while enabled is 6". */
static void paper_modes(void)
{
    two_set_up(4, PAIRS);
    expect("W2, two while enabled", 6, check_two_buffers());
    expect("W2, one while enabled", 6, check_one_buffer());
    FEED(BLANK, 1, 2);
    lands("W2, it is still two", IN_A, 0);
    FEED(BLANK);
    check_write(DCMI_CR, PAIRS & ~0x4001);
    expect("W2, two again", 0, check_two_buffers());
    expect_places("W2, two again", 0, 0);
    hands("W2, two again", DCMI_NO_FRAME, 0);
    check_write(DCMI_CR, PAIRS);
    FEED(BLANK, 3, 4, BLANK, 5, 6);
    lands("W2, A first again", IN_A, 0);
    lands("W2, then B", IN_B, 4);
    check_write(DCMI_CR, PAIRS & ~0x4001);
    expect("W2, back to one", 0, check_one_buffer());
    for (unsigned i = DCMI_W_MODE; i < DCMI_WORDS; i++) expect("W2, words of mode one", 0, device()[i]);
    check_write(DCMI_CR, PAIRS);
    expect("W2, one while enabled, in mode one", 6, check_one_buffer());
    expect("W2, two while enabled, in mode one", 6, check_two_buffers());
    lend_memory(12);
    clocks(1, BLANK);
    clocks(1, 5);
    clocks(1, 6);
    dcmi_answer answer = { 9, 9, 9, 9 };
    check_sample(0, 0x2C000, &answer);
    expect("W2, one memory", 1, answer.landed);
    expect("W2, one memory", 0, answer.byte);
    expect("W2, its place", 1, device()[DCMI_W_PLACE]);
    check_write(DCMI_CR, PAIRS & ~0x4001);
    expect("W2, one again", 0, check_one_buffer());
    expect("W2, one again", 0, device()[DCMI_W_PLACE]);
}

/* 16 after 1 and before 9, 7, 8; 9 by either start. */
static void paper_mode_refusals(void)
{
    static const uint32_t bad = 0x40000;
    check_reset();
    lend_memory(4);
    lend_memory_b(3);
    expect("W2, two memories in mode one", 16, check_run_two(0, 0, NULL, 0));
    expect("W2, two memories in mode one, 9 and 7", 16, check_run_two(5, 4, &bad, 1));
    expect("W2, one sample over two in mode one", 16, check_sample_two(5, 4, bad, NULL));
    expect("W2, handing back in mode one", 16, check_latest(0, 0, NULL));
    expect("W2, handing back in mode one, 9", 16, check_latest(5, 4, NULL));
    check_two_buffers();
    expect("W2, one memory in mode two", 16, check_run(0, NULL, 0));
    expect("W2, one memory in mode two, 9 and 7", 16, check_run(5, &bad, 1));
    expect("W2, one sample over one in mode two", 16, check_sample(5, bad, NULL));
    expect("W2, the start of A", 9, check_run_two(5, 0, &bad, 1));
    expect("W2, the start of B", 9, check_run_two(0, 4, &bad, 1));
    expect("W2, the start of B, no sample", 9, check_run_two(0, 4, NULL, 0));
    expect("W2, the start of A, one sample", 9, check_sample_two(5, 3, bad, NULL));
    expect("W2, the start of B, one sample", 9, check_sample_two(4, 4, bad, NULL));
    expect("W2, both at their ends", 7, check_run_two(4, 3, &bad, 1));
    expect("W2, both at their ends", 7, check_sample_two(4, 3, bad, NULL));
    expect("W2, both at their ends", 0, check_run_two(4, 3, NULL, 0));
    expect("W2, handing back, both at their ends", 0, check_latest(4, 3, NULL));
    expect("W2, a read", 0, check_read(DCMI_SR, NULL));
    expect("W2, the line", 0, check_interrupt());
    uint32_t image[DCMI_WORDS];
    memcpy(image, device(), sizeof image);
    image[DCMI_W_DEPTH] = 0;
    for (unsigned mode = 0; mode < 2; mode++) {
        image[DCMI_W_MODE] = mode;
        image[DCMI_W_TURN] = mode;
        set_device(image);
        expect("W2, 1 before 16", 1, check_run(5, &bad, 1));
        expect("W2, 1 before 16", 1, check_sample(5, bad, NULL));
        expect("W2, 1 before 16", 1, check_run_two(5, 4, &bad, 1));
        expect("W2, 1 before 16", 1, check_sample_two(5, 4, bad, NULL));
        expect("W2, 1 before 16", 1, check_latest(5, 4, NULL));
        expect("W2, 1", 1, check_one_buffer());
        expect("W2, 1", 1, check_two_buffers());
        expect("W2, 1", 1, check_rearm());
        image[DCMI_W_CR] = 0x4000;
        set_device(image);
        expect("W2, 1 before 6", 1, check_one_buffer());
        expect("W2, 1 before 6", 1, check_two_buffers());
        image[DCMI_W_CR] = 0;
    }
}

/* A FIFO full of frames of one word, at every depth; then one frame that fills it, overrun by the next one's first word. */
static void paper_full_of_frames(uint32_t depth)
{
    two_set_up(depth, PAIRS);
    FEED(BLANK);
    for (uint32_t i = 0; i < depth; i++) FEED(2 * i + 1, 2 * i + 2, BLANK);
    expect("W2, each opens a frame", UINT32_MAX >> (32 - depth), device()[DCMI_W_OPENING]);
    expect("W2, every second is for B", 0xAAAAAAAA & (UINT32_MAX >> (32 - depth)), device()[DCMI_W_IN_B]);
    for (uint32_t i = 0; i < depth; i++) {
        lands("W2, in turn", i % 2 ? IN_B : IN_A, i % 2 ? B_FROM : A_FROM);
        hands("W2, in turn", i % 2 ? DCMI_FRAME_IN_B : DCMI_FRAME_IN_A, 1);
    }
    for (uint32_t i = 0; i < depth; i++) FEED(1, 2);
    FEED(BLANK);
    expect("W2, one opens a frame", 1, device()[DCMI_W_OPENING]);
    expect("W2, the turn", depth % 2, device()[DCMI_W_TURN]);
    FEED(3, 4);
    expect_device("W2, the next overruns", depth, 0, depth + 1, 0x1B);
    expect("W2, nothing is carried", 0, device()[DCMI_W_IN_B] | device()[DCMI_W_OPENING] | device()[DCMI_W_BEGUN]);
    expect("W2, the turn goes on", 1 - depth % 2, device()[DCMI_W_TURN]);
}

/* Images: each word at and beyond its bounds in both modes, each bit of an unused slot. */
static void paper_board_images(void)
{
    static const uint32_t most[] = { 1, 0, 0, 0, 1, 1, 2, 2, 1 }; /* from MODE on; the places and what slots carry are 0 in a fresh device */
    for (unsigned i = 0; i < 9; i++)
        for (uint32_t value = 0; value < 5; value++) {
            uint32_t image[DCMI_WORDS] = { [DCMI_W_DEPTH] = 4, [DCMI_W_MODE] = 1, [DCMI_W_TURN] = 1 };
            image[DCMI_W_MODE + i] = value;
            set_device(image);
            expect("W2, handed in, mode two", i ? value > most[i] : value != 1, check_rearm());
            uint32_t one[DCMI_WORDS] = { [DCMI_W_DEPTH] = 4 };
            one[DCMI_W_MODE + i] = value;
            set_device(one);
            expect("W2, handed in, mode one", i ? value != 0 : value > 1, check_rearm());
        }
    for (unsigned i = 0; i < 4; i++) {
        uint32_t image[DCMI_WORDS] = { [DCMI_W_DEPTH] = 4, [DCMI_W_MODE] = 1, [DCMI_W_SAMPLES] = 5, [DCMI_W_COMPLETED] = 5, [DCMI_W_LANDED] = 5 };
        image[DCMI_W_PLACE] = i == 1 ? 6 : 5;
        image[DCMI_W_PLACE_B] = i == 2 ? 6 : i == 3 ? UINT32_MAX : 5;
        set_device(image);
        expect("W2, both places", i != 0, check_rearm());
    }
    for (uint32_t held = 0; held <= 32; held++)
        for (uint32_t slot = 0; slot < 32; slot++)
            for (unsigned word = DCMI_W_IN_B; word <= DCMI_W_OPENING; word++) {
                uint32_t image[DCMI_WORDS] = {
                    [DCMI_W_CR] = PAIRS, [DCMI_W_DEPTH] = 32, [DCMI_W_MODE] = 1, [DCMI_W_HELD] = held, [DCMI_W_COMPLETED] = held, [DCMI_W_SAMPLES] = held,
                };
                image[word] = UINT32_C(1) << slot;
                set_device(image);
                expect("W2, what a slot carries", slot >= held, check_rearm());
            }
}

/* A device handed in with a frame begun and none open is taken at its word: its next word opens no frame. */
static void paper_begun(void)
{
    uint32_t image[DCMI_WORDS];
    for (unsigned enabled = 0; enabled < 2; enabled++) {
        two_set_up(4, PAIRS);
        if (!enabled) check_write(DCMI_CR, PAIRS & ~0x4001);
        memcpy(image, device(), sizeof image);
        image[DCMI_W_BEGUN] = 1;
        set_device(image);
        if (!enabled) check_write(DCMI_CR, PAIRS);
        FEED(BLANK, 1, 2, 3, 4);
        expect("W2, none opens a frame", 0, device()[DCMI_W_OPENING]);
        lands("W2, the turn is B", IN_B, 4);
        lands("W2, the turn is B", IN_B, 8);
        FEED(BLANK);
        hands("W2, no frame is known", DCMI_NO_FRAME, 0);
    }
}

/* Demand 3 over two memories: with d grants in every d times s samples, all of them together, no word is lost, and each lands within so many, in its frame's
 * buffer at its number in the frame, where it stands until another lands there. Frames of 0 to 20 pixels; those that complete a word go to A, B and so on. */
static void paper_two_grants(uint32_t depth, uint32_t cr, uint32_t s)
{
    enum { MOST = 24, START_A = 3, START_B = 8 };
    static uint8_t want[BOTH][4 * MOST + START_B];
    struct { uint32_t sample, word, frame, number; } noted[1024];
    uint32_t count = 0, landed = 0, frames = 0, number = 0, left = 2, pixel = 0;
    bool blank = true;
    two_set_up(depth, cr);
    lend_memory(4 * MOST + START_B);
    lend_memory_b(4 * MOST + START_B);
    memcpy(want[0], memory_bytes(), sizeof want[0]);
    memcpy(want[1], memory_b_bytes(), sizeof want[1]);
    for (uint32_t i = 0; i < 2000; i++) {
        if (i % 2 == 0 && left-- == 0) {
            blank = !blank;
            left = blank ? below(2) : below(21);
        }
        if (i % 2 == 0) pixel++;
        const uint32_t sync = blank ? BLANK : 0, granted = i % (s * depth) < depth;
        dcmi_answer answer = { 0, 0, 0, 0 };
        check_sample_two(START_A, START_B, granted << 17 | (i & 1) << 16 | sync | (pixel & 0xFF), &answer);
        if (answer.packed == DCMI_LOST) differs("W2, a word was lost");
        if (answer.landed) {
            const uint32_t to = noted[landed].frame % 2, at = (to ? START_B : START_A) + 4 * noted[landed].number;
            expect("W2, where a word landed", to + 1, answer.landed);
            expect("W2, where a word landed", at, answer.byte);
            if (i - noted[landed].sample > s * depth) differs("W2, a word landed late");
            for (unsigned k = 0; k < 4; k++) want[to][at + k] = (uint8_t)(noted[landed].word >> 8 * k);
            landed++;
        }
        if (answer.packed == DCMI_COMPLETED) {
            noted[count].sample = i;
            noted[count].word = (uint32_t)answer.value;
            noted[count].frame = frames;
            noted[count++].number = number++;
        }
        if (landed < count && i - noted[landed].sample >= s * depth) differs("W2, a word has not landed in time");
        if (blank && (i & 1) && number) frames++, number = 0; /* the frame has ended */
        if (memcmp(want[0], memory_bytes(), sizeof want[0]) || memcmp(want[1], memory_b_bytes(), sizeof want[1])) differs("W2, memory is another");
    }
    expect_register("W2, no overrun", DCMI_RIS, 0x19);
}

void paper_buffers(void)
{
    paper_in_turn();
    paper_last_landing();
    paper_same_sample();
    paper_switching();
    paper_room();
    paper_handing_back();
    paper_far_frame();
    paper_not_ended();
    paper_other_ends();
    paper_rearming();
    paper_modes();
    paper_mode_refusals();
    for (uint32_t depth = 1; depth <= 32; depth++) {
        paper_full_of_frames(depth);
        paper_two_grants(depth, PAIRS, 4);
        paper_two_grants(depth, BYTES, 4);
        paper_two_grants(depth, 0x40E1, 8);
    }
    paper_board_images();
    paper_begun();
}
