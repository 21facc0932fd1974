/* The header alone, as C11 and (through header.cc) as C++17: its numbers, and each call once. */
#include <assert.h>

#include "dcmi.h"

/* The paper's numbers. */
static_assert(DCMI_OK == 0 && DCMI_MALFORMED == 1 && DCMI_NO_REGISTER == 2 && DCMI_ACCESS == 3 && DCMI_RESERVED == 4, "refusals 1 to 4");
static_assert(DCMI_UNSUPPORTED == 5 && DCMI_ENABLED == 6 && DCMI_SAMPLE_BITS == 7 && DCMI_SAMPLES == 8 && DCMI_START == 9, "refusals 5 to 9");
static_assert(DCMI_MARK == 10 && DCMI_VERSION == 11 && DCMI_COUNT == 12 && DCMI_LENGTH == 13, "refusals of files");
static_assert(DCMI_WRITES == 14 && DCMI_ROOM == 15, "refusals of the writer");
static_assert(DCMI_MODE == 16 && DCMI_DEPTH == 18, "refusals of a mode and of a depth");
static_assert(DCMI_NO_SAMPLE == 17 && DCMI_PICTURE_SIZE == 19 && DCMI_PICTURE == 20 && DCMI_SHEET == 21, "refusals that no call gives yet");
static_assert(DCMI_NO_FRAME == 0 && DCMI_FRAME_IN_A == 1 && DCMI_FRAME_IN_B == 2, "frames handed back");
static_assert(DCMI_TOO_SHORT_A == 3 && DCMI_TOO_SHORT_B == 4, "memories too short for one");
static_assert(DCMI_CR == 0x00 && DCMI_SR == 0x04 && DCMI_RIS == 0x08 && DCMI_IER == 0x0C && DCMI_MIS == 0x10, "offsets");
static_assert(DCMI_ICR == 0x14 && DCMI_ESCR == 0x18 && DCMI_ESUR == 0x1C && DCMI_CWSTRT == 0x20 && DCMI_CWSIZE == 0x24, "offsets");

static_assert((DCMI_CR_CAPTURE | DCMI_CR_CM | DCMI_CR_CROP | DCMI_CR_JPEG | DCMI_CR_ESS | DCMI_CR_PCKPOL | DCMI_CR_HSPOL | DCMI_CR_VSPOL) == 0xFF, "bits of CR");
static_assert(DCMI_CR_CAPTURE == 0x1 && DCMI_CR_CM == 0x2 && DCMI_CR_CROP == 0x4 && DCMI_CR_JPEG == 0x8 && DCMI_CR_ESS == 0x10, "bits of CR");
static_assert(DCMI_CR_PCKPOL == 0x20 && DCMI_CR_HSPOL == 0x40 && DCMI_CR_VSPOL == 0x80 && DCMI_CR_ENABLE == 0x4000, "bits of CR");
static_assert(DCMI_CR_FCRC == 0x300 && DCMI_CR_FCRC_ALL == 0 && DCMI_CR_FCRC_SECOND == 0x100 && DCMI_CR_FCRC_FOURTH == 0x200, "FCRC");
static_assert(DCMI_CR_EDM == 0xC00 && DCMI_CR_EDM_8 == 0 && DCMI_CR_EDM_10 == 0x400 && DCMI_CR_EDM_12 == 0x800 && DCMI_CR_EDM_14 == 0xC00, "EDM");
static_assert(DCMI_FLAG_FRAME == 1 && DCMI_FLAG_OVR == 2 && DCMI_FLAG_ERR == 4 && DCMI_FLAG_VSYNC == 8 && DCMI_FLAG_LINE == 16, "flags");
static_assert(DCMI_SR_HSYNC == 1 && DCMI_SR_VSYNC == 2 && DCMI_SR_FNE == 4, "bits of SR");
static_assert(DCMI_PIN_HSYNC == 0x4000 && DCMI_PIN_VSYNC == 0x8000 && DCMI_PIN_CLOCK == 0x10000 && DCMI_GRANT == 0x20000, "bits of a sample");

/* The layout that the library was built with. */
static_assert(sizeof(dcmi_device) == 268 && sizeof(dcmi_answer) == 32 && sizeof(dcmi_frame) == 24 && sizeof(dcmi_item) == 32, "sizes");
static_assert(DCMI_WORDS == 67 && DCMI_W_PARTIAL_BITS == 15 && DCMI_W_SLOT == 16 && DCMI_W_HELD == 48, "words of a device");
static_assert(DCMI_W_DISCARDED == 53 && DCMI_W_DEPTH == 54 && DCMI_W_ESCR == 55 && DCMI_W_ESUR == 56, "words of a device");
static_assert(DCMI_W_WAITING == 57 && DCMI_W_MODE == 58 && DCMI_W_PLACE_B == 59 && DCMI_W_IN_B == 60 && DCMI_W_OPENING == 61, "words of a device");
static_assert(DCMI_W_TURN == 62 && DCMI_W_BEGUN == 63 && DCMI_W_FRAME_A == 64 && DCMI_W_FRAME_B == 65, "words of a device");
static_assert(DCMI_W_LATEST == DCMI_WORDS - 1, "words of a device");

/* Each expression is a call that must answer as said; the exit status is the number of the first that does not. */
int main(void)
{
    static dcmi_device device;
    static dcmi_answer answer;
    static dcmi_item item;
    static dcmi_frame frame;
    static dcmi_writes writes;
    static uint8_t memory[16], other[8], file[64];
    uint32_t value = 0, line = 9, sample = 0x3FFFF;
    size_t written = 0;

    if (dcmi_reset(&device) != DCMI_OK || device.word[DCMI_W_DEPTH] != 4) return 1;
    if (dcmi_write(&device, DCMI_CR, 0x48E3) != DCMI_OK) return 2;
    if (dcmi_read(&device, DCMI_CR, &value) != DCMI_OK || value != 0x48E3) return 3;
    if (dcmi_interrupt(&device, &line) != DCMI_OK || line != 0) return 4;
    if (dcmi_sample(&device, memory, sizeof memory, 0, sample, &answer) != DCMI_OK || answer.packed != DCMI_NOTHING) return 5;
    if (dcmi_run(&device, memory, sizeof memory, 0, &sample, 1) != DCMI_OK) return 6;
    if (dcmi_rearm(&device) != DCMI_OK || device.word[DCMI_W_SAMPLES] != 2) return 7;
    writes.count = 1;
    writes.offset[0] = DCMI_CR;
    writes.value[0] = 0x48E3;
    if (dcmi_trace_write(&writes, &sample, 1, file, sizeof file, &written) != DCMI_OK || written != 16) return 8;
    if (dcmi_trace_item(file, written, 1, &item) != DCMI_OK || item.kind != DCMI_SAMPLE || item.value != sample) return 9;
    if (dcmi_run_file(&device, file, written, memory, sizeof memory, 0) != DCMI_OK || device.word[DCMI_W_SAMPLES] != 1) return 10;
    if (dcmi_run_file_depth(&device, 32, file, written, memory, sizeof memory, 0) != DCMI_OK || device.word[DCMI_W_DEPTH] != 32) return 11;
    if (dcmi_reset_depth(&device, 33) != DCMI_DEPTH || device.word[DCMI_W_SAMPLES] != 1) return 12;
    if (dcmi_reset_depth(&device, 1) != DCMI_OK || device.word[DCMI_W_DEPTH] != 1 || device.word[DCMI_W_SAMPLES] != 0) return 13;

    if (dcmi_two_buffers(&device) != DCMI_OK || device.word[DCMI_W_MODE] != 1) return 14;
    if (dcmi_sample_two(&device, memory, sizeof memory, 0, other, sizeof other, 8, sample, &answer) != DCMI_OK || answer.landed != 0) return 15;
    if (dcmi_run_two(&device, memory, sizeof memory, 0, other, sizeof other, 8, &sample, 1) != DCMI_OK || device.word[DCMI_W_SAMPLES] != 2) return 16;
    if (dcmi_latest_frame(&device, sizeof memory, 0, sizeof other, 8, &frame) != DCMI_OK || frame.kind != DCMI_NO_FRAME) return 17;
    if (dcmi_latest_frame(&device, sizeof memory, 0, sizeof other, 9, &frame) != DCMI_START) return 18;
    if (dcmi_run(&device, memory, sizeof memory, 0, &sample, 1) != DCMI_MODE) return 19;

    /* Null pointers beside a length of 0. */
    if (dcmi_sample_two(&device, NULL, 0, 0, NULL, 0, 0, sample, &answer) != DCMI_OK) return 20;
    if (dcmi_run_two(&device, NULL, 0, 0, NULL, 0, 0, NULL, 0) != DCMI_OK) return 21;
    if (dcmi_one_buffer(&device) != DCMI_OK || device.word[DCMI_W_MODE] != 0) return 22;
    if (dcmi_sample(&device, NULL, 0, 0, sample, &answer) != DCMI_OK) return 23;
    if (dcmi_run(&device, NULL, 0, 0, NULL, 0) != DCMI_OK) return 24;
    if (dcmi_run_file(&device, NULL, 0, NULL, 0, 0) != DCMI_LENGTH) return 25;
    if (dcmi_run_file_depth(&device, 4, NULL, 0, NULL, 0, 0) != DCMI_LENGTH) return 26;
    if (dcmi_run_file_depth(&device, 0, NULL, 0, NULL, 0, 0) != DCMI_DEPTH) return 27;
    if (dcmi_trace_write(&writes, NULL, 0, NULL, 0, &written) != DCMI_ROOM) return 28;
    if (dcmi_trace_item(NULL, 0, 0, &item) != DCMI_LENGTH) return 29;
    return 0;
}
