#include <inttypes.h>
#include <stdio.h>

#include "dcmi.h"

static uint32_t samples[2];
static size_t sent;

/* One pixel clock: two samples, the second at the working edge. Every fourth sample grants. */
static void clock_pins(uint32_t pins)
{
    for (int level = 0; level < 2; level++, sent++) samples[level] = pins | (level ? DCMI_PIN_CLOCK : 0) | (sent % 4 == 3 ? DCMI_GRANT : 0);
}

int main(void)
{
    uint8_t a[16] = { 0 }, b[16] = { 0 };
    dcmi_device device;
    dcmi_frame frame;

    dcmi_reset(&device);
    uint32_t number = dcmi_two_buffers(&device);
    if (number == DCMI_OK) /* 0x48E1 */
        number = dcmi_write(&device, DCMI_CR, DCMI_CR_ENABLE | DCMI_CR_EDM_12 | DCMI_CR_VSPOL | DCMI_CR_HSPOL | DCMI_CR_PCKPOL | DCMI_CR_CAPTURE);
    for (uint32_t clock = 0; number == DCMI_OK && clock < 30; clock++) {
        const uint32_t picture = clock / 9 + 1, place = clock % 9;
        clock_pins(place >= 4 && place < 8 ? picture * 256 + place : DCMI_PIN_VSYNC | DCMI_PIN_HSYNC); /* four clocks blank, four pixels, one blank */
        number = dcmi_run_two(&device, a, sizeof a, 0, b, sizeof b, 8, samples, 2);
        if (number == DCMI_OK && place % 2 == 0) {
            number = dcmi_latest_frame(&device, sizeof a, 0, sizeof b, 8, &frame);
            printf("%s", place == 0 ? "picture" : ",");
            if (place == 0) printf(" %" PRIu32 ":", picture);
            if (frame.kind == DCMI_NO_FRAME) printf(" none");
            else if (frame.kind == DCMI_FRAME_IN_A) printf(" A %02X", a[frame.offset + 1]);
            else if (frame.kind == DCMI_FRAME_IN_B) printf(" B %02X", b[frame.offset + 1]);
            else printf(" too short");
            if (place == 8 || clock == 29) printf("\n");
        }
    }
    if (number != DCMI_OK) return printf("refused %" PRIu32 ": %s\n", number, dcmi_refusal_text(number)), (int)number;
    printf("the last has %" PRIu64 " bytes from byte %" PRIu64 " of %c on\n", frame.length, frame.offset, frame.kind == DCMI_FRAME_IN_A ? 'A' : 'B');
    return 0;
}
