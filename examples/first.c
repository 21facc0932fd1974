#include <inttypes.h>
#include <stdio.h>

#include "dcmi.h"

static const uint32_t trace_t[8] = { 0x0C000, 0x1C000, 0x00AAB, 0x10AAB, 0x0091B, 0x1091B, 0x2C000, 0x1C000 };

/* ENABLE, 12 bits, all polarities 1, a snapshot: 0x48E3. */
enum { SET_UP = DCMI_CR_ENABLE | DCMI_CR_EDM_12 | DCMI_CR_VSPOL | DCMI_CR_HSPOL | DCMI_CR_PCKPOL | DCMI_CR_CM | DCMI_CR_CAPTURE };

/* A refusal ends the program: its number is the exit status. */
static uint32_t number;
#define MUST(call) \
    do { \
        if ((number = (call)) != DCMI_OK) return printf("refused %" PRIu32 ", %s: %s\n", number, dcmi_refusal_text(number), #call), (int)number; \
    } while (0)

int main(void)
{
    dcmi_device device;
    dcmi_answer answer;
    uint8_t memory[16] = { 0 }, file[8 + 5 * 255 + 3 * 16384];
    uint32_t cr, ris, sr;

    MUST(dcmi_reset(&device));
    MUST(dcmi_write(&device, DCMI_CR, SET_UP));
    for (int i = 0; i < 8; i++) {
        MUST(dcmi_sample(&device, memory, sizeof memory, 0, trace_t[i], &answer));
        printf("%05" PRIX32, trace_t[i]);
        if (answer.packed == DCMI_COMPLETED) printf(" completed %08" PRIX64, answer.value);
        if (answer.packed == DCMI_LOST) printf(" lost");
        if (answer.landed) printf(" landed at byte %" PRIu64, answer.byte);
        printf("\n");
    }
    MUST(dcmi_read(&device, DCMI_CR, &cr));
    MUST(dcmi_read(&device, DCMI_RIS, &ris));
    MUST(dcmi_read(&device, DCMI_SR, &sr));
    printf("CR %04" PRIX32 ", RIS %02" PRIX32 ", SR %" PRIX32 "; FRAME %s; memory %02X %02X %02X %02X\n", cr, ris, sr,
           ris & DCMI_FLAG_FRAME ? "has risen" : "has not risen", memory[0], memory[1], memory[2], memory[3]);
    number = dcmi_write(&device, DCMI_CR, SET_UP | 1 << 12);
    printf("a write of CR bit 12: %" PRIu32 ", %s\n", number, dcmi_refusal_text(number));

    FILE *in = fopen("samples/trace_t.fgt", "rb");
    if (!in) return perror("samples/trace_t.fgt"), 99;
    size_t length = fread(file, 1, sizeof file, in);
    fclose(in);
    MUST(dcmi_run_file(&device, file, length, memory, sizeof memory, 4));
    printf("the file, from byte 4: %" PRIu32 " samples, %" PRIu32 " landed, %" PRIu32 " held; memory", device.word[DCMI_W_SAMPLES],
           device.word[DCMI_W_LANDED], device.word[DCMI_W_HELD]);
    for (int i = 0; i < 8; i++) printf(" %02X", memory[i]);
    printf("\n");
    return 0;
}
