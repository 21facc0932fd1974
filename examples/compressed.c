#include <inttypes.h>
#include <stdio.h>
#include <stdlib.h>
#include <string.h>

#include "dcmi.h"

static uint32_t *samples;
static size_t count;

/* One pixel clock: two samples, the second at the working edge. Every fourth sample grants. */
static void clock_pins(uint32_t pins)
{
    for (int level = 0; level < 2; level++, count++)
        samples[count] = pins | (level ? DCMI_PIN_CLOCK : 0) | (count % 4 == 3 ? DCMI_GRANT : 0);
}

/* Of so many words the bytes up to the end of the picture, its last FF D9. */
static size_t picture_bytes(const uint8_t *memory, size_t words)
{
    size_t bytes = 4 * words;
    while (bytes >= 2 && (memory[bytes - 2] != 0xFF || memory[bytes - 1] != 0xD9)) bytes--;
    return bytes;
}

int main(int words_given, char **given)
{
    const char *name = words_given > 1 ? given[1] : "tests/pictures/small.jpg";
    dcmi_device device;

    FILE *in = fopen(name, "rb");
    if (!in) return perror(name), 99;
    fseek(in, 0, SEEK_END);
    const size_t size = (size_t)ftell(in), room = size / 4 * 4 + 4;
    rewind(in);
    uint8_t *sent = malloc(size + 1), *memory = malloc(room);
    samples = malloc(2 * (1 + size + size / 50 + 1 + 9) * sizeof *samples);
    if (!sent || !memory || !samples) return printf("no room for a picture of %zu bytes\n", size), 98;
    if (fread(sent, 1, size, in) != size) return printf("%s cannot be read\n", name), 97;
    fclose(in);

    clock_pins(DCMI_PIN_VSYNC | DCMI_PIN_HSYNC); /* both blank */
    for (size_t i = 0; i < size; i++) {
        if (i % 50 == 0) clock_pins(DCMI_PIN_HSYNC); /* HSYNC blanks: a gap between packets */
        clock_pins(sent[i]);
    }
    for (int i = 0; i < 9; i++) clock_pins(DCMI_PIN_VSYNC | DCMI_PIN_HSYNC); /* the first ends the frame; by the last the padded word has landed */

    dcmi_reset(&device);
    uint32_t number = dcmi_write(&device, DCMI_CR, DCMI_CR_ENABLE | DCMI_CR_VSPOL | DCMI_CR_HSPOL | DCMI_CR_PCKPOL | DCMI_CR_JPEG | DCMI_CR_CM
                                                       | DCMI_CR_CAPTURE); /* 0x40EB */
    if (number == DCMI_OK) number = dcmi_run(&device, memory, room, 0, samples, count);
    if (number != DCMI_OK) return printf("refused %" PRIu32 ": %s\n", number, dcmi_refusal_text(number)), (int)number;
    const size_t words = device.word[DCMI_W_PLACE], bytes = picture_bytes(memory, words);
    printf("RIS %02" PRIX32 ", %zu words, the last", device.word[DCMI_W_RIS], words);
    for (size_t i = words ? 4 * words - 4 : 0; i < 4 * words; i++) printf(" %02X", memory[i]);
    printf("; %zu bytes, %s\n", bytes, bytes == size && memcmp(memory, sent, bytes) == 0 ? "those sent" : "others");
    return free(samples), free(memory), free(sent), 0;
}
