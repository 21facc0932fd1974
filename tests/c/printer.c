/* The frame printer against the model: each case is a file on standard input, and the whole of what is printed is compared.
 * usage: printer PROGRAM FOLDER [CASE] */
#include <stdio.h>
#include <stdlib.h>
#include <string.h>

#include "inputs.h"
#include "printed.h"

enum { CASES = 540, KINDS = 9, ROOM = 1 << 18 };

static uint8_t file[ROOM + 16];
static char expected[MOST_PRINTED], printed[MOST_PRINTED];
static trace made;

/* The input of a case: accepted files of both versions, damaged bytes, cut files, more bytes than the header says, nothing at all. */
static size_t input(unsigned number)
{
    random_seed(9000 + number);
    if (number == 0)
        return 0;
    const unsigned kind = number % KINDS, long_trace = kind == 1 || kind == 7 || kind == 8 || chance(1, 8);
    trace_valid(&made, long_trace ? 16384 + (kind == 1 ? below(2) : below(6000)) : below(400));
    size_t length = trace_file(&made, file);
    switch (kind) {
    case 2: /* a damaged byte of the header */
        file[below(10)] = (uint8_t)random_u32();
        break;
    case 3: /* a damaged byte anywhere */
        file[below((uint32_t)length)] ^= (uint8_t)(1u << below(8));
        break;
    case 4: /* cut */
        length = below((uint32_t)length + 1);
        break;
    case 5: /* more bytes, up to far beyond the file */
        random_bytes(file + length, ROOM - length);
        length += chance(1, 2) ? 1 : between(1, (uint32_t)(ROOM - length));
        break;
    case 8: /* in some version, damaged or not */
        length = trace_file_as(&made, between(1, 2), file);
        if (chance(1, 2))
            file[below(10)] ^= (uint8_t)(1u << below(8));
        break;
    default:
        break;
    }
    return length;
}

static int compared(const char *program, const char *folder, unsigned number)
{
    char in[512], out[512], command[2048];
    snprintf(in, sizeof in, "%s/printer.in", folder);
    snprintf(out, sizeof out, "%s/printer.out", folder);
    size_t length = input(number);
    FILE *f = fopen(in, "wb");
    if (!f || fwrite(file, 1, length, f) != length || fclose(f))
        return fprintf(stderr, "cannot write %s\n", in), 0;
    snprintf(command, sizeof command, "'%s' <'%s' >'%s'", program, in, out);
    if (system(command) != 0)
        return fprintf(stderr, "case %u: the printer did not end as it should\n", number), 0;
    f = fopen(out, "rb");
    size_t got = f ? fread(printed, 1, sizeof printed - 1, f) : 0;
    if (f)
        fclose(f);
    printed[got] = 0;
    printed_file(expected, file, length);
    if (got == strlen(expected) && memcmp(printed, expected, got) == 0)
        return 1;
    fprintf(stderr, "case %u, %zu bytes (alone: printer PROGRAM FOLDER %u): expected\n%.400s\nprinted\n%.400s\n", number, length, number, expected, printed);
    return 0;
}

int main(int count, char **words)
{
    if (count < 3)
        return fprintf(stderr, "usage: printer PROGRAM FOLDER [CASE]\n"), 2;
    unsigned first = 0, last = CASES, refused = 0, accepted = 0;
    if (count > 3) {
        first = (unsigned)strtoul(words[3], NULL, 10);
        last = first + 1;
    }
    for (unsigned number = first; number < last; number++) {
        if (!compared(words[1], words[2], number))
            return 1;
        if (strncmp(expected, "refused", 7) == 0)
            refused++;
        else
            accepted++;
    }
    printf("The frame printer: %u files printed and %u refused as the model says.\n", accepted, refused);
    return count == 3 && (accepted < 100 || refused < 100);
}
