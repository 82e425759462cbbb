/* Reads a module from standard input by the ended reading and prints its counts and its areas. Ends
 * with 0 if it is whole, with 1 if it is refused, with 2 if the reading stopped, with 3 if it cannot be
 * read or written, and with 4 if it is finished and its H line tells other counts. */
#include "gatecobalt.h"
#include <stdio.h>

static uint8_t text[GATECOBALT_TEXT + 1], values[GATECOBALT_VALUES], masks[GATECOBALT_MASKS];
static uint32_t areas[GATECOBALT_AREAS], symbols[GATECOBALT_SYMBOLS], fixups[GATECOBALT_FIXUPS];

enum { WHOLE, REFUSED, STOPPED, FAILED, NOT_EQUAL };

/* Prints a name of the text; a control byte as \xHH, so that it cannot steer a terminal. */
static void print_name(const uint32_t *row)
{
    for (const uint8_t *at = text + row[0]; at < text + row[0] + row[1]; at++)
        printf(*at < 32 || *at == 127 ? "\\x%02X" : "%c", (unsigned)*at);
}

/* Prints what was read, under a line that says so where it is not a whole module. */
static int print(gatecobalt_reading read)
{
    if (read.refusal != 0) {
        printf("refused %u at %zu\n", (unsigned)read.refusal, read.place);
        return REFUSED;
    }
    if (!read.finished)
        printf("stopped at %zu reason %u at %zu, read up to there:\n", read.place, (unsigned)read.reason, read.halt);
    else if (!gatecobalt_is_whole(read))
        printf("the H line tells other counts than these:\n");
    printf("areas %zu symbols %zu lines %zu fixups %zu\n", read.areas, read.symbols, read.lines, read.fixups);
    for (size_t i = 0; i < read.areas; i++) {
        const uint32_t *row = areas + i * GATECOBALT_AREA_WIDTH;
        printf("area ");
        print_name(row);
        printf(" size %u\n", (unsigned)row[2]);
    }
    return gatecobalt_is_whole(read) ? WHOLE : read.finished ? NOT_EQUAL : STOPPED;
}

int main(void)
{
    size_t length = fread(text, 1, sizeof text, stdin);
    if (ferror(stdin)) {
        perror("standard input");
        return FAILED;
    }
    int status = print(gatecobalt_read_ended(text, length, areas, GATECOBALT_AREAS,
        symbols, GATECOBALT_SYMBOLS, values, GATECOBALT_VALUES, masks, GATECOBALT_MASKS,
        fixups, GATECOBALT_FIXUPS));
    if (fflush(stdout) != 0 || ferror(stdout)) {
        perror("standard output");
        return FAILED;
    }
    return status;
}
