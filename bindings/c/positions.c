/* Follows every position of a module on standard input to the line that wrote it, and holds value and
 * mask to the image. Prints how many positions there are and how many of them a line wrote. Ends with 0 if
 * all are equal and a position behind each area is refused with 20, with 1 if not, with 2 if the module is refused. */
#include "gatecobalt.h"
#include <stdio.h>

static uint8_t text[GATECOBALT_TEXT + 1], values[GATECOBALT_VALUES], masks[GATECOBALT_MASKS];
static uint32_t areas[GATECOBALT_AREAS], symbols[GATECOBALT_SYMBOLS], fixups[GATECOBALT_FIXUPS];
static size_t length, written;

/* Whether a position of an area is told as the image has it at a place. */
static bool same(uint32_t id, uint32_t position, size_t at)
{
    gatecobalt_writer told = gatecobalt_explain(text, length, id, position);
    written += told.written;
    return told.refusal == 0 && told.value == values[at] && told.mask == masks[at]
        && (told.written ? text[told.place] == 'T' : told.place == 0 && told.value == 0 && told.mask == 0);
}

int main(void)
{
    length = fread(text, 1, sizeof text, stdin);
    gatecobalt_reading read = gatecobalt_read_ended(text, length, areas, GATECOBALT_AREAS,
        symbols, GATECOBALT_SYMBOLS, values, GATECOBALT_VALUES, masks, GATECOBALT_MASKS,
        fixups, GATECOBALT_FIXUPS);
    if (read.refusal != 0)
        return 2;
    uint32_t id = 0;
    size_t at = 0;
    for (size_t i = 0; i < read.areas; i++) {
        const uint32_t *row = areas + i * GATECOBALT_AREA_WIDTH, size = row[2];
        if (size == 0 || (row[3] & 0x20) == 0)
            continue;
        for (uint32_t position = 0; position < size; position++, at++)
            if (!same(id, position, at))
                return 1;
        if (gatecobalt_explain(text, length, id, size).refusal != 20)
            return 1;
        id++;
    }
    if (gatecobalt_explain(text, length, id, 0).refusal != 20)
        return 1;
    printf("positions %zu written %zu\n", at, written);
    return at == read.positions ? 0 : 1;
}
