/* What changed between two modules, row by row: changes OLDER NEWER. Status 0 no change, 1 changes, 2 trouble. */
#include "gatecobalt.h"

#include <stdio.h>

static uint8_t older[GATECOBALT_TEXT + 1], newer[GATECOBALT_TEXT + 1];
static uint32_t list[GATECOBALT_CHANGES];

/* Reads a file, one byte more than the longest text at most; 0 for none. */
static size_t read_file(const char *name, uint8_t *room)
{
    FILE *file = fopen(name, "rb");
    if (file == NULL)
        return 0;
    size_t length = fread(room, 1, GATECOBALT_TEXT + 1, file);
    fclose(file);
    return length;
}

int main(int count, char **names)
{
    if (count != 3) {
        fputs("usage: changes OLDER NEWER\n", stderr);
        return 2;
    }
    gatecobalt_changed changed = gatecobalt_changes(older, read_file(names[1], older),
        newer, read_file(names[2], newer), list, GATECOBALT_CHANGES);
    if (changed.refusal != 0) {
        const char *sides[] = {"", "older: ", "newer: "};
        fprintf(stderr, "%srefused %u at %zu\n", sides[changed.side], (unsigned)changed.refusal, changed.place);
        return 2;
    }
    for (size_t row = 0; row < changed.rows; row++) {
        for (size_t column = 0; column < GATECOBALT_CHANGE_WIDTH; column++)
            printf(column == 0 ? "%u" : " %u", (unsigned)list[row * GATECOBALT_CHANGE_WIDTH + column]);
        putchar('\n');
    }
    return changed.rows > 0;
}
