/* Writes the module on standard input, whose header may be octal, decimal or X, as X. Status 0 if it was written,
 * 1 if it is refused or stopped, 2 if it cannot be read or written. */
#include "gatecobalt.h"

#include <stdio.h>

static uint8_t text[GATECOBALT_TEXT + 1], out[GATECOBALT_TEXT];

int main(void)
{
    size_t length = fread(text, 1, sizeof text, stdin);
    if (ferror(stdin))
        return 2;
    gatecobalt_converted told = gatecobalt_convert(text, length, out, sizeof out);
    if (told.refusal != 0) {
        fprintf(stderr, "refused %u at %zu\n", (unsigned)told.refusal, told.place);
        return 1;
    }
    if (told.reason != 0) {
        fprintf(stderr, "stopped at %zu reason %u at %zu\n", told.place, (unsigned)told.reason, told.halt);
        return 1;
    }
    return fwrite(out, 1, told.bytes, stdout) == told.bytes && fflush(stdout) == 0 ? 0 : 2;
}
