/* Places modules through the static library: records on standard input, a line each on standard output.
 * A record: lengths of the text, of the addresses of areas and of symbols, and of the buffer, four bytes each; the text;
 * the addresses, eight bytes each. A line: the ended reading's refusal and place; placing's refusal, place and bytes;
 * the first mismatch with the pattern; the placed bytes and the pattern's masks; and for each fixup that lies wholly in
 * its area id, position, refusal and corrected target. "changed" stands before a line if a byte changed that may not change. */
#include "gatecobalt.h"
#include <inttypes.h>
#include <stdio.h>
#include <string.h>

static uint8_t text[GATECOBALT_TEXT + 1], out[GATECOBALT_VALUES + 64];
static uint8_t values[GATECOBALT_VALUES], masks[GATECOBALT_MASKS];
static uint32_t areas[GATECOBALT_AREAS], symbols[GATECOBALT_SYMBOLS], fixups[GATECOBALT_FIXUPS];
static uint64_t homes[64], outside[1024];

/* Where an area's bytes stand among those of all kept areas, by its id; its size too. */
static size_t start_of(size_t count, size_t id, size_t *size) {
    size_t start = 0;
    for (size_t i = 0; i < count; i++) {
        const uint32_t *row = areas + GATECOBALT_AREA_WIDTH * i;
        size_t kept = row[3] & 0x20 ? row[2] : 0;
        if (kept == 0) continue;
        *size = kept;
        if (id-- == 0) return start;
        start += kept;
    }
    *size = 0;
    return start;
}

static void tell_bytes(const uint8_t *bytes, size_t n) {
    putchar(' ');
    for (size_t i = 0; i < n; i++) printf("%02X", bytes[i]);
}

static void tell_targets(gatecobalt_reading r, bool big) {
    for (size_t i = 0; i < r.fixups; i++) {
        const uint32_t *f = fixups + GATECOBALT_FIXUP_WIDTH * i;
        size_t size, start = start_of(r.areas, f[0], &size);
        if (f[1] + (size_t)f[2] > size) continue;
        gatecobalt_targeted t = gatecobalt_corrected_target(f[3], big, f[8], homes[f[0]] + f[1], out + start + f[1], f[2]);
        printf(" %" PRIu32 ":%" PRIu32 ":%" PRIu32 ":%" PRIu64, f[0], f[1], t.refusal, t.target);
    }
}

int main(void) {
    uint32_t n[4];
    while (fread(n, 4, 4, stdin) == 4) {
        if (n[0] > sizeof text || n[1] > 64 || n[2] > 1024 || n[3] > sizeof out) return 1;
        if (fread(text, 1, n[0], stdin) != n[0] || fread(homes, 8, n[1], stdin) != n[1] ||
            fread(outside, 8, n[2], stdin) != n[2]) return 1;
        memset(out, 0xA5, sizeof out);
        gatecobalt_reading r = gatecobalt_read_ended(text, n[0], areas, GATECOBALT_AREAS, symbols, GATECOBALT_SYMBOLS,
            values, GATECOBALT_VALUES, masks, GATECOBALT_MASKS, fixups, GATECOBALT_FIXUPS);
        gatecobalt_placed p = gatecobalt_place(text, n[0], homes, n[1], outside, n[2], out, n[3]);
        for (size_t i = p.bytes; i < sizeof out; i++)
            if (out[i] != 0xA5) { fputs("changed ", stdout); break; }
        size_t mismatch = gatecobalt_mismatch(values, p.bytes, masks, p.bytes, out, p.bytes);
        printf("%u %zu %u %zu %zu %zu", r.refusal, r.place, p.refusal, p.place, p.bytes, mismatch);
        tell_bytes(out, p.bytes);
        tell_bytes(masks, p.bytes);
        if (p.refusal == 0) tell_targets(r, text[1] == 'H');
        putchar('\n');
    }
    return 0;
}
