/* Writes the module on standard input back: read, written, and before anything is printed read again and
 * written again. Status 0 if it was printed, 1 if it is refused or stopped, 2 if it did not come back. */
#include "gatecobalt.h"

#include <stdio.h>
#include <string.h>

/* A module and its rows. */
typedef struct {
    uint8_t text[GATECOBALT_TEXT + 1];
    size_t length;
    gatecobalt_reading read;
    gatecobalt_records records;
    uint32_t areas[GATECOBALT_AREAS], symbols[GATECOBALT_SYMBOLS], fixups[GATECOBALT_FIXUPS];
    uint8_t values[GATECOBALT_VALUES], masks[GATECOBALT_MASKS];
    uint32_t pairs[GATECOBALT_PAIRS], fragments[GATECOBALT_FRAGMENTS];
    uint8_t content[GATECOBALT_CONTENT];
} module;

static module given, back, again;

/* Reads a module's rows, and tells whether it is finished. */
static bool rows_of(module *m)
{
    m->read = gatecobalt_read_ended(m->text, m->length, m->areas, GATECOBALT_AREAS, m->symbols, GATECOBALT_SYMBOLS,
        m->values, GATECOBALT_VALUES, m->masks, GATECOBALT_MASKS, m->fixups, GATECOBALT_FIXUPS);
    m->records = gatecobalt_read_pairs(m->text, m->length, m->pairs, GATECOBALT_PAIRS, m->content, GATECOBALT_CONTENT,
        m->fragments, GATECOBALT_FRAGMENTS);
    return m->read.refusal == 0 && m->records.refusal == 0 && m->read.finished == 1;
}

/* Writes a module's rows as another's text; a refusal, or 0. */
static uint32_t write_to(const module *m, module *other)
{
    gatecobalt_heading head = gatecobalt_header(m->text, m->length);
    gatecobalt_written written = gatecobalt_write(head.big == 1, head.width, m->text, m->length,
        m->areas, GATECOBALT_AREAS, m->read.areas, m->symbols, GATECOBALT_SYMBOLS, m->read.symbols,
        m->pairs, GATECOBALT_PAIRS, m->records.pairs, m->content, GATECOBALT_CONTENT,
        m->fragments, GATECOBALT_FRAGMENTS, other->text, GATECOBALT_TEXT);
    other->length = written.bytes;
    return written.refusal;
}

/* The same counts, images, content bytes and fragments, and the same text when it is written again. */
static bool same(const module *m, const module *n)
{
    return m->read.areas == n->read.areas && m->read.symbols == n->read.symbols && m->read.lines == n->read.lines
        && m->read.fixups == n->read.fixups && m->read.positions == n->read.positions
        && memcmp(m->values, n->values, m->read.positions) == 0 && memcmp(m->masks, n->masks, m->read.positions) == 0
        && m->records.content == n->records.content && memcmp(m->content, n->content, m->records.content) == 0
        && m->records.fragments == n->records.fragments
        && memcmp(m->fragments, n->fragments, m->records.fragments * GATECOBALT_FRAGMENT_WIDTH * sizeof *m->fragments) == 0
        && write_to(n, &again) == 0 && again.length == n->length && memcmp(again.text, n->text, n->length) == 0;
}

int main(void)
{
    given.length = fread(given.text, 1, sizeof given.text, stdin);
    if (!rows_of(&given)) {
        if (given.read.refusal != 0)
            fprintf(stderr, "refused %u at %zu\n", (unsigned)given.read.refusal, given.read.place);
        else
            fprintf(stderr, "stopped at %zu\n", given.read.place);
        return 1;
    }
    uint32_t refusal = write_to(&given, &back);
    if (refusal != 0) {
        fprintf(stderr, "refused %u at 0\n", (unsigned)refusal);
        return 1;
    }
    if (!rows_of(&back) || !same(&given, &back)) {
        fputs("it did not come back\n", stderr);
        return 2;
    }
    fwrite(back.text, 1, back.length, stdout);
    return 0;
}
