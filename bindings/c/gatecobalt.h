/* Gatecobalt: a proved reader of SDCC's object modules (ASxxxx, ASLINK 3).
 *
 * Every function answers for every argument that its types allow: pointers have to be valid for so
 * many elements as the length behind them says (a length of 0 asks nothing), and no two lent
 * buffers may overlap one another or the text. A reading takes under 512 KiB of stack and no heap.
 * Link libgatecobalt.a, which bindings/library proves and builds (Linux on x86-64). */
#ifndef GATECOBALT_H
#define GATECOBALT_H

#include <stdbool.h>
#include <stddef.h>
#include <stdint.h>

#ifdef __cplusplus
extern "C" {
#endif

/* The longest text, in bytes. */
#define GATECOBALT_TEXT 65536

/* Numbers in a row. An area: its name's place and length in the text, size, flags, 1 if addr is
 * given, addr or 0, known bits (the ones in its masks; 0 if it is not kept). A symbol: its name's
 * place and length, 1 for Ref or 0 for Def, value, the index of its area plus 1 or 0 for none. A
 * fixup: the id of its area, position, size, mode, 1 for an outside symbol or 0 for a kept area,
 * that name's place or that area's id, the name's length or 0, value, number. */
#define GATECOBALT_AREA_WIDTH 7
#define GATECOBALT_SYMBOL_WIDTH 5
#define GATECOBALT_FIXUP_WIDTH 9

/* The room that each lent buffer has to have, in elements; a shorter one gives refusal 1. */
#define GATECOBALT_AREAS (64 * GATECOBALT_AREA_WIDTH)
#define GATECOBALT_SYMBOLS (1024 * GATECOBALT_SYMBOL_WIDTH)
#define GATECOBALT_VALUES 65536
#define GATECOBALT_MASKS 65536
#define GATECOBALT_FIXUPS (1024 * GATECOBALT_FIXUP_WIDTH)

/* The plain reading's answer, a type of its own: its finished is no verdict, since it may take what
 * is left of a cut last line, and ends before the last line end of a whole module. A refusal: its
 * number (1 to 13) and place, all else 0; no lent buffer has changed. Otherwise refusal is 0, the
 * counts say how much there is, finished is 1 if no byte is left, else 0 and place is that of the
 * next byte: behind it nothing was read. The rows stand first in their buffers, and so do the values
 * and masks of all kept areas, one area behind the other; behind them the buffers keep their bytes. */
typedef struct {
    uint32_t refusal;
    uint32_t finished;
    size_t place;
    size_t areas;
    size_t symbols;
    size_t lines; /* T and R pairs */
    size_t kept; /* code areas with size above 0; an area's id is its rank among them */
    size_t positions; /* the sizes of kept areas together */
    size_t fixups;
} gatecobalt_plain_reading;

/* Why a reading stopped. */
#define GATECOBALT_NO_DIGIT 1 /* a number is due, and there is no digit */
#define GATECOBALT_OVER_32_BITS 2
#define GATECOBALT_OVER_255 3
#define GATECOBALT_CANNOT_GO_ON 4 /* anything else */

/* What the first H line of the form `H N areas N global symbols` says of the counted A and S lines. */
#define GATECOBALT_EQUAL 1
#define GATECOBALT_NOT_EQUAL 2
#define GATECOBALT_NOT_TOLD 3

/* The ended reading's answer: the same numbers, and three more; one refusal more too, 18 for a header of
 * Q or D with its line end. Where it stopped, reason is 1 to 4
 * and halt is the place where the line there came to a halt: a number's first byte, or the byte that
 * cannot stand there; else both are 0. counted is 1 to 3, or 0 for a refusal. */
typedef struct {
    uint32_t refusal;
    uint32_t finished;
    size_t place;
    size_t areas;
    size_t symbols;
    size_t lines;
    size_t kept;
    size_t positions;
    size_t fixups;
    uint32_t reason;
    uint32_t counted;
    size_t halt;
} gatecobalt_reading;

/* What a header tells: refusal is 4 if there is none, else 0; radix 16, 10 or 8; big is 1 if the
 * highest byte comes first; width is the bytes of an address. */
typedef struct {
    uint32_t refusal;
    uint32_t radix;
    uint32_t big;
    uint32_t width;
} gatecobalt_heading;

/* A target's answer: 14 and 0, or 0 and the target. */
typedef struct {
    uint32_t refusal;
    uint64_t target;
} gatecobalt_targeted;

/* Who wrote a position last. A refusal: its number (1 to 13, 18, or 20 for an id or a position that is not
 * there) and place, all else 0. Otherwise refusal is 0, and written is 1, place is that of the T line that
 * wrote it last, value and mask what it left there; or all are 0 where no line writes it. */
typedef struct {
    uint32_t refusal;
    uint32_t written;
    size_t place;
    uint32_t value;
    uint32_t mask;
} gatecobalt_writer;

/* Numbers in a row of a list of changes: kind, the areas' id, then by kind the position, old value, old
 * mask, new value and new mask; or the index of the fixup row on its side; or the index of the symbol
 * row in the older and in the newer. Numbers that a kind has no use for are 0. */
#define GATECOBALT_CHANGE_WIDTH 8

/* The kinds. An area on one side only stands for all that is in it. */
#define GATECOBALT_POSITION_DIFFERS 0
#define GATECOBALT_POSITION_ONLY_OLD 1
#define GATECOBALT_POSITION_ONLY_NEW 2
#define GATECOBALT_FIXUP_ONLY_OLD 3
#define GATECOBALT_FIXUP_ONLY_NEW 4
#define GATECOBALT_AREA_ONLY_OLD 5
#define GATECOBALT_AREA_ONLY_NEW 6
#define GATECOBALT_VALUE_DIFFERS 7
#define GATECOBALT_SYMBOL_ONLY_OLD 8
#define GATECOBALT_SYMBOL_ONLY_NEW 9

/* The room for a list that no two modules fill, in elements. */
#define GATECOBALT_CHANGES (135232 * GATECOBALT_CHANGE_WIDTH)

/* What placing tells. A refusal: its number (1 to 13, 18, or 25 for a module outside the conditions under which
 * code is placed) and place, and no byte has changed. Otherwise refusal is 0, and bytes is how many were placed. */
typedef struct {
    uint32_t refusal;
    size_t place;
    size_t bytes;
} gatecobalt_placed;

/* What changed: a refusal's number, 1 if it is the older text's, 2 if it is the newer's, and its
 * place; 19 if one of them is not finished; 16 if the list has too little room; or 0 and how many rows
 * there are. A refusal leaves the list as it was; behind the rows it keeps its numbers. */
typedef struct {
    uint32_t refusal;
    uint32_t side;
    size_t place;
    size_t rows;
} gatecobalt_changed;

/* Numbers in a row of the T and R records. A pair: the T's place in the text, its address, its area's
 * index, its first content byte and how many it has, its first fragment and how many it has. A
 * fragment: mode, entry, index. A T with a P line has no row. */
#define GATECOBALT_PAIR_WIDTH 7
#define GATECOBALT_FRAGMENT_WIDTH 3

/* The room that each buffer for records has to have, in elements: bounds that no accepted text
 * passes. A shorter one gives refusal 1. */
#define GATECOBALT_PAIRS (4096 * GATECOBALT_PAIR_WIDTH)
#define GATECOBALT_CONTENT 32768
#define GATECOBALT_FRAGMENTS (8192 * GATECOBALT_FRAGMENT_WIDTH)

/* The T and R records of a text: a refusal's number (1 to 13) and place, all else 0, and no buffer has
 * changed; or 0 and how many pairs, content bytes and fragments there are. */
typedef struct {
    uint32_t refusal;
    size_t place;
    size_t pairs;
    size_t content;
    size_t fragments;
} gatecobalt_records;

/* A written text: refusal 15 if it would not give its rows back, 16 if the buffer has too little room
 * for it, and then the buffer has not changed; or 0 and how many bytes were written. Behind them the
 * buffer keeps its bytes. */
typedef struct {
    uint32_t refusal;
    size_t bytes;
} gatecobalt_written;

/* A module that is to be written as X. A refusal: its number (2 to 13; 15 if the text would be over 65,536
 * bytes; 16 if the buffer has too little room for it) and place, all else 0. Where the reading stopped refusal
 * is 0 and reason is 1 to 4, place is that of the first byte that is left over, and halt the place where the
 * line there came to a halt. Otherwise both are 0, and bytes is how many were written. The buffer has changed
 * only then, and behind them it keeps its bytes. */
typedef struct {
    uint32_t refusal;
    uint32_t reason;
    size_t place;
    size_t halt;
    size_t bytes;
} gatecobalt_converted;

typedef struct {
    size_t area;
    size_t symbol;
    size_t fixup;
} gatecobalt_row_widths;

typedef struct {
    size_t text;
    size_t areas;
    size_t symbols;
    size_t values;
    size_t masks;
    size_t fixups;
} gatecobalt_room;

/* The plain reading: it ends at the first byte that it cannot take. */
gatecobalt_plain_reading gatecobalt_read_plain(const uint8_t *text, size_t text_length,
    uint32_t *areas, size_t areas_length, uint32_t *symbols, size_t symbols_length,
    uint8_t *values, size_t values_length, uint8_t *masks, size_t masks_length,
    uint32_t *fixups, size_t fixups_length);

/* The ended reading: a record counts only with the line end behind it. */
gatecobalt_reading gatecobalt_read_ended(const uint8_t *text, size_t text_length,
    uint32_t *areas, size_t areas_length, uint32_t *symbols, size_t symbols_length,
    uint8_t *values, size_t values_length, uint8_t *masks, size_t masks_length,
    uint32_t *fixups, size_t fixups_length);

/* Whether the ended reading read a text to its last byte, every record with its line end, and the
 * counts of its H line, if it tells any, are those of its A and S lines. If not, what it read is a
 * part, or goes to a person. A text that was cut directly behind a T and R pair, or that tells no
 * counts and was cut behind any record, is whole by this: its lines alone do not tell. */
static inline bool gatecobalt_is_whole(gatecobalt_reading read)
{
    return read.refusal == 0 && read.finished == 1 && read.counted != GATECOBALT_NOT_EQUAL;
}

/* A text's header. */
gatecobalt_heading gatecobalt_header(const uint8_t *text, size_t text_length);

/* What the bytes of a fixup refer to where they stand at an address, as the old tool has it: mode and
 * number are the fixup's, big is the header's. It is wrong for ACALL, AJMP and relative jumps and
 * for some negative numbers; only a comparison with the old tool should ask it. */
gatecobalt_targeted gatecobalt_target(uint32_t mode, bool big, uint32_t number, uint64_t address,
    const uint8_t *bytes, size_t bytes_length);

/* The same as the processor has it: this is the one to follow a jump with. Where the number is not 0,
 * what comes back is the thing that the fixup refers to and not the byte that the jump lands on; the
 * bits above the low 16 (24 for 19- and 24-bit addresses) are those of the fixup's own address. */
gatecobalt_targeted gatecobalt_corrected_target(uint32_t mode, bool big, uint32_t number,
    uint64_t address, const uint8_t *bytes, size_t bytes_length);

/* Who wrote a position of the kept area with an id last, by the ended reading and from the text's lines
 * alone: value and mask are those of the image. It reads the text anew at each call, and takes under
 * 1 MiB of stack. */
gatecobalt_writer gatecobalt_explain(const uint8_t *text, size_t text_length, uint32_t id,
    uint32_t position);

/* A pattern book: one file with the patterns of many modules, its contents first. Its functions take
 * no heap and under GATECOBALT_BOOK_STACK bytes of stack, and answer for any bytes at all; what they
 * find in a file that gatecobalt_book_open did not open means nothing. */
#define GATECOBALT_BOOK_STACK 512

/* Refusals: 21 contents out of order, with equal names or out of the file; 22 a gap, an overlap or
 * bytes left over; 23 the name is not in the book; 24 too little room. */

/* A file that is opened: refusal 0 and how many entries; or 21 or 22 and its place. All of 21 is
 * tested before any of 22. */
typedef struct {
    uint32_t refusal;
    uint32_t entries;
    size_t place;
} gatecobalt_opened;

/* A row of the contents: the place and the length of a name, the place of its pattern and how many
 * positions that has. The values stand at place, the masks size bytes behind it. */
typedef struct {
    uint32_t name;
    uint32_t name_length;
    uint32_t place;
    uint32_t size;
} gatecobalt_entry;

/* What finding tells: refusal 0 and the pattern's place and size; or 23. */
typedef struct {
    uint32_t refusal;
    uint32_t place;
    uint32_t size;
} gatecobalt_found;

/* What copying tells: refusal 0 and how many positions were copied; or 23 or 24, and neither buffer
 * has changed. */
typedef struct {
    uint32_t refusal;
    uint32_t size;
    size_t place;
} gatecobalt_copied;

/* Opens a file. */
gatecobalt_opened gatecobalt_book_open(const uint8_t *book, size_t book_length);

/* The i-th row of the contents, in the order of the names' bytes. */
gatecobalt_entry gatecobalt_book_entry(const uint8_t *book, size_t book_length, uint32_t i);

/* Finds the pattern of a name, by halving. */
gatecobalt_found gatecobalt_book_find(const uint8_t *book, size_t book_length,
    const uint8_t *name, size_t name_length);

/* Copies the pattern of a name; each of the two buffers has to have room for all its positions. */
gatecobalt_copied gatecobalt_book_pattern(const uint8_t *book, size_t book_length,
    const uint8_t *name, size_t name_length, uint8_t *values, size_t values_length,
    uint8_t *masks, size_t masks_length);

/* What changed between an older and a newer text, read by the ended reading. Kept areas pair by their
 * ids, symbols by their names, of which the first on a side counts. For the rows that the list names
 * read each text by gatecobalt_read_ended. It takes under 1 MiB of stack and no heap. */
gatecobalt_changed gatecobalt_changes(const uint8_t *older, size_t older_length,
    const uint8_t *newer, size_t newer_length, uint32_t *list, size_t list_length);

/* The T and R records of a text that the ended reading accepts; a text that is stopped gives those up
 * to there. It takes under 1 MiB of stack and no heap. */
gatecobalt_records gatecobalt_read_pairs(const uint8_t *text, size_t text_length,
    uint32_t *pairs, size_t pairs_length, uint8_t *content, size_t content_length,
    uint32_t *fragments, size_t fragments_length);

/* Writes a module: an X header with this order and so many bytes in an address, the A and S lines of
 * so many area and symbol rows, the T and R lines of so many pairs. Names lie in the text; a symbol
 * stands behind as many areas as its row's last number says; the T's place and an area's known bits
 * are not looked at. Any rows may be passed, and counts past them. 15 exactly where an ended reading
 * of what would be written is refused, is not finished, or gives back other areas, symbols, T and R
 * records (names as bytes, places aside), or where the width is not 2, 3 or 4; then 16. It takes under
 * 1 MiB of stack and no heap. */
gatecobalt_written gatecobalt_write(bool big, uint32_t width, const uint8_t *text, size_t text_length,
    const uint32_t *areas, size_t areas_length, size_t area_count,
    const uint32_t *symbols, size_t symbols_length, size_t symbol_count,
    const uint32_t *pairs, size_t pairs_length, size_t pair_count,
    const uint8_t *content, size_t content_length, const uint32_t *fragments, size_t fragments_length,
    uint8_t *out, size_t out_length);

/* Writes a module whose header is octal (Q), decimal (D) or X as X, if each of its records has its line end and
 * no byte is left over: what an ended reading of the written module gives are the same areas, symbols, T and R
 * records, images and fixups. It takes under 2 MiB of stack and no heap. */
gatecobalt_converted gatecobalt_convert(const uint8_t *text, size_t text_length, uint8_t *out, size_t out_length);

/* A module's code at chosen addresses, as a linker places it, into a buffer of GATECOBALT_VALUES bytes or more:
 * those of all kept areas, one behind the other. areas has the address of each kept area by its id, symbols that of
 * each outside symbol by its index in the symbol table; what stands there for a Def is not looked at. 1 for a
 * shorter buffer or fewer addresses than kept areas or symbols. A text that is stopped is placed as far as it was
 * read. It takes under 1 MiB of stack and no heap. */
gatecobalt_placed gatecobalt_place(const uint8_t *text, size_t text_length, const uint64_t *areas,
    size_t areas_length, const uint64_t *symbols, size_t symbols_length, uint8_t *out, size_t out_length);

/* The first position at which code does not have a pattern's bits wherever the mask has a one; code_length where
 * it matches. Behind the end of values or masks any byte matches. */
size_t gatecobalt_mismatch(const uint8_t *values, size_t values_length, const uint8_t *masks,
    size_t masks_length, const uint8_t *code, size_t code_length);

/* The widths and rooms above, as the library has them. */
gatecobalt_row_widths gatecobalt_widths(void);
gatecobalt_room gatecobalt_rooms(void);

#ifdef __cplusplus
}
#endif
#endif
