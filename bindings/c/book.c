/* Looks names up in a pattern book, as a device without a heap does: book BOOK [NAME]... prints each
 * name's pattern as VALUE/MASK, or its refusal, and at the end how much stack the library's functions
 * took. Ends with 0, with 1 if something was refused, with 2 for wrong use or a book that cannot be
 * read. */
#define _XOPEN_SOURCE 700
#include "gatecobalt.h"
#include <stdio.h>
#include <string.h>
#include <ucontext.h>

static uint8_t book[2 * 1024 * 1024], values[65536], masks[65536];
static size_t length;

/* The library's functions run on a stack of their own, which is painted first: what is no longer
 * painted was used. */
enum { STACK = 65536, PAINT = 0xA5 };
static uint8_t stack[STACK];
static ucontext_t here, there;
static size_t most;

/* What a call is asked, and its answer. */
static const char *name;
static gatecobalt_opened opened;
static gatecobalt_entry entry;
static gatecobalt_found found;
static gatecobalt_copied copied;

/* Nothing, to see what a switch of stacks takes by itself. */
static void none(void)
{
}

static void open_it(void)
{
    opened = gatecobalt_book_open(book, length);
}

static void row_it(void)
{
    entry = gatecobalt_book_entry(book, length, 0);
}

static void find_it(void)
{
    found = gatecobalt_book_find(book, length, (const uint8_t *)name, strlen(name));
}

static void copy_it(void)
{
    copied = gatecobalt_book_pattern(book, length, (const uint8_t *)name, strlen(name),
        values, sizeof values, masks, sizeof masks);
}

/* Calls a function on the painted stack, and answers how many bytes of it were used. */
static size_t used_by(void (*call)(void))
{
    memset(stack, PAINT, sizeof stack);
    getcontext(&there);
    there.uc_stack.ss_sp = stack;
    there.uc_stack.ss_size = sizeof stack;
    there.uc_link = &here;
    makecontext(&there, call, 0);
    swapcontext(&here, &there);
    size_t left = 0;
    while (left < sizeof stack && stack[left] == PAINT)
        left++;
    return sizeof stack - left;
}

/* Calls a function of the library, and keeps how much stack the dearest took. The first call, on the
 * stack that there is, has the linker find what it calls. */
static void call(void (*function)(void))
{
    function();
    size_t used = used_by(function) - used_by(none);
    if (used > most && used < sizeof stack)
        most = used;
}

/* Looks one name up, by both ways, which have to agree. */
static int look_up(void)
{
    call(find_it);
    call(copy_it);
    if (found.refusal != copied.refusal || found.size != copied.size) {
        printf("%s: found and copied differ\n", name);
        return 1;
    }
    if (found.refusal != 0) {
        printf("%s: refused %u\n", name, (unsigned)found.refusal);
        return 1;
    }
    printf("%s:", name);
    for (size_t i = 0; i < copied.size; i++) {
        if (values[i] != book[found.place + i] || masks[i] != book[found.place + found.size + i])
            return 1;
        printf(" %02X/%02X", (unsigned)values[i], (unsigned)masks[i]);
    }
    printf("\n");
    return 0;
}

int main(int count, char **words)
{
    FILE *file = count < 2 ? NULL : fopen(words[1], "rb");
    if (file == NULL) {
        fprintf(stderr, "usage: book BOOK [NAME]...\n");
        return 2;
    }
    length = fread(book, 1, sizeof book, file);
    if (ferror(file) || !feof(file)) {
        fprintf(stderr, "%s: not read\n", words[1]);
        return 2;
    }
    call(open_it);
    if (opened.refusal != 0) {
        printf("refused %u at %zu\n", (unsigned)opened.refusal, opened.place);
        return 1;
    }
    call(row_it);
    printf("entries %u, the first name has %u bytes\n", (unsigned)opened.entries, (unsigned)entry.name_length);
    int status = 0;
    for (int i = 2; i < count; i++) {
        name = words[i];
        status |= look_up();
    }
    printf("stack %zu\n", most);
    return most < GATECOBALT_BOOK_STACK ? status : 1;
}
