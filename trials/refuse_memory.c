/* A preloaded allocator that refuses one request: in the program whose name holds $REFUSE_IN the $REFUSE-th call of
   malloc, calloc or realloc answers null, and all others are the C library's. At its end the program writes to the file
   $REFUSE_COUNT how many calls it made, and how many of them within a function of $REFUSE_WITHIN: the places and sizes
   of functions in the program's file, START:SIZE in hexadecimal, with spaces between. A call counts as within a
   function where any word of the stack points into it: so none that is within one is left out. See refuse_memory.sh. */
#define _GNU_SOURCE
#include <errno.h>
#include <fcntl.h>
#include <link.h>
#include <stdint.h>
#include <stdio.h>
#include <stdlib.h>
#include <string.h>
#include <unistd.h>

extern void *__libc_malloc(size_t);
extern void *__libc_calloc(size_t, size_t);
extern void *__libc_realloc(void *, size_t);
extern void *__libc_stack_end;

enum { MOST_FUNCTIONS = 16 };

struct function {
    uintptr_t start, size;
};

static struct function functions[MOST_FUNCTIONS];
static size_t number_of_functions;
static long refused, calls, within;
static int known, counts;

/* The first that is listed is the program. */
static int note_base(struct dl_phdr_info *info, size_t size, void *base) {
    (void)size;
    *(uintptr_t *)base = info->dlpi_addr;
    return 1;
}

static void read_functions(const char *text) {
    uintptr_t base = 0;
    dl_iterate_phdr(note_base, &base);
    while (text && *text && number_of_functions < MOST_FUNCTIONS) {
        char *rest;
        struct function *it = &functions[number_of_functions];
        it->start = base + strtoul(text, &rest, 16);
        if (*rest != ':')
            return;
        it->size = strtoul(rest + 1, &rest, 16);
        number_of_functions++;
        text = *rest == ' ' ? rest + 1 : NULL;
    }
}

static int is_within(void) {
    for (uintptr_t *word = __builtin_frame_address(0); (void *)word < __libc_stack_end; word++)
        for (size_t at = 0; at < number_of_functions; at++)
            if (*word - functions[at].start < functions[at].size)
                return 1;
    return 0;
}

static int is_refused(void) {
    if (!known) {
        const char *number = getenv("REFUSE"), *program = getenv("REFUSE_IN");
        known = 1;
        counts = number && program && strstr(program_invocation_short_name, program);
        refused = counts ? atol(number) : 0;
        if (counts)
            read_functions(getenv("REFUSE_WITHIN"));
    }
    if (!counts)
        return 0;
    calls++;
    if (number_of_functions)
        within += is_within();
    if (calls != refused)
        return 0;
    errno = ENOMEM;
    return 1;
}

void *malloc(size_t size) { return is_refused() ? NULL : __libc_malloc(size); }
void *calloc(size_t number, size_t size) { return is_refused() ? NULL : __libc_calloc(number, size); }
void *realloc(void *old, size_t size) { return is_refused() ? NULL : __libc_realloc(old, size); }

__attribute__((destructor)) static void end(void) {
    const char *path = getenv("REFUSE_COUNT");
    if (!counts || !path)
        return;
    int file = open(path, O_WRONLY | O_CREAT | O_TRUNC, 0600);
    if (file < 0 || dprintf(file, "%ld %ld", calls, within) < 0)
        abort();
    close(file);
}
