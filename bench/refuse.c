/* Refuses one allocation of a program: the one whose number, from 1, is in the variable REFUSE. For bench/memory,
   which loads it before the C library. At the end it writes how many allocations there were to the file that the
   variable COUNTED names. */
#include <fcntl.h>
#include <stddef.h>
#include <stdio.h>
#include <stdlib.h>
#include <unistd.h>

extern void *__libc_malloc(size_t);
extern void *__libc_calloc(size_t, size_t);
extern void *__libc_realloc(void *, size_t);
extern void *__libc_memalign(size_t, size_t);

static long seen;
static long refused;

__attribute__((constructor)) static void begin(void)
{
    const char *text = getenv("REFUSE");
    refused = text ? atol(text) : 0;
    seen = 0;
}

static int is_refused(void)
{
    seen += 1;
    return seen == refused;
}

void *malloc(size_t size) { return is_refused() ? NULL : __libc_malloc(size); }

void *calloc(size_t count, size_t size) { return is_refused() ? NULL : __libc_calloc(count, size); }

void *realloc(void *old, size_t size) { return is_refused() ? NULL : __libc_realloc(old, size); }

void *aligned_alloc(size_t align, size_t size) { return is_refused() ? NULL : __libc_memalign(align, size); }

int posix_memalign(void **made, size_t align, size_t size)
{
    if (is_refused())
        return 12;
    *made = __libc_memalign(align, size);
    return *made ? 0 : 12;
}

__attribute__((destructor)) static void tell(void)
{
    const char *name = getenv("COUNTED");
    char text[32];
    int length = snprintf(text, sizeof text, "%ld\n", seen);
    int file = name ? open(name, O_WRONLY | O_CREAT | O_TRUNC, 0644) : -1;
    if (file >= 0 && write(file, text, length) == length)
        close(file);
}
