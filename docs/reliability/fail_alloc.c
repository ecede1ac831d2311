/* A library to be loaded before the C library (LD_PRELOAD), that refuses one request for memory.

   Requests are the calls of malloc, calloc, realloc and aligned_alloc and its kin, counted from 1. The one whose number the variable
   FAIL_ALLOC holds is refused: it gives NULL. Where ALLOC_COUNT names a file, the number of all requests is written into it at the end. */

#include <errno.h>
#include <fcntl.h>
#include <stddef.h>
#include <stdio.h>
#include <stdlib.h>
#include <unistd.h>

extern void *__libc_malloc(size_t size);
extern void *__libc_calloc(size_t count, size_t size);
extern void *__libc_realloc(void *old, size_t size);
extern void *__libc_memalign(size_t alignment, size_t size);

static unsigned long requests;
static unsigned long refused;
static int is_read;

/* Counts a request, and tells whether it is the one that is refused. */
static int is_refused(void)
{
    if (!is_read) {
        const char *number = getenv("FAIL_ALLOC");
        refused = number ? strtoul(number, NULL, 10) : 0;
        is_read = 1;
    }
    requests++;
    if (requests != refused)
        return 0;
    errno = ENOMEM;
    return 1;
}

void *malloc(size_t size)
{
    return is_refused() ? NULL : __libc_malloc(size);
}

void *calloc(size_t count, size_t size)
{
    return is_refused() ? NULL : __libc_calloc(count, size);
}

void *realloc(void *old, size_t size)
{
    return is_refused() ? NULL : __libc_realloc(old, size);
}

void *aligned_alloc(size_t alignment, size_t size)
{
    return is_refused() ? NULL : __libc_memalign(alignment, size);
}

void *memalign(size_t alignment, size_t size)
{
    return is_refused() ? NULL : __libc_memalign(alignment, size);
}

int posix_memalign(void **block, size_t alignment, size_t size)
{
    void *found = is_refused() ? NULL : __libc_memalign(alignment, size);
    if (!found)
        return ENOMEM;
    *block = found;
    return 0;
}

/* Writes the number of requests. */
__attribute__((destructor)) static void report(void)
{
    char text[32];
    const char *name = getenv("ALLOC_COUNT");
    int length = snprintf(text, sizeof text, "%lu\n", requests);
    int file = name ? open(name, O_WRONLY | O_CREAT | O_TRUNC, 0666) : -1;
    if (file >= 0 && write(file, text, (size_t)length) != length)
        _exit(125);
}
