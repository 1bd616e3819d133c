/* Refuses one growth of a program, the nth of all: REFUSE_NTH=n LD_PRELOAD=refuse_nth.so PROGRAM .. A growth is a call of
   malloc, calloc, realloc, or one of those that align. Where one was refused, the file that REFUSED names is made. */
#define _GNU_SOURCE
#include <errno.h>
#include <fcntl.h>
#include <stddef.h>
#include <stdlib.h>
#include <unistd.h>

extern void *__libc_malloc(size_t size);
extern void *__libc_calloc(size_t count, size_t size);
extern void *__libc_realloc(void *old, size_t size);
extern void *__libc_memalign(size_t alignment, size_t size);

static long grown = 0;
static long wanted = -1;

/* Whether this growth is the one that is refused. */
static int is_refused(void) {
    if (wanted < 0) {
        const char *number = getenv("REFUSE_NTH");
        wanted = number ? atol(number) : 0;
    }
    if (__sync_add_and_fetch(&grown, 1) != wanted)
        return 0;
    const char *path = getenv("REFUSED");
    int mark = path ? open(path, O_CREAT | O_WRONLY, 0600) : -1;
    if (mark >= 0)
        close(mark);
    errno = ENOMEM;
    return 1;
}

void *malloc(size_t size) { return is_refused() ? NULL : __libc_malloc(size); }

void *calloc(size_t count, size_t size) { return is_refused() ? NULL : __libc_calloc(count, size); }

void *realloc(void *old, size_t size) { return is_refused() ? NULL : __libc_realloc(old, size); }

void *memalign(size_t alignment, size_t size) { return is_refused() ? NULL : __libc_memalign(alignment, size); }

void *aligned_alloc(size_t alignment, size_t size) { return is_refused() ? NULL : __libc_memalign(alignment, size); }

int posix_memalign(void **place, size_t alignment, size_t size) {
    void *found = is_refused() ? NULL : __libc_memalign(alignment, size);
    if (found == NULL)
        return ENOMEM;
    *place = found;
    return 0;
}
