/* Preloaded into a program: the allocation whose number FAIL_ALLOC gives is refused, counted from 1. How many there were is
   written to the file that COUNT_ALLOC names. */
#include <fcntl.h>
#include <stdio.h>
#include <stdlib.h>
#include <unistd.h>

extern void *__libc_malloc(size_t);
extern void *__libc_calloc(size_t, size_t);
extern void *__libc_realloc(void *, size_t);
extern void *__libc_memalign(size_t, size_t);

static long count;

static int is_refused(void) {
    const char *number = getenv("FAIL_ALLOC");
    return ++count == (number ? atol(number) : 0);
}

static __attribute__((destructor)) void tell(void) {
    const char *path = getenv("COUNT_ALLOC");
    char text[32];
    int file = path ? open(path, O_WRONLY | O_CREAT | O_TRUNC, 0600) : -1;
    if (file < 0) return;
    if (write(file, text, snprintf(text, sizeof text, "%ld\n", count)) < 0) _exit(1);
    close(file);
}

void *malloc(size_t size) { return is_refused() ? NULL : __libc_malloc(size); }

void *calloc(size_t count, size_t size) { return is_refused() ? NULL : __libc_calloc(count, size); }

void *realloc(void *old, size_t size) { return is_refused() ? NULL : __libc_realloc(old, size); }

void *aligned_alloc(size_t alignment, size_t size) { return is_refused() ? NULL : __libc_memalign(alignment, size); }

int posix_memalign(void **place, size_t alignment, size_t size) {
    void *made = is_refused() ? NULL : __libc_memalign(alignment, size);
    if (made) *place = made;
    return made ? 0 : 12;
}
