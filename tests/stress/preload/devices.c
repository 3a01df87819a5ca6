/* Preloaded into a program: the read whose number FAIL_READ gives fails, the write whose number FAIL_WRITE gives, and the renaming whose number
   FAIL_RENAME gives, counted from 1. With ONE_BYTE each read or write moves one byte a call. How many reads and writes there were is written to the file
   that COUNT_CALLS names. Reads of the program's limits don't count, since it may do without; with FAIL_LIMITS they fail. KILL_CALL gives the number of
   a call, of those that change files, at which the program is killed; a write is half done then. */
#define _GNU_SOURCE
#include <errno.h>
#include <fcntl.h>
#include <signal.h>
#include <stdarg.h>
#include <stdio.h>
#include <stdlib.h>
#include <string.h>
#include <sys/syscall.h>
#include <sys/types.h>
#include <unistd.h>

static long reads, writes, renames, changes;
static int limits = -1; /* the open file with the limits */

static long wanted(const char *name) {
    const char *number = getenv(name);
    return number ? atol(number) : 0;
}

static int is_killed(void) { return ++changes == wanted("KILL_CALL"); }

static void change(void) {
    if (is_killed()) raise(SIGKILL);
}

static size_t moved(size_t count) { return count > 1 && getenv("ONE_BYTE") ? 1 : count; }

ssize_t read(int file, void *bytes, size_t count) {
    if (file == limits ? wanted("FAIL_LIMITS") : ++reads == wanted("FAIL_READ")) {
        errno = EIO;
        return -1;
    }
    return syscall(SYS_read, file, bytes, moved(count));
}

ssize_t write(int file, const void *bytes, size_t count) {
    if (is_killed()) {
        syscall(SYS_write, file, bytes, count / 2);
        raise(SIGKILL);
    }
    if (++writes == wanted("FAIL_WRITE")) {
        errno = EIO;
        return -1;
    }
    return syscall(SYS_write, file, bytes, moved(count));
}

int open(const char *path, int flags, ...) {
    va_list rest;
    int mode = 0, file;
    va_start(rest, flags);
    if (flags & O_CREAT) {
        mode = va_arg(rest, int);
        change();
    }
    va_end(rest);
    file = (int)syscall(SYS_open, path, flags, mode);
    if (strcmp(path, "/proc/self/limits") == 0)
        limits = file;
    else if (file == limits)
        limits = -1;
    return file;
}

int mkdir(const char *path, mode_t mode) {
    change();
    return (int)syscall(SYS_mkdir, path, mode);
}

int chmod(const char *path, mode_t mode) {
    change();
    return (int)syscall(SYS_chmod, path, mode);
}

int unlink(const char *path) {
    change();
    return (int)syscall(SYS_unlink, path);
}

int rename(const char *from, const char *to) {
    change();
    if (++renames == wanted("FAIL_RENAME")) {
        errno = EIO;
        return -1;
    }
    return (int)syscall(SYS_rename, from, to);
}

static __attribute__((destructor)) void tell(void) {
    const char *path = getenv("COUNT_CALLS");
    char text[64];
    int file = path ? open(path, O_WRONLY | O_CREAT | O_TRUNC, 0600) : -1;
    if (file < 0) return;
    syscall(SYS_write, file, text, snprintf(text, sizeof text, "%ld %ld\n", reads, writes));
    close(file);
}
