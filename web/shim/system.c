/* The system that the program sees: some twenty functions of the C library and of Rattle's runtime, passed on to the page or to Node.
   A call of the host answers a negative number for an error, as Linux does; host.mjs has the other side. */
#include "shim.h"

#define HOST(name) __attribute__((import_module("host"), import_name(#name)))
HOST(write) long host_write(int file, const void *from, size_t count);
HOST(put) int host_put(int file, int byte);
HOST(read) long host_read(int file, void *to, size_t count);
HOST(open) int host_open(const char *path, int flags, int mode);
HOST(close) int host_close(int file);
HOST(lseek) long host_lseek(int file, long offset, int origin);
HOST(isatty) int host_isatty(int file);
HOST(rename) int host_rename(const char *from, const char *to);
HOST(unlink) int host_unlink(const char *path);
HOST(chmod) int host_chmod(const char *path, unsigned mode);
HOST(readlink) long host_readlink(const char *path, void *to, size_t room);
HOST(statx) int host_statx(int folder, const char *path, int flags, unsigned mask, void *to);
HOST(arg_count) size_t host_arg_count(void);
HOST(arg) long host_arg(size_t number, void *to, size_t room);

/* ---- Errors */

static int error_number;

/* What a call of the C library returns for what the host answered. */
static long answer(long answered) {
  if (answered >= 0) return answered;
  error_number = (int)-answered;
  return -1;
}

int *__errno_location(void) { return &error_number; }
int rattle_errno(void) { return error_number; }
void rattle_set_errno(int number) { error_number = number; }

struct error_text {
  int number;
  const char *text;
};

/* The numbers and texts are those of Linux and glibc, so that refusals read the same everywhere. */
static const struct error_text error_texts[] = {
    {1, "Operation not permitted"}, {2, "No such file or directory"}, {5, "Input/output error"},
    {9, "Bad file descriptor"},     {12, "Cannot allocate memory"},   {13, "Permission denied"},
    {16, "Device or resource busy"}, {17, "File exists"},             {18, "Invalid cross-device link"},
    {20, "Not a directory"},        {21, "Is a directory"},           {22, "Invalid argument"},
    {24, "Too many open files"},    {26, "Text file busy"},           {27, "File too large"},
    {28, "No space left on device"}, {29, "Illegal seek"},            {30, "Read-only file system"},
    {32, "Broken pipe"},            {36, "File name too long"},       {39, "Directory not empty"},
    {40, "Too many levels of symbolic links"},
};

static const char *text_of(int number) {
  for (size_t i = 0; i < sizeof error_texts / sizeof error_texts[0]; i++)
    if (error_texts[i].number == number) return error_texts[i].text;
  return "Unknown error";
}

int __xpg_strerror_r(int number, char *to, size_t room) {
  const char *text = text_of(number);
  size_t i = 0;
  for (; text[i] && i + 1 < room; i++) to[i] = text[i];
  if (room) to[i] = 0;
  return 0;
}

/* ---- Files */

/* At a terminal the program writes byte by byte. The host may take a byte by itself, which is quicker; else it answers 0. */
long write(int file, const void *from, size_t count) {
  if (count == 1 && host_put(file, *(const unsigned char *)from)) return 1;
  return answer(host_write(file, from, count));
}
long __write(int file, const void *from, size_t count) { return write(file, from, count); }
long rattle_write_no_sigpipe(int file, const void *from, size_t count) { return write(file, from, count); }
long read(int file, void *to, size_t count) { return answer(host_read(file, to, count)); }
int close(int file) { return (int)answer(host_close(file)); }
long lseek(int file, long offset, int origin) { return answer(host_lseek(file, offset, origin)); }
int isatty(int file) { return host_isatty(file); }
int rename(const char *from, const char *to) { return (int)answer(host_rename(from, to)); }
int unlink(const char *path) { return (int)answer(host_unlink(path)); }
/* No host has folders to be read or made, so `convert --project` is refused. */
int rattle_open_dir_at(int folder, const char *path) { return (int)answer(-1); }
long getdents64(int folder, void *to, size_t room) { return answer(-1); }
int mkdir(const char *path, unsigned mode) { return (int)answer(-1); }
/* No host makes hard links; the program does without. */
int link(const char *from, const char *to) { return (int)answer(-1); }
int chmod(const char *path, unsigned mode) { return (int)answer(host_chmod(path, mode)); }
long readlink(const char *path, void *to, size_t room) { return answer(host_readlink(path, to, room)); }

int statx(int folder, const char *path, int flags, unsigned mask, void *to) {
  return (int)answer(host_statx(folder, path, flags, mask, to));
}

enum { CREATE = 0100 };

/* The mode is passed only with CREATE: reading it otherwise would read an argument that isn't there. */
int open(const char *path, int flags, ...) {
  int mode = 0;
  if (flags & CREATE) {
    __builtin_va_list arguments;
    __builtin_va_start(arguments, flags);
    mode = __builtin_va_arg(arguments, int);
    __builtin_va_end(arguments);
  }
  return (int)answer(host_open(path, flags, mode));
}

/* ---- Arguments, environment, signals */

size_t rattle_arg_count(void) { return host_arg_count(); }
long rattle_arg(size_t number, void *to, size_t room) { return host_arg(number, to, room); }

/* There is no environment: the page has none, and the program's answers must not depend on Node's. */
long rattle_env(const char *name, void *to, size_t room) { return -1; }
long rattle_env_at(size_t number, void *to, size_t room) { return -1; }

/* The host sends no signals. */
long __sysv_signal(int number, long handler) { return 0; }

struct features {
  unsigned words[8];
};

/* The start code of the proved build checks that the processor has what it was compiled for. WebAssembly is no x86 processor; every
   feature is answered, since clang has compiled the module for this machine. */
const struct features *__x86_get_cpuid_feature_leaf(int leaf) {
  static const struct features all = {{~0u, ~0u, ~0u, ~0u, ~0u, ~0u, ~0u, ~0u}};
  return &all;
}

/* ---- The entry */

int main(void);

__attribute__((export_name("start"))) int start(void) { return main(); }
