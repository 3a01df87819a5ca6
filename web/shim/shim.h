/* What the files of the shim share. They are compiled without a C library, so there is no stddef.h. */
#ifndef SHIM_H
#define SHIM_H

typedef unsigned long size_t;

void *malloc(size_t size);
void free(void *block);
void *realloc(void *block, size_t size);

#endif
