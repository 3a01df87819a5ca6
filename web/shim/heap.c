/* The heap: blocks whose sizes are powers of two, with a list of free blocks for each size. Free blocks are never joined, which suits a
   program that runs one command and ends. A block's class, the exponent of its size, is stored before its first byte. */
#include "shim.h"

enum { HEAD = 16, LEAST_CLASS = 5, CLASSES = 41, PAGE = 65536, LEAST_GROWTH = 256 };

struct free_block {
  struct free_block *next;
};

extern unsigned char __heap_base;
static struct free_block *free_blocks[CLASSES];
static unsigned long top, end;

/* The class of the smallest block that has room for so many bytes. */
static int class_for(size_t size) {
  int class = 64 - __builtin_clzl(size + HEAD - 1);
  return class < LEAST_CLASS ? LEAST_CLASS : class;
}

static unsigned long class_of(const void *block) { return *(const unsigned long *)((const char *)block - HEAD); }

/* Makes room above the top, and returns whether there is memory for it. */
static _Bool grow(size_t size) {
  if (!top) {
    top = ((unsigned long)&__heap_base + HEAD - 1) & ~(unsigned long)(HEAD - 1);
    end = __builtin_wasm_memory_size(0) * PAGE;
  }
  if (top + size <= end) return 1;
  size_t pages = (top + size - end + PAGE - 1) / PAGE;
  if (pages < LEAST_GROWTH) pages = LEAST_GROWTH;
  if (__builtin_wasm_memory_grow(0, pages) == (size_t)-1) return 0;
  end = __builtin_wasm_memory_size(0) * PAGE;
  return 1;
}

void *malloc(size_t size) {
  if (size > ((size_t)1 << (CLASSES - 2))) return 0;
  int class = class_for(size);
  struct free_block *block = free_blocks[class];
  if (block) {
    free_blocks[class] = block->next;
    return block;
  }
  size_t whole = (size_t)1 << class;
  if (!grow(whole)) return 0;
  char *start = (char *)top;
  top += whole;
  *(unsigned long *)start = (unsigned long)class;
  return start + HEAD;
}

void free(void *block) {
  if (!block) return;
  struct free_block *freed = block;
  freed->next = free_blocks[class_of(block)];
  free_blocks[class_of(block)] = freed;
}

/* A block is kept where it has room and at most three quarters of it would be unused. */
void *realloc(void *block, size_t size) {
  if (!block) return malloc(size);
  size_t room = ((size_t)1 << class_of(block)) - HEAD;
  if (size <= room && size >= room / 4) return block;
  void *moved = malloc(size);
  if (!moved) return 0;
  __builtin_memcpy(moved, block, size < room ? size : room);
  free(block);
  return moved;
}

/* ---- What Rattle's allocator calls. Alignments are at most HEAD. */

struct tried {
  _Bool is_done;
  void *block;
};

static struct tried tried(void *block) { return (struct tried){block != 0, block}; }

struct tried rattle_alloc(size_t size, size_t alignment) { return tried(malloc(size ? size : alignment)); }

struct tried rattle_realloc(void *block, size_t kept, size_t size, size_t alignment) {
  return tried(realloc(block, size ? size : alignment));
}

void rattle_dealloc(void *block) { free(block); }
