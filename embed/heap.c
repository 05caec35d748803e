/* The three calls by which the library takes memory, over the malloc of the program that it is linked into. malloc has to
 * align a block to each power of two up to 16 that divides its size; that of every common C library does. */
#include <stdint.h>
#include <stdlib.h>

struct tried {
  uint64_t ok; /* 1 where there was memory */
  void *block;
};

struct tried rattle_alloc(size_t size, size_t align) {
  void *block = malloc(size ? size : 1);
  (void)align;
  return (struct tried){block != NULL, block};
}

/* On failure the old block is as it was. */
struct tried rattle_realloc(void *block, size_t kept, size_t size, size_t align) {
  void *other = realloc(block, size ? size : 1);
  (void)kept, (void)align;
  return (struct tried){other != NULL, other};
}

void rattle_dealloc(void *block) {
  free(block);
}
