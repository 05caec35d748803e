/* The memory of the page's module: blocks one behind another, all free again once none is in use. A console that has ended
 * has given back all that it took, and the page then gives back what it put in, so nothing grows from console to console.
 * No call between takes any. No header is needed: the target has no C library. */
typedef unsigned long size;

struct tried {
  size ok; /* 1 where there was memory */
  void *block;
};

extern unsigned char __heap_base;

static size top;
static size in_use;

void *page_alloc(size bytes) {
  if (in_use == 0) top = (size)&__heap_base;
  size at = (top + 15) & ~(size)15;
  size end = at + bytes;
  size have = __builtin_wasm_memory_size(0) << 16;
  if (bytes > (size)1 << 40) return 0;
  if (end > have && __builtin_wasm_memory_grow(0, (end - have + 65535) >> 16) == ~(size)0) return 0;
  top = end;
  in_use++;
  return (void *)at;
}

void page_free(void *block) {
  if (block) in_use--;
}

struct tried rattle_alloc(size bytes, size align) {
  (void)align;
  void *block = page_alloc(bytes);
  return (struct tried){block != 0, block};
}

/* On failure the old block is as it was. */
struct tried rattle_realloc(void *block, size kept, size bytes, size align) {
  unsigned char *from = block;
  unsigned char *other = page_alloc(bytes);
  (void)align;
  if (!other) return (struct tried){0, block};
  for (size i = 0; i < kept && i < bytes; i++) other[i] = from[i];
  page_free(block);
  return (struct tried){1, other};
}

void rattle_dealloc(void *block) {
  page_free(block);
}
