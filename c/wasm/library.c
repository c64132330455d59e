/* What the library asks of its host, as WebAssembly: memory. */
#include "memory.h"

enum { PAGE = 1 << 16 };
extern unsigned char __heap_base;

static size_t pages(void) { return __builtin_wasm_memory_size(0); }

unsigned char *beginning(void) { return (unsigned char *)(((size_t)&__heap_base + 15) & ~(size_t)15); }

/* The row has taken all memory up to here; at first up to where it begins. */
static size_t taken;

unsigned char *lengthen(size_t size) {
  if (!taken) taken = (size_t)beginning();
  size_t wanted = (taken + size + PAGE - 1) / PAGE, have = pages();
  if (wanted > have && __builtin_wasm_memory_grow(0, wanted - have) == (size_t)-1) return 0;
  taken = pages() * PAGE;
  return (unsigned char *)taken;
}

/* What `rattle_alloc` and `rattle_realloc` return: whether there was memory, and the block. */
struct tried {
  size_t is_there;
  void *block;
};

static struct tried tried(void *block) { return (struct tried){block != 0, block}; }

struct tried rattle_alloc(size_t size, size_t alignment) { return tried(take(size ? size : alignment)); }

struct tried rattle_realloc(void *old, size_t kept, size_t size, size_t alignment) {
  (void)kept;
  return tried(resize(old, size ? size : alignment));
}

void rattle_dealloc(void *block) { give(block); }
