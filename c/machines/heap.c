/* What the library asks of its host on other machines: memory, of the C library. */
#include <stdint.h>
#include <stdlib.h>

/* What `malloc` aligns every block to. */
enum { ALIGNED = 16 };

/* Returns a block of this size, or null: also for an alignment that `malloc` does not promise. */
__attribute__((used)) void *taken(uint64_t size, uint64_t alignment) {
  if (alignment > ALIGNED || size > SIZE_MAX) return NULL;
  return malloc(size ? size : alignment);
}

/* Makes the block `old` one of this size, and returns it; or null, and it stays as it was. */
__attribute__((used)) void *resized(void *old, uint64_t kept, uint64_t size, uint64_t alignment) {
  (void)kept;
  if (alignment > ALIGNED || size > SIZE_MAX) return NULL;
  return realloc(old, size ? size : alignment);
}

void rattle_dealloc(void *block) { free(block); }

#ifdef _WIN32

/* LLVM returns a pair in rax and rdx, and C on Windows does not: these call what is above, with the 40 bytes of stack that a call needs there, and say beside the
 * block whether it is there. */
#define PAIR(name, call)                                                                                                                                       \
  __asm__(".globl " name "\n" name ": subq $40, %rsp\n call " call "\n movq %rax, %rdx\n xorl %eax, %eax\n testq %rdx, %rdx\n setne %al\n addq $40, %rsp\n ret")
PAIR("rattle_alloc", "taken");
PAIR("rattle_realloc", "resized");

#else

struct tried {
  uint64_t is_there;
  void *block;
};

static struct tried tried(void *block) { return (struct tried){block != NULL, block}; }

struct tried rattle_alloc(uint64_t size, uint64_t alignment) { return tried(taken(size, alignment)); }

struct tried rattle_realloc(void *old, uint64_t kept, uint64_t size, uint64_t alignment) { return tried(resized(old, kept, size, alignment)); }

#endif
