#include "memory.h"

/* The head of a block. `size` counts its bytes without the head, and is a multiple of 16. */
struct block {
  size_t size;
  size_t is_taken;
};

enum { HEAD = sizeof(struct block) };
static const size_t MOST = (size_t)1 << 32;

/* Where the row begins, and its end. Both are null before the first block is taken. */
static unsigned char *first, *end;

/* The block at which the next search begins, or the end of the row: the one that was taken last, so that few blocks are passed again. */
static unsigned char *latest;

static unsigned char *bytes_of(struct block *it) { return (unsigned char *)it + HEAD; }
static struct block *block_of(void *bytes) { return (struct block *)((unsigned char *)bytes - HEAD); }
static struct block *block_after(struct block *it) { return (struct block *)(bytes_of(it) + it->size); }
static _Bool is_last(struct block *it) { return bytes_of(it) + it->size == end; }

/* Rounds up to a multiple of 16, and to one at least. */
static size_t rounded(size_t size) { return size ? (size + 15) & ~(size_t)15 : 16; }

/* Makes one block of this one and of the free ones that follow. */
static void join(struct block *it) {
  while (!is_last(it) && !block_after(it)->is_taken) it->size += HEAD + block_after(it)->size;
  if ((unsigned char *)it < latest && latest < bytes_of(it) + it->size) latest = (unsigned char *)it;
}

/* Leaves the block this size, and makes a free block of the rest if that has room for one. */
static void split(struct block *it, size_t size) {
  if (it->size < size + HEAD + 16) return;
  size_t rest = it->size - size - HEAD;
  it->size = size;
  *block_after(it) = (struct block){rest, 0};
}

/* Lengthens the last block of the row to this size. */
static _Bool lengthen_last(struct block *it, size_t size) {
  unsigned char *to = lengthen(size - it->size);
  if (!to) return 0;
  it->size += (size_t)(to - end) & ~(size_t)15;
  end = bytes_of(it) + it->size;
  return 1;
}

/* Adds a free block of this size at the end of the row. */
static struct block *add(size_t size) {
  unsigned char *to = lengthen(HEAD + size);
  if (!to) return 0;
  struct block *it = (struct block *)end;
  *it = (struct block){((size_t)(to - end) & ~(size_t)15) - HEAD, 0};
  end = bytes_of(it) + it->size;
  return it;
}

/* Returns the first free block of at least this size from `at` on, or null. `last` is then the last block of the row. */
static struct block *found_from(unsigned char *at, size_t size, struct block **last) {
  for (; at < end; at = bytes_of(*last) + (*last)->size) {
    *last = (struct block *)at;
    if ((*last)->is_taken) continue;
    join(*last);
    if ((*last)->size >= size) return *last;
  }
  return 0;
}

/* Returns a free block of at least this size: one of the row, of which the last may be lengthened, or a new one. */
static struct block *found(size_t size) {
  struct block *last = 0, *it = found_from(latest, size, &last);
  if (!it) it = found_from(first, size, &last);
  if (it) return it;
  if (last && !last->is_taken) return lengthen_last(last, size) ? last : 0;
  return add(size);
}

void *take(size_t size) {
  if (size > MOST) return 0;
  if (!first) first = latest = end = beginning();
  struct block *it = found(rounded(size));
  if (!it) return 0;
  split(it, rounded(size));
  it->is_taken = 1;
  latest = (unsigned char *)it;
  return bytes_of(it);
}

void *resize(void *old, size_t size) {
  if (size > MOST) return 0;
  struct block *it = block_of(old);
  size_t before = it->size, wanted = rounded(size);
  if (before < wanted) join(it);
  if (it->size >= wanted || (is_last(it) && lengthen_last(it, wanted))) {
    split(it, wanted);
    return old;
  }
  unsigned char *to = take(size);
  if (!to) return 0;
  for (size_t i = 0; i < before; i++) to[i] = ((unsigned char *)old)[i];
  give(old);
  return to;
}

void give(void *block) {
  if (block) block_of(block)->is_taken = 0;
}
