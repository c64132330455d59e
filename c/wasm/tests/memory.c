/* Takes, resizes and gives back blocks at random, beside a list of what each has to hold, and looks that none overlaps another, that each keeps its
 * bytes, and that all memory can be had again once all has been given back.
 *
 * Usage: memory */
#include "../memory.h"

#include <stdbool.h>
#include <stdint.h>
#include <stdio.h>
#include <stdlib.h>
#include <string.h>

enum { PAGE = 1 << 16, MOST = 64 * PAGE, BLOCKS = 200, STEPS = 400000 };

static size_t passed, failed;

static void check(bool is_well, const char *what) {
  if (is_well) {
    passed++;
  } else {
    failed++;
    fprintf(stderr, "failed: %s\n", what);
  }
}

/* ---- the host: one array, whose pages are handed out as they are asked for */

static unsigned char *pages, *until;

unsigned char *beginning(void) { return pages; }

unsigned char *lengthen(size_t size) {
  size_t length = (size_t)(until - pages);
  if (size > MOST - length) return NULL;
  until = pages + (length + size + PAGE - 1) / PAGE * PAGE;
  return until;
}

/* ---- blocks, and what they have to hold */

struct held {
  unsigned char *bytes;
  size_t size;
  unsigned char filling;
};

static struct held held[BLOCKS];

static uint32_t drawn(void) {
  static uint32_t state = 12345;
  state ^= state << 13;
  state ^= state >> 17;
  return state ^= state << 5;
}

/* Mostly a small size, sometimes a large one, and sometimes none. */
static size_t drawn_size(void) { return drawn() % 8 ? drawn() % 300 : drawn() % (1 << (drawn() % 18)); }

static bool is_filled(const struct held *it, size_t length) {
  for (size_t i = 0; i < length; i++) {
    if (it->bytes[i] != it->filling) return false;
  }
  return true;
}

static void fill(struct held *it, unsigned char *bytes, size_t size) {
  *it = (struct held){bytes, size, (unsigned char)drawn()};
  memset(bytes, it->filling, size);
}

/* Whether a block lies in the row, and begins at a multiple of 16. */
static bool is_placed(const struct held *it) {
  return it->bytes >= pages && it->bytes + it->size <= until && (uintptr_t)it->bytes % 16 == 0;
}

static void step(struct held *it) {
  size_t size = drawn_size();
  if (!it->bytes) {
    unsigned char *bytes = take(size);
    if (bytes) fill(it, bytes, size);
  } else if (drawn() % 2) {
    unsigned char *bytes = resize(it->bytes, size);
    if (bytes) {
      it->bytes = bytes;
      check(is_filled(it, size < it->size ? size : it->size), "a block that is resized keeps its bytes");
      fill(it, bytes, size);
    }
  } else {
    check(is_filled(it, it->size), "a block has its bytes when it is given back");
    give(it->bytes);
    it->bytes = NULL;
  }
  check(!it->bytes || is_placed(it), "a block lies in the row");
}

static void give_all(void) {
  for (struct held *it = held; it < held + BLOCKS; it++) {
    check(!it->bytes || is_filled(it, it->size), "a block has its bytes at the end");
    give(it->bytes);
    it->bytes = NULL;
  }
}

/* Whether nearly all memory can be had as one block, and more cannot. */
static void try_largest(void) {
  void *all = take(MOST - PAGE);
  check(all != NULL, "all memory is one block again");
  check(!take(2 * PAGE), "more than all memory is refused");
  check(!all || !resize(all, 2 * MOST), "a block cannot be resized beyond all memory");
  give(all);
}

int main(void) {
  pages = until = aligned_alloc(PAGE, MOST);
  if (!pages) return 2;
  check(!take((size_t)1 << 40) && !take(SIZE_MAX), "a size beyond 32 bits is refused");
  for (int i = 0; i < STEPS; i++) {
    step(&held[drawn() % BLOCKS]);
    if (i % 100000 == 99999) {
      give_all();
      try_largest();
    }
  }
  size_t before = (size_t)(until - pages);
  for (int i = 0; i < 10000; i++) {
    void *one = take(1000), *other = take(100000);
    check(one && other, "a block is had again and again");
    give(other);
    give(one);
  }
  check((size_t)(until - pages) == before, "what is given back is taken again");
  free(pages);
  printf("memory: %zu passed, %zu failed\n", passed, failed);
  return failed != 0;
}
