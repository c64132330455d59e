/* Compares the products of c/wasm/product.c with those of the processor: of numbers at the ends of their ranges, and of 1,000,000 from a fixed seed. */
#include <stdio.h>

typedef unsigned long long half;
__int128 __multi3(__int128 a, __int128 b);

static half seed = 0x9e3779b97f4a7c15;

/* The next number of a row (xorshift). */
static half next(void) {
  seed ^= seed << 13;
  seed ^= seed >> 7;
  return seed ^= seed << 17;
}

static __int128 of(half high, half low) { return (__int128)((unsigned __int128)high << 64 | low); }

int main(void) {
  static const half ENDS[] = {0, 1, 2, 0x7fffffff, 0x80000000, 0xffffffff, 0x100000000, 0x7fffffffffffffff, 0x8000000000000000, 0xffffffffffffffff};
  enum { COUNT = sizeof ENDS / sizeof *ENDS };
  size_t passed = 0, failed = 0;
  for (int i = 0; i < COUNT * COUNT * COUNT * COUNT + 1000000; i++) {
    __int128 a = of(next() >> (i % 64), next()), b = of(next() >> (i % 61), next());
    if (i < COUNT * COUNT * COUNT * COUNT) {
      a = of(ENDS[i % COUNT], ENDS[i / COUNT % COUNT]);
      b = of(ENDS[i / COUNT / COUNT % COUNT], ENDS[i / COUNT / COUNT / COUNT]);
    }
    if (__multi3(a, b) == (__int128)((unsigned __int128)a * (unsigned __int128)b)) passed++;
    else failed++;
  }
  printf("product: %zu passed, %zu failed\n", passed, failed);
  return failed != 0;
}
