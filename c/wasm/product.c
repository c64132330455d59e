/* What clang calls to multiply numbers of 128 bits, as it does to see whether a product of 64 bits is too large: a processor of WebAssembly has no such product. */
typedef unsigned long long half;
typedef unsigned __int128 whole;

enum { QUARTER = 32 };
static const half LOW = 0xffffffff;

/* The product of two halves, by the products of their quarters. */
static whole product(half a, half b) {
  half low = (a & LOW) * (b & LOW), inner = (a >> QUARTER) * (b & LOW), outer = (a & LOW) * (b >> QUARTER);
  half middle = (low >> QUARTER) + (inner & LOW) + (outer & LOW);
  half high = (a >> QUARTER) * (b >> QUARTER) + (inner >> QUARTER) + (outer >> QUARTER) + (middle >> QUARTER);
  return (whole)high << 64 | (middle << QUARTER | (low & LOW));
}

__int128 __multi3(__int128 a, __int128 b) {
  half a_low = (half)a, b_low = (half)b, a_high = (half)((whole)a >> 64), b_high = (half)((whole)b >> 64);
  return (__int128)(product(a_low, b_low) + ((whole)(a_high * b_low + a_low * b_high) << 64));
}
