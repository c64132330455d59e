/* The one instruction of x86-64 that the library's text of LLVM names, for other machines. */
typedef unsigned char bytes __attribute__((vector_size(16)));

/* Returns, for each of `places`, the byte of `table` at its low four bits, or 0 if its high bit is set, as the instruction `pshufb` does. */
bytes shuffle_bytes(bytes table, bytes places) {
  bytes found;
  for (int i = 0; i < 16; i++) found[i] = places[i] & 0x80 ? 0 : table[places[i] & 15];
  return found;
}
