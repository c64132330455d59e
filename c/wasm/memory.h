/* Memory for the library as WebAssembly. The whole of it is one row of blocks, each with a head of 16 bytes before its bytes; the row grows at its
 * end alone. Neighbours that are free become one block when a block is looked for,
 * and a search begins where the one before it ended. */
#ifndef MEMORY_H
#define MEMORY_H

/* The kit's clang brings no headers. */
typedef __SIZE_TYPE__ size_t;

/* Returns a block of at least `size` bytes, whose address is a multiple of 16, or null where there is no memory. */
void *take(size_t size);

/* Returns the block `old`, which `take` or `resize` returned, with at least `size` bytes: those that it had before, up to `size`, are as they
 * were. It may stand elsewhere. Returns null where there is no memory, and `old` is as it was then. */
void *resize(void *old, size_t size);

/* Gives back a block that `take` or `resize` returned, or null. */
void give(void *block);

/* Lengthens the row by at least `size` bytes, and returns where it ends then, or null where there is no memory. The host gives this. */
unsigned char *lengthen(size_t size);

/* Returns where the row begins, a multiple of 16, and ends at first. The host gives this. */
unsigned char *beginning(void);

#endif
