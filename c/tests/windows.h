/* What the tests ask of POSIX, over the C library of Windows. The compiler puts it before each of them (`-include`). */
#include <stdio.h>
#include <stdlib.h>

/* Reads a line with its end into a room that grows. Returns its length, or -1 at the end of the file, and if there is no memory. */
static inline long long getline(char **line, size_t *room, FILE *file) {
  size_t length = 0;
  for (int read; (read = getc(file)) != EOF;) {
    if (length + 2 > *room) {
      size_t wanted = 2 * *room + 256;
      char *longer = realloc(*line, wanted);
      if (!longer) return -1;
      *line = longer;
      *room = wanted;
    }
    (*line)[length++] = (char)read;
    if (read == '\n') break;
  }
  if (!length) return -1;
  (*line)[length] = 0;
  return (long long)length;
}
