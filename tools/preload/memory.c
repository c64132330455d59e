/* Refuses requests for memory of a program that is started with this library preloaded, and says what came of it. Needs glibc.
 *
 * REFUSE is `none`, `one` or `rest`: no request is refused, the n-th, or all from the n-th on.
 *
 * With FROM=n requests are counted from the start of the program. When it ends, the file REPORT gets how many requests came, how many were
 * refused, and how many reads, writes and files opened came after the first refusal; writes to standard error do not count.
 *
 * Without FROM the lines that the program writes to standard output say where to count. After a line `call NAME` n is 0. After a line `try` n
 * is one more, and requests are counted up to the next line. Before that line stands then how many requests came, how many were refused, and
 * how many blocks more are held. Before a line `end` stands how many blocks more are held than at its `call`. */
#define _GNU_SOURCE
#include <errno.h>
#include <fcntl.h>
#include <stdarg.h>
#include <stdbool.h>
#include <stdio.h>
#include <stdlib.h>
#include <string.h>
#include <sys/syscall.h>
#include <unistd.h>

void *__libc_malloc(size_t size);
void *__libc_calloc(size_t count, size_t size);
void *__libc_realloc(void *block, size_t size);
void *__libc_memalign(size_t alignment, size_t size);
void __libc_free(void *block);

static bool is_counting, refuses_one, refuses_rest, counts_all;
static long from, asked, refused, held, held_at_try, held_at_call;
static long reads, writes, opens;

__attribute__((constructor)) static void begin(void) {
  const char *how = getenv("REFUSE"), *first = getenv("FROM");
  refuses_one = how && strcmp(how, "one") == 0;
  refuses_rest = how && strcmp(how, "rest") == 0;
  counts_all = first != NULL;
  from = first ? strtol(first, NULL, 10) : 0;
  is_counting = counts_all;
}

/* Writes a line to this descriptor, past the calls below. */
static void tell(int fd, const char *format, ...) {
  char line[160];
  va_list values;
  va_start(values, format);
  int length = vsnprintf(line, sizeof line, format, values);
  va_end(values);
  syscall(SYS_write, fd, line, (size_t)length);
}

__attribute__((destructor)) static void end(void) {
  const char *name = getenv("REPORT");
  is_counting = false;
  if (!counts_all || !name) return;
  int fd = (int)syscall(SYS_openat, AT_FDCWD, name, O_WRONLY | O_CREAT | O_TRUNC, 0600);
  tell(fd, "asked %ld refused %ld reads %ld writes %ld opens %ld\n", asked, refused, reads, writes, opens);
}

/* Whether this request is refused. */
static bool refuses(void) {
  if (!is_counting) return false;
  asked++;
  if (!(refuses_one && asked == from) && !(refuses_rest && asked >= from)) return false;
  refused++;
  errno = ENOMEM;
  return true;
}

static void *kept(void *block) {
  held += block != NULL;
  return block;
}

void *malloc(size_t size) { return refuses() ? NULL : kept(__libc_malloc(size)); }
void *calloc(size_t count, size_t size) { return refuses() ? NULL : kept(__libc_calloc(count, size)); }
void *memalign(size_t alignment, size_t size) { return refuses() ? NULL : kept(__libc_memalign(alignment, size)); }
void *aligned_alloc(size_t alignment, size_t size) { return memalign(alignment, size); }

int posix_memalign(void **block, size_t alignment, size_t size) {
  void *made = memalign(alignment, size);
  if (made) *block = made;
  return made ? 0 : ENOMEM;
}

void *realloc(void *block, size_t size) {
  if (refuses()) return NULL;
  void *moved = __libc_realloc(block, size);
  held += !block && moved;
  held -= block && !moved && size == 0;
  return moved;
}

void free(void *block) {
  held -= block != NULL;
  __libc_free(block);
}

static bool begins(const char *line, size_t length, const char *word) { return length >= strlen(word) && memcmp(line, word, strlen(word)) == 0; }

/* Counts as the line says that is written to standard output. */
static void follow(const char *line, size_t length) {
  if (is_counting) {
    is_counting = false;
    tell(1, "asked %ld refused %ld held %ld\n", asked, refused, held - held_at_try);
  }
  if (begins(line, length, "call ")) {
    from = 0;
    held_at_call = held;
  } else if (begins(line, length, "end\n")) {
    tell(1, "left %ld\n", held - held_at_call);
  }
}

ssize_t write(int fd, const void *bytes, size_t length) {
  if (counts_all) {
    writes += refused > 0 && fd != 2;
  } else if (fd == 1) {
    follow(bytes, length);
  }
  ssize_t count = syscall(SYS_write, fd, bytes, length);
  if (!counts_all && fd == 1 && begins(bytes, length, "try\n")) {
    from++;
    asked = refused = 0;
    held_at_try = held;
    is_counting = true;
  }
  return count;
}

ssize_t read(int fd, void *bytes, size_t length) {
  reads += refused > 0;
  return syscall(SYS_read, fd, bytes, length);
}

static int opened(int folder, const char *name, int flags, mode_t mode) {
  opens += refused > 0;
  return (int)syscall(SYS_openat, folder, name, flags, mode);
}

int open(const char *name, int flags, ...) {
  va_list values;
  va_start(values, flags);
  mode_t mode = va_arg(values, mode_t);
  va_end(values);
  return opened(AT_FDCWD, name, flags, mode);
}

int openat(int folder, const char *name, int flags, ...) {
  va_list values;
  va_start(values, flags);
  mode_t mode = va_arg(values, mode_t);
  va_end(values);
  return opened(folder, name, flags, mode);
}
