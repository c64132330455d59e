/* Makes the reads and writes of a program short, interrupted or failing that is started with this library preloaded, and counts their bytes.
 *
 * READS and WRITES are how many bytes a call moves at most. With INTERRUPT=n each n-th call of either fails with EINTR. READ_FAILS=n and
 * WRITE_FAILS=n make reads of standard input, and writes to standard output, fail once n bytes were moved: with EIO and ENOSPC. With RANDOM_FAILS=1
 * there are no random bytes: EIO. What is not set changes nothing. When the program ends, the file REPORT gets how many bytes were read from standard input and written to standard
 * output, and how many calls were interrupted. */
#define _GNU_SOURCE
#include <errno.h>
#include <fcntl.h>
#include <stdio.h>
#include <stdlib.h>
#include <sys/syscall.h>
#include <unistd.h>

static long most_read, most_written, interrupt, read_fails, write_fails, random_fails;
static long calls, interrupted, bytes_read, bytes_written;

/* The number of this setting, or -1. */
static long setting(const char *name) {
  const char *value = getenv(name);
  return value ? strtol(value, NULL, 10) : -1;
}

__attribute__((constructor)) static void begin(void) {
  most_read = setting("READS");
  most_written = setting("WRITES");
  interrupt = setting("INTERRUPT");
  read_fails = setting("READ_FAILS");
  write_fails = setting("WRITE_FAILS");
  random_fails = setting("RANDOM_FAILS");
}

__attribute__((destructor)) static void end(void) {
  const char *name = getenv("REPORT");
  char line[96];
  if (!name) return;
  int length = snprintf(line, sizeof line, "read %ld written %ld interrupted %ld\n", bytes_read, bytes_written, interrupted);
  int fd = (int)syscall(SYS_openat, AT_FDCWD, name, O_WRONLY | O_CREAT | O_TRUNC, 0600);
  syscall(SYS_write, fd, line, (size_t)length);
}

/* Random bytes, or none. */
int getentropy(void *bytes, size_t length) {
  if (random_fails <= 0) return syscall(SYS_getrandom, bytes, length, 0) == (long)length ? 0 : -1;
  errno = EIO;
  return -1;
}

/* Whether this call is interrupted. */
static int is_interrupted(void) {
  if (interrupt <= 0 || ++calls % interrupt != 0) return 0;
  interrupted++;
  errno = EINTR;
  return 1;
}

/* How many of so many bytes are moved, with this most for a call. */
static size_t moved(size_t length, long most) { return most >= 0 && length > (size_t)most ? (size_t)most : length; }

ssize_t read(int fd, void *bytes, size_t length) {
  if (is_interrupted()) return -1;
  length = moved(length, most_read);
  if (fd == 0 && read_fails >= 0) {
    if (bytes_read >= read_fails) {
      errno = EIO;
      return -1;
    }
    length = moved(length, read_fails - bytes_read);
  }
  ssize_t count = syscall(SYS_read, fd, bytes, length);
  if (fd == 0 && count > 0) bytes_read += count;
  return count;
}

ssize_t write(int fd, const void *bytes, size_t length) {
  if (is_interrupted()) return -1;
  length = moved(length, most_written);
  if (fd == 1 && write_fails >= 0) {
    if (bytes_written >= write_fails) {
      errno = ENOSPC;
      return -1;
    }
    length = moved(length, write_fails - bytes_written);
  }
  ssize_t count = syscall(SYS_write, fd, bytes, length);
  if (fd == 1 && count > 0) bytes_written += count;
  return count;
}
