/* States of strangers: what bytes cost that are refused, whatever limits they name. Bytes of below 1 kB take at most 0.4 ms, and 0.15 ms for each further kB
 * (0.25 ms of a pending syllable), and no more than 1 MB of memory, and 8 MB for 64 kB of state, in proportion above.
 *
 * Linked with --wrap for `malloc`, `realloc` and `free`, which count what is asked for at one time.
 *
 * Usage: strangers */
#include <malloc.h>
#include <stdlib.h>
#include <string.h>
#include <time.h>

#include "../gregorio.h"
#include "cases.h"

enum { ROUNDS = 20, ROOM = 17 << 20 };

void *__real_malloc(size_t size);
void *__real_realloc(void *old, size_t size);
void __real_free(void *old);

static size_t held, most;

/* The seconds that each further kB may take. */
static double each_kilobyte = 0.15e-3;

static void *counted(void *made) {
  held += made == NULL ? 0 : malloc_usable_size(made);
  if (held > most) most = held;
  return made;
}

void *__wrap_malloc(size_t size) { return counted(__real_malloc(size)); }

void *__wrap_realloc(void *old, size_t size) {
  held -= old == NULL ? 0 : malloc_usable_size(old);
  return counted(__real_realloc(old, size));
}

void __wrap_free(void *old) {
  held -= old == NULL ? 0 : malloc_usable_size(old);
  __real_free(old);
}

static uint8_t *state, *text, *output;
static const struct gregorio_options large = {1 << 24, 1 << 24, UINT32_MAX, 0, {1, 2}};

/* The length of the state of a run under the largest limits that has read this text; 0 where there is none. */
static size_t state_of(uint32_t format, const uint8_t *input, size_t length) {
  struct gregorio_step step;
  if (gregorio_begin(format, 0, &large, 1, state, ROOM, &step) != GREGORIO_RUNS) return 0;
  if (gregorio_feed(format, 0, &large, 1, state, ROOM, step.state, input, length, output, ROOM, output, 0, &step) != GREGORIO_RUNS) return 0;
  return step.state;
}

/* Gives the first `length` bytes of `state` to a run under the usual limits, and looks at the answer, the time and the memory. */
static void refuse(size_t length, uint32_t answer, const char *what, size_t number) {
  struct gregorio_step step;
  double least = 1e9, allowed = 0.4e-3 + (length > 1024 ? each_kilobyte * ((double)length / 1024 - 1) : 0);
  most = held;
  size_t before = held;
  for (size_t i = 0; i < ROUNDS; i++) {
    clock_t begun = clock();
    check(gregorio_feed(GREGORIO_GABC, 0, NULL, 0, state, ROOM, length, text, 0, output, ROOM, output, 0, &step) == answer, what, number);
    double took = (double)(clock() - begun) / CLOCKS_PER_SEC;
    if (took < least) least = took;
  }
  double allowed_bytes = length <= 1024 ? 1 << 20 : length <= 65536 ? 8 << 20 : (8 << 20) * ((double)length / 65536);
  printf("strangers: %s: %zu bytes, %.3f ms, %.2f MB\n", what, length, 1e3 * least, (double)(most - before) / 1e6);
  check(least <= allowed, what, number);
  check((double)(most - before) <= allowed_bytes, what, number);
}

/* The state of this text, and the same bytes with another last character, with which the text gives another place or opens something else: no state. */
static void try_text(const char *what, const uint8_t *input, size_t length, uint8_t other, size_t number) {
  for (uint32_t format = GREGORIO_GABC; format <= GREGORIO_DUMP; format++) {
    size_t of = state_of(format, input, length);
    check(of > 0, what, number);
    refuse(of, GREGORIO_OTHER_STATE, what, number);
    state[of - 1] = other;
    refuse(of, GREGORIO_NO_STATE, what, number);
  }
}

/* The state of a run under the usual limits with all warnings, which is given to one without. */
static void try_other_flags(const uint8_t *input, size_t length, size_t number) {
  struct gregorio_step step;
  bool begun = gregorio_begin(GREGORIO_GABC, 1, NULL, 0, state, ROOM, &step) == GREGORIO_RUNS;
  check(begun, "other flags", number);
  begun = begun && gregorio_feed(GREGORIO_GABC, 1, NULL, 0, state, ROOM, step.state, input, length, output, ROOM / 2, output + ROOM / 2, ROOM / 2, &step) == GREGORIO_RUNS;
  check(begun, "other flags", number);
  if (begun) refuse(step.state, GREGORIO_OTHER_STATE, "other flags", number);
}

int main(void) {
  static const uint8_t beginning[] = "name: Kyrie;\n", body[] = "%%\n(c4) Ky(f)ri(gfg)e<i>";
  state = malloc(ROOM), text = malloc(ROOM), output = malloc(ROOM);
  if (state == NULL || text == NULL || output == NULL) return 2;
  memset(text, 'a', ROOM);
  try_text("headers", beginning, sizeof beginning - 1, ' ', 1);
  try_text("a body", body, sizeof body - 1, '<', 2);
  try_other_flags(beginning, sizeof beginning - 1, 1);
  try_other_flags(body, sizeof body - 1, 2);
  memcpy(text, "x:", 2);
  try_text("64 kB of headers", text, 65000, '\n', 3);
  try_text("1 MB of headers", text, 1000000, '\n', 4);
  memcpy(text, "%%\n", 3);
  try_text("64 kB of a text", text, 65000, '<', 5);
  try_text("1 MB of a text", text, 1000000, '<', 6);
  memcpy(text + 64996, "(f)b", 4);
  each_kilobyte = 0.25e-3;
  try_text("64 kB of a syllable that is held", text, 65000, '<', 7);
  return summary("strangers");
}
