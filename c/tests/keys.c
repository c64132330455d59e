/* The key serves: headers whose names all fall into one group of the table without a key are read with one in at most half of the processor time, where the
 * table is as large as the score wants. In a step of a run, whose table is larger, the names fall into more groups: in four fifths. What a call takes for a
 * score without headers counts for nothing.
 *
 * Usage: keys HEADERS, a file of such headers, without the line `%%` */
#include <stdlib.h>
#include <string.h>
#include <time.h>

#include "../gregorio.h"
#include "cases.h"

enum { ROUNDS = 20, ROOM = 1 << 17 };

static uint8_t names[ROOM], output[ROOM], messages[ROOM], state[ROOM];
static struct gregorio_message records[64];
static const uint8_t *score;
static size_t length;
/* The state of a run with all warnings that has read the names. */
static uint8_t held[ROOM];
static size_t held_length;

typedef bool (*reader)(const uint64_t *key, size_t key_length);

static bool reads_whole(const uint64_t *key, size_t key_length) {
  struct gregorio_lengths lengths;
  return gregorio_compile(score, length, GREGORIO_GABC, 0, key, key_length, output, ROOM, messages, ROOM, &lengths) == GREGORIO_WHOLE;
}

static bool tells_messages(const uint64_t *key, size_t key_length) {
  size_t count;
  return gregorio_messages(score, length, 0, key, key_length, records, 64, &count) == GREGORIO_WHOLE;
}

static bool makes_a_tree(const uint64_t *key, size_t key_length) {
  size_t count;
  return gregorio_tree(score, length, key, key_length, NULL, 0, &count) == GREGORIO_WHOLE;
}

static uint32_t feed(const struct gregorio_options *options, size_t count, struct gregorio_step *step, const uint8_t *piece, size_t piece_length) {
  return gregorio_feed(GREGORIO_GABC, 0, options, count, state, ROOM, step->state, piece, piece_length, output, ROOM, messages, ROOM, step);
}

/* Feeds the score in two pieces, so that the second step reads the headers of the state again. */
static bool reads_in_pieces(const uint64_t *key, size_t key_length) {
  struct gregorio_options options = {65536, 16384, UINT32_MAX, 0, {0, 0}};
  struct gregorio_step step;
  size_t count = key_length > 0 ? 1 : 0;
  if (count > 0) memcpy(options.key, key, sizeof options.key);
  if (gregorio_begin(GREGORIO_GABC, 0, &options, count, state, ROOM, &step) != GREGORIO_RUNS) return false;
  if (feed(&options, count, &step, score, length - 3) != GREGORIO_RUNS) return false;
  return feed(&options, count, &step, score + length - 3, 3) == GREGORIO_RUNS;
}

/* Gives the state of a run with all warnings to one without: its names are read again before it is said to be of another run. For a score without headers it does
 * nothing. */
static bool judges_another(const uint64_t *key, size_t key_length) {
  struct gregorio_options options = {65536, 16384, UINT32_MAX, 0, {0, 0}};
  struct gregorio_step step;
  size_t count = key_length > 0 ? 1 : 0;
  if (count > 0) memcpy(options.key, key, sizeof options.key);
  if (length == 3) return gregorio_begin(GREGORIO_GABC, 1, &options, count, state, ROOM, &step) == GREGORIO_RUNS;
  return gregorio_feed(GREGORIO_GABC, 0, &options, count, held, ROOM, held_length, NULL, 0, output, ROOM, messages, ROOM, &step) == GREGORIO_OTHER_STATE;
}

/* Makes the state for `judges_another`. */
static bool hold_another(size_t names_length) {
  struct gregorio_options options = {65536, 16384, UINT32_MAX, 0, {1, 2}};
  struct gregorio_step step;
  if (gregorio_begin(GREGORIO_GABC, 1, &options, 1, held, ROOM, &step) != GREGORIO_RUNS) return false;
  if (gregorio_feed(GREGORIO_GABC, 1, &options, 1, held, ROOM, step.state, names, names_length, output, ROOM, messages, ROOM, &step) != GREGORIO_RUNS) return false;
  held_length = step.state;
  return true;
}

/* The processor time of one round, in seconds. */
static double time_of(reader read, const uint64_t *key, const char *what, size_t round) {
  clock_t begun = clock();
  check(read(key, key == NULL ? 0 : 2), what, round);
  return (double)(clock() - begun) / CLOCKS_PER_SEC;
}

static void keep_least(double *least, double took) {
  if (took < *least) *least = took;
}

/* Compares the least times of the rounds, which what else the machine does only adds to. The rounds take turns, so that a processor that grows slower or faster
 * changes all of them alike. */
static void try_reader(reader read, size_t names_length, double part, const char *what, size_t number) {
  static const uint64_t key[2] = {0x243f6a8885a308d3, 0x13198a2e03707344};
  double none = 1e9, without = 1e9, with = 1e9;
  for (size_t round = 0; round < ROUNDS; round++) {
    score = names + names_length, length = 3;
    keep_least(&none, time_of(read, key, what, round));
    score = names, length = names_length + 3;
    keep_least(&without, time_of(read, NULL, what, round));
    keep_least(&with, time_of(read, key, what, round));
  }
  without -= none, with -= none;
  printf("keys: %s: %.2f ms without a key, %.2f ms with one\n", what, 1e3 * without, 1e3 * with);
  check(with <= part * without, what, number);
}

int main(int count, char **words) {
  FILE *file = count == 2 ? fopen(words[1], "rb") : NULL;
  if (file == NULL) return 2;
  size_t names_length = fread(names, 1, ROOM - 3, file);
  fclose(file);
  memcpy(names + names_length, "%%\n", 3);
  try_reader(reads_whole, names_length, 0.5, "gregorio_compile", 1);
  try_reader(tells_messages, names_length, 0.5, "gregorio_messages", 2);
  try_reader(makes_a_tree, names_length, 0.5, "gregorio_tree", 3);
  try_reader(reads_in_pieces, names_length, 0.8, "gregorio_feed", 4);
  check(hold_another(names_length), "a state with the names", 5);
  try_reader(judges_another, names_length, 0.8, "a state of another run", 5);
  return summary("keys");
}
