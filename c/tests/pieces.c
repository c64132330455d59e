/* Compiles each case of tables in pieces of 1, 2, 3, 7, 4,096 and 8,192 bytes, and compares what came of it. The run is saved and restored at each step.
 * In pieces of 7 and of 4,096 bytes each buffer is too small by one once. Some runs have a process for each step. Then it bends states at random,
 * and tries what is refused.
 *
 * Usage: pieces TABLE.. */
#include <stdlib.h>
#include <string.h>
#include <sys/wait.h>
#include <unistd.h>

#include "../gregorio.h"
#include "steps.h"

enum { MOST = 1 << 20 };

/* Writes all, or ends the program. */
static void send_all(int to, const void *bytes, size_t length) {
  for (const uint8_t *at = bytes; length;) {
    ssize_t count = write(to, at, length);
    if (count <= 0) _exit(2);
    at += count;
    length -= (size_t)count;
  }
}

static void receive_all(int from, void *bytes, size_t length) {
  for (uint8_t *at = bytes; length;) {
    ssize_t count = read(from, at, length);
    if (count <= 0) exit(2);
    at += count;
    length -= (size_t)count;
  }
}

/* Makes a step in a process of its own, which gets nothing but the state. */
static void step_elsewhere(struct run *run, maker make, const struct text *piece) {
  int ends[2], status;
  if (pipe(ends)) exit(2);
  fflush(NULL);
  pid_t child = fork();
  if (child < 0) exit(2);
  struct made made;
  struct rooms rooms = {run->state.length + piece->length + AMPLE, MOST, MOST};
  if (child == 0) {
    size_t before = failures();
    made = make(run, piece, rooms);
    send_all(ends[1], &made.status, sizeof made.status);
    send_all(ends[1], &made.step, sizeof made.step);
    send_all(ends[1], made.state, rooms.state);
    send_all(ends[1], made.output, made.status <= GREGORIO_RUNS ? made.step.output : 0);
    send_all(ends[1], made.messages, made.status <= GREGORIO_RUNS ? made.step.messages : 0);
    _exit(failures() != before);
  }
  close(ends[1]);
  made = made_with(run, rooms);
  receive_all(ends[0], &made.status, sizeof made.status);
  receive_all(ends[0], &made.step, sizeof made.step);
  receive_all(ends[0], made.state, rooms.state);
  receive_all(ends[0], made.output, made.status <= GREGORIO_RUNS ? made.step.output : 0);
  receive_all(ends[0], made.messages, made.status <= GREGORIO_RUNS ? made.step.messages : 0);
  close(ends[0]);
  check(waitpid(child, &status, 0) == child && WIFEXITED(status) && WEXITSTATUS(status) == 0, "a step in a process of its own", run->number);
  take(run, &made);
  drop(&made);
}

/* Runs over a case in pieces of this many bytes, and compares what comes of it. */
static void try_pieces(const struct test_case *it, size_t number, size_t size, stepper step) {
  struct run run = begin(it, number);
  feed_all(&run, it->input, size, step);
  end_as(&run, step, it->status, it->output, it->messages);
  free_run(&run);
}

/* ---- states that are bent, and what is refused */

static bool is_refused(uint32_t status) { return status == GREGORIO_NO_STATE || status == GREGORIO_OTHER_STATE; }

/* Feeds and ends from these bytes. They are refused by both, or by none; where they are taken, so is the state after them. */
static bool try_state(const struct run *run, uint8_t *bytes, size_t length) {
  static uint8_t some[] = "f)a(g";
  struct run other = *run;
  other.state = (struct text){bytes, length};
  struct rooms rooms = {length + AMPLE, AMPLE, AMPLE};
  struct made ended = finish(&other, NULL, rooms), fed = feed(&other, &(struct text){some, sizeof some - 1}, rooms);
  check(is_refused(fed.status) == is_refused(ended.status), "bytes that are refused by one call", run->number);
  bool refused = is_refused(fed.status);
  check(refused || fed.status == GREGORIO_RUNS || fed.status == GREGORIO_FATAL || fed.status == GREGORIO_SHORT, "a bent state", run->number);
  if (fed.status == GREGORIO_RUNS) {
    other.state = (struct text){fed.state, fed.step.state};
    struct made again = feed(&other, &(struct text){NULL, 0}, rooms);
    check(again.status == GREGORIO_RUNS && again.step.state == fed.step.state && has_old_state(&other, &again), "nothing is fed", run->number);
    drop(&again);
  }
  drop(&fed);
  drop(&ended);
  return refused;
}

/* Turns each byte of a state, cuts it and lengthens it. */
static size_t bend(const struct run *run) {
  size_t refused = 0, length = run->state.length;
  uint8_t *bent = malloc(length + 9);
  for (size_t at = 0; at < length; at++) {
    memcpy(bent, run->state.bytes, length);
    bent[at] ^= (uint8_t)(1 + rand() % 255);
    refused += try_state(run, bent, length);
    if (rand() % 2) bent[(size_t)rand() % length] = (uint8_t)rand();
    refused += try_state(run, bent, length);
    refused += try_state(run, run->state.bytes, at);
  }
  memcpy(bent, run->state.bytes, length);
  for (size_t more = 1; more < 9; more++) {
    bent[length + more - 1] = (uint8_t)(more % 3 ? 0 : rand());
    refused += try_state(run, bent, length + more);
  }
  free(bent);
  return refused;
}

/* Bends the state that a run has in the middle of a case. */
static void try_bent(const struct test_case *it, size_t number) {
  struct run run = begin(it, number);
  step_amply(&run, feed, &(struct text){it->input.bytes, it->input.length / 2});
  if (run.status == GREGORIO_RUNS) {
    size_t refused = bend(&run);
    check(refused > run.state.length, "most bent states are refused", number);
  }
  free_run(&run);
}

static void try_bounds(void) {
  struct gregorio_options options = {65536, 16384, UINT32_MAX, 0, {1, 2}};
  check(gregorio_state_bound(NULL, 0) == 65664 && gregorio_state_bound(&options, 1) == 65664, "the bound of the default limits", 0);
  options.syllable = 16777216;
  check(gregorio_state_bound(&options, 1) == 2 * 16777216 + 128, "the bound of long syllables", 0);
  uint32_t wrong[][3] = {{63, 64, 64}, {64, 63, 64}, {64, 64, 63}, {16777217, 64, 64}, {64, 16777217, 64}};
  for (size_t i = 0; i < sizeof wrong / sizeof *wrong; i++) {
    struct gregorio_options out = {wrong[i][0], wrong[i][1], wrong[i][2], 0, {0, 0}};
    struct gregorio_step step = {77, 78, 79};
    check(gregorio_state_bound(&out, 1) == 0, "the bound of limits out of range", i);
    check(gregorio_begin(0, 0, &out, 1, NULL, 0, &step) == GREGORIO_REFUSED && step.state == 77, "limits out of range", i);
  }
  struct gregorio_options two[2] = {{64, 64, 64, 0, {0, 0}}, {64, 64, 64, 0, {0, 0}}}, later = {64, 64, 64, 1, {0, 0}};
  check(gregorio_state_bound(two, 1) == 64 * 2 + 128, "the bound of the least limits", 0);
  check(gregorio_state_bound(two, 2) == 0 && gregorio_state_bound(&later, 1) == 0, "two options, and a word that is reserved", 0);
}

/* Makes steps with this format, these flags and these limits, from the state of a run with others. */
static void try_other(uint32_t format, uint32_t flags, const struct gregorio_options *limits, uint32_t answer, size_t number) {
  struct test_case mine = {.options = {65536, 16384, UINT32_MAX, 0, {0, 0}}}, other = {.format = format, .flags = flags, .options = *limits};
  struct run run = begin(&mine, 1);
  run.it = &other;
  for (int i = 0; i < 3; i++) {
    other.is_broken = i == 2;
    struct made made = (i ? finish : feed)(&run, &(struct text){NULL, 0}, (struct rooms){AMPLE, AMPLE, AMPLE});
    check(made.status == answer, "a step of another run", number);
    drop(&made);
  }
  free_run(&run);
}

static void try_refusals(void) {
  struct gregorio_options usual = {65536, 16384, UINT32_MAX, 0, {0, 0}}, less = usual, none = usual;
  struct gregorio_step step = {77, 78, 79};
  less.syllable = 64;
  none.input = 0;
  check(gregorio_begin(2, 0, NULL, 0, NULL, 0, &step) == GREGORIO_REFUSED, "another format", 0);
  check(gregorio_begin(0, 2, NULL, 0, NULL, 0, &step) == GREGORIO_REFUSED, "another flag", 0);
  check(step.state == 77 && step.output == 78 && step.messages == 79, "nothing written", 0);
  try_other(GREGORIO_DUMP, 0, &usual, GREGORIO_OTHER_STATE, 1);
  try_other(GREGORIO_GABC, GREGORIO_ALL_WARNINGS, &usual, GREGORIO_OTHER_STATE, 2);
  try_other(GREGORIO_GABC, 0, &less, GREGORIO_OTHER_STATE, 3);
  try_other(2, 0, &usual, GREGORIO_REFUSED, 4);
  try_other(0, 2, &usual, GREGORIO_REFUSED, 5);
  try_other(0, 0, &none, GREGORIO_REFUSED, 6);
}

int main(int count, char **tables) {
  size_t number = 0;
  struct test_case it;
  srand(1);
  for (int i = 1; i < count; i++) {
    FILE *table = fopen(tables[i], "rb");
    if (!table) return 2;
    while (next_run(table, &it)) {
      number++;
      for (size_t size = 1; size <= 3; size++) try_pieces(&it, number, size, step_amply);
      try_pieces(&it, number, 7, step_exactly);
      try_pieces(&it, number, 4096, step_exactly);
      try_pieces(&it, number, 8192, step_amply);
      if (number % 20 == 0) try_pieces(&it, number, 7, step_elsewhere);
      if (number % 20 == 10) try_bent(&it, number);
      free_case(&it);
    }
    fclose(table);
  }
  check(number > 0, "there are cases", 0);
  try_bounds();
  try_refusals();
  return summary("pieces");
}
