/* Saves runs as a table says, restores them, and gives the library bytes that are no state, or one of another run. A run that is saved has the state that
 * its row has, byte by byte; a state that is accepted is saved at once as it is, and goes on as its row says. Then it turns a bit in each byte of the
 * saved states but those of the limits: each is refused, or saved at once as it is and goes on to an end.
 *
 * Usage: states SAVED STATES.. */
#include <stdlib.h>
#include <string.h>

#include "../gregorio.h"
#include "steps.h"

/* How many bytes the pieces have. */
enum { PIECE = 5 };

/* Where the format, the flags and the limits stand in a state. */
enum { FORMAT = 5, FLAGS = 6, LIMITS = 7, AFTER_LIMITS = 19 };

/* What a run takes from a state of which a bit is turned. */
static uint8_t some[] = "x]>](h.)\n<i>y</i>(g[z]) {e}(::) last";

/* The run that goes on from these bytes. Nothing is looked at yet. */
static struct run run_from(const struct test_case *it, size_t number, struct text state) {
  struct run run = {it, number, {malloc(state.length + 1), state.length}, {0}, {0}, GREGORIO_RUNS};
  if (state.length) memcpy(run.state.bytes, state.bytes, state.length);
  return run;
}

/* What both kinds of step answer from the state of a run, which they have to answer alike. */
static uint32_t answer_to(const struct run *run) {
  struct rooms rooms = {run->state.length + AMPLE, AMPLE, AMPLE};
  struct made fed = feed(run, &(struct text){NULL, 0}, rooms), ended = finish(run, NULL, rooms);
  bool is_refused = fed.status == GREGORIO_NO_STATE || fed.status == GREGORIO_OTHER_STATE;
  check(is_refused ? ended.status == fed.status : ended.status <= GREGORIO_FATAL || ended.status == GREGORIO_BROKEN || ended.status == GREGORIO_SHORT,
        "the answers to one state", run->number);
  if (fed.status == GREGORIO_RUNS) {
    bool is_kept = fed.step.state == run->state.length && has_old_state(run, &fed) && fed.step.output == 0 && fed.step.messages == 0;
    check(is_kept, "a state that is saved at once", run->number);
  }
  uint32_t status = fed.status;
  drop(&fed);
  drop(&ended);
  return status;
}

/* Restores a run from these bytes, and looks at the answer and at how it goes on, in pieces of `size`. */
static void try_state(const struct test_case *rest, size_t number, struct text state, uint32_t answer, size_t size) {
  struct run run = run_from(rest, number, state);
  uint32_t status = answer_to(&run);
  check(status == answer, "the answer to a state", number);
  if (status == GREGORIO_RUNS && answer == status) {
    feed_all(&run, rest->input, size, step_exactly);
    end_as(&run, step_exactly, rest->status, rest->output, rest->messages);
  }
  free_run(&run);
}

static struct text first_of(struct text all, size_t length) { return (struct text){all.bytes, length}; }
static struct text after(struct text all, size_t length) { return (struct text){all.bytes + length, all.length - length}; }

/* Saves a run after its first bytes, which it gets in pieces of `size`, and compares what it has written and its state. */
static void try_save(const struct saved_case *it, size_t number, size_t size) {
  struct run run = begin(&it->run, number);
  feed_all(&run, first_of(it->run.input, it->fed), size, step_exactly);
  check(run.status == GREGORIO_RUNS && is_same(run.state, it->state), "a saved state", number);
  check(is_same(run.output, first_of(it->run.output, it->output)), "the output before a state", number);
  check(is_same(run.messages, first_of(it->run.messages, it->messages)), "the messages before a state", number);
  free_run(&run);
}

/* Looks at a run that is saved in between, and at one that is not: both have the state of the row, and go on from it. */
static void try_saved(const struct saved_case *it, size_t number) {
  if (it->fed > it->run.input.length || it->output > it->run.output.length || it->messages > it->run.messages.length) {
    check(false, "a row of a run that is saved", number);
    return;
  }
  struct test_case rest = it->run;
  rest.input = after(rest.input, it->fed);
  rest.output = after(rest.output, it->output);
  rest.messages = after(rest.messages, it->messages);
  const size_t sizes[] = {PIECE, it->run.input.length};
  for (size_t i = 0; i < sizeof sizes / sizeof *sizes; i++) {
    try_save(it, number, sizes[i]);
    try_state(&rest, number, it->state, GREGORIO_RUNS, sizes[i]);
  }
}

/* The run of which these bytes say that they are its state. */
static struct test_case asked_by(const struct test_case *it, struct text state) {
  struct test_case asked = *it;
  asked.is_broken = false;
  asked.format = state.length > FORMAT && state.bytes[FORMAT] == 1 ? GREGORIO_DUMP : GREGORIO_GABC;
  asked.flags = state.length > FLAGS && state.bytes[FLAGS] == 1 ? GREGORIO_ALL_WARNINGS : 0;
  return asked;
}

/* Looks at bytes that may be a state. Returns whether they are one. */
static bool try_bytes(const struct test_case *it, size_t number, struct text bytes) {
  struct test_case asked = asked_by(it, bytes);
  struct run run = run_from(&asked, number, bytes);
  uint32_t status = answer_to(&run);
  if (status == GREGORIO_RUNS) {
    feed_all(&run, (struct text){some, sizeof some - 1}, sizeof some, step_amply);
    if (run.status == GREGORIO_RUNS) step_amply(&run, finish, &(struct text){NULL, 0});
    check(run.status <= GREGORIO_FATAL, "the end from a state with a bit turned", number);
  } else {
    check(status == GREGORIO_NO_STATE || status == GREGORIO_OTHER_STATE, "a refusal", number);
  }
  free_run(&run);
  return status == GREGORIO_RUNS;
}

/* Turns a bit in each byte of a state but those of the limits, with which another amount of memory is asked for: another bit for each of eight bytes.
 * Returns how many of them are states. */
static size_t turn(const struct test_case *it, size_t number, struct text state) {
  size_t states = 0;
  for (size_t at = 0; at < state.length; at++) {
    if (LIMITS <= at && at < AFTER_LIMITS) continue;
    uint8_t was = state.bytes[at];
    state.bytes[at] = (uint8_t)(was ^ 1 << at % 8);
    states += try_bytes(it, number, state);
    state.bytes[at] = was;
  }
  return states;
}

static void try_saved_of(FILE *table) {
  struct saved_case it;
  size_t number = 0, states = 0;
  while (next_saved(table, &it)) {
    number++;
    try_saved(&it, number);
    states += turn(&it.run, number, it.state);
    free_case(&it.run);
    free(it.state.bytes);
  }
  check(number > 0 && states > number, "there are saved runs", 0);
}

static void try_states_of(FILE *table) {
  struct state_case it;
  size_t number = 0;
  while (next_state(table, &it)) {
    try_state(&it.rest, ++number, it.state, it.answer, PIECE);
    free_case(&it.rest);
    free(it.state.bytes);
  }
  check(number > 0, "there are states", 0);
}

int main(int count, char **tables) {
  for (int i = 1; i < count; i++) {
    FILE *table = fopen(tables[i], "rb");
    if (!table) return 2;
    (i == 1 ? try_saved_of : try_states_of)(table);
    fclose(table);
  }
  check(count > 2, "there are tables", 0);
  return summary("states");
}
