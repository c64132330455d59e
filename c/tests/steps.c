#include "steps.h"

#include <stdlib.h>
#include <string.h>

enum { UNTOUCHED = 0xA5, GUARD = 16 };

static uint8_t *guarded(size_t capacity) {
  uint8_t *bytes = malloc(capacity + GUARD);
  memset(bytes, UNTOUCHED, capacity + GUARD);
  return bytes;
}

/* Whether all is as `guarded` made it from this byte on. */
static bool is_untouched(const uint8_t *bytes, size_t from, size_t capacity) {
  for (size_t i = from; i < capacity + GUARD; i++) {
    if (bytes[i] != UNTOUCHED) return false;
  }
  return true;
}

struct made made_with(const struct run *run, struct rooms rooms) {
  struct made made = {0, {77, 78, 79}, rooms, guarded(rooms.state), guarded(rooms.output), guarded(rooms.messages)};
  if (run->state.length) memcpy(made.state, run->state.bytes, run->state.length);
  return made;
}

void drop(struct made *made) {
  free(made->state);
  free(made->output);
  free(made->messages);
}

const struct gregorio_options *options_of(const struct run *run, size_t *count) {
  static struct gregorio_options options;
  *count = !has_default_limits(run->it) || run->number % 2;
  options = (struct gregorio_options){
      run->it->options.header, run->it->options.syllable, run->it->options.input, 0, {options.key[0] * 31 + 7, options.key[1] + 1}};
  return *count ? &options : NULL;
}

bool has_old_state(const struct run *run, const struct made *made) {
  return memcmp(made->state, run->state.bytes, run->state.length) == 0 && is_untouched(made->state, run->state.length, made->rooms.state);
}

/* Whether all behind the new state is as it was: what the old one had there, and then nothing. */
static bool is_left_after(const struct run *run, const struct made *made) {
  size_t from = made->step.state, old = run->state.length;
  if (from >= old) return is_untouched(made->state, from, made->rooms.state);
  return memcmp(made->state + from, run->state.bytes + from, old - from) == 0 && is_untouched(made->state, old, made->rooms.state);
}

/* Looks at what every answer promises: nothing is written after a text, and nothing at all where the step was not made. */
static void look_at(const struct run *run, const struct made *made, bool has_state) {
  bool is_made = made->status <= GREGORIO_FATAL || made->status == GREGORIO_BROKEN || made->status == GREGORIO_RUNS;
  size_t output = is_made ? made->step.output : 0, messages = is_made ? made->step.messages : 0;
  bool fits = output <= made->rooms.output && messages <= made->rooms.messages && (!has_state || made->step.state <= made->rooms.state);
  check(fits, "lengths within the buffers", run->number);
  if (!fits) exit(summary("a step"));
  check(is_untouched(made->output, output, made->rooms.output), "what is after the output", run->number);
  check(is_untouched(made->messages, messages, made->rooms.messages), "what is after the messages", run->number);
  if (has_state) {
    check(is_left_after(run, made), "what is after the state", run->number);
  } else {
    check(has_old_state(run, made), "a state that was not to be written", run->number);
  }
  if (!is_made && made->status != GREGORIO_SHORT) {
    check(made->step.output == 78 && made->step.messages == 79, "lengths of a step that was not made", run->number);
  }
}

struct made feed(const struct run *run, const struct text *piece, struct rooms rooms) {
  struct made made = made_with(run, rooms);
  size_t count;
  const struct gregorio_options *options = options_of(run, &count);
  made.status = gregorio_feed(run->it->format, run->it->flags, options, count, made.state, rooms.state, run->state.length, piece->bytes,
                              piece->length, made.output, rooms.output, made.messages, rooms.messages, &made.step);
  look_at(run, &made, made.status == GREGORIO_RUNS);
  if (made.status == GREGORIO_FATAL) check(made.step.state == 0, "no state after a fatal fault", run->number);
  return made;
}

struct made finish(const struct run *run, const struct text *piece, struct rooms rooms) {
  (void)piece;
  struct made made = made_with(run, rooms);
  struct gregorio_lengths lengths = {78, 79};
  size_t count;
  const struct gregorio_options *options = options_of(run, &count);
  made.status = (run->it->is_broken ? gregorio_broken : gregorio_end)(run->it->format, run->it->flags, options, count, made.state,
                                                                      run->state.length, made.output, rooms.output, made.messages,
                                                                      rooms.messages, &lengths);
  made.step = (struct gregorio_step){0, lengths.output, lengths.messages};
  look_at(run, &made, false);
  return made;
}

void append(struct text *to, const uint8_t *bytes, size_t length) {
  to->bytes = realloc(to->bytes, to->length + length + 1);
  memcpy(to->bytes + to->length, bytes, length);
  to->length += length;
}

void take(struct run *run, struct made *made) {
  run->status = made->status;
  if (made->status > GREGORIO_FATAL && made->status != GREGORIO_BROKEN && made->status != GREGORIO_RUNS) {
    check(false, "a step is made", run->number);
    return;
  }
  append(&run->output, made->output, made->step.output);
  append(&run->messages, made->messages, made->step.messages);
  if (made->status == GREGORIO_RUNS) {
    run->state.length = 0;
    append(&run->state, made->state, made->step.state);
  }
}

static bool are_equal(const struct gregorio_step *a, const struct gregorio_step *b) {
  return a->state == b->state && a->output == b->output && a->messages == b->messages;
}

/* Makes a step for which one buffer is too small: nothing changes, and the lengths are told. */
static void try_short(const struct run *run, maker make, const struct text *piece, struct rooms rooms, const struct gregorio_step *wanted) {
  struct made made = make(run, piece, rooms);
  check(made.status == GREGORIO_SHORT, "a buffer that is too small", run->number);
  check(are_equal(&made.step, wanted), "the lengths that are told", run->number);
  drop(&made);
}

void step_exactly(struct run *run, maker make, const struct text *piece) {
  struct made made = make(run, piece, (struct rooms){run->state.length, 0, 0});
  if (made.status == GREGORIO_SHORT) {
    struct gregorio_step wanted = made.step;
    struct rooms rooms = {wanted.state > run->state.length ? wanted.state : run->state.length, wanted.output, wanted.messages};
    if (rooms.state > run->state.length) try_short(run, make, piece, (struct rooms){rooms.state - 1, rooms.output, rooms.messages}, &wanted);
    if (rooms.output) try_short(run, make, piece, (struct rooms){rooms.state, rooms.output - 1, rooms.messages}, &wanted);
    if (rooms.messages) try_short(run, make, piece, (struct rooms){rooms.state, rooms.output, rooms.messages - 1}, &wanted);
    drop(&made);
    made = make(run, piece, rooms);
    check(are_equal(&made.step, &wanted), "the lengths that were wanted", run->number);
  }
  take(run, &made);
  drop(&made);
}

void step_amply(struct run *run, maker make, const struct text *piece) {
  struct made made = make(run, piece, (struct rooms){run->state.length + piece->length + AMPLE, AMPLE, AMPLE});
  if (made.status == GREGORIO_SHORT) {
    step_exactly(run, make, piece);
  } else {
    take(run, &made);
  }
  drop(&made);
}

struct run begin(const struct test_case *it, size_t number) {
  struct run run = {it, number, {0}, {0}, {0}, 0};
  struct gregorio_step step = {77, 78, 79};
  size_t count;
  const struct gregorio_options *options = options_of(&run, &count);
  check(gregorio_begin(it->format, it->flags, options, count, NULL, 0, &step) == GREGORIO_SHORT, "a beginning without a buffer", number);
  run.state = (struct text){guarded(step.state), step.state};
  uint32_t status = gregorio_begin(it->format, it->flags, options, count, run.state.bytes, step.state - 1, &step);
  check(status == GREGORIO_SHORT && step.state == run.state.length, "a beginning in a buffer that is too small", number);
  check(is_untouched(run.state.bytes, 0, run.state.length), "nothing is begun", number);
  run.status = gregorio_begin(it->format, it->flags, options, count, run.state.bytes, run.state.length, &step);
  check(run.status == GREGORIO_RUNS && step.state == run.state.length && !step.output && !step.messages, "a beginning", number);
  check(is_untouched(run.state.bytes, run.state.length, run.state.length), "what is after the first state", number);
  return run;
}

void free_run(struct run *run) {
  free(run->state.bytes);
  free(run->output.bytes);
  free(run->messages.bytes);
}

void feed_all(struct run *run, struct text bytes, size_t size, stepper step) {
  size_t count;
  const struct gregorio_options *options = options_of(run, &count);
  size_t bound = gregorio_state_bound(options, count);
  for (size_t at = 0; at < bytes.length && run->status == GREGORIO_RUNS; at += size) {
    size_t rest = bytes.length - at;
    step(run, feed, &(struct text){bytes.bytes + at, rest < size ? rest : size});
    check(run->state.length <= bound, "the length of a state", run->number);
  }
}

void end_as(struct run *run, stepper step, uint32_t status, struct text output, struct text messages) {
  if (run->status == GREGORIO_RUNS) step(run, finish, &(struct text){NULL, 0});
  check(run->status == status, "status", run->number);
  check(is_same(run->output, output), "output", run->number);
  check(is_same(run->messages, messages), "messages", run->number);
}
