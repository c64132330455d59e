/* Steps of runs in pieces, and what is looked at in every step: the state is in a fresh buffer, a guard stands after each buffer, and nothing is
 * written that was not to be. */
#ifndef STEPS_H
#define STEPS_H

#include "cases.h"

/* How many bytes of output and of messages a step is given room for that is not to be short of it. */
enum { AMPLE = 4096 };

/* A run of a case: its state, and what it has written so far. Its status is GREGORIO_RUNS as long as it goes on. */
struct run {
  const struct test_case *it;
  size_t number;
  struct text state, output, messages;
  uint32_t status;
};

/* How many bytes the buffers of a step have. */
struct rooms {
  size_t state, output, messages;
};

/* What a step answered, and its buffers. */
struct made {
  uint32_t status;
  struct gregorio_step step;
  struct rooms rooms;
  uint8_t *state, *output, *messages;
};

/* A call that makes a step with buffers of these sizes: `feed`, or `finish`, which ends a run and takes no piece. */
typedef struct made (*maker)(const struct run *run, const struct text *piece, struct rooms rooms);

struct made feed(const struct run *run, const struct text *piece, struct rooms rooms);
struct made finish(const struct run *run, const struct text *piece, struct rooms rooms);

/* Fresh buffers of these sizes, of which the first holds the run's state. */
struct made made_with(const struct run *run, struct rooms rooms);
void drop(struct made *made);

/* Whether the state is as it was before the step. */
bool has_old_state(const struct run *run, const struct made *made);

/* The options of a step: none for the default limits in some cases, else the limits of the case with a key that is another one each time. */
const struct gregorio_options *options_of(const struct run *run, size_t *count);

/* Begins a run, in a buffer that is too small by one first. */
struct run begin(const struct test_case *it, size_t number);
void free_run(struct run *run);

/* Appends bytes to a text. */
void append(struct text *to, const uint8_t *bytes, size_t length);

/* Takes what a step gave over into the run. */
void take(struct run *run, struct made *made);

/* Makes a step, and takes what it gave. */
typedef void (*stepper)(struct run *run, maker make, const struct text *piece);

/* A stepper with as good as no buffers, with each that is too small by one, and then with those that it wants. */
void step_exactly(struct run *run, maker make, const struct text *piece);

/* A stepper with buffers that are large enough for most. */
void step_amply(struct run *run, maker make, const struct text *piece);

/* Feeds these bytes in pieces of `size`, as long as the run goes on. */
void feed_all(struct run *run, struct text bytes, size_t size, stepper step);

/* Ends a run that goes on, and compares its status and what it has written with these. */
void end_as(struct run *run, stepper step, uint32_t status, struct text output, struct text messages);

#endif
