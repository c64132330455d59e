/* Cases of a table: a line each, its columns parted by tabs: words, limits, how the source ended, input, output, messages, status. */
#ifndef CASES_H
#define CASES_H

#include <stdbool.h>
#include <stddef.h>
#include <stdint.h>
#include <stdio.h>

#include "../gregorio.h"

struct text {
  uint8_t *bytes;
  size_t length;
};

struct test_case {
  uint32_t format;
  uint32_t flags;
  uint32_t status;
  bool is_broken;
  struct gregorio_options options;
  struct text input;
  struct text output;
  struct text messages;
};

/* A run that is saved: the state that it has after its first `fed` bytes, and how many bytes of output and of messages it has written there. */
struct saved_case {
  struct test_case run;
  size_t fed;
  struct text state;
  size_t output, messages;
};

/* Bytes that are given as a state, and the answer to them: GREGORIO_NO_STATE, GREGORIO_OTHER_STATE, or GREGORIO_RUNS where the run goes on. Then `rest`
 * has what it is fed and what comes of that. */
struct state_case {
  struct test_case rest;
  struct text state;
  uint32_t answer;
};

/* Reads the next case, of any limits, of a whole input or of one whose source fails. Ends the program where a line has other columns. */
bool next_run(FILE *table, struct test_case *found);

/* Reads the next case of a whole input under the default limits. */
bool next_case(FILE *table, struct test_case *found);

/* Reads the next case, as `next_run` does, and its steps: `TAKEN,OUTPUT,MESSAGES` of each, split by blanks. They stay until the next row is read. */
bool next_stepped(FILE *table, struct test_case *found, const char **steps);

/* Read the next run that is saved, and the next state. They end the program where a line has other columns. */
bool next_saved(FILE *table, struct saved_case *found);
bool next_state(FILE *table, struct state_case *found);

bool has_default_limits(const struct test_case *it);
void free_case(struct test_case *it);
bool is_same(struct text a, struct text b);

/* Tells of a trial that failed, and counts it. */
void check(bool passed, const char *what, size_t number);

size_t failures(void);

/* Prints how many trials passed and failed, and returns the exit status. */
int summary(const char *program);

#endif
