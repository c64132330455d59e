/* Calls in four threads at once, each with a small stack.
 *
 * Usage: threads TABLE */
#include <pthread.h>
#include <stdlib.h>
#include <string.h>

#include "../gregorio.h"
#include "cases.h"

enum { THREADS = 4, CASES = 1000, ROUNDS = 20, ROUNDS_IN_PIECES = 2, ROUNDS_OF_TREES = 2, ROOM = 1 << 16, STATE = 1 << 17, STACK = 64 << 10 };

static struct test_case cases[CASES];
static size_t case_count;

/* The tree of each case, made before the threads begin. */
static struct tree {
  struct gregorio_node *nodes;
  size_t count;
} trees[CASES];

/* What a thread writes into. */
struct buffers {
  uint8_t *output, *messages, *state;
};

static bool is_answer(const struct test_case *it, uint32_t status, const struct buffers *buffers, const struct gregorio_lengths *lengths) {
  return status == it->status && lengths->output == it->output.length && lengths->messages == it->messages.length &&
         memcmp(buffers->output, it->output.bytes, lengths->output) == 0 && memcmp(buffers->messages, it->messages.bytes, lengths->messages) == 0;
}

static bool is_answered(const struct test_case *it, const struct buffers *buffers) {
  struct gregorio_lengths lengths;
  uint32_t status = gregorio_compile(it->input.bytes, it->input.length, it->format, it->flags, NULL, 0, buffers->output, ROOM, buffers->messages,
                                     ROOM, &lengths);
  return is_answer(it, status, buffers, &lengths);
}

/* Feeds a piece, and counts what it has written in all. */
static uint32_t feed(const struct test_case *it, const struct buffers *buffers, const uint8_t *piece, size_t length, size_t *state,
                     struct gregorio_lengths *all) {
  struct gregorio_step step = {0, 0, 0};
  uint32_t status = gregorio_feed(it->format, it->flags, NULL, 0, buffers->state, STATE, *state, piece, length, buffers->output + all->output,
                                  ROOM - all->output, buffers->messages + all->messages, ROOM - all->messages, &step);
  *state = step.state;
  all->output += step.output;
  all->messages += step.messages;
  return status;
}

static bool is_answered_in_pieces(const struct test_case *it, const struct buffers *buffers) {
  struct gregorio_step step = {0, 0, 0};
  struct gregorio_lengths all = {0, 0}, last = {0, 0};
  size_t half = it->input.length / 2;
  uint32_t status = gregorio_begin(it->format, it->flags, NULL, 0, buffers->state, STATE, &step);
  if (status == GREGORIO_RUNS) status = feed(it, buffers, it->input.bytes, half, &step.state, &all);
  if (status == GREGORIO_RUNS) status = feed(it, buffers, it->input.bytes + half, it->input.length - half, &step.state, &all);
  if (status == GREGORIO_RUNS) {
    status = gregorio_end(it->format, it->flags, NULL, 0, buffers->state, step.state, buffers->output + all.output, ROOM - all.output,
                          buffers->messages + all.messages, ROOM - all.messages, &last);
  }
  return is_answer(it, status, buffers, &(struct gregorio_lengths){all.output + last.output, all.messages + last.messages});
}

/* Makes the tree of a case in a room of its own; NULL where it has not all nodes. The caller frees it. */
static struct gregorio_node *tree_of(const struct test_case *it, size_t *count) {
  size_t room = 2 * it->input.length + 64;
  struct gregorio_node *nodes = malloc(room * sizeof *nodes);
  if (gregorio_tree(it->input.bytes, it->input.length, NULL, 0, nodes, room, count) == GREGORIO_WHOLE && *count <= room) return nodes;
  free(nodes);
  return NULL;
}

static bool is_same_tree(size_t number) {
  size_t count = 0;
  struct gregorio_node *nodes = tree_of(&cases[number], &count);
  const struct tree *wanted = &trees[number];
  bool same = nodes && wanted->nodes && count == wanted->count && memcmp(nodes, wanted->nodes, count * sizeof *nodes) == 0;
  free(nodes);
  return same;
}

static void *work(void *wrong) {
  struct buffers buffers = {malloc(ROOM), malloc(ROOM), malloc(STATE)};
  for (int round = 0; round < ROUNDS; round++) {
    for (size_t i = 0; i < case_count; i++) {
      *(size_t *)wrong += !is_answered(&cases[i], &buffers);
      if (round < ROUNDS_IN_PIECES) *(size_t *)wrong += !is_answered_in_pieces(&cases[i], &buffers);
      if (round < ROUNDS_OF_TREES) *(size_t *)wrong += !is_same_tree(i);
    }
  }
  free(buffers.output);
  free(buffers.messages);
  free(buffers.state);
  return NULL;
}

int main(int count, char **tables) {
  FILE *table = count > 1 ? fopen(tables[1], "rb") : NULL;
  if (!table) return 2;
  while (case_count < CASES && next_case(table, &cases[case_count])) case_count++;
  fclose(table);
  check(case_count > 0, "there are cases", 0);
  for (size_t i = 0; i < case_count; i++) {
    trees[i].nodes = tree_of(&cases[i], &trees[i].count);
    check(trees[i].nodes, "a tree", i);
  }
  pthread_t threads[THREADS];
  size_t wrong[THREADS] = {0};
  pthread_attr_t small;
  pthread_attr_init(&small);
  check(pthread_attr_setstacksize(&small, STACK) == 0, "a small stack", 0);
  for (int i = 0; i < THREADS; i++) check(pthread_create(&threads[i], &small, work, &wrong[i]) == 0, "a thread", (size_t)i);
  for (int i = 0; i < THREADS; i++) {
    pthread_join(threads[i], NULL);
    check(wrong[i] == 0, "answers of a thread", (size_t)i);
  }
  for (size_t i = 0; i < case_count; i++) {
    free_case(&cases[i]);
    free(trees[i].nodes);
  }
  return summary("threads");
}
