/* Makes each allocation of a call fail in turn, alone and with all after it: the call answers that there is no memory, writes nothing and
 * keeps nothing, and then succeeds with the same arguments. Linked with `malloc`, `realloc` and `free` wrapped.
 *
 * Usage: memory TABLE */
#include <stdlib.h>
#include <string.h>

#include "../gregorio.h"
#include "cases.h"

void *__real_malloc(size_t size);
void *__real_realloc(void *block, size_t size);
void __real_free(void *block);

static bool is_counting, fails_from_there;
static size_t asked, fails_at;
static long held;

/* Whether this allocation fails. */
static bool fails(void) {
  if (!is_counting) return false;
  asked++;
  return asked == fails_at || (fails_from_there && fails_at && asked > fails_at);
}

void *__wrap_malloc(size_t size) {
  if (fails()) return NULL;
  void *block = __real_malloc(size);
  held += is_counting && block;
  return block;
}

void *__wrap_realloc(void *block, size_t size) {
  if (fails()) return NULL;
  void *moved = __real_realloc(block, size);
  held += is_counting && !block && moved;
  return moved;
}

void __wrap_free(void *block) {
  held -= is_counting && block;
  __real_free(block);
}

enum { STATE = 1 << 17 };

static uint8_t output[1 << 16], messages[1 << 16];
static struct gregorio_message records[1 << 12];
static struct gregorio_node nodes[1 << 14];

/* The state of a run in the middle of a case, and one that a step may write. */
static uint8_t middle[STATE], state[STATE];
static size_t middle_length;

/* A call of the library on a case. Its lengths, or its number of records in the first of them, go into `lengths`. */
typedef uint32_t (*made_call)(const struct test_case *it, struct gregorio_lengths *lengths);

static uint32_t compile(const struct test_case *it, struct gregorio_lengths *lengths) {
  return gregorio_compile(it->input.bytes, it->input.length, it->format, it->flags, NULL, 0, output, sizeof output, messages, sizeof messages,
                          lengths);
}

static uint32_t list_messages(const struct test_case *it, struct gregorio_lengths *lengths) {
  return gregorio_messages(it->input.bytes, it->input.length, it->flags, NULL, 0, records, sizeof records / sizeof *records, &lengths->output);
}

static uint32_t list_nodes(const struct test_case *it, struct gregorio_lengths *lengths) {
  return gregorio_tree(it->input.bytes, it->input.length, NULL, 0, nodes, sizeof nodes / sizeof *nodes, &lengths->output);
}

static uint32_t draw(const struct test_case *it, struct gregorio_lengths *lengths) {
  return gregorio_draw(it->input.bytes, it->input.length, &(struct gregorio_picture_options){1, 0, 2, 0}, 1, NULL, 0, output, sizeof output, &lengths->output);
}

static uint32_t begin(const struct test_case *it, struct gregorio_lengths *lengths) {
  struct gregorio_step step = {lengths->output, 0, lengths->messages};
  uint32_t status = gregorio_begin(it->format, it->flags, NULL, 0, state, sizeof state, &step);
  *lengths = (struct gregorio_lengths){step.state, step.messages};
  return status;
}

/* Feeds the second half of a case. */
static uint32_t feed(const struct test_case *it, struct gregorio_lengths *lengths) {
  struct gregorio_step step = {77, lengths->output, lengths->messages};
  size_t half = it->input.length / 2;
  memcpy(state, middle, middle_length);
  uint32_t status = gregorio_feed(it->format, it->flags, NULL, 0, state, sizeof state, middle_length, it->input.bytes + half, it->input.length - half,
                                  output, sizeof output, messages, sizeof messages, &step);
  if (status == GREGORIO_NO_MEMORY) check(step.state == 77 && memcmp(state, middle, middle_length) == 0, "the state without memory", 0);
  *lengths = (struct gregorio_lengths){step.output, step.messages};
  return status;
}

static uint32_t end(const struct test_case *it, struct gregorio_lengths *lengths) {
  return gregorio_end(it->format, it->flags, NULL, 0, middle, middle_length, output, sizeof output, messages, sizeof messages, lengths);
}

static uint32_t end_broken(const struct test_case *it, struct gregorio_lengths *lengths) {
  return gregorio_broken(it->format, it->flags, NULL, 0, middle, middle_length, output, sizeof output, messages, sizeof messages, lengths);
}

/* Runs up to the middle of a case, and returns whether the run goes on there. */
static bool run_to_the_middle(const struct test_case *it) {
  struct gregorio_step step;
  uint32_t status = gregorio_begin(it->format, it->flags, NULL, 0, middle, sizeof middle, &step);
  if (status != GREGORIO_RUNS) return false;
  status = gregorio_feed(it->format, it->flags, NULL, 0, middle, sizeof middle, step.state, it->input.bytes, it->input.length / 2, output,
                         sizeof output, messages, sizeof messages, &step);
  middle_length = step.state;
  return status == GREGORIO_RUNS;
}

/* Makes the call with the given allocation failing; 0 lets none fail. */
static uint32_t call(made_call made, const struct test_case *it, size_t failing, struct gregorio_lengths *lengths) {
  asked = 0;
  held = 0;
  fails_at = failing;
  is_counting = true;
  uint32_t status = made(it, lengths);
  is_counting = false;
  return status;
}

/* A call that asks for memory more often than this is tried with some of its allocations, at even distances. */
enum { MOST_TRIED = 500 };

/* Makes each allocation fail in turn, of which the call asks for `all`. It answers that there is no memory; or, where this one alone fails, what it
 * answers with memory enough, since an arena that is refused a chunk asks for a smaller one. */
static void fail_each(made_call made, const struct test_case *it, size_t all, uint32_t ample, const struct gregorio_lengths *wanted, size_t number) {
  for (size_t failing = 1; failing <= all; failing += 1 + all / MOST_TRIED) {
    struct gregorio_lengths lengths = {77, 77};
    output[0] = 0xA5;
    records[0].code = 0xA5;
    nodes[0].kind = 0xA5;
    uint32_t status = call(made, it, failing, &lengths);
    if (!fails_from_there && status == ample) {
      /* Not each call tells both lengths. */
      bool output_same = lengths.output == wanted->output || (wanted->output == 0 && lengths.output == 77);
      bool messages_same = lengths.messages == wanted->messages || (wanted->messages == 0 && lengths.messages == 77);
      check(output_same && messages_same, "what is made with a smaller chunk", number);
    } else {
      check(status == GREGORIO_NO_MEMORY, "no memory", number);
      check(lengths.output == 77 && output[0] == 0xA5 && records[0].code == 0xA5 && nodes[0].kind == 0xA5, "nothing written", number);
    }
    check(held == 0, "what was held without memory", number);
  }
}

static void try_call(made_call made, const struct test_case *it, size_t number) {
  struct gregorio_lengths lengths = {0, 0}, again = {0, 0};
  uint32_t status = call(made, it, 0, &lengths);
  check(status != GREGORIO_NO_MEMORY && held == 0, "with memory enough", number);
  size_t all = asked;
  /* The messages of a score of no bytes want none. */
  check(all > 0 || (made == list_messages && it->input.length == 0), "memory is asked for", number);
  fails_from_there = false;
  fail_each(made, it, all, status, &lengths, number);
  fails_from_there = true;
  fail_each(made, it, all, status, &lengths, number);
  check(call(made, it, 0, &again) == status && held == 0, "with memory enough again", number);
  check(again.output == lengths.output && again.messages == lengths.messages, "the same again", number);
}

/* How many cases had a run that went on in their middle. */
static size_t middles;

static void try_case(const struct test_case *it, size_t number) {
  struct gregorio_lengths lengths;
  check(call(compile, it, 0, &lengths) == it->status, "status", number);
  try_call(compile, it, number);
  try_call(list_messages, it, number);
  try_call(list_nodes, it, number);
  try_call(draw, it, number);
  try_call(begin, it, number);
  if (run_to_the_middle(it)) {
    middles++;
    try_call(feed, it, number);
    try_call(end, it, number);
    try_call(end_broken, it, number);
  }
}

int main(int count, char **tables) {
  size_t number = 0;
  struct test_case it;
  FILE *table = count > 1 ? fopen(tables[1], "rb") : NULL;
  if (!table) return 2;
  while (next_case(table, &it)) {
    number++;
    try_case(&it, number);
    free_case(&it);
  }
  fclose(table);
  check(number > 0 && middles > number / 2, "there are cases", 0);
  return summary("memory");
}
