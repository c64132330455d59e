/* Compiles the canonical form of each case of tables again, and what comes of that: both give it as it is, with no error. Its dump is that of the case, which
 * lacks the last line where the case was stopped.
 *
 * Usage: canonical TABLE.. */
#include <stdlib.h>
#include <string.h>

#include "../gregorio.h"
#include "steps.h"

/* How many bytes the pieces have. */
enum { PIECE = 4096 };

static const char last_line[] = "end ";

/* Makes a run over a case, whatever its row says of what it writes. */
static struct run run_over(const struct test_case *it, size_t number) {
  struct run run = begin(it, number);
  feed_all(&run, it->input, PIECE, step_amply);
  if (run.status == GREGORIO_RUNS) step_amply(&run, finish, &(struct text){NULL, 0});
  return run;
}

/* A case over this text under the limits of another one, of a source that does not fail. */
static struct test_case case_over(struct text input, uint32_t format, const struct test_case *other) {
  return (struct test_case){.format = format, .options = other->options, .input = input};
}

/* Whether the dump of the canonical text is this one, or has just one line more. */
static bool has_dump(struct text whole, struct text dump) {
  if (whole.length < dump.length || (dump.length && memcmp(whole.bytes, dump.bytes, dump.length) != 0)) return false;
  size_t rest = whole.length - dump.length, length = sizeof last_line - 1;
  return rest == 0 || (rest >= length && memcmp(whole.bytes + dump.length, last_line, length) == 0);
}

/* Looks at the canonical text of a case. */
static void try_canonical(const struct test_case *it, size_t number, struct text canonical) {
  struct test_case over = case_over(canonical, GREGORIO_GABC, it), dumped = case_over(canonical, GREGORIO_DUMP, it), stopped = *it;
  stopped.format = GREGORIO_DUMP;
  struct run again = run_over(&over, number);
  over.input = again.output;
  struct run third = run_over(&over, number), dump = run_over(&stopped, number), whole = run_over(&dumped, number);
  check(again.status == GREGORIO_WHOLE && is_same(again.output, canonical), "the canonical text again", number);
  check(third.status == GREGORIO_WHOLE && is_same(third.output, canonical), "the canonical text once more", number);
  check(has_dump(whole.output, dump.output), "the dump of the canonical text", number);
  free_run(&again);
  free_run(&third);
  free_run(&dump);
  free_run(&whole);
}

int main(int count, char **tables) {
  size_t number = 0, texts = 0;
  struct test_case it;
  for (int i = 1; i < count; i++) {
    FILE *table = fopen(tables[i], "rb");
    if (!table) return 2;
    while (next_run(table, &it)) {
      number++;
      it.format = GREGORIO_GABC;
      struct run first = run_over(&it, number);
      if (first.output.length) try_canonical(&it, number, first.output);
      texts += first.output.length > 0;
      free_run(&first);
      free_case(&it);
    }
    fclose(table);
  }
  check(number > 0 && texts > number / 4, "there are cases", 0);
  return summary("canonical");
}
