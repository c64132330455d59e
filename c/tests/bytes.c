/* Feeds runs byte by byte, and looks at what each byte makes known. The runs of STEPS write with each byte what their row says. Then scores are put together
 * from parts of those of SCORES: under two limits each run writes the same byte by byte, in one piece and in pieces of random lengths, after each piece and
 * at its end. A run is saved and restored at each step.
 *
 * Usage: bytes STEPS SCORES */
#include <stdlib.h>
#include <string.h>

#include "../gregorio.h"
#include "steps.h"

/* How many scores are put together from one, and how many bytes the pieces have at most. */
enum { SCORES = 50, LONGEST = 70 };

/* How many bytes a run has written after some of its input, and its status there. */
struct point {
  size_t output, messages;
  uint32_t status;
};

static struct point point_of(const struct run *run) { return (struct point){run->output.length, run->messages.length, run->status}; }

/* Feeds a case byte by byte, up to the byte that stops it. Of `points`, the one with number `n` comes after the first `n` bytes. The caller frees them. */
static struct run feed_bytes(const struct test_case *it, size_t number, struct point **points) {
  struct run run = begin(it, number);
  *points = malloc((it->input.length + 1) * sizeof **points);
  (*points)[0] = point_of(&run);
  for (size_t at = 0; at < it->input.length; at++) {
    feed_all(&run, (struct text){it->input.bytes + at, 1}, 1, step_amply);
    (*points)[at + 1] = point_of(&run);
  }
  return run;
}

/* A step of a run: how many bytes of its input are taken then, and how many it has written of them. */
struct known {
  size_t taken, output, messages;
};

/* The last of the steps of a column that is made with at most `count` bytes: nothing is known before the first. */
static struct known known_by(const char *steps, size_t count) {
  struct known last = {0, 0, 0}, next;
  int length;
  for (; sscanf(steps, "%zu,%zu,%zu%n", &next.taken, &next.output, &next.messages, &length) == 3 && next.taken <= count; steps += length) last = next;
  return last;
}

/* Looks at what a run has written after each byte, and with which byte it stops: one with which it writes the message of its fault. */
static void try_steps(const struct test_case *it, size_t number, const char *steps) {
  struct point *points;
  struct run run = feed_bytes(it, number, &points);
  for (size_t count = 0; count <= it->input.length; count++) {
    struct known known = known_by(steps, count);
    check(points[count].output == known.output && points[count].messages == known.messages, "what is known after a byte", number);
    bool stops = count && points[count].status != points[count - 1].status;
    check(!stops || known.taken == count, "the byte that stops a run", number);
  }
  end_as(&run, step_amply, it->status, it->output, it->messages);
  free_run(&run);
  free(points);
}

/* ---- scores that are put together from parts of others */

/* The texts that are put between two parts. */
static const char *const BETWEEN[] = {
    "",     "",    "",  " ", "\n",    "\r\n",         "\r",       "(",    ")",         "()",         "(f)", "(f) ", "(c4)", "(fgh/.)", "(;) ",
    "(::)", "|",   "[", "]", "[x]",   "(g[ll:1])",    "(@[f])",   "<i>",  "</i>",      "<sp>A</sp>", "<v>", "</v>", "<eu>", "</eu>",   "{",
    "}",    "{a}", "$", "%", "% x\n", "\xEF\xBB\xBF", "\xC3\xA9", "\xFF", "name:x;\n", "%%\n",
};

/* The next of numbers that look random, and are the same in each run of this program: it is below `bound`. */
static size_t drawn(size_t bound) {
  static uint64_t state = 1;
  state = state * 6364136223846793005u + 1442695040888963407u;
  return (size_t)(state >> 33) % bound;
}

/* A place in a text of this length, at most 11 bytes before `at` or after it. */
static size_t place_near(size_t length, size_t at) {
  size_t place = at + drawn(12), less = drawn(12);
  place -= less < place ? less : place;
  return place < length ? place : length;
}

/* Parts of a score, some left out and some repeated, with something between them. Most such scores have no headers. The caller frees it. */
static struct text mutated(struct text score) {
  struct text made = {NULL, 0};
  size_t at = 0;
  if (drawn(4)) {
    append(&made, (const uint8_t *)"%%\n", 3);
    at = place_near(score.length, score.length / 2);
  }
  for (size_t parts = drawn(16); parts; parts--) {
    size_t length = drawn(50), most = score.length - at;
    if (length > most) length = most;
    append(&made, score.bytes + at, length);
    const char *between = BETWEEN[drawn(sizeof BETWEEN / sizeof *BETWEEN)];
    append(&made, (const uint8_t *)between, strlen(between));
    at = place_near(score.length, at + length < score.length ? at + length : 0);
  }
  return made;
}

/* Makes a run again in pieces of `least` to `most` bytes, and compares it after each piece and at its end with the one that was fed byte by byte. */
static void try_pieces(const struct run *fed, const struct point *points, size_t least, size_t most) {
  struct text input = fed->it->input;
  struct run run = begin(fed->it, fed->number);
  for (size_t at = 0, length; at < input.length; at += length) {
    length = least + drawn(most - least + 1);
    if (length > input.length - at) length = input.length - at;
    feed_all(&run, (struct text){input.bytes + at, length}, length, step_amply);
    struct point now = point_of(&run), known = points[at + length];
    check(now.output == known.output && now.messages == known.messages, "what is known after a piece", run.number);
    check(now.status == known.status, "the piece that stops a run", run.number);
  }
  end_as(&run, step_amply, fed->status, fed->output, fed->messages);
  free_run(&run);
}

/* Compares the answer of the one call with a run that was fed byte by byte. */
static void try_whole(const struct run *fed) {
  const struct test_case *it = fed->it;
  struct text output = {malloc(fed->output.length + 1), 0}, messages = {malloc(fed->messages.length + 1), 0};
  struct gregorio_lengths lengths = {0, 0};
  uint32_t status = gregorio_compile(it->input.bytes, it->input.length, it->format, it->flags, NULL, 0, output.bytes, fed->output.length, messages.bytes,
                                     fed->messages.length, &lengths);
  output.length = lengths.output;
  messages.length = lengths.messages;
  check(status == fed->status && is_same(output, fed->output) && is_same(messages, fed->messages), "the answer for the whole score", fed->number);
  free(output.bytes);
  free(messages.bytes);
}

/* Makes runs over a score that is put together. Returns whether a byte stopped them. */
static bool try_mutated(const struct test_case *it, size_t number) {
  struct point *points;
  struct run run = feed_bytes(it, number, &points);
  bool stopped = run.status != GREGORIO_RUNS;
  if (!stopped) step_amply(&run, finish, &(struct text){NULL, 0});
  check(run.status <= GREGORIO_FATAL, "the end of a run", number);
  try_pieces(&run, points, it->input.length, it->input.length);
  try_pieces(&run, points, 1, LONGEST);
  if (has_default_limits(it)) try_whole(&run);
  free_run(&run);
  free(points);
  return stopped;
}

/* Makes runs over scores that are put together from that of a case. Returns how many of them a byte stopped. */
static size_t try_score(const struct test_case *it, size_t number) {
  size_t stopped = 0;
  for (size_t i = 0; i < SCORES; i++) {
    struct test_case other = *it;
    if (i % 2) other.options = (struct gregorio_options){.header = 300, .syllable = 200, .input = 100000};
    other.input = mutated(it->input);
    stopped += try_mutated(&other, number + i);
    free(other.input.bytes);
  }
  return stopped;
}

int main(int count, char **tables) {
  FILE *steps = count == 3 ? fopen(tables[1], "rb") : NULL, *scores = count == 3 ? fopen(tables[2], "rb") : NULL;
  if (!steps || !scores) return 2;
  struct test_case it;
  const char *column;
  size_t number = 0, runs = 0, stopped = 0;
  for (; next_stepped(steps, &it, &column); free_case(&it)) try_steps(&it, ++number, column);
  for (; next_case(scores, &it); free_case(&it), runs += SCORES) stopped += try_score(&it, runs);
  check(number > 0, "there are runs by their steps", 0);
  check(stopped > runs / 10 && stopped < runs, "there are scores that stop a run, and others", 0);
  fclose(steps);
  fclose(scores);
  return summary("bytes");
}
