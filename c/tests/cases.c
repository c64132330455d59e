#include "cases.h"

#include <inttypes.h>
#include <stdlib.h>
#include <string.h>

static size_t passed, failed;

void check(bool is_well, const char *what, size_t number) {
  if (is_well) {
    passed++;
  } else {
    failed++;
    fprintf(stderr, "failed: %s, case %zu\n", what, number);
  }
}

size_t failures(void) { return failed; }

int summary(const char *program) {
  printf("%s: %zu passed, %zu failed\n", program, passed, failed);
  return failed != 0;
}

/* The character that stands for an escape: \n, \t, \r, \\ or \xNN, after its backslash at `at`. */
static uint8_t unescaped(const char **at) {
  char code = *(*at)++;
  if (code == 'x') {
    char digits[3] = {(*at)[0], (*at)[1], 0};
    *at += 2;
    return (uint8_t)strtoul(digits, NULL, 16);
  }
  return code == 'n' ? '\n' : code == 't' ? '\t' : code == 'r' ? '\r' : (uint8_t)code;
}

static struct text text_of(const char *column) {
  struct text made = {malloc(strlen(column) + 1), 0};
  while (*column) {
    uint8_t byte = (uint8_t)*column++;
    made.bytes[made.length++] = byte == '\\' ? unescaped(&column) : byte;
  }
  return made;
}

static uint8_t digit(char code) { return (uint8_t)(code <= '9' ? code - '0' : (code | 32) - 'a' + 10); }

/* The bytes of a column of hexadecimal digits, two each. */
static struct text bytes_of(const char *column) {
  struct text made = {malloc(strlen(column) / 2 + 1), 0};
  for (; column[0] && column[1]; column += 2) made.bytes[made.length++] = (uint8_t)(digit(column[0]) << 4 | digit(column[1]));
  return made;
}

/* Cuts a line at its tabs. Returns whether it has so many columns. */
static bool cut(char *line, char **columns, size_t count) {
  line[strcspn(line, "\n")] = 0;
  for (size_t i = 0; i < count; i++) {
    columns[i] = line;
    if (i + 1 < count) {
      line = strchr(line, '\t');
      if (!line) return false;
      *line++ = 0;
    }
  }
  return true;
}

/* Cuts the next line that is no remark into so many columns, which stay until the next call. Ends the program where it has fewer. */
static bool next_row(FILE *table, char **columns, size_t count) {
  static char *line;
  static size_t room;
  while (getline(&line, &room, table) > 0) {
    if (line[0] == '#') continue;
    if (cut(line, columns, count)) return true;
    fprintf(stderr, "a line without %zu columns\n", count);
    exit(2);
  }
  return false;
}

/* The run with these words and limits, of which the other columns say how its source ends, its input, and what it writes. Ends the program where
 * there are no limits. */
static struct test_case case_of(const char *words, const char *limits, const char *ending, const char *input, char *const written[3]) {
  struct test_case made = {0};
  struct gregorio_options *options = &made.options;
  if (sscanf(limits, "%" SCNu32 ",%" SCNu32 ",%" SCNu32, &options->header, &options->syllable, &options->input) != 3) {
    fprintf(stderr, "a line without limits\n");
    exit(2);
  }
  made.is_broken = strcmp(ending, "broken") == 0;
  made.format = strstr(words, "dump") ? GREGORIO_DUMP : GREGORIO_GABC;
  made.flags = strstr(words, "-W") ? GREGORIO_ALL_WARNINGS : 0;
  made.input = text_of(input);
  made.output = text_of(written[0]);
  made.messages = text_of(written[1]);
  made.status = (uint32_t)strtoul(written[2], NULL, 10);
  return made;
}

bool next_run(FILE *table, struct test_case *found) {
  char *columns[7];
  if (!next_row(table, columns, 7)) return false;
  *found = case_of(columns[0], columns[1], columns[2], columns[3], columns + 4);
  return true;
}

bool next_stepped(FILE *table, struct test_case *found, const char **steps) {
  char *columns[8];
  if (!next_row(table, columns, 8)) return false;
  *found = case_of(columns[0], columns[1], columns[2], columns[3], columns + 4);
  *steps = columns[7];
  return true;
}

bool next_saved(FILE *table, struct saved_case *found) {
  char *columns[12];
  if (!next_row(table, columns, 12)) return false;
  *found = (struct saved_case){
      .run = case_of(columns[0], columns[1], columns[2], columns[3], columns + 9),
      .fed = strtoul(columns[5], NULL, 10),
      .state = bytes_of(columns[6]),
      .output = strtoul(columns[7], NULL, 10),
      .messages = strtoul(columns[8], NULL, 10),
  };
  return true;
}

bool next_state(FILE *table, struct state_case *found) {
  char *columns[9];
  if (!next_row(table, columns, 9)) return false;
  bool is_accepted = strcmp(columns[3], "accepted") == 0, is_other = strcmp(columns[3], "K2") == 0;
  if (!is_accepted && !is_other && strcmp(columns[3], "K1") != 0) {
    fprintf(stderr, "a state without an answer\n");
    exit(2);
  }
  *found = (struct state_case){
      .rest = case_of(columns[0], columns[1], columns[4], columns[5], columns + 6),
      .state = bytes_of(columns[2]),
      .answer = is_accepted ? GREGORIO_RUNS : is_other ? GREGORIO_OTHER_STATE : GREGORIO_NO_STATE,
  };
  return true;
}

bool is_same(struct text a, struct text b) { return a.length == b.length && (a.length == 0 || memcmp(a.bytes, b.bytes, a.length) == 0); }

bool has_default_limits(const struct test_case *it) {
  return it->options.header == 65536 && it->options.syllable == 16384 && it->options.input == UINT32_MAX;
}

bool next_case(FILE *table, struct test_case *found) {
  while (next_run(table, found)) {
    if (has_default_limits(found) && !found->is_broken) return true;
    free_case(found);
  }
  return false;
}

void free_case(struct test_case *it) {
  free(it->input.bytes);
  free(it->output.bytes);
  free(it->messages.bytes);
}
