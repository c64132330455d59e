/* Compares what the library answers with tables of cases: texts, lengths, status, messages as records, and buffers that are too small.
 *
 * Usage: answers TABLE.. */
#include <stdlib.h>
#include <string.h>

#include "../gregorio.h"
#include "cases.h"

enum { UNTOUCHED = 0xA5 };

/* A key, of which a case has the first words: none, one or both, by its number. */
static const uint64_t KEY[] = {0x0123456789abcdef, 0xfedcba9876543210};

static bool is_text(const struct text *wanted, const uint8_t *bytes, size_t length) {
  return length == wanted->length && memcmp(bytes, wanted->bytes, length) == 0;
}

/* Compiles into buffers with this much room, and says what the answer has to be for each. */
static void try_rooms(const struct test_case *it, size_t number, size_t output_room, size_t messages_room) {
  uint8_t *output = malloc(output_room + 1), *messages = malloc(messages_room + 1);
  memset(output, UNTOUCHED, output_room + 1);
  memset(messages, UNTOUCHED, messages_room + 1);
  struct gregorio_lengths lengths = {0, 0};
  uint32_t status = gregorio_compile(it->input.bytes, it->input.length, it->format, it->flags, KEY, number % 3, output, output_room,
                                     messages, messages_room, &lengths);
  check(status == it->status, "status", number);
  check(lengths.output == it->output.length && lengths.messages == it->messages.length, "lengths", number);
  if (output_room >= it->output.length) {
    check(is_text(&it->output, output, lengths.output), "output", number);
    check(output[lengths.output] == UNTOUCHED, "the byte after the output", number);
  } else {
    check(output[0] == UNTOUCHED, "an output that does not fit", number);
  }
  if (messages_room >= it->messages.length) {
    check(is_text(&it->messages, messages, lengths.messages), "messages", number);
    check(messages[lengths.messages] == UNTOUCHED, "the byte after the messages", number);
  } else {
    check(messages[0] == UNTOUCHED, "messages that do not fit", number);
  }
  free(output);
  free(messages);
}

/* The letters of the codes from 101, from 201 and from 301. */
static const char LETTERS[] = " EWF";
static const char *const KINDS[] = {"warning", "error", "fatal"};

/* Compares messages as records with the lines of the text. */
static void try_records(const struct test_case *it, size_t number) {
  size_t room = 0, count = 0;
  check(gregorio_messages(it->input.bytes, it->input.length, it->flags, NULL, 0, NULL, 0, &room) == it->status, "status of records", number);
  struct gregorio_message *list = malloc((room + 1) * sizeof *list);
  gregorio_messages(it->input.bytes, it->input.length, it->flags, KEY, 2, list, room, &count);
  check(count == room, "number of records", number);
  const char *at = (const char *)it->messages.bytes, *end = at + it->messages.length;
  for (size_t i = 0; i < count; i++) {
    char wanted[100];
    int length = snprintf(wanted, sizeof wanted, "<stdin>:%llu:%llu: %s: %c%u: ", (unsigned long long)list[i].line,
                          (unsigned long long)list[i].column, KINDS[list[i].severity], LETTERS[list[i].code / 100], (unsigned)list[i].code % 100);
    const char *next = memchr(at, '\n', (size_t)(end - at));
    check(next && end - at >= length && memcmp(at, wanted, (size_t)length) == 0, "a record", number);
    if (!next) break;
    at = next + 1;
  }
  check(at == end, "a record for each line", number);
  if (room) {
    memset(list, UNTOUCHED, room * sizeof *list);
    check(gregorio_messages(it->input.bytes, it->input.length, it->flags, KEY, 1, list, room - 1, &count) == it->status, "status of too many records", number);
    check(count == room && *(const uint8_t *)list == UNTOUCHED, "records that do not fit", number);
  }
  free(list);
}

static void try_refusals(void) {
  uint8_t output[4], messages[4];
  memset(output, UNTOUCHED, sizeof output);
  struct gregorio_lengths lengths = {77, 78};
  size_t count = 79;
  check(gregorio_compile(NULL, 0, 2, 0, NULL, 0, output, 4, messages, 4, &lengths) == GREGORIO_REFUSED, "another format", 0);
  check(gregorio_compile(NULL, 0, 0, 2, NULL, 0, output, 4, messages, 4, &lengths) == GREGORIO_REFUSED, "another flag", 0);
  check(gregorio_messages(NULL, 0, 4, NULL, 0, NULL, 0, &count) == GREGORIO_REFUSED, "another flag of messages", 0);
  check(lengths.output == 77 && lengths.messages == 78 && count == 79 && output[0] == UNTOUCHED, "nothing written", 0);
}

/* Returns a score of so many copies of a syllable; the caller frees it. `length` gets how many bytes it has. */
static uint8_t *score_of(const char *syllable, size_t copies, size_t *length) {
  static const char head[] = "name:x;\n%%\n";
  size_t each = strlen(syllable), from = sizeof head - 1;
  uint8_t *made = malloc(from + copies * each);
  if (!made) return NULL;
  memcpy(made, head, from);
  for (size_t i = 0; i < copies; i++) memcpy(made + from + i * each, syllable, each);
  *length = from + copies * each;
  return made;
}

/* A score with more messages than fit into 16 bits finds memory. */
static void try_many_messages(void) {
  size_t length, room = 0;
  uint8_t *score = score_of("A(f?)\n", 70000, &length);
  struct gregorio_lengths lengths;
  check(gregorio_compile(score, length, GREGORIO_GABC, 0, NULL, 0, NULL, 0, NULL, 0, &lengths) == GREGORIO_ERRORS, "70,000 messages", 0);
  check(lengths.messages > 70000 * sizeof "<stdin>:3:4: error: E1: ", "the length of 70,000 messages", 0);
  check(gregorio_messages(score, length, 0, NULL, 0, NULL, 0, &room) == GREGORIO_ERRORS && room == 70000, "70,000 records", 0);
  free(score);
}

/* An output of 300 MB finds memory, and its last line counts the syllables. */
static void try_long_output(void) {
  static const char last[] = "\nend 4200000\n";
  size_t length, end = sizeof last - 1;
  uint8_t *score = score_of("(f)", 4200000, &length);
  struct gregorio_lengths lengths = {0, 0};
  check(gregorio_compile(score, length, GREGORIO_DUMP, 0, NULL, 0, NULL, 0, NULL, 0, &lengths) == GREGORIO_WHOLE, "300 MB of output", 0);
  check(lengths.output > 300000000, "the length of 300 MB of output", 0);
  size_t room = lengths.output;
  uint8_t *output = malloc(room);
  check(output && gregorio_compile(score, length, GREGORIO_DUMP, 0, NULL, 0, output, room, NULL, 0, &lengths) == GREGORIO_WHOLE, "300 MB of output in their buffer", 0);
  check(output && lengths.output == room && memcmp(output + room - end, last, end) == 0, "the last line of 300 MB of output", 0);
  free(output);
  free(score);
}

int main(int count, char **tables) {
  size_t number = 0;
  struct test_case it;
  for (int i = 1; i < count; i++) {
    FILE *table = fopen(tables[i], "rb");
    if (!table) return 2;
    while (next_case(table, &it)) {
      number++;
      try_rooms(&it, number, it.output.length + 9, it.messages.length + 9);
      try_rooms(&it, number, it.output.length, it.messages.length);
      if (it.output.length) try_rooms(&it, number, it.output.length - 1, it.messages.length);
      if (it.messages.length) try_rooms(&it, number, it.output.length, it.messages.length - 1);
      try_records(&it, number);
      free_case(&it);
    }
    fclose(table);
  }
  check(number > 0, "there are cases", 0);
  try_refusals();
  try_many_messages();
  try_long_output();
  return summary("answers");
}
