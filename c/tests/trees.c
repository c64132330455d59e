/* Looks at the form of the tree of each case of tables: each node lies in the one around it, after the one before, and the own bytes of all join to the score.
 * Tries buffers that are too small, keys, and that what was found is in the tree.
 *
 * Usage: trees TABLE.. */
#include <stdlib.h>
#include <string.h>

#include "../gregorio.h"
#include "cases.h"

enum { UNTOUCHED = 0xA5, KINDS = GREGORIO_KIND_UNREAD + 1 };

static const uint64_t KEY[] = {0x0123456789abcdef, 0xfedcba9876543210};

/* Whether the nodes that lie in each node of a list lie within its bytes, one after the other. `depth` is the number of nodes around this one. */
static bool is_nested(const struct gregorio_node *list, size_t count) {
  size_t *around = malloc((count + 1) * sizeof *around), depth = 0;
  uint32_t at = 0;
  bool well = true;
  for (size_t i = 0; i < count && well; i++) {
    while (depth && around[depth - 1] + list[around[depth - 1]].inner < i) at = list[around[--depth]].end;
    const struct gregorio_node *outer = depth ? &list[around[depth - 1]] : NULL;
    well = list[i].begin >= at && list[i].begin <= list[i].end && list[i].kind < KINDS && (i == 0) == (outer == NULL) &&
           (!outer || (list[i].end <= outer->end && i + list[i].inner <= around[depth - 1] + outer->inner));
    around[depth++] = i;
    at = list[i].begin;
  }
  free(around);
  return well;
}

/* How many bytes of a list of nodes are own ones, counted for each node. */
static size_t own_bytes(const struct gregorio_node *list, size_t count) {
  size_t all = 0;
  for (size_t i = 0; i < count; i++) {
    all += list[i].end - list[i].begin;
    for (size_t inner = i + 1; inner <= i + list[i].inner; inner += 1 + list[inner].inner) all -= list[inner].end - list[inner].begin;
  }
  return all;
}

/* How many nodes of a kind say this code. */
static size_t with_code(const struct gregorio_node *list, size_t count, uint16_t kind, uint16_t code) {
  size_t found = 0;
  for (size_t i = 0; i < count; i++) found += list[i].kind == kind && list[i].a == code;
  return found;
}

/* The place of the character that begins at a byte of a score: its line and its column. */
static struct gregorio_message place_of(const struct test_case *it, size_t at) {
  struct gregorio_message place = {.line = 1, .column = 1};
  const uint8_t *bytes = it->input.bytes;
  for (size_t i = 0; i < at; i++) {
    bool is_part = (bytes[i] & 0xC0) == 0x80, is_mark = at - i >= 3 && !memcmp(bytes + i, "\xEF\xBB\xBF", 3);
    if (is_mark) {
      i += 2;
    } else if (bytes[i] == '\r' || (bytes[i] == '\n' && !(i && bytes[i - 1] == '\r'))) {
      place.line++;
      place.column = 1;
    } else if (!is_part && bytes[i] != '\n') {
      place.column++;
    }
  }
  return place;
}

/* Looks at the bytes of messages: each is the byte of a character at the place of its message, and what was left out there is a node that begins there. */
static void try_bytes(const struct test_case *it, const struct gregorio_node *list, size_t count, struct gregorio_message *found, size_t messages, size_t number) {
  uint32_t bytes[4096], last = UNTOUCHED;
  gregorio_message_bytes(it->input.bytes, it->input.length, found, messages, bytes, messages);
  for (size_t i = 0; i < messages; i++) {
    struct gregorio_message place = place_of(it, bytes[i]);
    check(bytes[i] <= it->input.length && place.line == found[i].line && place.column == found[i].column, "the byte of a message", number);
    if (found[i].code > 103) continue;
    bool has_node = false;
    for (size_t node = 0; node < count; node++) {
      has_node = has_node || (list[node].begin == bytes[i] && list[node].kind == GREGORIO_KIND_LEFT_OUT && list[node].a == found[i].code) ||
                 (list[node].kind == GREGORIO_KIND_UNREAD && list[node].begin <= bytes[i]);
    }
    check(has_node, "the node of a message", number);
  }
  if (!messages) return;
  uint32_t one = UNTOUCHED;
  gregorio_message_bytes(it->input.bytes, it->input.length, found, messages, &last, messages - 1);
  check(last == UNTOUCHED, "bytes that do not fit", number);
  gregorio_message_bytes(it->input.bytes, it->input.length, found + messages - 1, 1, &one, 1);
  struct gregorio_message turned[] = {found[messages - 1], found[0]};
  gregorio_message_bytes(it->input.bytes, it->input.length, turned, 2, bytes + 2048, 2);
  check(one == bytes[messages - 1] && bytes[2048] == one && bytes[2049] == bytes[0], "messages in another order", number);
}

/* Compares what was left out of a score with its messages. A score that was stopped ends in a node that says why. */
static void try_findings(const struct test_case *it, const struct gregorio_node *list, size_t count, size_t number) {
  struct gregorio_message found[4096];
  size_t messages = 0, by_code[400] = {0};
  uint32_t status = gregorio_messages(it->input.bytes, it->input.length, 0, NULL, 0, found, sizeof found / sizeof *found, &messages);
  if (messages > sizeof found / sizeof *found) return;
  try_bytes(it, list, count, found, messages, number);
  for (size_t i = 0; i < messages; i++) by_code[found[i].code]++;
  for (uint16_t code = 101; code <= 103; code++) {
    size_t left_out = with_code(list, count, GREGORIO_KIND_LEFT_OUT, code);
    check(status == GREGORIO_FATAL ? left_out <= by_code[code] : left_out == by_code[code], "what was left out", number);
  }
  for (size_t i = 0; i < messages; i++) {
    if (found[i].severity == 2) check(with_code(list, count, GREGORIO_KIND_UNREAD, (uint16_t)found[i].code) == 1, "what is unread", number);
  }
}

/* Asks for the tree with less room than it has nodes: nothing is written, and the number is told. */
static void try_room(const struct test_case *it, size_t count, size_t room, size_t number) {
  struct gregorio_node *list = malloc((count + 1) * sizeof *list);
  size_t told = 0;
  memset(list, UNTOUCHED, (count + 1) * sizeof *list);
  check(gregorio_tree(it->input.bytes, it->input.length, KEY, number % 3, list, room, &told) == GREGORIO_WHOLE, "a tree that does not fit", number);
  check(told == count && *(const uint8_t *)list == UNTOUCHED, "nodes that do not fit", number);
  free(list);
}

static void try_tree(const struct test_case *it, size_t number) {
  size_t count = 0, told = 0;
  check(gregorio_tree(it->input.bytes, it->input.length, NULL, 0, NULL, 0, &count) == GREGORIO_WHOLE, "the number of nodes", number);
  struct gregorio_node *list = malloc((count + 1) * sizeof *list), *again = malloc((count + 1) * sizeof *list);
  memset(list, UNTOUCHED, (count + 1) * sizeof *list);
  memset(again, UNTOUCHED, (count + 1) * sizeof *again);
  check(gregorio_tree(it->input.bytes, it->input.length, KEY, 2, list, count + 1, &told) == GREGORIO_WHOLE && told == count, "a tree", number);
  check(count > 0 && ((const uint8_t *)(list + count))[0] == UNTOUCHED, "the record after the last node", number);
  gregorio_tree(it->input.bytes, it->input.length, KEY + 1, 1, again, count, &told);
  check(memcmp(list, again, count * sizeof *list) == 0, "a tree by another key", number);
  check(list[0].kind == GREGORIO_KIND_FILE && list[0].begin == 0 && list[0].end == it->input.length && list[0].inner == count - 1, "the file", number);
  check(is_nested(list, count) && own_bytes(list, count) == it->input.length, "the form", number);
  try_findings(it, list, count, number);
  try_room(it, count, count - 1, number);
  free(list);
  free(again);
}

int main(int count, char **tables) {
  size_t number = 0;
  struct test_case it;
  for (int i = 1; i < count; i++) {
    FILE *table = fopen(tables[i], "rb");
    if (!table) return 2;
    while (next_case(table, &it)) {
      number++;
      try_tree(&it, number);
      free_case(&it);
    }
    fclose(table);
  }
  check(number > 0, "there are cases", 0);
  return summary("trees");
}
