/* Looks at the picture of each case of tables: it is one element that is closed, each group of a syllable names the bytes of a syllable of the tree, and no
 * byte of it is a control character. Tries buffers that are too small, keys and widths.
 *
 * Usage: pictures TABLE.. */
#include <stdio.h>
#include <stdlib.h>
#include <string.h>

#include "../gregorio.h"
#include "cases.h"

enum { UNTOUCHED = 0xA5 };

static const uint64_t KEY[] = {0x0123456789abcdef, 0xfedcba9876543210};

/* How often a text stands in another one. */
static size_t count_of(const char *text, const char *wanted) {
  size_t found = 0;
  for (const char *at = strstr(text, wanted); at; at = strstr(at + 1, wanted)) found++;
  return found;
}

/* Whether an element is opened as often as it is closed. */
static bool is_closed(const char *picture) {
  return count_of(picture, "<g ") == count_of(picture, "</g>") && count_of(picture, "<text ") == count_of(picture, "</text>") &&
         count_of(picture, "<svg ") == 1 && count_of(picture, "</svg>") == 1 && count_of(picture, "<title>") == count_of(picture, "</title>");
}

/* Whether no byte is a control character. */
static bool is_plain(const char *picture) {
  for (const char *at = picture; *at; at++) {
    if ((unsigned char)*at < 32 || *at == 127) return false;
  }
  return true;
}

/* Compares the groups of a picture with the syllables of the tree of its score: each syllable has a group that names its bytes. */
static void try_syllables(const struct test_case *it, const char *picture, size_t number) {
  size_t count = 0;
  gregorio_tree(it->input.bytes, it->input.length, NULL, 0, NULL, 0, &count);
  struct gregorio_node *nodes = malloc((count + 1) * sizeof *nodes);
  gregorio_tree(it->input.bytes, it->input.length, NULL, 0, nodes, count, &count);
  for (size_t i = 0; i < count; i++) {
    if (nodes[i].kind != GREGORIO_KIND_SYLLABLE) continue;
    char wanted[96];
    snprintf(wanted, sizeof wanted, "data-begin=\"%u\" data-end=\"%u\"", nodes[i].begin, nodes[i].end);
    check(strstr(picture, wanted) != NULL, "the group of a syllable", number);
  }
  free(nodes);
}

/* Draws a score at a width, with messages or none. */
static uint32_t draw(const struct test_case *it, uint32_t width, uint32_t messages, uint8_t *picture, size_t room, size_t *count) {
  struct gregorio_picture_options options = {.version = 1, .width = width, .messages = messages};
  return gregorio_draw(it->input.bytes, it->input.length, &options, 1, KEY, 2, picture, room, count);
}

/* Looks for the code of the first message of a score in its picture with messages: it stands there only if it is asked for. */
static void try_messages(const struct test_case *it, size_t number) {
  struct gregorio_message found[512];
  size_t messages = 0, count = 0;
  for (uint32_t asked = 1; asked <= 2; asked++) {
    gregorio_messages(it->input.bytes, it->input.length, asked - 1, NULL, 0, found, 512, &messages);
    check(draw(it, 0, asked, NULL, 0, &count) == GREGORIO_WHOLE && count > 0, "the length of a picture with messages", number);
    char *picture = calloc(count + 1, 1), code[8];
    draw(it, 0, asked, (uint8_t *)picture, count, &count);
    check(is_closed(picture) && is_plain(picture), "the form of a picture with messages", number);
    try_syllables(it, picture, number);
    if (messages && messages <= 512) {
      snprintf(code, sizeof code, ">%c%u<", "EWF"[found[0].code / 100 - 1], found[0].code % 100);
      check(strstr(picture, code) != NULL, "the code of a message", number);
    }
    free(picture);
  }
}

/* Draws by options that are not known: each is refused, and nothing is written. */
static void try_refused(const struct test_case *it) {
  static const struct gregorio_picture_options WRONG[] = {{0, 0, 0, 0}, {2, 0, 0, 0}, {1, 0, 3, 0}, {1, 0, 0, 1}, {UINT32_MAX, 0, UINT32_MAX, UINT32_MAX}};
  size_t count = UNTOUCHED;
  for (size_t i = 0; i < sizeof WRONG / sizeof *WRONG; i++) {
    check(gregorio_draw(it->input.bytes, it->input.length, WRONG + i, 1, KEY, 2, NULL, 0, &count) == GREGORIO_REFUSED && count == UNTOUCHED, "other options", i);
  }
  check(gregorio_draw(it->input.bytes, it->input.length, WRONG, 2, KEY, 2, NULL, 0, &count) == GREGORIO_REFUSED, "two options", 0);
}

static void try_picture(const struct test_case *it, size_t number) {
  size_t count = 0, told = 0;
  check(gregorio_draw(it->input.bytes, it->input.length, NULL, 0, NULL, 0, NULL, 0, &count) == GREGORIO_WHOLE && count > 0, "the length of a picture", number);
  uint8_t *picture = malloc(count + 1), *again = malloc(count + 1);
  memset(picture, UNTOUCHED, count + 1);
  memset(again, UNTOUCHED, count + 1);
  check(draw(it, 0, 0, picture, count - 1, &told) == GREGORIO_WHOLE && told == count, "a picture that does not fit", number);
  check(picture[0] == UNTOUCHED, "a picture that does not fit is not written", number);
  check(gregorio_draw(it->input.bytes, it->input.length, NULL, 0, KEY + 1, 1, picture, count, &told) == GREGORIO_WHOLE && told == count, "a picture", number);
  check(picture[count] == UNTOUCHED, "the byte after a picture", number);
  draw(it, 72000, 0, again, count + 1, &told);
  check(told == count && memcmp(picture, again, count) == 0, "a picture by another key, and by its default width", number);
  picture[count] = 0;
  check(is_closed((const char *)picture) && is_plain((const char *)picture), "the form of a picture", number);
  try_syllables(it, (const char *)picture, number);
  check(draw(it, 1, 0, NULL, 0, &told) == GREGORIO_WHOLE && told > 0, "a narrow picture", number);
  check(draw(it, UINT32_MAX, 0, NULL, 0, &told) == GREGORIO_WHOLE && told > 0, "a broad picture", number);
  try_messages(it, number);
  free(picture);
  free(again);
}

int main(int count, char **tables) {
  size_t number = 0;
  struct test_case it;
  for (int i = 1; i < count; i++) {
    FILE *table = fopen(tables[i], "rb");
    if (!table) return 2;
    while (next_case(table, &it)) {
      if (!number++) try_refused(&it);
      try_picture(&it, number);
      free_case(&it);
    }
    fclose(table);
  }
  check(number > 0, "there are cases", 0);
  return summary("pictures");
}
