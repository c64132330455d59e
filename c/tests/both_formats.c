/* Writes a table of what the library answers for the inputs of tables, in both formats, with warnings and without: for each as it is, and with some bytes
 * changed at random. It has the columns of the tables that it reads, and beside canonical GABC the tree: the numbers of each node, and of the picture
 * the number of its bytes and their sum by FNV-1a, of 32 bits. For a trial of the library as another compiler makes it.
 *
 * Usage: both_formats TABLE.. */
#include <inttypes.h>
#include <stdlib.h>
#include <string.h>

#include "../gregorio.h"
#include "cases.h"

static uint32_t drawn(void) {
  static uint32_t state = 2463534242;
  state ^= state << 13;
  state ^= state >> 17;
  return state ^= state << 5;
}

/* Changes, doubles or drops a few bytes; most of those that come are ones that scores have. */
static void bend(struct text *it) {
  static const char usual[] = "()[]{}<>|$/%:;,.~'_-^#xyabcfghw4\n \"\xC3\xA9\xFF";
  for (uint32_t count = 1 + drawn() % 4; count && it->length; count--) {
    uint8_t *at = it->bytes + drawn() % it->length;
    size_t after = (size_t)(it->bytes + it->length - at) - 1;
    if (drawn() % 3) {
      *at = (uint8_t)usual[drawn() % (sizeof usual - 1)];
    } else if (drawn() % 2) {
      memmove(at, at + 1, after);
      it->length--;
    } else if (after) {
      at[1] = *at;
    }
  }
}

static void write_column(const uint8_t *bytes, size_t length) {
  for (size_t i = 0; i < length; i++) {
    if (bytes[i] >= ' ' && bytes[i] < 127 && bytes[i] != '\\') {
      putchar(bytes[i]);
    } else {
      printf("\\x%02X", bytes[i]);
    }
  }
}

static void write_tree(const struct text *input) {
  size_t room = 4 * input->length + 16, count = 0;
  struct gregorio_node *nodes = malloc(room * sizeof *nodes);
  if (!nodes || gregorio_tree(input->bytes, input->length, NULL, 0, nodes, room, &count) != GREGORIO_WHOLE || count > room) exit(2);
  for (const struct gregorio_node *it = nodes; it < nodes + count; it++) {
    printf("%c%u %u %u %u %u %u %u", it == nodes ? '\t' : ',', it->begin, it->end, it->inner, it->kind, it->a, it->b, it->c);
  }
  free(nodes);
}

static void write_picture(const struct text *input) {
  size_t count = 0;
  if (gregorio_draw(input->bytes, input->length, NULL, 0, NULL, 0, NULL, 0, &count) != GREGORIO_WHOLE) exit(2);
  uint8_t *picture = malloc(count);
  if (!picture || gregorio_draw(input->bytes, input->length, NULL, 0, NULL, 0, picture, count, &count) != GREGORIO_WHOLE) exit(2);
  uint32_t sum = 2166136261;
  for (size_t i = 0; i < count; i++) sum = (sum ^ picture[i]) * 16777619;
  printf("\t%zu %" PRIu32, count, sum);
  free(picture);
}

static void write_row(const struct text *input, uint32_t format, uint32_t flags) {
  size_t room = 200 * input->length + 4096;
  uint8_t *output = malloc(room), *messages = malloc(room);
  struct gregorio_lengths lengths = {0, 0};
  uint32_t status = gregorio_compile(input->bytes, input->length, format, flags, NULL, 0, output, room, messages, room, &lengths);
  if (!output || !messages || status > GREGORIO_FATAL || lengths.output > room || lengths.messages > room) exit(2);
  printf("-F %s%s\t65536,16384,4294967295\twhole\t", format == GREGORIO_DUMP ? "dump" : "gabc", flags ? " -W" : "");
  write_column(input->bytes, input->length);
  putchar('\t');
  write_column(output, lengths.output);
  putchar('\t');
  write_column(messages, lengths.messages);
  printf("\t%u", (unsigned)status);
  if (format == GREGORIO_GABC) {
    write_tree(input);
    write_picture(input);
  }
  putchar('\n');
  free(output);
  free(messages);
}

int main(int count, char **tables) {
  struct test_case it;
  for (int i = 1; i < count; i++) {
    FILE *table = fopen(tables[i], "rb");
    if (!table) return 2;
    while (next_run(table, &it)) {
      for (uint32_t format = GREGORIO_GABC; format <= GREGORIO_DUMP; format++) write_row(&it.input, format, it.flags);
      bend(&it.input);
      for (uint32_t format = GREGORIO_GABC; format <= GREGORIO_DUMP; format++) write_row(&it.input, format, GREGORIO_ALL_WARNINGS);
      free_case(&it);
    }
    fclose(table);
  }
  return 0;
}
