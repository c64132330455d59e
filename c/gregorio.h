/* Reads Gregorian chant in GABC with a proved compiler.
 *
 * One call compiles a score in memory. A run compiles a score in pieces. Its state between two pieces is bytes: you can keep them in a file and go on in
 * another process, and there is nothing to close. The results are proved for every score, if the caller keeps to these rules; nothing checks them.
 *
 * The caller
 *   - Each pointer points to as many bytes, words of a key, options, messages or nodes as the count after it says. A pointer may be null if its
 *     count is 0.
 *   - A buffer for writing overlaps no other buffer, not the score or the piece, not the options, and not the lengths, the step or the count.
 *   - The arguments of a call do not change until it returns.
 *   - Stack: 64 KiB are enough (less is tried by the tests; a step of a run wrote into 34 kB).
 *   - Memory comes from `malloc` and `realloc` and goes back to `free`: all of it has been given back when a call returns. Beside the buffers a
 *     call asks for at most 25 MB at one time, and touches less than 2 MB and as many bytes as its output has, of which 17 MB at most; a step of
 *     a run, under the usual limits, asks for 8 MB and what it writes, and touches about 1 MB and what it writes. Bytes that are no state of the
 *     run cost by the longest text in them, whatever limits they name: at most 8 MB up to 64 kB, and in proportion above (measured, not proved).
 *     gregorio_tree asks for at most 210 times the bytes of the score, and touches at most 150 times as many, for most scores 70 (measured, not
 *     proved). gregorio_messages asks for 2 MB, twice the bytes of the score and 48 bytes for each error and each warning, told or not, and
 *     touches about half of that (measured, not proved).
 *   - Threads: calls share nothing, so any number of threads may call at once. Do not call from a signal handler, nor in a child that a
 *     process with threads has forked.
 *   - Platform: x86-64 Linux with glibc (x86-64-v2 or newer). What `tools/build_for` makes: 64-bit ARM Linux with glibc, or x86-64 Windows.
 */
#ifndef GREGORIO_H
#define GREGORIO_H

#include <stddef.h>
#include <stdint.h>

#ifdef __cplusplus
extern "C" {
#endif

/* The version of this header; `gregorio_version` is that of the library, a text that ends in a NUL. They are equal if both come from one build. */
#define GREGORIO_VERSION "0.5.0"
extern const char gregorio_version[];

/* The values of `format`. */
#define GREGORIO_GABC 0u /* canonical GABC */
#define GREGORIO_DUMP 1u /* a line for each syllable, neume, note and sign */

/* The values of `flags`: 0, or this. */
#define GREGORIO_ALL_WARNINGS 1u /* warnings are reported too */

/* The status that a call returns. */
#define GREGORIO_WHOLE 0u     /* the score was read to its end, and no error was found */
#define GREGORIO_ERRORS 1u    /* it was read to its end, and errors were found */
#define GREGORIO_FATAL 2u     /* a fatal fault stopped the reading */
#define GREGORIO_REFUSED 3u   /* the format, a flag or an option is unknown, or a limit is out of range: nothing was written */
#define GREGORIO_BROKEN 4u    /* the source of the input failed (only from gregorio_broken) */
#define GREGORIO_NO_MEMORY 5u /* there was not enough memory: nothing was written */

/* More statuses, of the calls of a run. */
#define GREGORIO_RUNS 6u        /* the run goes on, and its state was written */
#define GREGORIO_SHORT 7u       /* a buffer is too small: only the required lengths were written */
#define GREGORIO_NO_STATE 8u    /* the bytes are no saved state: nothing was written */
#define GREGORIO_OTHER_STATE 9u /* the state is one of another format, other flags or other limits: nothing was written */

/* The lengths of the output and of the messages, in bytes. */
struct gregorio_lengths {
  size_t output;
  size_t messages;
};

/* A message. Lines and columns count from 1, a column for each character.
 * `severity` is 0 for a warning, 1 for an error, 2 for a fatal fault.
 * `code` is 101 to 106 for E1 to E6, 201 to 212 for W1 to W12, 301 to 307 for F1 to F7. The number of a code never changes. */
struct gregorio_message {
  uint64_t line;
  uint64_t column;
  uint32_t severity;
  uint32_t code;
};

/* What a node of a tree is. The number of a kind never changes. docs/FORMATS.md says what the numbers `a`, `b` and `c` of each mean. */
enum gregorio_kind {
  GREGORIO_KIND_FILE = 0,
  GREGORIO_KIND_HEADER = 1,
  GREGORIO_KIND_HEADER_NAME = 2,
  GREGORIO_KIND_HEADER_VALUE = 3,
  GREGORIO_KIND_HEADER_LEFT_OUT = 4,
  GREGORIO_KIND_HEADER_COMMENT = 5,
  GREGORIO_KIND_SCORE_LINE = 6,
  GREGORIO_KIND_SYLLABLE = 7,
  GREGORIO_KIND_CHARACTERS = 8,
  GREGORIO_KIND_ESCAPE = 9,
  GREGORIO_KIND_TEXT_BLANK = 10,
  GREGORIO_KIND_RAW = 11,
  GREGORIO_KIND_TAG = 12,
  GREGORIO_KIND_SPAN_MARK = 13,
  GREGORIO_KIND_STYLE_TAG = 14,
  GREGORIO_KIND_BRACE = 15,
  GREGORIO_KIND_TRANSLATION = 16,
  GREGORIO_KIND_SNIPPET = 17,
  GREGORIO_KIND_GLYPH = 18,
  GREGORIO_KIND_NOTE = 19,
  GREGORIO_KIND_ALTERATION = 20,
  GREGORIO_KIND_CLEF = 21,
  GREGORIO_KIND_BAR = 22,
  GREGORIO_KIND_SPACING = 23,
  GREGORIO_KIND_CUSTOS = 24,
  GREGORIO_KIND_LINE_BREAK = 25,
  GREGORIO_KIND_ATTRIBUTE = 26,
  GREGORIO_KIND_FUSION = 27,
  GREGORIO_KIND_DESCRIPTOR = 28,
  GREGORIO_KIND_NABC_SPACE = 29,
  GREGORIO_KIND_NABC_GLYPH = 30,
  GREGORIO_KIND_NABC_POINTS = 31,
  GREGORIO_KIND_NABC_LETTERS = 32,
  GREGORIO_KIND_COMMENT = 33,
  GREGORIO_KIND_LEFT_OUT = 34,
  GREGORIO_KIND_FURTHER_BLANK = 35,
  GREGORIO_KIND_SILENT = 36,
  GREGORIO_KIND_UNREAD = 37
};

/* A node of a tree. It has the bytes of the score from `begin` up to `end`, without that one, both from 0. The `inner` nodes after it lie in it; those of
 * its bytes that lie in none of these are its own. `kind` is one of `enum gregorio_kind`. A record has 20 bytes. */
struct gregorio_node {
  uint32_t begin;
  uint32_t end;
  uint32_t inner;
  uint16_t kind;
  uint16_t a;
  uint16_t b;
  uint16_t c;
};

/* How a picture looks, and which messages stand in it. */
struct gregorio_picture_options {
  uint32_t version;  /* 1 */
  uint32_t width;    /* in thousandths of a staff space: less than 12000 is 12000, 0 is 72000 */
  uint32_t messages; /* 0 for none, 1 for errors and faults, 2 for warnings too */
  uint32_t reserved; /* 0 */
};

/* The limits of a run, in bytes, and a key for the table of the headers' names. */
struct gregorio_options {
  uint32_t header;   /* most bytes of the headers: 64 to 16777216, default 65536 */
  uint32_t syllable; /* most bytes of a syllable: 64 to 16777216, default 16384 */
  uint32_t input;    /* most bytes of the whole input: at least 64, default 4294967295 */
  uint32_t reserved; /* 0 */
  uint64_t key[2];   /* two random words if strangers write the scores, else 0 and 0 */
};

/* The numbers of bytes written, or required. */
struct gregorio_step {
  size_t state;
  size_t output;
  size_t messages;
};

/* Compiles the score: writes its output into `output`, the lines of its messages into `messages`, and their exact lengths into `lengths`.
 * Messages call the score `<stdin>`. A text that is longer than its buffer is left out whole, and the buffer stays as it was: call again
 * with buffers of the reported lengths. At GREGORIO_REFUSED and GREGORIO_NO_MEMORY buffers and lengths stay as they were.
 * `key` is for the table of the headers' names: two random words (from `getrandom`, for example) if strangers write the scores, since without a key
 * they could choose names that are slow to read; else null, with a length of 0. No result depends on it. */
uint32_t gregorio_compile(const uint8_t *score, size_t score_length, uint32_t format, uint32_t flags, const uint64_t *key,
                          size_t key_length, uint8_t *output, size_t output_capacity, uint8_t *messages, size_t messages_capacity,
                          struct gregorio_lengths *lengths);

/* Reads the score, and writes its messages into `messages` and their number into `count`. If `messages` is too small for
 * them, it stays as it was. At GREGORIO_REFUSED and GREGORIO_NO_MEMORY both stay as they were. */
uint32_t gregorio_messages(const uint8_t *score, size_t score_length, uint32_t flags, const uint64_t *key, size_t key_length,
                           struct gregorio_message *messages, size_t messages_capacity, size_t *count);

/* Writes the byte of the score, from 0, at which each of the messages stands into `bytes`, if that has room for all; else `bytes` stays as it was. It is
 * the byte where the character begins at the line and the column of the message, or the end of what was read of the score. Messages in the order in which
 * `gregorio_messages` writes them take one way through the score. It needs no memory. */
void gregorio_message_bytes(const uint8_t *score, size_t score_length, const struct gregorio_message *messages, size_t messages_length, uint32_t *bytes,
                            size_t bytes_capacity);

/* Reads the score, and writes the nodes of its tree into `nodes`, in the order of the score and each before those that lie in it, and their number into
 * `count`. The first is the file, in which all others lie. If `nodes` is too small for them, it stays as it was.
 *
 * Returns GREGORIO_WHOLE for every score, whatever was found in it: what was left out or not read are nodes. At GREGORIO_NO_MEMORY both stay as they were. */
uint32_t gregorio_tree(const uint8_t *score, size_t score_length, const uint64_t *key, size_t key_length, struct gregorio_node *nodes,
                       size_t nodes_capacity, size_t *count);

/* Reads the score, and writes its picture into `picture`, as SVG, and the number of its bytes into `count`. If `picture` is too small for it, that
 * stays as it was. `options` may be null, with a count of 0, for the default ones; else its count is 1. The outlines of notes and signs are references by
 * their names, as `#punctum`: docs/PICTURES.md says where the outlines are had.
 *
 * Returns GREGORIO_WHOLE for every score. At GREGORIO_REFUSED and GREGORIO_NO_MEMORY both stay as they were. */
uint32_t gregorio_draw(const uint8_t *score, size_t score_length, const struct gregorio_picture_options *options, size_t options_count,
                       const uint64_t *key, size_t key_length, uint8_t *picture, size_t picture_capacity, size_t *count);

/* A run: a score in pieces.
 *
 * `gregorio_begin` writes its first state, `gregorio_feed` takes a piece of the input, of any length, and `gregorio_end` ends it. The outputs of
 * all steps joined, their messages joined, and the last status are those of one `gregorio_compile` over all pieces joined, if the limits are the
 * defaults. Output comes in whole syllables and messages in whole lines, so each is whole UTF-8. Messages call the input `<stdin>`.
 *
 * `format`, `flags` and the limits of `options` are the same in all steps of a run. `options` may be null, with a count of 0, for the default
 * limits and no key; else its count is 1. The key may differ from step to step: no result depends on it, and no state contains it.
 *
 * A state is plain bytes. You may copy and keep them, and go on in another process or on another machine, also twice from one state. Bytes that
 * are no state are refused, whoever wrote them.
 *
 * If a buffer is too small, a step returns GREGORIO_SHORT, all buffers stay as they were, and the required lengths are reported: make the step
 * again with buffers of these lengths. */

/* Returns the largest length of a state in bytes, 65664 under the default limits, or 0 if a limit is out of range. */
size_t gregorio_state_bound(const struct gregorio_options *options, size_t options_count);

/* Begins a run: writes its first state into `state`, and its length into `step`. Returns GREGORIO_RUNS, GREGORIO_REFUSED,
 * GREGORIO_SHORT or GREGORIO_NO_MEMORY. */
uint32_t gregorio_begin(uint32_t format, uint32_t flags, const struct gregorio_options *options, size_t options_count, uint8_t *state,
                        size_t state_capacity, struct gregorio_step *step);

/* Feeds a piece to the run whose state is the first `state_length` bytes of `state`: writes the new output and messages into `output` and
 * `messages`, the new state over the old one, and the lengths of all three into `step`.
 *
 * Returns GREGORIO_RUNS. Returns GREGORIO_FATAL if a fatal fault ended the run: nothing comes after this output, `step->state` is 0, and `state`
 * stays as it was, but must not be fed any more. Else returns GREGORIO_SHORT, GREGORIO_NO_STATE, GREGORIO_OTHER_STATE, GREGORIO_REFUSED or
 * GREGORIO_NO_MEMORY. */
uint32_t gregorio_feed(uint32_t format, uint32_t flags, const struct gregorio_options *options, size_t options_count, uint8_t *state,
                       size_t state_capacity, size_t state_length, const uint8_t *piece, size_t piece_length, uint8_t *output,
                       size_t output_capacity, uint8_t *messages, size_t messages_capacity, struct gregorio_step *step);

/* Ends the run with this state, at the end of its input: writes the last output and messages into the buffers, and their lengths into `lengths`.
 * The state stays as it is. Returns GREGORIO_WHOLE, GREGORIO_ERRORS or GREGORIO_FATAL for the whole run, as `gregorio_compile` does. Else returns
 * GREGORIO_SHORT, GREGORIO_NO_STATE, GREGORIO_OTHER_STATE, GREGORIO_REFUSED or GREGORIO_NO_MEMORY. */
uint32_t gregorio_end(uint32_t format, uint32_t flags, const struct gregorio_options *options, size_t options_count, const uint8_t *state,
                      size_t state_length, uint8_t *output, size_t output_capacity, uint8_t *messages, size_t messages_capacity,
                      struct gregorio_lengths *lengths);

/* Ends a run whose source failed, such as a connection that broke. It does as `gregorio_end`, but returns GREGORIO_BROKEN in place of
 * GREGORIO_WHOLE and GREGORIO_ERRORS, and does not write an unfinished part. */
uint32_t gregorio_broken(uint32_t format, uint32_t flags, const struct gregorio_options *options, size_t options_count, const uint8_t *state,
                         size_t state_length, uint8_t *output, size_t output_capacity, uint8_t *messages, size_t messages_capacity,
                         struct gregorio_lengths *lengths);

#ifdef __cplusplus
}
#endif

#endif
