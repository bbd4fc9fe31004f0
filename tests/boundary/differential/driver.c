/* Asks the boundary what standard input says and writes every answer to standard output, for run.py.
 *
 * It knows no rule of the reader. It sees to what a caller in C sees: every array ends where memory
 * ends (the next byte may not be touched), holds a pattern before the call, and is looked at after it;
 * the numbers past the used ones, the 64 bytes ahead of an array and all that is const must be as before.
 *
 * Numbers are little-endian. It keeps bytes and a state:
 *   B size:4 bytes          hold these bytes        P place:4 size:4 bytes   put some into them
 *   S 43 numbers            hold this state         K index:1 number:8       one number of it
 * A question is a letter, then, if it is of bytes, from:4 and length:4 in the bytes held (u: twice, image and
 * leader); then
 *   b kind:8                w closed:8 budget:8     t (the start)            f number:8
 *   l line:8                r line:8 row:4          c many:4 counts:8..      L (list an image by b, w and l)
 *   u card:4                d (read a card)         n many:4                 s, p line:8 index:8
 *   x line:8 row:4
 * then three bytes: the length of state or value, the length of the answer, and flags: 1, 2, 4 NULL for
 * bytes, for state, value, row, counts, card or numbers, for the answer, where the length is 0; 8 hold the
 * moved state.
 * Each reply is: returned:8, harm:8, and the arrays after the call (0 past their end). */
#define _DEFAULT_SOURCE
#include "../guard.h"
#include "seobangyu.h"

#include <signal.h>
#include <unistd.h>

enum { NULL_BYTES = 1, NULL_ARRAY = 2, NULL_ANSWER = 4, KEEP = 8 };
/* What was found harmed, as bits of a reply's second number. */
enum { PAST_ARRAY = 1, PAST_ANSWER = 2, AHEAD_OF_ARRAY = 4, CONST_BYTES = 8, CONST_ARRAY = 16 };

static void die(const char *why) {
  fprintf(stderr, "driver: %s\n", why);
  exit(2);
}

/* What came, and how far it is read. */
static uint8_t *input;
static size_t input_len, at;

static void read_input(void) {
  size_t room = 1 << 20, got;
  if (!(input = malloc(room))) die("no memory");
  while ((got = fread(input + input_len, 1, room - input_len, stdin)) > 0)
    if ((input_len += got) == room && !(input = realloc(input, room *= 2))) die("no memory");
}

static const uint8_t *take(size_t size) {
  if (size > input_len - at) die("the questions end too early");
  at += size;
  return input + at - size;
}

static uint64_t number(size_t size) {
  uint64_t n = 0;
  memcpy(&n, take(size), size);
  return n;
}

static Arena bytes_arena, leader_arena, array_arena, answer_arena;

static uint64_t harm_ahead(const void *array) { return harmed_ahead(array) ? AHEAD_OF_ARRAY : 0; }

/* What an array holds before the call. */
static uint64_t pattern(size_t i) { return 0xA5A5A5A5A5A5A500u + i; }
static uint16_t sample_pattern(size_t i) { return (uint16_t)(i * 40503 + 7); }
static uint32_t word_pattern(size_t i) { return (uint32_t)(i * 2654435761u + 0x7FA00001u); }
static uint8_t card_pattern(size_t i) { return (uint8_t)(i * 151 + 93); }

static void fill(uint64_t *numbers, size_t from, size_t len) {
  for (size_t i = from; i < len; i++) numbers[i] = pattern(i);
}

static uint64_t harm_past(const uint64_t *numbers, size_t used, size_t len, uint64_t harm) {
  for (size_t i = used; i < len; i++)
    if (numbers[i] != pattern(i)) return harm;
  return 0;
}

static void put(const void *what, size_t size) {
  if (fwrite(what, 1, size, stdout) != size) die("the answers cannot be written");
}

static void put_number(uint64_t n) { put(&n, 8); }

static void put_numbers(const uint64_t *numbers, size_t len, size_t many) {
  for (size_t i = 0; i < many; i++) put_number(i < len ? numbers[i] : 0);
}

/* What is held from question to question. */
static uint8_t *held;
static size_t held_len;
static uint64_t held_state[SBG_STATE];

/* Bytes of a question, at the end of their memory. */
typedef struct {
  const uint8_t *bytes, *as_held;
  size_t len;
} Part;

static Part take_part(Arena *arena) {
  size_t from = number(4), len = number(4);
  if (from > held_len || len > held_len - from) die("no such bytes are held");
  return (Part){memcpy(fit(arena, len), held + from, len), held + from, len};
}

static uint64_t harm_part(const Part *part) {
  return (memcmp(part->bytes, part->as_held, part->len) ? CONST_BYTES : 0) | harm_ahead(part->bytes);
}

/* Most questions are of one part. */
static Part asked;
static const uint8_t *bytes;
static size_t len;

static void take_bytes(void) {
  asked = take_part(&bytes_arena);
  bytes = asked.bytes;
  len = asked.len;
}

static uint64_t harm_bytes(void) { return harm_part(&asked); }

/* The arrays of a question: state, value or nothing, and the answer. */
static size_t array_len, answer_len;
static uint64_t flags, *answer;

static void take_lengths(void) {
  array_len = number(1);
  answer_len = number(1);
  flags = number(1);
  answer = fit(&answer_arena, 8 * answer_len);
  fill(answer, 0, answer_len);
}

static void *or_null(const void *array, size_t size, uint64_t flag) {
  return size == 0 && flags & flag ? NULL : (void *)array;
}

static const uint8_t *bytes_arg(void) { return or_null(bytes, len, NULL_BYTES); }
static uint64_t *answer_arg(void) { return or_null(answer, answer_len, NULL_ANSWER); }

static void reply(uint64_t returned, uint64_t harm) {
  put_number(returned);
  put_number(harm | harm_past(answer, SBG_ANSWER, answer_len, PAST_ANSWER) | harm_ahead(answer));
  put_numbers(answer, answer_len, SBG_ANSWER);
}

static uint64_t *state_array(void) {
  uint64_t *state = fit(&array_arena, 8 * array_len);
  memcpy(state, held_state, 8 * (array_len < SBG_STATE ? array_len : SBG_STATE));
  fill(state, SBG_STATE, array_len);
  return state;
}

static void reply_state(uint64_t returned, uint64_t harm, const uint64_t *state) {
  reply(returned, harm | harm_past(state, SBG_STATE, array_len, PAST_ARRAY) | harm_ahead(state));
  put_numbers(state, array_len, SBG_STATE);
  if (flags & KEEP && array_len >= SBG_STATE) memcpy(held_state, state, sizeof held_state);
}

static void ask_begin(void) {
  uint64_t kind = number(8);
  take_lengths();
  uint64_t *state = state_array();
  uint64_t *lent = or_null(state, array_len, NULL_ARRAY);
  reply_state(sbg_begin(kind, lent, array_len, answer_arg(), answer_len), 0, state);
}

static void ask_walk(void) {
  take_bytes();
  uint64_t closed = number(8), budget = number(8);
  take_lengths();
  uint64_t *state = state_array();
  uint64_t *lent = or_null(state, array_len, NULL_ARRAY);
  uint64_t returned = sbg_walk(lent, array_len, bytes_arg(), len, closed, budget, answer_arg(), answer_len);
  reply_state(returned, harm_bytes(), state);
}

static void ask_start(void) {
  take_lengths();
  const uint64_t *state = state_array();
  uint64_t returned = sbg_start(or_null(state, array_len, NULL_ARRAY), array_len);
  size_t known = array_len < SBG_STATE ? array_len : SBG_STATE;
  uint64_t harm = memcmp(state, held_state, 8 * known) ? CONST_ARRAY : 0;
  reply_state(returned, harm, state);
}

static void ask_field(void) {
  take_bytes();
  uint64_t which = number(8);
  take_lengths();
  uint64_t *value = fit(&array_arena, 8 * array_len);
  fill(value, 0, array_len);
  int64_t *lent = or_null(value, array_len, NULL_ARRAY);
  uint64_t returned = sbg_field(bytes_arg(), len, which, lent, array_len, answer_arg(), answer_len);
  reply(returned, harm_bytes() | harm_past(value, SBG_VALUE, array_len, PAST_ARRAY) | harm_ahead(value));
  put_numbers(value, array_len, SBG_VALUE);
}

static void ask_line(void) {
  take_bytes();
  uint64_t line = number(8);
  take_lengths();
  reply(sbg_line(bytes_arg(), len, line, answer_arg(), answer_len), harm_bytes());
}

static void ask_row(void) {
  take_bytes();
  uint64_t line = number(8);
  size_t row_len = number(4);
  take_lengths();
  uint16_t *row = fit(&array_arena, 2 * row_len);
  for (size_t i = 0; i < row_len; i++) row[i] = sample_pattern(i);
  uint16_t *lent = or_null(row, row_len, NULL_ARRAY);
  uint64_t returned = sbg_row(bytes_arg(), len, line, lent, row_len, answer_arg(), answer_len);
  reply(returned, harm_bytes() | harm_ahead(row));
  put(row, 2 * row_len);
}

typedef uint64_t OfSample(const uint8_t *, size_t, uint64_t, uint64_t, uint64_t *, size_t);

/* sbg_sample and sbg_power take the same. */
static void ask_sample(OfSample *call) {
  take_bytes();
  uint64_t line = number(8), index = number(8);
  take_lengths();
  reply(call(bytes_arg(), len, line, index, answer_arg(), answer_len), harm_bytes());
}

static void ask_complex_row(void) {
  take_bytes();
  uint64_t line = number(8);
  size_t row_len = number(4);
  take_lengths();
  uint32_t *row = fit(&array_arena, 4 * row_len);
  for (size_t i = 0; i < row_len; i++) row[i] = word_pattern(i);
  uint32_t *lent = or_null(row, row_len, NULL_ARRAY);
  uint64_t returned = sbg_complex_row(bytes_arg(), len, line, lent, row_len, answer_arg(), answer_len);
  reply(returned, harm_bytes() | harm_ahead(row));
  put(row, 4 * row_len);
}

static void ask_set(void) {
  take_bytes();
  size_t many = number(4);
  const uint8_t *given = take(8 * many);
  take_lengths();
  uint64_t *counts = memcpy(fit(&array_arena, 8 * many), given, 8 * many);
  const uint64_t *lent = or_null(counts, many, NULL_ARRAY);
  uint64_t returned = sbg_set(bytes_arg(), len, lent, many, answer_arg(), answer_len);
  uint64_t harm = memcmp(counts, given, 8 * many) ? CONST_ARRAY : 0;
  reply(returned, harm | harm_bytes() | harm_ahead(counts));
}

static void ask_card_build(void) {
  Part image = take_part(&bytes_arena), leader = take_part(&leader_arena);
  size_t card_len = number(4);
  take_lengths();
  uint8_t *card = fit(&array_arena, card_len);
  for (size_t i = 0; i < card_len; i++) card[i] = card_pattern(i);
  uint64_t returned = sbg_card_build(or_null(image.bytes, image.len, NULL_BYTES), image.len, or_null(leader.bytes, leader.len, NULL_BYTES),
                                     leader.len, or_null(card, card_len, NULL_ARRAY), card_len, answer_arg(), answer_len);
  reply(returned, harm_part(&image) | harm_part(&leader) | harm_ahead(card));
  put(card, card_len);
}

static void ask_card(void) {
  take_bytes();
  take_lengths();
  reply(sbg_card(bytes_arg(), len, answer_arg(), answer_len), harm_bytes());
}

static void ask_card_numbers(void) {
  take_bytes();
  size_t many = number(4);
  take_lengths();
  uint64_t *numbers = fit(&array_arena, 8 * many);
  fill(numbers, 0, many);
  uint64_t *lent = or_null(numbers, many, NULL_ARRAY);
  uint64_t returned = sbg_card_numbers(bytes_arg(), len, lent, many, answer_arg(), answer_len);
  reply(returned, harm_bytes() | harm_ahead(numbers));
  put(numbers, 8 * many);
}

/* The listing of an image, record by record; the reply is how many bytes, 0, and the rows. */
static char *rows;
static size_t rows_len, rows_room;

static void row(const char *words, uint64_t a, uint64_t b, uint64_t c, uint64_t d) {
  if (rows_room - rows_len < 256 && !(rows = realloc(rows, rows_room += 65536))) die("no memory");
  rows_len += (size_t)snprintf(rows + rows_len, 256, words, (unsigned long)a, (unsigned long)b, (unsigned long)c, (unsigned long)d);
}

/* The row of the record that was passed; 0 where the listing ends with it. */
static int list_record(const uint64_t *state) {
  uint64_t view[SBG_ANSWER], line = state[SBG_PASSED] - 1;
  if (line == 0) {
    row("IMAGE %lu LINES %lu PIXELS\n", state[SBG_N], state[SBG_W], 0, 0);
    if (state[SBG_L] <= 32768) return 1;
    row("RECORD TOO LONG\n", 0, 0, 0, 0);
    return 0;
  }
  if (!sbg_line(bytes, len, line, view, SBG_ANSWER) || view[SBG_TAG] != SBG_SHOWN) {
    row("LINE %lu IS NOT SHOWN\n", line, 0, 0, 0);
    return 0;
  }
  row("%lu %lu %lu %lu\n", line, view[SBG_C], view[SBG_B], state[SBG_W] - view[SBG_C] - view[SBG_B]);
  return 1;
}

static void list(void) {
  uint64_t state[SBG_STATE], told[SBG_ANSWER], begun, turns = 0;
  sbg_begin(SBG_IMAGE, state, SBG_STATE, told, SBG_ANSWER);
  do {
    begun = sbg_start(state, SBG_STATE);
    if (begun > len || turns++ > len) return; /* a wrong library must not lead out of the bytes, nor in a circle */
    sbg_walk(state, SBG_STATE, bytes + begun, len - begun, 1, 1, told, SBG_ANSWER);
  } while (told[SBG_COUNT] == 1 && list_record(state));
  if (told[SBG_COUNT] == 1) return;
  if (told[SBG_TAG] == SBG_COMPLETE) row("COMPLETE %lu RECORDS %lu BYTES\n", state[SBG_PASSED], begun, 0, 0);
  if (told[SBG_TAG] == SBG_REFUSED) row("REFUSED %lu RECORD %lu AT %lu\n", told[SBG_A], told[SBG_B], told[SBG_C], 0);
}

static void ask_list(void) {
  take_bytes();
  take_lengths();
  rows_len = 0;
  list();
  put_number(rows_len);
  put_number(harm_bytes());
  put(rows, rows_len);
}

static void hold_bytes(void) {
  held_len = number(4);
  held = realloc(held, held_len + 1);
  if (!held) die("no memory");
  memcpy(held, take(held_len), held_len);
}

static void put_bytes(void) {
  size_t place = number(4), size = number(4);
  if (place > held_len || size > held_len - place) die("no such bytes are held");
  memcpy(held + place, take(size), size);
}

static void hold_number(void) {
  size_t index = number(1);
  if (index >= SBG_STATE) die("no such number of a state");
  held_state[index] = number(8);
}

static void follow(uint64_t letter) {
  switch (letter) {
  case 'B': hold_bytes(); break;
  case 'P': put_bytes(); break;
  case 'S': memcpy(held_state, take(sizeof held_state), sizeof held_state); break;
  case 'K': hold_number(); break;
  case 'b': ask_begin(); break;
  case 'w': ask_walk(); break;
  case 't': ask_start(); break;
  case 'f': ask_field(); break;
  case 'l': ask_line(); break;
  case 'r': ask_row(); break;
  case 'c': ask_set(); break;
  case 'L': ask_list(); break;
  case 'u': ask_card_build(); break;
  case 'd': ask_card(); break;
  case 'n': ask_card_numbers(); break;
  case 's': ask_sample(sbg_sample); break;
  case 'p': ask_sample(sbg_power); break;
  case 'x': ask_complex_row(); break;
  default: die("no such letter");
  }
}

/* A call touched memory that no array has, or does not end: what was answered before goes out, so that it is
 * known which call it was. */
static void stopped(int why) {
  static const char touched[] = "driver: memory past an array was touched\n", endless[] = "driver: a call does not end\n";
  fflush(stdout);
  _exit((why == SIGALRM ? write(2, endless, sizeof endless - 1) : write(2, touched, sizeof touched - 1)) < 0 ? 4 : 3);
}

int main(void) {
  signal(SIGSEGV, stopped);
  signal(SIGBUS, stopped);
  signal(SIGALRM, stopped);
  read_input();
  alarm(600);
  while (at < input_len) follow(number(1));
  if (fflush(stdout)) die("the answers cannot be written");
  return 0;
}
