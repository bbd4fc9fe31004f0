/* A fuzz run of the boundary, without an oracle: for any bytes, kinds, states, budgets and cuts the answers must
 * fit together as document 01 says. Run by scripts/fuzz with libFuzzer; with -DALONE it has a main of its own
 * that alters the seeds by drawn numbers, where there is no libFuzzer.
 *
 * An input is 16 bytes of choices (struct Choices) and the bytes of a file, of a card, or of an image and a leader
 * with the cut between them. */
#define _DEFAULT_SOURCE
#include "../guard.h"
#include "seobangyu.h"

#include <time.h>

#define MANY UINT64_MAX
enum { FRONT = 16, MOST = 40000, ROW = 2000, SAMPLE = 0x5AA5, WORD = 0x5AA5A55A };
static const uint64_t POISON = 0xA5A5A5A5A5A5A5A5u;

/* Which refusals a function gives, as bits: a first record's, a line's, and each one's own. */
#define NO(number) ((uint64_t)1 << (number))
#define RECORD_NOS (NO(3) | NO(4) | NO(5) | NO(6) | NO(7) | NO(8))
#define WALK_NOS (RECORD_NOS | NO(2) | NO(9) | NO(10) | NO(11))
#define LINE_NOS (RECORD_NOS | NO(10) | NO(13))
#define ROW_NOS (LINE_NOS | NO(23) | NO(15))
#define POWER_NOS (LINE_NOS | NO(23) | NO(36) | NO(24))
#define SET_NOS (RECORD_NOS | NO(2) | NO(9) | NO(12))
#define CARD_NOS (NO(20) | NO(21) | NO(22))
#define BUILD_NOS (RECORD_NOS | NO(2) | NO(9) | NO(10) | NO(37))

typedef struct {
  uint64_t kind, closed, budget, line, field, index, number;
  size_t cut;
} Choices;

typedef struct {
  uint64_t state[SBG_STATE], answer[SBG_ANSWER];
} Walked;

/* What an input led to, for libFuzzer: the library itself is not instrumented. */
#ifndef ALONE
__attribute__((section("__libfuzzer_extra_counters")))
#endif
static uint8_t counters[1 << 16];

static void seen(unsigned sort, const uint64_t *answer, uint64_t place) {
  unsigned at = sort * 31 + (unsigned)answer[SBG_TAG];
  at = at * 16 + (unsigned)(answer[SBG_TAG] == SBG_REFUSED ? answer[SBG_A] : 0);
  at = at * 64 + (unsigned)(answer[SBG_COUNT] < 63 ? answer[SBG_COUNT] : 63);
  counters[(at * 769 + (unsigned)place) % sizeof counters] = 1;
}

static const char *property = "";

static void hold(int holds, const char *what) {
  if (holds) return;
  fprintf(stderr, "BROKEN: %s: %s\n", property, what);
  abort();
}

static int same(const uint64_t *a, const uint64_t *b, size_t many) { return !memcmp(a, b, 8 * many); }

/* Bytes that end where memory ends. One arena is for the whole, one for parts of it. */
static Arena whole_arena, part_arena;

static const uint8_t *lend(Arena *arena, const uint8_t *bytes, size_t len) {
  return len ? memcpy(fit(arena, len), bytes, len) : NULL;
}

/* Each function with its answer looked at: what every answer must be ---------------------------------------- */

static void refused_of(const uint64_t *a, uint64_t numbers) {
  static const uint64_t of_samples = NO(23) | NO(24) | NO(36), placed = NO(12) | CARD_NOS;
  static const uint64_t of_no_record = NO(1) | NO(11) | NO(12) | NO(13) | NO(14) | NO(15) | NO(37) | CARD_NOS | of_samples;
  hold(a[SBG_A] <= 37 && numbers >> a[SBG_A] & 1, "a refusal that this function does not give");
  if (of_no_record >> a[SBG_A] & 1) hold(a[SBG_B] == 0, "a refusal's record is 0");
  if ((of_no_record & ~placed) >> a[SBG_A] & 1) hold(a[SBG_C] == 0, "a refusal's place is 0");
}

/* Numbers that a tag does not use are 0. tags and numbers: bits of what may come. */
static void shape(const uint64_t *a, uint32_t tags, uint64_t numbers) {
  static const int used[] = {3, 1, 0, 0, 0, 0, 0, 3, 1, 0, 1, 2, 1, 2, 1};
  hold(a[SBG_TAG] <= SBG_POWER && tags >> a[SBG_TAG] & 1, "a tag that this function does not give");
  for (int i = used[a[SBG_TAG]]; i < 3; i++) hold(a[1 + i] == 0, "an unused number is not 0");
  if (a[SBG_TAG] == SBG_REFUSED) refused_of(a, numbers);
}

static Walked begun(uint64_t kind) {
  Walked w;
  memset(&w, 0xA5, sizeof w);
  property = "begin";
  hold(sbg_begin(kind, w.state, SBG_STATE, w.answer, SBG_ANSWER) == 1, "no answer");
  shape(w.answer, 1 << SBG_REFUSED | 1 << SBG_BEGUN, NO(1));
  int there = kind >= 1 && kind <= 4;
  hold((w.answer[SBG_TAG] == SBG_BEGUN) == there, "a kind is 1 to 4");
  hold(w.state[SBG_KIND] == (there ? kind : 0), "the state's kind");
  for (int i = 1; i < SBG_STATE; i++) hold(w.state[i] == 0, "a fresh state is zeros");
  return w;
}

static void walk_places(const Walked *from, const Walked *to, size_t len, uint64_t closed) {
  const uint64_t *a = to->answer, begin = sbg_start(from->state, SBG_STATE), start = sbg_start(to->state, SBG_STATE);
  if (a[SBG_TAG] == SBG_REFUSED && a[SBG_A] == 11) {
    hold(a[SBG_COUNT] == 0 && same(from->state, to->state, SBG_STATE) && start == 0, "a bad state stays, and has no start");
    return;
  }
  hold(start >= begin && start - begin <= len, "no more is passed than was there");
  if (a[SBG_TAG] == SBG_REFUSED) {
    hold(a[SBG_B] == to->state[SBG_PASSED] + 1, "the refused record is the next");
    hold(a[SBG_C] >= start && a[SBG_C] - begin <= len, "the place lies in the bytes");
    hold(a[SBG_A] != 2 || closed, "2 is for closed files");
  }
  if (a[SBG_TAG] == SBG_COMPLETE) hold(closed && start - begin == len, "complete: closed, and all is passed");
  if (a[SBG_TAG] == SBG_WAIT) hold(!closed && (a[SBG_A] || start - begin == len), "wait: open, for 0 bytes only at the end");
}

static Walked walked(const Walked *from, const uint8_t *bytes, size_t len, uint64_t closed, uint64_t budget) {
  Walked to = *from;
  memset(to.answer, 0xA5, sizeof to.answer);
  property = "walk";
  hold(sbg_walk(to.state, SBG_STATE, bytes, len, closed, budget, to.answer, SBG_ANSWER) == 1, "no answer");
  shape(to.answer, 1 << SBG_REFUSED | 1 << SBG_WAIT | 1 << SBG_PAUSE | 1 << SBG_COMPLETE, WALK_NOS);
  hold(to.answer[SBG_COUNT] == to.state[SBG_PASSED] - from->state[SBG_PASSED], "the count is the passed numbers' difference");
  hold(to.answer[SBG_COUNT] <= budget, "no more records than the budget");
  int bad = to.answer[SBG_TAG] == SBG_REFUSED && to.answer[SBG_A] == 11;
  hold((to.answer[SBG_TAG] == SBG_PAUSE) == (to.answer[SBG_COUNT] == budget && !bad), "pause exactly at the budget");
  hold(to.state[SBG_KIND] == from->state[SBG_KIND], "the kind stays");
  if (from->state[SBG_PASSED]) hold(same(from->state + 2, to.state + 2, SBG_STATE - 2), "the plan stays");
  walk_places(from, &to, len, closed);
  return to;
}

static int is_refused(const Walked *w) { return w->answer[SBG_TAG] == SBG_REFUSED; }

/* Two walks that must end alike, whatever each call passed. */
static void alike(const Walked *a, const Walked *b, const char *what) {
  hold(same(a->state, b->state, SBG_STATE) && same(a->answer, b->answer, SBG_COUNT), what);
}

/* Properties ------------------------------------------------------------------------------------------------ */

/* From this state on: the rest of the bytes, whose first is the place `base` in the file. */
static Walked walk_on(const Walked *from, uint64_t base, const uint8_t *bytes, size_t len, uint64_t closed, uint64_t budget) {
  uint64_t start = sbg_start(from->state, SBG_STATE), skip = start < base ? 0 : start - base;
  size_t left = skip < len ? len - skip : 0;
  return walked(from, lend(&part_arena, bytes + len - left, left), left, closed, budget);
}

static void check_pieces(const Walked *from, const uint8_t *bytes, size_t len, const Choices *c) {
  uint64_t base = sbg_start(from->state, SBG_STATE);
  Walked whole = walked(from, bytes, len, c->closed, MANY);
  Walked part = walked(from, lend(&part_arena, bytes, c->cut), c->cut, 0, c->budget);
  if (is_refused(&part) && part.answer[SBG_A] != 11) alike(&part, &whole, "more bytes never alter a refusal");
  Walked rest = walk_on(&part, base, bytes, len, c->closed, MANY);
  alike(&rest, &whole, "in pieces as whole");
  Walked again = walk_on(&rest, base, bytes, len, c->closed, MANY);
  property = "pieces";
  alike(&again, &rest, "an answer is said again");
  hold(again.answer[SBG_COUNT] == 0, "said again, nothing is passed");
  Walked one = *from;
  for (int i = 0; i < 64; i++) {
    one = walk_on(&one, base, bytes, len, c->closed, 1);
    if (one.answer[SBG_TAG] != SBG_PAUSE) break;
  }
  property = "pieces";
  if (one.answer[SBG_TAG] != SBG_PAUSE) alike(&one, &whole, "record by record as whole");
}

/* Closed and open differ only where an open file waits. */
static void check_closed(const Walked *from, const uint8_t *bytes, size_t len, const Choices *c) {
  Walked open = walked(from, bytes, len, 0, c->budget), closed = walked(from, bytes, len, 1 + c->number, c->budget);
  property = "closed";
  if (1 + c->number == 0) return; /* that is open */
  if (open.answer[SBG_TAG] != SBG_WAIT) {
    alike(&open, &closed, "closing alters only a wait");
  } else if (open.answer[SBG_A] == 0) {
    hold(closed.answer[SBG_TAG] == SBG_COMPLETE, "a wait for 0 is complete when closed");
  } else {
    uint64_t due[] = {SBG_REFUSED, 2, open.state[SBG_PASSED] + 1, sbg_start(open.state, SBG_STATE)};
    hold(same(closed.answer, due, SBG_COUNT), "a wait is 2 at the record's start when closed");
  }
  hold(same(open.state, closed.state, SBG_STATE), "the state is the same");
}

/* With the missing bytes a wait is over: another answer, or a longer wait behind a header. */
static void check_wait(const Walked *from, const uint8_t *bytes, size_t len) {
  Walked w = walked(from, bytes, len, 0, MANY);
  if (w.answer[SBG_TAG] != SBG_WAIT || w.answer[SBG_A] == 0 || w.answer[SBG_A] > MOST) return;
  size_t missing = w.answer[SBG_A], held = len - (sbg_start(w.state, SBG_STATE) - sbg_start(from->state, SBG_STATE));
  uint8_t *more = fit(&part_arena, len + missing);
  if (len) memcpy(more, bytes, len);
  memset(more + len, 0x20, missing);
  Walked next = walked(from, more, len + missing - 1, 0, MANY);
  property = "wait";
  if (missing > 1) hold(next.answer[SBG_TAG] == SBG_WAIT && next.answer[SBG_A] == 1, "a byte less waits for 1");
  next = walked(from, more, len + missing, 0, MANY);
  property = "wait";
  int again = next.answer[SBG_TAG] == SBG_WAIT && next.answer[SBG_COUNT] == w.answer[SBG_COUNT];
  hold(!again || held < 12, "what was missing is enough");
}

static uint64_t four(const uint8_t *b) { return (uint64_t)b[0] << 24 | (uint64_t)b[1] << 16 | (uint64_t)b[2] << 8 | b[3]; }

/* A line as it is viewed, and what its image says of it. */
typedef struct {
  uint64_t line, view[SBG_ANSWER], sort, group;
} Seen;

static int is_no(const uint64_t *a, uint64_t number) { return a[SBG_TAG] == SBG_REFUSED && a[SBG_A] == number; }

static void check_row(const uint8_t *bytes, size_t len, const Seen *s, size_t row_len) {
  const uint64_t *view = s->view;
  static uint16_t row[ROW];
  uint64_t a[SBG_ANSWER];
  property = "row";
  for (size_t i = 0; i < ROW; i++) row[i] = SAMPLE;
  hold(sbg_row(bytes, len, s->line, row, row_len, a, SBG_ANSWER) == 1, "no answer");
  shape(a, 1 << SBG_REFUSED | 1 << SBG_WAIT | 1 << SBG_COPIED, ROW_NOS);
  size_t many = 0;
  if (view[SBG_TAG] != SBG_SHOWN) {
    hold(same(a, view, SBG_ANSWER), "a row says what the view says");
  } else if (s->sort != 0) {
    hold(is_no(a, 23), "the row copy is for counts");
  } else if (row_len < view[SBG_B]) {
    hold(is_no(a, 15), "too short a row is 15");
  } else {
    hold(a[SBG_TAG] == SBG_COPIED && a[SBG_A] == view[SBG_B], "the view's data pixels are copied");
    many = view[SBG_B];
  }
  for (size_t j = 0; j < many; j++)
    hold(row[j] == bytes[view[SBG_A] + 2 * j] * 256 + bytes[view[SBG_A] + 2 * j + 1], "a sample, high byte first");
  for (size_t j = many; j < ROW; j++) hold(row[j] == SAMPLE, "later samples stay");
}

static void check_complex_row(const uint8_t *bytes, size_t len, const Seen *s, size_t row_len) {
  static uint32_t row[ROW];
  const uint64_t *view = s->view;
  uint64_t a[SBG_ANSWER];
  property = "complex row";
  for (size_t i = 0; i < ROW; i++) row[i] = WORD;
  hold(sbg_complex_row(bytes, len, s->line, row, row_len, a, SBG_ANSWER) == 1, "no answer");
  shape(a, 1 << SBG_REFUSED | 1 << SBG_WAIT | 1 << SBG_COPIED, ROW_NOS);
  size_t many = 0;
  if (view[SBG_TAG] != SBG_SHOWN) {
    hold(same(a, view, SBG_ANSWER), "a row says what the view says");
  } else if (s->sort != 1) {
    hold(is_no(a, 23), "the complex row is for complex samples");
  } else if (row_len < 2 * view[SBG_B]) {
    hold(is_no(a, 15), "too short a row is 15");
  } else {
    hold(a[SBG_TAG] == SBG_COPIED && a[SBG_A] == view[SBG_B], "the view's data pixels are copied");
    many = 2 * view[SBG_B];
  }
  for (size_t j = 0; j < many; j++) hold(row[j] == four(bytes + view[SBG_A] + 4 * j), "a part, high byte first, every bit");
  for (size_t j = many; j < ROW; j++) hold(row[j] == WORD, "later numbers stay");
}

static int is_finite(uint64_t bits) { return (bits & 0x7FFFFFFF) < 0x7F800000; }

/* The machine's own products and sum, each kept in memory, so that none is fused. */
static uint64_t power_of(uint64_t real, uint64_t imaginary) {
  uint32_t parts[] = {(uint32_t)real, (uint32_t)imaginary}, bits;
  float numbers[2];
  memcpy(numbers, parts, sizeof numbers);
  volatile float one = numbers[0] * numbers[0], other = numbers[1] * numbers[1], sum = one + other;
  float power = sum;
  memcpy(&bits, &power, sizeof bits);
  return bits;
}

static void check_power(const uint8_t *bytes, size_t len, const Seen *s, uint64_t index, const uint64_t *sample) {
  uint64_t a[SBG_ANSWER];
  property = "power";
  hold(sbg_power(bytes, len, s->line, index, a, SBG_ANSWER) == 1, "no answer");
  shape(a, 1 << SBG_REFUSED | 1 << SBG_WAIT | 1 << SBG_POWER, POWER_NOS);
  hold(a[SBG_COUNT] == 0, "a power has no count");
  if (s->view[SBG_TAG] != SBG_SHOWN) {
    hold(same(a, s->view, SBG_ANSWER), "a power says what the view says");
  } else if (s->sort != 1) {
    hold(is_no(a, 23), "23 for counts, before 36");
  } else if (sample[SBG_TAG] != SBG_SAMPLE_COMPLEX) {
    hold(same(a, sample, SBG_ANSWER), "36 as the sample has it");
  } else {
    uint64_t due = power_of(sample[SBG_A], sample[SBG_B]);
    int fine = is_finite(sample[SBG_A]) && is_finite(sample[SBG_B]) && is_finite(due);
    hold(fine ? a[SBG_TAG] == SBG_POWER && a[SBG_A] == due : is_no(a, 24), "two products and a sum, or 24");
  }
}

static void check_sample(const uint8_t *bytes, size_t len, const Seen *s, uint64_t index) {
  const uint64_t *view = s->view;
  uint64_t a[SBG_ANSWER];
  property = "sample";
  hold(sbg_sample(bytes, len, s->line, index, a, SBG_ANSWER) == 1, "no answer");
  shape(a, 1 << SBG_REFUSED | 1 << SBG_WAIT | 1 << SBG_SAMPLE_COUNT | 1 << SBG_SAMPLE_COMPLEX, LINE_NOS | NO(36));
  hold(a[SBG_COUNT] == 0, "a sample has no count");
  if (view[SBG_TAG] != SBG_SHOWN) {
    hold(same(a, view, SBG_ANSWER), "a sample says what the view says");
  } else if (index >= view[SBG_B]) {
    hold(is_no(a, 36), "36 exactly outside the data pixels");
  } else {
    const uint8_t *at = bytes + view[SBG_A] + s->group * index;
    uint64_t of_counts[] = {SBG_SAMPLE_COUNT, at[0] * 256u + at[1], 0}, of_complex[] = {SBG_SAMPLE_COMPLEX, 0, 0};
    if (s->sort == 1) of_complex[SBG_A] = four(at), of_complex[SBG_B] = four(at + 4);
    hold(same(a, s->sort == 1 ? of_complex : of_counts, 3), "the sample's bytes, high byte first");
  }
  seen(10, a, index < 64 ? index : 64);
  check_power(bytes, len, s, index, a);
}

static void view_of(const uint8_t *bytes, size_t len, uint64_t line, uint64_t *view) {
  property = "line";
  hold(sbg_line(bytes, len, line, view, SBG_ANSWER) == 1, "no answer");
  shape(view, 1 << SBG_REFUSED | 1 << SBG_WAIT | 1 << SBG_SHOWN, LINE_NOS);
  hold(view[SBG_COUNT] == 0, "a view has no count");
}

/* Rows, samples and powers of a line as it is viewed. */
static void check_shown(const uint8_t *bytes, size_t len, const Choices *c, const uint64_t *view, uint64_t sort) {
  Seen s = {.line = c->line, .sort = sort, .group = sort == 1 ? 8 : 2};
  memcpy(s.view, view, sizeof s.view);
  uint64_t shown = view[SBG_TAG] == SBG_SHOWN ? view[SBG_B] : 0, enough = 2 * shown < ROW ? shown : 0;
  check_row(bytes, len, &s, c->number % ROW);
  check_row(bytes, len, &s, enough);
  check_complex_row(bytes, len, &s, c->number % ROW);
  check_complex_row(bytes, len, &s, 2 * enough);
  if (enough) check_complex_row(bytes, len, &s, 2 * enough - 1);
  uint64_t indices[] = {0, c->number, c->index, shown, shown - 1, MANY, c->number % (shown + 1)};
  for (size_t i = 0; i < sizeof indices / sizeof *indices; i++) check_sample(bytes, len, &s, indices[i]);
}

static void check_line(const uint8_t *bytes, size_t len, const Choices *c) {
  uint64_t view[SBG_ANSWER], early[SBG_ANSWER];
  view_of(bytes, len, c->line, view);
  seen(5, view, 0);
  view_of(lend(&part_arena, bytes, c->cut), c->cut, c->line, early);
  if (early[SBG_TAG] != SBG_WAIT) hold(same(early, view, SBG_ANSWER), "more bytes never alter a shown line or its refusal");
  if (early[SBG_TAG] == SBG_WAIT && view[SBG_TAG] == SBG_SHOWN && c->cut >= 720)
    hold(early[SBG_A] <= len - c->cut, "a wait is no longer than what came");
  Walked image = begun(SBG_IMAGE), first = walked(&image, bytes, len, 0, 1);
  property = "line";
  if (first.answer[SBG_COUNT] == 0) hold(same(first.answer, view, SBG_ANSWER), "the first record as in the walk");
  if (view[SBG_TAG] == SBG_SHOWN) {
    uint64_t begin = 720 + (c->line - 1) * first.state[SBG_L], end = begin + first.state[SBG_L] - first.state[SBG_S];
    hold(c->line >= 1 && c->line <= first.state[SBG_N], "a shown line is 1 to n");
    uint64_t group = first.state[SBG_D] / first.state[SBG_W];
    hold(first.state[SBG_SORT] <= 1 && group == (first.state[SBG_SORT] ? 8 : 2), "a sort, and its bytes a group");
    hold(view[SBG_A] == end - first.state[SBG_D] + group * view[SBG_C], "the data pixels skip the left fill");
    hold(view[SBG_C] + view[SBG_B] <= first.state[SBG_W] && end <= len && view[SBG_A] + group * view[SBG_B] <= end, "inside the record");
  }
  check_shown(bytes, len, c, view, first.state[SBG_SORT]);
}

static void field_of(const uint8_t *bytes, size_t len, uint64_t number, uint64_t *told, int64_t *value) {
  property = "field";
  value[0] = value[1] = (int64_t)POISON;
  hold(sbg_field(bytes, len, number, value, SBG_VALUE, told, SBG_ANSWER) == 1, "no answer");
  shape(told, 1 << SBG_REFUSED | 1 << SBG_IS_VALUE | 1 << SBG_BLANK, NO(14) | NO(2) | NO(6));
  hold((told[SBG_A] == 14) == (number < 1 || number > 13), "14 exactly for no such field");
  hold(told[SBG_B] == 0 && (told[SBG_C] == 0 || (told[SBG_A] == 6 && told[SBG_C] < len)), "record 0, place in the bytes");
  if (told[SBG_TAG] == SBG_IS_VALUE) {
    hold(value[0] < 10000000000000000 && value[0] > -1000000000000000, "at most sixteen digits, fifteen behind a sign");
    hold(value[1] <= 99 && value[1] >= -99 && (value[1] == 0 || (number >= 5 && number <= 10)), "an exponent has two digits");
  } else {
    hold(value[0] == (int64_t)POISON && value[1] == (int64_t)POISON, "without a value the array stays");
  }
}

/* The listed fields: where each starts in its record, and a number that fills it. */
static const size_t FIRST[] = {476, 710, 742, 934, 1886, 1906, 1926, 1946, 1966, 1986, 60, 76, 92};
#define E20_13 "55.5555555555555E-55"
#define F16_7 "55555555.5555555"
#define I16 "5555555555555555"
static const char *const FULL[] = {"5555.555", F16_7, F16_7, F16_7, E20_13, E20_13, E20_13, E20_13, E20_13, E20_13, I16, I16, F16_7};
enum { FIELDS_END = 2006 };

/* What the field says once its bytes from `from` on are those of `text`. */
static void completed(const uint8_t *bytes, size_t len, uint64_t number, size_t from, const char *text, uint64_t *told) {
  uint8_t record[FIELDS_END];
  int64_t value[SBG_VALUE];
  size_t held = len < FIELDS_END ? len : FIELDS_END;
  memcpy(record, bytes, held);
  memcpy(record + FIRST[number - 1] + from, text + from, strlen(text) - from);
  field_of(record, held, number, told, value);
}

/* A 6 is at the bad byte (document 02, No. 5): what stands before it can be completed, as a number or by blanks, and
 * nothing that stands behind it mends it. */
static void check_bad_byte(const uint8_t *bytes, size_t len, uint64_t number, const uint64_t *told) {
  static const char blank[] = "                    ";
  const char *full = FULL[number - 1], *none = blank + sizeof blank - 1 - strlen(full);
  size_t bad = (size_t)told[SBG_C] - FIRST[number - 1];
  uint64_t one[SBG_ANSWER], other[SBG_ANSWER];
  hold(told[SBG_C] >= FIRST[number - 1] && bad < strlen(full), "the bad byte is in the field");
  completed(bytes, len, number, bad, full, one);
  completed(bytes, len, number, bad, none, other);
  hold(one[SBG_TAG] != SBG_REFUSED || other[SBG_TAG] != SBG_REFUSED, "what stands before the bad byte can be completed");
  completed(bytes, len, number, bad + 1, full, one);
  completed(bytes, len, number, bad + 1, none, other);
  hold(same(one, told, SBG_ANSWER) && same(other, told, SBG_ANSWER), "nothing behind the bad byte mends it");
}

/* A value is what C's own reading of the same text says: both are the double nearest to one decimal. C knows no blanks
 * behind a sign (document 02, No. 4), so that it gets the text without any. */
static void read_again(const uint8_t *bytes, uint64_t number, const int64_t *value) {
  static const int places[] = {3, 7, 7, 7, 13, 13, 13, 13, 13, 13, 0, 0, 7};
  char text[21] = {0}, said[40];
  size_t written = 0;
  for (size_t i = 0; i < strlen(FULL[number - 1]); i++)
    if (bytes[FIRST[number - 1] + i] != ' ') text[written++] = (char)bytes[FIRST[number - 1] + i];
  snprintf(said, sizeof said, "%llde%lld", (long long)value[0], (long long)value[1] - places[number - 1]);
  hold(strtod(text, NULL) == strtod(said, NULL), "the value is the text's");
}

static void check_field(const uint8_t *bytes, size_t len, const Choices *c) {
  uint64_t told[SBG_ANSWER], early[SBG_ANSWER];
  int64_t value[SBG_VALUE], early_value[SBG_VALUE];
  field_of(bytes, len, c->field, told, value);
  seen(6, told, c->field);
  if (told[SBG_TAG] == SBG_IS_VALUE) read_again(bytes, c->field, value);
  if (told[SBG_TAG] == SBG_REFUSED && told[SBG_A] == 6) check_bad_byte(bytes, len, c->field, told);
  field_of(lend(&part_arena, bytes, c->cut), c->cut, c->field, early, early_value);
  if (early[SBG_TAG] == SBG_REFUSED && early[SBG_A] == 2) return;
  hold(same(early, told, SBG_ANSWER) && !memcmp(value, early_value, sizeof value), "more bytes never alter a field");
}

static void set_of(const uint8_t *bytes, size_t len, const uint64_t *counts, size_t many, uint64_t *told) {
  property = "set";
  hold(sbg_set(bytes, len, counts, many, told, SBG_ANSWER) == 1, "no answer");
  shape(told, 1 << SBG_REFUSED | 1 << SBG_AGREES, SET_NOS);
}

/* The counts that agree are found by the places of the differences, then altered one by one. */
static void check_set(const uint8_t *bytes, size_t len, const Choices *c) {
  uint64_t told[SBG_ANSWER], counts[7] = {0};
  Walked fresh = begun(SBG_VOLUME), dir = walked(&fresh, bytes, len, 1, MANY);
  size_t many = dir.state[SBG_POINTERS];
  set_of(bytes, len, counts, many, told);
  if (dir.answer[SBG_TAG] != SBG_COMPLETE) {
    hold(same(told, dir.answer, SBG_COUNT), "the directory's own refusal first");
    return;
  }
  for (size_t p = 1; p <= many; p++) {
    hold(told[SBG_TAG] == SBG_REFUSED && told[SBG_A] == 12 && told[SBG_B] == 0 && told[SBG_C] == 360 * p + 100, "12 at the first that differs");
    char text[9] = {0};
    memcpy(text, bytes + 360 * p + 100, 8);
    counts[p - 1] = strtoull(text, NULL, 10);
    set_of(bytes, len, counts, many, told);
  }
  hold(told[SBG_TAG] == SBG_AGREES, "a set agrees with its own counts");
  set_of(bytes, len, counts, many + 1, told);
  hold(told[SBG_A] == 12 && told[SBG_C] == 160, "a list too long");
  set_of(bytes, len, counts, many - 1, told);
  hold(told[SBG_A] == 12 && told[SBG_C] == 160, "a list too short");
  size_t other = c->number % many;
  counts[other] += 1 + c->number / many;
  set_of(bytes, len, counts, many, told);
  hold(told[SBG_A] == 12 && told[SBG_C] == 360 * (other + 1) + 100, "12 where one differs");
}

/* Cards ----------------------------------------------------------------------------------------------------- */

enum { SCENE = 17, LINE = 13, LEADER = 10, SCENE_NUMBERS = 4, BUILT = 1 << 13, NUMBERS = 2 * MOST };

static void card_of(const uint8_t *card, size_t len, uint64_t *told) {
  property = "card";
  hold(sbg_card(card, len, told, SBG_ANSWER) == 1, "no answer");
  shape(told, 1 << SBG_REFUSED | 1 << SBG_CARD, CARD_NOS);
  hold(told[SBG_COUNT] == 0, "a card has no count");
  if (told[SBG_TAG] == SBG_REFUSED) {
    hold(told[SBG_C] <= len, "the place lies in the card, or at its end");
    hold(told[SBG_A] == 21 || told[SBG_C] < len, "20 and 22 have an entry");
    return;
  }
  hold(len == SCENE + LINE * told[SBG_A] + LEADER * told[SBG_B], "a card is its entries, and nothing else");
}

/* The numbers are those that stand at places which n alone fixes, and they agree. */
static void check_numbers(const uint8_t *card, const uint64_t *numbers, const uint64_t *told) {
  const uint64_t *fills = numbers + SCENE_NUMBERS, *places = fills + 2 * told[SBG_A];
  const uint8_t *leaders = card + SCENE + LINE * told[SBG_A];
  uint64_t start = 0;
  for (int i = 0; i < SCENE_NUMBERS; i++) hold(numbers[i] == four(card + 1 + 4 * i), "n, L, w, d");
  int counts = numbers[3] == 2 * numbers[2] && 192 + numbers[3] <= numbers[1];
  int of_complex = numbers[3] == 8 * numbers[2] && 412 + numbers[3] <= numbers[1];
  hold(numbers[0] == told[SBG_A] && (counts || of_complex), "they agree");
  for (uint64_t i = 0; i < told[SBG_A]; i++) {
    const uint8_t *entry = card + SCENE + LINE * i;
    hold(entry[0] == 2 && four(entry + 1) == i + 1, "the lines in order");
    hold(fills[2 * i] == four(entry + 5) && fills[2 * i + 1] == four(entry + 9), "left and data");
    hold(fills[2 * i] + fills[2 * i + 1] <= numbers[2], "at most w");
  }
  for (uint64_t i = 0; i < told[SBG_B]; i++, start += places[2 * i - 1]) {
    const uint8_t *entry = leaders + LEADER * i;
    hold(entry[0] == 3 && entry[1] == i + 1, "the leader's records in order");
    hold(places[2 * i] == start && start == four(entry + 2) && places[2 * i + 1] == four(entry + 6), "start and length");
  }
}

/* Into a list of that length: what the card's reading says, or 37; what is not used stays. */
static void check_card_numbers(const uint8_t *card, size_t len, size_t room, const uint64_t *told) {
  static uint64_t numbers[NUMBERS];
  uint64_t a[SBG_ANSWER], used = 0, due = SCENE_NUMBERS + 2 * told[SBG_A] + 2 * told[SBG_B];
  property = "card numbers";
  for (size_t i = 0; i < room + 1; i++) numbers[i] = POISON;
  hold(sbg_card_numbers(card, len, numbers, room, a, SBG_ANSWER) == 1, "no answer");
  shape(a, 1 << SBG_REFUSED | 1 << SBG_CARD, CARD_NOS | NO(37));
  if (told[SBG_TAG] == SBG_CARD && room < due) {
    hold(a[SBG_TAG] == SBG_REFUSED && a[SBG_A] == 37, "too short a list is 37");
  } else {
    hold(same(a, told, SBG_ANSWER), "the numbers say what the card says");
    if (told[SBG_TAG] == SBG_CARD) used = due, check_numbers(card, numbers, told);
  }
  for (size_t i = used; i < room + 1; i++) hold(numbers[i] == POISON, "later numbers stay");
}

/* A card that ends earlier: 21, or the same with fewer leader records; 20 and 22 are known once their entry is there. */
static void check_card_cut(const uint8_t *card, const uint64_t *told, size_t cut) {
  uint64_t early[SBG_ANSWER];
  card_of(lend(&part_arena, card, cut), cut, early);
  if (early[SBG_TAG] == SBG_CARD)
    hold(told[SBG_TAG] == SBG_REFUSED || (told[SBG_A] == early[SBG_A] && told[SBG_B] >= early[SBG_B]), "a card with more behind it");
  else if (early[SBG_A] != 21)
    hold(same(early, told, SBG_ANSWER), "more bytes never alter 20 or 22");
  else
    hold(told[SBG_TAG] == SBG_CARD || told[SBG_C] >= early[SBG_C], "the fault is not before the cut entry");
}

/* What lies before the fault is good, and ends with an entry. */
static void check_card_place(const uint8_t *card, const uint64_t *told) {
  uint64_t before[SBG_ANSWER];
  if (told[SBG_TAG] != SBG_REFUSED) return;
  card_of(lend(&part_arena, card, told[SBG_C]), told[SBG_C], before);
  hold(before[SBG_TAG] == SBG_CARD || (before[SBG_A] == 21 && before[SBG_C] == told[SBG_C]), "the place is an entry's start, the first that is wrong");
}

static void check_card(const uint8_t *card, size_t len, const Choices *c) {
  uint64_t told[SBG_ANSWER];
  card_of(card, len, told);
  seen(8, told, told[SBG_TAG] == SBG_REFUSED ? told[SBG_C] : told[SBG_A] * 50 + told[SBG_B]);
  check_card_cut(card, told, c->cut);
  check_card_place(card, told);
  size_t due = told[SBG_TAG] == SBG_CARD ? SCENE_NUMBERS + 2 * told[SBG_A] + 2 * told[SBG_B] : 0;
  check_card_numbers(card, len, due, told);
  check_card_numbers(card, len, due + c->number % 9, told);
  if (due) check_card_numbers(card, len, c->number % due, told);
}

/* A built card reads back as the walk had it. */
static void check_built(const uint8_t *image, size_t image_len, const uint8_t *card, const Walked *scene, const Walked *leader) {
  static uint64_t numbers[NUMBERS];
  uint64_t told[SBG_ANSWER], view[SBG_ANSWER];
  size_t len = SCENE + LINE * scene->state[SBG_N] + LEADER * leader->state[SBG_PASSED];
  card_of(card, len, told);
  hold(told[SBG_TAG] == SBG_CARD && told[SBG_A] == scene->state[SBG_N] && told[SBG_B] == leader->state[SBG_PASSED], "a built card is a card");
  hold(sbg_card_numbers(card, len, numbers, NUMBERS, told, SBG_ANSWER) == 1 && told[SBG_TAG] == SBG_CARD, "it has its numbers");
  property = "built";
  hold(same(numbers, scene->state + SBG_N, SCENE_NUMBERS), "n, L, w, d of the plan");
  const uint64_t *fills = numbers + SCENE_NUMBERS, *places = fills + 2 * told[SBG_A];
  for (uint64_t line = 1; line <= told[SBG_A]; line++, fills += 2) {
    sbg_line(image, image_len, line, view, SBG_ANSWER);
    hold(fills[0] == view[SBG_C] && fills[1] == view[SBG_B], "a line's left fill and data as the view shows them");
  }
  Walked at = *leader;
  for (uint64_t passed = 1; passed <= told[SBG_B]; passed++, places += 2) {
    at.state[SBG_PASSED] = passed;
    hold(places[0] + places[1] == sbg_start(at.state, SBG_STATE), "a leader record ends where the walk has the next");
  }
}

static void build(const uint8_t *image, size_t image_len, const uint8_t *leader, size_t leader_len, size_t room, const Walked *scene,
                  const Walked *beside) {
  static uint8_t card[BUILT];
  uint64_t told[SBG_ANSWER], size = SCENE + LINE * scene->state[SBG_N] + LEADER * beside->state[SBG_PASSED], used = 0;
  memset(card, 0xA5, sizeof card);
  property = "build";
  hold(sbg_card_build(image, image_len, leader, leader_len, card, room, told, SBG_ANSWER) == 1, "no answer");
  shape(told, 1 << SBG_REFUSED | 1 << SBG_BUILT, BUILD_NOS);
  hold(told[SBG_COUNT] == 0, "a built card has no count");
  seen(9, told, room >= size);
  if (scene->answer[SBG_TAG] != SBG_COMPLETE) {
    hold(same(told, scene->answer, SBG_COUNT), "the image's refusal first");
  } else if (beside->answer[SBG_TAG] != SBG_COMPLETE) {
    hold(same(told, beside->answer, SBG_COUNT), "then the leader's");
  } else if (room < size) {
    hold(told[SBG_TAG] == SBG_REFUSED && told[SBG_A] == 37, "then 37");
  } else {
    hold(told[SBG_TAG] == SBG_BUILT && told[SBG_A] == size, "built exactly where it fits");
    used = size;
    check_built(image, image_len, card, scene, beside);
  }
  for (size_t i = used; i < BUILT; i++) hold(card[i] == 0xA5, "the rest of the buffer stays");
}

/* The bytes up to the cut are an image, those behind it a leader. */
static void check_build(const uint8_t *bytes, size_t len, const Choices *c) {
  Walked image = begun(SBG_IMAGE), leader = begun(SBG_LEADER);
  const uint8_t *behind = len ? bytes + c->cut : NULL;
  Walked scene = walked(&image, bytes, c->cut, 1, MANY), beside = walked(&leader, behind, len - c->cut, 1, MANY);
  build(bytes, c->cut, behind, len - c->cut, BUILT, &scene, &beside);
  build(bytes, c->cut, behind, len - c->cut, c->number % 400, &scene, &beside);
  if (scene.answer[SBG_TAG] != SBG_COMPLETE || beside.answer[SBG_TAG] != SBG_COMPLETE) return;
  size_t size = SCENE + LINE * scene.state[SBG_N] + LEADER * beside.state[SBG_PASSED];
  build(bytes, c->cut, behind, len - c->cut, size, &scene, &beside);
  build(bytes, c->cut, behind, len - c->cut, size - 1, &scene, &beside);
}

/* The calls of cards with an answer of that length, in an array that is longer. */
static void check_card_arrays(const uint8_t *bytes, size_t len, size_t answer_len) {
  uint64_t answer[SBG_ANSWER + 8], poison[SBG_ANSWER + 8], numbers[SCENE_NUMBERS], told[3];
  uint8_t card[SCENE], before[SCENE];
  memset(poison, 0xA5, sizeof poison), memset(numbers, 0xA5, sizeof numbers), memset(card, 0xA5, sizeof card);
  memcpy(before, card, sizeof card);
  for (int call = 0; call < 3; call++) {
    memset(answer, 0xA5, sizeof answer);
    if (call == 0) told[0] = sbg_card(bytes, len, answer, answer_len);
    if (call == 1) told[1] = sbg_card_numbers(bytes, len, numbers, SCENE_NUMBERS, answer, answer_len);
    if (call == 2) told[2] = sbg_card_build(bytes, len, bytes, len, card, SCENE, answer, answer_len);
    hold(told[call] == (answer_len >= SBG_ANSWER), "0 exactly where the answer is too short");
    size_t said = told[call] ? SBG_ANSWER : 0;
    hold(same(answer + said, poison + said, SBG_ANSWER + 8 - said), "the rest stays");
  }
  hold(!memcmp(card, before, sizeof card) && same(numbers, poison, SCENE_NUMBERS), "what is too short stays");
}

/* The calls of samples with an answer of that length, in an array that is longer. */
static void check_sample_arrays(const uint8_t *bytes, size_t len, const Choices *c, size_t answer_len) {
  uint64_t answer[SBG_ANSWER + 8], poison[SBG_ANSWER + 8], told[3];
  uint32_t row[4] = {WORD, WORD, WORD, WORD};
  memset(poison, 0xA5, sizeof poison);
  for (int call = 0; call < 3; call++) {
    memset(answer, 0xA5, sizeof answer);
    if (call == 0) told[0] = sbg_sample(bytes, len, c->line, c->index, answer, answer_len);
    if (call == 1) told[1] = sbg_power(bytes, len, c->line, c->index, answer, answer_len);
    if (call == 2) told[2] = sbg_complex_row(bytes, len, c->line, row, answer_len < SBG_ANSWER ? 4 : 0, answer, answer_len);
    hold(told[call] == (answer_len >= SBG_ANSWER), "0 exactly where the answer is too short");
    size_t said = told[call] ? SBG_ANSWER : 0;
    hold(same(answer + said, poison + said, SBG_ANSWER + 8 - said), "the rest stays");
  }
  for (int i = 0; i < 4; i++) hold(row[i] == WORD, "a row stays where the answer is too short");
}

/* Arrays that are too short: 0, and nothing is written; past the used numbers nothing is written. */
static void check_arrays(const Walked *from, const uint8_t *bytes, size_t len, const Choices *c) {
  uint64_t state[SBG_STATE + 8], answer[SBG_ANSWER + 8], before[SBG_STATE + 8], poison[SBG_ANSWER + 8];
  int64_t value[SBG_VALUE + 2];
  size_t state_len = c->index % 50, answer_len = c->field % 13, value_len = c->line % 5;
  memset(state, 0xA5, sizeof state), memset(answer, 0xA5, sizeof answer), memset(poison, 0xA5, sizeof poison), memset(value, 0xA5, sizeof value);
  memcpy(state, from->state, sizeof from->state);
  memcpy(before, state, sizeof state);
  uint64_t told = sbg_walk(state, state_len, bytes, len, c->closed, c->budget, answer, answer_len);
  property = "arrays";
  hold(told == (state_len >= SBG_STATE && answer_len >= SBG_ANSWER), "0 exactly where an array is too short");
  size_t used = told ? SBG_STATE : 0, said = told ? SBG_ANSWER : 0;
  hold(same(state + used, before + used, SBG_STATE + 8 - used) && same(answer + said, poison + said, SBG_ANSWER + 8 - said), "the rest stays");
  if (state_len < SBG_STATE) hold(sbg_start(state, state_len) == 0, "a short state has no start");
  memset(answer, 0xA5, sizeof answer);
  told = sbg_field(bytes, len, c->field, value, value_len, answer, answer_len);
  hold(told == (value_len >= SBG_VALUE && answer_len >= SBG_ANSWER), "0 exactly where an array is too short");
  used = told ? SBG_VALUE : 0, said = told ? SBG_ANSWER : 0;
  for (size_t i = used; i < SBG_VALUE + 2; i++) hold(value[i] == (int64_t)POISON, "the rest stays");
  hold(same(answer + said, poison + said, SBG_ANSWER + 8 - said), "the rest stays");
  check_card_arrays(bytes, len, answer_len);
  check_sample_arrays(bytes, len, c, answer_len);
}

/* A state deep in a huge image: its start is past 32 bits. */
static void check_far(const Walked *from, const uint8_t *bytes, size_t len, const Choices *c) {
  Walked deep = *from;
  if (deep.state[SBG_KIND] != SBG_IMAGE || deep.state[SBG_PASSED] == 0) return;
  deep.state[SBG_N] = deep.state[SBG_L] = 999999;
  deep.state[SBG_PASSED] = 1 + c->number % 1000000;
  property = "far";
  hold(sbg_start(deep.state, SBG_STATE) == 720 + (deep.state[SBG_PASSED] - 1) * 999999, "the start of a far line");
  check_closed(&deep, bytes, len, c);
}

/* One number of a state altered: refused with 11, or a state like any other. */
static void check_state(const Walked *from, const uint8_t *bytes, size_t len, const Choices *c) {
  Walked other = *from;
  other.state[c->index % SBG_STATE] = c->number;
  Walked to = walked(&other, bytes, len, c->closed, c->budget);
  seen(7, to.answer, c->index);
  if (is_refused(&to) && to.answer[SBG_A] == 11) return;
  check_closed(&other, bytes, len, c);
  check_pieces(&other, bytes, len, c);
}

/* ------------------------------------------------------------------------------------------------------------ */

static Choices choices_of(const uint8_t *front, size_t len) {
  Choices c = {.kind = front[0] % 6, .closed = front[1] & 1, .budget = front[2] < 16 ? front[2] : MANY, .line = front[3], .field = front[4] % 16};
  if (front[0] >= 240) c.kind |= (uint64_t)1 << 32;
  if (front[2] == 16) c.budget = (uint64_t)1 << 32;
  c.cut = len ? (front[5] * 256u + front[6]) % (len + 1) : 0;
  c.index = front[7];
  memcpy(&c.number, front + 8, 8);
  if (front[1] & 2) c.number %= 1000003;
  return c;
}

/* All that is asked behind the first records of a file, with what is left of the bytes. */
static void check_rest(const Walked *fresh, const uint8_t *bytes, size_t len, Choices c) {
  Walked some = walked(fresh, bytes, len, 0, c.budget);
  uint64_t start = sbg_start(some.state, SBG_STATE);
  const uint8_t *rest = bytes ? bytes + start : bytes;
  size_t left = len - start;
  c.cut = c.cut > start ? c.cut - start : 0;
  check_arrays(&some, rest, left, &c);
  check_state(&some, rest, left, &c);
  check_far(&some, rest, left, &c);
  for (c.field = 0; c.field < 15; c.field++) check_field(rest, left, &c);
}

int LLVMFuzzerTestOneInput(const uint8_t *data, size_t size);

int LLVMFuzzerTestOneInput(const uint8_t *data, size_t size) {
  if (size < FRONT || size > MOST) return 0;
  size_t len = size - FRONT;
  Choices c = choices_of(data, len);
  const uint8_t *bytes = lend(&whole_arena, data + FRONT, len);
  Walked fresh = begun(c.kind), whole = walked(&fresh, bytes, len, c.closed, MANY);
  uint64_t begin = sbg_start(whole.state, SBG_STATE);
  seen((unsigned)c.kind, whole.answer, is_refused(&whole) && whole.answer[SBG_C] >= begin ? whole.answer[SBG_C] - begin : 0);
  check_pieces(&fresh, bytes, len, &c);
  check_closed(&fresh, bytes, len, &c);
  check_wait(&fresh, bytes, len);
  check_line(bytes, len, &c);
  check_set(bytes, len, &c);
  check_card(bytes, len, &c);
  check_build(bytes, len, &c);
  check_arrays(&fresh, bytes, len, &c);
  check_rest(&fresh, bytes, len, c);
  hold(len == 0 || (!memcmp(bytes, data + FRONT, len) && !harmed_ahead(bytes)), "bytes were written");
  return 0;
}

#ifdef ALONE
/* Without libFuzzer: seeds altered by drawn numbers. fuzz SECONDS SEED FILE.. */
static uint64_t drawn;

static uint64_t draw(uint64_t below) {
  drawn = drawn * 6364136223846793005u + 1442695040888963407u;
  return (drawn >> 33) % below;
}

static void alter(uint8_t *data, size_t *size) {
  static const uint8_t texts[] = " 0129+-.E";
  for (uint64_t many = draw(6); many > 0; many--) data[draw(2) ? draw(*size) : draw(FRONT)] = draw(2) ? (uint8_t)draw(256) : texts[draw(9)];
  if (draw(4) == 0) *size = FRONT + draw(*size - FRONT + 1);
}

static size_t load(const char *path, uint8_t *data) {
  FILE *file = fopen(path, "rb");
  if (!file) perror(path), exit(2);
  size_t size = fread(data, 1, MOST, file);
  fclose(file);
  return size;
}

int main(int argc, char **argv) {
  static uint8_t seed[MOST], data[MOST];
  if (argc < 4) return fputs("fuzz SECONDS SEED FILE..\n", stderr), 2;
  time_t end = time(NULL) + atol(argv[1]);
  unsigned long runs = 0;
  for (drawn = strtoull(argv[2], NULL, 10); time(NULL) < end;) {
    size_t whole = load(argv[3 + draw((uint64_t)argc - 3)], seed);
    for (int turn = 0; whole > FRONT && turn < 50; turn++, runs++) {
      size_t size = whole;
      memcpy(data, seed, size);
      alter(data, &size);
      LLVMFuzzerTestOneInput(data, size);
    }
  }
  printf("Done %lu runs of drawn bytes\n", runs);
  return 0;
}
#endif
