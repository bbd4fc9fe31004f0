/* The same jobs as the library's, as a C programmer writes them by hand from docs/RULES.md: every check,
 * every refusal, no tricks. It is in a file of its own, so that nothing is inlined into the timing. */
#include "plain.h"

#include <endian.h>
#include <string.h>

#define FIRST 720 /* bytes of an image's first record */
#define FRONT 12  /* bytes that open a record */

/* ---- written numbers ---- */

enum written { BAD, BLANK, NUMBER };

/* Iw, Fw.d or Ew.d */
struct form {
  char sort;
  unsigned width, places;
};

static const struct form I4 = {'I', 4, 0}, I6 = {'I', 6, 0}, I8 = {'I', 8, 0};

static inline int is_digit(uint8_t c) { return c >= '0' && c <= '9'; }

/* A point, exactly so many digits behind those of n, and for E the letter, a sign and two digits. */
static int fraction(const uint8_t *f, const uint8_t *end, struct form form, uint64_t *n, int64_t *e) {
  unsigned tail = form.sort == 'E' ? 4 : 0;
  if ((size_t)(end - f) != 1 + form.places + tail || *f++ != '.') return 0;
  for (unsigned i = 0; i < form.places; i++, f++) {
    if (!is_digit(*f)) return 0;
    *n = *n * 10 + (*f - '0');
  }
  if (tail == 0) return 1;
  if (f[0] != 'E' || (f[1] != '+' && f[1] != '-') || !is_digit(f[2]) || !is_digit(f[3])) return 0;
  *e = (f[2] - '0') * 10 + (f[3] - '0');
  if (f[1] == '-') *e = -*e;
  return 1;
}

/* What a field says. No form has room for more than 16 digits that count, so nothing wraps. */
static enum written read_number(const uint8_t *f, struct form form, int64_t *m, int64_t *e) {
  const uint8_t *end = f + form.width;
  while (f < end && *f == ' ') f++;
  if (f == end) return BLANK;
  int minus = *f == '-', sign = minus || *f == '+';
  if (sign) f++;
  if (sign && form.sort != 'I')
    while (f < end && *f == ' ') f++;
  const uint8_t *digits = f;
  uint64_t n = 0;
  while (f < end && is_digit(*f)) n = n * 10 + (*f++ - '0');
  *e = 0;
  if (form.sort == 'I') {
    if (f == digits || f != end) return BAD;
  } else if (!fraction(f, end, form, &n, e)) {
    return BAD;
  }
  *m = minus ? -(int64_t)n : (int64_t)n;
  return NUMBER;
}

static inline int is_sign(uint8_t c) { return c == '-' || c == '+'; }

/* Of a whole number: the byte that is no digit; a sign that ends the field is bad itself. */
static unsigned bad_in_whole(const uint8_t *f, unsigned at, unsigned width) {
  if (is_sign(f[at]) && at + 1 < width) at++;
  while (at + 1 < width && is_digit(f[at])) at++;
  return at;
}

/* Of an exponent, which stands at that place. */
static unsigned bad_in_exponent(const uint8_t *f, unsigned at) {
  if (f[at] != 'E') return at;
  if (!is_sign(f[at + 1])) return at + 1;
  return is_digit(f[at + 2]) ? at + 3 : at + 2;
}

/* Of a field that is badly written, or blank where a number is needed: the first byte that no well-written field with
 * the same earlier bytes could have there; of a blank one the last. Good fields never come here. */
static unsigned bad_place(const uint8_t *f, struct form form) {
  unsigned at = 0, point = form.width - 1 - form.places - (form.sort == 'E' ? 4 : 0);
  while (at < form.width && f[at] == ' ') at++;
  if (at == form.width) return at - 1;
  if (form.sort == 'I') return bad_in_whole(f, at, form.width);
  if (at < point && is_sign(f[at]))
    for (at++; at < point && f[at] == ' ';) at++;
  while (at < point && is_digit(f[at])) at++;
  if (at != point || f[at] != '.') return at;
  for (at++; at <= point + form.places; at++)
    if (!is_digit(f[at])) return at;
  return bad_in_exponent(f, at);
}

/* ---- answers ---- */

static inline uint64_t tell(uint64_t *answer, uint64_t tag, uint64_t a, uint64_t b, uint64_t c,
                            uint64_t count) {
  answer[SBG_TAG] = tag;
  answer[SBG_A] = a;
  answer[SBG_B] = b;
  answer[SBG_C] = c;
  answer[SBG_COUNT] = count;
  return 1;
}

static uint64_t refuse(uint64_t *answer, uint64_t number) {
  return tell(answer, SBG_REFUSED, number, 0, 0, 0);
}

/* ---- the thirteen listed fields ---- */

#define F8_3 {'F', 8, 3}
#define F16_7 {'F', 16, 7}
#define E20_13 {'E', 20, 13}
#define I16 {'I', 16, 0}

static const struct {
  unsigned byte;
  struct form form;
} LISTED[13] = {{477, F8_3},    {711, F16_7},   {743, F16_7},   {935, F16_7},  {1887, E20_13},
                {1907, E20_13}, {1927, E20_13}, {1947, E20_13}, {1967, E20_13}, {1987, E20_13},
                {61, I16},      {77, I16},      {93, F16_7}};

static uint64_t plain_field(const uint8_t *bytes, size_t len, uint64_t number, int64_t *value,
                     size_t value_len, uint64_t *answer, size_t answer_len) {
  if (value_len < SBG_VALUE || answer_len < SBG_ANSWER) return 0;
  if (number < 1 || number > 13) return refuse(answer, 14);
  size_t at = LISTED[number - 1].byte - 1;
  struct form form = LISTED[number - 1].form;
  if (len < at + form.width) return refuse(answer, 2);
  int64_t m, e;
  switch (read_number(bytes + at, form, &m, &e)) {
  case NUMBER:
    value[0] = m;
    value[1] = e;
    return tell(answer, SBG_IS_VALUE, 0, 0, 0, 0);
  case BLANK:
    return tell(answer, SBG_BLANK, 0, 0, 0, 0);
  default:
    return tell(answer, SBG_REFUSED, 6, 0, at + bad_place(bytes + at, form), 0);
  }
}

/* ---- records of an image ---- */

struct plan {
  uint64_t n, l, w, d, s, sort;
};

/* The sorts of samples: the text at 429, bytes a group, bytes ahead of the pixels, a line's codes. */
static const struct {
  char text[5];
  uint64_t group, ahead;
  uint32_t codes;
} SORT[2] = {{"IU2 ", 2, 192, 0x320b1214}, {"C*8 ", 8, 412, 0x320a1214}};

/* What is wrong with a record and where in it; number 0 where nothing is. */
struct fault {
  uint64_t number, place;
};

static const struct fault FINE = {0, 0};

static inline struct fault fault(uint64_t number, uint64_t place) {
  struct fault f = {number, place};
  return f;
}

static inline uint32_t four(const uint8_t *b) {
  return (uint32_t)b[0] << 24 | (uint32_t)b[1] << 16 | (uint32_t)b[2] << 8 | b[3];
}

/* Sequence number, codes, length. Record k is counted from 0. */
static inline struct fault header(const uint8_t *b, uint64_t k, uint32_t codes, uint64_t length) {
  if (four(b) != k + 1) return fault(3, 0);
  if (four(b + 4) != codes) return fault(4, 4);
  if (four(b + 8) != length) return fault(5, 8);
  return FINE;
}

/* A number field (its byte counted from 1) that must be a number in a range. */
static struct fault needed(const uint8_t *r, unsigned byte, struct form form, uint64_t least,
                           uint64_t most, uint64_t *number) {
  int64_t m, e;
  if (read_number(r + byte - 1, form, &m, &e) != NUMBER) return fault(6, byte - 1 + bad_place(r + byte - 1, form));
  if (m < 0 || (uint64_t)m < least || (uint64_t)m > most) return fault(7, byte - 1);
  *number = (uint64_t)m;
  return FINE;
}

/* The first record's body; the plan is written only where nothing is wrong. */
static struct fault descriptor(const uint8_t *r, struct plan *plan) {
  struct plan p;
  uint64_t group, channels, lines;
  struct fault f;
  if (memcmp(r + 12, "A ", 2) != 0) return fault(8, 12);
  p.sort = memcmp(r + 428, SORT[SBG_SORT_COMPLEX].text, 4) == 0 ? SBG_SORT_COMPLEX : SBG_SORT_COUNTS;
  if (memcmp(r + 428, SORT[p.sort].text, 4) != 0) return fault(8, 428);
  uint64_t due = SORT[p.sort].group;
  if ((f = needed(r, 181, I6, 1, 999999, &p.n)).number) return f;
  if ((f = needed(r, 187, I6, 1, 999999, &p.l)).number) return f;
  if ((f = needed(r, 225, I4, due, due, &group)).number) return f;
  if ((f = needed(r, 233, I4, 1, 1, &channels)).number) return f;
  if ((f = needed(r, 237, I8, 1, 99999999, &lines)).number) return f;
  if ((f = needed(r, 249, I8, 1, 99999999, &p.w)).number) return f;
  if ((f = needed(r, 281, I8, 1, 99999999, &p.d)).number) return f;
  if ((f = needed(r, 289, I4, 0, 9999, &p.s)).number) return f;
  if (p.n != lines || p.d != due * p.w || SORT[p.sort].ahead + p.d + p.s > p.l) return fault(8, 0);
  *plan = p;
  return FINE;
}

/* Line k's body: line number, index 1, and fills whose sum is w. */
static inline struct fault line_body(const uint8_t *r, uint64_t k, uint64_t w) {
  if (four(r + 12) != k) return fault(10, 12);
  if (four(r + 16) != 1) return fault(10, 16);
  if ((uint64_t)four(r + 20) + four(r + 24) + four(r + 28) != w) return fault(10, 20);
  return FINE;
}

/* ---- the walk ---- */

/* Too few bytes have come. */
static void short_of(uint64_t *answer, uint64_t missing, int closed, uint64_t k, uint64_t start) {
  if (closed) tell(answer, SBG_REFUSED, 2, k + 1, start, 0);
  else tell(answer, SBG_WAIT, missing, 0, 0, 0);
}

/* Steps 4 to 6 of a turn for record k, and what its header says: 1 if it is whole and the header right,
 * else 0 with the answer told. */
static inline int opened(const uint8_t *b, size_t len, uint64_t k, uint64_t start, uint32_t codes,
                         uint64_t length, int closed, uint64_t *answer) {
  if (len < FRONT) {
    short_of(answer, FRONT - len, closed, k, start);
    return 0;
  }
  struct fault f = header(b, k, codes, length);
  if (f.number != 0) {
    tell(answer, SBG_REFUSED, f.number, k + 1, start + f.place, 0);
    return 0;
  }
  if (len < length) {
    short_of(answer, length - len, closed, k, start);
    return 0;
  }
  return 1;
}

/* The first record's turn: 1 if it passed, with the plan written, else 0 with the answer told. */
static int first_turn(struct plan *p, const uint8_t *b, size_t len, int closed, uint64_t *answer) {
  if (!opened(b, len, 0, 0, 0x32c01212, FIRST, closed, answer)) return 0;
  struct fault f = descriptor(b, p);
  if (f.number == 0) return 1;
  tell(answer, SBG_REFUSED, f.number, 1, f.place, 0);
  return 0;
}

static inline uint64_t line_start(const struct plan *p, uint64_t k) { return FIRST + (k - 1) * p->l; }

/* The turn of line k, or of the end behind the last line; b is the bytes from there on. */
static inline int line_turn(const struct plan *p, uint64_t k, const uint8_t *b, size_t len,
                            int closed, uint64_t *answer) {
  uint64_t start = line_start(p, k);
  if (k > p->n) {
    if (len > 0) tell(answer, SBG_REFUSED, 9, k + 1, start, 0);
    else tell(answer, closed ? SBG_COMPLETE : SBG_WAIT, 0, 0, 0, 0);
    return 0;
  }
  if (!opened(b, len, k, start, SORT[p->sort].codes, p->l, closed, answer)) return 0;
  struct fault f = line_body(b, k, p->w);
  if (f.number == 0) return 1;
  tell(answer, SBG_REFUSED, f.number, k + 1, start + f.place, 0);
  return 0;
}

static int in_range(uint64_t lo, uint64_t x, uint64_t hi) { return lo <= x && x <= hi; }

static int good_plan(const struct plan *p) {
  return p->sort < 2 && in_range(1, p->n, 999999) && in_range(1, p->l, 999999) &&
         in_range(1, p->w, 99999999) && in_range(1, p->d, 99999999) && p->s <= 9999 &&
         p->d == SORT[p->sort].group * p->w && SORT[p->sort].ahead + p->d + p->s <= p->l;
}

/* The state rule, for an image. */
static int good_state(const uint64_t *state, const struct plan *p) {
  if (state[SBG_KIND] != SBG_IMAGE) return 0;
  for (int i = SBG_POINTERS; i < SBG_N; i++)
    if (state[i] != 0) return 0;
  if (state[SBG_PASSED] == 0) return (p->n | p->l | p->w | p->d | p->s | p->sort) == 0;
  return good_plan(p) && state[SBG_PASSED] <= p->n + 1;
}

static uint64_t plain_begin(uint64_t kind, uint64_t *state, size_t state_len, uint64_t *answer,
                     size_t answer_len) {
  if (state_len < SBG_STATE || answer_len < SBG_ANSWER) return 0;
  memset(state, 0, SBG_STATE * sizeof *state);
  if (kind < SBG_VOLUME || kind > SBG_TRAILER) return refuse(answer, 1);
  state[SBG_KIND] = kind;
  return tell(answer, SBG_BEGUN, 0, 0, 0, 0);
}

static uint64_t plain_walk(uint64_t *state, size_t state_len, const uint8_t *bytes, size_t len,
                    uint64_t closed, uint64_t budget, uint64_t *answer, size_t answer_len) {
  if (state_len < SBG_STATE || answer_len < SBG_ANSWER) return 0;
  struct plan p = {state[SBG_N], state[SBG_L], state[SBG_W], state[SBG_D], state[SBG_S], state[SBG_SORT]};
  if (!good_state(state, &p)) return refuse(answer, 11);
  uint64_t k = state[SBG_PASSED], count = 0;
  const uint8_t *end = bytes + len;
  tell(answer, SBG_PAUSE, 0, 0, 0, 0);
  if (k == 0 && budget > 0 && first_turn(&p, bytes, len, closed != 0, answer)) {
    bytes += FIRST;
    k = count = 1;
  }
  if (k > 0) {
    for (; count < budget; k++, count++, bytes += p.l)
      if (!line_turn(&p, k, bytes, (size_t)(end - bytes), closed != 0, answer)) break;
  }
  answer[SBG_COUNT] = count;
  state[SBG_PASSED] = k;
  state[SBG_N] = p.n;
  state[SBG_L] = p.l;
  state[SBG_W] = p.w;
  state[SBG_D] = p.d;
  state[SBG_S] = p.s;
  state[SBG_SORT] = p.sort;
  return 1;
}

/* ---- lines and rows ---- */

/* The line view: tells shown, a wait or a refusal. It returns the sort where the line is shown, else any number. */
static uint64_t find(const uint8_t *bytes, size_t len, uint64_t line, uint64_t *answer) {
  struct plan p = {0, 0, 0, 0, 0, 0};
  if (!first_turn(&p, bytes, len, 0, answer)) return 0;
  if (line < 1 || line > p.n) return refuse(answer, 13);
  uint64_t start = line_start(&p, line);
  if (len < start + p.l) return tell(answer, SBG_WAIT, start + p.l - len, 0, 0, 0);
  const uint8_t *r = bytes + start;
  struct fault f = header(r, line, SORT[p.sort].codes, p.l);
  if (f.number == 0) f = line_body(r, line, p.w);
  if (f.number != 0) return tell(answer, SBG_REFUSED, f.number, line + 1, start + f.place, 0);
  uint64_t left = four(r + 20), data = four(r + 24);
  tell(answer, SBG_SHOWN, start + p.l - p.s - p.d + SORT[p.sort].group * left, data, left, 0);
  return p.sort;
}

static uint64_t plain_line(const uint8_t *bytes, size_t len, uint64_t line, uint64_t *answer,
                    size_t answer_len) {
  if (answer_len < SBG_ANSWER) return 0;
  find(bytes, len, line, answer);
  return 1;
}

/* Two bytes a sample, high byte first. */
static void copy(const uint8_t *restrict px, size_t count, uint16_t *restrict row) {
  for (size_t j = 0; j < count; j++) row[j] = (uint16_t)(px[2 * j] << 8 | px[2 * j + 1]);
}

static uint64_t plain_row(const uint8_t *bytes, size_t len, uint64_t line, uint16_t *row, size_t row_len,
                   uint64_t *answer, size_t answer_len) {
  if (answer_len < SBG_ANSWER) return 0;
  uint64_t sort = find(bytes, len, line, answer);
  if (answer[SBG_TAG] != SBG_SHOWN) return 1;
  uint64_t start = answer[SBG_A], count = answer[SBG_B];
  if (sort != SBG_SORT_COUNTS) return refuse(answer, 23);
  if (row_len < count) return refuse(answer, 15);
  copy(bytes + start, count, row);
  return tell(answer, SBG_COPIED, count, 0, 0, 0);
}

/* Four bytes a part, high byte first. Of the usual ways to write it the one that becomes the fastest code: by
 * shifts, as in four, no compiler here makes vectors of it. */
static void copy_parts(const uint8_t *restrict px, size_t count, uint32_t *restrict row) {
  for (size_t j = 0; j < count; j++) {
    uint32_t part;
    memcpy(&part, px + 4 * j, sizeof part);
    row[j] = be32toh(part);
  }
}

static uint64_t plain_complex_row(const uint8_t *bytes, size_t len, uint64_t line, uint32_t *row,
                                  size_t row_len, uint64_t *answer, size_t answer_len) {
  if (answer_len < SBG_ANSWER) return 0;
  uint64_t sort = find(bytes, len, line, answer);
  if (answer[SBG_TAG] != SBG_SHOWN) return 1;
  uint64_t start = answer[SBG_A], count = answer[SBG_B];
  if (sort != SBG_SORT_COMPLEX) return refuse(answer, 23);
  if (row_len < 2 * count) return refuse(answer, 15);
  copy_parts(bytes + start, 2 * count, row);
  return tell(answer, SBG_COPIED, count, 0, 0, 0);
}

const struct reader PLAIN = {plain_begin, plain_walk, plain_field, plain_line, plain_row, plain_complex_row};
