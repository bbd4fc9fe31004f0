/* Two builds of the library, timed in one run: against OLD.so NEW.so. Jobs that the fixed cost of a call and of
 * a first record decide: a line view, a leader of 50 records, one record a call and in one call, and each kind's
 * first record; then the listed fields of a leader in which they are written. Prints the nanoseconds of each and
 * old / new. Both are first seen to give the same answers. */
#define _GNU_SOURCE
#include "seobangyu.h"

#include <dlfcn.h>
#include <stdio.h>
#include <stdlib.h>
#include <string.h>
#include <time.h>

struct library {
  uint64_t (*begin)(uint64_t, uint64_t *, size_t, uint64_t *, size_t);
  uint64_t (*walk)(uint64_t *, size_t, const uint8_t *, size_t, uint64_t, uint64_t, uint64_t *, size_t);
  uint64_t (*start)(const uint64_t *, size_t);
  uint64_t (*line)(const uint8_t *, size_t, uint64_t, uint64_t *, size_t);
  uint64_t (*field)(const uint8_t *, size_t, uint64_t, int64_t *, size_t, uint64_t *, size_t);
};

static void *name_in(void *library, const char *name) {
  void *found = dlsym(library, name);
  if (found == NULL) { fprintf(stderr, "against: %s\n", dlerror()); exit(2); }
  return found;
}

static struct library opened(const char *path) {
  void *library = dlopen(path, RTLD_NOW | RTLD_LOCAL);
  if (library == NULL) { fprintf(stderr, "against: %s\n", dlerror()); exit(2); }
  struct library x;
  *(void **)&x.begin = name_in(library, "sbg_begin");
  *(void **)&x.walk = name_in(library, "sbg_walk");
  *(void **)&x.start = name_in(library, "sbg_start");
  *(void **)&x.line = name_in(library, "sbg_line");
  *(void **)&x.field = name_in(library, "sbg_field");
  return x;
}

/* ---- files ---- */

static void four(uint8_t *at, uint64_t n) {
  for (int i = 0; i < 4; i++) at[i] = (uint8_t)(n >> (24 - 8 * i));
}

static void header(uint8_t *at, uint64_t number, const uint8_t codes[4], uint64_t length) {
  memset(at, ' ', length);
  four(at, number);
  memcpy(at + 4, codes, 4);
  four(at + 8, length);
}

/* A number at the right end of a field, whose first byte counts from 1. */
static void field(uint8_t *record, int byte, int width, uint64_t n) {
  char text[32];
  snprintf(text, sizeof text, "%*llu", width, (unsigned long long)n);
  memcpy(record + byte - 1, text, (size_t)width);
}

struct file { uint8_t *bytes; size_t len; };

/* A leader of all that is admitted: 1 + 1 + 1 + 36 + 11 records. */
static struct file leader(void) {
  static const int SLOTS[6] = {1, 2, 3, 4, 5, 7};
  struct file x = {malloc(1 << 20), 720};
  uint8_t *first = x.bytes;
  header(first, 1, (const uint8_t[4]){11, 192, 18, 18}, 720);
  memcpy(first + 12, "A ", 2);
  for (int slot = 1; slot <= 15; slot++) field(first, 169 + 12 * slot, 6, 0);
  uint64_t ordinal = 2;
  for (int i = 0; i < 6; i++) {
    uint64_t count = i < 2 ? 1 : 9, length = i == 0 ? 4096 : i == 1 ? 1620 : 500;
    field(first, 169 + 12 * SLOTS[i], 6, count);
    field(first, 175 + 12 * SLOTS[i], 6, length);
    for (; count > 0; count--, x.len += length)
      header(x.bytes + x.len, ordinal++, (const uint8_t[4]){18, (uint8_t)(10 * (i == 5 ? 6 : SLOTS[i])), 18, 20}, length);
  }
  for (int i = 0; i < 11; i++, x.len += 300) {
    field(first, 421 + 14 * i, 6, 1);
    field(first, 427 + 14 * i, 8, 300);
    header(x.bytes + x.len, ordinal++, (const uint8_t[4]){18, 200, 18, 7}, 300);
  }
  return x;
}

/* A leader of three records, in which the listed fields are written: its summary is at byte 720. */
static struct file written(void) {
  static const struct { int byte; const char *text; } SUMMARY[10] = {
      {477, "  34.300"}, {711, "       0.2360571"}, {743, "       2.0000000"}, {935, "   16000.0000000"},
      {1887, "-8.3000000000000E+01"}, {1907, " 1.2345678901234E-05"}, {1927, " 0.0000000000000E+00"},
      {1947, "-7.7120000000001E-12"}, {1967, " 9.9999999999999E+02"}, {1987, " 3.1415926535898E+00"}};
  struct file x = {malloc(6436), 6436};
  uint8_t *first = x.bytes, *summary = first + 720, *map = summary + 4096;
  header(first, 1, (const uint8_t[4]){11, 192, 18, 18}, 720);
  memcpy(first + 12, "A ", 2);
  field(first, 181, 6, 1); field(first, 187, 6, 4096); field(first, 193, 6, 1); field(first, 199, 6, 1620);
  header(summary, 2, (const uint8_t[4]){18, 10, 18, 20}, 4096);
  for (int i = 0; i < 10; i++) memcpy(summary + SUMMARY[i].byte - 1, SUMMARY[i].text, strlen(SUMMARY[i].text));
  header(map, 3, (const uint8_t[4]){18, 20, 18, 20}, 1620);
  field(map, 61, 16, 6000); field(map, 77, 16, 3000);
  memcpy(map + 92, "      12.5000000", 16);
  return x;
}

static struct file image(uint64_t n, uint64_t w) {
  uint64_t l = 192 + 2 * w;
  struct file x = {malloc(720 + n * l), 720 + n * l};
  uint8_t *first = x.bytes;
  header(first, 1, (const uint8_t[4]){50, 192, 18, 18}, 720);
  memcpy(first + 12, "A ", 2);
  memcpy(first + 428, "IU2 ", 4);
  field(first, 181, 6, n); field(first, 187, 6, l); field(first, 225, 4, 2); field(first, 233, 4, 1);
  field(first, 237, 8, n); field(first, 249, 8, w); field(first, 281, 8, 2 * w); field(first, 289, 4, 0);
  for (uint64_t k = 1; k <= n; k++) {
    uint8_t *line = x.bytes + 720 + (k - 1) * l;
    header(line, k + 1, (const uint8_t[4]){50, 11, 18, 20}, l);
    four(line + 12, k); four(line + 16, 1); four(line + 20, 0); four(line + 24, w); four(line + 28, 0);
  }
  return x;
}

/* ---- jobs ---- */

static struct file LEADER, WRITTEN, IMAGE;
static volatile uint64_t sink;

static void by_budget(const struct library *x, const struct file *f, uint64_t kind, uint64_t budget, uint64_t *state, uint64_t *answer) {
  x->begin(kind, state, SBG_STATE, answer, SBG_ANSWER);
  do {
    uint64_t at = x->start(state, SBG_STATE);
    x->walk(state, SBG_STATE, f->bytes + at, f->len - at, 1, budget, answer, SBG_ANSWER);
  } while (answer[SBG_TAG] == SBG_PAUSE);
}

static void one_a_call(const struct library *x, long times) {
  uint64_t state[SBG_STATE], answer[SBG_ANSWER];
  for (; times > 0; times--) { by_budget(x, &LEADER, SBG_LEADER, 1, state, answer); sink += state[SBG_PASSED]; }
}

static void all_in_one(const struct library *x, long times) {
  uint64_t state[SBG_STATE], answer[SBG_ANSWER];
  for (; times > 0; times--) { by_budget(x, &LEADER, SBG_LEADER, 100, state, answer); sink += state[SBG_PASSED]; }
}

static void line_one(const struct library *x, long times) {
  uint64_t answer[SBG_ANSWER];
  for (; times > 0; times--) { x->line(IMAGE.bytes, IMAGE.len, 1, answer, SBG_ANSWER); sink += answer[SBG_A]; }
}

static void line_any(const struct library *x, long times) {
  uint64_t answer[SBG_ANSWER], k = 7;
  for (; times > 0; times--) { k = (k * 1103515245 + 12345) % 300; x->line(IMAGE.bytes, IMAGE.len, k + 1, answer, SBG_ANSWER); sink += answer[SBG_A]; }
}

/* The first record of a file, from a fresh state. */
static void first_of(const struct library *x, const struct file *f, uint64_t kind, long times) {
  uint64_t state[SBG_STATE], answer[SBG_ANSWER];
  for (; times > 0; times--) {
    x->begin(kind, state, SBG_STATE, answer, SBG_ANSWER);
    x->walk(state, SBG_STATE, f->bytes, f->len, 0, 1, answer, SBG_ANSWER);
    sink += state[SBG_PASSED];
  }
}

static void image_first(const struct library *x, long times) { first_of(x, &IMAGE, SBG_IMAGE, times); }

static void leader_first(const struct library *x, long times) { first_of(x, &LEADER, SBG_LEADER, times); }

static void all_written(const struct library *x, long times) {
  uint64_t state[SBG_STATE], answer[SBG_ANSWER];
  for (; times > 0; times--) { by_budget(x, &WRITTEN, SBG_LEADER, 100, state, answer); sink += state[SBG_PASSED]; }
}

static void ten_fields(const struct library *x, long times) {
  uint64_t answer[SBG_ANSWER];
  int64_t value[SBG_VALUE];
  for (; times > 0; times--)
    for (uint64_t number = 1; number <= 10; number++) {
      x->field(WRITTEN.bytes + 720, 4096, number, value, SBG_VALUE, answer, SBG_ANSWER);
      sink += answer[SBG_TAG] + (uint64_t)value[0];
    }
}

static double seconds(void) {
  struct timespec t;
  clock_gettime(CLOCK_THREAD_CPUTIME_ID, &t);
  return (double)t.tv_sec + (double)t.tv_nsec * 1e-9;
}

static double timed(void (*job)(const struct library *, long), const struct library *x, long times) {
  double began = seconds();
  job(x, times);
  return (seconds() - began) / (double)times;
}

static int rising(const void *a, const void *b) {
  double x = *(const double *)a, y = *(const double *)b;
  return (x > y) - (x < y);
}

#define ROUNDS 61

static void compare(const char *what, void (*job)(const struct library *, long), const struct library *old, const struct library *new, double in_one) {
  double a[ROUNDS], b[ROUNDS];
  long times = (long)(0.003 / timed(job, old, 200)) + 1;
  for (int i = 0; i < ROUNDS; i++) { a[i] = timed(job, old, times); b[i] = timed(job, new, times); }
  qsort(a, ROUNDS, sizeof *a, rising);
  qsort(b, ROUNDS, sizeof *b, rising);
  printf("| %s | %.1f | %.1f | %.2f |\n", what, a[ROUNDS / 2] * 1e9 / in_one, b[ROUNDS / 2] * 1e9 / in_one, a[ROUNDS / 2] / b[ROUNDS / 2]);
}

static void see_same(const struct library *old, const struct library *new, const struct file *f, uint64_t kind, uint64_t records) {
  uint64_t s[SBG_STATE] = {0}, t[SBG_STATE] = {0}, a[SBG_ANSWER], b[SBG_ANSWER]; /* an older state may have fewer numbers */
  for (uint64_t budget = 1; budget < 100; budget += 33) {
    by_budget(old, f, kind, budget, s, a);
    by_budget(new, f, kind, budget, t, b);
    if (memcmp(s, t, sizeof s) || memcmp(a, b, sizeof a) || a[SBG_TAG] != SBG_COMPLETE || s[SBG_PASSED] != records) {
      fprintf(stderr, "against: the two do not give the same answer, or refuse the file\n");
      exit(1);
    }
  }
}

int main(int argc, char **argv) {
  if (argc != 3) { fprintf(stderr, "usage: against OLD.so NEW.so\n"); return 2; }
  struct library old = opened(argv[1]), new = opened(argv[2]);
  LEADER = leader();
  WRITTEN = written();
  IMAGE = image(300, 1000);
  see_same(&old, &new, &LEADER, SBG_LEADER, 50);
  see_same(&old, &new, &WRITTEN, SBG_LEADER, 3);
  see_same(&old, &new, &IMAGE, SBG_IMAGE, 301);
  printf("| job | old, ns | new, ns | old / new |\n|---|---|---|---|\n");
  compare("line view, line 1", line_one, &old, &new, 1);
  compare("line view, any of 300 lines", line_any, &old, &new, 1);
  compare("a leader of 50 records, one a call: a record", one_a_call, &old, &new, 50);
  compare("the same, in one call: a record", all_in_one, &old, &new, 50);
  compare("an image's first record", image_first, &old, &new, 1);
  compare("a leader's first record", leader_first, &old, &new, 1);
  compare("a leader of three records with its fields written, in one call", all_written, &old, &new, 1);
  compare("its summary's ten fields, a field", ten_fields, &old, &new, 10);
  return 0;
}
