/* Whether the library and the plain C give the same answers: on valid input, on every damage that is
 * listed here, on every byte of a small image and of the listed fields changed in turn, and on every
 * cut. Only then do their times compare. */
#include <stdio.h>
#include <stdlib.h>
#include <string.h>

#include "readers.h"
#include "scene.h"

#define ROW 16

static uint64_t asked;
static const struct reader *plain_c; /* the other */

/* All that a call can write, poisoned before the call so that what must stay is compared too. */
struct written {
  uint64_t returned, state[SBG_STATE + 1], answer[SBG_ANSWER + 1];
  int64_t value[SBG_VALUE + 1];
  uint16_t row[ROW];
  uint32_t parts[2 * ROW];
};

static struct written poisoned(void) {
  struct written x;
  memset(&x, 0xa5, sizeof x);
  return x;
}

static void same(const char *what, const struct written *ours, const struct written *plain) {
  asked++;
  if (memcmp(ours, plain, sizeof *ours) == 0) return;
  fprintf(stderr, "bench: %s differs (question %llu):\n", what, (unsigned long long)asked);
  for (int i = 0; i < SBG_ANSWER; i++)
    fprintf(stderr, "  answer[%d]: ours %llu, plain %llu\n", i, (unsigned long long)ours->answer[i],
            (unsigned long long)plain->answer[i]);
  exit(1);
}

/* A walk from that state (NULL: a fresh one). */
static void walk_same(const uint64_t *from, const uint8_t *b, size_t len, uint64_t closed,
                      uint64_t budget) {
  const struct reader *readers[2] = {&OURS, plain_c};
  struct written x[2];
  for (int i = 0; i < 2; i++) {
    x[i] = poisoned();
    readers[i]->begin(SBG_IMAGE, x[i].state, SBG_STATE, x[i].answer, SBG_ANSWER);
    if (from != NULL) memcpy(x[i].state, from, SBG_STATE * sizeof *from);
    x[i].returned = readers[i]->walk(x[i].state, SBG_STATE, b, len, closed, budget, x[i].answer,
                                     SBG_ANSWER);
  }
  same("the walk", &x[0], &x[1]);
}

/* The line view and both row copies; the complex one is lent two numbers a sample. */
static void line_same(const uint8_t *b, size_t len, uint64_t line, size_t row_len) {
  struct written ours = poisoned(), plain = poisoned();
  ours.returned = OURS.line(b, len, line, ours.answer, SBG_ANSWER);
  plain.returned = plain_c->line(b, len, line, plain.answer, SBG_ANSWER);
  same("the line view", &ours, &plain);
  ours = plain = poisoned();
  ours.returned = OURS.row(b, len, line, ours.row, row_len, ours.answer, SBG_ANSWER);
  plain.returned = plain_c->row(b, len, line, plain.row, row_len, plain.answer, SBG_ANSWER);
  same("the row copy", &ours, &plain);
  ours = plain = poisoned();
  ours.returned = OURS.complex_row(b, len, line, ours.parts, 2 * row_len, ours.answer, SBG_ANSWER);
  plain.returned = plain_c->complex_row(b, len, line, plain.parts, 2 * row_len, plain.answer, SBG_ANSWER);
  same("the complex row copy", &ours, &plain);
}

/* Everything that is asked of an image, open and closed. */
static void image_same(const uint8_t *b, size_t len) {
  walk_same(NULL, b, len, 1, 9);
  walk_same(NULL, b, len, 0, 9);
  walk_same(NULL, b, len, 1, 2);
  for (uint64_t line = 0; line <= 4; line++) line_same(b, len, line, ROW);
  line_same(b, len, 1, 3);
  line_same(b, len, 1, 4);
}

static void field_same(const uint8_t *b, size_t len, uint64_t number) {
  struct written ours = poisoned(), plain = poisoned();
  ours.returned = OURS.field(b, len, number, ours.value, SBG_VALUE, ours.answer, SBG_ANSWER);
  plain.returned = plain_c->field(b, len, number, plain.value, SBG_VALUE, plain.answer, SBG_ANSWER);
  same("a field", &ours, &plain);
}

/* What is written over a byte, one after the other. */
static const uint8_t CHANGED[] = {0, ' ', '+', '-', '.', '0', '1', '9', 'E', ':', '/', 255};

/* Damage of more than one byte: the file's byte, counted from 0, and what is written there. The image
 * is that of damaged_images: n = 3, w = 5, s = 3, and of counts L = 210, lines at 720, 930, 1140. */
static const struct {
  size_t at;
  const char *text;
} DAMAGE[] = {
    {180, "      "},          {180, "1000000"},     {180, "   +3 "},   {186, "   204"},
    {186, "   205"},          {186, "    -1"},      {224, "   4"},     {232, "   2"},
    {236, "       4"},        {248, "       6"},    {280, "      12"}, {288, "    "},
    {288, "9999"},            {428, "C*8 "},        {12, "B"},         {740, "\377\377\377\377"},
    {428, "IU2 "},            {428, "C*8b"},        {224, "   2"},     {224, "   8"},
    {280, "      10"},        {280, "      40"},    {186, "   454"},   {186, "   455"},
    {744, "\377\377\377\377"}, {944, "\377\377"},    {1152, "\377"},    {1160, "\001"},
};

/* Each byte of b, which are those of x, changed in turn. */
static void every_byte(uint8_t *b, const struct image *x) {
  for (size_t at = 0; at < x->len; at++) {
    for (size_t i = 0; i < sizeof CHANGED; i++) {
      b[at] = CHANGED[i];
      image_same(b, x->len);
    }
    b[at] = x->bytes[at];
  }
}

/* So many bytes written over b at a place. */
static void written_over(uint8_t *b, const struct image *x, size_t at, const char *text, size_t size) {
  memcpy(b + at, text, size);
  image_same(b, x->len);
  memcpy(b + at, x->bytes + at, size);
}

/* n = 3, w = 5, s = 3, and five bytes more ahead of the pixels than there must be. */
static struct image small(const struct sort *sort) {
  return make_image(sort, 3, sort->ahead + 5 * sort->group + 8, 5, 3, 1);
}

static void damaged_images(const struct sort *sort) {
  struct image x = small(sort);
  uint8_t *b = malloc(x.len + 1);
  if (b == NULL) exit(2);
  memcpy(b, x.bytes, x.len);
  b[x.len] = 0;
  for (size_t cut = 0; cut <= x.len + 1; cut++) image_same(b, cut);
  every_byte(b, &x);
  for (size_t i = 0; i < sizeof DAMAGE / sizeof *DAMAGE; i++)
    written_over(b, &x, DAMAGE[i].at, DAMAGE[i].text, strlen(DAMAGE[i].text));
  /* fills 4294967295, 6, 0: their sum is w only if it wraps */
  written_over(b, &x, 740, "\377\377\377\377\0\0\0\006\0\0\0\0", 12);
  free(b);
  free(x.bytes);
}

/* States of every place in a walk, and each with every number changed. */
static void bad_states(const struct sort *sort) {
  static const uint64_t CHANGES[] = {0, 1, 2, 3, 4, 5, 204, 205, 211, 454, 455, 1000000, 100000000, UINT64_MAX};
  struct image x = small(sort);
  for (uint64_t passed = 0; passed <= 4; passed++) {
    uint64_t state[SBG_STATE], answer[SBG_ANSWER];
    plain_c->begin(SBG_IMAGE, state, SBG_STATE, answer, SBG_ANSWER);
    plain_c->walk(state, SBG_STATE, x.bytes, x.len, 1, passed, answer, SBG_ANSWER);
    size_t at = passed == 0 ? 0 : 720 + (passed - 1) * x.l;
    walk_same(state, x.bytes + at, x.len - at, 1, 9);
    for (int i = SBG_PASSED; i < SBG_STATE; i++) {
      uint64_t was = state[i];
      for (size_t j = 0; j < sizeof CHANGES / sizeof *CHANGES; j++) {
        state[i] = CHANGES[j];
        walk_same(state, x.bytes + at, x.len - at, 1, 9);
      }
      state[i] = was;
    }
  }
  free(x.bytes);
}

static void damaged_fields(void) {
  struct leader x;
  make_leader(&x);
  for (uint64_t number = 0; number <= 14; number++) {
    size_t len;
    uint8_t b[SUMMARY];
    const uint8_t *record = record_of(&x, number, &len);
    memcpy(b, record, len);
    for (size_t cut = 0; cut <= len; cut++) field_same(b, cut, number);
    for (size_t at = 60; at < 2010 && at < len; at++) {
      for (size_t i = 0; i < sizeof CHANGED; i++) {
        b[at] = CHANGED[i];
        field_same(b, len, number);
      }
      b[at] = record[at];
    }
  }
}

/* Every text of a few characters behind blanks, in each listed field. */
static void made_up_fields(void) {
  static const char USED[] = " +-.05E";
  static const size_t FIRST[13] = {477, 711, 743, 935, 1887, 1907, 1927, 1947, 1967, 1987, 61, 77, 93};
  static const size_t WIDTH[13] = {8, 16, 16, 16, 20, 20, 20, 20, 20, 20, 16, 16, 16};
  uint64_t seed = 1;
  for (uint64_t number = 1; number <= 13; number++) {
    struct leader x;
    make_leader(&x);
    size_t len;
    uint8_t *f = (uint8_t *)record_of(&x, number, &len) + FIRST[number - 1] - 1;
    for (int turn = 0; turn < 4000; turn++) {
      seed = seed * 6364136223846793005u + 1442695040888963407u;
      f[(seed >> 33) % WIDTH[number - 1]] = (uint8_t)USED[(seed >> 53) % 7];
      field_same(record_of(&x, number, &len), len, number);
      if (turn % 4 == 3) make_leader(&x);
    }
  }
}

uint64_t agree(const struct reader *other) {
  plain_c = other;
  asked = 0;
  damaged_images(&COUNTS);
  damaged_images(&COMPLEX);
  bad_states(&COUNTS);
  bad_states(&COMPLEX);
  damaged_fields();
  made_up_fields();
  return asked;
}
