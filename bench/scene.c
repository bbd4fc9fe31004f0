/* Scenes for the benchmark: an image with as many lines, pixels and bytes a line as wanted, and the
 * two records of a leader that have listed fields. The texts stand where docs/RULES.md says. */
#include "scene.h"

#include <stdio.h>
#include <stdlib.h>
#include <string.h>

#define FIRST 720

const struct sort COUNTS = {"IU2 ", 2, 192, 0x320b1214}, COMPLEX = {"C*8 ", 8, 412, 0x320a1214};

static void put_four(uint8_t *b, uint64_t x) {
  for (int i = 0; i < 4; i++) b[i] = (uint8_t)(x >> (24 - 8 * i));
}

/* A text at a byte that is counted from 1. */
static void put_text(uint8_t *r, size_t byte, const char *text) {
  memcpy(r + byte - 1, text, strlen(text));
}

static void put_number(uint8_t *r, size_t byte, int width, size_t x) {
  char text[32];
  snprintf(text, sizeof text, "%*zu", width, x);
  put_text(r, byte, text);
}

static void open_record(uint8_t *r, size_t ordinal, uint32_t codes, size_t length) {
  put_four(r, ordinal);
  put_four(r + 4, codes);
  put_four(r + 8, length);
}

static void put_descriptor(uint8_t *r, const struct image *x) {
  memset(r, ' ', FIRST);
  open_record(r, 1, 0x32c01212, FIRST);
  put_text(r, 13, "A ");
  put_text(r, 429, x->sort->text);
  put_number(r, 181, 6, x->n);
  put_number(r, 187, 6, x->l);
  put_number(r, 225, 4, x->sort->group);
  put_number(r, 233, 4, 1);
  put_number(r, 237, 8, x->n);
  put_number(r, 249, 8, x->w);
  put_number(r, 281, 8, x->sort->group * x->w);
  put_number(r, 289, 4, x->s);
}

static void put_line(uint8_t *r, const struct image *x, size_t k, size_t left) {
  memset(r, 0, x->l);
  open_record(r, k + 1, x->sort->codes, x->l);
  put_four(r + 12, k);
  put_four(r + 16, 1);
  put_four(r + 20, left);
  put_four(r + 24, x->w - left);
  size_t bytes = x->sort->group * x->w;
  uint8_t *px = r + x->l - x->s - bytes;
  for (size_t j = 0; j < bytes; j++) px[j] = (uint8_t)(31 * j + 17 * k + j / 97);
}

struct image make_image(const struct sort *sort, size_t n, size_t l, size_t w, size_t s, size_t left) {
  struct image x = {sort, n, l, w, s, NULL, FIRST + n * l};
  x.bytes = malloc(x.len);
  if (x.bytes == NULL) {
    fprintf(stderr, "bench: no memory for an image of %zu bytes\n", x.len);
    exit(2);
  }
  put_descriptor(x.bytes, &x);
  for (size_t k = 1; k <= n; k++) put_line(x.bytes + FIRST + (k - 1) * l, &x, k, k * left);
  return x;
}

/* A leader's field: the byte of its record, counted from 1, and what is written there. */
struct written {
  size_t byte;
  const char *text;
};

static const struct written in_summary[] = {
    {477, "  34.300"},
    {711, "       0.2360571"},
    {743, "       2.0000000"},
    {935, "   16000.0000000"},
    {1887, "-8.3000000000000E+01"},
    {1907, " 1.2345678901234E-05"},
    {1927, " 0.0000000000000E+00"},
    {1947, "-7.7120000000001E-12"},
    {1967, " 9.9999999999999E+02"},
    {1987, " 3.1415926535898E+00"},
};

static const struct written in_map[] = {
    {61, "            6000"},
    {77, "            3000"},
    {93, "      12.5000000"},
};

static void put_all(uint8_t *record, const struct written *fields, size_t count) {
  for (size_t i = 0; i < count; i++) put_text(record, fields[i].byte, fields[i].text);
}

static void put_file(struct leader *x) {
  uint8_t *first = x->file;
  memset(first, ' ', FIRST);
  open_record(first, 1, 0x0bc01212, FIRST);
  put_text(first, 13, "A ");
  put_number(first, 181, 6, 1);
  put_number(first, 187, 6, SUMMARY);
  put_number(first, 193, 6, 1);
  put_number(first, 199, 6, MAP);
  memcpy(first + FIRST, x->summary, SUMMARY);
  memcpy(first + FIRST + SUMMARY, x->map, MAP);
}

void make_leader(struct leader *x) {
  memset(x->summary, ' ', SUMMARY);
  memset(x->map, ' ', MAP);
  open_record(x->summary, 2, 0x120a1214, SUMMARY);
  open_record(x->map, 3, 0x12141214, MAP);
  put_all(x->summary, in_summary, sizeof in_summary / sizeof *in_summary);
  put_all(x->map, in_map, sizeof in_map / sizeof *in_map);
  put_file(x);
}

const uint8_t *record_of(const struct leader *x, uint64_t number, size_t *len) {
  *len = number <= 10 ? SUMMARY : MAP;
  return number <= 10 ? x->summary : x->map;
}
