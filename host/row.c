#include "row.h"

#include <ctype.h>
#include <inttypes.h>
#include <math.h>
#include <stdio.h>
#include <stdlib.h>
#include <string.h>

struct field title(const char *name, const char *text) {
  return (struct field){.name = name, .kind = TEXT, .label = TITLE, .text = text};
}

struct field word(const char *name, const char *text) {
  return (struct field){.name = name, .kind = TEXT, .label = BARE, .text = text};
}

struct field bare(const char *name, uint64_t number) {
  return (struct field){.name = name, .kind = NUMBER, .label = BARE, .number = number};
}

struct field ahead(const char *name, uint64_t number) {
  return (struct field){.name = name, .kind = NUMBER, .label = AHEAD, .number = number};
}

struct field behind(const char *name, uint64_t number) {
  return (struct field){.name = name, .kind = NUMBER, .label = BEHIND, .number = number};
}

struct field exactly(const char *name, struct decimal decimal) {
  return (struct field){.name = name, .kind = DECIMAL, .label = BARE, .decimal = decimal};
}

struct field floating(const char *name, uint32_t bits) {
  return (struct field){.name = name, .kind = FLOAT, .label = AHEAD, .bits = bits};
}

/* Text --------------------------------------------------------------------------------------------- */

static void put_label(const char *name) {
  for (; *name != '\0'; name++) (void)putchar(toupper((unsigned char)*name));
}

/* Exactly: all of it is whole numbers. */
static void put_decimal(const struct decimal *value) {
  uint64_t units = value->units < 0 ? 0 - (uint64_t)value->units : (uint64_t)value->units;
  uint64_t one = 1;
  for (int place = 0; place < value->places; place++) one *= 10;
  printf("%s%" PRIu64, value->units < 0 ? "-" : "", units / one);
  if (value->places > 0) printf(".%0*" PRIu64, value->places, units % one);
  if (!value->has_exponent) return;
  printf("E%c%02" PRIi64, value->exponent < 0 ? '-' : '+', value->exponent < 0 ? -value->exponent : value->exponent);
}

static float float_of(uint32_t bits) {
  float value;
  memcpy(&value, &bits, sizeof value);
  return value;
}

static uint32_t bits_of(float value) {
  uint32_t bits;
  memcpy(&bits, &value, sizeof bits);
  return bits;
}

/* Writes so many digits of a value; whether they read back as these bits. The program names no locale, so that the
 * point is a point whatever the user's is. */
static bool reads_back(char *text, size_t size, int digits, double value, uint32_t bits) {
  (void)snprintf(text, size, "%.*g", digits, value);
  return bits_of(strtof(text, NULL)) == bits;
}

/* The fewest digits that read back as the same bits; nine always do. They are those of the value itself, but above
 * a power of two the next float is twice as far as below it, and what lies a little above may have fewer. */
static void put_float(uint32_t bits) {
  char text[32];
  double value = (double)float_of(bits), above = value * (1 + 0x1p-25);
  if (!isfinite(value)) {
    printf("0x%08" PRIx32, bits);
    return;
  }
  int digits = 1;
  while (!reads_back(text, sizeof text, digits, value, bits) && !reads_back(text, sizeof text, digits, above, bits))
    digits++;
  (void)fputs(text, stdout);
}

static void put_value(const struct field *field) {
  switch (field->kind) {
    case TEXT:
      (void)fputs(field->text, stdout);
      break;
    case NUMBER:
      printf("%" PRIu64, field->number);
      break;
    case DECIMAL:
      put_decimal(&field->decimal);
      break;
    case FLOAT:
      put_float(field->bits);
      break;
  }
}

static void put_field(const struct field *field) {
  if (field->label == AHEAD) {
    put_label(field->name);
    (void)putchar(' ');
  }
  put_value(field);
  if (field->label == BEHIND) {
    (void)putchar(' ');
    put_label(field->name);
  }
  if (field->label == TITLE) (void)putchar(':');
}

void say_fields(const struct field *fields, size_t count) {
  bool begun = false;
  for (size_t i = 0; i < count; i++) {
    if (fields[i].kind == TEXT && fields[i].text == NULL) continue;
    if (begun) (void)putchar(' ');
    put_field(&fields[i]);
    begun = true;
  }
  (void)putchar('\n');
}

/* As text the numbers speak for themselves: their name is for other forms. */
void say_numbers(const char *name, const uint16_t *numbers, uint64_t count) {
  (void)name;
  for (uint64_t j = 0; j < count; j++) printf("%u%c", (unsigned)numbers[j], j % 10 == 9 || j + 1 == count ? '\n' : ' ');
}

void say_complex(const char *name, const uint32_t *parts, uint64_t count) {
  (void)name;
  for (uint64_t j = 0; j < count; j++) {
    put_float(parts[2 * j]);
    (void)putchar(' ');
    put_float(parts[2 * j + 1]);
    (void)putchar('\n');
  }
}
