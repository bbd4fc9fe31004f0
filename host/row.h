/* The rows on standard output. Every row that ceos prints goes through here, so that another form of them
 * is made in row.c alone. A row is a list of named fields; as text it is their values on one line with a
 * blank between, and a field's label is its name in capitals. */
#ifndef ROW_H
#define ROW_H

#include <stdbool.h>
#include <stddef.h>
#include <stdint.h>

/* Units in the last of so many written places; has_exponent: times ten to the power exponent (E20.13). */
struct decimal {
  int64_t units;
  int places;
  bool has_exponent;
  int64_t exponent;
};

struct field {
  const char *name;
  enum { TEXT, NUMBER, DECIMAL, FLOAT } kind;
  enum { BARE, AHEAD, BEHIND, TITLE } label;
  const char *text;
  uint64_t number;
  struct decimal decimal;
  uint32_t bits;
};

/* The fields by how they look as text. The word that opens a row is its field "row": it says what row it is. */
struct field title(const char *name, const char *text);         /* IMG-1:    nothing where the text is NULL */
struct field word(const char *name, const char *text);          /* COMPLETE  */
struct field bare(const char *name, uint64_t number);           /* 3         */
struct field ahead(const char *name, uint64_t number);          /* RECORD 3  */
struct field behind(const char *name, uint64_t number);         /* 3 RECORDS */
struct field exactly(const char *name, struct decimal decimal); /* -0.5000000, 1.0000000000000E+02 */
struct field floating(const char *name, uint32_t bits);         /* REAL -1.5 */

void say_fields(const struct field *fields, size_t count);

#define SAY_ROW(...) \
  say_fields((const struct field[]){__VA_ARGS__}, sizeof((const struct field[]){__VA_ARGS__}) / sizeof(struct field))

/* Many numbers of one name, ten in a row. */
void say_numbers(const char *name, const uint16_t *numbers, uint64_t count);

/* So many complex samples of one name, each in a row of its own: the bits of its real part, then of its imaginary
 * part, which are two floats. As text a float is the shortest number that reads back as the same bits, -0 apart
 * from 0; what is no finite number is its bits, as 0x7fc00000. */
void say_complex(const char *name, const uint32_t *parts, uint64_t count);

#endif
