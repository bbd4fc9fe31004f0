/* Seobangyu: a reader of CEOS SAR products, from C: PALSAR, images of level 1.5 and complex ones of level
 * 1.1. Of JERS-1, by its own tables, no leader, image or trailer is accepted; only a volume directory can be
 * (docs/SOURCES.md).
 *
 * Every function takes any bytes and any numbers and ends with an answer; nothing is allocated, kept
 * or printed, so any number of threads may call. What each answers is proved (docs/PROMISES.md).
 *
 * The caller owes C's own rules, which no proof can cover: a pointer with its length is memory that
 * may be read (written, where it is not const) for that many elements; the arrays of one call do not
 * overlap; a pointer may be NULL only where its length is 0.
 *
 * An array that is too short gives 0, and nothing is written: neither state, value, row, card, list
 * nor answer. (A row, card or list that is too short is refused, by its own number.)
 * Numbers past the 43rd of a state, the 5th of an answer and the 2nd of a value stay as they are.
 */
#ifndef SEOBANGYU_H
#define SEOBANGYU_H

#include <stddef.h>
#include <stdint.h>

#ifdef __cplusplus
extern "C" {
#endif

/* How many numbers a state, an answer and a value have. */
#define SBG_STATE 43
#define SBG_ANSWER 5
#define SBG_VALUE 2

/* File kinds. */
#define SBG_VOLUME 1
#define SBG_LEADER 2
#define SBG_IMAGE 3
#define SBG_TRAILER 4

/* A state: kind, records passed, pointers; count and length of slots 1, 2, 3, 4, 5, 7, then of the
 * eleven facility pairs, count and length in turn; n, L, w, d, s; the sort of an image's samples, 0 for
 * counts (`IU2 `) and for other files, 1 for complex ones (`C*8 `). A state may be kept, copied and
 * handed in again; numbers that break the state rule are refused with 11, and those that keep it are
 * taken, whoever made them. The rule: kind 1 to 4; where no record has passed, all behind these two
 * numbers is 0; else it is what a first record of that kind can name, the rest 0, and no more records
 * have passed than that plans. */
enum {
  SBG_KIND = 0,
  SBG_PASSED = 1,
  SBG_POINTERS = 2,
  SBG_PAIRS = 3,
  SBG_N = 37,
  SBG_L = 38,
  SBG_W = 39,
  SBG_D = 40,
  SBG_S = 41,
  SBG_SORT = 42
};

/* The sorts of an image's samples, as a state has them: whole counts of 16 bits, or two 32-bit floats, real
 * then imaginary. */
enum { SBG_SORT_COUNTS = 0, SBG_SORT_COMPLEX = 1 };

/* An answer: tag, a, b, c, count. Numbers that an answer does not use are 0. */
enum { SBG_TAG = 0, SBG_A = 1, SBG_B = 2, SBG_C = 3, SBG_COUNT = 4 };

enum {
  SBG_REFUSED = 0,  /* a: number (docs/REFUSALS.md), b: record (0 where none), c: place from 0 */
  SBG_WAIT = 1,     /* a: how many bytes are missing */
  SBG_PAUSE = 2,    /* the budget is used up */
  SBG_COMPLETE = 3, /* all planned records are there, and the file is closed */
  SBG_BEGUN = 4,    /* a fresh state */
  SBG_IS_VALUE = 5, /* the number and its exponent are in the value array */
  SBG_BLANK = 6,    /* the field is blank */
  SBG_SHOWN = 7,    /* a: start of the data pixels in the file, b: data pixels, c: left fill;
                       the right fill is w - c - b */
  SBG_COPIED = 8,   /* a: samples */
  SBG_AGREES = 9,   /* the set agrees with its directory */
  SBG_BUILT = 10,   /* a: bytes of the card */
  SBG_CARD = 11,    /* a: lines, b: leader entries */
  SBG_SAMPLE_COUNT = 12,   /* a: the count, 0 to 65,535 */
  SBG_SAMPLE_COMPLEX = 13, /* a: the real part's 32 bits, b: the imaginary part's; every pattern kept */
  SBG_POWER = 14           /* a: the power's 32 bits: a float that is finite and not negative */
};

/* All but sbg_start return 1 when they answered, and 0 where an array is too short. */

/* Begins a walk over a file of that kind: the state becomes the fresh one (answer SBG_BEGUN), or all
 * zeros where there is no such kind (refused 1). What stood in the state is not looked at. */
uint64_t sbg_begin(uint64_t kind, uint64_t *state, size_t state_len, uint64_t *answer,
                   size_t answer_len);

/* Walks on: bytes from the place sbg_start(state) on; closed is 0 while more bytes may come; at most
 * budget records are passed. The state is moved in place; count is how many records this call passed.
 * A refused or waiting record leaves the state before it: hand it in again with the bytes not passed
 * and the new ones. One step is a budget of 1. */
uint64_t sbg_walk(uint64_t *state, size_t state_len, const uint8_t *bytes, size_t len,
                  uint64_t closed, uint64_t budget, uint64_t *answer, size_t answer_len);

/* The place in the file of the next record's first byte; 0 for a fresh, bad or short state. */
uint64_t sbg_start(const uint64_t *state, size_t state_len);

/* Listed field 1 to 13 of the record that the bytes are (docs/REFUSALS.md, 14, for another number).
 * A value is value[0] units in the last written place, times ten to the power value[1]. */
uint64_t sbg_field(const uint8_t *bytes, size_t len, uint64_t number, int64_t *value,
                   size_t value_len, uint64_t *answer, size_t answer_len);

/* Line 1 to n of an image, of either sort, whose bytes are held from byte 0, as far as they have come. A data
 * pixel takes two bytes from a on in an image of counts and eight in a complex one. */
uint64_t sbg_line(const uint8_t *bytes, size_t len, uint64_t line, uint64_t *answer,
                  size_t answer_len);

/* The line's data pixels as numbers to the row's start, for counts; samples past them stay. After the
 * line's own wait or refusal a complex image is refused with 23 (sbg_complex_row copies it), then a row
 * that is too short with 15; on a wait or a refusal every sample stays. w samples are always enough. */
uint64_t sbg_row(const uint8_t *bytes, size_t len, uint64_t line, uint16_t *row, size_t row_len,
                 uint64_t *answer, size_t answer_len);

/* The same for a complex image, bits kept: two numbers a sample, the 32 bits of the real part, then those of
 * the imaginary part (a float of this machine by memcpy). After the line's own wait or refusal an image of
 * counts is refused with 23, then a row of fewer than two numbers a sample with 15; on any of them every
 * number stays, and so do those past the samples. 2w numbers are always enough. */
uint64_t sbg_complex_row(const uint8_t *bytes, size_t len, uint64_t line, uint32_t *row,
                         size_t row_len, uint64_t *answer, size_t answer_len);

/* One sample of a line, of either sort: data pixel 0, 1, 2 .. behind the left fill. It is a count or two
 * patterns of 32 bits. After the line's own wait or refusal an index that is not below the line's data
 * pixels is refused with 36. */
uint64_t sbg_sample(const uint8_t *bytes, size_t len, uint64_t line, uint64_t index,
                    uint64_t *answer, size_t answer_len);

/* The power of a complex sample in single precision: real times real, imaginary times imaginary, then the
 * sum, each rounded once to the nearest, ties to even. After the line's own wait or refusal: 23 for counts,
 * 36 as above, 24 where a part or the power is no finite number. */
uint64_t sbg_power(const uint8_t *bytes, size_t len, uint64_t line, uint64_t index,
                   uint64_t *answer, size_t answer_len);

/* A closed directory (volume file), and the record counts of the product's files in pointer order. */
uint64_t sbg_set(const uint8_t *bytes, size_t len, const uint64_t *counts, size_t counts_len,
                 uint64_t *answer, size_t answer_len);

/* Builds the card of a whole image and its whole leader at the start of the lent bytes: 17 + 13n + 10r
 * of them, for n lines and r leader records, the descriptor among these; bytes past it stay. The
 * image's refusal comes first, then the leader's, then 37 where the card does not fit; on a refusal
 * every byte stays. */
uint64_t sbg_card_build(const uint8_t *image, size_t image_len, const uint8_t *leader,
                        size_t leader_len, uint8_t *card, size_t card_len, uint64_t *answer,
                        size_t answer_len);

/* Judges the bytes as a card, entry by entry from the front: SBG_CARD, or refused with 20, 21 or 22 at
 * the entry's start. */
uint64_t sbg_card(const uint8_t *card, size_t len, uint64_t *answer, size_t answer_len);

/* The numbers of a card to the list's start: n, L, w, d, then left fill and data count of each line,
 * then start and length of each leader entry: 4 + 2n + 2r of them; numbers past them stay. After the
 * card's own refusal a list that is too short is refused with 37; on a refusal every number stays. */
uint64_t sbg_card_numbers(const uint8_t *card, size_t len, uint64_t *numbers, size_t numbers_len,
                          uint64_t *answer, size_t answer_len);

#ifdef __cplusplus
}
#endif

#endif
