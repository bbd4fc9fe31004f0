/* A wrong library, for `run.py --selftest`: it stands between the driver and the boundary (linked with
 * --wrap) and alters answers in the one way that the environment's WRONG names. The run must notice each. */
#include "seobangyu.h"

#include <math.h>
#include <stdlib.h>
#include <string.h>

#define REAL(name) __real_##name
#define OURS(name) __wrap_##name

uint64_t REAL(sbg_begin)(uint64_t, uint64_t *, size_t, uint64_t *, size_t);
uint64_t REAL(sbg_walk)(uint64_t *, size_t, const uint8_t *, size_t, uint64_t, uint64_t, uint64_t *, size_t);
uint64_t REAL(sbg_start)(const uint64_t *, size_t);
uint64_t REAL(sbg_field)(const uint8_t *, size_t, uint64_t, int64_t *, size_t, uint64_t *, size_t);
uint64_t REAL(sbg_line)(const uint8_t *, size_t, uint64_t, uint64_t *, size_t);
uint64_t REAL(sbg_row)(const uint8_t *, size_t, uint64_t, uint16_t *, size_t, uint64_t *, size_t);
uint64_t REAL(sbg_set)(const uint8_t *, size_t, const uint64_t *, size_t, uint64_t *, size_t);
uint64_t REAL(sbg_card_build)(const uint8_t *, size_t, const uint8_t *, size_t, uint8_t *, size_t, uint64_t *, size_t);
uint64_t REAL(sbg_card)(const uint8_t *, size_t, uint64_t *, size_t);
uint64_t REAL(sbg_card_numbers)(const uint8_t *, size_t, uint64_t *, size_t, uint64_t *, size_t);
uint64_t REAL(sbg_sample)(const uint8_t *, size_t, uint64_t, uint64_t, uint64_t *, size_t);
uint64_t REAL(sbg_power)(const uint8_t *, size_t, uint64_t, uint64_t, uint64_t *, size_t);
uint64_t REAL(sbg_complex_row)(const uint8_t *, size_t, uint64_t, uint32_t *, size_t, uint64_t *, size_t);

static int wrong(const char *way) {
  const char *chosen = getenv("WRONG");
  return chosen && !strcmp(chosen, way);
}

static uint64_t four(const uint8_t *b) { return (uint64_t)b[0] << 24 | b[1] << 16 | b[2] << 8 | b[3]; }

/* Ways that fit any function: behind its answer. */
static uint64_t altered(uint64_t returned, uint64_t *answer, size_t answer_len) {
  static unsigned long calls;
  if (++calls % 10000 == 0 && returned && wrong("one-in-10000")) answer[SBG_A]++;
  if (wrong("short-answer") && !returned && answer_len > 0) answer[0] = 0;
  if (wrong("past-answer") && answer_len > SBG_ANSWER) answer[SBG_ANSWER] = 0;
  if (!returned) return wrong("short-returns-1");
  if (answer[SBG_TAG] == SBG_REFUSED && wrong("place-32-bits")) answer[SBG_C] &= 0xFFFFFFFF;
  if (answer[SBG_TAG] == SBG_REFUSED && wrong("record-0")) answer[SBG_B] = 0;
  if (answer[SBG_TAG] == SBG_PAUSE && wrong("unused-number")) answer[SBG_C] = 1;
  return returned;
}

/* It is a refusal, with that number. */
static int gives(uint64_t returned, const uint64_t *answer, uint64_t number) {
  return returned && answer[SBG_TAG] == SBG_REFUSED && answer[SBG_A] == number;
}

/* The place of a 6 (document 02, No. 5) ---------------------------------------------------------------------- */

/* A byte before the bad one, or behind it. */
static void move_six(uint64_t returned, uint64_t *answer, int early, int late) {
  if (gives(returned, answer, 6)) answer[SBG_C] += (uint64_t)(late - early);
}

/* The number fields that the walk judges, as host/ has them for its marks. */
static const struct number_fields {
  uint64_t kind, first_record, last_record, byte, count, apart;
  const char *form;
} NUMBERS[] = {
#define NUMBER_FIELDS(kind, ...) {SBG_##kind, __VA_ARGS__},
#include "../../../host/number_fields.def"
#undef NUMBER_FIELDS
};

/* How far into its field a byte of a record is, which is counted from 1. */
static uint64_t into_field(uint64_t kind, uint64_t record, uint64_t byte) {
  for (size_t i = 0; i < sizeof NUMBERS / sizeof *NUMBERS; i++) {
    const struct number_fields *some = &NUMBERS[i];
    if (kind != some->kind || record < some->first_record || record > some->last_record || byte < some->byte) continue;
    uint64_t on = (byte - some->byte) % some->apart;
    if ((byte - some->byte) / some->apart < some->count && on < strtoull(some->form + 1, NULL, 10)) return on;
  }
  return 0;
}

/* So many blanks end with that byte. */
static uint64_t blanks_up_to(const uint8_t *bytes, uint64_t most) {
  uint64_t count = 0;
  while (count < most && *(bytes - count) == ' ') count++;
  return count;
}

/* Of a walk: `bad` is the bad byte, and the record starts at `begun` in the file. */
static void alter_walk_six(const uint64_t *state, uint64_t begun, const uint8_t *bad, uint64_t *answer) {
  uint64_t on = into_field(state[SBG_KIND], answer[SBG_B], answer[SBG_C] - begun + 1);
  int blank = blanks_up_to(bad, on + 1) == on + 1; /* a needed field, and its last byte */
  int sign = (*bad == '-' || *bad == '+') && on > 0 && blanks_up_to(bad - 1, on) == on;
  if (wrong("walk-6-at-the-first-byte")) answer[SBG_C] -= on;
  if (blank && wrong("walk-6-blank-at-the-first-byte")) answer[SBG_C] -= on;
  if (blank && wrong("walk-6-blank-behind-the-field")) answer[SBG_C]++;
  if (sign && wrong("walk-6-behind-a-last-sign")) answer[SBG_C]++;
}

/* Of a listed field of 16 bytes and 7 places: the point's column is the ninth. */
static void alter_point_six(const uint8_t *field, uint64_t first, uint64_t *answer) {
  uint64_t bad = answer[SBG_C] - first, point = first + 8;
  if (bad > 8 && blanks_up_to(field + 8, 9) == 9 && wrong("field-6-no-blank-past-the-point")) answer[SBG_C] = point;
  if (bad == 8 && field[8] >= '0' && field[8] <= '9' && wrong("field-6-digits-past-the-point")) answer[SBG_C]++;
  if (bad == 8 && field[8] == ' ' && wrong("field-6-sign-and-blanks-at-the-sign")) answer[SBG_C] -= blanks_up_to(field + 8, 8);
  if (bad < 8 && field[bad] == '.' && wrong("field-6-early-point-at-its-column")) answer[SBG_C] = point;
}

static void alter_field_six(const uint8_t *bytes, uint64_t number, uint64_t *answer) {
  static const uint64_t first[] = {0, 476, 710, 742, 934, 1886, 1906, 1926, 1946, 1966, 1986, 60, 76, 92};
  uint64_t at = first[number];
  if (number == 2 || number == 3 || number == 4 || number == 13) alter_point_six(bytes + at, at, answer);
  if (wrong("field-6-at-the-first-byte")) answer[SBG_C] = at;
  if (wrong("field-6-in-the-field")) answer[SBG_C] -= at;
}

uint64_t OURS(sbg_begin)(uint64_t kind, uint64_t *state, size_t state_len, uint64_t *answer, size_t answer_len) {
  if (wrong("kind-32-bits")) kind &= 0xFFFFFFFF;
  uint64_t returned = REAL(sbg_begin)(kind, state, state_len, answer, answer_len);
  if (returned && kind > 4 && wrong("bad-kind-kept")) state[SBG_KIND] = kind;
  return altered(returned, answer, answer_len);
}

/* A fill sum that is w only because it wraps is let through. */
static void wrap_fills(uint64_t *state, const uint8_t *bytes, uint64_t *answer, uint64_t from) {
  uint64_t begun = REAL(sbg_start)(state, SBG_STATE);
  if (answer[SBG_TAG] != SBG_REFUSED || answer[SBG_A] != 10 || answer[SBG_C] != begun + 20) return;
  const uint8_t *fills = bytes + (begun - from) + 20;
  if ((uint32_t)(four(fills) + four(fills + 4) + four(fills + 8)) != state[SBG_W]) return;
  state[SBG_PASSED]++;
  answer[SBG_TAG] = SBG_PAUSE;
  answer[SBG_A] = answer[SBG_B] = answer[SBG_C] = 0;
  answer[SBG_COUNT]++;
}

static void alter_walk(uint64_t *state, size_t state_len, uint64_t closed, uint64_t *answer) {
  int refused = answer[SBG_TAG] == SBG_REFUSED;
  if (answer[SBG_TAG] == SBG_WAIT && answer[SBG_A] == 0 && !closed && wrong("open-complete")) answer[SBG_TAG] = SBG_COMPLETE;
  if (wrong("made-up-count")) answer[SBG_COUNT] = state[SBG_PASSED];
  if (refused && answer[SBG_A] == 10 && wrong("refused-passes")) state[SBG_PASSED]++;
  if (refused && answer[SBG_A] == 9 && !closed && wrong("open-surplus-waits")) memset(answer, 0, 8 * SBG_ANSWER), answer[SBG_TAG] = SBG_WAIT;
  if (wrong("past-state") && state_len > SBG_STATE) state[SBG_STATE]++;
  if (state[SBG_PASSED] == 1 && answer[SBG_COUNT] == 1 && wrong("sort-not-kept")) state[SBG_SORT] = 0;
}

uint64_t OURS(sbg_walk)(uint64_t *state, size_t state_len, const uint8_t *bytes, size_t len, uint64_t closed,
                        uint64_t budget, uint64_t *answer, size_t answer_len) {
  uint64_t s = 0, sort = 0, from = REAL(sbg_start)(state, state_len);
  int hide = wrong("unused-s") && state_len >= SBG_STATE && state[SBG_KIND] < 3;
  int hide_sort = wrong("unused-sort") && state_len >= SBG_STATE && state[SBG_KIND] != SBG_IMAGE;
  if (wrong("closed-8-bits")) closed &= 0xFF;
  if (wrong("budget-32-bits")) budget &= 0xFFFFFFFF;
  if (hide) s = state[SBG_S], state[SBG_S] = 0;
  if (hide_sort) sort = state[SBG_SORT], state[SBG_SORT] = 0;
  uint64_t returned = REAL(sbg_walk)(state, state_len, bytes, len, closed, budget, answer, answer_len);
  if (hide) state[SBG_S] = s;
  if (hide_sort) state[SBG_SORT] = sort;
  if (returned && wrong("fills-wrap")) wrap_fills(state, bytes, answer, from);
  if (gives(returned, answer, 6)) alter_walk_six(state, REAL(sbg_start)(state, state_len), bytes + (answer[SBG_C] - from), answer);
  move_six(returned, answer, wrong("walk-6-one-early"), wrong("walk-6-one-late"));
  if (returned) alter_walk(state, state_len, closed, answer);
  if (wrong("reads-past") && len > 1000 && closed) s = *(volatile const uint8_t *)(bytes + len);
  if (wrong("bytes-written") && len > 1000) ((uint8_t *)bytes)[len - 1] ^= 1;
  return altered(returned, answer, answer_len);
}

uint64_t OURS(sbg_start)(const uint64_t *state, size_t state_len) {
  uint64_t start = REAL(sbg_start)(state, state_len);
  return wrong("start-32-bits") ? start & 0xFFFFFFFF : start;
}

/* In listed field 2, which has come, a blank stands behind a sign. */
static int has_gap(const uint8_t *bytes) {
  for (int at = 710; at < 725; at++)
    if ((bytes[at] == '-' || bytes[at] == '+') && bytes[at + 1] == ' ') return 1;
  return 0;
}

uint64_t OURS(sbg_field)(const uint8_t *bytes, size_t len, uint64_t number, int64_t *value, size_t value_len,
                         uint64_t *answer, size_t answer_len) {
  uint64_t returned = REAL(sbg_field)(bytes, len, number, value, value_len, answer, answer_len);
  int is_value = returned && answer[SBG_TAG] == SBG_IS_VALUE;
  if (is_value && value[0] < 0 && value[0] > -10000000 && wrong("minus-lost")) value[0] = -value[0];
  if (is_value && number == 2 && has_gap(bytes) && wrong("gap-minus-lost")) value[0] = value[0] < 0 ? -value[0] : value[0];
  if (is_value && value[1] < 0 && wrong("exponent-sign-lost")) value[1] = -value[1];
  if (returned && answer[SBG_TAG] == SBG_BLANK && wrong("blank-written")) value[0] = value[1] = 0;
  if (returned && answer[SBG_A] == 14 && len < 60 && wrong("14-behind-2")) answer[SBG_A] = 2;
  if (gives(returned, answer, 6)) alter_field_six(bytes, number, answer);
  move_six(returned, answer, wrong("field-6-one-early"), wrong("field-6-one-late"));
  return altered(returned, answer, answer_len);
}

/* The plan of an image. */
static void plan_of(const uint8_t *bytes, size_t len, uint64_t *state) {
  uint64_t told[SBG_ANSWER];
  REAL(sbg_begin)(SBG_IMAGE, state, SBG_STATE, told, SBG_ANSWER);
  REAL(sbg_walk)(state, SBG_STATE, bytes, len, 0, 1, told, SBG_ANSWER);
}

/* Pixels taken at 192, where L is larger than 192 + d + s; and left fills of two bytes in complex lines too. */
static void alter_view(const uint8_t *bytes, size_t len, uint64_t line, uint64_t *answer) {
  uint64_t state[SBG_STATE], left = answer[SBG_C];
  plan_of(bytes, len, state);
  if (wrong("pixels-at-192")) answer[SBG_A] = 720 + (line - 1) * state[SBG_L] + 192 + 2 * left;
  if (state[SBG_SORT] == 1 && wrong("left-fill-of-two-bytes")) answer[SBG_A] -= 6 * left;
}

uint64_t OURS(sbg_line)(const uint8_t *bytes, size_t len, uint64_t line, uint64_t *answer, size_t answer_len) {
  uint64_t returned = REAL(sbg_line)(bytes, len, line, answer, answer_len);
  if (returned && answer[SBG_TAG] == SBG_SHOWN) alter_view(bytes, len, line, answer);
  if (returned && answer[SBG_TAG] == SBG_SHOWN && wrong("left-is-right")) answer[SBG_C] = 0;
  move_six(returned, answer, wrong("line-6-one-early"), wrong("line-6-one-late"));
  return altered(returned, answer, answer_len);
}

static void tell(uint64_t *answer, uint64_t tag, uint64_t a, uint64_t b) {
  memset(answer, 0, 8 * SBG_ANSWER);
  answer[SBG_TAG] = tag;
  answer[SBG_A] = a;
  answer[SBG_B] = b;
}

uint64_t OURS(sbg_row)(const uint8_t *bytes, size_t len, uint64_t line, uint16_t *row, size_t row_len,
                       uint64_t *answer, size_t answer_len) {
  uint64_t returned = REAL(sbg_row)(bytes, len, line, row, row_len, answer, answer_len);
  int copied = returned && answer[SBG_TAG] == SBG_COPIED;
  size_t many = copied ? answer[SBG_A] : 0;
  if (many && wrong("last-sample-low-first")) row[many - 1] = (uint16_t)(row[many - 1] << 8 | row[many - 1] >> 8);
  if (copied && many < row_len && wrong("row-tail")) row[many] = 0;
  if (returned && answer[SBG_TAG] == SBG_REFUSED && row_len && wrong("refused-row")) row[0] = 0;
  if (copied && many == row_len && wrong("row-past")) *(volatile uint16_t *)(row + row_len) = 0;
  if (copied && many && wrong("row-ahead")) *(volatile uint16_t *)(row - 1) = 0;
  if (gives(returned, answer, 23) && row_len == 0 && wrong("row-15-before-23")) tell(answer, SBG_REFUSED, 15, 0);
  move_six(returned, answer, wrong("row-6-one-early"), wrong("row-6-one-late"));
  return altered(returned, answer, answer_len);
}

uint64_t OURS(sbg_set)(const uint8_t *bytes, size_t len, const uint64_t *counts, size_t counts_len, uint64_t *answer,
                       size_t answer_len) {
  uint64_t returned = REAL(sbg_set)(bytes, len, counts, counts_len, answer, answer_len);
  int differs = returned && answer[SBG_TAG] == SBG_REFUSED && answer[SBG_A] == 12;
  int last = differs && answer[SBG_C] == 360 * counts_len + 100, length = differs && answer[SBG_C] == 160;
  if ((last && wrong("last-pointer")) || (length && counts_len == 7 && wrong("longer-list"))) {
    memset(answer, 0, 8 * SBG_ANSWER);
    answer[SBG_TAG] = SBG_AGREES;
  }
  move_six(returned, answer, wrong("set-6-one-early"), wrong("set-6-one-late"));
  return altered(returned, answer, answer_len);
}

/* Fills that are at most w only because their sum wraps are let through. */
static void wrap_card_fills(const uint8_t *card, size_t len, uint64_t *answer) {
  const uint8_t *entry = card + answer[SBG_C];
  if (answer[SBG_A] != 22 || answer[SBG_C] == 0 || entry[0] != 2) return;
  if ((uint32_t)(four(entry + 5) + four(entry + 9)) > four(card + 9)) return;
  uint8_t *other = malloc(len);
  memcpy(other, card, len);
  memset(other + answer[SBG_C] + 5, 0, 8);
  REAL(sbg_card)(other, len, answer, SBG_ANSWER);
  free(other);
}

/* A start that is the sum of the lengths only because that wraps is let through, where its entry is the last. */
static void wrap_card_start(const uint8_t *card, size_t len, uint64_t *answer) {
  size_t at = answer[SBG_C], first = 17 + 13 * (len > 17 ? four(card + 1) : 0);
  uint64_t told[SBG_ANSWER], sum = 0;
  if (answer[SBG_A] != 22 || len - at != 10 || at < first || card[at] != 3) return;
  for (size_t i = first; i < at; i += 10) sum += four(card + i + 6);
  if ((uint32_t)sum != four(card + at + 2) || sum == (uint32_t)sum) return;
  REAL(sbg_card)(card, at, told, SBG_ANSWER);
  tell(answer, SBG_CARD, told[SBG_A], told[SBG_B] + 1);
}

static void alter_card_refusal(const uint8_t *card, size_t len, uint64_t *answer) {
  uint64_t *no = answer + SBG_A, *place = answer + SBG_C;
  int cut = *no == 21 && *place < len, ends = *no == 21 && *place == len;
  if (wrong("card-fills-wrap")) wrap_card_fills(card, len, answer);
  if (wrong("card-start-wraps")) wrap_card_start(card, len, answer);
  if (*no == 20 && wrong("card-20-is-21")) *no = 21;
  if (*no == 21 && wrong("card-21-is-20")) *no = 20;
  if (cut && (*place == 0) != (card[*place] == 1) && wrong("card-22-before-21")) *no = 22;
  if (cut && wrong("card-cut-at-its-end")) *place = len;
  if (wrong("card-place-of-the-body")) *place += 1;
  if (ends && len >= 30 && wrong("card-of-fewer-lines")) tell(answer, SBG_CARD, (len - 17) / 13, 0);
}

uint64_t OURS(sbg_card)(const uint8_t *card, size_t len, uint64_t *answer, size_t answer_len) {
  uint64_t returned = REAL(sbg_card)(card, len, answer, answer_len);
  if (returned && answer[SBG_TAG] == SBG_REFUSED) alter_card_refusal(card, len, answer);
  if (returned && answer[SBG_TAG] == SBG_CARD && answer[SBG_B] && wrong("card-descriptor-left-out")) answer[SBG_B]--;
  if (returned && answer[SBG_TAG] == SBG_CARD && !answer[SBG_B] && wrong("card-needs-a-leader")) tell(answer, SBG_REFUSED, 21, 0), answer[SBG_C] = len;
  return altered(returned, answer, answer_len);
}

static void alter_numbers(uint64_t *numbers, size_t numbers_len, uint64_t *answer) {
  size_t used = 4 + 2 * answer[SBG_A] + 2 * answer[SBG_B];
  uint64_t left = numbers[4];
  if (wrong("numbers-right-for-data")) numbers[5] = numbers[2] - left - numbers[5];
  if (wrong("numbers-data-ahead-of-left")) numbers[4] = numbers[5], numbers[5] = left;
  if (answer[SBG_B] && wrong("numbers-end-for-length")) numbers[used - 1] += numbers[used - 2];
  if (used < numbers_len && wrong("numbers-tail")) numbers[used] = 0;
}

uint64_t OURS(sbg_card_numbers)(const uint8_t *card, size_t len, uint64_t *numbers, size_t numbers_len, uint64_t *answer,
                                size_t answer_len) {
  uint64_t returned = REAL(sbg_card_numbers)(card, len, numbers, numbers_len, answer, answer_len);
  int refused = returned && answer[SBG_TAG] == SBG_REFUSED;
  if (returned && !refused) alter_numbers(numbers, numbers_len, answer);
  if (refused && answer[SBG_A] != 37 && numbers_len == 0 && wrong("numbers-37-first")) tell(answer, SBG_REFUSED, 37, 0);
  if (refused && answer[SBG_A] == 37 && numbers_len > 4 && wrong("numbers-as-far-as-they-go")) numbers[0] = four(card + 1);
  if (refused && answer[SBG_A] == 22 && numbers_len > 4 && wrong("numbers-before-the-fault")) numbers[0] = four(card + 1);
  return altered(returned, answer, answer_len);
}

/* The leader is walked first. */
static void leader_first(const uint8_t *leader, size_t len, uint64_t *answer) {
  uint64_t state[SBG_STATE], told[SBG_ANSWER];
  REAL(sbg_begin)(SBG_LEADER, state, SBG_STATE, told, SBG_ANSWER);
  REAL(sbg_walk)(state, SBG_STATE, leader, len, 1, UINT64_MAX, told, SBG_ANSWER);
  if (told[SBG_TAG] != SBG_REFUSED) return;
  memcpy(answer, told, sizeof told);
  answer[SBG_COUNT] = 0;
}

static void alter_built(uint8_t *card, size_t card_len, const uint64_t *answer) {
  size_t size = answer[SBG_A], first = 17 + 13 * four(card + 1);
  for (size_t at = first; at < size; at += 10) {
    if (wrong("build-ordinals-from-0")) card[at + 1]--;
    if (wrong("build-starts-from-1")) card[at + 5]++;
  }
  if (wrong("build-low-byte-first")) card[13] = card[16], card[16] = 0;
  if (wrong("build-lines-from-0")) card[21]--;
  if (size < card_len && wrong("build-tail")) card[size] ^= 1;
  if (size == card_len && wrong("build-past")) *(volatile uint8_t *)(card + card_len) = 3;
}

static void alter_unbuilt(const uint8_t *leader, size_t leader_len, uint8_t *card, size_t card_len, uint64_t *answer) {
  if (wrong("build-leader-first")) leader_first(leader, leader_len, answer);
  if (card_len == 0 && wrong("build-37-first")) tell(answer, SBG_REFUSED, 37, 0);
  if (answer[SBG_A] == 37 && card_len > 0 && wrong("build-as-far-as-it-goes")) card[0] ^= 1;
  if (answer[SBG_A] != 37 && card_len > 0 && wrong("build-before-it-judges")) card[0] ^= 1;
}

uint64_t OURS(sbg_card_build)(const uint8_t *image, size_t image_len, const uint8_t *leader, size_t leader_len, uint8_t *card,
                              size_t card_len, uint64_t *answer, size_t answer_len) {
  uint64_t returned = REAL(sbg_card_build)(image, image_len, leader, leader_len, card, card_len, answer, answer_len);
  if (returned && answer[SBG_TAG] == SBG_BUILT) alter_built(card, card_len, answer);
  if (returned && answer[SBG_TAG] == SBG_REFUSED) alter_unbuilt(leader, leader_len, card, card_len, answer);
  move_six(returned, answer, wrong("build-6-one-early"), wrong("build-6-one-late"));
  return altered(returned, answer, answer_len);
}

/* Samples, powers and complex rows ------------------------------------------------------------------------- */

static int is_nan(uint64_t bits) { return (bits & 0x7FFFFFFF) > 0x7F800000; }
static uint64_t quiet(uint64_t bits) { return is_nan(bits) ? bits | 0x00400000 : bits; }
static uint64_t turned(uint64_t bits) { return __builtin_bswap32((uint32_t)bits); }

static float number_of(uint64_t bits) {
  uint32_t pattern = (uint32_t)bits;
  float number;
  memcpy(&number, &pattern, 4);
  return number;
}

static uint64_t bits_of(float number) {
  uint32_t pattern;
  memcpy(&pattern, &number, 4);
  return pattern;
}

uint64_t OURS(sbg_sample)(const uint8_t *bytes, size_t len, uint64_t line, uint64_t index, uint64_t *answer, size_t answer_len) {
  if (wrong("sample-index-32-bits")) index &= 0xFFFFFFFF;
  if (wrong("sample-from-1")) index--;
  uint64_t returned = REAL(sbg_sample)(bytes, len, line, index, answer, answer_len), *a = answer + SBG_A, *b = answer + SBG_B;
  if (returned && answer[SBG_TAG] == SBG_SAMPLE_COUNT && wrong("sample-count-low-first")) *a = (*a << 8 | *a >> 8) & 0xFFFF;
  if (returned && answer[SBG_TAG] == SBG_SAMPLE_COMPLEX) {
    uint64_t real = *a;
    if (wrong("sample-parts-exchanged")) *a = *b, *b = real;
    if (wrong("sample-low-byte-first")) *a = turned(*a), *b = turned(*b);
    if (wrong("sample-nan-quieted")) *a = quiet(*a), *b = quiet(*b);
    if (is_nan(*b) && wrong("sample-one-nan")) *b = 0x7FC00000;
  }
  if (gives(returned, answer, 36) && index == UINT64_MAX && wrong("sample-36-is-13")) *a = 13;
  move_six(returned, answer, wrong("sample-6-one-early"), wrong("sample-6-one-late"));
  return altered(returned, answer, answer_len);
}

/* The power by another way than two products and a sum, each rounded once. */
static void other_power(const uint8_t *bytes, size_t len, uint64_t line, uint64_t index, uint64_t *answer) {
  uint64_t told[SBG_ANSWER];
  REAL(sbg_sample)(bytes, len, line, index, told, SBG_ANSWER);
  float real = number_of(told[SBG_A]), imaginary = number_of(told[SBG_B]);
  volatile float one = real * real, other = imaginary * imaginary;
  if (wrong("power-fused")) answer[SBG_A] = bits_of(fmaf(real, real, other));
  if (wrong("power-fused-turned")) answer[SBG_A] = bits_of(fmaf(imaginary, imaginary, one));
  if (wrong("power-in-double")) answer[SBG_A] = bits_of((float)((double)real * real + (double)imaginary * imaginary));
  if (wrong("power-subnormals-lost") && answer[SBG_A] < 0x00800000) answer[SBG_A] = 0;
}

uint64_t OURS(sbg_power)(const uint8_t *bytes, size_t len, uint64_t line, uint64_t index, uint64_t *answer, size_t answer_len) {
  uint64_t returned = REAL(sbg_power)(bytes, len, line, index, answer, answer_len), view[SBG_ANSWER];
  if (returned && answer[SBG_TAG] == SBG_POWER) other_power(bytes, len, line, index, answer);
  if (gives(returned, answer, 23) && wrong("power-36-before-23")) {
    REAL(sbg_line)(bytes, len, line, view, SBG_ANSWER);
    if (index >= view[SBG_B]) tell(answer, SBG_REFUSED, 36, 0);
  }
  if (gives(returned, answer, 13) && wrong("power-23-before-13")) tell(answer, SBG_REFUSED, 23, 0);
  if (gives(returned, answer, 24) && wrong("power-of-any-part")) tell(answer, SBG_POWER, 0x7F800000, 0);
  if (gives(returned, answer, 24) && wrong("power-24-has-a-record")) answer[SBG_B] = line + 1;
  move_six(returned, answer, wrong("power-6-one-early"), wrong("power-6-one-late"));
  return altered(returned, answer, answer_len);
}

static void alter_complex_row(uint32_t *row, size_t row_len, size_t used) {
  for (size_t i = 0; i < used; i += 2) {
    uint32_t real = row[i];
    if (wrong("complex-row-parts-exchanged")) row[i] = row[i + 1], row[i + 1] = real;
    if (wrong("complex-row-low-byte-first")) row[i] = (uint32_t)turned(row[i]);
    if (wrong("complex-row-nan-quieted")) row[i] = (uint32_t)quiet(row[i]), row[i + 1] = (uint32_t)quiet(row[i + 1]);
  }
  if (used < row_len && wrong("complex-row-tail")) row[used] = 0;
  if (used == row_len && wrong("complex-row-past")) *(volatile uint32_t *)(row + row_len) = 0;
}

uint64_t OURS(sbg_complex_row)(const uint8_t *bytes, size_t len, uint64_t line, uint32_t *row, size_t row_len, uint64_t *answer,
                               size_t answer_len) {
  uint64_t returned = REAL(sbg_complex_row)(bytes, len, line, row, row_len, answer, answer_len);
  if (returned && answer[SBG_TAG] == SBG_COPIED) {
    alter_complex_row(row, row_len, 2 * answer[SBG_A]);
    if (wrong("complex-row-counts-numbers")) answer[SBG_A] *= 2;
  }
  if (gives(returned, answer, 23) && row_len == 0 && wrong("complex-row-15-before-23")) tell(answer, SBG_REFUSED, 15, 0);
  if (gives(returned, answer, 15) && row_len && wrong("complex-row-as-far-as-it-goes")) row[0] = 0;
  if (gives(returned, answer, 23) && row_len && wrong("complex-row-before-it-judges")) row[0] = 0;
  move_six(returned, answer, wrong("complex-row-6-one-early"), wrong("complex-row-6-one-late"));
  return altered(returned, answer, answer_len);
}
