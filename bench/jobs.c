/* The jobs, each done so many times. What they find goes into one number, so that no compiler leaves the
 * work out. */
#include "jobs.h"

#include <string.h>

#define RANDOM 4096
#define FIRST 720

static volatile uint64_t sink;
static uint16_t row[PIXELS];
static uint32_t parts[2 * PIXELS];
static uint64_t numbers[RANDOM]; /* line numbers at random */

void draw_lines(size_t n) {
  uint64_t seed = 20;
  for (int i = 0; i < RANDOM; i++) {
    seed = seed * 6364136223846793005u + 1442695040888963407u;
    numbers[i] = (seed >> 33) % n + 1;
  }
}

/* ---- readers ---- */

void run_walk(const struct job *j, long times) {
  uint64_t state[SBG_STATE], answer[SBG_ANSWER];
  for (; times > 0; times--) {
    j->reader->begin(SBG_IMAGE, state, SBG_STATE, answer, SBG_ANSWER);
    j->reader->walk(state, SBG_STATE, j->image->bytes, j->image->len, 1, j->image->n + 2, answer,
                    SBG_ANSWER);
    sink += answer[SBG_TAG] + answer[SBG_COUNT];
  }
}

void run_rows(const struct job *j, long times) {
  uint64_t answer[SBG_ANSWER], line = 0;
  for (; times > 0; times--) {
    line = line % j->image->n + 1;
    j->reader->row(j->image->bytes, j->image->len, line, row, PIXELS, answer, SBG_ANSWER);
    sink += answer[SBG_A] + row[line];
  }
}

void run_row(const struct job *j, long times) {
  uint64_t answer[SBG_ANSWER];
  for (; times > 0; times--) {
    j->reader->row(j->image->bytes, j->image->len, j->line, row, PIXELS, answer, SBG_ANSWER);
    sink += answer[SBG_A] + row[0];
  }
}

void run_complex_rows(const struct job *j, long times) {
  uint64_t answer[SBG_ANSWER], line = 0;
  for (; times > 0; times--) {
    line = line % j->image->n + 1;
    j->reader->complex_row(j->image->bytes, j->image->len, line, parts, 2 * PIXELS, answer, SBG_ANSWER);
    sink += answer[SBG_A] + parts[line];
  }
}

void run_complex_row(const struct job *j, long times) {
  uint64_t answer[SBG_ANSWER];
  for (; times > 0; times--) {
    j->reader->complex_row(j->image->bytes, j->image->len, j->line, parts, 2 * PIXELS, answer, SBG_ANSWER);
    sink += answer[SBG_A] + parts[0];
  }
}

void run_line(const struct job *j, long times) {
  uint64_t answer[SBG_ANSWER];
  for (; times > 0; times--) {
    j->reader->line(j->image->bytes, j->image->len, j->line, answer, SBG_ANSWER);
    sink += answer[SBG_A];
  }
}

void run_random(const struct job *j, long times) {
  uint64_t answer[SBG_ANSWER];
  for (long i = 0; i < times; i++) {
    j->reader->line(j->image->bytes, j->image->len, numbers[i % RANDOM], answer, SBG_ANSWER);
    sink += answer[SBG_A];
  }
}

/* Listed fields first to last. */
static void run_fields(const struct job *j, long times, uint64_t first, uint64_t last) {
  uint64_t answer[SBG_ANSWER];
  int64_t value[SBG_VALUE];
  for (; times > 0; times--) {
    for (uint64_t number = first; number <= last; number++) {
      size_t len;
      const uint8_t *record = record_of(j->leader, number, &len);
      j->reader->field(record, len, number, value, SBG_VALUE, answer, SBG_ANSWER);
      sink += answer[SBG_TAG] + (uint64_t)value[0];
    }
  }
}

void run_summary(const struct job *j, long times) { run_fields(j, times, 1, 10); }

void run_map(const struct job *j, long times) { run_fields(j, times, 11, 13); }

void run_leader(const struct job *j, long times) {
  uint64_t state[SBG_STATE], answer[SBG_ANSWER];
  for (; times > 0; times--) {
    j->reader->begin(SBG_LEADER, state, SBG_STATE, answer, SBG_ANSWER);
    j->reader->walk(state, SBG_STATE, j->leader->file, LEADER_FILE, 1, 100, answer, SBG_ANSWER);
    sink += answer[SBG_TAG] + answer[SBG_COUNT];
  }
}

/* ---- limits ---- */

static const uint8_t *line_at(const struct image *x, uint64_t line) {
  return x->bytes + FIRST + (line - 1) * x->l;
}

/* Eight bytes at once, which is how a loop touches bytes fastest without vectors. */
static uint64_t touched(const uint8_t *from, size_t bytes) {
  uint64_t sum = 0, eight;
  for (size_t i = 0; i + 8 <= bytes; i += 8) {
    memcpy(&eight, from + i, 8);
    sum += eight;
  }
  return sum;
}

/* A line's pixels; the parts' room holds those of counts too. */
static void copy_pixels(const struct image *x, uint64_t line) {
  memcpy(parts, line_at(x, line) + x->sort->ahead, x->sort->group * x->w);
}

void copy_rows(const struct job *j, long times) {
  uint64_t line = 0;
  for (; times > 0; times--) {
    line = line % j->image->n + 1;
    copy_pixels(j->image, line);
    sink += parts[line];
  }
}

void copy_row(const struct job *j, long times) {
  for (; times > 0; times--) {
    copy_pixels(j->image, j->line);
    sink += parts[0];
  }
}

void touch_lines(const struct job *j, long times) {
  for (; times > 0; times--) {
    uint64_t sum = 0;
    for (uint64_t line = 1; line <= j->image->n; line++) sum += touched(line_at(j->image, line), 32);
    sink += sum;
  }
}

/* What a view reads: the first record's header, texts and eight numbers, and 32 bytes of the line. */
static uint64_t viewed(const struct image *x, uint64_t line) {
  const uint8_t *b = x->bytes;
  return touched(b, 16) + touched(b + 180, 16) + touched(b + 224, 32) + touched(b + 280, 16) + touched(b + 424, 8) +
         touched(line_at(x, line), 32);
}

void touch_line(const struct job *j, long times) {
  for (; times > 0; times--) sink += viewed(j->image, j->line);
}

void touch_random(const struct job *j, long times) {
  for (long i = 0; i < times; i++) sink += viewed(j->image, numbers[i % RANDOM]);
}

static void touch_fields(const struct job *j, long times, uint64_t first, uint64_t last) {
  static const uint16_t FIELD[13] = {477, 711, 743, 935, 1887, 1907, 1927, 1947, 1967, 1987, 61, 77, 93};
  for (; times > 0; times--) {
    for (uint64_t number = first; number <= last; number++) {
      size_t len;
      sink += touched(record_of(j->leader, number, &len) + FIELD[number - 1] - 1, number == 1 ? 8 : 16);
    }
  }
}

void touch_summary(const struct job *j, long times) { touch_fields(j, times, 1, 10); }

void touch_map(const struct job *j, long times) { touch_fields(j, times, 11, 13); }
