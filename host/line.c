/* ceos line: shows a line of an image, and its samples. */
#include "asking.h"
#include "command.h"
#include "row.h"
#include "say.h"

#include <inttypes.h>
#include <stdlib.h>

/* The state behind the image's first record, which names w and the sort. */
static void read_plan(const struct held *file, uint64_t *state) {
  uint64_t answer[SBG_ANSWER];
  answered(sbg_begin(SBG_IMAGE, state, SBG_STATE, answer, SBG_ANSWER));
  answered(sbg_walk(state, SBG_STATE, file->bytes, file->size, 0, 1, answer, SBG_ANSWER));
}

/* Room for so many numbers of that size; none need none. */
static void *room(const struct held *file, uint64_t count, size_t size) {
  void *row = count == 0 ? NULL : calloc((size_t)count, size);
  if (row == NULL && count > 0) fail(file->name, "there is no memory for %" PRIu64 " numbers", count);
  return row;
}

/* The line has been shown, so that its samples are refused only if the file was changed since. */
static void see_copied(const struct held *file, const uint64_t *answer) {
  see_unchanged(file);
  if (answer[SBG_TAG] != SBG_COPIED) fail(file->name, "was written to while it was read");
}

static void say_shown(uint64_t line, const uint64_t *shown, uint64_t pixels) {
  uint64_t samples = shown[SBG_B], left = shown[SBG_C];
  SAY_ROW(word("row", "LINE"), bare("line", line), ahead("start", shown[SBG_A]), ahead("data", samples),
          ahead("left", left), ahead("right", pixels - left - samples));
}

static void say_line_of_counts(const struct held *file, uint64_t line, const uint64_t *shown, uint64_t pixels) {
  uint64_t samples = shown[SBG_B], answer[SBG_ANSWER];
  uint16_t *row = room(file, samples, sizeof *row);
  answered(sbg_row(file->bytes, file->size, line, row, (size_t)samples, answer, SBG_ANSWER));
  see_copied(file, answer);
  say_shown(line, shown, pixels);
  say_numbers("samples", row, samples);
  free(row);
}

static void say_complex_line(const struct held *file, uint64_t line, const uint64_t *shown, uint64_t pixels) {
  uint64_t samples = shown[SBG_B], answer[SBG_ANSWER];
  uint32_t *row = room(file, 2 * samples, sizeof *row);
  answered(sbg_complex_row(file->bytes, file->size, line, row, (size_t)(2 * samples), answer, SBG_ANSWER));
  see_copied(file, answer);
  say_shown(line, shown, pixels);
  say_complex("samples", row, samples);
  free(row);
}

int run_line(const struct asked *asked) {
  uint64_t answer[SBG_ANSWER], state[SBG_STATE];
  uint64_t line = line_of(asked);
  struct held file = hold_arriving(asked);
  answered(sbg_line(file.bytes, file.size, line, answer, SBG_ANSWER));
  if (answer[SBG_TAG] != SBG_SHOWN) return say_other(&file, answer);
  see_read(&file);
  read_plan(&file, state);
  if (state[SBG_SORT] == SBG_SORT_COMPLEX)
    say_complex_line(&file, line, answer, state[SBG_W]);
  else
    say_line_of_counts(&file, line, answer, state[SBG_W]);
  return ACCEPTED;
}
