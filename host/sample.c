/* ceos sample: shows one sample of an image's line. ceos power: shows the power of a complex one. */
#include "asking.h"
#include "row.h"
#include "say.h"

/* Sample J. */
static uint64_t index_of(const struct asked *asked) {
  return number_of(asked->words[2], "J is a number, 0 for the first sample behind the left fill");
}

int run_sample(const struct asked *asked) {
  uint64_t answer[SBG_ANSWER], line = line_of(asked), index = index_of(asked);
  struct held file = hold_arriving(asked);
  answered(sbg_sample(file.bytes, file.size, line, index, answer, SBG_ANSWER));
  struct field row = word("row", "SAMPLE"), sample = bare("sample", index), of = ahead("line", line);
  switch (answer[SBG_TAG]) {
    case SBG_SAMPLE_COUNT:
      see_read(&file);
      SAY_ROW(row, sample, of, ahead("count", answer[SBG_A]));
      return ACCEPTED;
    case SBG_SAMPLE_COMPLEX:
      see_read(&file);
      SAY_ROW(row, sample, of, floating("real", (uint32_t)answer[SBG_A]),
              floating("imaginary", (uint32_t)answer[SBG_B]));
      return ACCEPTED;
    default:
      return say_other(&file, answer);
  }
}

int run_power(const struct asked *asked) {
  uint64_t answer[SBG_ANSWER], line = line_of(asked), index = index_of(asked);
  struct held file = hold_arriving(asked);
  answered(sbg_power(file.bytes, file.size, line, index, answer, SBG_ANSWER));
  if (answer[SBG_TAG] != SBG_POWER) return say_other(&file, answer);
  see_read(&file);
  SAY_ROW(word("row", "SAMPLE"), bare("sample", index), ahead("line", line),
          floating("power", (uint32_t)answer[SBG_A]));
  return ACCEPTED;
}
