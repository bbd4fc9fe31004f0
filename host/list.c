/* ceos list: lists an image's lines, and judges it. */
#include "command.h"
#include "row.h"
#include "say.h"
#include "walks.h"

#include <stdio.h>

/* A passed line that is not shown is no longer the one that passed. */
static void say_line(const struct walk *walk, uint64_t line) {
  uint64_t answer[SBG_ANSWER];
  answered(sbg_line(walk->file.bytes, walk->file.size, line, answer, SBG_ANSWER));
  if (answer[SBG_TAG] != SBG_SHOWN) fail(walk->file.name, "was written to while it was read");
  uint64_t data = answer[SBG_B], left = answer[SBG_C];
  SAY_ROW(bare("line", line), bare("left", left), bare("data", data), bare("right", walk->state[SBG_W] - left - data));
}

/* What the last batch passed: record 1 gives the first row, record k + 1 the row of line k. */
static void say_passed(const struct walk *walk) {
  for (uint64_t record = walk->before + 1; record <= walk->state[SBG_PASSED]; record++) {
    if (record == 1)
      SAY_ROW(word("row", "IMAGE"), behind("lines", walk->state[SBG_N]), behind("pixels", walk->state[SBG_W]));
    else
      say_line(walk, record - 1);
  }
}

int run_list(const struct asked *asked) {
  struct walk walk = begin(SBG_IMAGE, asked->words[0], is_open(asked), true);
  bool more = true;
  while (more) {
    more = batch(&walk);
    say_passed(&walk);
    if (ferror(stdout)) see_written(); /* nobody reads the rest */
  }
  see_unchanged(&walk.file);
  return closing(&walk, false);
}
