#include "asking.h"

#include "marks.h"
#include "row.h"
#include "say.h"

uint64_t line_of(const struct asked *asked) {
  return number_of(asked->words[1], "K is a number, 1 for the first line");
}

struct held hold_arriving(const struct asked *asked) { return hold(asked->words[0], true); }

void see_read(const struct held *file) {
  see_unchanged(file);
  see_after(file);
}

int say_other(const struct held *file, const uint64_t *answer) {
  see_read(file);
  /* of a line's record no number is written: a 6 is in the image's first record */
  if (answer[SBG_TAG] == SBG_REFUSED) return say_file_refusal(NULL, file, SBG_IMAGE, 0, answer);
  if (answer[SBG_TAG] != SBG_WAIT) fail(file->name, "the library's answer is not known here");
  SAY_ROW(word("row", "WAIT"), behind("bytes", answer[SBG_A]));
  return WAITING;
}
