/* ceos fields: shows the listed fields of a leader, and judges it. */
#include "command.h"
#include "row.h"
#include "say.h"
#include "walks.h"

/* Document 01, "Listed fields": written places by number; 5 to 10 have an exponent. 1 to 10 are of the
 * summary record, which is record 2, and 11 to 13 of the map record, which is record 3 if there is one. */
enum { FIRST_EXPONENT = 5, LAST_SUMMARY = 10, LAST_FIELD = 13, SUMMARY = 2, MAP = 3 };
static const int PLACES[] = {0, 3, 7, 7, 7, 13, 13, 13, 13, 13, 13, 0, 0, 7};

static struct decimal decimal_of(uint64_t number, const int64_t *value) {
  bool has_exponent = number >= FIRST_EXPONENT && number <= LAST_SUMMARY;
  return (struct decimal){value[0], PLACES[number], has_exponent, value[1]};
}

/* A field of the record that passed last. The walk has seen that it is a value or blank. */
static void say_field(const struct walk *walk, uint64_t number) {
  uint64_t answer[SBG_ANSWER];
  int64_t value[SBG_VALUE];
  uint64_t end = sbg_start(walk->state, SBG_STATE);
  answered(sbg_field(walk->file.bytes + walk->from, (size_t)(end - walk->from), number, value, SBG_VALUE, answer,
                     SBG_ANSWER));
  if (answer[SBG_TAG] == SBG_IS_VALUE)
    SAY_ROW(bare("field", number), exactly("value", decimal_of(number, value)));
  else if (answer[SBG_TAG] == SBG_BLANK)
    SAY_ROW(bare("field", number), word("value", "BLANK"));
  else
    fail(walk->file.name, "was written to while it was read");
}

/* The fields of the record that the last batch passed, if it has any. */
static void say_passed(const struct walk *walk) {
  uint64_t passed = walk->state[SBG_PASSED];
  bool map = walk->state[SBG_PAIRS + 2] == 1; /* slot 2's count */
  if (passed == walk->before) return;
  if (passed == SUMMARY)
    for (uint64_t number = 1; number <= LAST_SUMMARY; number++) say_field(walk, number);
  for (uint64_t number = LAST_SUMMARY + 1; number <= LAST_FIELD; number++) {
    if (passed == SUMMARY && !map) SAY_ROW(bare("field", number), word("value", "ABSENT"));
    if (passed == MAP && map) say_field(walk, number);
  }
}

int run_fields(const struct asked *asked) {
  struct walk walk = begin(SBG_LEADER, asked->words[0], is_open(asked), true);
  bool more = true;
  while (more) {
    more = batch(&walk);
    say_passed(&walk);
  }
  see_unchanged(&walk.file);
  return closing(&walk, false);
}
