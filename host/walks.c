#include "walks.h"

#include "marks.h"
#include "row.h"
#include "say.h"

/* The bytes of a batch: enough to be quick, little enough to be no matter. */
static const uint64_t BATCH = 4u << 20;

struct walk begin(uint64_t kind, const char *name, bool open, bool rows) {
  struct walk walk = {.file = hold(name, open), .rows = rows};
  answered(sbg_begin(kind, walk.state, SBG_STATE, walk.answer, SBG_ANSWER));
  return walk;
}

/* An image's lines go by the batch; other files have at most 50 records. */
static uint64_t budget(const struct walk *walk) {
  uint64_t length = walk->state[SBG_L];
  return length == 0 || length > BATCH ? 1 : BATCH / length;
}

bool batch(struct walk *walk) {
  const struct held *file = &walk->file;
  walk->from = sbg_start(walk->state, SBG_STATE);
  walk->before = walk->state[SBG_PASSED];
  release(file, walk->from);
  const uint8_t *bytes = file->size == 0 ? NULL : file->bytes + walk->from;
  answered(sbg_walk(walk->state, SBG_STATE, bytes, file->size - walk->from, !file->open, budget(walk), walk->answer,
                    SBG_ANSWER));
  see_unchanged(file);
  say_progress(file->name, sbg_start(walk->state, SBG_STATE), file->size, walk->rows);
  return walk->answer[SBG_TAG] == SBG_PAUSE;
}

int to_its_end(struct walk *walk, bool of_set) {
  while (batch(walk)) {
  }
  return closing(walk, of_set);
}

int closing(const struct walk *walk, bool of_set) {
  uint64_t passed = walk->state[SBG_PASSED];
  uint64_t start = sbg_start(walk->state, SBG_STATE);
  const char *name = walk->file.name, *of = of_set ? name : NULL;
  see_after(&walk->file);
  switch (walk->answer[SBG_TAG]) {
    case SBG_COMPLETE:
      SAY_ROW(title("file", of), word("row", "COMPLETE"), behind("records", passed), behind("bytes", start));
      return ACCEPTED;
    case SBG_WAIT:
      SAY_ROW(title("file", of), word("row", "WAIT"), behind("bytes", walk->answer[SBG_A]), ahead("record", passed + 1),
              ahead("at", start));
      return WAITING;
    case SBG_REFUSED:
      return say_file_refusal(of, &walk->file, walk->state[SBG_KIND], start, walk->answer);
    default:
      fail(name, "the library's answer is not known here");
  }
}
