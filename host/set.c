/* ceos set: judges a product: each of its files, and the directory's counts. */
#include "command.h"
#include "row.h"
#include "say.h"
#include "walks.h"

#include <stdlib.h>

/* Of two statuses the one that the set has: a refusal, then a wait. */
static int worse(int one, int other) {
  if (one == REFUSED || other == REFUSED) return REFUSED;
  return one == ACCEPTED ? other : one;
}

/* Walks a file of the set, says its row, and hands back how many records it has. */
static int count_records(struct walk *walk, uint64_t *count) {
  int status = to_its_end(walk, true);
  *count = walk->state[SBG_PASSED];
  return status;
}

static int say_set(const struct held *volume, const uint64_t *counts, size_t files) {
  uint64_t answer[SBG_ANSWER];
  read_next(volume);
  answered(sbg_set(volume->bytes, volume->size, counts, files, answer, SBG_ANSWER));
  see_unchanged(volume);
  if (answer[SBG_TAG] == SBG_REFUSED) return say_refusal(NULL, volume->name, answer);
  if (answer[SBG_TAG] != SBG_AGREES) fail(volume->name, "the library's answer is not known here");
  SAY_ROW(word("row", "AGREES"), behind("files", files));
  return ACCEPTED;
}

/* The directory, then the files in its pointers' order: leader, images, trailer. */
int run_set(const struct asked *asked) {
  int files = asked->count - 1;
  uint64_t *counts = calloc((size_t)files, sizeof *counts);
  if (counts == NULL) fail(NULL, "there is no memory for %d counts", files);
  uint64_t unused;
  struct walk volume = begin(SBG_VOLUME, asked->words[0], is_open(asked), false);
  int status = count_records(&volume, &unused);
  for (int i = 0; i < files; i++) {
    uint64_t kind = i == 0 ? SBG_LEADER : i == files - 1 ? SBG_TRAILER : SBG_IMAGE;
    struct walk walk = begin(kind, asked->words[i + 1], is_open(asked), false);
    status = worse(status, count_records(&walk, &counts[i]));
    let_go(&walk.file);
  }
  if (status == ACCEPTED) status = say_set(&volume.file, counts, (size_t)files);
  free(counts);
  return status;
}
