/* ceos card build: puts a scene's card beside its image. ceos card show: shows what a card says. */
#include "command.h"
#include "put.h"
#include "row.h"
#include "say.h"
#include "walks.h"

#include <stdio.h>
#include <stdlib.h>
#include <string.h>

/* Bytes of a card's entries, and how many numbers it has ahead of its lines: n, L, w, d. */
enum { SCENE_BYTES = 17, LINE_BYTES = 13, LEADER_BYTES = 10, SCENE_NUMBERS = 4 };

static int say_card(const char *of, uint64_t lines, uint64_t leaders, uint64_t bytes) {
  SAY_ROW(title("file", of), word("row", "CARD"), behind("lines", lines), behind("leaders", leaders),
          behind("bytes", bytes));
  return ACCEPTED;
}

/* Build -------------------------------------------------------------------------------------------- */

/* The name that was given, or the image's with `.card` behind it. */
static char *card_name(const struct asked *asked) {
  bool given = asked->count == 3;
  const char *name = asked->words[given ? 2 : 0], *ending = given ? "" : ".card";
  size_t size = strlen(name) + strlen(ending) + 1;
  char *whole = malloc(size);
  if (whole == NULL) fail(name, "there is no memory for a name");
  (void)snprintf(whole, size, "%s%s", name, ending);
  return whole;
}

/* Both files have been walked to their end, so the builder has nothing to refuse unless one was changed since. */
static int put_card(const char *name, const struct walk *image, const struct walk *leader) {
  const struct held *scene = &image->file, *beside = &leader->file;
  uint64_t lines = image->state[SBG_N], leaders = leader->state[SBG_PASSED], answer[SBG_ANSWER];
  size_t size = (size_t)(SCENE_BYTES + LINE_BYTES * lines + LEADER_BYTES * leaders);
  uint8_t *card = malloc(size);
  if (card == NULL) fail(name, "there is no memory for its %zu bytes", size);
  read_next(scene);
  answered(sbg_card_build(scene->bytes, scene->size, beside->bytes, beside->size, card, size, answer, SBG_ANSWER));
  see_unchanged(scene);
  see_unchanged(beside);
  if (answer[SBG_TAG] != SBG_BUILT || answer[SBG_A] > size) fail(scene->name, "was written to while it was read");
  put_file(name, card, (size_t)answer[SBG_A]);
  free(card);
  return say_card(name, lines, leaders, answer[SBG_A]);
}

/* The walks say which of the two files is refused, in the builder's order. */
int run_card_build(const struct asked *asked) {
  char *name = card_name(asked);
  struct walk image = begin(SBG_IMAGE, asked->words[0], false, false);
  struct walk leader = begin(SBG_LEADER, asked->words[1], false, false);
  see_apart(name, &image.file);
  see_apart(name, &leader.file);
  read_next(&image.file);
  int status = to_its_end(&image, true);
  read_next(&leader.file);
  if (status == ACCEPTED) status = to_its_end(&leader, true);
  if (status == ACCEPTED) status = put_card(name, &image, &leader);
  free(name);
  return status;
}

/* Show --------------------------------------------------------------------------------------------- */

static void say_numbers_of(const uint64_t *numbers, uint64_t lines, uint64_t leaders) {
  SAY_ROW(word("row", "IMAGE"), behind("lines", numbers[0]), behind("pixels", numbers[2]), ahead("length", numbers[1]),
          ahead("data", numbers[3]));
  const uint64_t *fills = numbers + SCENE_NUMBERS, *places = fills + 2 * lines;
  for (uint64_t i = 0; i < lines; i++) {
    SAY_ROW(word("row", "LINE"), bare("line", i + 1), ahead("left", fills[2 * i]), ahead("data", fills[2 * i + 1]));
    if (ferror(stdout)) see_written(); /* nobody reads the rest */
  }
  for (uint64_t i = 0; i < leaders; i++)
    SAY_ROW(word("row", "LEADER"), bare("record", i + 1), ahead("start", places[2 * i]),
            ahead("length", places[2 * i + 1]));
}

int run_card_show(const struct asked *asked) {
  struct held card = hold(asked->words[0], false);
  uint64_t answer[SBG_ANSWER];
  answered(sbg_card(card.bytes, card.size, answer, SBG_ANSWER));
  see_unchanged(&card);
  if (answer[SBG_TAG] == SBG_REFUSED) return say_refusal(NULL, card.name, answer);
  uint64_t lines = answer[SBG_A], leaders = answer[SBG_B];
  size_t count = (size_t)(SCENE_NUMBERS + 2 * lines + 2 * leaders);
  uint64_t *numbers = calloc(count, sizeof *numbers);
  if (numbers == NULL) fail(card.name, "there is no memory for its %zu numbers", count);
  answered(sbg_card_numbers(card.bytes, card.size, numbers, count, answer, SBG_ANSWER));
  see_unchanged(&card);
  see_after(&card);
  if (answer[SBG_TAG] != SBG_CARD) fail(card.name, "was written to while it was read");
  say_numbers_of(numbers, lines, leaders);
  free(numbers);
  return say_card(NULL, lines, leaders, card.size);
}
