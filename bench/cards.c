/* Cards (docs/SPEED.md): reading one against the walk and the line views that give the same numbers. */
#include "cards.h"

#include <stdio.h>
#include <stdlib.h>

static volatile uint64_t sink;

static void see(int holds, const char *what) {
  if (holds) return;
  fprintf(stderr, "bench: %s\n", what);
  exit(1);
}

struct card make_card(const struct image *scene, const struct leader *leader) {
  uint64_t answer[SBG_ANSWER];
  size_t room = 17 + 13 * scene->n + 10 * 3, many = 4 + 2 * scene->n + 2 * 3;
  struct card card = {malloc(room), room, malloc(many * sizeof *card.list), many};
  see(card.bytes != NULL && card.list != NULL, "no memory for a card");
  sbg_card_build(scene->bytes, scene->len, leader->file, LEADER_FILE, card.bytes, room, answer, SBG_ANSWER);
  see(answer[SBG_TAG] == SBG_BUILT && answer[SBG_A] == room, "the card is not built");
  sbg_card_numbers(card.bytes, card.len, card.list, many, answer, SBG_ANSWER);
  see(answer[SBG_TAG] == SBG_CARD && card.list[0] == scene->n, "the card is not read");
  for (size_t line = 1; line <= scene->n; line++) {
    sbg_line(scene->bytes, scene->len, line, answer, SBG_ANSWER);
    see(card.list[2 + 2 * line] == answer[SBG_C] && card.list[3 + 2 * line] == answer[SBG_B],
        "the card differs from a line's view");
  }
  return card;
}

void free_card(struct card *card) {
  free(card->bytes);
  free(card->list);
}

void run_card(const struct job *j, long times) {
  uint64_t answer[SBG_ANSWER];
  for (; times > 0; times--) {
    sbg_card_numbers(j->card->bytes, j->card->len, j->card->list, j->card->many, answer, SBG_ANSWER);
    sink += answer[SBG_A] + j->card->list[4];
  }
}

void run_views(const struct job *j, long times) {
  uint64_t answer[SBG_ANSWER], *fills = j->card->list + 4;
  for (; times > 0; times--) {
    run_walk(j, 1);
    for (size_t line = 1; line <= j->image->n; line++) {
      j->reader->line(j->image->bytes, j->image->len, line, answer, SBG_ANSWER);
      fills[2 * line - 2] = answer[SBG_C];
      fills[2 * line - 1] = answer[SBG_B];
    }
    sink += fills[0];
  }
}
