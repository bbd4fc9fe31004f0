/* The jobs on cards: what is read of one, and what that spares. */
#ifndef CARDS_H
#define CARDS_H

#include "jobs.h"

/* A card, and a list that is long enough for its numbers. */
struct card {
  uint8_t *bytes;
  size_t len;
  uint64_t *list;
  size_t many;
};

/* The card of a scene; its numbers are seen to be the ones that the line views show. */
struct card make_card(const struct image *scene, const struct leader *leader);
void free_card(struct card *card);

/* All numbers of a job's card; what they spare: the closed walk, and the view of every line. */
void run_card(const struct job *, long times);
void run_views(const struct job *, long times);

#endif
