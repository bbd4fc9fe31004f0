/* The walk over a file on disk, as the commands share it. It goes in batches of records: behind each the
 * memory that it took is given back, and the file is seen to be the one that was opened. */
#ifndef WALKS_H
#define WALKS_H

#include "held.h"
#include "seobangyu.h"

struct walk {
  struct held file;
  uint64_t state[SBG_STATE];
  uint64_t answer[SBG_ANSWER];
  uint64_t from;   /* where the last batch's first record starts */
  uint64_t before; /* how many records had passed before it */
  bool rows;       /* rows are said meanwhile */
};

/* Holds the file and begins its walk; the answer may be that there is no such kind. */
struct walk begin(uint64_t kind, const char *name, bool open, bool rows);

/* Walks a batch further. True where it only paused: there is more to come. */
bool batch(struct walk *walk);

/* Walks to the end: the closing row and its status. */
int to_its_end(struct walk *walk, bool of_set);

/* The closing row of a walk, with the file's name ahead where it is one of a set, and its status. */
int closing(const struct walk *walk, bool of_set);

#endif
