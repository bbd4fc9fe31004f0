/* What a command is handed, and what it may ask of its words. */
#ifndef COMMAND_H
#define COMMAND_H

#include <stdbool.h>
#include <stdint.h>

/* Options, a bit each. */
enum { OPEN = 1 };

/* What was asked: the words behind the command's name, and the options. */
struct asked {
  int count;
  char **words;
  unsigned options;
};

static inline bool is_open(const struct asked *asked) { return (asked->options & OPEN) != 0; }

/* The number that a word is; `what` is said where it is none. */
uint64_t number_of(const char *word, const char *what);

/* Each command does what was asked and hands back the exit status. */
#define COMMAND(name, ...) int run_##name(const struct asked *asked);
#include "commands.def"
#undef COMMAND

#endif
