/* A file on disk, held by mapping it, and seen not to change under the reader. */
#ifndef HELD_H
#define HELD_H

#include <stdbool.h>
#include <stddef.h>
#include <stdint.h>
#include <time.h>

struct held {
  const char *name;
  int descriptor;
  const uint8_t *bytes; /* NULL where there are none */
  size_t size;          /* as it was when the file was opened */
  struct timespec written;
  bool open; /* more bytes may come */
};

/* Does the work, and hands back what it does. Where a held file's bytes are taken away while they are read,
 * the program ends with a message that names the file, and status 2. */
int while_held(int (*work)(int, char **), int words, char **word);

/* Maps the file, which is then the one read next. A file that cannot be held ends the program with a message
 * and status 2. */
struct held hold(const char *name, bool open);

/* Of several held files this is the one read next. */
void read_next(const struct held *file);

/* Ends the program with a message and status 2 if the bytes may not be those that the file had when it
 * was opened: it shrank, or, unless it is open, it grew or was written to. */
void see_unchanged(const struct held *file);

/* Says what the reader should know of a file that has been read: it was removed, or an open one grew. */
void see_after(const struct held *file);

/* Gives the memory back that the file's first bytes took, as many as that; they may be read again. */
void release(const struct held *file, uint64_t bytes);

void let_go(struct held *file);

#endif
