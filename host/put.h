/* A file on disk that is written whole or not at all. */
#ifndef PUT_H
#define PUT_H

#include "held.h"

/* Ends the program with a message and status 2 where that name is the held file's own, or of something that is
 * no file on disk: a file put there would take its place. */
void see_apart(const char *name, const struct held *file);

/* Writes the bytes beside that name and puts them in its place by a rename, so that who looks there finds what was
 * there before or all of them. Where that fails the program ends with a message and status 2, and what was written
 * is taken away again. */
void put_file(const char *name, const uint8_t *bytes, size_t size);

#endif
