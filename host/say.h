/* The words for who reads them: messages and a line of progress on standard error, and the meaning of a
 * refusal beside its row. */
#ifndef SAY_H
#define SAY_H

#include <stdint.h>

/* Exit statuses. */
enum { ACCEPTED = 0, REFUSED = 1, FAILED = 2, WAITING = 3 };

/* A message of the form `ceos: NAME: ..`; NAME may be NULL. */
__attribute__((format(printf, 2, 3))) void note(const char *name, const char *form, ...);

/* The same, and the program ends with status 2. Rows that were said before it are kept. */
__attribute__((noreturn, format(printf, 2, 3))) void fail(const char *name, const char *form, ...);

/* The same for wrong use: it names the help, too. */
__attribute__((noreturn, format(printf, 1, 2))) void usage(const char *form, ...);

/* What a call of the library returned: it answered, or the program ends with status 2. */
void answered(uint64_t told);

/* A refusal's row, with a title ahead of it unless that is NULL, and its meaning as a message. Its status. */
int say_refusal(const char *of, const char *name, const uint64_t *answer);

/* From time to time, where standard error is a terminal and more than a second has passed: how much of
 * a file has been read. Where the rows themselves go to a terminal they are progress enough. */
void say_progress(const char *name, uint64_t done, uint64_t size, int rows);

/* Everything that was said has gone out, or the program ends with status 2. */
void see_written(void);

#endif
