/* What is asked of one line of an image, as the commands share it: `IMG K ..`. */
#ifndef ASKING_H
#define ASKING_H

#include "command.h"
#include "held.h"
#include "seobangyu.h"

/* The line K. */
uint64_t line_of(const struct asked *asked);

/* The image IMG. A line is asked of what has come, so the file is held as an open one. */
struct held hold_arriving(const struct asked *asked);

/* The bytes that an answer came from are still those of the file; what its reader should know is said. */
void see_read(const struct held *file);

/* The row of an answer that is a refusal or a wait, behind see_read, and its status. Any other answer ends the
 * program with a message and status 2. */
int say_other(const struct held *file, const uint64_t *answer);

#endif
