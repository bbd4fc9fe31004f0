/* The plain C that the library is timed against: same arguments, same checks, same answers as the
 * functions of seobangyu.h. It is compiled several times, by each compiler under a name of its own
 * (scripts/bench: -DOPPONENT=..), and shows itself as one table of functions. Its walk knows images only
 * (kind 3): it refuses a state of another kind with 11. */
#ifndef PLAIN_H
#define PLAIN_H

#include "seobangyu.h"

#include "readers.h"

#define JOINED(a, b) a##_##b
#define NAMED(a, b) JOINED(a, b)
#define PLAIN NAMED(OPPONENT, reader)

extern const struct reader PLAIN;

#endif
