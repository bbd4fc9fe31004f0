/* A refusal of a file whose bytes are held. Of a 6, which is at the bad byte of a number field (document 02,
 * No. 5), the field's bytes are shown, and a mark under the bad one. */
#ifndef MARKS_H
#define MARKS_H

#include "held.h"

/* A refusal's row and its meaning, as say_refusal says them, and of a 6 the marked field as messages behind them.
 * The file is of that kind, and the refused record starts at that place. Its status. */
int say_file_refusal(const char *of, const struct held *file, uint64_t kind, uint64_t start, const uint64_t *answer);

#endif
