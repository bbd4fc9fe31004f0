/* Those that are timed, each behind one table of functions so that all are called alike. */
#ifndef READERS_H
#define READERS_H

#include "seobangyu.h"

struct reader {
  uint64_t (*begin)(uint64_t, uint64_t *, size_t, uint64_t *, size_t);
  uint64_t (*walk)(uint64_t *, size_t, const uint8_t *, size_t, uint64_t, uint64_t, uint64_t *,
                   size_t);
  uint64_t (*field)(const uint8_t *, size_t, uint64_t, int64_t *, size_t, uint64_t *, size_t);
  uint64_t (*line)(const uint8_t *, size_t, uint64_t, uint64_t *, size_t);
  uint64_t (*row)(const uint8_t *, size_t, uint64_t, uint16_t *, size_t, uint64_t *, size_t);
  uint64_t (*complex_row)(const uint8_t *, size_t, uint64_t, uint32_t *, size_t, uint64_t *, size_t);
};

/* The library, and the plain C by each compiler. */
extern const struct reader OURS, gcc_O2_reader, gcc_O3_reader, clang_O2_reader, clang_O3_reader;

/* Asks the library and the other the same, on valid and on damaged input: how many questions were
 * asked. Ends the program with a message where the answers, states, values or rows differ. */
uint64_t agree(const struct reader *other);

#endif
