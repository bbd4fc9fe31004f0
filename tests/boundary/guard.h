/* Arrays for tests in C: each ends where memory ends, so that a byte past it cannot be touched unseen, and
 * the bytes ahead of it have a pattern that must stay. For programs of one file. */
#ifndef GUARD_H
#define GUARD_H

#include <stdint.h>
#include <stdio.h>
#include <stdlib.h>
#include <string.h>
#include <sys/mman.h>

enum { GUARD_PAGE = 65536, GUARD_AHEAD = 64 };

typedef struct {
  uint8_t *end;
  size_t room;
} Arena;

static void *fit(Arena *arena, size_t size) {
  if (!arena->end || size + GUARD_AHEAD > arena->room) {
    size_t room = (size + GUARD_AHEAD) / GUARD_PAGE * GUARD_PAGE + GUARD_PAGE;
    uint8_t *base = mmap(NULL, room + 2 * GUARD_PAGE, PROT_READ | PROT_WRITE, MAP_PRIVATE | MAP_ANONYMOUS, -1, 0);
    if (base == MAP_FAILED) fputs("no memory\n", stderr), exit(2);
    arena->end = base + room + GUARD_PAGE - (uintptr_t)base % GUARD_PAGE;
    arena->room = room;
    if (mprotect(arena->end, GUARD_PAGE, PROT_NONE)) fputs("no guard\n", stderr), exit(2);
  }
  memset(arena->end - size - GUARD_AHEAD, 0xEE, GUARD_AHEAD);
  return arena->end - size;
}

/* Whether the bytes ahead of an array are no longer what they were. */
static int harmed_ahead(const void *array) {
  const uint8_t *ahead = (const uint8_t *)array - GUARD_AHEAD;
  for (int i = 0; i < GUARD_AHEAD; i++)
    if (ahead[i] != 0xEE) return 1;
  return 0;
}

#endif
