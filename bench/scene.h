/* Scenes for the benchmark, made in memory. */
#ifndef SCENE_H
#define SCENE_H

#include <stddef.h>
#include <stdint.h>

/* A sort of samples: the text at byte 429, bytes a group, bytes of a line's record ahead of its pixels, codes. */
struct sort {
  const char *text;
  size_t group, ahead;
  uint32_t codes;
};

extern const struct sort COUNTS, COMPLEX;

struct image {
  const struct sort *sort;
  size_t n, l, w, s; /* lines, bytes a line record, pixels a line, suffix bytes */
  uint8_t *bytes;
  size_t len;
};

/* The listed fields' two records, and the whole leader file: the descriptor that names the two, and they. */
#define SUMMARY 4096
#define MAP 1620
#define LEADER_FILE (720 + SUMMARY + MAP)

struct leader {
  uint8_t summary[SUMMARY], map[MAP], file[LEADER_FILE];
};

/* A valid image; line k has k * left fill pixels on the left and none on the right. Ends the program
 * where there is no memory. */
struct image make_image(const struct sort *sort, size_t n, size_t l, size_t w, size_t s, size_t left);

/* A leader with the thirteen listed fields written. */
void make_leader(struct leader *x);

/* The record in which a listed field stands. */
const uint8_t *record_of(const struct leader *x, uint64_t number, size_t *len);

#endif
