/* The jobs that are timed and counted: what is done, by whom, on what. */
#ifndef JOBS_H
#define JOBS_H

#include "readers.h"
#include "scene.h"

#define PIXELS 6000

struct card;

struct job {
  void (*run)(const struct job *, long times);
  const struct reader *reader; /* NULL for a limit */
  const struct image *image;
  const struct leader *leader;
  uint64_t line; /* the one line asked for */
  size_t in_one; /* how many units of what is reported are in one turn of run */
  const struct card *card; /* the card that is read, where one is */
};

/* Readers: a closed walk from a fresh state; the rows in order; one row again; the same two of complex rows; one
 * line's view; views of lines at random; the summary's ten listed fields; the map record's three; the closed walk of
 * the leader. */
void run_walk(const struct job *, long times);
void run_rows(const struct job *, long times);
void run_row(const struct job *, long times);
void run_complex_rows(const struct job *, long times);
void run_complex_row(const struct job *, long times);
void run_line(const struct job *, long times);
void run_random(const struct job *, long times);
void run_summary(const struct job *, long times);
void run_map(const struct job *, long times);
void run_leader(const struct job *, long times);

/* Limits, which check nothing: memcpy of the pixels in order, and of one line's, of either sort; each line's 32 bytes
 * touched; the bytes that a view reads, of one line and at random; the fields' bytes, of either record. */
void copy_rows(const struct job *, long times);
void copy_row(const struct job *, long times);
void touch_lines(const struct job *, long times);
void touch_line(const struct job *, long times);
void touch_random(const struct job *, long times);
void touch_summary(const struct job *, long times);
void touch_map(const struct job *, long times);

/* Draws the lines at random for an image of n lines. */
void draw_lines(size_t n);

#endif
