/* The benchmark (docs/SPEED.md): times the library against plain C of the same job by four compilers, and
 * against a limit that checks nothing, and prints the tables. First it sees that all give the same answers.
 *   bench [--quick] [--emulated] [--counts FILE]   FILE: what `bench --count` gave under callgrind
 *   bench --count JOB READER TIMES                 does a job so often and prints nothing */
#include <stdio.h>
#include <stdlib.h>
#include <string.h>
#include <time.h>

#include "cards.h"
#include "jobs.h"

const struct reader OURS = {sbg_begin, sbg_walk, sbg_field, sbg_line, sbg_row, sbg_complex_row};

#define READERS 5 /* ours, then the opponents */
#define CONTENDERS (READERS + 1)
#define LIMIT READERS
#define MOST_ROUNDS 101

static const struct reader *const READER[READERS] = {&OURS, &gcc_O2_reader, &gcc_O3_reader, &clang_O2_reader,
                                                     &clang_O3_reader};
static const char *const NAME[READERS] = {"ours", "gcc -O2", "gcc -O3", "clang -O2", "clang -O3"};

/* The jobs of the first table; sort: of the scene that it is done on; goal: the least ratio, 0 where none is judged. */
static const struct {
  const char *name;
  const struct sort *sort;
  void (*run)(const struct job *, long), (*limit)(const struct job *, long);
  double goal;
} JOBS[] = {
    {"row copy, 6,000 pixels, 3,000 lines in order, a row", &COUNTS, run_rows, copy_rows, 0.95},
    {"row copy, 6,000 pixels, the same line again, a row", &COUNTS, run_row, copy_row, 0.9},
    {"complex row copy, 6,000 samples, 750 lines in order, a row", &COMPLEX, run_complex_rows, copy_rows, 0.95},
    {"complex row copy, 6,000 samples, the same line again, a row", &COMPLEX, run_complex_row, copy_row, 0.9},
    {"closed walk, 3,000 lines of 12,192 bytes, a line", &COUNTS, run_walk, touch_lines, 0.9},
    {"line view, lines at random, a view", &COUNTS, run_random, touch_random, 0.5},
    {"line view, line 1", &COUNTS, run_line, touch_line, 0.5},
    {"the summary's ten listed fields, a field", &COUNTS, run_summary, touch_summary, 1.0},
    {"the map record's three listed fields, a field", &COUNTS, run_map, touch_map, 1.0},
};
#define JOB_COUNT (sizeof JOBS / sizeof *JOBS)
#define TEN (JOB_COUNT - 2)
#define LEADER JOB_COUNT /* the leader's walk is counted too: ours alone, since plain C's knows images only */

static int rounds = 101, emulated;
static double least = 0.003; /* seconds that a timed piece takes at least */
static double counts[JOB_COUNT + 1][READERS]; /* instructions, 0 where they were not counted */
static double ratios[JOB_COUNT][READERS];      /* each opponent's time / ours, the median */

/* How many units of what is reported are in one turn of a job, on a scene of so many lines. */
static size_t units(void (*run)(const struct job *, long), size_t lines) {
  return run == run_walk ? lines : run == run_summary ? 10 : run == run_map ? 3 : 1;
}

/* ---- the clock ---- */

/* Seconds of processor time of this thread: what others do on the machine meanwhile is not in it. */
static double now(void) {
  struct timespec t;
  clock_gettime(CLOCK_THREAD_CPUTIME_ID, &t);
  return (double)t.tv_sec + 1e-9 * (double)t.tv_nsec;
}

static double timed(const struct job *j, long times) {
  double began = now();
  j->run(j, times);
  return now() - began;
}

/* How many times a job is to be done so that it takes long enough to be timed. */
static long enough(const struct job *j) {
  long times = 1;
  while (timed(j, times) < least) times *= 2;
  return times;
}

static int by_size(const void *a, const void *b) {
  double x = *(const double *)a, y = *(const double *)b;
  return (x > y) - (x < y);
}

/* Median, minimum and maximum of the rounds. */
struct spread {
  double median, min, max;
};

static struct spread spread_of(const double *x) {
  double sorted[MOST_ROUNDS];
  memcpy(sorted, x, (size_t)rounds * sizeof *x);
  qsort(sorted, (size_t)rounds, sizeof *sorted, by_size);
  struct spread s = {sorted[rounds / 2], sorted[0], sorted[rounds - 1]};
  return s;
}

/* The rounds of one to the rounds of another, as a ratio round by round. */
static struct spread ratio_of(const double *one, const double *other) {
  double q[MOST_ROUNDS];
  for (int i = 0; i < rounds; i++) q[i] = other[i] / one[i];
  return spread_of(q);
}

/* Nanoseconds a unit of each contender, timed in turn, round by round. */
static void measure(const struct job *jobs, int n, double ns[][MOST_ROUNDS]) {
  long times[CONTENDERS];
  for (int c = 0; c < n; c++) times[c] = enough(&jobs[c]);
  for (int i = 0; i < rounds; i++)
    for (int c = 0; c < n; c++)
      ns[c][i] = timed(&jobs[c], times[c]) * 1e9 / (double)times[c] / (double)jobs[c].in_one;
}

/* ---- the tables ---- */

static void print_times(struct spread s) {
  int digits = s.median < 100 ? 1 : 0;
  printf(" %.*f (%.*f to %.*f) |", digits, s.median, digits, s.min, digits, s.max);
}

static void print_goal(double ratio, double lo, double hi) {
  if (lo == 0) {
    puts(" |");
  } else {
    if (hi > 100) printf(" %.2f or more: ", lo);
    else printf(" %.1f to %.1f: ", lo, hi);
    puts(emulated ? "not judged |" : ratio >= lo && ratio <= hi ? "met |" : "NOT MET |");
  }
  fflush(stdout);
}

/* The opponent with the least median. */
static int strongest(double ns[][MOST_ROUNDS]) {
  int best = 1;
  for (int c = 2; c < READERS; c++)
    if (spread_of(ns[c]).median < spread_of(ns[best]).median) best = c;
  return best;
}

/* A job by ours and all opponents, and by the limit where there is one; which: its counts, or -1. */
static void compare(const char *what, struct job j, void (*limit)(const struct job *, long), double goal, int which) {
  static double ns[CONTENDERS][MOST_ROUNDS];
  struct job jobs[CONTENDERS];
  for (int c = 0; c < READERS; c++) {
    jobs[c] = j;
    jobs[c].reader = READER[c];
  }
  jobs[LIMIT] = j;
  jobs[LIMIT].run = limit;
  measure(jobs, limit == NULL ? READERS : CONTENDERS, ns);
  int best = strongest(ns);
  struct spread ratio = ratio_of(ns[0], ns[best]);
  for (int c = 0; which >= 0 && c < READERS; c++) ratios[which][c] = ratio_of(ns[0], ns[c]).median;
  printf("| %s |", what);
  print_times(spread_of(ns[0]));
  print_times(spread_of(ns[best]));
  printf(" %s | %.2f (%.2f to %.2f) |", NAME[best], ratio.median, ratio.min, ratio.max);
  if (limit != NULL) printf(" %.1f (%.2f) |", spread_of(ns[LIMIT]).median, ratio_of(ns[0], ns[LIMIT]).median);
  if (which >= 0 && counts[which][0] > 0) printf(" %.0f : %.0f |", counts[which][0], counts[which][best]);
  else if (which >= 0) printf(" |");
  print_goal(ratio.median, goal, 1e9);
}

/* An image of so many lines of PIXELS samples, without fill and suffix. */
static struct image scene_of(const struct sort *sort, size_t n) {
  return make_image(sort, n, sort->ahead + sort->group * PIXELS, PIXELS, 0, 0);
}

static void jobs(const struct image *counts_scene, const struct leader *leader) {
  struct image complex_scene = scene_of(&COMPLEX, 750); /* about as many bytes */
  puts("\n| job | ours, ns | the strongest opponent, ns | it is | ratio | limit, ns (limit / ours) | instructions, ours : it | goal |\n"
       "|---|---|---|---|---|---|---|---|");
  for (size_t i = 0; i < JOB_COUNT; i++) {
    const struct image *scene = JOBS[i].sort == &COMPLEX ? &complex_scene : counts_scene;
    struct job j = {JOBS[i].run, NULL, scene, leader, 1, units(JOBS[i].run, scene->n), NULL};
    compare(JOBS[i].name, j, JOBS[i].limit, JOBS[i].goal, (int)i);
  }
  free(complex_scene.bytes);
}

/* The listed fields against each opponent: ratio, and instructions where they were counted. */
static void each_opponent(void) {
  printf("\n| job | instructions, ours |");
  for (int c = 1; c < READERS; c++) printf(" %s: ratio, instructions |", NAME[c]);
  puts("\n|---|---|---|---|---|---|");
  for (size_t i = TEN; i < JOB_COUNT; i++) {
    printf("| %s | %.0f |", JOBS[i].name, counts[i][0]);
    for (int c = 1; c < READERS; c++) printf(" %.2f, %.0f |", ratios[i][c], counts[i][c]);
    puts("");
  }
}

/* Whether the cost of a line view depends on the line's number: ours against ours. */
static void line_numbers(const struct image *scene) {
  static double ns[2][MOST_ROUNDS];
  struct job both[2] = {{run_line, &OURS, scene, NULL, scene->n, 1, NULL}, {run_line, &OURS, scene, NULL, 1, 1, NULL}};
  measure(both, 2, ns);
  struct spread ratio = ratio_of(ns[0], ns[1]);
  puts("\n| job | ours at line 3,000, ns | ours at line 1, ns | ratio | goal |\n|---|---|---|---|---|");
  printf("| line view, a view |");
  print_times(spread_of(ns[0]));
  print_times(spread_of(ns[1]));
  printf(" %.2f (%.2f to %.2f) |", ratio.median, ratio.min, ratio.max);
  print_goal(ratio.median, 0.9, 1.1);
}

/* One job against another, both ours; told: the instructions of both where they were counted, else NULL. */
static void in_turn(const char *head, const char *what, struct job one, struct job other, const double *told, double goal) {
  static double ns[2][MOST_ROUNDS];
  struct job both[2] = {one, other};
  measure(both, 2, ns);
  struct spread ratio = ratio_of(ns[0], ns[1]);
  printf("\n| job | %s | ratio | %sgoal |\n|---|---|---|---|%s---|\n| %s |", head, told != NULL ? "instructions | " : "",
         told != NULL ? "---|" : "", what);
  print_times(spread_of(ns[0]));
  print_times(spread_of(ns[1]));
  printf(" %.2f (%.2f to %.2f) |", ratio.median, ratio.min, ratio.max);
  if (told != NULL && told[1] > 0) printf(" %.0f : %.0f |", told[0], told[1]);
  else if (told != NULL) printf(" |");
  print_goal(ratio.median, goal, 1e9);
}

/* Whether reading a summary takes longer than walking the leader in which it stands. */
static void leader_walk(const struct leader *leader) {
  uint64_t state[SBG_STATE], answer[SBG_ANSWER];
  sbg_begin(SBG_LEADER, state, SBG_STATE, answer, SBG_ANSWER);
  sbg_walk(state, SBG_STATE, leader->file, LEADER_FILE, 1, 100, answer, SBG_ANSWER);
  if (answer[SBG_TAG] != SBG_COMPLETE || answer[SBG_COUNT] != 3) {
    fprintf(stderr, "bench: the leader is not accepted\n");
    exit(1);
  }
  struct job reading = {run_summary, &OURS, NULL, leader, 1, 1, NULL}, walking = reading;
  double told[2] = {counts[TEN][0] * 10, counts[LEADER][0]};
  walking.run = run_leader;
  in_turn("the summary's ten fields, ns | the closed walk of its leader, ns", "a leader of three records, all fields written", reading,
          walking, told, 1);
}

/* A card's numbers against the walk and the line views that give the same; then whether its cost grows as the card. */
static void cards(const struct image *scene, const struct leader *leader) {
  struct image few = make_image(&COUNTS, 300, 198, 3, 0, 0), many = make_image(&COUNTS, 30000, 198, 3, 0, 0);
  struct card card = make_card(scene, leader), small = make_card(&few, leader), large = make_card(&many, leader);
  struct job reading = {run_card, &OURS, scene, leader, 1, scene->n, &card}, viewing = reading;
  viewing.run = run_views;
  in_turn("the card's numbers, ns | the walk and every line view, ns", "3,000 lines of 12,192 bytes, a line", reading, viewing, NULL, 20);
  struct job of_large = {run_card, &OURS, &many, leader, 1, many.n, &large};
  struct job of_small = {run_card, &OURS, &few, leader, 1, few.n, &small};
  in_turn("a card of 30,000 lines, ns | a card of 300 lines, ns", "the card's numbers, a line", of_large, of_small, NULL, 0.5);
  free_card(&card), free_card(&small), free_card(&large);
  free(few.bytes), free(many.bytes);
}

/* The walk over images of that many lines and that many bytes a line. */
static void walk_of(size_t n, size_t l, size_t w) {
  struct image x = make_image(&COUNTS, n, l, w, 0, 0);
  struct job j = {run_walk, NULL, &x, NULL, 1, n, NULL};
  char what[100];
  snprintf(what, sizeof what, "walk, n = %zu, L = %zu, a line", n, l);
  compare(what, j, touch_lines, 0, -1);
  free(x.bytes);
}

static void growth(void) {
  puts("\n| job | ours, ns | the strongest opponent, ns | it is | ratio | limit, ns (limit / ours) | |\n|---|---|---|---|---|---|---|");
  walk_of(300, 198, 3);
  walk_of(3000, 198, 3);
  walk_of(30000, 198, 3);
  walk_of(1000, 2192, 1000);
  walk_of(1000, 12192, PIXELS);
  walk_of(1000, 32768, 16288);
}

/* ---- instructions ---- */

/* Callgrind counts what is done in here and nothing else. */
__attribute__((noinline)) void counted(const struct job *j, long times) { j->run(j, times); }

static int count(size_t which, size_t who, long times) {
  if (which > JOB_COUNT || who >= READERS || (which == LEADER && who > 0)) return 2;
  struct image scene = scene_of(which == LEADER ? &COUNTS : JOBS[which].sort, 300);
  struct leader leader;
  make_leader(&leader);
  draw_lines(scene.n);
  struct job j = {which == LEADER ? run_leader : JOBS[which].run, READER[who], &scene, &leader, 1, 1, NULL};
  counted(&j, times);
  return 0;
}

/* The counts that the script took: a line each, job, reader, instructions of one turn. */
static void read_counts(const char *path) {
  FILE *f = fopen(path, "r");
  size_t which, who;
  double n;
  if (f == NULL) return;
  while (fscanf(f, "%zu %zu %lf", &which, &who, &n) == 3)
    if (which <= JOB_COUNT && who < READERS)
      counts[which][who] = n / (double)(which == LEADER ? 1 : units(JOBS[which].run, 300));
  fclose(f);
}

int main(int argc, char **argv) {
  for (int i = 1; i < argc; i++) {
    if (strcmp(argv[i], "--quick") == 0) {
      rounds = 11;
      least = 0.002;
    } else if (strcmp(argv[i], "--emulated") == 0) {
      emulated = 1;
    } else if (strcmp(argv[i], "--counts") == 0 && i + 1 < argc) {
      read_counts(argv[++i]);
    } else if (strcmp(argv[i], "--count") == 0 && i + 3 < argc) {
      return count(strtoul(argv[i + 1], NULL, 10), strtoul(argv[i + 2], NULL, 10), strtol(argv[i + 3], NULL, 10));
    } else {
      fprintf(stderr, "usage: bench [--quick] [--emulated] [--counts FILE] | bench --count JOB READER TIMES\n");
      return 2;
    }
  }
  uint64_t asked = 0;
  for (int c = 1; c < READERS; c++) asked += agree(READER[c]);
  printf("Ours gave the same answers as each of the four to %llu questions in all. %d rounds, all contenders in turn; each "
         "figure is the median of the rounds, with the least and the most.\n", (unsigned long long)asked, rounds);
  struct image scene = scene_of(&COUNTS, 3000);
  struct leader leader;
  make_leader(&leader);
  draw_lines(scene.n);
  jobs(&scene, &leader);
  each_opponent();
  line_numbers(&scene);
  leader_walk(&leader);
  cards(&scene, &leader);
  free(scene.bytes);
  growth();
  return 0;
}
