#define _DEFAULT_SOURCE
#include "say.h"

#include "row.h"
#include "seobangyu.h"

#include <errno.h>
#include <inttypes.h>
#include <stdarg.h>
#include <stdio.h>
#include <stdlib.h>
#include <string.h>
#include <time.h>
#include <unistd.h>

/* Messages ----------------------------------------------------------------------------------------- */

static int shown; /* how wide the line of progress is that stands on the terminal */

static void clear_progress(void) {
  if (shown > 0) (void)fprintf(stderr, "\r%*s\r", shown, "");
  shown = 0;
}

static void message(const char *name, const char *form, va_list numbers) {
  (void)fflush(stdout); /* the rows before it come before it */
  clear_progress();
  (void)fprintf(stderr, name == NULL ? "ceos: " : "ceos: %s: ", name);
  (void)vfprintf(stderr, form, numbers);
  (void)fputc('\n', stderr);
}

void note(const char *name, const char *form, ...) {
  va_list numbers;
  va_start(numbers, form);
  message(name, form, numbers);
  va_end(numbers);
}

void fail(const char *name, const char *form, ...) {
  va_list numbers;
  va_start(numbers, form);
  message(name, form, numbers);
  va_end(numbers);
  exit(FAILED);
}

void usage(const char *form, ...) {
  char what[1024]; /* the words of the tables fit */
  va_list words;
  va_start(words, form);
  (void)vsnprintf(what, sizeof what, form, words);
  va_end(words);
  fail(NULL, "%s; 'ceos --help' says how it is used", what);
}

void answered(uint64_t told) {
  if (told != 1) fail(NULL, "the library did not answer");
}

/* Refusals ----------------------------------------------------------------------------------------- */

static const char *const MEANING[] = {
#define REFUSAL(number, words) [number] = words,
#include "refusals.def"
#undef REFUSAL
};

static const char *meaning(uint64_t number) {
  const char *words = number < sizeof MEANING / sizeof *MEANING ? MEANING[number] : NULL;
  return words != NULL ? words : "a number that is not known here";
}

int say_refusal(const char *of, const char *name, const uint64_t *answer) {
  uint64_t number = answer[SBG_A], record = answer[SBG_B], place = answer[SBG_C];
  SAY_ROW(title("file", of), word("row", "REFUSED"), bare("number", number), ahead("record", record),
          ahead("at", place));
  note(name, "refusal %" PRIu64 ", record %" PRIu64 ", at %" PRIu64 ": %s", number, record, place, meaning(number));
  return REFUSED;
}

/* Output and progress ------------------------------------------------------------------------------ */

void see_written(void) {
  clear_progress();
  if (ferror(stdout) || fflush(stdout) != 0) fail(NULL, "standard output: %s", strerror(errno));
}

static double seconds(void) {
  struct timespec now = {0};
  (void)clock_gettime(CLOCK_MONOTONIC, &now);
  return (double)now.tv_sec + 1e-9 * (double)now.tv_nsec;
}

void say_progress(const char *name, uint64_t done, uint64_t size, int rows) {
  static double next; /* when the line is due: after a second, and then five times a second */
  double now = seconds();
  if (next <= 0) next = now + 1;
  if (now < next || !isatty(STDERR_FILENO) || (rows && isatty(STDOUT_FILENO))) return;
  next = now + 0.2;
  clear_progress();
  size_t length = strlen(name), most = 40; /* of a long name its end, so that the line does not wrap */
  shown = fprintf(stderr, "ceos: %s: %.0f %% of %" PRIu64 " bytes", length > most ? name + length - most : name,
                  size == 0 ? 100.0 : 100.0 * (double)done / (double)size, size);
}
