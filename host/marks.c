#include "marks.h"

#include "say.h"
#include "seobangyu.h"

#include <inttypes.h>
#include <stdio.h>
#include <stdlib.h>

enum { BADLY_WRITTEN = 6, WIDEST = 20 }; /* E20.13 */

/* The table, and the field that a byte is in ------------------------------------------------------- */

static const struct number_fields {
  uint64_t kind, first_record, last_record;
  uint64_t byte, count, apart;
  const char *form;
} TABLE[] = {
#define NUMBER_FIELDS(kind, ...) {SBG_##kind, __VA_ARGS__},
#include "number_fields.def"
#undef NUMBER_FIELDS
};

/* A field of a record, in which one byte is bad. Bytes count from 1, as in document 01. */
struct mark {
  const char *form; /* NULL where there is no such field */
  uint64_t record, first, width, bad;
  uint8_t bytes[WIDEST];
};

/* The width stands in the form: I4, F16.7, E20.13. */
static uint64_t width_of(const char *form) { return strtoull(form + 1, NULL, 10); }

static bool is_of(const struct number_fields *some, uint64_t kind, uint64_t record, uint64_t byte) {
  return some->kind == kind && record >= some->first_record && record <= some->last_record && byte >= some->byte;
}

static struct mark find(uint64_t kind, uint64_t record, uint64_t bad) {
  for (size_t i = 0; i < sizeof TABLE / sizeof *TABLE; i++) {
    const struct number_fields *some = &TABLE[i];
    if (!is_of(some, kind, record, bad)) continue;
    uint64_t which = (bad - some->byte) / some->apart, first = some->byte + which * some->apart;
    uint64_t width = width_of(some->form);
    if (which < some->count && bad < first + width && width <= WIDEST)
      return (struct mark){.form = some->form, .record = record, .first = first, .width = width, .bad = bad};
  }
  return (struct mark){.form = NULL};
}

/* The mark of a refusal; none where it is no 6, or its field is not in the bytes. The bytes are copied before a word
 * is said: a file that shrinks takes them away, and the jump out of that must not be out of a message (held.c). */
static struct mark mark_of(const struct held *file, uint64_t kind, uint64_t start, const uint64_t *answer) {
  uint64_t place = answer[SBG_C];
  if (answer[SBG_A] != BADLY_WRITTEN || place < start) return (struct mark){.form = NULL};
  struct mark mark = find(kind, answer[SBG_B], place - start + 1);
  uint64_t from = start + mark.first - 1;
  if (mark.form == NULL || from + mark.width > file->size) return (struct mark){.form = NULL};
  for (uint64_t i = 0; i < mark.width; i++) mark.bytes[i] = file->bytes[from + i];
  return mark;
}

/* Words -------------------------------------------------------------------------------------------- */

static bool is_printable(uint8_t byte) { return byte >= ' ' && byte <= '~'; }

/* What a reader cannot see at the mark: a blank, or a byte that is no letter of a text. Room for its words. */
struct unseen {
  char words[16];
};

static struct unseen unseen(uint8_t byte) {
  struct unseen what = {""};
  if (byte == ' ') (void)snprintf(what.words, sizeof what.words, ", a blank");
  if (!is_printable(byte)) (void)snprintf(what.words, sizeof what.words, ", 0x%02x", byte);
  return what;
}

/* Every byte takes one column, so that the mark stands under its own; a point would look like one of the number. */
static void say_mark(const char *name, const struct mark *mark) {
  char text[WIDEST + 1] = "";
  for (uint64_t i = 0; i < mark->width; i++) text[i] = is_printable(mark->bytes[i]) ? (char)mark->bytes[i] : '?';
  uint64_t ahead = mark->bad - mark->first;
  note(name, "bytes %" PRIu64 " to %" PRIu64 " of record %" PRIu64 " are to be %s:", mark->first,
       mark->first + mark->width - 1, mark->record, mark->form);
  note(NULL, "  |%s|", text);
  note(NULL, "   %*s^ byte %" PRIu64 "%s", (int)ahead, "", mark->bad, unseen(mark->bytes[ahead]).words);
}

int say_file_refusal(const char *of, const struct held *file, uint64_t kind, uint64_t start, const uint64_t *answer) {
  struct mark mark = mark_of(file, kind, start, answer);
  see_unchanged(file); /* what is shown is what was judged */
  int status = say_refusal(of, file->name, answer);
  if (mark.form != NULL) say_mark(file->name, &mark);
  return status;
}
