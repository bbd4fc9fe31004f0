/* ceos walk: judges a whole file. */
#include "command.h"
#include "say.h"
#include "walks.h"

#include <string.h>

/* A number that is no kind is the library's to refuse. */
static uint64_t kind_of(const char *word) {
  static const char *const KINDS[] = {"", "volume", "leader", "image", "trailer"};
  for (uint64_t kind = SBG_VOLUME; kind <= SBG_TRAILER; kind++)
    if (strcmp(word, KINDS[kind]) == 0) return kind;
  return number_of(word, "KIND is volume, leader, image or trailer, or 1 to 4");
}

int run_walk(const struct asked *asked) {
  struct walk walk = begin(kind_of(asked->words[0]), asked->words[1], is_open(asked), false);
  if (walk.answer[SBG_TAG] == SBG_REFUSED) return say_refusal(NULL, walk.file.name, walk.answer);
  return to_its_end(&walk, false);
}
