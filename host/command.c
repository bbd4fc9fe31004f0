#include "command.h"

#include "say.h"

#include <errno.h>
#include <stdlib.h>

uint64_t number_of(const char *word, const char *what) {
  char *end = NULL;
  errno = 0;
  unsigned long long number = strtoull(word, &end, 10);
  if (word[0] < '0' || word[0] > '9' || *end != '\0' || errno != 0) usage("%s", what);
  return number;
}
