/* A whole image from a file into an array, row by row, as a C program would: the file mapped, a row copy a
 * line. whole.py calls it beside numpy and GDAL. */
#include <fcntl.h>
#include <sys/mman.h>
#include <sys/stat.h>
#include <unistd.h>

#include "seobangyu.h"

/* How many samples were copied: 0 where the file cannot be held or a line is refused. */
uint64_t whole(const char *path, uint64_t lines, uint64_t pixels, uint16_t *out) {
  struct stat s;
  uint64_t answer[SBG_ANSWER], copied = 0;
  int file = open(path, O_RDONLY);
  if (file < 0 || fstat(file, &s) != 0) return 0;
  const uint8_t *bytes = mmap(NULL, (size_t)s.st_size, PROT_READ, MAP_PRIVATE | MAP_POPULATE, file, 0);
  close(file);
  if (bytes == MAP_FAILED) return 0;
  for (uint64_t k = 1; k <= lines; k++) {
    sbg_row(bytes, (size_t)s.st_size, k, out + (k - 1) * pixels, pixels, answer, SBG_ANSWER);
    if (answer[SBG_TAG] != SBG_COPIED || answer[SBG_A] != pixels) {
      copied = 0;
      break;
    }
    copied += answer[SBG_A];
  }
  munmap((void *)bytes, (size_t)s.st_size);
  return copied;
}
