/* Line 3 of an image, of which perhaps not all has come: example IMG */
#include "seobangyu.h"

#include <inttypes.h>
#include <stdio.h>

int main(int argc, char **argv) {
  static uint8_t bytes[1 << 20];
  static uint16_t row[10000];
  uint64_t answer[SBG_ANSWER];
  FILE *file = argc == 2 ? fopen(argv[1], "rb") : NULL;
  if (file == NULL) return 2;
  size_t len = fread(bytes, 1, sizeof bytes, file);
  if (sbg_row(bytes, len, 3, row, 10000, answer, SBG_ANSWER) != 1) return 2; /* an array is too short */
  if (answer[SBG_TAG] == SBG_COPIED) {
    for (uint64_t j = 0; j < answer[SBG_A]; j++) printf("%u\n", (unsigned)row[j]);
    return 0;
  }
  if (answer[SBG_TAG] == SBG_WAIT)
    printf("%" PRIu64 " bytes are still to come\n", answer[SBG_A]);
  else
    printf("refused: %" PRIu64 ", record %" PRIu64 ", at %" PRIu64 "\n", answer[SBG_A], answer[SBG_B], answer[SBG_C]);
  return 1;
}
