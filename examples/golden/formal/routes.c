/* routes MACHINE: the way on by torusmem_next, for each tile, input and destination, as `table.py routes` prints them. */
#include <inttypes.h>
#include <stdio.h>
#include "torusmem.h"

int main(int count, char **words) {
  static uint8_t text[4096];
  torusmem_machine m = TORUSMEM_MACHINE_INIT;
  FILE *file = count == 2 ? fopen(words[1], "rb") : NULL;
  size_t length = file ? fread(text, 1, sizeof text, file) : 0;
  if (!file || torusmem_load(&m, text, length, NULL, 0).code != TORUSMEM_OK) {
    fprintf(stderr, "routes: give MACHINE, a machine text without faults, of at most 4096 bytes\n");
    return 2;
  }
  uint32_t tiles = (uint32_t)torusmem_tiles(&m).value;
  for (uint32_t tile = 0; tile < tiles; tile++)
    for (uint32_t input = 0; torusmem_next(&m, tile, input, 0).code == TORUSMEM_OK; input++)
      for (uint32_t to = 0; to < tiles; to++)
        printf("%" PRIu32 " %" PRIu32 " %" PRIu32 " %" PRIu64 "\n", tile, input, to, torusmem_next(&m, tile, input, to).value);
  torusmem_free(&m);
  return ferror(stdout) ? 1 : 0;
}
