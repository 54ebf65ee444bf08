#include <inttypes.h>
#include <stdio.h>
#include "torusmem.h"

static const uint8_t machine[] = "radix 2\ndims 1\ndepth 4\ntags 4\nwords 8\n";
static const uint8_t script[] = "0 store 5 17\n0 fence\n0 load 5\n";

int main(void) {
  torusmem_machine m = TORUSMEM_MACHINE_INIT;
  if (torusmem_load(&m, machine, sizeof machine - 1, script, sizeof script - 1).code != TORUSMEM_OK) return 1;
  uint64_t rounds = torusmem_finish(&m).value, word = torusmem_word(&m, 5).value;
  printf("after %" PRIu64 " rounds word 5 is %" PRIu64 "\n", rounds, word);
  torusmem_free(&m);
}
