/* library_words: what the library says of codes and of itself, and how many open operations a watch decides. Prints a line for each thing that
   is wrong. The words of F7 are those of docs/FORMATS.md; `checks/library` compares all of them with the sources. */
#include <stdio.h>
#include <string.h>
#include "torusmem.h"

static int wrongs;

static void must(bool is_so, const char *what, int line) {
  if (!is_so) wrongs += printf("line %d: not so: %s\n", line, what) > 0;
}
#define MUST(is_so) must(is_so, #is_so, __LINE__)

static bool is_text(const char *text, const char *wanted) { return text && strcmp(text, wanted) == 0; }

/* What comes of the first answer to adds that are all open on one word: of 1 each, or each of another number. */
static uint32_t first_answer(uint64_t count, bool is_one_number) {
  static const uint64_t zero = 0;
  torusmem_watch w = TORUSMEM_WATCH_INIT;
  bool is_begun = torusmem_watch_begin(&w, &zero, 1).code == TORUSMEM_OK;
  uint64_t sum = 0;
  for (uint64_t at = 0; at < count; at++) {
    uint64_t number = is_one_number ? 1 : UINT64_C(1) << at;
    is_begun = is_begun && torusmem_watch_issue(&w, at, TORUSMEM_ADD, 0, number, 0).code == TORUSMEM_OK;
    sum += number;
  }
  uint32_t code = torusmem_watch_answer(&w, 0, 1, sum - 1, 100000).code;
  torusmem_watch_end(&w);
  return is_begun ? code : TORUSMEM_EMPTY;
}

int main(void) {
  static const char machine[] = "radix 2\ndims 1\ndepth 4\ntags 4\nwords 8\n", scripts[] = "0 load 8\n";
  torusmem_machine m = TORUSMEM_MACHINE_INIT;
  torusmem_outcome said = torusmem_load(&m, (const uint8_t *)machine, sizeof machine - 1, (const uint8_t *)scripts,
                                        sizeof scripts - 1);
  MUST(said.code == TORUSMEM_FAULT_ADDRESS && said.value == 1);
  MUST(is_text(torusmem_code_text(said.code), "an address is not below the number of words"));
  MUST(is_text(torusmem_code_text(torusmem_round(&m).code), "the handle holds no machine"));
  for (uint32_t code = 0; code <= TORUSMEM_OTHER_COUNT; code++)
    for (uint32_t other = 0; other <= code; other++)
      MUST(is_text(torusmem_code_text(code), torusmem_code_text(other)) == (code == other));
  MUST(is_text(torusmem_code_text(TORUSMEM_OTHER_COUNT + 1), torusmem_code_text(UINT32_MAX)));
  MUST(strncmp(torusmem_version(), TORUSMEM_VERSION, sizeof TORUSMEM_VERSION - 1) == 0);
  int first = 0, second = 0, third = 0;
  MUST(sscanf(torusmem_version(), "%d.%d.%d", &first, &second, &third) == 3);
  MUST(TORUSMEM_VERSION_NUMBER == 1000000 * first + 1000 * second + third);
  MUST(first_answer(8, false) == TORUSMEM_OK && first_answer(9, false) == TORUSMEM_TOO_MANY);
  MUST(first_answer(64, true) == TORUSMEM_OK);
  return wrongs == 0 ? 0 : 1;
}
