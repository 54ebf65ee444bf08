/* What the test programs of checks/library in C share: requests for memory that are counted and refused, bytes that are held,
   a line for each thing that is wrong, and texts. Such a program is linked with
   -Wl,--wrap=malloc,--wrap=realloc,--wrap=free. */
#include <inttypes.h>
#include <malloc.h>
#include <stdio.h>
#include <stdlib.h>
#include <string.h>
#include "torusmem.h"

/* What not each of the programs uses. */
#if defined(__GNUC__)
#define MAY_BE_UNUSED __attribute__((unused))
#else
#define MAY_BE_UNUSED
#endif

enum { MOST_BYTES = 1 << 20 };

typedef struct text {
  uint8_t bytes[MOST_BYTES];
  size_t length;
} text;

MAY_BE_UNUSED static text machine_text, script_text;
static int wrongs;

/* Requests for memory: how many were made, which is refused (0: none; `and_later`: with all behind it), how many blocks
   are live, and how often a block was given back; the bytes of the live blocks, and the most that these ever were. */
static uint64_t requests, refused, given_back;
static bool and_later;
static int64_t live;
static size_t held, most_held;

void *__real_malloc(size_t size);
void *__real_realloc(void *block, size_t size);
void __real_free(void *block);
void *__wrap_malloc(size_t size);
void *__wrap_realloc(void *block, size_t size);
void __wrap_free(void *block);

static bool is_refused(void) {
  requests++;
  return refused != 0 && (requests == refused || (and_later && requests > refused));
}

static void *counted(void *block) {
  if (block) held += malloc_usable_size(block);
  if (held > most_held) most_held = held;
  return block;
}

void *__wrap_malloc(size_t size) {
  void *block = is_refused() ? NULL : __real_malloc(size);
  if (block) live++;
  return counted(block);
}

void *__wrap_realloc(void *block, size_t size) {
  size_t before = block ? malloc_usable_size(block) : 0;
  void *moved = is_refused() ? NULL : __real_realloc(block, size);
  if (moved && !block) live++;
  if (moved) held -= before;
  return counted(moved);
}

void __wrap_free(void *block) {
  given_back++;
  if (block) live--, held -= malloc_usable_size(block);
  __real_free(block);
}

MAY_BE_UNUSED static void must(bool is_so, const char *what, int line) {
  if (is_so) return;
  if (wrongs++ < 10) printf("line %d, request %" PRIu64 ": not so: %s\n", line, refused, what);
}
#define MUST(is_so) must(is_so, #is_so, __LINE__)

MAY_BE_UNUSED static bool says(torusmem_outcome said, uint32_t code, uint64_t value) {
  return said.code == code && said.value == value;
}

MAY_BE_UNUSED static void read_text(const char *name, text *read) {
  FILE *file = fopen(name, "rb");
  if (!file) {
    fprintf(stderr, "cannot read %s\n", name);
    exit(2);
  }
  read->length = fread(read->bytes, 1, MOST_BYTES, file);
  fclose(file);
}

/* Makes some calls with each of their requests for memory refused in turn, alone and with all behind it. */
MAY_BE_UNUSED static void refuse_each_request(void (*make_calls)(void)) {
  make_calls();
  uint64_t needed = requests;
  MUST(needed > 0);
  for (uint64_t n = 1; n <= needed; n++) {
    for (int all = 0; all < 2; all++) {
      requests = 0;
      refused = n;
      and_later = all;
      make_calls();
    }
  }
  fprintf(stderr, "%" PRIu64 " requests for memory, each refused alone and with all behind it\n", needed);
}
