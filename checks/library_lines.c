/* library_lines: why lines are refused. Draws lines for a few machines, and compares each sentence of torusmem_explain_line with
   that of torusmem_explain, which is proved, for a scripts text that has the lines taken so far and then this one. Prints a
   line for each thing that is wrong. */
#include <inttypes.h>
#include <stdio.h>
#include <string.h>
#include "torusmem.h"

static int wrongs;

static void must(bool is_so, const char *what, int line) {
  if (!is_so) wrongs += printf("line %d: not so: %s\n", line, what) > 0;
}
#define MUST(is_so) must(is_so, #is_so, __LINE__)

static uint64_t seed = 7;

/* A number below a limit: SplitMix64. */
static uint64_t drawn(uint64_t limit) {
  uint64_t z = seed += UINT64_C(0x9E3779B97F4A7C15);
  z = (z ^ z >> 30) * UINT64_C(0xBF58476D1CE4E5B9);
  z = (z ^ z >> 27) * UINT64_C(0x94D049BB133111EB);
  return (z ^ z >> 31) % limit;
}

typedef struct line {
  uint32_t processor, operation, address, lasts;
  uint64_t first, second;
} line;

/* A line that is often refused. */
static line drawn_line(const struct torusmem_shape *shape) {
  line it = { (uint32_t)drawn(shape->tiles), (uint32_t)drawn(12), (uint32_t)drawn(shape->words), 0, 0, 0 };
  it.first = drawn(4) ? drawn(100) : UINT64_MAX - drawn(2);
  it.second = it.operation == TORUSMEM_SPIN ? 1 + drawn(4096) : drawn(1000);
  if (drawn(2) == 0) it.lasts = (uint32_t)drawn(4);
  if (drawn(8) == 0) it.processor = drawn(2) ? shape->tiles + (uint32_t)drawn(3) : UINT32_MAX - (uint32_t)drawn(3);
  if (drawn(8) == 0) it.address = drawn(2) ? shape->words + (uint32_t)drawn(3) : UINT32_MAX - (uint32_t)drawn(3);
  if (drawn(8) == 0) it.second = drawn(2) ? drawn(2) * 4097 : UINT64_MAX - drawn(3);
  return it;
}

/* Writes a line as a scripts text has it; its length. */
static size_t written(line it, char *out, size_t room) {
  static const char *const names[] = { "load", "store", "swap", "cas", "add", "and", "or", "xor", "max", "min", "fence", "spin" };
  bool is_spin = it.operation == TORUSMEM_SPIN;
  char values[2][24];
  snprintf(values[0], sizeof values[0], "%" PRIu64, it.first);
  snprintf(values[1], sizeof values[1], "%" PRIu64, it.second);
  if (!is_spin && it.lasts & TORUSMEM_FIRST_IS_LAST) strcpy(values[0], "last");
  if (!is_spin && it.lasts & TORUSMEM_SECOND_IS_LAST) strcpy(values[1], "last");
  int length = snprintf(out, room, "%" PRIu32 " %s", it.processor, names[it.operation]);
  if (it.operation != TORUSMEM_FENCE) length += snprintf(out + length, room - (size_t)length, " %" PRIu32, it.address);
  if (it.operation != TORUSMEM_FENCE && it.operation != TORUSMEM_LOAD)
    length += snprintf(out + length, room - (size_t)length, " %s", values[0]);
  if (is_spin || it.operation == TORUSMEM_CAS) length += snprintf(out + length, room - (size_t)length, " %s", values[1]);
  return (size_t)(length + snprintf(out + length, room - (size_t)length, "\n"));
}

static size_t say(torusmem_machine *m, uint32_t code, line it, char *out, size_t room) {
  return torusmem_explain_line(m, code, it.processor, it.operation, it.address, it.first, it.second, it.lasts, out, room);
}

/* Whether a line that was refused by this code is so explained, also in a room that is too short. */
static bool is_said(torusmem_machine *m, uint32_t code, line it, const char *wanted) {
  char said[300];
  size_t length = strlen(wanted), room = (size_t)drawn(length + 2);
  memset(said, '#', sizeof said);
  if (say(m, code, it, said, room) != length) return false;
  size_t kept = room > length ? length : room - (room > 0);
  if (memcmp(said, wanted, kept) != 0 || (room > 0 && said[kept] != 0) || said[room] != '#') return false;
  return say(m, code, it, said, sizeof said) == length && strcmp(said, wanted) == 0 && say(m, code, it, NULL, 0) == length;
}

/* Draws lines for a machine; tells the kinds of refusals in `seen`, those of a whole script and of all of them as 9 and 11. */
static void draw_lines(const char *machine, uint32_t count, bool *seen) {
  static char scripts[1 << 20];
  torusmem_machine m = TORUSMEM_MACHINE_INIT;
  struct torusmem_shape shape = { 0, { 0, 0, 0 }, { 0, 0, 0 }, 0, 0, 0, 0, 0 };
  const uint8_t *texts[] = { (const uint8_t *)machine, (const uint8_t *)scripts };
  MUST(torusmem_load(&m, texts[0], strlen(machine), NULL, 0).code == TORUSMEM_OK);
  MUST(torusmem_shape(&m, &shape).code == TORUSMEM_OK);
  for (size_t at = 0; count > 0 && wrongs < 10; count--) {
    line it = drawn_line(&shape);
    bool asks = it.operation <= TORUSMEM_MIN && drawn(2) == 0;
    torusmem_outcome (*call)(torusmem_machine *, uint32_t, uint32_t, uint32_t, uint64_t, uint64_t, uint32_t) =
        asks ? (torusmem_ask) : (torusmem_append);
    uint32_t code = call(&m, it.processor, it.operation, it.address, it.first, it.second, it.lasts).code;
    size_t length = written(it, scripts + at, sizeof scripts - at);
    char proved[300] = "", *reason;
    if (drawn(16) == 0) torusmem_round(&m);
    if (code == TORUSMEM_OK) {
      at += length;
    } else if (code == TORUSMEM_BEHIND_SPIN) {
      MUST(is_said(&m, code, it, torusmem_code_text(code)));
    } else {
      torusmem_explanation why =
          torusmem_explain(texts[0], strlen(machine), texts[1], at + length, (uint8_t *)proved, sizeof proved - 1);
      reason = strstr(proved, ": ");
      MUST(why.code == TORUSMEM_OK && why.fault == code && reason);
      if (!reason || !is_said(&m, code, it, reason + 2)) wrongs += printf("another sentence than %s\n", proved) > 0;
      if (code <= 10) seen[strstr(proved, "all scripts") ? 11 : code] = true;
    }
  }
  line it = drawn_line(&shape);
  MUST(is_said(&m, TORUSMEM_NONE, it, torusmem_code_text(TORUSMEM_NONE)));
  MUST(is_said(&m, TORUSMEM_FAULT_MEMORY, it, torusmem_code_text(TORUSMEM_FAULT_MEMORY)));
  torusmem_free(&m);
  MUST(is_said(&m, TORUSMEM_EMPTY, it, torusmem_code_text(TORUSMEM_EMPTY)));
}

int main(void) {
  bool seen[12] = { false }, few[12] = { false };
  draw_lines("radix 2\ndims 1\ndepth 4\ntags 4\nwords 8\n", 400, few);
  draw_lines("radix 3 2\ndims 2\ndepth 1\ntags 2\nwords 256\n", 2000, few);
  draw_lines("radix 8\ndims 2\ndepth 4\ntags 4\nwords 65536\n", 2000, seen);
  for (uint32_t code = TORUSMEM_FAULT_RANGE; code <= TORUSMEM_FAULT_LAST; code++) MUST(seen[code] && few[code]);
  MUST(seen[11]);
  return wrongs == 0 ? 0 : 1;
}
