/* golden MACHINE SCRIPT SEED: drives a machine by drawn steps, and prints the report of its run.

   In a simulator the design under test says which agent moves next; here a generator draws it. Each sixteenth step
   is asked for before it is made, and must move exactly if it was enabled. A run that isn't finished after so many
   draws is finished by rounds. The status is 0; 1 with a line on standard error, also where the report can't be printed;
   or 2 where the words aren't these. */
#include <inttypes.h>
#include <stdio.h>
#include <stdlib.h>
#include "torusmem.h"

enum { MOST_DRAWS = 1000000, CHOICES = TORUSMEM_LOOK + 1 };

typedef struct text {
  uint8_t *bytes;
  size_t length;
} text;

/* The next number, below a limit. SplitMix64: Steele, Lea and Flood, Fast splittable pseudorandom number
   generators, 2014. */
static uint32_t drawn(uint64_t *state, uint32_t limit) {
  uint64_t z = *state += UINT64_C(0x9E3779B97F4A7C15);
  z = (z ^ (z >> 30)) * UINT64_C(0xBF58476D1CE4E5B9);
  z = (z ^ (z >> 27)) * UINT64_C(0x94D049BB133111EB);
  return (uint32_t)((z ^ (z >> 31)) % limit);
}

/* Reads a whole file; what it answers is the caller's to free, also where it is false. */
static bool read_file(const char *name, text *read) {
  FILE *file = fopen(name, "rb");
  size_t room = 4096, count = 1;
  read->bytes = malloc(room);
  read->length = 0;
  while (file && read->bytes && count > 0) {
    count = fread(read->bytes + read->length, 1, room - read->length, file);
    read->length += count;
    if (read->length == room) {
      uint8_t *more = realloc(read->bytes, room *= 2);
      if (!more) break;
      read->bytes = more;
    }
  }
  bool whole = file && read->bytes && count == 0 && !ferror(file);
  if (file) fclose(file);
  if (!whole) fprintf(stderr, "cannot read %s\n", name);
  return whole;
}

/* The number that a word spells; false if it spells none below 2^64. */
static bool read_number(const char *word, uint64_t *number) {
  *number = 0;
  for (const char *at = word; *at; at++) {
    if (*at < '0' || *at > '9' || *number > (UINT64_MAX - (uint64_t)(*at - '0')) / 10) return false;
    *number = *number * 10 + (uint64_t)(*at - '0');
  }
  return *word != 0;
}

/* Says what a call refused; true if it was granted. */
static bool granted(const char *call, torusmem_outcome said) {
  if (said.code != TORUSMEM_OK)
    fprintf(stderr, "%s: %s (code %" PRIu32 ", value %" PRIu64 ")\n", call, torusmem_code_text(said.code), said.code, said.value);
  return said.code == TORUSMEM_OK;
}

/* Makes drawn steps until every script is finished or all draws are made; not every agent has each choice. */
static bool drive(torusmem_machine *m, uint64_t seed) {
  struct torusmem_shape shape;
  if (!granted("shape", torusmem_shape(m, &shape))) return false;
  uint32_t agents = 3 * shape.tiles, numbers = shape.ports, draws = 0, moves = 0;
  for (; draws < MOST_DRAWS && torusmem_finished(m).value == 0; draws++) {
    uint32_t agent = drawn(&seed, agents), choice = drawn(&seed, CHOICES), number = drawn(&seed, numbers);
    bool is_asked = draws % 16 == 0;
    uint64_t enabled = is_asked ? torusmem_enabled(m, agent, choice, number).value : 0;
    uint64_t left = torusmem_moves_left(m).value;
    torusmem_outcome step = torusmem_step(m, agent, choice, number);
    if (step.code == TORUSMEM_NONE) continue;
    if (!granted("step", step)) return false;
    if (is_asked && step.value != enabled) {
      fprintf(stderr, "draw %" PRIu32 ": enabled says otherwise\n", draws);
      return false;
    }
    if (step.value == 1 && torusmem_moves_left(m).value >= left) {
      fprintf(stderr, "draw %" PRIu32 ": a move leaves as many moves as before\n", draws);
      return false;
    }
    moves += (uint32_t)step.value;
  }
  torusmem_outcome finish = torusmem_finish(m);
  fprintf(stderr, "%" PRIu32 " draws, %" PRIu32 " moves, then %" PRIu64 " rounds\n", draws, moves, finish.value);
  return granted("finish", finish);
}

/* Prints the report, once it is found good. */
static bool print_report(torusmem_machine *m) {
  size_t length = (size_t)torusmem_report(m, NULL, 0).value;
  uint8_t *report = malloc(length + 1);
  bool is_good = report && granted("report", torusmem_report(m, report, length)) &&
                 granted("check", torusmem_check(report, length));
  bool is_printed = is_good && fwrite(report, 1, length, stdout) == length && fflush(stdout) == 0;
  if (is_good && !is_printed) fprintf(stderr, "output failed\n");
  free(report);
  return is_printed;
}

int main(int count, char **words) {
  text machine = { NULL, 0 }, script = { NULL, 0 };
  torusmem_machine m = TORUSMEM_MACHINE_INIT;
  uint64_t seed = 0;
  if (count != 4) {
    fprintf(stderr, "give MACHINE SCRIPT SEED\n");
    return 2;
  }
  if (!read_number(words[3], &seed)) {
    fprintf(stderr, "SEED is a number below 2^64, not %s\n", words[3]);
    return 2;
  }
  bool is_good = read_file(words[1], &machine) && read_file(words[2], &script) &&
                 granted("load", torusmem_load(&m, machine.bytes, machine.length, script.bytes, script.length));
  free(machine.bytes);
  free(script.bytes);
  is_good = is_good && drive(&m, seed) && print_report(&m);
  torusmem_free(&m);
  return is_good ? 0 : 1;
}
