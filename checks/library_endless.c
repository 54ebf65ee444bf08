/* library_endless OPERATIONS: a host that asks so many operations, drawn ones, with some open at all times. Where a
   script is full it goes on with a machine that opens with the words of this one (torusmem_reopen). A plain memory beside
   serves what was served, in the machines' order: the answers must be the same, and the words at each change. Ten times it
   saves the machine and restores it from these bytes: both must be in one state. Prints how many machines it took, the most
   bytes that they held at once, and the longest checkpoint; it is linked with -Wl,--wrap=malloc,--wrap=realloc,--wrap=free. */
#include "library_memory.h"

enum { TILES = 16, WORDS = 64, OPEN = 8, MOST_ROWS = 65536, CHECKPOINTS = 10 };

static const struct torusmem_shape shape = { 2, { 4, 4, 0 }, { 3, 0, 0 }, 4, 4, WORDS, 0, 0 };
static uint64_t plain[WORDS], state = 1, longest;

static void fail(const char *why, uint64_t which) {
  printf("%s: %" PRIu64 "\n", why, which);
  exit(1);
}

/* SplitMix64: Steele, Lea and Flood, Fast splittable pseudorandom number generators, 2014. */
static uint64_t drawn(uint64_t limit) {
  uint64_t z = state += UINT64_C(0x9E3779B97F4A7C15);
  z = (z ^ (z >> 30)) * UINT64_C(0xBF58476D1CE4E5B9);
  z = (z ^ (z >> 27)) * UINT64_C(0x94D049BB133111EB);
  return (z ^ (z >> 31)) % limit;
}

/* The word that an operation leaves. */
static uint64_t left(uint32_t operation, uint64_t old, uint64_t first, uint64_t second) {
  switch (operation) {
    case TORUSMEM_LOAD: return old;
    case TORUSMEM_CAS: return old == first ? second : old;
    case TORUSMEM_ADD: return old + first;
    case TORUSMEM_AND: return old & first;
    case TORUSMEM_OR: return old | first;
    case TORUSMEM_XOR: return old ^ first;
    case TORUSMEM_MAX: return old > first ? old : first;
    case TORUSMEM_MIN: return old < first ? old : first;
    default: return first;
  }
}

/* The plain memory serves what a machine has served, and holds the same words then. How many of its answers there are. */
static uint64_t serve(torusmem_machine *m) {
  static torusmem_ordered rows[MOST_ROWS];
  torusmem_outcome said = torusmem_order(m, 0, rows, MOST_ROWS);
  if (said.code != TORUSMEM_OK) fail("no order", said.code);
  for (uint64_t at = 0; at < said.value; at++) {
    torusmem_entry entry = torusmem_entry_at(m, rows[at].bank, rows[at].place);
    torusmem_answer answer = torusmem_answer_of(m, rows[at].source, rows[at].index);
    if (answer.code != TORUSMEM_OK || answer.old != entry.old) fail("an answer that is not its service", at);
    if (answer.has_old && answer.old != plain[entry.address]) fail("another answer than that of a plain memory", at);
    plain[entry.address] = left(entry.operation, plain[entry.address], entry.first, entry.second);
  }
  for (uint32_t address = 0; address < WORDS; address++)
    if (torusmem_word(m, address).value != plain[address]) fail("another word than that of a plain memory", address);
  return said.value;
}

/* Saves the machine, and restores another from its bytes, which must have the same words, answers and order. */
static void checkpoint(torusmem_machine *m) {
  static uint8_t bytes[1 << 22];
  torusmem_machine again = TORUSMEM_MACHINE_INIT;
  torusmem_outcome said = torusmem_save(m, bytes, sizeof bytes);
  if (said.code != TORUSMEM_OK) fail("not saved", said.code);
  if (said.value > longest) longest = said.value;
  if (torusmem_restore(&again, bytes, (size_t)said.value).code != TORUSMEM_OK) fail("not restored", said.value);
  for (uint32_t address = 0; address < WORDS; address++)
    if (torusmem_word(&again, address).value != torusmem_word(m, address).value) fail("another word is restored", address);
  for (uint32_t tile = 0; tile < TILES; tile++)
    if (torusmem_answers(&again, tile).value != torusmem_answers(m, tile).value) fail("other answers are restored", tile);
  if (torusmem_order(&again, 0, NULL, 0).value != torusmem_order(m, 0, NULL, 0).value) fail("another order is restored", 0);
  torusmem_free(&again);
}

int main(int count, char **words) {
  uint64_t wanted = count == 2 ? strtoull(words[1], NULL, 10) : 0, asked = 0, answered = 0, machines = 1, changed = 0;
  torusmem_machine first = TORUSMEM_MACHINE_INIT, fresh = TORUSMEM_MACHINE_INIT, *m = &first, *next = &fresh;
  uint32_t processor = 0;
  for (uint32_t at = 0; at < WORDS; at++) plain[at] = drawn(100);
  if (torusmem_open_recorded(m, &shape, plain, WORDS).code != TORUSMEM_OK) fail("not opened", 0);
  while (asked < wanted) {
    torusmem_outcome said = torusmem_ask(m, processor, (uint32_t)drawn(10), (uint32_t)drawn(WORDS), drawn(100), drawn(100), 0);
    if (said.code == TORUSMEM_OK) {
      asked++;
      processor = (processor + 1) % TILES;
      if (asked % OPEN == 0) torusmem_round(m);
      if (asked % (wanted / CHECKPOINTS) == 0) checkpoint(m);
      continue;
    }
    if (said.code != TORUSMEM_FAULT_LENGTH) fail("not taken", said.code);
    changed += torusmem_finished(m).value == 0; /* some are open, and are answered below */
    if (torusmem_reopen(m, next).code != TORUSMEM_OK) fail("not reopened", machines);
    answered += serve(m);
    torusmem_free(m);
    torusmem_machine *other = m;
    m = next, next = other, machines++;
  }
  if (torusmem_finish(m).code != TORUSMEM_OK) fail("not finished", 0);
  answered += serve(m);
  torusmem_free(m);
  if (answered != wanted || held != 0 || changed + 1 != machines) fail("answered, held or changed otherwise", answered);
  printf("%" PRIu64 " operations, %" PRIu64 " machines, at most %zu KB, checkpoints of at most %" PRIu64 " KB\n", answered,
         machines, most_held / 1024, longest / 1024);
  return 0;
}
