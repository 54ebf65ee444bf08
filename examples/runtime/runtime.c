/* runtime: 64 processors place eight queens, by work stealing over the shared memory of a torus of 8 by 8 tiles.

   A task is a board with some queens; it makes a task for each way to place one more. Each processor has a deque of
   tasks in shared words: it puts and takes at the bottom, and where it has none it steals at the top of another's, by
   `cas`. What it asks next follows from what it was answered last: torusmem_ask gives it one operation at a time,
   torusmem_fair_round moves the machine on for all of them, and torusmem_answer_of has the answer once it is there.

   Beside the machine stands a plain memory, on whose words each operation is done when its bank has served it. All
   replies and words must be the same in both, and each machine's report a good one. A processor has at most 4096
   operations, and all together 65536; here a machine is closed once a processor has had ROOM (1024 would do), to show
   how the next one opens with its words. The status is 0; or 1, where a line on standard error says why. */
#include <inttypes.h>
#include <stdio.h>
#include <stdlib.h>
#include "torusmem.h"

enum { TILES = 64, QUEENS = 8, WAYS = 92, SLOTS = 64, ROOM = 512, LINE = 64, ALL = (1 << QUEENS) - 1 };

/* The words: how many tasks are left, how many full boards were found, and for each processor the state of its deque
   and its slots, which are at home at its tile, since address A is at home at tile A modulo 64. */
enum { LEFT = 0, FOUND = 1, STATES = TILES, DEQUES = 2 * TILES, WORDS = DEQUES + SLOTS * TILES };

/* The state of a deque: bits 0 to 15 are its bottom, 16 to 31 its top, the others count its changes, so that no state
   comes again. Its tasks, at most 8 + 7 + .. + 1, are in the slots from the top to below the bottom, modulo SLOTS. */
static const uint64_t AT_TOP = 1 << 16, CHANGE = UINT64_C(1) << 32;

/* What a processor has the answer of. */
typedef enum stage { STATE, TASK, CAS, LOOK, FOUND_ONE, COUNTED, PUT } stage;

typedef struct operation {
  uint32_t kind, address;
  uint64_t first, second;
} operation;

typedef struct processor {
  stage at;
  operation next;                 /* what it asks next, or has asked and waits for */
  bool waits, is_served, is_done; /* next is asked; its bank has served it; there is no more to ask */
  uint64_t plain;                 /* the plain memory's reply to it */
  uint32_t number, asked, owner;  /* its tile; its operations in this machine; whose deque it takes from */
  uint64_t state, own, seed;      /* the state of that as it was loaded, of its own, and of its draws */
  uint64_t task, made[QUEENS];    /* the task that it does, and those that it makes */
  uint64_t done;                  /* how many it has done that LEFT still counts */
  uint32_t count, put, tasks, steals, misses;
} processor;

typedef struct runtime {
  torusmem_machine machine;
  processor processors[TILES];
  uint64_t plain[WORDS];
  uint32_t served[TILES];      /* how many entries of each bank the plain memory has followed */
  uint64_t rounds, operations; /* of this machine */
} runtime;

/* Says what a call refused; true if it was granted. */
static bool granted(const char *call, torusmem_outcome said) {
  if (said.code != TORUSMEM_OK)
    fprintf(stderr, "%s: %s (code %" PRIu32 ", value %" PRIu64 ")\n", call, torusmem_code_text(said.code), said.code, said.value);
  return said.code == TORUSMEM_OK;
}

/* Says what, of which processor or address, isn't what it is in the plain memory or should be; true if it is. */
static bool same(const char *what, uint32_t which, uint64_t got, uint64_t plain) {
  if (got != plain) fprintf(stderr, "%s %" PRIu32 ": %" PRIu64 ", not %" PRIu64 "\n", what, which, got, plain);
  return got == plain;
}

/* The tasks that a task makes. It has the columns with a queen, then those of the next row that are on a diagonal. */
static uint32_t made_of(uint64_t task, uint64_t made[QUEENS]) {
  uint64_t columns = task & ALL, left = task >> 8 & ALL, right = task >> 16;
  uint32_t count = 0;
  for (uint64_t bit = 1; bit <= ALL; bit <<= 1)
    if (!((columns | left | right) & bit))
      made[count++] = columns | bit | ((left | bit) << 1 & ALL) << 8 | (right | bit) >> 1 << 16;
  return count;
}

/* The address of a task of a deque. */
static uint32_t slot(uint32_t owner, uint64_t at) {
  return DEQUES + (uint32_t)(at % SLOTS) * TILES + owner;
}

/* Asks an operation next, with whose answer the processor is at a stage. */
static void ask(processor *p, stage at, uint32_t kind, uint32_t address, uint64_t first, uint64_t second) {
  p->at = at;
  p->next = (operation){ kind, address, first, second };
}

/* Looks for a task in somebody's deque. */
static void seek(processor *p, uint32_t owner) {
  p->owner = owner;
  ask(p, STATE, TORUSMEM_LOAD, STATES + owner, 0, 0);
}

/* Draws whose deque to look into. The factors are those of Knuth's MMIX. */
static void steal(processor *p) {
  p->seed = p->seed * UINT64_C(6364136223846793005) + UINT64_C(1442695040888963407);
  seek(p, (uint32_t)(p->seed >> 58));
}

/* Looks at a state that was loaded: at the task that would be taken, at another deque, or whether any task is left. */
static void look_at(processor *p, uint64_t state) {
  p->state = state;
  if (p->owner == p->number) p->own = state;
  uint64_t top = state >> 16 & 0xFFFF, bottom = state & 0xFFFF;
  if (top < bottom)
    ask(p, TASK, TORUSMEM_LOAD, slot(p->owner, p->owner == p->number ? bottom - 1 : top), 0, 0);
  else if (p->done > 0)
    ask(p, LOOK, TORUSMEM_ADD, LEFT, 0 - p->done, 0);
  else if (++p->misses % 16 == 0)
    ask(p, LOOK, TORUSMEM_LOAD, LEFT, 0, 0);
  else
    steal(p);
}

/* Puts the tasks made into slots from the bottom on, one by one; then moves the bottom, and looks for a task. */
static void put(processor *p) {
  uint32_t i = p->put++;
  if (i < p->count)
    ask(p, COUNTED, TORUSMEM_STORE, slot(p->number, (p->own & 0xFFFF) + i), p->made[i], 0);
  else if (p->count > 0)
    ask(p, PUT, TORUSMEM_ADD, STATES + p->number, p->count + CHANGE, 0);
  else
    seek(p, p->number);
}

/* Does the task. Those that it makes are counted as left before they can be taken; as many as it has done since it
   last said so are counted still. */
static void work(processor *p) {
  p->count = made_of(p->task, p->made);
  p->put = 0;
  p->done += 1;
  uint64_t more = p->count > p->done ? p->count - p->done : 0;
  p->done -= p->count - more;
  if (more > 0)
    ask(p, COUNTED, TORUSMEM_ADD, LEFT, more, 0);
  else
    put(p);
}

/* Begins the task that it took; a full board is counted as found first. */
static void begin(processor *p) {
  p->tasks += 1;
  p->steals += p->owner != p->number;
  if (p->owner == p->number) p->own = p->next.second;
  if ((p->task & ALL) == ALL)
    ask(p, FOUND_ONE, TORUSMEM_ADD, FOUND, 1, 0);
  else
    work(p);
}

/* Decides from the reply what a processor asks next; or it is done, since no task is left. */
static void decide(processor *p, uint64_t reply) {
  bool is_own = p->owner == p->number;
  switch (p->at) {
  case STATE: look_at(p, reply); break;
  case TASK:
    p->task = reply;
    ask(p, CAS, TORUSMEM_CAS, STATES + p->owner, p->state, p->state + CHANGE + (is_own ? UINT64_MAX : AT_TOP));
    break;
  case CAS: reply == p->state ? begin(p) : seek(p, p->number); break;
  case LOOK:
    p->is_done = reply + p->next.first == 0;
    p->done = 0;
    steal(p);
    break;
  case FOUND_ONE: work(p); break;
  case COUNTED: put(p); break;
  case PUT: seek(p, p->number); break;
  }
}

/* Does an operation on a word of the plain memory; the reply. */
static uint64_t plainly(uint64_t *word, const operation *next) {
  uint64_t old = *word;
  if (next->kind == TORUSMEM_STORE) *word = next->first;
  if (next->kind == TORUSMEM_ADD) *word += next->first;
  if (next->kind == TORUSMEM_CAS && old == next->first) *word = next->second;
  return next->kind == TORUSMEM_STORE ? 0 : old;
}

/* Does on the plain memory what a bank has served since, in its order; other banks have other words. */
static bool follow(runtime *r, uint32_t bank) {
  for (;; r->served[bank]++) {
    torusmem_entry entry = torusmem_entry_at(&r->machine, bank, r->served[bank]);
    if (entry.code != TORUSMEM_OK) return true;
    processor *p = &r->processors[entry.source];
    bool is_asked = p->waits && !p->is_served && p->next.kind == entry.operation && p->next.address == entry.address;
    if (!same("as asked by", p->number, is_asked, 1)) return false;
    p->plain = plainly(&r->plain[entry.address], &p->next);
    p->is_served = true;
  }
}

/* Takes the answer of a processor if it is there, and lets it decide. */
static bool take_answer(runtime *r, processor *p) {
  torusmem_answer got = torusmem_answer_of(&r->machine, p->number, p->asked - 1);
  if (got.code == TORUSMEM_NOT_YET) return true;
  bool is_served = p->is_served && got.code == TORUSMEM_OK && got.has_old == (p->next.kind != TORUSMEM_STORE);
  if (!same("served for", p->number, is_served, 1) || !same("reply to", p->number, got.old, p->plain)) return false;
  p->waits = p->is_served = false;
  decide(p, got.old);
  return true;
}

/* Gives the machine what a processor asks next. */
static bool give(runtime *r, processor *p) {
  const operation *o = &p->next;
  torusmem_outcome said = torusmem_ask(&r->machine, p->number, o->kind, o->address, o->first, o->second, 0);
  p->waits = true;
  p->asked = (uint32_t)said.value + 1;
  r->operations += 1;
  return granted("ask", said);
}

/* Runs a machine until no processor has more to ask, or one has no room; and all have their answers. */
static bool run(runtime *r) {
  processor *end = r->processors + TILES;
  for (bool is_closing = false;; r->rounds++) {
    bool is_waiting = false;
    for (processor *p = r->processors; p < end; p++) is_closing |= p->asked == ROOM && !p->waits;
    for (processor *p = r->processors; p < end; p++) {
      if (!p->waits && !p->is_done && !is_closing && !give(r, p)) return false;
      is_waiting |= p->waits;
    }
    if (!is_waiting) return true;
    if (!granted("fair_round", torusmem_fair_round(&r->machine))) return false;
    for (uint32_t bank = 0; bank < TILES; bank++)
      if (!follow(r, bank)) return false;
    for (processor *p = r->processors; p < end; p++)
      if (p->waits && !take_answer(r, p)) return false;
  }
}

/* Opens a machine, whose scripts are empty, with the words of the one before; or with the first ones. */
static bool open_machine(runtime *r, const uint64_t *words) {
  size_t size = (WORDS + 2) * LINE;
  char *text = malloc(size);
  if (!text) return granted("text", (torusmem_outcome){ TORUSMEM_FAULT_MEMORY, 0 });
  int length = snprintf(text, size, "radix 8\ndims 2\ndepth 4\ntags 4\nwords %d\n", WORDS);
  for (uint32_t i = 0; i < WORDS; i++)
    if (words[i] > 0)
      length += snprintf(text + length, size - (size_t)length, "init %" PRIu32 " %" PRIu64 "\n", i, words[i]);
  torusmem_outcome said = torusmem_load(&r->machine, (const uint8_t *)text, (size_t)length, NULL, 0);
  free(text);
  for (uint32_t i = 0; i < TILES; i++) r->served[i] = r->processors[i].asked = 0;
  r->rounds = r->operations = 0;
  return granted("load", said);
}

/* Lets all processors report that they are at their end. The report must be a good one, and the words, which the next
   machine opens with, those of the plain memory. */
static bool close_machine(runtime *r, uint64_t words[WORDS]) {
  torusmem_outcome end = torusmem_finish(&r->machine);
  size_t length = (size_t)torusmem_report(&r->machine, NULL, 0).value;
  uint8_t *text = malloc(length + 1);
  if (!text) end = (torusmem_outcome){ TORUSMEM_FAULT_MEMORY, 0 };
  bool is_good = granted("finish", end) && granted("report", torusmem_report(&r->machine, text, length)) &&
                 granted("check", torusmem_check(text, length));
  free(text);
  r->rounds += end.value;
  for (uint32_t i = 0; is_good && i < WORDS; i++) {
    words[i] = torusmem_word(&r->machine, i).value;
    is_good = same("word", i, words[i], r->plain[i]);
  }
  return is_good;
}

/* Tells what the processors did; true if they found all ways to place the queens. */
static bool is_found(const runtime *r) {
  uint32_t tasks = 0, steals = 0;
  for (const processor *p = r->processors; p < r->processors + TILES; p++) {
    tasks += p->tasks;
    steals += p->steals;
    if (p->number % 16 == 0) printf("processor %" PRIu32 ": %" PRIu32 " tasks\n", p->number, p->tasks);
  }
  printf("all: %" PRIu32 " tasks, %" PRIu32 " of them stolen; %" PRIu64 " ways\n", tasks, steals, r->plain[FOUND]);
  return same("the ways at address", FOUND, r->plain[FOUND], WAYS);
}

int main(void) {
  static runtime r = { .machine = TORUSMEM_MACHINE_INIT, .plain = { [LEFT] = 1, [STATES] = 1 } };
  static uint64_t words[WORDS] = { [LEFT] = 1, [STATES] = 1 }; /* deque 0 has one task, the empty board, in slot 0 */
  bool is_good = true;
  for (uint32_t i = 0; i < TILES; i++) {
    r.processors[i].seed = r.processors[i].number = i;
    seek(&r.processors[i], i);
  }
  for (int machine = 1; is_good && r.plain[LEFT] > 0; machine++) {
    is_good = open_machine(&r, words) && run(&r) && close_machine(&r, words);
    torusmem_free(&r.machine);
    if (is_good)
      printf("machine %d: %" PRIu64 " rounds, %" PRIu64 " operations, report good\n", machine, r.rounds, r.operations);
  }
  is_good = is_good && is_found(&r);
  bool is_printed = fflush(stdout) == 0 && !ferror(stdout);
  if (!is_printed) fprintf(stderr, "output failed\n");
  return is_good && is_printed ? 0 : 1;
}
