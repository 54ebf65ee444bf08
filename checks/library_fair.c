/* library_fair: hosts of which each keeps one operation out, by fair rounds of machines with channels of one flit and one tag:

   - a barrier: each adds 1 to a word, and loads it until all have; a spin makes few loads;
   - a ticket lock, which each takes three times: it adds 1 to a word, loads another until that is its ticket, adds 1 to a
     counter by a load and a store, and passes the lock on; the words stand in one bank, or in three;
   - a machine that is saved and restored in the middle goes on as the first does.

   In plain rounds the lock of 4x4 is taken by few, so that this can fail. Prints a line for each thing that is wrong. */
#include "library_memory.h"

enum { MOST_TILES = 64, ENOUGH = 100000, FEW_LOADS = 5, TURNS = 3 };

/* What a host has the answer of. */
typedef enum stage { TICKET, SPIN, READ, WRITE, PASS, DONE } stage;

typedef struct host {
  stage at;
  bool waits;
  uint32_t index;
  uint64_t ticket, last;
  uint32_t loads, most_loads, turns;
} host;

typedef struct hosts {
  uint32_t tiles, far; /* the words are 0, far and 2 far */
  bool is_lock;
  host of[MOST_TILES];
} hosts;

static struct torusmem_shape shape_of(uint32_t radix) {
  struct torusmem_shape shape = { 2, { radix, radix, 0 }, { radix - 1, radix - 1, 0 }, 1, 1, 3 * radix * radix, 0, 0 };
  return shape;
}

static void ask(torusmem_machine *m, host *it, uint32_t tile, uint32_t operation, uint32_t address, uint64_t first) {
  torusmem_outcome said = torusmem_ask(m, tile, operation, address, first, 0, 0);
  MUST(said.code == TORUSMEM_OK);
  it->index = (uint32_t)said.value;
  it->waits = said.code == TORUSMEM_OK;
}

/* What a host asks next. */
static void give(hosts *all, torusmem_machine *m, host *it, uint32_t tile) {
  switch (it->at) {
    case TICKET: ask(m, it, tile, TORUSMEM_ADD, 0, 1); break;
    case SPIN: ask(m, it, tile, TORUSMEM_LOAD, all->is_lock ? all->far : 0, 0); break;
    case READ: ask(m, it, tile, TORUSMEM_LOAD, 2 * all->far, 0); break;
    case WRITE: ask(m, it, tile, TORUSMEM_STORE, 2 * all->far, it->last + 1); break;
    case PASS: ask(m, it, tile, TORUSMEM_ADD, all->far, 1); break;
    case DONE: break;
  }
}

/* Where a host stands once it has an answer. */
static void take(hosts *all, host *it) {
  bool is_lock = all->is_lock;
  switch (it->at) {
    case TICKET: it->ticket = it->last, it->loads = 0, it->at = SPIN; break;
    case SPIN:
      it->loads++;
      if (it->loads > it->most_loads) it->most_loads = it->loads;
      if (it->last == (is_lock ? it->ticket : all->tiles)) it->at = is_lock ? READ : DONE;
      break;
    case READ: it->at = WRITE; break;
    case WRITE: it->at = PASS; break;
    case PASS: it->turns++, it->at = it->turns == TURNS ? DONE : TICKET; break;
    case DONE: break;
  }
}

/* Each host that has no operation out asks its next one, a round is made, and answers are taken; whether some host isn't done. */
static bool once(hosts *all, torusmem_machine *m, bool is_fair) {
  bool is_busy = false;
  for (uint32_t tile = 0; tile < all->tiles; tile++)
    if (!all->of[tile].waits) give(all, m, &all->of[tile], tile);
  if (is_fair) MUST(says(torusmem_fair_round(m), TORUSMEM_OK, 0));
  else MUST(says(torusmem_round(m), TORUSMEM_OK, 0));
  for (uint32_t tile = 0; tile < all->tiles; tile++) {
    host *it = &all->of[tile];
    torusmem_answer answer = { 0 };
    if (it->waits) answer = torusmem_answer_of(m, tile, it->index);
    if (it->waits && answer.code == TORUSMEM_OK) it->last = answer.old, it->waits = false, take(all, it);
    is_busy |= it->at != DONE;
  }
  return is_busy;
}

/* Runs hosts to their end, or so many rounds; how many. */
static uint32_t run(hosts *all, uint32_t radix, bool is_lock, bool is_near, bool is_fair, uint32_t most) {
  struct torusmem_shape shape = shape_of(radix);
  torusmem_machine m = TORUSMEM_MACHINE_INIT;
  uint32_t rounds = 0, turns = 0;
  memset(all, 0, sizeof *all);
  all->tiles = radix * radix, all->is_lock = is_lock, all->far = is_near ? all->tiles : 1;
  MUST(says(torusmem_open(&m, &shape, NULL, 0), TORUSMEM_OK, 0));
  while (rounds < most && once(all, &m, is_fair)) rounds++;
  for (uint32_t tile = 0; tile < all->tiles; tile++) turns += all->of[tile].turns;
  if (is_lock && is_fair) MUST(says(torusmem_word(&m, 2 * all->far), TORUSMEM_OK, turns) && turns == TURNS * all->tiles);
  if (!is_lock) MUST(says(torusmem_word(&m, 0), TORUSMEM_OK, all->tiles));
  torusmem_free(&m);
  return rounds;
}

static uint32_t most_loads(const hosts *all) {
  uint32_t most = 0;
  for (uint32_t tile = 0; tile < all->tiles; tile++)
    if (all->of[tile].most_loads > most) most = all->of[tile].most_loads;
  return most;
}

/* Two machines are at the same place: each has the same row. */
static bool are_alike(torusmem_machine *one, torusmem_machine *other) {
  uint64_t length = torusmem_moves_left(one).value;
  bool are = torusmem_moves_left(other).value == length;
  for (uint64_t at = 0; torusmem_row(one, at).code == TORUSMEM_OK; at++)
    are &= torusmem_row(one, at).value == torusmem_row(other, at).value;
  return are;
}

/* A machine is saved while its hosts go on; what the bytes make goes on as it does. */
static void saved_in_the_middle(void) {
  static uint8_t bytes[MOST_BYTES];
  static hosts all, twin;
  struct torusmem_shape shape = shape_of(2);
  torusmem_machine m = TORUSMEM_MACHINE_INIT, again = TORUSMEM_MACHINE_INIT;
  all.tiles = 4, all.is_lock = true, all.far = 1;
  MUST(says(torusmem_open_recorded(&m, &shape, NULL, 0), TORUSMEM_OK, 0));
  for (uint32_t round = 0; round < 200; round++) once(&all, &m, true);
  MUST(says(torusmem_fair_rounds(&m, 3), TORUSMEM_OK, 3));
  torusmem_outcome said = torusmem_save(&m, bytes, MOST_BYTES);
  MUST(said.code == TORUSMEM_OK && says(torusmem_restore(&again, bytes, (size_t)said.value), TORUSMEM_OK, 0));
  MUST(are_alike(&m, &again));
  twin = all;
  for (uint32_t round = 0; round < 200; round++) MUST(once(&all, &m, true) == once(&twin, &again, true));
  MUST(are_alike(&m, &again));
  MUST(torusmem_fair_rounds(&m, UINT64_MAX).code == TORUSMEM_OK && says(torusmem_finished(&m), TORUSMEM_OK, 1));
  MUST(says(torusmem_fair_rounds(&m, UINT64_MAX), TORUSMEM_OK, 0));
  torusmem_free(&m), torusmem_free(&again);
}

int main(void) {
  static hosts all;
  for (uint32_t radix = 2; radix <= 8; radix *= 2) {
    MUST(run(&all, radix, false, false, true, ENOUGH) < ENOUGH);
    MUST(most_loads(&all) <= FEW_LOADS);
  }
  for (uint32_t radix = 2; radix <= 4; radix *= 2) {
    MUST(run(&all, radix, true, false, true, ENOUGH) < ENOUGH);
    MUST(run(&all, radix, true, true, true, ENOUGH) < ENOUGH);
  }
  MUST(run(&all, 4, true, false, false, ENOUGH / 5) == ENOUGH / 5);
  saved_in_the_middle();
  MUST(live == 0);
  return wrongs != 0;
}
