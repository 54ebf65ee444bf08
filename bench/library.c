/* Runs machines through the C library, a call for each step, and does the work of baseline/machine.rs:

     library TIMES LOADS EACH

   prints lines `NAME NUMBER`: what a piece of work took in nanoseconds, and what came of it. */
#define _POSIX_C_SOURCE 199309L
#include <inttypes.h>
#include <stdio.h>
#include <stdlib.h>
#include <string.h>
#include <time.h>
#include "torusmem.h"

enum { TILES = 64, PORTS = 18, KEPT = 1 << 20, ATTEMPTS = TILES * (5 + 3 * PORTS + 4), LINE = 64 };

typedef struct step {
  uint32_t agent, choice, number;
} step;

typedef struct work {
  const char *name, *machine;
  char *script;
} work;

static step round_steps[ATTEMPTS], kept[KEPT];

static void stop(const char *why) {
  fprintf(stderr, "library: %s\n", why);
  exit(1);
}

static uint64_t value_of(torusmem_outcome said) {
  if (said.code != TORUSMEM_OK) stop("a call isn't granted");
  return said.value;
}

static int64_t now(void) {
  struct timespec time;
  if (clock_gettime(CLOCK_MONOTONIC, &time) != 0) stop("there is no clock");
  return (int64_t)time.tv_sec * 1000000000 + time.tv_nsec;
}

static void say(const char *name, const char *piece, uint64_t number) {
  printf("%s%s %" PRIu64 "\n", name, piece, number);
}

static char *sparse_script(uint32_t loads) {
  char *script = malloc((size_t)loads * LINE + 1), *at = script;
  if (!script) stop("no memory");
  *at = 0;
  for (uint32_t i = 0; i < loads; i++) at += sprintf(at, "0 load 36\n");
  return script;
}

/* Kinds, addresses and values come from a product with an odd number, as in baseline/dense.rs. */
static char *dense_script(uint32_t each) {
  char *script = malloc((size_t)TILES * each * LINE + 1), *at = script;
  if (!script) stop("no memory");
  *at = 0;
  for (uint32_t number = 0; number < TILES * each; number++) {
    static const char *kinds[] = { "load", "store", "add", "swap", "cas" };
    uint32_t mixed = number * 2654435761u, kind = mixed / 1048576 % 5;
    at += sprintf(at, "%" PRIu32 " %s %" PRIu32, number / each, kinds[kind], mixed / 256 % 4096);
    if (kind == 4) at += sprintf(at, " 0");
    at += kind == 0 ? sprintf(at, "\n") : sprintf(at, " %" PRIu32 "\n", mixed);
  }
  return script;
}

static torusmem_machine loaded(const work *todo) {
  torusmem_machine m = TORUSMEM_MACHINE_INIT;
  value_of(torusmem_load(&m, (const uint8_t *)todo->machine, strlen(todo->machine), (const uint8_t *)todo->script,
                         strlen(todo->script)));
  return m;
}

/* The attempts of a round. */
static void fill_round(void) {
  static const uint32_t processor[] = { TORUSMEM_SEND, TORUSMEM_TAKE, TORUSMEM_CREDIT, TORUSMEM_DONE, TORUSMEM_LOOK };
  static const uint32_t router[] = { TORUSMEM_TAKE_FROM, TORUSMEM_PUT, TORUSMEM_CREDIT_OF };
  static const uint32_t bank[] = { TORUSMEM_TAKE, TORUSMEM_SERVE, TORUSMEM_SEND, TORUSMEM_CREDIT };
  step *at = round_steps;
  for (uint32_t agent = 0; agent < 3 * TILES; agent += 3) {
    for (int i = 0; i < 5; i++) *at++ = (step){ agent, processor[i], 0 };
    for (int i = 0; i < 3; i++)
      for (uint32_t port = 0; port < PORTS; port++) *at++ = (step){ agent + 1, router[i], port };
    for (int i = 0; i < 4; i++) *at++ = (step){ agent + 2, bank[i], 0 };
  }
}

static uint64_t made(torusmem_machine *m, const step *it) {
  return value_of(torusmem_step(m, it->agent, it->choice, it->number));
}

/* Makes rounds by single steps, counts the moves, and keeps the first steps that move. */
static uint64_t count(torusmem_machine *m, uint64_t rounds, uint64_t *some) {
  uint64_t moves = 0;
  *some = 0;
  for (uint64_t round = 0; round < rounds; round++)
    for (int i = 0; i < ATTEMPTS; i++)
      if (made(m, &round_steps[i])) {
        moves++;
        if (*some < KEPT) kept[(*some)++] = round_steps[i];
      }
  return moves;
}

/* A number that tells lists of answers apart. */
static void tell(const char *name, const char *piece, torusmem_machine *m) {
  uint64_t sum = 0;
  for (uint32_t processor = 0; processor < TILES; processor++) {
    uint32_t answers = (uint32_t)value_of(torusmem_answers(m, processor));
    for (uint32_t i = 0; i < answers; i++) {
      torusmem_answer it = torusmem_answer_at(m, processor, i);
      sum = ((sum * 31 + it.index) * 31 + (it.has_old ? it.old + 1 : 0)) * 31 + it.bank;
      sum = sum * 31 + it.place;
    }
  }
  say(name, piece, sum);
}

static void measure(const work *todo) {
  torusmem_machine by_rounds = loaded(todo), by_list = loaded(todo), counted = loaded(todo), moving = loaded(todo);
  uint64_t rounds, moves, some;
  int64_t start = now();
  rounds = value_of(torusmem_finish(&by_rounds));
  say(todo->name, "", (uint64_t)(now() - start));
  start = now();
  for (uint64_t round = 0; round < rounds; round++)
    for (int i = 0; i < ATTEMPTS; i++) made(&by_list, &round_steps[i]);
  say(todo->name, "-list", (uint64_t)(now() - start));
  moves = count(&counted, rounds, &some);
  start = now();
  for (uint64_t i = 0; i < some; i++) made(&moving, &kept[i]);
  say(todo->name, "-moving", (uint64_t)(now() - start));
  say(todo->name, "-rounds", rounds);
  say(todo->name, "-moves", moves);
  say(todo->name, "-kept", some);
  tell(todo->name, "-answers", &by_rounds);
  tell(todo->name, "-answers", &by_list);
  tell(todo->name, "-answers", &counted);
  tell(todo->name, "-moved-answers", &moving);
  torusmem_free(&by_rounds);
  torusmem_free(&by_list);
  torusmem_free(&counted);
  torusmem_free(&moving);
}

int main(int words, char **given) {
  if (words != 4) stop("give how often, of how many loads, and of how many operations each");
  work sparse = { "sparse", "radix 8\ndims 2\ndepth 1\ntags 1\nwords 64\ninit 36 5\n", NULL };
  work dense = { "dense", "radix 8\ndims 2\ndepth 4\ntags 8\nwords 4096\n", NULL };
  sparse.script = sparse_script((uint32_t)atoi(given[2]));
  dense.script = dense_script((uint32_t)atoi(given[3]));
  fill_round();
  for (int time = atoi(given[1]); time > 0; time--) {
    measure(&sparse);
    measure(&dense);
  }
  free(sparse.script);
  free(dense.script);
  return 0;
}
