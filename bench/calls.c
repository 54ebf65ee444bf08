/* Makes a list of attempts through the C library, for bench/python:

     calls MACHINE SCRIPT ATTEMPTS TIMES

   ATTEMPTS holds three numbers of 32 bits for each attempt. A machine makes the list TIMES times by a call of
   torusmem_step for each attempt, and another one by a call of torusmem_run for each time. Prints for each way a line
   `WAY NANOSECONDS MOVES LEFT`: what it took, how many attempts moved, and the moves that are left then. */
#define _POSIX_C_SOURCE 199309L
#include <inttypes.h>
#include <stdio.h>
#include <stdlib.h>
#include <time.h>
#include "torusmem.h"

static void stop(const char *why) {
  fprintf(stderr, "calls: %s\n", why);
  exit(1);
}

static uint64_t value_of(torusmem_outcome said) {
  if (said.code != TORUSMEM_OK) stop("a call isn't granted");
  return said.value;
}

static int64_t now(void) {
  struct timespec time;
  if (clock_gettime(CLOCK_MONOTONIC, &time) != 0) stop("there is no clock");
  return (int64_t)time.tv_sec * 1000000000 + time.tv_nsec;
}

/* The bytes of a file. */
static uint8_t *contents(const char *name, size_t *length) {
  FILE *file = fopen(name, "rb");
  size_t room = 1 << 16;
  uint8_t *bytes = malloc(room);
  *length = 0;
  if (!file || !bytes) stop("a file can't be read");
  for (size_t some; (some = fread(bytes + *length, 1, room - *length, file)) > 0;) {
    *length += some;
    if (*length == room && !(bytes = realloc(bytes, room *= 2))) stop("no memory");
  }
  fclose(file);
  return bytes;
}

static torusmem_machine loaded(char **names) {
  torusmem_machine m = TORUSMEM_MACHINE_INIT;
  size_t machine_length, script_length;
  uint8_t *machine = contents(names[0], &machine_length), *script = contents(names[1], &script_length);
  value_of(torusmem_load(&m, machine, machine_length, script, script_length));
  free(machine);
  free(script);
  return m;
}

static void tell(const char *way, int64_t start, uint64_t moves, torusmem_machine *m) {
  int64_t taken = now() - start;
  printf("%s %" PRIu64 " %" PRIu64 " %" PRIu64 "\n", way, (uint64_t)taken, moves, value_of(torusmem_moves_left(m)));
  torusmem_free(m);
}

int main(int words, char **given) {
  if (words != 5) stop("give MACHINE SCRIPT ATTEMPTS TIMES");
  size_t length;
  torusmem_attempt *attempts = (torusmem_attempt *)contents(given[3], &length);
  size_t count = length / sizeof *attempts;
  int times = atoi(given[4]);
  torusmem_machine m = loaded(given + 1);
  uint64_t moves = 0;
  int64_t start = now();
  for (int time = 0; time < times; time++)
    for (size_t i = 0; i < count; i++)
      moves += value_of(torusmem_step(&m, attempts[i].agent, attempts[i].choice, attempts[i].number));
  tell("calls", start, moves, &m);
  m = loaded(given + 1);
  moves = 0;
  start = now();
  for (int time = 0; time < times; time++) moves += value_of(torusmem_run(&m, attempts, count));
  tell("run", start, moves, &m);
  free(attempts);
  return 0;
}
