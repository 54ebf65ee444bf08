/* Measures what a host asks of the C library as it goes, for bench/hosts: prints the rows of a table, each with the best of five
   passes, in processor time. */
#define _POSIX_C_SOURCE 199309L
#include <inttypes.h>
#include <stdio.h>
#include <stdlib.h>
#include <time.h>
#include "torusmem.h"

enum { PASSES = 5, TIMES = 50 };

static const struct torusmem_shape shape = { 2, { 4, 4, 0 }, { 0, 0, 0 }, 4, 4, 4096, 0, 0 };

static void stop(const char *why) {
  fprintf(stderr, "hosts: %s\n", why);
  exit(1);
}

static uint64_t value_of(torusmem_outcome said) {
  if (said.code != TORUSMEM_OK) stop(torusmem_code_text(said.code));
  return said.value;
}

static double now(void) {
  struct timespec time;
  if (clock_gettime(CLOCK_PROCESS_CPUTIME_ID, &time) != 0) stop("there is no clock");
  return (double)time.tv_sec * 1e6 + (double)time.tv_nsec / 1e3;
}

/* What is asked, of a machine with so many operations, and the microseconds that it takes once. */
typedef void (*question)(torusmem_machine *m, uint32_t operations);

static void ask_order(torusmem_machine *m, uint32_t operations) {
  torusmem_ordered row;
  if (value_of(torusmem_order(m, operations - 1, &row, 1)) == 0) stop("there is no last row");
}

static void ask_events(torusmem_machine *m, uint32_t operations) {
  torusmem_happened rows[4];
  if (value_of(torusmem_events(m, 3 * operations, rows, 4)) == 0) stop("there is no last event");
}

static void ask_events_from(torusmem_machine *m, uint32_t operations) {
  torusmem_happened rows[4];
  if (value_of(torusmem_answered_to(m, operations - 1)) != operations) stop("the last row isn't answered");
  if (value_of(torusmem_events_from(m, operations - 64, 3 * operations, rows, 4)) == 0) stop("there is no last event");
}

static void ask_answer_of(torusmem_machine *m, uint32_t operations) {
  if (torusmem_answer_of(m, 0, operations - 1).code != TORUSMEM_OK) stop("there is no answer of the index");
}

static void ask_answer_at(torusmem_machine *m, uint32_t operations) {
  if (torusmem_answer_at(m, 0, operations - 1).code != TORUSMEM_OK) stop("there is no last answer");
}

static double took(question ask, torusmem_machine *m, uint32_t operations) {
  double best = 1e18;
  for (int pass = 0; pass < PASSES; pass++) {
    double began = now();
    for (int i = 0; i < TIMES; i++) ask(m, operations);
    double each = (now() - began) / TIMES;
    if (each < best) best = each;
  }
  return best;
}

/* Asks for loads and adds of the first processors in turn, up to so many in all, and finishes them. */
static void filled(torusmem_machine *m, uint32_t *asked, uint32_t operations, uint32_t processors) {
  for (; *asked < operations; ++*asked) {
    uint32_t address = *asked * 2654435761u / 256 % 4096;
    value_of(torusmem_ask(m, *asked % processors, *asked % 4 ? TORUSMEM_LOAD : TORUSMEM_ADD, address, *asked % 4 == 0, 0, 0));
    if (*asked % 64 == 63) value_of(torusmem_finish(m));
  }
  value_of(torusmem_finish(m));
}

static void rows(const char *what, question ask, uint32_t processors, const uint32_t *counts, int length) {
  torusmem_machine m = TORUSMEM_MACHINE_INIT;
  uint32_t asked = 0;
  value_of(torusmem_open(&m, &shape, NULL, 0));
  for (int i = 0; i < length; i++) {
    filled(&m, &asked, counts[i], processors);
    printf("| %s, of %" PRIu32 " | %.2f microseconds |\n", what, counts[i], took(ask, &m, counts[i]));
  }
  torusmem_free(&m);
}

/* Makes the next round: a plain one, or a clocked one of the turn of the rounds so far. */
static torusmem_outcome plain(torusmem_machine *m, uint32_t made) {
  (void)made;
  return torusmem_round(m);
}

static torusmem_outcome clocked(torusmem_machine *m, uint32_t made) {
  return torusmem_clocked_round(m, made);
}

/* The bytes of a record after so many idle rounds, a call for each, and how long it takes to make the machine again. */
static void records(const char *what, torusmem_outcome (*round)(torusmem_machine *, uint32_t), const uint32_t *counts, int length) {
  torusmem_machine m = TORUSMEM_MACHINE_INIT, fresh = TORUSMEM_MACHINE_INIT;
  uint32_t made = 0;
  value_of(torusmem_open_recorded(&m, &shape, NULL, 0));
  for (int i = 0; i < length; i++) {
    for (; made < counts[i]; made++) value_of(round(&m, made));
    torusmem_outcome said = torusmem_save(&m, NULL, 0);
    if (said.code != TORUSMEM_SHORT) stop("a record takes no bytes");
    uint8_t *bytes = malloc(said.value);
    if (bytes == NULL) stop("no memory");
    value_of(torusmem_save(&m, bytes, said.value));
    double began = now();
    value_of(torusmem_restore(&fresh, bytes, said.value));
    printf("| a record after %" PRIu32 " idle %s | %" PRIu64 " bytes, restored in %.2f ms |\n", made, what, said.value,
           (now() - began) / 1e3);
    torusmem_free(&fresh);
    free(bytes);
  }
  torusmem_free(&m);
}

int main(void) {
  static const uint32_t of_all[] = { 128, 2048, 8192 }, of_one[] = { 64, 512, 4096 };
  static const uint32_t of_rounds[] = { 0, 1000, 100000, 1000000 };
  printf("| what | figure |\n| --- | --- |\n");
  rows("`torusmem_order` for the last row", ask_order, 16, of_all, 3);
  rows("`torusmem_events` for the last event", ask_events, 16, of_all, 3);
  rows("`torusmem_events_from` for the last event, over the last 64 rows", ask_events_from, 16, of_all, 3);
  rows("`torusmem_answer_of` the last operation of a processor", ask_answer_of, 1, of_one, 3);
  rows("`torusmem_answer_at` the last answer of a processor", ask_answer_at, 1, of_one, 3);
  records("rounds", plain, of_rounds, 4);
  records("clocked rounds", clocked, of_rounds, 4);
  return 0;
}
