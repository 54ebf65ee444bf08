/* Misuses handles in a debug build, for `checks/library`: library_misuse CASE must print a line and abort, but for the
   case `moved`, which is no misuse. */
#define TORUSMEM_DEBUG
#include <pthread.h>
#include <string.h>
#include "torusmem.h"

static const char machine[] = "radix 2\ndims 1\ndepth 4\ntags 4\nwords 8\n";

static int begun(torusmem_machine *m) {
  return torusmem_load(m, (const uint8_t *)machine, strlen(machine), NULL, 0).code == TORUSMEM_OK;
}

/* Makes rounds until another thread's call with the machine ends this program. */
static void *makes_rounds(void *m) {
  for (;;) torusmem_round((torusmem_machine *)m);
  return NULL;
}

/* Waits until a thread is in a call with the machine, and makes a call with it meanwhile, again and again. */
static void meets(torusmem_machine *m) {
  pthread_t other;
  torusmem_ticket *ticket = m->ticket;
  if (pthread_create(&other, NULL, makes_rounds, m) != 0) return;
  for (;;)
    if (__atomic_load_n(&ticket->thread, __ATOMIC_RELAXED) != NULL) torusmem_finish(m);
}

int main(int count, char **words) {
  torusmem_machine m = TORUSMEM_MACHINE_INIT, fresh = TORUSMEM_MACHINE_INIT, copy, nothing;
  torusmem_watch w = TORUSMEM_WATCH_INIT;
  uint64_t opening = 0;
  memset(&nothing, 0, sizeof nothing);
  if (count != 2 || !begun(&m) || torusmem_watch_begin(&w, &opening, 1).code != TORUSMEM_OK) return 2;
  copy = m;
  const char *misuse = words[1];
  if (strcmp(misuse, "null") == 0) torusmem_round(NULL);
  if (strcmp(misuse, "not begun") == 0) torusmem_free(&nothing);
  if (strcmp(misuse, "watch") == 0) torusmem_round((torusmem_machine *)(void *)&w);
  if (strcmp(misuse, "machine") == 0) torusmem_watch_end((torusmem_watch *)(void *)&m);
  if (strcmp(misuse, "emptied") == 0) m.full = false, torusmem_round(&m);
  if (strcmp(misuse, "used copy") == 0) torusmem_round(&m), torusmem_round(&copy);
  if (strcmp(misuse, "freed copy") == 0) torusmem_free(&m), torusmem_round(&copy);
  if (strcmp(misuse, "freed twice") == 0) torusmem_free(&m), torusmem_free(&copy);
  if (strcmp(misuse, "two threads") == 0) meets(&m);
  if (strcmp(misuse, "null scripts") == 0) return (int)torusmem_load(&fresh, (const uint8_t *)machine, strlen(machine), NULL, 3).code;
  if (strcmp(misuse, "null report") == 0) return (int)torusmem_check(NULL, 3).code;
  if (strcmp(misuse, "null words") == 0) return (int)torusmem_watch_begin(&w, NULL, 1).code;
  if (strcmp(misuse, "null events") == 0) return (int)torusmem_linearize(&opening, 1, NULL, 1, 1, NULL, 0).code;
  if (strcmp(misuse, "null buffer") == 0) return (int)torusmem_report(&m, NULL, 9).code;
  if (strcmp(misuse, "null saved") == 0) return (int)torusmem_watch_save(&w, NULL, 9).code;
  if (strcmp(misuse, "null restored") == 0) return (int)torusmem_watch_restore(&w, NULL, 9).code;
  if (strcmp(misuse, "null listed") == 0) return (int)torusmem_outcomes(NULL, 0, NULL, 0, 1, NULL, 9).code;
  if (strcmp(misuse, "null run") == 0) return (int)torusmem_outcomes_run(NULL, 0, NULL, 0, 1, 0, NULL, 9).code;
  if (strcmp(misuse, "null answer") == 0) return (int)torusmem_reach(NULL, 0, NULL, 0, NULL, 9, 1, NULL, 0).code;
  if (strcmp(misuse, "one watch cloned") == 0) return (int)torusmem_watch_clone(&w, &w).code;
  if (strcmp(misuse, "one machine twice") == 0) return (int)torusmem_reopen(&m, &m).code;
  if (strcmp(misuse, "one machine cloned") == 0) return (int)torusmem_clone(&m, &m).code;
  if (strcmp(misuse, "moved") != 0) return 3;
  torusmem_machine moved = m;
  torusmem_round(&moved);
  torusmem_free(&moved);
  torusmem_free(&moved);
  torusmem_watch_end(&w);
  return begun(&moved) && torusmem_finished(&moved).value == 1 ? (torusmem_free(&moved), 0) : 1;
}
