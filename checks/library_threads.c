/* library_threads MACHINE SCRIPT REPORT: machines and watches that go from thread to thread, one call at a time for each.

   Threads take turns at MACHINES machines and their watches, each under a lock of its own, and no thread twice in a row:
   loaded in one thread, stepped, looked at and watched in all, freed in another. Each machine's run is one in rounds, so
   its report must be REPORT, whoever made them. Prints a line for each thing that is wrong. `checks/library` compiles it
   with the thread sanitizer too, and runs it under Helgrind, which sees what the library reads and writes. */
#include <pthread.h>
#include <stdio.h>
#include <stdlib.h>
#include <string.h>
#include "torusmem.h"

enum { THREADS = 4, MACHINES = 3, WATCHED = 40, MOST_BYTES = 1 << 16 };

typedef struct text {
  uint8_t bytes[MOST_BYTES];
  size_t length;
} text;

typedef struct shared {
  pthread_mutex_t lock;
  torusmem_machine machine;
  torusmem_watch watch;
  size_t last; /* whose turn it was last: the next is another's */
  uint32_t calls;
  uint64_t watched;
  bool is_wrong, is_done;
} shared;

static text machine_text, script_text, report_text;
static shared all[MACHINES];

static bool says(torusmem_outcome said, uint64_t value) { return said.code == TORUSMEM_OK && said.value == value; }

static bool read_text(const char *name, text *read) {
  FILE *file = fopen(name, "rb");
  if (!file) return false;
  read->length = fread(read->bytes, 1, MOST_BYTES, file);
  fclose(file);
  return true;
}

/* One event of each kind: an add to a word of the watch, and its answer. */
static bool watch_one(shared *s) {
  uint64_t number = s->watched++;
  return says(torusmem_watch_issue(&s->watch, number, TORUSMEM_ADD, 1, 1, 0), 0) &&
         says(torusmem_watch_answer(&s->watch, number, 1, number, 1000), 0);
}

/* What a thread does at its turn: the first loads, then each makes a round and looks, until the script is finished. */
static bool turn(shared *s) {
  static const uint64_t opening[2] = { 0, 0 };
  if (s->calls++ == 0)
    return says(torusmem_load(&s->machine, machine_text.bytes, machine_text.length, script_text.bytes, script_text.length),
                0) &&
           says(torusmem_watch_begin(&s->watch, opening, 2), 0);
  torusmem_outcome left = torusmem_moves_left(&s->machine);
  if (!says(torusmem_round(&s->machine), 0) || torusmem_moves_left(&s->machine).value > left.value) return false;
  s->is_done = torusmem_finished(&s->machine).value == 1 && s->watched >= WATCHED;
  return s->watched >= WATCHED || watch_one(s);
}

static void *run(void *own) {
  size_t number = *(size_t *)own;
  for (bool is_done = false; !is_done;) {
    is_done = true;
    for (size_t at = 0; at < MACHINES; at++) {
      shared *s = &all[(at + number) % MACHINES];
      pthread_mutex_lock(&s->lock);
      if (!s->is_done && !s->is_wrong && s->last != number) {
        s->is_wrong = !turn(s);
        s->last = number;
      }
      is_done = is_done && (s->is_done || s->is_wrong);
      pthread_mutex_unlock(&s->lock);
    }
  }
  return NULL;
}

/* Takes the report in one thread, and frees in it what others have made. */
static void *end(void *own) {
  shared *s = own;
  uint8_t *report = malloc(MOST_BYTES);
  torusmem_outcome said = torusmem_report(&s->machine, report, report ? MOST_BYTES : 0);
  bool is_same = says(said, report_text.length) && memcmp(report, report_text.bytes, report_text.length) == 0;
  s->is_wrong = s->is_wrong || !is_same;
  free(report);
  torusmem_watch_end(&s->watch);
  torusmem_free(&s->machine);
  return NULL;
}

/* Starts a thread for each, and waits for all. */
static bool side_by_side(void *(*what)(void *), void *const *own, size_t count) {
  pthread_t threads[THREADS];
  size_t begun = 0;
  while (begun < count && pthread_create(&threads[begun], NULL, what, own[begun]) == 0) begun++;
  for (size_t at = 0; at < begun; at++) pthread_join(threads[at], NULL);
  return begun == count;
}

int main(int count, char **words) {
  size_t numbers[THREADS];
  void *threads[THREADS], *machines[MACHINES];
  if (count != 4 || !read_text(words[1], &machine_text) || !read_text(words[2], &script_text) ||
      !read_text(words[3], &report_text))
    return 2;
  for (size_t at = 0; at < THREADS; at++) {
    numbers[at] = at;
    threads[at] = &numbers[at];
  }
  for (size_t at = 0; at < MACHINES; at++) {
    machines[at] = &all[at];
    all[at].last = THREADS;
    pthread_mutex_init(&all[at].lock, NULL);
  }
  bool is_good = side_by_side(run, threads, THREADS) && side_by_side(end, machines, MACHINES);
  for (size_t at = 0; at < MACHINES; at++) {
    is_good = is_good && !all[at].is_wrong;
    if (all[at].is_wrong) printf("machine %zu: wrong after %u calls\n", at, (unsigned)all[at].calls);
  }
  if (!is_good) printf("not all threads were begun, or a machine is wrong\n");
  return is_good ? 0 : 1;
}
