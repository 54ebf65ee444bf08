/* Searches for the outcomes of scripts by the library, as `checks/library` asks, and prints a line for each thing that is wrong:

     library_outcomes codes                   what the calls answer: outcomes, runs, replies, short buffers, faults
     library_outcomes memory                  searches with the n-th request for memory refused, for each n
     library_outcomes print MACHINE SCRIPT    the outcomes, then of each the steps of a run to it, and to its replies

   The outcomes are those of docs/OUTCOMES.md. It is linked with -Wl,--wrap=malloc,--wrap=realloc,--wrap=free. */
#include "library_memory.h"

static const char two_tiles[] = "radix 2\ndims 1\ndepth 4\ntags 4\nwords 8\n";
static const char message[] = "0 store 1 42\n0 fence\n0 store 0 1\n1 load 0\n1 fence\n1 load 1\n";
static text written;

static void read_texts(const char *machine, const char *scripts) {
  machine_text.length = strlen(machine), script_text.length = strlen(scripts);
  memcpy(machine_text.bytes, machine, machine_text.length);
  memcpy(script_text.bytes, scripts, script_text.length);
}

static torusmem_searched outcomes(uint64_t states, size_t room) {
  memset(written.bytes, 0xAA, room + 8);
  torusmem_searched said = torusmem_outcomes(machine_text.bytes, machine_text.length, script_text.bytes, script_text.length,
                                             states, written.bytes, room);
  MUST(written.bytes[room] == 0xAA && live == 0);
  return said;
}

static torusmem_outcome run_to(uint64_t number, uint64_t states, size_t room) {
  memset(written.bytes, 0xAA, room + 8);
  torusmem_outcome said = torusmem_outcomes_run(machine_text.bytes, machine_text.length, script_text.bytes,
                                                script_text.length, states, number, written.bytes, room);
  MUST(written.bytes[room] == 0xAA && live == 0);
  return said;
}

static torusmem_outcome reach(const char *answer, size_t length, uint64_t states, size_t room) {
  memset(written.bytes, 0xAA, room + 8);
  torusmem_outcome said = torusmem_reach(machine_text.bytes, machine_text.length, script_text.bytes, script_text.length,
                                         (const uint8_t *)answer, length, states, written.bytes, room);
  MUST(written.bytes[room] == 0xAA && live == 0);
  return said;
}

static bool reaches(const char *answer, uint64_t states, uint32_t code, const char *wanted) {
  torusmem_outcome said = reach(answer, strlen(answer), states, MOST_BYTES - 8);
  return says(said, code, strlen(wanted)) && memcmp(written.bytes, wanted, strlen(wanted)) == 0 &&
         written.bytes[strlen(wanted)] == 0xAA;
}

static bool is_searched(torusmem_searched said, uint32_t code, uint64_t outcomes, uint64_t states, uint64_t value) {
  return said.code == code && said.outcomes == outcomes && said.states == states && said.value == value;
}

/* All outcomes; those of a search that may look at 7 states; a buffer that is a byte too short. */
static void outcomes_are_listed(void) {
  static const char all[] = "outcome 0 : ok ok / 1 42 ; 0 1 1 42\noutcome 1 : ok ok / 0 0 ; 0 1 1 42\n"
                            "outcome 2 : ok ok / 0 42 ; 0 1 1 42\nexact, 35 states\n";
  static const char some[] = "undecided, 7 states: 0 outcomes are known, there may be others\n";
  MUST(is_searched(outcomes(35, MOST_BYTES - 8), TORUSMEM_OK, 3, 35, sizeof all - 1));
  MUST(memcmp(written.bytes, all, sizeof all - 1) == 0 && written.bytes[sizeof all - 1] == 0xAA);
  MUST(is_searched(outcomes(10000000, sizeof all - 1), TORUSMEM_OK, 3, 35, sizeof all - 1));
  MUST(is_searched(outcomes(100000, sizeof all - 2), TORUSMEM_SHORT, 3, 35, sizeof all - 1) && written.bytes[0] == 0xAA);
  MUST(is_searched(outcomes(7, MOST_BYTES - 8), TORUSMEM_UNDECIDED, 0, 7, sizeof some - 1));
  MUST(memcmp(written.bytes, some, sizeof some - 1) == 0);
  MUST(outcomes(34, MOST_BYTES - 8).code == TORUSMEM_UNDECIDED);
}

/* A run to an outcome, and to its replies; an outcome that there isn't, and one that isn't known. */
static void runs_are_found(void) {
  static text run;
  torusmem_outcome said = run_to(1, 100000, MOST_BYTES - 8);
  MUST(said.code == TORUSMEM_OK && memcmp(written.bytes + said.value - 11, "# finished\n", 11) == 0);
  run.length = (size_t)said.value;
  memcpy(run.bytes, written.bytes, run.length);
  memcpy(run.bytes + run.length, "# reached\n", 11);
  MUST(reaches("ok ok / 0 0", 100000, TORUSMEM_OK, (const char *)run.bytes));
  MUST(reaches("* * / 0 0", 100000, TORUSMEM_OK, (const char *)run.bytes));
  MUST(says(run_to(1, 100000, run.length - 1), TORUSMEM_SHORT, run.length) && written.bytes[0] == 0xAA);
  MUST(says(run_to(3, 100000, 100), TORUSMEM_NONE, 0) && says(run_to(UINT64_MAX, 100000, 100), TORUSMEM_NONE, 0));
  MUST(says(run_to(3, 7, 100), TORUSMEM_UNDECIDED, 0) && written.bytes[0] == 0xAA);
  MUST(reaches("ok ok / 1 0", 100000, TORUSMEM_NEVER, "never, 35 states\n"));
  MUST(reaches("ok ok / 1 0", 7, TORUSMEM_UNDECIDED, "undecided, 7 states\n"));
  MUST(says(reach("ok ok / 1 0", 11, 7, 19), TORUSMEM_SHORT, 20) && written.bytes[0] == 0xAA);
  MUST(reaches("ok ok / 1 x", 100000, TORUSMEM_NO_REPLY, "") && reaches("ok ok / 1", 100000, TORUSMEM_OTHER_COUNT, ""));
  MUST(reaches("", 100000, TORUSMEM_OTHER_COUNT, "") && says(reach(NULL, 0, 7, 0), TORUSMEM_OTHER_COUNT, 0));
}

/* Numbers of states that none may have; texts with faults; scripts of 256 operations, and of one more. */
static void searches_are_refused(void) {
  static const uint64_t states[] = { 0, 10000001, UINT64_MAX };
  for (size_t it = 0; it < 3; it++) {
    MUST(is_searched(outcomes(states[it], 100), TORUSMEM_FAULT_RANGE, 0, 0, 0) && written.bytes[0] == 0xAA);
    MUST(says(run_to(0, states[it], 100), TORUSMEM_FAULT_RANGE, 0));
    MUST(says(reach("x", 1, states[it], 100), TORUSMEM_FAULT_RANGE, 0));
  }
  read_texts(two_tiles, "0 load 7\n0 load 8\n");
  MUST(is_searched(outcomes(7, 100), TORUSMEM_FAULT_ADDRESS, 0, 0, 2) && written.bytes[0] == 0xAA);
  MUST(says(run_to(0, 7, 100), TORUSMEM_FAULT_ADDRESS, 2) && says(reach("x", 1, 7, 100), TORUSMEM_FAULT_ADDRESS, 2));
  read_texts("\nradix 9\n", "0 load 8\n");
  MUST(is_searched(outcomes(7, 100), TORUSMEM_FAULT_RADIX, 0, 0, 2));
  read_texts(two_tiles, "0 spin 0 1 255\n1 load 0\n");
  MUST(outcomes(7, 100).code == TORUSMEM_UNDECIDED);
  read_texts(two_tiles, "0 spin 0 1 256\n1 load 0\n");
  MUST(is_searched(outcomes(7, 100), TORUSMEM_TOO_LONG, 0, 0, 0) && written.bytes[0] == 0xAA);
  MUST(says(run_to(0, 7, 100), TORUSMEM_TOO_LONG, 0) && reaches("*", 7, TORUSMEM_OTHER_COUNT, ""));
  torusmem_searched none = torusmem_outcomes(NULL, 0, NULL, 0, 7, NULL, 0);
  MUST(is_searched(none, TORUSMEM_FAULT_SETTING, 0, 0, 1) && live == 0);
}

static void codes(void) {
  read_texts(two_tiles, message);
  outcomes_are_listed();
  runs_are_found();
  searches_are_refused();
}

/* The outcome of one load, for which memory may be refused, by each call: it is found, or the answer says why not. */
static void search_with_little_memory(void) {
  static const char one[] = "outcome 0 : 0 ;\nexact, ";
  torusmem_searched said = outcomes(1000, 1000);
  if (said.code == TORUSMEM_OK) MUST(said.outcomes == 1 && memcmp(written.bytes, one, sizeof one - 1) == 0);
  else MUST(refused != 0 && is_searched(said, TORUSMEM_FAULT_MEMORY, 0, 0, 0) && written.bytes[0] == 0xAA);
  torusmem_outcome run = run_to(0, 1000, MOST_BYTES - 8);
  if (run.code == TORUSMEM_OK) MUST(memcmp(written.bytes + run.value - 11, "# finished\n", 11) == 0);
  else MUST(refused != 0 && says(run, TORUSMEM_FAULT_MEMORY, 0) && written.bytes[0] == 0xAA);
  run = reach("*", 1, 1000, MOST_BYTES - 8);
  if (run.code == TORUSMEM_OK) MUST(memcmp(written.bytes + run.value - 10, "# reached\n", 10) == 0);
  else MUST(refused != 0 && says(run, TORUSMEM_FAULT_MEMORY, 0) && written.bytes[0] == 0xAA);
  run = reach("1", 1, 1000, MOST_BYTES - 8);
  if (run.code == TORUSMEM_NEVER) MUST(memcmp(written.bytes, "never, ", 7) == 0);
  else MUST(refused != 0 && says(run, TORUSMEM_FAULT_MEMORY, 0) && written.bytes[0] == 0xAA);
}

static void memory(void) {
  read_texts("radix 2\ndims 1\ndepth 1\ntags 1\nwords 2\n", "0 load 0\n");
  refuse_each_request(search_with_little_memory);
}

static void put(uint64_t length) {
  MUST(fwrite(written.bytes, 1, (size_t)length, stdout) == length);
}

static void print(void) {
  static text list;
  torusmem_searched said = outcomes(100000, MOST_BYTES - 8);
  MUST(said.code == TORUSMEM_OK || said.code == TORUSMEM_UNDECIDED);
  put(said.value);
  list.length = (size_t)said.value;
  memcpy(list.bytes, written.bytes, list.length);
  const char *line = (const char *)list.bytes;
  for (uint64_t number = 0; number < said.outcomes; number++, line = strchr(line, '\n') + 1) {
    const char *replies = strstr(line, " : ") + 3;
    put(run_to(number, 100000, MOST_BYTES - 8).value);
    put(reach(replies, (size_t)(strstr(replies, " ;") - replies), 100000, MOST_BYTES - 8).value);
  }
}

int main(int count, char **words) {
  if (count == 2 && strcmp(words[1], "codes") == 0) codes();
  else if (count == 2 && strcmp(words[1], "memory") == 0) memory();
  else if (count == 4 && strcmp(words[1], "print") == 0) {
    read_text(words[2], &machine_text);
    read_text(words[3], &script_text);
    print();
  } else return 2;
  return wrongs == 0 ? 0 : 1;
}
