/* library_driver MACHINE SCRIPT SEED CALLS: so many drawn calls of the C library, then a finished run, whose report it
   prints. `tools/campaign --by library` compiles it with sanitizers and judges that report.

   Two machines are loaded, stepped, looked at, moved, freed and loaded again. Some calls are wrong in a way that the
   header allows: of a machine that is empty, freed twice or full; of tiles, words, answers and choices that there aren't;
   into buffers that are too short; of texts and reports that are cut or changed at a drawn byte. What a call must answer
   is looked at, and that buffers are written as far as they may be. The status is 0, and standard error says
   `N calls, R rounds`; or 1, with a line for each thing that is wrong; or 2, where a text can't be read. */
#include <inttypes.h>
#include <stdio.h>
#include <stdlib.h>
#include <string.h>
#include "torusmem.h"

enum { MACHINES = 2, CANARY = 0xA5, BEHIND = 16, MOST_WRONGS = 10, KINDS_OF_CALLS = 26 };

typedef struct text {
  uint8_t *bytes;
  size_t length;
} text;

/* A machine, whether it is held, and how many moves were left when it was last asked. */
typedef struct kept {
  torusmem_machine *m;
  bool held;
  uint64_t left;
} kept;

static text machine_text, script_text;
static uint64_t state, calls;
static int wrongs;

static void must(bool is_so, const char *what, int line) {
  if (!is_so && wrongs++ < MOST_WRONGS) fprintf(stderr, "wrong at line %d, call %" PRIu64 ": not so: %s\n", line, calls, what);
}
#define MUST(is_so) must(is_so, #is_so, __LINE__)

/* The next number: SplitMix64, Steele, Lea and Flood, Fast splittable pseudorandom number generators, 2014. */
static uint64_t number(void) {
  uint64_t z = state += UINT64_C(0x9E3779B97F4A7C15);
  z = (z ^ (z >> 30)) * UINT64_C(0xBF58476D1CE4E5B9);
  z = (z ^ (z >> 27)) * UINT64_C(0x94D049BB133111EB);
  return z ^ (z >> 31);
}

static uint32_t below(uint64_t limit) { return (uint32_t)(number() % limit); }

/* A number of a thing of which there are so many; now and then of one that there isn't. */
static uint32_t around(uint64_t count) {
  if (below(16) == 0) return below(2) ? UINT32_MAX : (uint32_t)count;
  return below(count + 2);
}

static bool says(torusmem_outcome said, uint32_t code, uint64_t value) { return said.code == code && said.value == value; }

static void *room(size_t length) {
  void *made = malloc(length > 0 ? length : 1);
  if (made) return made;
  fprintf(stderr, "there is no memory\n");
  exit(2);
}

static bool read_file(const char *name, text *read) {
  FILE *file = fopen(name, "rb");
  long length = file && fseek(file, 0, SEEK_END) == 0 ? ftell(file) : -1;
  read->length = length < 0 ? 0 : (size_t)length;
  read->bytes = room(read->length);
  bool whole = length >= 0 && fseek(file, 0, SEEK_SET) == 0 && fread(read->bytes, 1, read->length, file) == read->length;
  if (file) fclose(file);
  if (!whole) fprintf(stderr, "cannot read %s\n", name);
  return whole;
}

static torusmem_outcome load(torusmem_machine *m, const text *machine, const text *script) {
  return torusmem_load(m, machine->bytes, machine->length, script->bytes, script->length);
}

static void load_whole(kept *it) {
  MUST(says(load(it->m, &machine_text, &script_text), it->held ? TORUSMEM_FULL : TORUSMEM_OK, 0));
  it->held = true;
  it->left = torusmem_moves_left(it->m).value;
}

static void free_held(kept *it) {
  torusmem_free(it->m);
  it->held = false;
  MUST(!it->m->full);
}

/* A copy of a text, cut or changed at a drawn byte, in a block of its own length. */
static text broken(const text *whole) {
  text made = { room(whole->length), whole->length };
  if (whole->length == 0) return made;
  memcpy(made.bytes, whole->bytes, whole->length);
  uint32_t at = below(whole->length), other = below(whole->length);
  uint8_t byte = made.bytes[at];
  switch (below(4)) {
  case 0: made.length = at; break;
  case 1: made.bytes[at] = (uint8_t)number(); break;
  case 2: made.bytes[at] = (uint8_t)"0123456789 \n"[below(12)]; break;
  default: made.bytes[at] = made.bytes[other], made.bytes[other] = byte;
  }
  return made;
}

static uint64_t lines_of(const text *read) {
  uint64_t count = 0;
  for (size_t at = 0; at < read->length; at++) count += read->bytes[at] == '\n';
  return count;
}

/* Whether a report that may be broken is judged as one of a text can be. */
static void check_broken(const text *report) {
  text other = broken(report);
  torusmem_outcome said = torusmem_check(other.bytes, other.length);
  MUST(says(said, TORUSMEM_OK, 0) ||
       (said.code == TORUSMEM_BAD_REPORT && said.value >= 1 && said.value <= lines_of(&other) + 2));
  free(other.bytes);
}

/* The report, into a buffer that is too short, long enough or longer; and its check. The caller frees what it answers. */
static text reported(kept *it) {
  uint8_t none = CANARY;
  text made = { NULL, (size_t)torusmem_report(it->m, &none, 0).value };
  size_t given = below(3) ? made.length : below(made.length);
  made.bytes = room(made.length + BEHIND);
  memset(made.bytes, CANARY, made.length + BEHIND);
  if (given < made.length) {
    MUST(says(torusmem_report(it->m, made.bytes, given), TORUSMEM_SHORT, made.length));
    for (size_t at = 0; at < made.length; at++) MUST(made.bytes[at] == CANARY);
  }
  given = made.length + below(BEHIND + 1);
  MUST(says(torusmem_report(it->m, made.bytes, given), TORUSMEM_OK, made.length));
  for (size_t at = made.length; at < made.length + BEHIND; at++) MUST(made.bytes[at] == CANARY);
  MUST(none == CANARY && says(torusmem_check(made.bytes, made.length), TORUSMEM_OK, 0));
  return made;
}

static void report_and_check(kept *it) {
  uint8_t byte = CANARY;
  if (!it->held) {
    MUST(says(torusmem_report(it->m, &byte, below(2)), TORUSMEM_EMPTY, 0) && byte == CANARY);
    return;
  }
  text made = reported(it);
  check_broken(&made);
  free(made.bytes);
}

/* Whether a machine of so many tiles has this attempt, where its routers have so many inputs and outputs. */
static bool is_there(const struct torusmem_shape *shape, uint32_t agent, uint32_t choice, uint32_t port) {
  bool is_routers = choice == TORUSMEM_TAKE_FROM || choice == TORUSMEM_PUT || choice == TORUSMEM_CREDIT_OF;
  bool is_of_both = choice == TORUSMEM_SEND || choice == TORUSMEM_TAKE || choice == TORUSMEM_CREDIT;
  if (agent >= 3 * shape->tiles) return false;
  if (agent % 3 == 1) return is_routers && port < shape->ports;
  return is_of_both || (agent % 3 == 0 ? choice == TORUSMEM_DONE || choice == TORUSMEM_LOOK : choice == TORUSMEM_SERVE);
}

static void step(kept *it) {
  uint64_t tiles = torusmem_tiles(it->m).value;
  struct torusmem_shape shape = { 0, { 0, 0, 0 }, { 0, 0, 0 }, 0, 0, 0, 0, 0 };
  MUST(says(torusmem_shape(it->m, &shape), it->held ? TORUSMEM_OK : TORUSMEM_EMPTY, 0) && shape.tiles == tiles);
  uint32_t agent = around(3 * tiles), choice = around(TORUSMEM_LOOK + 1), port = around(26);
  torusmem_outcome enabled = torusmem_enabled(it->m, agent, choice, port);
  torusmem_outcome said = torusmem_step(it->m, agent, choice, port);
  if (!it->held) {
    MUST(says(enabled, TORUSMEM_EMPTY, 0) && says(said, TORUSMEM_EMPTY, 0));
    return;
  }
  uint64_t left = torusmem_moves_left(it->m).value;
  MUST(enabled.code == (is_there(&shape, agent, choice, port) ? TORUSMEM_OK : TORUSMEM_NONE));
  MUST(says(said, enabled.code, enabled.value) && said.value <= 1);
  MUST(said.value == 1 ? left < it->left : left == it->left);
  it->left = left;
}

/* Each choice of a drawn agent, in order. */
static void turn(kept *it) {
  uint32_t agent = around(3 * torusmem_tiles(it->m).value);
  struct torusmem_shape shape = { 0, { 0, 0, 0 }, { 0, 0, 0 }, 0, 0, 0, 0, 0 };
  if (torusmem_shape(it->m, &shape).code != TORUSMEM_OK) shape.ports = 0;
  for (uint32_t choice = 0; choice <= TORUSMEM_LOOK; choice++)
    for (uint32_t port = 0; port < 26; port++)
      MUST(torusmem_step(it->m, agent, choice, port).code ==
           (!it->held ? TORUSMEM_EMPTY : is_there(&shape, agent, choice, port) ? TORUSMEM_OK : TORUSMEM_NONE));
  it->left = torusmem_moves_left(it->m).value;
}

/* A list of drawn attempts in a block of its own length: each move takes away at least one of the moves that are left. */
static void run(kept *it) {
  uint64_t tiles = torusmem_tiles(it->m).value;
  size_t count = below(40);
  torusmem_attempt *list = room(count * sizeof *list);
  struct torusmem_shape shape = { 0, { 0, 0, 0 }, { 0, 0, 0 }, 0, 0, 0, 0, 0 };
  bool is_held = torusmem_shape(it->m, &shape).code == TORUSMEM_OK, is_any = below(4) == 0;
  size_t named = 0;
  for (size_t at = 0; at < count; at++) {
    torusmem_attempt *made = &list[at];
    do {
      made->agent = around(3 * tiles), made->choice = around(TORUSMEM_LOOK + 1), made->number = around(26);
    } while (!is_any && is_held && !is_there(&shape, made->agent, made->choice, made->number));
    if (named == at && is_there(&shape, made->agent, made->choice, made->number)) named++;
  }
  torusmem_outcome said = torusmem_run(it->m, count > 0 || below(2) ? list : NULL, count);
  free(list);
  if (!it->held) {
    MUST(says(said, TORUSMEM_EMPTY, 0));
    return;
  }
  uint64_t left = torusmem_moves_left(it->m).value;
  if (named < count) {
    MUST(says(said, TORUSMEM_NONE, named) && left == it->left);
    return;
  }
  MUST(said.code == TORUSMEM_OK && said.value <= count && left + said.value <= it->left);
  MUST(said.value > 0 || left == it->left);
  it->left = left;
}

/* The whole row, into a buffer that may be too short: a drawn word of it is the one that torusmem_row tells. */
static void row(kept *it) {
  uint64_t none = CANARY;
  torusmem_outcome whole = torusmem_rows(it->m, below(2) ? &none : NULL, 0);
  if (!it->held) {
    MUST(says(whole, TORUSMEM_EMPTY, 0) && says(torusmem_rows(it->m, &none, 1), TORUSMEM_EMPTY, 0) && none == CANARY);
    return;
  }
  MUST(whole.code == TORUSMEM_SHORT && whole.value > torusmem_words(it->m).value && whole.value <= 79873 && none == CANARY);
  size_t length = (size_t)whole.value, given = below(3) ? length + below(BEHIND) : below(length), size = given * sizeof none;
  uint64_t *made = room(size);
  memset(made, CANARY, size);
  MUST(says(torusmem_rows(it->m, made, given), given < length ? TORUSMEM_SHORT : TORUSMEM_OK, length));
  memset(&none, CANARY, sizeof none);
  for (size_t at = given < length ? 0 : length; at < given; at++) MUST(made[at] == none);
  uint32_t at = below(length);
  MUST(given < length || says(torusmem_row(it->m, at), TORUSMEM_OK, made[at]));
  free(made);
}

static void rounds(kept *it) {
  uint32_t code = it->held ? TORUSMEM_OK : TORUSMEM_EMPTY;
  uint64_t before = torusmem_finished(it->m).value;
  MUST(says(torusmem_round(it->m), code, 0));
  torusmem_outcome finished = torusmem_finished(it->m), left = torusmem_moves_left(it->m);
  MUST(finished.code == code && left.code == code && finished.value >= before && finished.value <= 1);
  MUST(!it->held || (before == 1 ? left.value <= it->left : left.value < it->left));
  it->left = left.value;
}

static void words(kept *it) {
  torusmem_outcome count = torusmem_words(it->m);
  uint32_t address = around(count.value), code = it->held ? TORUSMEM_OK : TORUSMEM_EMPTY;
  torusmem_outcome word = torusmem_word(it->m, address), row = torusmem_row(it->m, address);
  MUST(count.code == code && (count.value > 0) == it->held);
  MUST(word.code == (!it->held || address < count.value ? code : TORUSMEM_NONE) && (word.code == TORUSMEM_OK || word.value == 0));
  MUST(it->held ? row.code == TORUSMEM_OK || says(row, TORUSMEM_NONE, 0) : says(row, TORUSMEM_EMPTY, 0));
}

/* An answer is that of the entry that it names. */
static void answers(kept *it) {
  uint32_t tile = around(torusmem_tiles(it->m).value);
  torusmem_outcome count = torusmem_answers(it->m, tile);
  uint32_t at = around(count.value);
  torusmem_answer answer = torusmem_answer_at(it->m, tile, at);
  MUST(answer.code == (!it->held ? TORUSMEM_EMPTY : count.code == TORUSMEM_OK && at < count.value ? TORUSMEM_OK : TORUSMEM_NONE));
  if (answer.code != TORUSMEM_OK) {
    MUST(answer.index + answer.operation + answer.bank + answer.place + answer.has_old == 0);
    return;
  }
  torusmem_entry entry = torusmem_entry_at(it->m, answer.bank, answer.place);
  MUST(entry.code == TORUSMEM_OK && entry.source == tile && entry.operation == answer.operation);
  MUST(entry.first == answer.first && entry.second == answer.second && entry.old == answer.old);
  MUST(entry.has_old == answer.has_old && answer.has_old == (answer.operation != TORUSMEM_STORE));
}

static void entries(kept *it) {
  uint64_t tiles = torusmem_tiles(it->m).value;
  uint32_t tile = around(tiles);
  torusmem_outcome count = torusmem_entries(it->m, tile);
  uint32_t at = around(count.value);
  torusmem_entry entry = torusmem_entry_at(it->m, tile, at);
  MUST(count.code == (!it->held ? TORUSMEM_EMPTY : tile < tiles ? TORUSMEM_OK : TORUSMEM_NONE));
  MUST(entry.code == (count.code != TORUSMEM_OK || at < count.value ? count.code : TORUSMEM_NONE));
  MUST(entry.code == TORUSMEM_OK ? entry.address % tiles == tile && entry.source < tiles && entry.tag < 16
                                 : entry.source + entry.tag + entry.address + entry.operation == 0);
}

/* A route, into a buffer that may be too short: numbers rise, and the way begins and ends where it is to. */
static void route(kept *it) {
  uint64_t tiles = torusmem_tiles(it->m).value;
  uint32_t src = around(tiles), dst = around(tiles), class = around(2), given = below(15);
  torusmem_channel made[15], before[15];
  memset(made, CANARY, sizeof made);
  memcpy(before, made, sizeof made);
  torusmem_outcome said = torusmem_route(it->m, src, dst, class, made, given);
  bool is_there = src < tiles && dst < tiles && class < 2;
  if (!it->held || !is_there) {
    MUST(says(said, it->held ? TORUSMEM_NONE : TORUSMEM_EMPTY, 0) && memcmp(made, before, sizeof made) == 0);
    return;
  }
  MUST(said.value >= 2 && said.value <= 10 && said.code == (given < said.value ? TORUSMEM_SHORT : TORUSMEM_OK));
  size_t count = said.code == TORUSMEM_OK ? (size_t)said.value : 0;
  MUST(memcmp(made + count, before + count, (15 - count) * sizeof made[0]) == 0);
  if (count == 0) return;
  MUST(made[0].kind == TORUSMEM_INJECTION && made[0].tile == src);
  MUST(made[count - 1].kind == TORUSMEM_EJECTION && made[count - 1].tile == dst);
  for (size_t at = 1; at < count; at++) MUST(made[at - 1].number < made[at].number);
}

static void next(kept *it) {
  uint64_t tiles = torusmem_tiles(it->m).value;
  uint32_t at = around(tiles), input = around(26), dst = around(tiles);
  torusmem_outcome said = torusmem_next(it->m, at, input, dst);
  if (!it->held) MUST(says(said, TORUSMEM_EMPTY, 0));
  else if (at >= tiles || dst >= tiles || input >= 26) MUST(says(said, TORUSMEM_NONE, 0));
  else MUST(says(said, TORUSMEM_NONE, 0) || (said.code == TORUSMEM_OK && said.value < 26));
}

/* What torusmem_explain answers of two texts is what a load answered; the sentence names the text that has the fault. */
static void explain(const text *machine, const text *script, torusmem_outcome load) {
  enum { MOST = 400 };
  uint8_t out[MOST + BEHIND];
  size_t given = calls % 2 ? MOST : calls % 60, put;
  memset(out, CANARY, sizeof out);
  torusmem_explanation why =
      torusmem_explain(machine->bytes, machine->length, script->bytes, script->length, out, given);
  MUST(why.fault == load.code && why.line == load.value && why.length < MOST);
  MUST(why.code == (why.length > given ? TORUSMEM_SHORT : TORUSMEM_OK));
  MUST((why.text == TORUSMEM_NO_TEXT) == (why.fault == 0) && (why.length == 0) == (why.fault == 0));
  put = why.code == TORUSMEM_OK ? (size_t)why.length : 0;
  MUST(put == 0 || memcmp(out, why.text == TORUSMEM_MACHINE_TEXT ? "machine:" : "scripts:", 8) == 0);
  for (size_t at = put; at < sizeof out; at++) MUST(out[at] == CANARY);
}

/* Texts that are broken: a fault at a line of theirs, which leaves nothing; or a machine, which is run to its end. */
static void load_broken(void) {
  kept other = { room(sizeof(torusmem_machine)), false, 0 };
  bool is_machine = below(2) == 0;
  text one = broken(is_machine ? &machine_text : &script_text);
  memset(other.m, 0, sizeof *other.m);
  torusmem_outcome said = is_machine ? load(other.m, &one, &script_text) : load(other.m, &machine_text, &one);
  if (is_machine) explain(&one, &script_text, said);
  else explain(&machine_text, &one, said);
  if (said.code == TORUSMEM_OK) {
    other.held = true;
    MUST(says(said, TORUSMEM_OK, 0) && torusmem_finish(other.m).code == TORUSMEM_OK);
    report_and_check(&other);
  } else {
    uint64_t most = 2 + (lines_of(&machine_text) > lines_of(&script_text) ? lines_of(&machine_text) : lines_of(&script_text));
    MUST(said.code >= 1 && said.code <= 14 && said.code != TORUSMEM_FAULT_MEMORY && said.value >= 1 && said.value <= most);
    MUST(!other.m->full && other.m->at == NULL);
  }
  free_held(&other);
  free_held(&other);
  free(one.bytes);
  free(other.m);
}

/* The machine's bytes move to another place; the old one is given back. */
static void move(kept *it) {
  torusmem_machine *there = room(sizeof *there);
  memcpy(there, it->m, sizeof *there);
  free(it->m);
  it->m = there;
}

static void call(kept *it) {
  switch (below(KINDS_OF_CALLS)) {
  case 0: load_whole(it); break;
  case 1: if (below(4) == 0) free_held(it); break;
  case 2: if (below(4) == 0) free_held(it), free_held(it); break;
  case 3: load_broken(); break;
  case 4: move(it); break;
  case 5: report_and_check(it); break;
  case 6: answers(it); break;
  case 7: entries(it); break;
  case 8: words(it); break;
  case 9: route(it); break;
  case 10: next(it); break;
  case 11: rounds(it); break;
  case 12:
  case 13: turn(it); break;
  case 14: run(it); break;
  case 15: row(it); break;
  default: step(it);
  }
}

/* Ends the run of a machine, and prints its report. */
static uint64_t finish(kept *it) {
  if (!it->held) load_whole(it);
  torusmem_outcome said = torusmem_finish(it->m);
  MUST(said.code == TORUSMEM_OK && says(torusmem_finished(it->m), TORUSMEM_OK, 1));
  MUST(says(torusmem_finish(it->m), TORUSMEM_OK, 0));
  text made = reported(it);
  MUST(fwrite(made.bytes, 1, made.length, stdout) == made.length && fflush(stdout) == 0);
  free(made.bytes);
  return said.value;
}

int main(int count, char **given) {
  kept machines[MACHINES];
  if (count != 5 || !read_file(given[1], &machine_text) || !read_file(given[2], &script_text)) return 2;
  state = strtoull(given[3], NULL, 10);
  for (int at = 0; at < MACHINES; at++) {
    machines[at] = (kept){ room(sizeof(torusmem_machine)), false, 0 };
    memset(machines[at].m, 0, sizeof *machines[at].m);
  }
  if (below(8)) load_whole(&machines[0]);
  for (uint64_t most = strtoull(given[4], NULL, 10); calls < most; calls++) call(&machines[below(MACHINES)]);
  uint64_t rounds_made = finish(&machines[below(MACHINES)]);
  for (int at = 0; at < MACHINES; at++) {
    free_held(&machines[at]);
    free(machines[at].m);
  }
  free(machine_text.bytes);
  free(script_text.bytes);
  if (wrongs == 0) fprintf(stderr, "%" PRIu64 " calls, %" PRIu64 " rounds\n", calls, rounds_made);
  return wrongs == 0 ? 0 : 1;
}
