/* Calls the C library as `checks/library` asks, and prints a line for each thing that is wrong:

     library_calls finish MACHINE SCRIPT           prints the report of a finished run, and nothing else
     library_calls codes MACHINE SCRIPT REPORT     what calls answer of a machine that is empty or full, of what isn't
                                                   there, of short buffers, of texts with faults, of networks, spins,
                                                   traces and logs; the texts are those of examples/
     library_calls memory MACHINE SCRIPT REPORT    the same run with the n-th request for memory refused, for each n
     library_calls steps MACHINE SCRIPT            a run by drawn steps, one by one and by lists, by rounds and at once:
                                                   once it is loaded, no call asks for memory but that of a report and
                                                   its check

   REPORT is the report of the finished run. It is linked with -Wl,--wrap=malloc,--wrap=realloc,--wrap=free. */
#include "library_memory.h"

enum { MOST_ROW = 79873 + 1, DRAWS = 10000 };

static text report_text, written;

static torusmem_outcome load(torusmem_machine *m) {
  return torusmem_load(m, machine_text.bytes, machine_text.length, script_text.bytes, script_text.length);
}

static torusmem_outcome load_texts(torusmem_machine *m, const char *machine, const char *scripts) {
  return torusmem_load(m, (const uint8_t *)machine, strlen(machine), (const uint8_t *)scripts, strlen(scripts));
}

/* Whether the bytes are those of a text. */
static bool is_text(const uint8_t *bytes, size_t length, const text *wanted) {
  return length == wanted->length && memcmp(bytes, wanted->bytes, length) == 0;
}

static bool reports_well(torusmem_machine *m) {
  torusmem_outcome said = torusmem_report(m, written.bytes, MOST_BYTES);
  return said.code == TORUSMEM_OK && is_text(written.bytes, (size_t)said.value, &report_text);
}

/* Whether a machine is as it was begun, and no block is left of a load that failed. */
static bool is_new(const torusmem_machine *m) {
  return !m->full && m->at == NULL && live == 0;
}

static void every_call_says_empty(torusmem_machine *m) {
  uint8_t byte = 7;
  uint64_t word = 7;
  torusmem_attempt attempt = { 0, TORUSMEM_SEND, 0 };
  torusmem_channel channel = { 7, 7, 7, 7, 7, 7 };
  torusmem_spin spin = { 7, 7, 7, 7, 7 };
  torusmem_answer answer = torusmem_answer_at(m, 0, 0);
  torusmem_entry entry = torusmem_entry_at(m, 0, 0);
  MUST(says(torusmem_step(m, 0, TORUSMEM_SEND, 0), TORUSMEM_EMPTY, 0));
  MUST(says(torusmem_enabled(m, 0, TORUSMEM_SEND, 0), TORUSMEM_EMPTY, 0));
  MUST(says(torusmem_run(m, &attempt, 1), TORUSMEM_EMPTY, 0) && says(torusmem_run(m, NULL, 0), TORUSMEM_EMPTY, 0));
  MUST(says(torusmem_round(m), TORUSMEM_EMPTY, 0));
  MUST(says(torusmem_finish(m), TORUSMEM_EMPTY, 0));
  MUST(says(torusmem_clocked_round(m, 0), TORUSMEM_EMPTY, 0) && says(torusmem_finish_clocked(m), TORUSMEM_EMPTY, 0));
  MUST(says(torusmem_fair_round(m), TORUSMEM_EMPTY, 0) && says(torusmem_fair_rounds(m, 1), TORUSMEM_EMPTY, 0));
  MUST(says(torusmem_append(m, 0, TORUSMEM_LOAD, 0, 0, 0, 0), TORUSMEM_EMPTY, 0));
  MUST(says(torusmem_ask(m, 0, TORUSMEM_LOAD, 0, 0, 0, 0), TORUSMEM_EMPTY, 0));
  MUST(torusmem_answer_of(m, 0, 0).code == TORUSMEM_EMPTY);
  MUST(says(torusmem_finished(m), TORUSMEM_EMPTY, 0));
  MUST(says(torusmem_moves_left(m), TORUSMEM_EMPTY, 0));
  MUST(says(torusmem_tiles(m), TORUSMEM_EMPTY, 0));
  MUST(says(torusmem_words(m), TORUSMEM_EMPTY, 0));
  struct torusmem_shape shape = { 7, { 7, 7, 7 }, { 7, 7, 7 }, 7, 7, 7, 7, 7 }, same = shape;
  MUST(says(torusmem_shape(m, &shape), TORUSMEM_EMPTY, 0) && memcmp(&shape, &same, sizeof shape) == 0);
  torusmem_machine fresh = TORUSMEM_MACHINE_INIT;
  MUST(says(torusmem_reopen(m, &fresh), TORUSMEM_EMPTY, 0) && !fresh.full);
  MUST(says(torusmem_clone(m, &fresh), TORUSMEM_EMPTY, 0) && !fresh.full);
  MUST(says(torusmem_save(m, &byte, 1), TORUSMEM_EMPTY, 0) && byte == 7);
  torusmem_ordered ordered = { 7, 7, 7, 7, 7, 7, 7 };
  MUST(says(torusmem_order(m, 0, &ordered, 1), TORUSMEM_EMPTY, 0) && ordered.bank == 7);
  torusmem_happened happened = { 7, 7, ordered };
  MUST(says(torusmem_events(m, 0, &happened, 1), TORUSMEM_EMPTY, 0) && happened.number == 7);
  MUST(says(torusmem_events_from(m, 0, 0, &happened, 1), TORUSMEM_EMPTY, 0) && happened.number == 7);
  MUST(says(torusmem_answered_to(m, 0), TORUSMEM_EMPTY, 0));
  MUST(says(torusmem_word(m, 99), TORUSMEM_EMPTY, 0));
  MUST(says(torusmem_row(m, 0), TORUSMEM_EMPTY, 0));
  MUST(says(torusmem_rows(m, &word, 1), TORUSMEM_EMPTY, 0) && word == 7);
  MUST(says(torusmem_answers(m, 0), TORUSMEM_EMPTY, 0));
  MUST(says(torusmem_entries(m, 0), TORUSMEM_EMPTY, 0));
  MUST(says(torusmem_spins_out(m, NULL, 0, NULL, 0, &spin, 1), TORUSMEM_EMPTY, 0) && spin.line == 7);
  MUST(says(torusmem_report(m, &byte, 1), TORUSMEM_EMPTY, 0) && byte == 7);
  MUST(says(torusmem_route(m, 0, 1, 0, &channel, 1), TORUSMEM_EMPTY, 0) && channel.kind == 7);
  MUST(says(torusmem_next(m, 0, 0, 0), TORUSMEM_EMPTY, 0));
  MUST(answer.code == TORUSMEM_EMPTY && answer.index + answer.operation + answer.bank + answer.place == 0);
  MUST(answer.has_old == 0 && answer.first + answer.second + answer.old == 0);
  MUST(entry.code == TORUSMEM_EMPTY && entry.source + entry.tag + entry.address + entry.operation == 0);
  MUST(entry.has_old == 0 && entry.first + entry.second + entry.old == 0);
  torusmem_free(m);
  MUST(!m->full);
}

static void faults_keep_nothing(torusmem_machine *m) {
  const char *two_tiles = "radix 2\ndims 1\ndepth 4\ntags 4\nwords 8\n";
  MUST(says(load_texts(m, "radix 9\n", "0 load 8\n"), 1, 1) && is_new(m));
  MUST(says(load_texts(m, "dims 4\n", ""), 2, 1) && is_new(m));
  MUST(says(load_texts(m, "radix 8\ndims 3\n", ""), 3, 2) && is_new(m));
  MUST(says(load_texts(m, "\nradius 2\n", ""), 4, 2) && is_new(m));
  MUST(says(load_texts(m, "", ""), 5, 1) && is_new(m));
  MUST(says(load_texts(m, two_tiles, "0 load 7\n0 store 7 18446744073709551616\n"), 6, 2) && is_new(m));
  MUST(says(load_texts(m, two_tiles, "0 load 8\n"), 7, 1) && is_new(m));
  MUST(says(load_texts(m, two_tiles, "2 load 0\n"), 8, 1) && is_new(m));
  MUST(says(load_texts(m, two_tiles, "0 spin 0 1 4096\n0 load 0\n"), 9, 2) && is_new(m));
  MUST(says(load_texts(m, two_tiles, "0 store 0 last\n"), 10, 1) && is_new(m));
  MUST(says(load_texts(m, "radix 2 2\ndims 3\n", ""), 13, 2) && is_new(m));
  MUST(says(load_texts(m, "radix 2\ndims 1\ndateline 2\n", ""), 14, 3) && is_new(m));
  every_call_says_empty(m);
  MUST(says(load_texts(m, two_tiles, ""), TORUSMEM_OK, 0) && says(torusmem_finished(m), TORUSMEM_OK, 1) && live > 0);
  torusmem_free(m);
  MUST(!m->full && live == 0);
}

/* Two texts that overlap, that are one, and that are nowhere. The comment at the end of the machine text is, behind its
   sign, a script. */
static void texts_that_meet(torusmem_machine *m) {
  static const char both[] = "radix 2\ndims 1\ndepth 4\ntags 4\nwords 8\n#0 store 5 17\n";
  const uint8_t *machine = (const uint8_t *)both;
  size_t length = strlen(both), before = (size_t)(strchr(both, '#') + 1 - both);
  MUST(says(torusmem_load(m, machine, length, machine, length), 4, 1) && is_new(m));
  MUST(says(torusmem_load(m, NULL, 0, NULL, 0), 5, 1) && is_new(m));
  MUST(says(torusmem_load(m, NULL, 0, machine, length), 5, 1) && is_new(m));
  MUST(says(torusmem_load(m, machine, length, machine + before, length - before), TORUSMEM_OK, 0));
  MUST(torusmem_finish(m).code == TORUSMEM_OK && says(torusmem_word(m, 5), TORUSMEM_OK, 17));
  torusmem_free(m);
  MUST(!m->full && live == 0);
  MUST(says(torusmem_load(m, machine, length, NULL, 0), TORUSMEM_OK, 0) && says(torusmem_finished(m), TORUSMEM_OK, 1));
  torusmem_free(m);
  MUST(!m->full && live == 0);
}

/* Machines that are opened by numbers: each fault, in its order; the words; and another that goes on. */
static void machines_of_numbers(torusmem_machine *m) {
  static const struct torusmem_shape right = { 2, { 3, 4, 9 }, { 2, 0, 9 }, 8, 16, 5, 7, 7 };
  static const struct {
    uint32_t fault;
    size_t given;
    struct torusmem_shape shape;
  } rows[] = {
    { 2, 0, { 0, { 9, 9, 9 }, { 9, 9, 9 }, 0, 0, 0, 0, 0 } },     { 2, 0, { 4, { 2, 2, 2 }, { 1, 1, 1 }, 1, 1, 1, 0, 0 } },
    { 1, 0, { 1, { 1, 0, 0 }, { 9, 0, 0 }, 0, 0, 0, 0, 0 } },     { 1, 0, { 2, { 2, 9, 0 }, { 1, 1, 0 }, 1, 1, 1, 0, 0 } },
    { 3, 0, { 3, { 5, 4, 4 }, { 9, 9, 9 }, 0, 0, 0, 0, 0 } },     { 14, 0, { 2, { 2, 3, 0 }, { 1, 3, 0 }, 0, 0, 0, 0, 0 } },
    { 6, 9, { 1, { 2, 0, 0 }, { 0, 0, 0 }, 0, 1, 1, 0, 0 } },     { 6, 9, { 1, { 2, 0, 0 }, { 0, 0, 0 }, 9, 1, 1, 0, 0 } },
    { 6, 9, { 1, { 2, 0, 0 }, { 0, 0, 0 }, 1, 0, 1, 0, 0 } },     { 6, 9, { 1, { 2, 0, 0 }, { 0, 0, 0 }, 1, 17, 1, 0, 0 } },
    { 6, 0, { 1, { 2, 0, 0 }, { 0, 0, 0 }, 1, 1, 0, 0, 0 } },     { 6, 9, { 1, { 2, 0, 0 }, { 0, 0, 0 }, 1, 1, 65537, 0, 0 } },
    { 7, 2, { 1, { 2, 0, 0 }, { 0, 0, 0 }, 1, 1, 1, 0, 0 } },
  };
  static const uint64_t words[9] = { 1, 0, UINT64_MAX, 4, 5, 6, 7, 8, 9 };
  torusmem_machine fresh = TORUSMEM_MACHINE_INIT;
  struct torusmem_shape told;
  for (size_t at = 0; at < sizeof rows / sizeof *rows; at++)
    MUST(says(torusmem_open(m, &rows[at].shape, words, rows[at].given), rows[at].fault, 0) && !m->full && live == 0 &&
         says(torusmem_open_recorded(m, &rows[at].shape, words, rows[at].given), rows[at].fault, 0) && !m->full && live == 0);
  MUST(says(torusmem_open(m, &right, words, 3), TORUSMEM_OK, 0) && says(torusmem_finished(m), TORUSMEM_OK, 1));
  MUST(says(torusmem_save(m, written.bytes, MOST_BYTES), TORUSMEM_NO_RECORD, 0));
  MUST(says(torusmem_open(m, &right, words, 3), TORUSMEM_FULL, 0) && says(torusmem_shape(m, &told), TORUSMEM_OK, 0));
  MUST(told.dims == 2 && told.radices[0] == 3 && told.radices[1] == 4 && told.radices[2] == 0 && told.datelines[0] == 2);
  MUST(told.datelines[1] == 0 && told.datelines[2] == 0 && told.depth == 8 && told.tags == 16 && told.words == 5);
  MUST(told.tiles == 12 && told.ports == 18);
  for (uint32_t at = 0; at < 5; at++) MUST(says(torusmem_word(m, at), TORUSMEM_OK, at < 3 ? words[at] : 0));
  MUST(says(torusmem_ask(m, 11, TORUSMEM_ADD, 2, 3, 0, 0), TORUSMEM_OK, 0));
  MUST(says(torusmem_ask(m, 0, TORUSMEM_STORE, 4, 9, 0, 0), TORUSMEM_OK, 0));
  torusmem_outcome said = torusmem_reopen(m, &fresh);
  MUST(said.code == TORUSMEM_OK && said.value > 0 && says(torusmem_finished(m), TORUSMEM_OK, 1));
  MUST(torusmem_answer_of(m, 11, 0).old == UINT64_MAX && torusmem_answer_of(m, 0, 0).code == TORUSMEM_OK);
  MUST(says(torusmem_reopen(m, &fresh), TORUSMEM_FULL, 0));
  struct torusmem_shape same;
  MUST(says(torusmem_shape(&fresh, &same), TORUSMEM_OK, 0) && memcmp(&same, &told, sizeof same) == 0);
  MUST(says(torusmem_ask(&fresh, 11, TORUSMEM_LOAD, 2, 0, 0, 0), TORUSMEM_OK, 0));
  for (uint32_t at = 0; at < 5; at++)
    MUST(says(torusmem_word(&fresh, at), TORUSMEM_OK, at == 2 ? 2 : at == 4 ? 9 : at == 0 ? 1 : 0));
  torusmem_free(m);
  MUST(torusmem_finish(&fresh).code == TORUSMEM_OK && torusmem_answer_of(&fresh, 11, 0).old == 2);
  torusmem_free(&fresh);
  MUST(says(torusmem_open(m, &right, NULL, 0), TORUSMEM_OK, 0) && says(torusmem_word(m, 0), TORUSMEM_OK, 0));
  torusmem_free(m);
  MUST(!m->full && live == 0);
  /* With a record: its bytes make the machine with what it was asked and has done. */
  MUST(says(torusmem_open_recorded(m, &right, NULL, 0), TORUSMEM_OK, 0) && says(torusmem_word(m, 0), TORUSMEM_OK, 0));
  torusmem_free(m);
  MUST(says(torusmem_open_recorded(m, &right, words, 3), TORUSMEM_OK, 0));
  MUST(says(torusmem_open_recorded(m, &right, words, 3), TORUSMEM_FULL, 0));
  MUST(says(torusmem_ask(m, 11, TORUSMEM_ADD, 2, 3, 0, 0), TORUSMEM_OK, 0) && torusmem_finish(m).code == TORUSMEM_OK);
  said = torusmem_save(m, written.bytes, MOST_BYTES);
  MUST(said.code == TORUSMEM_OK && says(torusmem_restore(&fresh, written.bytes, (size_t)said.value), TORUSMEM_OK, 0));
  MUST(says(torusmem_shape(&fresh, &same), TORUSMEM_OK, 0) && memcmp(&same, &told, sizeof same) == 0);
  for (uint32_t at = 0; at < 5; at++) MUST(says(torusmem_word(&fresh, at), TORUSMEM_OK, at == 0 ? 1 : at == 2 ? 2 : 0));
  MUST(torusmem_answer_of(&fresh, 11, 0).old == UINT64_MAX);
  torusmem_free(m), torusmem_free(&fresh);
  MUST(!m->full && live == 0);
}

static bool was_answered(torusmem_machine *m, uint32_t processor, uint32_t i, uint32_t has_old, uint64_t old) {
  torusmem_answer answer = torusmem_answer_at(m, processor, i);
  return answer.code == TORUSMEM_OK && answer.index == i && answer.has_old == has_old && answer.old == old;
}

/* Makes rounds until all scripts are finished, and two more, in which all processors report and see it. */
static bool reports(torusmem_machine *m) {
  return torusmem_finish(m).code == TORUSMEM_OK && says(torusmem_round(m), TORUSMEM_OK, 0) &&
         says(torusmem_round(m), TORUSMEM_OK, 0) && says(torusmem_finished(m), TORUSMEM_OK, 1);
}

/* Lines that come later: each fault, in its order, after which the machine is as it was; and lines that are taken, with
   values that are numbers or `last`. */
static void lines_that_come_later(torusmem_machine *m) {
  MUST(says(load_texts(m, "radix 2\ndims 1\ndepth 4\ntags 4\nwords 8\n", "0 store 5 17\n"), TORUSMEM_OK, 0));
  MUST(reports(m));
  uint64_t left = torusmem_moves_left(m).value;
  MUST(says(torusmem_append(m, 2, 12, 8, 0, 0, 0), TORUSMEM_NONE, 0));
  MUST(says(torusmem_append(m, 2, TORUSMEM_LOAD, 8, 0, 0, 0), 8, 0));
  MUST(says(torusmem_append(m, 0, TORUSMEM_SPIN, 8, 0, 0, 0), 7, 0));
  MUST(says(torusmem_append(m, 0, TORUSMEM_SPIN, 7, 0, 0, 0), 6, 0));
  MUST(says(torusmem_append(m, 0, TORUSMEM_SPIN, 7, 0, 4097, 0), 6, 0));
  MUST(says(torusmem_append(m, 0, TORUSMEM_SPIN, 7, 0, UINT64_C(4294967297), 0), 6, 0));
  MUST(says(torusmem_append(m, 1, TORUSMEM_STORE, 7, 0, 0, TORUSMEM_FIRST_IS_LAST), 10, 0));
  MUST(says(torusmem_append(m, 1, TORUSMEM_CAS, 7, 0, 0, TORUSMEM_SECOND_IS_LAST), 10, 0));
  MUST(says(torusmem_append(m, 0, TORUSMEM_SPIN, 7, 0, 4096, 0), 9, 0));
  MUST(says(torusmem_moves_left(m), TORUSMEM_OK, left) && says(torusmem_row(m, 104), TORUSMEM_OK, 2));
  MUST(says(torusmem_append(m, 1, TORUSMEM_LOAD, 5, 9, 9, 3), TORUSMEM_OK, 0));
  MUST(says(torusmem_row(m, 104), TORUSMEM_OK, 0) && says(torusmem_finished(m), TORUSMEM_OK, 0));
  MUST(reports(m) && was_answered(m, 1, 0, 1, 17) && says(torusmem_row(m, 104), TORUSMEM_OK, 2));
  MUST(says(torusmem_append(m, 1, TORUSMEM_CAS, 5, 0, 9, TORUSMEM_FIRST_IS_LAST), TORUSMEM_OK, 0));
  MUST(says(torusmem_append(m, 1, TORUSMEM_FENCE, 99, 0, 0, 0), TORUSMEM_OK, 0));
  MUST(says(torusmem_append(m, 1, TORUSMEM_CAS, 5, 9, 0, TORUSMEM_SECOND_IS_LAST), TORUSMEM_OK, 0));
  MUST(says(torusmem_append(m, 1, TORUSMEM_ADD, 6, 3, 0, TORUSMEM_SECOND_IS_LAST), TORUSMEM_OK, 0));
  MUST(says(torusmem_append(m, 0, TORUSMEM_SPIN, 6, 3, 4000, 0), TORUSMEM_OK, 0));
  MUST(says(torusmem_append(m, 0, TORUSMEM_MIN, 6, 2, 0, 0), TORUSMEM_OK, 0));
  MUST(reports(m) && was_answered(m, 1, 1, 1, 17) && was_answered(m, 1, 2, 1, 9) && was_answered(m, 1, 3, 1, 0));
  MUST(says(torusmem_word(m, 5), TORUSMEM_OK, 17) && says(torusmem_word(m, 6), TORUSMEM_OK, 2));
  torusmem_free(m);
  MUST(!m->full && live == 0);
}

/* The operation of an index is answered by this old word. */
static bool is_answered(torusmem_machine *m, uint32_t processor, uint32_t index, uint64_t old) {
  torusmem_answer answer = torusmem_answer_of(m, processor, index);
  return answer.code == TORUSMEM_OK && answer.index == index && answer.has_old == 1 && answer.old == old;
}

/* Operations that are asked: each refusal, in its order, after which the machine is as it was; the indices of those that
   are taken, and their answers. */
static void operations_that_are_asked(torusmem_machine *m) {
  MUST(says(load_texts(m, "radix 2\ndims 1\ndepth 4\ntags 4\nwords 8\n", "0 spin 5 0 2\n1 load 5\n"), TORUSMEM_OK, 0));
  uint64_t left = torusmem_moves_left(m).value;
  MUST(says(torusmem_ask(m, 0, TORUSMEM_FENCE, 9, 0, 0, 0), TORUSMEM_NONE, 0));
  MUST(says(torusmem_ask(m, 1, TORUSMEM_SPIN, 9, 0, 0, 0), TORUSMEM_NONE, 0));
  MUST(says(torusmem_ask(m, 0, TORUSMEM_LOAD, 9, 0, 0, 0), TORUSMEM_BEHIND_SPIN, 0));
  MUST(says(torusmem_ask(m, 2, TORUSMEM_LOAD, 9, 0, 0, 0), 8, 0));
  MUST(says(torusmem_ask(m, 1, TORUSMEM_LOAD, 8, 0, 0, 0), 7, 0));
  MUST(says(torusmem_moves_left(m), TORUSMEM_OK, left));
  MUST(torusmem_answer_of(m, 1, 0).code == TORUSMEM_NOT_YET && torusmem_answer_of(m, 1, 1).code == TORUSMEM_NONE);
  MUST(torusmem_answer_of(m, 0, 1).code == TORUSMEM_NOT_YET && torusmem_answer_of(m, 0, 2).code == TORUSMEM_NONE);
  MUST(torusmem_answer_of(m, 2, 0).code == TORUSMEM_NONE);
  MUST(says(torusmem_ask(m, 1, TORUSMEM_SWAP, 6, 7, 0, 0), TORUSMEM_OK, 1));
  MUST(says(torusmem_append(m, 1, TORUSMEM_FENCE, 0, 0, 0, 0), TORUSMEM_OK, 0));
  MUST(says(torusmem_ask(m, 1, TORUSMEM_CAS, 6, 7, 9, 0), TORUSMEM_OK, 2));
  MUST(says(torusmem_ask(m, 1, TORUSMEM_ADD, 6, 0, 0, TORUSMEM_FIRST_IS_LAST), TORUSMEM_OK, 3));
  MUST(torusmem_answer_of(m, 1, 3).code == TORUSMEM_NOT_YET && torusmem_answer_of(m, 1, 4).code == TORUSMEM_NONE);
  MUST(reports(m) && is_answered(m, 1, 1, 0) && is_answered(m, 1, 2, 7) && is_answered(m, 1, 3, 9));
  MUST(torusmem_answer_of(m, 0, 1).code == TORUSMEM_NOT_YET);
  MUST(says(torusmem_word(m, 6), TORUSMEM_OK, 16));
  MUST(says(torusmem_ask(m, 1, TORUSMEM_STORE, 6, 1, 0, 0), TORUSMEM_OK, 4));
  MUST(says(torusmem_append(m, 1, TORUSMEM_SPIN, 6, 1, 4, 0), TORUSMEM_OK, 0));
  MUST(says(torusmem_ask(m, 1, TORUSMEM_STORE, 6, 1, 0, 0), TORUSMEM_BEHIND_SPIN, 0));
  torusmem_free(m);
  MUST(!m->full && live == 0);
}

/* Of two tiles, eight words, channels of four flits: see docs/FLITS-AND-PORTS.md. */
static void what_is_not_there(torusmem_machine *m) {
  torusmem_channel route[14];
  torusmem_attempt none[] = { { 0, TORUSMEM_SEND, 0 }, { 6, TORUSMEM_SEND, 0 }, { 0, UINT32_MAX, 0 } };
  MUST(says(torusmem_tiles(m), TORUSMEM_OK, 2) && says(torusmem_words(m), TORUSMEM_OK, 8));
  MUST(says(torusmem_word(m, 7), TORUSMEM_OK, 0) && says(torusmem_word(m, 8), TORUSMEM_NONE, 0));
  MUST(says(torusmem_word(m, UINT32_MAX), TORUSMEM_NONE, 0));
  MUST(says(torusmem_row(m, 104), TORUSMEM_OK, 0) && says(torusmem_row(m, 105), TORUSMEM_NONE, 0));
  MUST(says(torusmem_row(m, UINT32_MAX), TORUSMEM_NONE, 0));
  MUST(says(torusmem_answers(m, 1), TORUSMEM_OK, 0) && says(torusmem_answers(m, 2), TORUSMEM_NONE, 0));
  MUST(says(torusmem_entries(m, 1), TORUSMEM_OK, 0) && says(torusmem_entries(m, 2), TORUSMEM_NONE, 0));
  MUST(torusmem_answer_at(m, 0, 0).code == TORUSMEM_NONE && torusmem_answer_at(m, 2, 0).code == TORUSMEM_NONE);
  MUST(torusmem_entry_at(m, 1, 0).code == TORUSMEM_NONE && torusmem_entry_at(m, 2, 0).code == TORUSMEM_NONE);
  MUST(says(torusmem_route(m, 2, 0, TORUSMEM_REQUEST, route, 14), TORUSMEM_NONE, 0));
  MUST(says(torusmem_route(m, 0, 2, TORUSMEM_REQUEST, route, 14), TORUSMEM_NONE, 0));
  MUST(says(torusmem_route(m, 0, 1, 2, route, 14), TORUSMEM_NONE, 0));
  MUST(says(torusmem_next(m, 0, 9, 1), TORUSMEM_OK, 2) && says(torusmem_next(m, 0, 10, 1), TORUSMEM_NONE, 0));
  MUST(says(torusmem_next(m, 2, 0, 0), TORUSMEM_NONE, 0) && says(torusmem_next(m, 0, 0, 2), TORUSMEM_NONE, 0));
  MUST(says(torusmem_step(m, 0, UINT32_MAX, 0), TORUSMEM_NONE, 0));
  MUST(says(torusmem_step(m, UINT32_MAX, UINT32_MAX, UINT32_MAX), TORUSMEM_NONE, 0));
  MUST(says(torusmem_step(m, 1, TORUSMEM_TAKE_FROM, UINT32_MAX), TORUSMEM_NONE, 0));
  MUST(says(torusmem_run(m, none, 3), TORUSMEM_NONE, 1) && says(torusmem_run(m, none + 2, 1), TORUSMEM_NONE, 0));
  MUST(says(torusmem_run(m, NULL, 0), TORUSMEM_OK, 0));
  MUST(says(torusmem_enabled(m, 0, UINT32_MAX, 0), TORUSMEM_NONE, 0));
  MUST(says(torusmem_enabled(m, 0, TORUSMEM_SEND, 99), TORUSMEM_OK, 1));
}

/* Which choices there are: of a tile's processor (p), router (r) and bank (b), each choice by its number; a router of two
   tiles has the ports 0 to 9. Where there is none, nothing moves. */
static void choices_that_there_are(torusmem_machine *m) {
  static const char *const choices[] = { "pb", "pb", "r", "r", "pb", "r", "b", "p", "p" };
  uint64_t left = torusmem_moves_left(m).value;
  for (uint32_t agent = 0; agent < 8; agent++)
    for (uint32_t choice = 0; choice < 11; choice++)
      for (uint32_t port = 0; port < 12; port++) {
        bool is_there = agent < 6 && choice <= TORUSMEM_LOOK && strchr(choices[choice], "prb"[agent % 3]) != NULL &&
                        (agent % 3 != 1 || port < 10);
        torusmem_attempt attempt = { agent, choice, port };
        MUST(torusmem_enabled(m, agent, choice, port).code == (is_there ? TORUSMEM_OK : TORUSMEM_NONE));
        if (is_there) continue;
        MUST(says(torusmem_step(m, agent, choice, port), TORUSMEM_NONE, 0));
        MUST(says(torusmem_run(m, &attempt, 1), TORUSMEM_NONE, 0));
      }
  MUST(says(torusmem_moves_left(m), TORUSMEM_OK, left) && says(torusmem_finished(m), TORUSMEM_OK, 0));
  for (uint32_t lasts = 4; lasts != 0; lasts *= 2) {
    MUST(says(torusmem_append(m, 0, TORUSMEM_STORE, 0, 1, 0, lasts), TORUSMEM_NONE, 0));
    MUST(says(torusmem_append(m, 0, TORUSMEM_FENCE, 0, 0, 0, lasts + 1), TORUSMEM_NONE, 0));
    MUST(says(torusmem_ask(m, 9, TORUSMEM_STORE, 99, 1, 0, lasts + 3), TORUSMEM_NONE, 0));
  }
  MUST(says(torusmem_moves_left(m), TORUSMEM_OK, left));
}

/* What a machine is built to is what its text says. */
static void shapes(torusmem_machine *m) {
  static const struct {
    const char *text;
    struct torusmem_shape shape;
  } rows[] = {
    { "radix 2\ndims 1\ndepth 4\ntags 4\nwords 8\n", { 1, { 2, 0, 0 }, { 1, 0, 0 }, 4, 4, 8, 2, 10 } },
    { "radix 4 2\ndims 2\ndateline 0 1\ndepth 1\ntags 16\nwords 65536\n",
      { 2, { 4, 2, 0 }, { 0, 1, 0 }, 1, 16, 65536, 8, 18 } },
    { "radix 3 4 5\ndims 3\ndateline 2 0 3\ndepth 8\ntags 1\nwords 1\n",
      { 3, { 3, 4, 5 }, { 2, 0, 3 }, 8, 1, 1, 60, 26 } },
  };
  for (size_t at = 0; at < sizeof rows / sizeof *rows; at++) {
    struct torusmem_shape told;
    memset(&told, 0xAA, sizeof told);
    MUST(says(load_texts(m, rows[at].text, ""), TORUSMEM_OK, 0) && says(torusmem_shape(m, &told), TORUSMEM_OK, 0));
    MUST(memcmp(&told, &rows[at].shape, sizeof told) == 0);
    torusmem_free(m);
  }
  MUST(!m->full && live == 0);
}

/* The route of a reply from tile 1 to tile 0, by README's commands: inject 1 6, hop 1 0 plus 1 9, eject 0 11. */
static void short_buffers(torusmem_machine *m) {
  torusmem_channel route[4], before[4];
  size_t length = report_text.length;
  memset(before, 0xAA, sizeof before);
  memset(route, 0xAA, sizeof route);
  MUST(says(torusmem_route(m, 1, 0, TORUSMEM_REPLY, route, 2), TORUSMEM_SHORT, 3));
  MUST(memcmp(route, before, sizeof route) == 0);
  MUST(says(torusmem_route(m, 1, 0, TORUSMEM_REPLY, route, 3), TORUSMEM_OK, 3));
  MUST(memcmp(&route[3], &before[3], sizeof route[3]) == 0);
  MUST(route[0].kind == TORUSMEM_INJECTION && route[0].tile == 1 && route[0].number == 6);
  MUST(route[1].kind == TORUSMEM_HOP && route[1].tile == 1 && route[1].dim == 0 && route[1].minus == 0);
  MUST(route[1].bit == 1 && route[1].number == 9);
  MUST(route[2].kind == TORUSMEM_EJECTION && route[2].tile == 0 && route[2].number == 11);
  memset(written.bytes, 0xAA, length + 8);
  MUST(says(torusmem_report(m, written.bytes, 0), TORUSMEM_SHORT, length) && written.bytes[0] == 0xAA);
  MUST(says(torusmem_report(m, NULL, 0), TORUSMEM_SHORT, length));
  MUST(says(torusmem_route(m, 1, 0, TORUSMEM_REPLY, NULL, 0), TORUSMEM_SHORT, 3));
  MUST(says(torusmem_check(NULL, 0), TORUSMEM_BAD_REPORT, 1));
  MUST(says(torusmem_report(m, written.bytes, length - 1), TORUSMEM_SHORT, length) && written.bytes[0] == 0xAA);
  MUST(says(torusmem_report(m, written.bytes, length), TORUSMEM_OK, length) && written.bytes[length] == 0xAA);
  MUST(is_text(written.bytes, length, &report_text));
  MUST(says(torusmem_check(written.bytes, length), TORUSMEM_OK, 0));
  MUST(says(torusmem_check(written.bytes, length - 1), TORUSMEM_BAD_REPORT, 10));
  written.bytes[length - 5] ^= 1;
  MUST(says(torusmem_check(written.bytes, length), TORUSMEM_BAD_REPORT, 10));
  MUST(says(torusmem_check(written.bytes, 0), TORUSMEM_BAD_REPORT, 1));
}

/* `answer 0 1 1 1 17` and `entry 1 0 0 0 store 5 17 ok`. */
static void answers_and_entries(torusmem_machine *m) {
  torusmem_answer answer = torusmem_answer_at(m, 0, 1);
  torusmem_entry entry = torusmem_entry_at(m, 1, 0);
  MUST(says(torusmem_answers(m, 0), TORUSMEM_OK, 2) && says(torusmem_entries(m, 1), TORUSMEM_OK, 2));
  MUST(answer.code == TORUSMEM_OK && answer.index == 1 && answer.operation == TORUSMEM_LOAD && answer.bank == 1);
  MUST(answer.place == 1 && answer.has_old == 1 && answer.old == 17 && answer.first == 0 && answer.second == 0);
  MUST(entry.code == TORUSMEM_OK && entry.source == 0 && entry.tag == 0 && entry.address == 5);
  MUST(entry.operation == TORUSMEM_STORE && entry.first == 17 && entry.has_old == 0 && entry.old == 0);
  MUST(torusmem_answer_at(m, 0, 2).code == TORUSMEM_NONE && torusmem_entry_at(m, 1, 2).code == TORUSMEM_NONE);
}

/* What torusmem_explain answers of two texts: the fault, its text and its line; and the sentence, where it fits, and not where a byte is
   missing. */
static void explains(const char *machine, const char *scripts, uint32_t fault, uint32_t in, uint64_t line,
                     const char *sentence) {
  const uint8_t *one = (const uint8_t *)machine, *two = (const uint8_t *)scripts;
  size_t ones = strlen(machine), twos = strlen(scripts), length = strlen(sentence);
  torusmem_explanation said;
  memset(written.bytes, 0xAA, length + 8);
  said = torusmem_explain(one, ones, two, twos, written.bytes, length - 1);
  MUST(said.code == TORUSMEM_SHORT && said.fault == fault && said.text == in && said.line == line);
  MUST(said.length == length && written.bytes[0] == 0xAA && live == 0);
  said = torusmem_explain(one, ones, two, twos, NULL, 0);
  MUST(said.code == TORUSMEM_SHORT && said.length == length && live == 0);
  said = torusmem_explain(one, ones, two, twos, written.bytes, length + 1);
  MUST(said.code == TORUSMEM_OK && said.fault == fault && said.text == in && said.line == line);
  MUST(said.length == length && memcmp(written.bytes, sentence, length) == 0 && written.bytes[length] == 0xAA);
  MUST(live == 0);
}

static void faults_are_explained(void) {
  static const char two_tiles[] = "radix 2\ndims 1\ndepth 4\ntags 4\nwords 8\n";
  torusmem_explanation said;
  explains("\nradix 9\n", "0 load 8\n", 1, TORUSMEM_MACHINE_TEXT, 2, "machine:2: radix 9: a radix is 2 to 8");
  explains(two_tiles, "0 load 7\n0 load 8\n", 7, TORUSMEM_SCRIPTS_TEXT, 2,
           "scripts:2: address 8: the machine has the words 0 to 7");
  explains(two_tiles, "2 load 0\n", 8, TORUSMEM_SCRIPTS_TEXT, 1,
           "scripts:1: processor 2: the machine has the processors 0 to 1");
  explains("", "", 5, TORUSMEM_MACHINE_TEXT, 1, "machine:1: the text ends without radix");
  memset(written.bytes, 0xAA, 8);
  said = torusmem_explain(NULL, 0, NULL, 0, written.bytes, 8);
  MUST(said.code == TORUSMEM_SHORT && said.fault == 5 && said.text == TORUSMEM_MACHINE_TEXT && said.line == 1);
  said = torusmem_explain((const uint8_t *)two_tiles, strlen(two_tiles), NULL, 0, written.bytes, 8);
  MUST(said.code == TORUSMEM_OK && said.fault == 0 && said.text == TORUSMEM_NO_TEXT && said.line == 0);
  MUST(said.length == 0 && written.bytes[0] == 0xAA && live == 0);
}

static torusmem_outcome judge(const char *network, size_t room) {
  torusmem_outcome said;
  memset(written.bytes, 0xAA, room + 8);
  said = torusmem_network((const uint8_t *)network, strlen(network), written.bytes, room);
  MUST(written.bytes[room] == 0xAA && live == 0);
  return said;
}

/* A verdict with one of two texts of one length; a byte less is too short. */
static void judges(const char *network, uint32_t code, const char *one, const char *other) {
  size_t length = strlen(one);
  MUST(says(judge(network, length - 1), TORUSMEM_SHORT, length) && written.bytes[0] == 0xAA);
  MUST(says(judge(network, 0), TORUSMEM_SHORT, length) && says(judge(network, length), code, length));
  MUST(memcmp(written.bytes, one, length) == 0 || memcmp(written.bytes, other, length) == 0);
}

/* A line of three channels; pairs without a route, for two reasons; a ring of two hops, of which each waits for the
   other one; and a request that waits for the reply that comes behind it. */
static void networks_are_judged(void) {
  static const char line[] = "channels 3\ninject 0\neject 2\njoin 0 2\nnext 0 2 1\nnext 1 2 2\n";
  static const char *pair = "channels 2\ninject 0\neject 1\njoin 0 1\n";
  char rising[8] = "";
  unsigned numbers[3] = { 0, 0, 0 };
  torusmem_outcome said = judge(line, 100);
  MUST(said.code == TORUSMEM_OK && said.value < 100 && written.bytes[said.value] == 0xAA);
  written.bytes[said.value] = 0;
  MUST(sscanf((const char *)written.bytes, "number 0 %u\nnumber 1 %u\nnumber 2 %u\n%7s", &numbers[0], &numbers[1],
              &numbers[2], rising) == 4);
  MUST(numbers[0] < numbers[1] && numbers[1] < numbers[2] && strcmp(rising, "rising") == 0);
  judges("channels 2\ninject 0\neject 1\nnext 0 1 1\n", TORUSMEM_NO_PAIR, "no pair\n", "");
  judges(pair, TORUSMEM_NO_ROUTE, "no route 0 1: no channel at step 1\n", "");
  judges("channels 2\ninject 0\neject 1\njoin 0 0\n", TORUSMEM_NO_ROUTE,
         "no route 0 0: the second is no ejection channel\n", "");
  judges("channels 6\ninject 0\ninject 1\neject 4\neject 5\njoin 0 5\njoin 1 4\nnext 0 5 2\nnext 2 5 3\n"
         "next 3 5 5\nnext 1 4 3\nnext 3 4 2\nnext 2 4 4\n",
         TORUSMEM_CYCLE, "cycle\n2 to 5\n3 to 4\nfill 1 4 1\nfill 0 5 1\nlocks up\npairs 2 of 4, hops 2 of 2, longest route 4\n",
         "cycle\n3 to 4\n2 to 5\nfill 0 5 1\nfill 1 4 1\nlocks up\npairs 2 of 4, hops 2 of 2, longest route 4\n");
  judges("channels 2\ninject 0\neject 1\njoin 0 1\nnext 0 1 1\nreply 1 0\n", TORUSMEM_CYCLE,
         "cycle\n0 to 1\n1 replies 0\nfill 0 1 1\nfill 0 1 0\nlocks up\npairs 1 of 1, hops 0 of 0, longest route 2\n",
         "cycle\n1 replies 0\n0 to 1\nfill 0 1 1\nfill 0 1 0\nlocks up\npairs 1 of 1, hops 0 of 0, longest route 2\n");
  MUST(says(judge("channels 2\ninject 0\n\ninject 2\n", 100), 6, 4) && written.bytes[0] == 0xAA);
  MUST(says(judge("lanes 2\n", 100), 4, 1) && says(judge("inject 0\n", 0), 5, 1) && says(judge("", 0), 5, 1));
  MUST(says(torusmem_network(NULL, 0, NULL, 0), 5, 1));
}

/* What the program prints of a network, whose routers may choose. */
static void networks_are_answered(void) {
  static const char pair[] = "channels 2\ninject 0\neject 1\njoin 0 1\n", none[] = "no route 0 1: no channel at step 1\n";
  static const char choose[] = "channels 4\ninject 0\neject 3\njoin 0 3\nnext 0 3 1\nnext 0 3 2\nnext 1 3 3\nnext 2 3 3\nescape 1\nescape 0\nescape 3\n";
  torusmem_outcome said = torusmem_network_answer((const uint8_t *)pair, sizeof pair - 1, written.bytes, 100);
  MUST(says(said, TORUSMEM_NOT_RISING, sizeof none - 1) && memcmp(written.bytes, none, sizeof none - 1) == 0);
  written.bytes[0] = 0xAA;
  said = torusmem_network_answer((const uint8_t *)pair, sizeof pair - 1, written.bytes, 3);
  MUST(says(said, TORUSMEM_SHORT, sizeof none - 1) && written.bytes[0] == 0xAA);
  said = torusmem_network_answer((const uint8_t *)choose, sizeof choose - 1, written.bytes, MOST_BYTES);
  MUST(said.code == TORUSMEM_OK && said.value > 7 && memcmp(written.bytes, "number ", 7) == 0);
  MUST(judge(choose, 100).code != TORUSMEM_OK && says(torusmem_network_answer(NULL, 0, NULL, 0), 5, 1) && live == 0);
}

static bool told(const char *wanted, uint64_t length) {
  return length == strlen(wanted) && memcmp(written.bytes, wanted, length) == 0 && written.bytes[length] == 0xAA;
}

static torusmem_said said_of(const char *trace, uint64_t configurations, size_t room) {
  memset(written.bytes, 0xAA, sizeof written.bytes);
  return torusmem_linearize_answer((const uint8_t *)trace, strlen(trace), configurations, written.bytes, room);
}

/* What is said of a trace: an order, why there is none, or why that isn't decided; and which line is refused. */
static void traces_are_said(void) {
  static const char *good = "trace 1\nwords 8\nissue 0 store 5 17\nissue 1 load 5\nanswer 1 0 17\nanswer 0 0 ok\n";
  static const char *old = "trace 1\nwords 8\n\nissue 0 store 5 17\nanswer 0 0 ok\nissue 1 load 5\nanswer 1 0 0\n";
  static const char *adds = "trace 1\nwords 8\nissue 0 add 5 1\nissue 1 add 5 2\nissue 2 add 5 4\nissue 3 load 5\nanswer 3 0 0\nanswer 0 0 6\n";
  static const char *order = "order 0 0 store 5 17 ok\norder 1 0 load 5 17\nlinearizable\n";
  static const char *none = "not linearizable at line 7\ntrace:7: answer 1 0 0: no order gives 0: word 5 can be 17\n";
  torusmem_said said = said_of(good, 1000, 100);
  MUST(said.code == TORUSMEM_OK && said.line == 0 && told(order, said.length) && live == 0);
  said = said_of(good, 1000, strlen(order) - 1);
  MUST(said.code == TORUSMEM_SHORT && said.line == 0 && said.length == strlen(order) && written.bytes[0] == 0xAA && live == 0);
  said = said_of(old, 1000, MOST_BYTES);
  MUST(said.code == TORUSMEM_NOT_LINEARIZABLE && said.line == 7 && said.length > strlen(none) && live == 0);
  MUST(memcmp(written.bytes, none, strlen(none)) == 0 && written.bytes[said.length - 1] == '\n' && written.bytes[said.length] == 0xAA);
  said = said_of(adds, 1, MOST_BYTES);
  MUST(said.code == TORUSMEM_TOO_MANY && said.line == 8 && told("undecided at line 8: more than 1 configurations\n", said.length));
  said = said_of("trace 1\nwords 8\nissue 0 load 8\n", 1000, MOST_BYTES);
  MUST(said.code == TORUSMEM_FAULT_ADDRESS && said.line == 3 && said.length == 0 && written.bytes[0] == 0xAA && live == 0);
  said = torusmem_linearize_answer(NULL, 0, 1000, NULL, 0);
  MUST(said.code == TORUSMEM_FAULT_LINE && said.line == 1 && live == 0);
}

static torusmem_decided decided_of(const char *log, uint64_t nodes, uint32_t order, size_t room) {
  memset(written.bytes, 0xAA, sizeof written.bytes);
  return torusmem_model_values((const uint8_t *)log, strlen(log), nodes, order, written.bytes, room);
}

/* Which models a log obeys by its replies alone: store buffering breaks sequential consistency and no other. */
static void replies_are_judged(void) {
  static const char *buffers = "log 1\nwords 2\nmade 0 store 0 1\nmade 0 load 1\nmade 1 store 1 1\nmade 1 load 0\nreplied 0 1 0\nreplied 1 1 0\n";
  static const char *annotated = "log 1\nwords 2\nmade 0 store 0 1\nmade 0 load 1 acquire\nmade 1 store 1 1\nmade 1 load 0\nreplied 0 1 0\nreplied 1 1 0\n";
  static const char *left_open = "coherent yes\nfenced not told: the log has annotations or weaker fences\npso not told: ";
  static const char *none = "log 1\nwords 2\nmade 0 load 1\nreplied 0 0 3\n";
  static const char *text = "coherent yes\nfenced yes\npso yes\ntso yes\nsc no\n";
  torusmem_decided said = decided_of(buffers, 10000, 0, MOST_BYTES);
  MUST(said.code == TORUSMEM_OK && said.obeyed == 15 && said.broken == TORUSMEM_SC && said.other == 0);
  MUST(told(text, said.value) && live == 0);
  said = decided_of(buffers, 10000, 0, strlen(text) - 1);
  MUST(said.code == TORUSMEM_SHORT && said.obeyed == 15 && said.broken == TORUSMEM_SC && said.value == strlen(text));
  MUST(written.bytes[0] == 0xAA && live == 0);
  said = decided_of(buffers, 10000, 1, MOST_BYTES);
  MUST(said.code == TORUSMEM_OK && said.value > strlen(text) && memcmp(written.bytes, text, strlen(text)) == 0);
  MUST(memcmp(written.bytes + strlen(text), "an order of tso:\n", 17) == 0 && written.bytes[said.value] == 0xAA && live == 0);
  said = decided_of(annotated, 10000, 0, MOST_BYTES);
  MUST(said.code == TORUSMEM_OK && said.obeyed == TORUSMEM_COHERENT && said.broken == TORUSMEM_SC && live == 0);
  MUST(memcmp(written.bytes, left_open, strlen(left_open)) == 0 && written.bytes[said.value] == 0xAA);
  said = decided_of(none, 10000, 0, MOST_BYTES);
  MUST(said.code == TORUSMEM_UNWRITTEN && said.value == 4 && said.obeyed == 0 && said.broken == 0 && said.other == 0 && live == 0);
  said = decided_of("log 1\nwords 2\nmade 0 store 1 3\nmade 1 store 1 3\n", 10000, 0, MOST_BYTES);
  MUST(said.code == TORUSMEM_OK && said.obeyed == 31 && said.broken == 0 && live == 0);
  said = decided_of("log 1\nwords 2\nmade 0 add 1 1\nmade 1 add 1 1\nreplied 0 0 0\nreplied 1 0 0\n", 10000, 0, MOST_BYTES);
  MUST(said.code == TORUSMEM_LOST_UPDATE && said.value == 3 && said.other == 4 && written.bytes[0] == 0xAA && live == 0);
  said = decided_of("log 1\nwords 2\nmade 0 load 1\n", 10000, 0, MOST_BYTES);
  MUST(said.code == TORUSMEM_FAULT_SETTING && said.value == 3 && said.other == 0 && written.bytes[0] == 0xAA && live == 0);
  said = torusmem_model_values(NULL, 0, 10000, 0, NULL, 0);
  MUST(said.code == TORUSMEM_FAULT_LINE && said.value == 1 && live == 0);
}

static const char spin_machine[] = "radix 2\ndims 1\ndepth 4\ntags 4\nwords 8\n";
/* The spin of line 3 never finds its number; that of line 6 finds it at its first load; that of line 7 has no load that
   finds it, and a second one runs out behind it. */
static const char spin_scripts[] =
    "# spins\n0 store 5 17\n1 spin 5 18 2\n\n0 fence\n0 spin 5 17 400\n1 spin 6 1 3\n1 fence\n1 load 5\n";

static torusmem_outcome spins_of(torusmem_machine *m, const char *scripts, torusmem_spin *out, size_t room) {
  return torusmem_spins_out(m, (const uint8_t *)spin_machine, strlen(spin_machine), (const uint8_t *)scripts,
                            strlen(scripts), out, room);
}

static bool is_spin(const torusmem_spin *spin, uint32_t address, uint32_t loads, uint64_t line, uint64_t sought) {
  return spin->processor == 1 && spin->address == address && spin->loads == loads && spin->line == line &&
         spin->sought == sought;
}

/* Which spins ran out: none before its last load is answered, none that found its number, and none of other texts. */
static void spins_run_out(torusmem_machine *m) {
  torusmem_spin spins[3], before[3];
  memset(before, 0xAA, sizeof before);
  memset(spins, 0xAA, sizeof spins);
  MUST(says(load_texts(m, spin_machine, spin_scripts), TORUSMEM_OK, 0));
  int64_t held = live;
  while (torusmem_finished(m).value == 0) {
    uint64_t answers = torusmem_answers(m, 1).value, out = (answers >= 2 ? 1 : 0) + (answers >= 5 ? 1 : 0);
    MUST(says(spins_of(m, spin_scripts, NULL, 0), out > 0 ? TORUSMEM_SHORT : TORUSMEM_OK, out) && live == held);
    torusmem_round(m);
  }
  MUST(says(torusmem_answers(m, 1), TORUSMEM_OK, 6) && says(torusmem_answers(m, 0), TORUSMEM_OK, 2));
  MUST(says(spins_of(m, spin_scripts, spins, 1), TORUSMEM_SHORT, 2) && memcmp(spins, before, sizeof spins) == 0);
  MUST(says(spins_of(m, spin_scripts, spins, 3), TORUSMEM_OK, 2) && live == held);
  MUST(is_spin(&spins[0], 5, 2, 3, 18) && is_spin(&spins[1], 6, 3, 7, 1));
  MUST(memcmp(&spins[2], &before[2], sizeof spins[2]) == 0);
  MUST(says(spins_of(m, "1 load 5\n", spins, 3), TORUSMEM_OK, 0) && says(spins_of(m, "", NULL, 0), TORUSMEM_OK, 0));
  MUST(says(spins_of(m, "\n0 load 8\n", spins, 3), 7, 2) && is_spin(&spins[0], 5, 2, 3, 18));
  MUST(says(torusmem_spins_out(m, NULL, 0, NULL, 0, spins, 3), 5, 1) && live == held);
  torusmem_free(m);
  MUST(!m->full && live == 0);
}

static torusmem_event issued(uint32_t processor, uint32_t operation, uint32_t address, uint64_t first) {
  torusmem_event event = { TORUSMEM_ISSUE, processor, operation, address, 99, 99, first, 0, 99 };
  return event;
}

static torusmem_event stored(uint32_t processor, uint32_t index) {
  torusmem_event event = { TORUSMEM_ANSWER, processor, 99, 99, index, 0, 99, 99, 99 };
  return event;
}

static torusmem_event found(uint32_t processor, uint32_t index, uint64_t old) {
  torusmem_event event = { TORUSMEM_ANSWER, processor, 99, 99, index, 1, 99, 99, old };
  return event;
}

/* What is judged of events on four words, of which the first opens with 3; with a place of the order too few it is too
   short. Where there is no order, no place is written. */
static void linearizes(const torusmem_event *events, size_t count, uint32_t code, uint64_t value) {
  static const uint64_t opening[4] = { 3, 0, 0, 0 };
  uint64_t order[16];
  memset(order, 0xAA, sizeof order);
  MUST(says(torusmem_linearize(opening, 4, events, count, 1000, order, 16), code, value) && live == 0);
  if (code == TORUSMEM_OK && value > 0) {
    MUST(order[value] == UINT64_C(0xAAAAAAAAAAAAAAAA) && order[value - 1] < count);
    order[0] = 7;
    MUST(says(torusmem_linearize(opening, 4, events, count, 1000, order, value - 1), TORUSMEM_SHORT, value));
    MUST(order[0] == 7 && live == 0);
  } else {
    MUST(order[0] == UINT64_C(0xAAAAAAAAAAAAAAAA));
  }
}
#define LINEARIZES(events, code, value) linearizes(events, sizeof(events) / sizeof(events)[0], code, value)

/* Histories of one register (Herlihy and Wing, TOPLAS 12(3), 1990): two reads beside a write, of which the later one
   may not read the older word. */
static void traces_of_a_register(void) {
  const torusmem_event good[] = { issued(0, TORUSMEM_STORE, 1, 1), issued(1, TORUSMEM_LOAD, 1, 0), found(1, 0, 1),
                                  issued(2, TORUSMEM_LOAD, 1, 0), found(2, 0, 1), stored(0, 0) };
  const torusmem_event older[] = { issued(0, TORUSMEM_STORE, 1, 1), issued(1, TORUSMEM_LOAD, 1, 0), found(1, 0, 0),
                                   issued(1, TORUSMEM_LOAD, 1, 0), found(1, 1, 1), stored(0, 0) };
  const torusmem_event back[] = { issued(0, TORUSMEM_STORE, 1, 1), issued(1, TORUSMEM_LOAD, 1, 0), found(1, 0, 1),
                                  issued(2, TORUSMEM_LOAD, 1, 0), found(2, 0, 0), stored(0, 0) };
  const torusmem_event stale[] = { issued(0, TORUSMEM_STORE, 0, 1), stored(0, 0), issued(1, TORUSMEM_LOAD, 0, 0),
                                   found(1, 0, 3) };
  const torusmem_event opening[] = { issued(0, TORUSMEM_LOAD, 0, 0), found(0, 0, 3) };
  const torusmem_event seen[] = { issued(0, TORUSMEM_STORE, 1, 9), issued(1, TORUSMEM_LOAD, 1, 0), found(1, 0, 9) };
  const torusmem_event unseen[] = { issued(0, TORUSMEM_STORE, 1, 9), issued(1, TORUSMEM_LOAD, 1, 0), found(1, 0, 0) };
  const torusmem_event lost[] = { issued(0, TORUSMEM_ADD, 1, 1), issued(1, TORUSMEM_ADD, 1, 1), found(0, 0, 0),
                                  found(1, 0, 0) };
  LINEARIZES(good, TORUSMEM_OK, 3);
  LINEARIZES(older, TORUSMEM_OK, 3);
  LINEARIZES(back, TORUSMEM_NOT_LINEARIZABLE, 4);
  LINEARIZES(stale, TORUSMEM_NOT_LINEARIZABLE, 3);
  LINEARIZES(opening, TORUSMEM_OK, 1);
  LINEARIZES(seen, TORUSMEM_OK, 2);
  LINEARIZES(unseen, TORUSMEM_OK, 1);
  LINEARIZES(lost, TORUSMEM_NOT_LINEARIZABLE, 3);
  uint64_t order[3];
  MUST(says(torusmem_linearize((const uint64_t[]){ 0, 0 }, 2, older, 6, 1000, order, 3), TORUSMEM_OK, 3));
  MUST(order[0] == 1 && order[1] == 0 && order[2] == 3);
  MUST(says(torusmem_linearize((const uint64_t[]){ 0, 0 }, 2, seen, 3, 1000, order, 3), TORUSMEM_OK, 2));
  MUST(order[0] == 0 && order[1] == 1);
  MUST(says(torusmem_linearize(NULL, 0, NULL, 0, 1, NULL, 0), TORUSMEM_OK, 0) && live == 0);
}

/* Events that can't stand, each with the fault of the trace text; and traces that aren't decided. */
static void traces_are_refused(void) {
  torusmem_event events[70] = { issued(0, TORUSMEM_STORE, 1, 1), issued(4095, TORUSMEM_LOAD, 2, 0) };
  torusmem_event *third = &events[2];
  uint64_t word = 0, order[70];
  *third = issued(0, TORUSMEM_STORE, 1, 1), third->kind = 2;
  linearizes(events, 3, 4, 2);
  *third = issued(0, TORUSMEM_MIN + 1, 1, 1);
  linearizes(events, 3, 4, 2);
  *third = issued(4096, TORUSMEM_MIN, 1, 1);
  linearizes(events, 3, 8, 2);
  *third = issued(0, TORUSMEM_MIN, 4, 1);
  linearizes(events, 3, 7, 2);
  *third = stored(0, 0), third->has_old = 2;
  linearizes(events, 3, 4, 2);
  *third = stored(4096, 0);
  linearizes(events, 3, 8, 2);
  *third = stored(0, 1);
  linearizes(events, 3, 6, 2);
  *third = stored(1, 0);
  linearizes(events, 3, 6, 2);
  *third = found(0, 0, 0);
  linearizes(events, 3, 4, 2);
  *third = stored(4095, 0);
  linearizes(events, 3, 4, 2);
  *third = events[3] = stored(0, 0);
  linearizes(events, 4, 5, 3);
  linearizes(events, 3, TORUSMEM_OK, 1);
  for (uint32_t at = 0; at < 65; at++) events[at] = issued(at, TORUSMEM_STORE, 0, at);
  MUST(says(torusmem_linearize(&word, 1, events, 64, 1, order, 70), TORUSMEM_OK, 0));
  MUST(says(torusmem_linearize(&word, 1, events, 65, 1, order, 70), TORUSMEM_OK, 0));
  for (uint32_t at = 0; at < 65; at++) events[at] = issued(at, TORUSMEM_OR, 0, 1);
  events[65] = issued(65, TORUSMEM_LOAD, 0, 0), events[66] = found(65, 0, 1);
  MUST(says(torusmem_linearize(&word, 1, events, 67, 1, order, 70), TORUSMEM_TOO_OPEN, 64));
  for (uint32_t at = 0; at < 4; at++) events[at] = issued(at, TORUSMEM_ADD, 0, 1);
  events[4] = found(0, 0, 1), events[5] = found(1, 0, 0), events[6] = found(2, 0, 2), events[7] = found(3, 0, 3);
  MUST(says(torusmem_linearize(&word, 1, events, 8, 1, order, 70), TORUSMEM_TOO_MANY, 4));
  MUST(says(torusmem_linearize(&word, 1, events, 8, 1000, order, 70), TORUSMEM_OK, 4) && live == 0);
  MUST(order[0] == 1 && order[1] == 0 && order[2] == 2 && order[3] == 3);
}

static torusmem_log_entry makes(uint32_t processor, uint32_t operation, uint32_t address, uint64_t first) {
  torusmem_log_entry entry = { TORUSMEM_LOG_MADE, processor, 99, operation, address, 99, 99, 99, first, 0, 99 };
  return entry;
}

static torusmem_log_entry names(uint32_t kind, uint32_t processor, uint32_t index) {
  torusmem_log_entry entry = { kind, processor, index, 99, 99, 99, 99, 99, 99, 99, 99 };
  return entry;
}

static torusmem_log_entry replies(uint32_t processor, uint32_t index, uint32_t has_old, uint64_t old) {
  torusmem_log_entry entry = names(TORUSMEM_LOG_REPLIED, processor, index);
  entry.has_old = has_old, entry.old = old;
  return entry;
}

static torusmem_models models_of(uint64_t words, const torusmem_log_entry *log, size_t count, uint32_t order,
                                 size_t room) {
  memset(written.bytes, 0xAA, room + 8);
  torusmem_models said = torusmem_model(words, log, count, order, written.bytes, room);
  MUST(written.bytes[room] == 0xAA && live == 0);
  return said;
}

/* The models that a log obeys, and the text; with a byte too few it is too short. */
static void obeys(const torusmem_log_entry *log, size_t count, uint32_t order, uint32_t models, const char *text) {
  size_t length = strlen(text);
  torusmem_models said = models_of(2, log, count, order, length - 1);
  MUST(said.code == TORUSMEM_SHORT && said.value == length && said.models == models && written.bytes[0] == 0xAA);
  said = models_of(2, log, count, order, length + 1);
  MUST(said.code == TORUSMEM_OK && said.value == length && said.models == models && said.word + said.writer == 0);
  MUST(memcmp(written.bytes, text, length) == 0 && written.bytes[length] == 0xAA);
}

/* A log that has a wrong reply, or an entry that can't stand. */
static void refuses(const torusmem_log_entry *log, size_t count, uint32_t code, uint64_t value, uint64_t word,
                    uint64_t writer) {
  torusmem_models said = models_of(2, log, count, 1, 100);
  MUST(said.code == code && said.models == 0 && said.value == value && said.word == word && said.writer == writer);
  MUST(written.bytes[0] == 0xAA);
}

/* Two processors store, then load the other word, and neither sees the other's store (Lamport, IEEE ToC 28(9), 1979):
   what total store order allows and sequential consistency forbids. */
static void logs_are_judged(void) {
  const torusmem_log_entry log[] = {
    makes(0, TORUSMEM_STORE, 0, 1),           makes(0, TORUSMEM_LOAD, 1, 0),
    makes(1, TORUSMEM_STORE, 1, 1),           makes(1, TORUSMEM_LOAD, 0, 0),
    names(TORUSMEM_LOG_WROTE, 0, 0),          names(TORUSMEM_LOG_WROTE, 1, 0),
    names(TORUSMEM_LOG_READ_OPENING, 0, 1),   names(TORUSMEM_LOG_SERVED, 1, 1),
    replies(0, 0, 0, 99),                     replies(0, 1, 1, 0),
  };
  torusmem_log_entry other[12];
  memcpy(other, log, sizeof log);
  obeys(log, 8, 0, TORUSMEM_COHERENT + TORUSMEM_FENCED + TORUSMEM_PSO + TORUSMEM_TSO + TORUSMEM_SC,
        "coherent yes\nfenced yes\npso yes\ntso yes\nsc yes\n");
  other[7] = names(TORUSMEM_LOG_READ_OPENING, 1, 1);
  obeys(other, 10, 0, TORUSMEM_COHERENT + TORUSMEM_FENCED + TORUSMEM_PSO + TORUSMEM_TSO,
        "coherent yes\nfenced yes\npso yes\ntso yes\nsc no\nno order of sc:\nline 1: 0 store 0 1\n"
        "  before, in program order\nline 2: 0 load 1\n  read a word that was overwritten by\n"
        "line 3: 1 store 1 1\n  before, in program order\nline 4: 1 load 0\n"
        "  read a word that was overwritten by\nline 1: 0 store 0 1\n");
  other[7] = names(TORUSMEM_LOG_READ, 1, 1), other[7].from_processor = other[7].from_index = 0;
  MUST(models_of(2, other, 10, 1, 1000).models == 31 && strstr((char *)written.bytes, "sc yes\nan order of sc:\n"));
  other[2] = makes(1, TORUSMEM_FENCE, 99, 99);
  refuses(other, 10, 4, 6, 0, 0);
  MUST(models_of(1, NULL, 0, 0, 100).models == 31 && torusmem_model(1, NULL, 0, 0, NULL, 0).code == TORUSMEM_SHORT);
}

/* Replies that aren't due, and entries that can't stand, each with the fault of the log text. */
static void logs_are_refused(void) {
  torusmem_log_entry log[6] = { makes(0, TORUSMEM_STORE, 1, 5), makes(4095, TORUSMEM_LOAD, 1, 0),
                                names(TORUSMEM_LOG_WROTE, 0, 0), names(TORUSMEM_LOG_SERVED, 4095, 0) };
  torusmem_log_entry *last = &log[4];
  *last = replies(4095, 0, 1, 4);
  refuses(log, 5, TORUSMEM_WRONG_REPLY, 5, 5, 1);
  *last = replies(4095, 0, 1, 5);
  MUST(models_of(2, log, 5, 0, 100).models == 31);
  log[5] = *last;
  refuses(log, 6, 5, 6, 0, 0);
  *last = replies(4095, 0, 2, 5);
  refuses(log, 5, 4, 5, 0, 0);
  *last = replies(4095, 0, 0, 5);
  refuses(log, 5, 4, 5, 0, 0);
  *last = names(7, 0, 0);
  refuses(log, 5, 4, 5, 0, 0);
  *last = makes(0, TORUSMEM_FENCE + 1, 0, 0);
  refuses(log, 5, 4, 5, 0, 0);
  *last = makes(4096, TORUSMEM_MIN, 0, 0);
  refuses(log, 5, 8, 5, 0, 0);
  *last = makes(0, TORUSMEM_MIN, 2, 0);
  refuses(log, 5, 7, 5, 0, 0);
  *last = makes(0, TORUSMEM_MIN, 0, 0);
  refuses(log, 5, 5, 5, 0, 0);
  *last = names(TORUSMEM_LOG_WROTE, 0, 1);
  refuses(log, 5, 6, 5, 0, 0);
  *last = names(TORUSMEM_LOG_WROTE, 0, 0);
  refuses(log, 5, 5, 5, 0, 0);
  *last = names(TORUSMEM_LOG_INIT, 0, 0), last->address = 0;
  refuses(log, 5, 5, 5, 0, 0);
  MUST(models_of(0, log, 4, 0, 100).code == 6 && models_of((UINT64_C(1) << 32) + 1, log, 4, 0, 100).code == 6);
  MUST(models_of(UINT64_C(1) << 32, log, 4, 0, 100).models == 31);
  log[5] = log[3], log[4] = log[2], log[3] = log[1], log[2] = log[0];
  log[0] = log[1] = names(TORUSMEM_LOG_INIT, 0, 0), log[0].address = 0, log[1].address = 1, log[1].first = 6;
  log[3].first = 7;
  MUST(models_of(2, log, 6, 0, 100).models == 31);
  log[1].address = 0;
  refuses(log, 6, 5, 2, 0, 0);
}

/* Issues and answers of a watch: what they answer, of which OK is all that changes anything. */
static torusmem_outcome issues(torusmem_watch *w, uint64_t number, uint32_t operation, uint32_t address,
                               uint64_t first) {
  return torusmem_watch_issue(w, number, operation, address, first, 0);
}

static torusmem_outcome says_old(torusmem_watch *w, uint64_t number, uint64_t old) {
  return torusmem_watch_answer(w, number, 1, old, 1000);
}

static torusmem_outcome says_ok(torusmem_watch *w, uint64_t number) {
  return torusmem_watch_answer(w, number, 0, 99, 1000);
}

static void a_watch_is_empty(torusmem_watch *w) {
  MUST(!w->full && says(issues(w, 1, TORUSMEM_LOAD, 0, 0), TORUSMEM_EMPTY, 0) && live == 0);
  MUST(says(says_old(w, 1, 0), TORUSMEM_EMPTY, 0) && says(says_ok(w, 1), TORUSMEM_EMPTY, 0));
  torusmem_watch_end(w);
  MUST(!w->full && live == 0);
}

/* Two reads beside a write, as above: the later one may not read the older word. What isn't taken changes nothing. */
static void traces_are_watched(void) {
  static const uint64_t opening[4] = { 3, 0, 0, 0 };
  torusmem_watch w = TORUSMEM_WATCH_INIT, moved;
  a_watch_is_empty(&w);
  MUST(says(torusmem_watch_begin(&w, opening, 4), TORUSMEM_OK, 0) && w.full && live > 0);
  MUST(says(torusmem_watch_begin(&w, opening, 4), TORUSMEM_FULL, 0) && w.full);
  MUST(says(issues(&w, 7, TORUSMEM_STORE, 1, 1), TORUSMEM_OK, 0));
  MUST(says(issues(&w, 7, TORUSMEM_LOAD, 1, 0), TORUSMEM_NONE, 0));
  MUST(says(issues(&w, 6, TORUSMEM_LOAD, 1, 0), TORUSMEM_NONE, 0));
  MUST(says(issues(&w, 8, TORUSMEM_LOAD, 4, 0), TORUSMEM_NONE, 0));
  MUST(says(issues(&w, 8, TORUSMEM_MIN + 1, 1, 0), TORUSMEM_NONE, 0));
  MUST(says(says_old(&w, 8, 0), TORUSMEM_NONE, 0) && says(says_ok(&w, 6), TORUSMEM_NONE, 0));
  MUST(says(torusmem_watch_answer(&w, 7, 2, 0, 1000), TORUSMEM_NONE, 0));
  MUST(says(issues(&w, 8, TORUSMEM_LOAD, 1, 0), TORUSMEM_OK, 0));
  MUST(says(torusmem_watch_answer(&w, 8, 1, 1, 1), TORUSMEM_TOO_MANY, 0));
  MUST(says(says_old(&w, 8, 2), TORUSMEM_NOT_LINEARIZABLE, 0) && says(says_old(&w, 8, 1), TORUSMEM_OK, 0));
  MUST(says(says_old(&w, 8, 1), TORUSMEM_NONE, 0));
  moved = w;
  MUST(says(issues(&moved, UINT64_MAX, TORUSMEM_LOAD, 1, 0), TORUSMEM_OK, 0));
  MUST(says(says_old(&moved, UINT64_MAX, 0), TORUSMEM_NOT_LINEARIZABLE, 0));
  MUST(says(says_ok(&moved, 7), TORUSMEM_OK, 0) && says(says_old(&moved, UINT64_MAX, 1), TORUSMEM_OK, 0));
  torusmem_watch_end(&moved);
  a_watch_is_empty(&moved);
  MUST(says(torusmem_watch_begin(&moved, NULL, 0), TORUSMEM_OK, 0));
  MUST(says(issues(&moved, 1, TORUSMEM_LOAD, 0, 0), TORUSMEM_NONE, 0));
  torusmem_watch_end(&moved);
  a_watch_is_empty(&moved);
}

/* A watch that is made once more knows what the first one knew, and goes on by itself. */
static void watches_are_cloned(void) {
  static const uint64_t opening[2] = { 3, 0 };
  torusmem_watch w = TORUSMEM_WATCH_INIT, fresh = TORUSMEM_WATCH_INIT, other = TORUSMEM_WATCH_INIT;
  MUST(says(torusmem_watch_clone(&w, &fresh), TORUSMEM_EMPTY, 0) && !w.full && !fresh.full && live == 0);
  MUST(says(torusmem_watch_begin(&w, opening, 2), TORUSMEM_OK, 0));
  MUST(says(issues(&w, 1, TORUSMEM_ADD, 0, 1), TORUSMEM_OK, 0) && says(issues(&w, 2, TORUSMEM_ADD, 0, 1), TORUSMEM_OK, 0));
  MUST(says(issues(&w, 3, TORUSMEM_LOAD, 1, 0), TORUSMEM_OK, 0) && says(says_old(&w, 2, 4), TORUSMEM_OK, 0));
  MUST(says(torusmem_watch_clone(&w, &fresh), TORUSMEM_OK, 0) && fresh.full && fresh.at != w.at);
  MUST(says(torusmem_watch_clone(&w, &fresh), TORUSMEM_FULL, 0) && says(torusmem_watch_clone(&other, &fresh), TORUSMEM_FULL, 0));
  torusmem_watch *both[2] = { &w, &fresh };
  for (int it = 0; it < 2; it++) {
    MUST(says(issues(both[it], 3, TORUSMEM_LOAD, 1, 0), TORUSMEM_NONE, 0));
    MUST(says(says_old(both[it], 2, 4), TORUSMEM_NONE, 0) && says(says_old(both[it], 1, 4), TORUSMEM_NOT_LINEARIZABLE, 0));
    MUST(says(says_old(both[it], 1, 3), TORUSMEM_OK, 0) && says(says_old(both[it], 3, 1), TORUSMEM_NOT_LINEARIZABLE, 0));
    MUST(says(issues(both[it], 4, TORUSMEM_LOAD, 0, 0), TORUSMEM_OK, 0));
    MUST(says(says_old(both[it], 4, 4), TORUSMEM_NOT_LINEARIZABLE, 0));
    if (it == 0) torusmem_watch_end(&w);
  }
  MUST(says(says_old(&fresh, 4, 5), TORUSMEM_OK, 0) && says(says_old(&fresh, 3, 0), TORUSMEM_OK, 0));
  torusmem_watch_end(&fresh);
  MUST(!fresh.full && !other.full && live == 0);
}

/* Saves a watch, ends it, and makes it again of the bytes, of which there are so many. */
static void made_again(torusmem_watch *w, uint64_t next, size_t length) {
  torusmem_outcome said = torusmem_watch_save(w, NULL, 0);
  MUST(says(said, TORUSMEM_SHORT, said.value) && said.value == length);
  memset(written.bytes, 0xAA, length + 1);
  MUST(says(torusmem_watch_save(w, written.bytes, length - 1), TORUSMEM_SHORT, length) && written.bytes[0] == 0xAA);
  MUST(says(torusmem_watch_save(w, written.bytes, length + 1), TORUSMEM_OK, length) && written.bytes[length] == 0xAA);
  MUST(says(torusmem_watch_restore(w, written.bytes, length), TORUSMEM_FULL, 0));
  torusmem_watch_end(w);
  MUST(says(torusmem_watch_restore(w, written.bytes, length), TORUSMEM_OK, next) && w->full);
}

/* A watch that is made of bytes at each event answers as one that goes on, also with every operation. A head has 48 bytes, the
   name 5 and a checksum 8; a word ends with a row, a configuration with one, each effect and each open operation has two, and
   the newest number one, of 32 bytes each. */
static void watches_are_saved(void) {
  static const uint64_t opening[2] = { 3, 0 };
  torusmem_watch w = TORUSMEM_WATCH_INIT;
  MUST(says(torusmem_watch_save(&w, written.bytes, 100), TORUSMEM_EMPTY, 0));
  MUST(says(torusmem_watch_begin(&w, opening, 2), TORUSMEM_OK, 0));
  made_again(&w, 0, 61 + 32 * 4);
  MUST(says(issues(&w, 1, TORUSMEM_ADD, 0, 1), TORUSMEM_OK, 0) && says(issues(&w, 2, TORUSMEM_ADD, 0, 1), TORUSMEM_OK, 0));
  made_again(&w, 3, 61 + 32 * 9);
  MUST(says(issues(&w, 7, TORUSMEM_LOAD, 1, 0), TORUSMEM_OK, 0) && says(says_old(&w, 2, 4), TORUSMEM_OK, 0));
  torusmem_outcome said = torusmem_watch_save(&w, written.bytes, MOST_BYTES);
  made_again(&w, 8, (size_t)said.value);
  MUST(says(issues(&w, 7, TORUSMEM_LOAD, 1, 0), TORUSMEM_NONE, 0) && says(says_old(&w, 2, 4), TORUSMEM_NONE, 0));
  MUST(says(says_old(&w, 1, 4), TORUSMEM_NOT_LINEARIZABLE, 0) && says(says_old(&w, 1, 3), TORUSMEM_OK, 0));
  MUST(says(says_old(&w, 7, 1), TORUSMEM_NOT_LINEARIZABLE, 0) && says(says_old(&w, 7, 0), TORUSMEM_OK, 0));
  made_again(&w, 8, 61 + 32 * 5);
  MUST(says(issues(&w, UINT64_MAX, TORUSMEM_LOAD, 0, 0), TORUSMEM_OK, 0));
  made_again(&w, UINT64_MAX, 61 + 32 * 7);
  MUST(says(says_old(&w, UINT64_MAX, 4), TORUSMEM_NOT_LINEARIZABLE, 0) && says(says_old(&w, UINT64_MAX, 5), TORUSMEM_OK, 0));
  torusmem_watch_end(&w);
  MUST(live == 0);
}

/* Bytes that no watch was saved as: of which one is changed, that are cut, and those of a machine, which takes none of a watch. */
static void bytes_of_no_watch(void) {
  static const uint64_t opening[1] = { 5 };
  static uint8_t saved[300];
  torusmem_watch w = TORUSMEM_WATCH_INIT;
  torusmem_machine m = TORUSMEM_MACHINE_INIT;
  MUST(says(torusmem_watch_begin(&w, opening, 1), TORUSMEM_OK, 0) && says(issues(&w, 0, TORUSMEM_ADD, 0, 1), TORUSMEM_OK, 0));
  size_t length = (size_t)torusmem_watch_save(&w, saved, sizeof saved).value;
  torusmem_watch_end(&w);
  for (size_t at = 0; at < length; at++) {
    MUST(torusmem_watch_restore(&w, saved, at).code == TORUSMEM_BAD_RECORD && !w.full);
    for (unsigned bit = 0; bit < 8; bit++) {
      saved[at] ^= (uint8_t)(1u << bit);
      MUST(torusmem_watch_restore(&w, saved, length).code == TORUSMEM_BAD_RECORD && !w.full && live == 0);
      saved[at] ^= (uint8_t)(1u << bit);
    }
  }
  MUST(says(torusmem_watch_restore(&w, NULL, 0), TORUSMEM_BAD_RECORD, 0));
  MUST(says(torusmem_restore(&m, saved, length), TORUSMEM_FAULT_LINE, 1) && !m.full);
  static const char machine[] = "radix 2\ndims 1\ndepth 1\ntags 1\nwords 1\n";
  MUST(torusmem_load_recorded(&m, (const uint8_t *)machine, sizeof machine - 1, NULL, 0).code == TORUSMEM_OK);
  length = (size_t)torusmem_save(&m, saved, sizeof saved).value;
  torusmem_free(&m);
  MUST(says(torusmem_watch_restore(&w, saved, length), TORUSMEM_BAD_RECORD, 48) && !w.full && live == 0);
}

/* A drawn trace of a register, of which some answers are wrong: a watch that is made again before each event says what one says
   that goes on, and both then have the same bytes, which don't grow. */
static void watches_go_on_restored(void) {
  static uint8_t first[1 << 16], second[1 << 16];
  static const uint64_t opening[2] = { 0, 0 };
  uint64_t drawn = 1, open[4] = { 0, 1, 2, 3 }, most = 0, early = 0;
  torusmem_watch w = TORUSMEM_WATCH_INIT, v = TORUSMEM_WATCH_INIT;
  MUST(says(torusmem_watch_begin(&w, opening, 2), TORUSMEM_OK, 0) && says(torusmem_watch_begin(&v, opening, 2), TORUSMEM_OK, 0));
  for (uint64_t number = 0; number < 4000; number++) {
    drawn = drawn * UINT64_C(6364136223846793005) + UINT64_C(1442695040888963407);
    uint32_t operation = (uint32_t)(drawn >> 33) % 10, address = (uint32_t)(drawn >> 40) % 2;
    if (operation == TORUSMEM_ADD) operation = TORUSMEM_LOAD; /* so words stay below 4 */
    uint64_t value = drawn >> 50 & 3, *answered = &open[drawn >> 60 & 3];
    torusmem_outcome saved = torusmem_watch_save(&w, first, sizeof first);
    MUST(saved.code == TORUSMEM_OK && says(torusmem_watch_save(&v, second, sizeof second), TORUSMEM_OK, saved.value));
    MUST(memcmp(first, second, (size_t)saved.value) == 0);
    torusmem_watch_end(&w);
    MUST(torusmem_watch_restore(&w, first, (size_t)saved.value).code == TORUSMEM_OK);
    if (saved.value > most) most = saved.value;
    if (number == 1000) early = most;
    if (number < 4) {
      MUST(says(torusmem_watch_issue(&w, number, operation, address, value, 1), TORUSMEM_OK, 0));
      MUST(says(torusmem_watch_issue(&v, number, operation, address, value, 1), TORUSMEM_OK, 0));
      continue;
    }
    for (uint64_t old = 0; old < 5; old++) { /* the first reply that an order explains; 4: that of a store */
      torusmem_outcome said = torusmem_watch_answer(&w, *answered, old < 4, old, 1000);
      MUST(says(torusmem_watch_answer(&v, *answered, old < 4, old, 1000), said.code, said.value));
      MUST(said.code == TORUSMEM_OK || old < 4);
      if (said.code != TORUSMEM_OK) continue;
      *answered = number;
      MUST(says(torusmem_watch_issue(&w, number, operation, address, value, 1), TORUSMEM_OK, 0));
      MUST(says(torusmem_watch_issue(&v, number, operation, address, value, 1), TORUSMEM_OK, 0));
      break;
    }
  }
  MUST(early > 0 && most <= 4 * early);
  torusmem_watch_end(&w);
  torusmem_watch_end(&v);
  MUST(live == 0);
}

/* Every operation, by its reply and the word that it leaves. */
static void operations_are_watched(void) {
  static const struct { uint64_t first, second, old, left; } made[TORUSMEM_MIN + 1] = {
    { 0, 0, 6, 6 }, { 9, 0, 0, 9 }, { 5, 0, 9, 5 }, { 5, 8, 5, 8 }, { 4, 0, 8, 12 },
    { 10, 0, 12, 8 }, { 3, 0, 8, 11 }, { 1, 0, 11, 10 }, { 20, 0, 10, 20 }, { 2, 0, 20, 2 }
  };
  const uint64_t six = 6;
  uint64_t number = 0;
  torusmem_watch w = TORUSMEM_WATCH_INIT;
  MUST(says(torusmem_watch_begin(&w, &six, 1), TORUSMEM_OK, 0));
  for (uint32_t it = 0; it <= TORUSMEM_MIN; it++) {
    MUST(says(torusmem_watch_issue(&w, number, it, 0, made[it].first, made[it].second), TORUSMEM_OK, 0));
    MUST(says(it == TORUSMEM_STORE ? says_ok(&w, number) : says_old(&w, number, made[it].old), TORUSMEM_OK, 0));
    MUST(says(issues(&w, number + 1, TORUSMEM_LOAD, 0, 0), TORUSMEM_OK, 0));
    MUST(says(says_old(&w, number + 1, made[it].left), TORUSMEM_OK, 0));
    number += 2;
  }
  torusmem_watch_end(&w);
  MUST(live == 0);
}

/* Blocks of memory are as many after 20,000 operations as after 20. */
static void memory_of_a_watch_stays(void) {
  const uint64_t zero = 0;
  int64_t early = 0;
  torusmem_watch w = TORUSMEM_WATCH_INIT;
  MUST(says(torusmem_watch_begin(&w, &zero, 1), TORUSMEM_OK, 0));
  for (uint64_t it = 0; it < 10000; it++) {
    bool taken = issues(&w, 2 * it, TORUSMEM_ADD, 0, 1).code == TORUSMEM_OK;
    taken = taken && issues(&w, 2 * it + 1, TORUSMEM_ADD, 0, 1).code == TORUSMEM_OK;
    taken = taken && says_old(&w, 2 * it + 1, 2 * it).code == TORUSMEM_OK;
    MUST(taken && says(says_old(&w, 2 * it, 2 * it + 1), TORUSMEM_OK, 0));
    if (it == 10) early = live;
  }
  MUST(early > 0 && live == early);
  torusmem_watch_end(&w);
  MUST(live == 0);
}

/* Clocked rounds, also fair ones: of the script's store and its load behind a fence, each over one hop, each takes 4 + 2 * 4 + 5. */
static void clocked_rounds(void) {
  torusmem_machine m = TORUSMEM_MACHINE_INIT;
  uint64_t turn = 0;
  MUST(says(load(&m), TORUSMEM_OK, 0) && says(torusmem_finish_clocked(&m), TORUSMEM_OK, 34) && reports_well(&m));
  MUST(says(torusmem_finish_clocked(&m), TORUSMEM_OK, 0));
  torusmem_free(&m);
  MUST(says(load(&m), TORUSMEM_OK, 0));
  for (; torusmem_finished(&m).value == 0 && turn < 1000; turn++) {
    MUST(says(torusmem_clocked_round(&m, turn), TORUSMEM_OK, 0));
  }
  MUST(turn == 34);
  torusmem_free(&m);
  MUST(says(load(&m), TORUSMEM_OK, 0) && says(torusmem_fair_round(&m), TORUSMEM_OK, 0));
  MUST(says(torusmem_fair_rounds(&m, 16), TORUSMEM_OK, 16) && says(torusmem_finished(&m), TORUSMEM_OK, 0));
  MUST(says(torusmem_fair_rounds(&m, UINT64_MAX), TORUSMEM_OK, 17) && reports_well(&m));
  torusmem_free(&m);
  MUST(live == 0);
}

static void codes(void) {
  torusmem_machine m = TORUSMEM_MACHINE_INIT, moved = TORUSMEM_MACHINE_INIT, other = TORUSMEM_MACHINE_INIT;
  every_call_says_empty(&m);
  faults_keep_nothing(&m);
  texts_that_meet(&other);
  lines_that_come_later(&other);
  operations_that_are_asked(&other);
  faults_are_explained();
  networks_are_judged();
  networks_are_answered();
  spins_run_out(&other);
  traces_are_said();
  replies_are_judged();
  traces_of_a_register();
  traces_are_refused();
  logs_are_judged();
  logs_are_refused();
  traces_are_watched();
  watches_are_cloned();
  watches_are_saved();
  bytes_of_no_watch();
  watches_go_on_restored();
  operations_are_watched();
  shapes(&other);
  machines_of_numbers(&other);
  memory_of_a_watch_stays();
  MUST(says(load(&m), TORUSMEM_OK, 0) && m.full);
  what_is_not_there(&m);
  choices_that_there_are(&m);
  MUST(says(torusmem_step(&m, 0, TORUSMEM_SEND, 99), TORUSMEM_OK, 1));
  MUST(says(load(&m), TORUSMEM_FULL, 0));
  MUST(says(load_texts(&m, "radix 9\n", ""), TORUSMEM_FULL, 0));
  MUST(says(torusmem_step(&m, 1, TORUSMEM_TAKE_FROM, 8), TORUSMEM_OK, 1));
  moved = m;
  m = (torusmem_machine)TORUSMEM_MACHINE_INIT;
  MUST(says(torusmem_finished(&moved), TORUSMEM_OK, 0));
  MUST(torusmem_finish(&moved).code == TORUSMEM_OK && says(torusmem_finished(&moved), TORUSMEM_OK, 1));
  MUST(says(torusmem_word(&moved, 5), TORUSMEM_OK, 17) && reports_well(&moved));
  every_call_says_empty(&m);
  short_buffers(&moved);
  answers_and_entries(&moved);
  torusmem_free(&moved);
  MUST(!moved.full);
  every_call_says_empty(&moved);
  MUST(says(load(&moved), TORUSMEM_OK, 0) && says(torusmem_finish(&moved), TORUSMEM_OK, 12));
  MUST(reports_well(&moved) && live > 0);
  torusmem_free(&moved);
  MUST(live == 0);
  clocked_rounds();
}

/* An explanation and a verdict, for which memory may be refused. */
static void explain_with_little_memory(void) {
  static const char pair[] = "channels 2\ninject 0\neject 1\njoin 0 1\n";
  torusmem_explanation said = torusmem_explain(machine_text.bytes, machine_text.length, (const uint8_t *)"0 x\n", 4,
                                               written.bytes, MOST_BYTES);
  torusmem_outcome judged = torusmem_network((const uint8_t *)pair, strlen(pair), written.bytes, MOST_BYTES);
  bool was_read = said.fault == 4 && said.text == TORUSMEM_SCRIPTS_TEXT && said.line == 1;
  bool was_refused = said.fault == TORUSMEM_FAULT_MEMORY && said.text == TORUSMEM_NO_TEXT && said.line == 0;
  MUST(was_read || (refused != 0 && was_refused));
  MUST(said.code == TORUSMEM_OK || (refused != 0 && said.code == TORUSMEM_FAULT_MEMORY && said.length == 0));
  MUST(says(judged, TORUSMEM_NO_ROUTE, 35) || (refused != 0 && says(judged, TORUSMEM_FAULT_MEMORY, 0)));
}

/* What is said of a trace, and of a log's replies, for which memory may be refused: for a sentence alone it is left out. */
static void say_with_little_memory(void) {
  torusmem_said said = said_of("trace 1\nwords 8\nissue 0 load 5\nanswer 0 0 3\n", 1000, MOST_BYTES);
  MUST(said.code == TORUSMEM_NOT_LINEARIZABLE || (refused != 0 && said.code == TORUSMEM_FAULT_MEMORY));
  MUST(said.code == TORUSMEM_FAULT_MEMORY ? said.line == 0 && said.length == 0 && written.bytes[0] == 0xAA
                                          : said.line == 4 && memcmp(written.bytes, "not linearizable at line 4\n", 27) == 0);
  MUST((refused != 0 || (said.length > 27 && memcmp(written.bytes + 27, "trace:4: ", 9) == 0)) && live == 0);
  torusmem_decided decided = decided_of("log 1\nwords 2\nmade 0 load 1\nreplied 0 0 0\n", 10000, 1, MOST_BYTES);
  bool was_refused = decided.code == TORUSMEM_FAULT_MEMORY && decided.obeyed == 0 && written.bytes[0] == 0xAA;
  MUST((decided.code == TORUSMEM_OK && decided.obeyed == 31) || (refused != 0 && was_refused));
  MUST(live == 0);
}

/* The spins that ran out, and a verdict on a trace, for which memory may be refused. */
static void judge_with_little_memory(void) {
  const torusmem_event events[] = { issued(0, TORUSMEM_STORE, 0, 9), issued(1, TORUSMEM_LOAD, 0, 0), found(1, 0, 9) };
  torusmem_machine m = TORUSMEM_MACHINE_INIT;
  uint64_t word = 0, order[2] = { 7, 7 };
  torusmem_spin spins[2];
  torusmem_outcome said = torusmem_linearize(&word, 1, events, 3, 1000, order, 2);
  MUST(says(said, TORUSMEM_OK, 2) || (refused != 0 && says(said, TORUSMEM_FAULT_MEMORY, 0) && order[0] == 7));
  MUST(live == 0);
  if (load_texts(&m, spin_machine, spin_scripts).code != TORUSMEM_OK) return;
  torusmem_finish(&m);
  said = spins_of(&m, spin_scripts, spins, 2);
  MUST(says(said, TORUSMEM_OK, 2) || (refused != 0 && says(said, TORUSMEM_FAULT_MEMORY, 0)));
  torusmem_free(&m);
}

/* A watch, for which memory may be refused: what isn't taken is taken once there is memory. */
static void watch_with_little_memory(void) {
  const uint64_t zero = 0;
  uint64_t kept = refused;
  torusmem_watch w = TORUSMEM_WATCH_INIT;
  torusmem_outcome said = torusmem_watch_begin(&w, &zero, 1);
  if (said.code != TORUSMEM_OK) {
    MUST(says(said, TORUSMEM_FAULT_MEMORY, 0) && !w.full && live == 0);
    return;
  }
  for (int event = 0; event < 4; event++) {
    for (int again = 0; again < 2; again++) {
      said = event < 2 ? issues(&w, (uint64_t)event, TORUSMEM_ADD, 0, 1)
                       : says_old(&w, (uint64_t)(3 - event), (uint64_t)(event - 2));
      if (said.code == TORUSMEM_OK) break;
      MUST(says(said, TORUSMEM_FAULT_MEMORY, 0) && refused != 0 && again == 0);
      refused = 0;
    }
    refused = kept;
    torusmem_watch fresh = TORUSMEM_WATCH_INIT;
    int64_t before = live;
    said = torusmem_watch_clone(&w, &fresh);
    MUST(fresh.full ? says(said, TORUSMEM_OK, 0) : says(said, TORUSMEM_FAULT_MEMORY, 0));
    torusmem_watch_end(&fresh);
    MUST(w.full && live == before);
    said = torusmem_watch_save(&w, written.bytes, MOST_BYTES);
    MUST(live == before && (said.code == TORUSMEM_OK || says(said, TORUSMEM_FAULT_MEMORY, 0)));
    if (said.code != TORUSMEM_OK) continue;
    said = torusmem_watch_restore(&fresh, written.bytes, (size_t)said.value);
    MUST(fresh.full ? said.code == TORUSMEM_OK : says(said, TORUSMEM_FAULT_MEMORY, 0));
    torusmem_watch_end(&fresh);
    MUST(live == before);
  }
  torusmem_watch_end(&w);
  MUST(!w.full && live == 0);
}

/* A log, the text of its models, and what is told where memory is refused. */
static void model_with_little_memory(void) {
  const torusmem_log_entry log[] = { makes(0, TORUSMEM_STORE, 0, 1), names(TORUSMEM_LOG_WROTE, 0, 0) };
  const char *text = "coherent yes\nfenced yes\npso yes\ntso yes\nsc yes\nan order of sc:\nline 1: 0 store 0 1\n";
  torusmem_models said = models_of(1, log, 2, 1, 200);
  if (said.code == TORUSMEM_OK) MUST(said.models == 31 && memcmp(written.bytes, text, (size_t)said.value) == 0);
  else MUST(said.code == TORUSMEM_FAULT_MEMORY && said.value + said.models == 0 && written.bytes[0] == 0xAA);
}

/* A run in which a request for memory may be refused: each call works or says so, and what is asked again once there
   is memory is as it has to be. */
static void run_with_little_memory(void) {
  torusmem_machine m = TORUSMEM_MACHINE_INIT;
  torusmem_channel route[14];
  torusmem_outcome said;
  explain_with_little_memory();
  MUST(live == 0);
  judge_with_little_memory();
  say_with_little_memory();
  MUST(live == 0);
  watch_with_little_memory();
  MUST(live == 0);
  model_with_little_memory();
  MUST(live == 0);
  said = load(&m);
  if (said.code != TORUSMEM_OK) {
    MUST(says(said, TORUSMEM_FAULT_MEMORY, 0) && is_new(&m) && live == 0);
    return;
  }
  MUST(says(torusmem_enabled(&m, 0, TORUSMEM_SEND, 0), TORUSMEM_OK, 1));
  MUST(torusmem_finish(&m).code == TORUSMEM_OK && says(torusmem_finished(&m), TORUSMEM_OK, 1));
  said = torusmem_report(&m, written.bytes, MOST_BYTES);
  if (said.code == TORUSMEM_OK) MUST(is_text(written.bytes, (size_t)said.value, &report_text));
  else MUST(says(said, TORUSMEM_FAULT_MEMORY, 0));
  said = torusmem_check(report_text.bytes, report_text.length);
  MUST(says(said, TORUSMEM_OK, 0) || says(said, TORUSMEM_FAULT_MEMORY, 0));
  said = torusmem_route(&m, 0, 1, 0, route, 14);
  MUST(says(said, TORUSMEM_OK, 3) || says(said, TORUSMEM_FAULT_MEMORY, 0));
  torusmem_ordered row = { 7, 7, 7, 7, 7, 7, 7 };
  said = torusmem_order(&m, (uint32_t)(torusmem_order(&m, 0, NULL, 0).value - 1), &row, 1);
  MUST(says(said, TORUSMEM_OK, 1) && row.answered > 0);
  torusmem_happened event = { 7, 7, row };
  said = torusmem_events(&m, 1, &event, 1);
  MUST(event.number == 7 && (said.code == TORUSMEM_SHORT || says(said, TORUSMEM_FAULT_MEMORY, 0)));
  torusmem_machine fresh = TORUSMEM_MACHINE_INIT;
  said = torusmem_reopen(&m, &fresh);
  MUST(fresh.full ? says(said, TORUSMEM_OK, 0) : says(said, TORUSMEM_FAULT_MEMORY, 0));
  torusmem_free(&fresh);
  uint64_t kept = refused;
  refused = 0;
  MUST(reports_well(&m) && says(torusmem_check(written.bytes, report_text.length), TORUSMEM_OK, 0));
  refused = kept;
  torusmem_free(&m);
  MUST(!m.full && live == 0);
}

static void memory(void) {
  refuse_each_request(run_with_little_memory);
}

/* The next number, below a limit, as in examples/golden/golden.c. */
static uint32_t drawn(uint64_t *state, uint32_t limit) {
  uint64_t z = *state += UINT64_C(0x9E3779B97F4A7C15);
  z = (z ^ (z >> 30)) * UINT64_C(0xBF58476D1CE4E5B9);
  z = (z ^ (z >> 27)) * UINT64_C(0x94D049BB133111EB);
  return (uint32_t)((z ^ (z >> 31)) % limit);
}

/* How often memory was asked for or given back. */
static uint64_t uses_of_memory(void) {
  return requests + given_back;
}

/* The row in one call, beside a call for each word. */
static void look_at_the_row(torusmem_machine *m) {
  static uint64_t row[MOST_ROW];
  uint64_t length = torusmem_rows(m, NULL, 0).value;
  uint32_t at;
  MUST(length > 0 && length < MOST_ROW);
  for (at = 0; at < MOST_ROW; at++) row[at] = 7;
  MUST(says(torusmem_rows(m, row, (size_t)length - 1), TORUSMEM_SHORT, length));
  for (at = 0; at < MOST_ROW; at++) MUST(row[at] == 7);
  MUST(says(torusmem_rows(m, row, MOST_ROW), TORUSMEM_OK, length));
  for (at = 0; at < length; at++) MUST(says(torusmem_row(m, at), TORUSMEM_OK, row[at]));
  for (; at < MOST_ROW; at++) MUST(row[at] == 7);
  MUST(says(torusmem_rows(m, row, (size_t)length), TORUSMEM_OK, length));
}

/* Looks at all that a machine tells. */
static void look(torusmem_machine *m) {
  uint32_t tiles = (uint32_t)torusmem_tiles(m).value, words = (uint32_t)torusmem_words(m).value, at;
  torusmem_channel route[10];
  for (at = 0; at < words; at++) MUST(torusmem_word(m, at).code == TORUSMEM_OK);
  look_at_the_row(m);
  for (uint32_t tile = 0; tile < tiles; tile++) {
    uint64_t answers = torusmem_answers(m, tile).value, entries = torusmem_entries(m, tile).value;
    for (at = 0; at <= answers; at++) MUST((torusmem_answer_at(m, tile, at).code == TORUSMEM_OK) == (at < answers));
    for (at = 0; at <= entries; at++) MUST((torusmem_entry_at(m, tile, at).code == TORUSMEM_OK) == (at < entries));
    MUST(torusmem_next(m, tile, 0, 0).code == TORUSMEM_OK);
    MUST(torusmem_route(m, tile, 0, TORUSMEM_REQUEST, route, 10).code == TORUSMEM_OK);
  }
}

/* The rows of the order from each number on: they are the order lines of the report, one by one, and fit exactly; once
   each operation is answered, the operation of a row is the one that was answered. */
static void orders(torusmem_machine *m) {
  enum { MOST_ROWS = 4096 };
  static torusmem_ordered rows[MOST_ROWS], rest[MOST_ROWS];
  static char line[128];
  uint64_t length = torusmem_report(m, written.bytes, MOST_BYTES - 1).value, count = 0, served = 0;
  written.bytes[length] = 0;
  MUST(length < MOST_BYTES);
  torusmem_outcome said = torusmem_order(m, 0, rows, MOST_ROWS);
  MUST(said.code == TORUSMEM_OK);
  for (char *at = strstr((char *)written.bytes, "\norder "); at != NULL; at = strstr(at + 1, "\norder ")) {
    const torusmem_ordered *row = &rows[count++];
    char answered[16] = "-";
    if (row->answered > 0) snprintf(answered, sizeof answered, "%" PRIu32, row->answered);
    snprintf(line, sizeof line, "\norder %" PRIu32 " %" PRIu32 " %" PRIu32 " %" PRIu32 " %s\n", row->bank, row->place, row->issued,
             row->served, answered);
    MUST(count <= said.value && strncmp(at, line, strlen(line)) == 0);
    MUST(row->issued > 0 && row->issued < row->served && row->served > served);
    served = row->served;
    torusmem_entry entry = torusmem_entry_at(m, row->bank, row->place);
    torusmem_answer answer = torusmem_answer_of(m, row->source, row->index);
    MUST(entry.code == TORUSMEM_OK && entry.source == row->source);
    MUST(answer.code == (row->answered > 0 ? TORUSMEM_OK : TORUSMEM_NOT_YET));
    MUST(row->answered == 0 || (answer.bank == row->bank && answer.place == row->place && answer.old == entry.old));
  }
  MUST(count == said.value);
  for (uint32_t from = 0; from <= count + 1; from += 1 + (uint32_t)count / 20) {
    size_t left = from < count ? (size_t)count - from : 0;
    memset(rest, 7, sizeof rest);
    if (left > 0) MUST(says(torusmem_order(m, from, rest, left - 1), TORUSMEM_SHORT, left) && rest[0].bank == 0x07070707);
    MUST(says(torusmem_order(m, from, rest, left + 1), TORUSMEM_OK, left) && rest[left].bank == 0x07070707);
    MUST(memcmp(rest, rows + from, left * sizeof *rest) == 0);
    MUST(says(torusmem_order(m, from, NULL, 0), left > 0 ? TORUSMEM_SHORT : TORUSMEM_OK, left));
  }
  MUST(says(torusmem_order(m, UINT32_MAX, rest, 1), TORUSMEM_OK, 0));
}

/* The events from each number on: those of the rows of the order, each once, by rising numbers. */
static void events(torusmem_machine *m) {
  enum { MOST_ROWS = 4096 };
  static torusmem_ordered rows[MOST_ROWS];
  static torusmem_happened all[3 * MOST_ROWS], rest[3 * MOST_ROWS];
  uint64_t count = torusmem_order(m, 0, rows, MOST_ROWS).value, wanted = 0;
  for (uint64_t row = 0; row < count; row++) wanted += rows[row].answered > 0 ? 3 : 2;
  MUST(says(torusmem_events(m, 0, all, 3 * MOST_ROWS), TORUSMEM_OK, wanted));
  for (uint64_t at = 0; at < wanted; at++) {
    const torusmem_happened *it = &all[at];
    const torusmem_ordered *row = &it->operation;
    MUST(at == 0 ? it->number > 0 : it->number > all[at - 1].number);
    MUST(it->what == TORUSMEM_ISSUED ? it->number == row->issued
                                     : it->number == (it->what == TORUSMEM_SERVED ? row->served : row->answered));
    bool found = false;
    for (uint64_t place = 0; place < count; place++) found |= memcmp(row, &rows[place], sizeof *row) == 0;
    MUST(it->what <= TORUSMEM_ANSWERED && found);
  }
  uint32_t last = wanted > 0 ? all[wanted - 1].number : 0;
  for (uint32_t from = 0; from <= last + 1; from += 1 + last / 20) {
    size_t left = 0;
    for (uint64_t at = 0; at < wanted; at++) left += all[at].number >= from;
    memset(rest, 7, sizeof rest);
    if (left > 0) MUST(says(torusmem_events(m, from, rest, left - 1), TORUSMEM_SHORT, left) && rest[0].what == 0x07070707);
    MUST(says(torusmem_events(m, from, rest, left + 1), TORUSMEM_OK, left) && rest[left].what == 0x07070707);
    MUST(memcmp(rest, all + (wanted - left), left * sizeof *rest) == 0);
    MUST(says(torusmem_events(m, from, NULL, 0), left > 0 ? TORUSMEM_SHORT : TORUSMEM_OK, left));
  }
  MUST(says(torusmem_events(m, UINT32_MAX, rest, 1), TORUSMEM_OK, 0));
  for (uint32_t first = 0; first <= count + 1; first += 1 + (uint32_t)count / 20) {
    uint32_t from = all[wanted / 2].number, answered = first;
    while (answered < count && rows[answered].answered > 0) answered++;
    MUST(says(torusmem_answered_to(m, first), TORUSMEM_OK, answered));
    uint64_t left = 0;
    for (uint64_t at = wanted / 2; at < wanted; at++)
      if (all[at].operation.served >= (first < count ? rows[first].served : UINT32_MAX)) all[left++] = all[at];
    MUST(says(torusmem_events_from(m, first, from, rest, 3 * MOST_ROWS), TORUSMEM_OK, left));
    MUST(memcmp(rest, all, left * sizeof *rest) == 0);
    if (left > 0) MUST(says(torusmem_events_from(m, first, from, rest, left - 1), TORUSMEM_SHORT, left));
    MUST(says(torusmem_events(m, 0, all, 3 * MOST_ROWS), TORUSMEM_OK, wanted));
  }
  MUST(says(torusmem_answered_to(m, UINT32_MAX), TORUSMEM_OK, UINT32_MAX));
  MUST(says(torusmem_events_from(m, UINT32_MAX, 0, NULL, 0), TORUSMEM_OK, 0));
}

/* The report and its check ask for memory, and give all of it back. */
static void report_keeps_nothing(torusmem_machine *m) {
  int64_t before = live;
  uint64_t asked = requests;
  torusmem_outcome said = torusmem_report(m, written.bytes, MOST_BYTES);
  MUST(said.code == TORUSMEM_OK && requests > asked && live == before);
  asked = requests;
  MUST(says(torusmem_check(written.bytes, (size_t)said.value), TORUSMEM_OK, 0) && requests > asked && live == before);
  MUST(torusmem_report(m, written.bytes, 0).code == TORUSMEM_SHORT && live == before);
}

/* The same drawn steps by lists of a hundred: as many moves, and the same report. */
static void lists(const torusmem_attempt *made, int count, uint64_t moves, const text *report) {
  torusmem_machine m = TORUSMEM_MACHINE_INIT;
  uint64_t listed = 0, before;
  MUST(says(load(&m), TORUSMEM_OK, 0));
  before = uses_of_memory();
  for (int at = 0; at < count; at += 100) {
    int part = count - at < 100 ? count - at : 100;
    torusmem_outcome said = torusmem_run(&m, made + at, (size_t)part);
    MUST(said.code == TORUSMEM_OK);
    listed += said.value;
  }
  MUST(listed == moves && uses_of_memory() == before);
  MUST(says(torusmem_report(&m, written.bytes, MOST_BYTES), TORUSMEM_OK, report->length));
  MUST(memcmp(written.bytes, report->bytes, report->length) == 0);
  torusmem_free(&m);
  MUST(!m.full && live == 0);
}

/* A run in four ways: drawn steps, then rounds to the end; the same steps by lists; and all rounds at once. */
static void steps(void) {
  static torusmem_attempt made[DRAWS];
  static text report;
  torusmem_machine m = TORUSMEM_MACHINE_INIT;
  uint64_t state = 1, before, moves = 0;
  int count = 0;
  MUST(says(load(&m), TORUSMEM_OK, 0));
  uint32_t agents = 3 * (uint32_t)torusmem_tiles(&m).value;
  before = uses_of_memory();
  for (int draw = 0; draw < DRAWS; draw++) {
    uint32_t agent = drawn(&state, agents), choice = drawn(&state, TORUSMEM_LOOK + 1), number = drawn(&state, 26);
    torusmem_outcome enabled = torusmem_enabled(&m, agent, choice, number);
    MUST(says(torusmem_step(&m, agent, choice, number), enabled.code, enabled.value));
    if (enabled.code == TORUSMEM_OK) made[count++] = (torusmem_attempt){ agent, choice, number };
    moves += enabled.value;
    if (draw % 1000 == 0) look(&m);
  }
  MUST(moves > 0 && uses_of_memory() == before);
  report_keeps_nothing(&m);
  orders(&m), events(&m);
  report.length = (size_t)torusmem_report(&m, report.bytes, MOST_BYTES).value;
  before = uses_of_memory();
  while (torusmem_finished(&m).value == 0 && torusmem_moves_left(&m).value > 0) torusmem_round(&m);
  look(&m);
  MUST(says(torusmem_finished(&m), TORUSMEM_OK, 1) && uses_of_memory() == before);
  report_keeps_nothing(&m);
  orders(&m), events(&m);
  torusmem_free(&m);
  MUST(!m.full && live == 0);
  lists(made, count, moves, &report);
  MUST(says(load(&m), TORUSMEM_OK, 0));
  before = uses_of_memory();
  MUST(torusmem_finish(&m).code == TORUSMEM_OK && uses_of_memory() == before);
  look(&m);
  MUST(uses_of_memory() == before);
  torusmem_free(&m);
  MUST(says(load(&m), TORUSMEM_OK, 0));
  before = uses_of_memory();
  MUST(says(torusmem_clocked_round(&m, 0), TORUSMEM_OK, 0) && uses_of_memory() == before);
  MUST(torusmem_finish_clocked(&m).code == TORUSMEM_OK && uses_of_memory() == before);
  torusmem_free(&m);
  MUST(says(load(&m), TORUSMEM_OK, 0));
  before = uses_of_memory();
  MUST(says(torusmem_fair_round(&m), TORUSMEM_OK, 0) && uses_of_memory() == before);
  MUST(torusmem_fair_rounds(&m, UINT64_MAX).code == TORUSMEM_OK && uses_of_memory() == before);
  torusmem_free(&m);
  MUST(!m.full && live == 0);
}

static void finish(void) {
  torusmem_machine m = TORUSMEM_MACHINE_INIT;
  MUST(says(load(&m), TORUSMEM_OK, 0) && torusmem_finish(&m).code == TORUSMEM_OK);
  torusmem_outcome said = torusmem_report(&m, written.bytes, MOST_BYTES);
  MUST(said.code == TORUSMEM_OK && fwrite(written.bytes, 1, (size_t)said.value, stdout) == said.value);
  torusmem_free(&m);
}

int main(int count, char **words) {
  if (count < 4) return 2;
  read_text(words[2], &machine_text);
  read_text(words[3], &script_text);
  if (count > 4) read_text(words[4], &report_text);
  requests = 0;
  live = 0;
  if (strcmp(words[1], "finish") == 0) finish();
  else if (strcmp(words[1], "codes") == 0) codes();
  else if (strcmp(words[1], "memory") == 0) memory();
  else if (strcmp(words[1], "steps") == 0) steps();
  else return 2;
  return wrongs == 0 ? 0 : 1;
}
