/* Saves and restores machines for `checks/library`, and prints a line for each thing that is wrong:

     library_records MACHINE SCRIPT        records of a run by drawn moves, lines that come later, and rounds, and of
                                           machines that are opened by numbers: at each point the bytes make a machine
                                           that shows and does the same, and so does a clone; and which bytes make none
     library_records memory MACHINE SCRIPT the same in short, with the n-th request for memory refused, for each n

   It is linked with -Wl,--wrap=malloc,--wrap=realloc,--wrap=free. */
#include "library_memory.h"

enum { MOST_RECORD = 1 << 16, MOST_ROW = 79873, DRAWS = 3000 };

static torusmem_outcome load(torusmem_machine *m) {
  return torusmem_load_recorded(m, machine_text.bytes, machine_text.length, script_text.bytes, script_text.length);
}

/* The next number, below a limit, as in examples/golden/golden.c. */
static uint32_t drawn(uint64_t *state, uint32_t limit) {
  uint64_t z = *state += UINT64_C(0x9E3779B97F4A7C15);
  z = (z ^ (z >> 30)) * UINT64_C(0xBF58476D1CE4E5B9);
  z = (z ^ (z >> 27)) * UINT64_C(0x94D049BB133111EB);
  return (uint32_t)((z ^ (z >> 31)) % limit);
}

static void read_report(torusmem_machine *m, text *read) {
  torusmem_outcome said = torusmem_report(m, read->bytes, MOST_BYTES);
  MUST(said.code == TORUSMEM_OK);
  read->length = (size_t)said.value;
}

/* Whether two machines show the same: report, row of words, and moves that are left. */
static bool show_the_same(torusmem_machine *one, torusmem_machine *other) {
  static text first, second;
  static uint64_t row[MOST_ROW], words[MOST_ROW];
  read_report(one, &first), read_report(other, &second);
  uint64_t count = torusmem_rows(one, row, MOST_ROW).value;
  return first.length == second.length && memcmp(first.bytes, second.bytes, first.length) == 0 &&
         says(torusmem_rows(other, words, MOST_ROW), TORUSMEM_OK, count) && memcmp(row, words, (size_t)count * 8) == 0 &&
         says(torusmem_moves_left(other), TORUSMEM_OK, torusmem_moves_left(one).value);
}

/* Whether drawn attempts and then all rounds do the same to two machines. */
static bool do_the_same(torusmem_machine *one, torusmem_machine *other, uint64_t state) {
  uint32_t agents = 3 * (uint32_t)torusmem_tiles(one).value;
  for (int draw = 0; draw < 300; draw++) {
    uint32_t agent = drawn(&state, agents), choice = drawn(&state, TORUSMEM_LOOK + 1), number = drawn(&state, 26);
    torusmem_outcome said = torusmem_step(one, agent, choice, number);
    if (!says(torusmem_step(other, agent, choice, number), said.code, said.value)) return false;
  }
  torusmem_outcome said = torusmem_finish(one);
  return says(torusmem_finish(other), said.code, said.value) && show_the_same(one, other);
}

/* The bytes of a machine's record. */
static uint8_t bytes[MOST_RECORD], again[MOST_RECORD];
static size_t saved(torusmem_machine *m, uint8_t *out) {
  torusmem_outcome said = torusmem_save(m, NULL, 0);
  MUST(said.code == TORUSMEM_SHORT && said.value <= MOST_RECORD);
  memset(out, 7, MOST_RECORD);
  MUST(said.value == 0 || says(torusmem_save(m, out, (size_t)said.value - 1), TORUSMEM_SHORT, said.value));
  MUST(out[0] == 7 && out[(size_t)said.value - 1] == 7);
  MUST(says(torusmem_save(m, out, MOST_RECORD), TORUSMEM_OK, said.value));
  MUST((size_t)said.value == MOST_RECORD || out[(size_t)said.value] == 7);
  return (size_t)said.value;
}

/* What bytes and a clone make now. */
static void made_again(torusmem_machine *m, uint64_t state) {
  torusmem_machine one = TORUSMEM_MACHINE_INIT, other = TORUSMEM_MACHINE_INIT;
  size_t length = saved(m, bytes);
  MUST(says(torusmem_restore(&one, bytes, length), TORUSMEM_OK, 0) && show_the_same(m, &one));
  MUST(says(torusmem_restore(&one, bytes, length), TORUSMEM_FULL, 0));
  MUST(says(torusmem_clone(m, &one), TORUSMEM_FULL, 0) && saved(&one, again) == length);
  MUST(memcmp(bytes, again, length) == 0);
  MUST(says(torusmem_clone(m, &other), TORUSMEM_OK, 0) && show_the_same(m, &other));
  MUST(saved(&other, again) == length && memcmp(bytes, again, length) == 0 && do_the_same(&one, &other, state));
  torusmem_free(&one), torusmem_free(&other);
}

static void put_number(uint8_t *at, uint64_t number, int count) {
  for (int k = 0; k < count; k++) at[k] = (uint8_t)(number >> 8 * k);
}

static torusmem_outcome restored(const uint8_t *from, size_t length) {
  torusmem_machine m = TORUSMEM_MACHINE_INIT;
  int64_t before = live;
  torusmem_outcome said = torusmem_restore(&m, from, length);
  MUST((said.code == TORUSMEM_OK) == m.full);
  torusmem_free(&m);
  MUST(live == before);
  return said;
}

/* Puts behind bytes their checksum: their sum, and the sum of the sums of their beginnings, each modulo 2^32. */
static void seal(uint8_t *out, size_t length) {
  uint64_t sum = 0, sums = 0;
  for (size_t at = 0; at < length - 8; at++) sum = (sum + out[at]) % (UINT64_C(1) << 32), sums = (sums + sum) % (UINT64_C(1) << 32);
  put_number(out + length - 8, sums << 32 | sum, 8);
}

/* What these bytes come to with their checksum, and the same bytes as a record of the first version, which has none. */
static torusmem_outcome sealed(uint8_t *out, size_t length) {
  seal(out, length);
  torusmem_outcome said = restored(out, length);
  out[8] = 1;
  MUST(says(restored(out, length - 8), said.code, said.value));
  out[8] = 2;
  return said;
}

/* Bytes that make no machine: cut, with bytes behind, with one bit changed, of another mark or version, with a fault of a
   text, and with actions that can't be done. */
static void bytes_that_make_none(void) {
  torusmem_machine m = TORUSMEM_MACHINE_INIT;
  static const uint8_t machine[] = "radix 2\ndims 1\ndepth 4\ntags 4\nwords 8\n", script[] = "0 store 5 17\n";
  MUST(says(torusmem_load_recorded(&m, machine, sizeof machine - 1, script, sizeof script - 1), TORUSMEM_OK, 0));
  MUST(says(torusmem_step(&m, 0, TORUSMEM_SEND, 0), TORUSMEM_OK, 1));
  MUST(says(torusmem_step(&m, 5, TORUSMEM_SERVE, 0), TORUSMEM_OK, 0));
  MUST(says(torusmem_append(&m, 1, TORUSMEM_CAS, 7, 1, UINT64_MAX, TORUSMEM_FIRST_IS_LAST), TORUSMEM_FAULT_LAST, 0));
  MUST(says(torusmem_append(&m, 1, TORUSMEM_STORE, 7, UINT64_MAX, 0, 0), TORUSMEM_OK, 0));
  MUST(says(torusmem_append(&m, 1, TORUSMEM_SPIN, 7, 3, 4000, 0), TORUSMEM_OK, 0));
  for (int made = 0; made < 1000; made++) MUST(says(torusmem_round(&m), TORUSMEM_OK, 0));
  size_t length = saved(&m, bytes), texts = sizeof machine + sizeof script - 2, rows = 48 + texts, acts = rows + 64;
  torusmem_free(&m);
  /* A send, two lines and the rounds: four actions, of which an attempt that didn't move and a line that was refused are none. */
  MUST(length == acts + 16 + 8 && memcmp(bytes, "torusmem", 8) == 0 && says(restored(bytes, length), TORUSMEM_OK, 0));
  memcpy(again, bytes, length);
  MUST(says(sealed(again, length), TORUSMEM_OK, 0) && memcmp(again, bytes, length) == 0);
  for (size_t cut = 0; cut < length; cut++) MUST(says(restored(bytes, cut), TORUSMEM_BAD_RECORD, cut < 16 ? cut : cut - 8));
  for (size_t bit = 0; bit < 8 * length; bit++) {
    again[bit / 8] ^= (uint8_t)(1u << bit % 8);
    MUST(restored(again, length).code == TORUSMEM_BAD_RECORD);
    again[bit / 8] ^= (uint8_t)(1u << bit % 8);
  }
  again[length] = 0;
  MUST(says(restored(again, length + 1), TORUSMEM_BAD_RECORD, length - 7));
  again[0] = 'T';
  MUST(says(sealed(again, length), TORUSMEM_BAD_RECORD, 0));
  again[0] = 't', again[8] = 3;
  MUST(says(restored(again, length), TORUSMEM_BAD_RECORD, 8));
  again[8] = 2, again[48] = 'R';
  MUST(says(sealed(again, length), TORUSMEM_FAULT_LINE, 1));
  memcpy(again, bytes, length);
  put_number(again + acts, 6, 4);
  MUST(says(sealed(again, length), TORUSMEM_BAD_ACTION, 0));
  put_number(again + acts, 15, 4);
  MUST(says(sealed(again, length), TORUSMEM_BAD_ACTION, 0));
  memcpy(again, bytes, length);
  put_number(again + acts + 8, 16 * 2 + 10, 4);
  MUST(says(sealed(again, length), TORUSMEM_BAD_ACTION, 2));
  memcpy(again, bytes, length);
  put_number(again + rows + 4, 12, 4);
  MUST(says(sealed(again, length), TORUSMEM_BAD_ACTION, 1));
  memcpy(again, bytes, length);
  put_number(again + rows + 32, 2, 4);
  MUST(says(sealed(again, length), TORUSMEM_BAD_ACTION, 2));
  memset(again + 16, 255, 32);
  MUST(says(sealed(again, length), TORUSMEM_BAD_RECORD, length - 8));
}

/* Of machines that keep no record, and of handles without a machine. */
static void without_a_record(void) {
  torusmem_machine m = TORUSMEM_MACHINE_INIT, fresh = TORUSMEM_MACHINE_INIT;
  uint8_t byte = 7;
  MUST(says(torusmem_save(&m, &byte, 1), TORUSMEM_EMPTY, 0) && byte == 7);
  MUST(says(torusmem_clone(&m, &fresh), TORUSMEM_EMPTY, 0) && !fresh.full);
  MUST(says(torusmem_load(&m, machine_text.bytes, machine_text.length, NULL, 0), TORUSMEM_OK, 0));
  MUST(says(load(&m), TORUSMEM_FULL, 0));
  MUST(says(torusmem_save(&m, &byte, 1), TORUSMEM_NO_RECORD, 0) && byte == 7);
  MUST(says(torusmem_clone(&m, &fresh), TORUSMEM_NO_RECORD, 0) && !fresh.full);
  torusmem_free(&m);
  MUST(says(torusmem_load_recorded(&m, (const uint8_t *)"radix 9\n", 8, NULL, 0), TORUSMEM_FAULT_RADIX, 1) && !m.full);
  MUST(live == 0);
}

static void points_of_a_run(void) {
  torusmem_machine m = TORUSMEM_MACHINE_INIT;
  torusmem_outcome said;
  uint64_t state = 1;
  MUST(says(load(&m), TORUSMEM_OK, 0));
  made_again(&m, 1);
  uint32_t agents = 3 * (uint32_t)torusmem_tiles(&m).value;
  for (int draw = 0; draw < DRAWS; draw++) {
    uint32_t agent = drawn(&state, agents), choice = drawn(&state, TORUSMEM_LOOK + 1), number = drawn(&state, 26);
    torusmem_attempt attempt = { agent, choice, number };
    if (draw % 2 == 0) (void)torusmem_step(&m, agent, choice, number);
    else (void)torusmem_run(&m, &attempt, 1);
    if (draw % 500 == 0) made_again(&m, state);
    if (draw == 700) MUST(torusmem_append(&m, 0, TORUSMEM_FENCE, 0, 0, 0, 0).code == TORUSMEM_OK);
    if (draw == 1400) MUST(torusmem_append(&m, 1, TORUSMEM_ADD, 1, 5, 0, 0).code == TORUSMEM_OK);
    if (draw == 2100) MUST(says(torusmem_round(&m), TORUSMEM_OK, 0));
    if (draw % 1000 == 499) MUST(says(torusmem_clocked_round(&m, UINT64_MAX - (uint64_t)draw), TORUSMEM_OK, 0));
  }
  made_again(&m, state);
  MUST(torusmem_finish(&m).code == TORUSMEM_OK);
  made_again(&m, state);
  MUST(torusmem_append(&m, 0, TORUSMEM_CAS, 1, 5, 6, 0).code == TORUSMEM_OK && torusmem_finish(&m).code == TORUSMEM_OK);
  made_again(&m, state);
  MUST(torusmem_append(&m, 1, TORUSMEM_SWAP, 1, 7, 0, 0).code == TORUSMEM_OK);
  said = torusmem_finish_clocked(&m);
  MUST(said.code == TORUSMEM_OK && said.value > 0);
  made_again(&m, state);
  torusmem_free(&m);
  MUST(live == 0);
}

/* A machine that is opened by numbers, with words up to the greatest. */
static void opened_by_numbers(void) {
  static const struct torusmem_shape shape = { 2, { 2, 3, 0 }, { 1, 2, 0 }, 2, 3, 9, 0, 0 };
  static const uint64_t words[9] = { 0, 1, UINT64_MAX, 0, 10, 0, 0, 0, UINT64_C(1) << 63 };
  torusmem_machine m = TORUSMEM_MACHINE_INIT;
  for (size_t given = 0; given <= 9; given += 3) {
    MUST(says(torusmem_open_recorded(&m, &shape, words, given), TORUSMEM_OK, 0));
    made_again(&m, given);
    MUST(says(torusmem_ask(&m, 5, TORUSMEM_XOR, 2, 7, 0, 0), TORUSMEM_OK, 0) && says(torusmem_round(&m), TORUSMEM_OK, 0));
    made_again(&m, given);
    MUST(torusmem_finish(&m).code == TORUSMEM_OK && says(torusmem_word(&m, 2), TORUSMEM_OK, given > 2 ? ~UINT64_C(7) : 7));
    made_again(&m, given);
    torusmem_free(&m);
  }
  MUST(live == 0);
}

/* Each call works or says that memory was refused; where that is refused to the record, the machine goes on without it. */
static void with_little_memory(void) {
  torusmem_machine m = TORUSMEM_MACHINE_INIT, fresh = TORUSMEM_MACHINE_INIT;
  torusmem_outcome said = load(&m);
  if (said.code != TORUSMEM_OK) {
    MUST(says(said, TORUSMEM_FAULT_MEMORY, 0) && !m.full && live == 0);
    return;
  }
  MUST(says(torusmem_step(&m, 0, TORUSMEM_SEND, 0), TORUSMEM_OK, 1) && says(torusmem_round(&m), TORUSMEM_OK, 0));
  said = torusmem_append(&m, 1, TORUSMEM_ADD, 1, 5, 0, 0);
  MUST(says(said, TORUSMEM_OK, 0) || says(said, TORUSMEM_FAULT_MEMORY, 0));
  MUST(torusmem_finish(&m).code == TORUSMEM_OK && says(torusmem_finished(&m), TORUSMEM_OK, 1));
  said = torusmem_clone(&m, &fresh);
  MUST(said.code == TORUSMEM_OK ? fresh.full : !fresh.full && (says(said, TORUSMEM_NO_RECORD, 0) || says(said, TORUSMEM_FAULT_MEMORY, 0)));
  torusmem_free(&fresh);
  said = torusmem_save(&m, bytes, MOST_RECORD);
  if (said.code == TORUSMEM_OK) {
    size_t length = (size_t)said.value;
    said = torusmem_restore(&fresh, bytes, length);
    MUST(said.code == TORUSMEM_OK ? fresh.full : !fresh.full && says(said, TORUSMEM_FAULT_MEMORY, 0));
    uint64_t kept = refused;
    refused = 0;
    if (fresh.full) MUST(show_the_same(&m, &fresh));
    refused = kept;
    torusmem_free(&fresh);
  } else {
    MUST(says(said, TORUSMEM_NO_RECORD, 0) || says(said, TORUSMEM_FAULT_MEMORY, 0));
  }
  torusmem_free(&m);
  MUST(live == 0);
  static const struct torusmem_shape shape = { 1, { 2, 0, 0 }, { 1, 0, 0 }, 4, 4, 8, 0, 0 };
  static const uint64_t word = 17;
  said = torusmem_open_recorded(&m, &shape, &word, 1);
  MUST(m.full ? says(said, TORUSMEM_OK, 0) && says(torusmem_word(&m, 0), TORUSMEM_OK, 17) : says(said, TORUSMEM_FAULT_MEMORY, 0) && live == 0);
  torusmem_free(&m);
  MUST(live == 0);
}

static void memory(void) {
  refuse_each_request(with_little_memory);
}

int main(int count, char **words) {
  bool is_memory = count == 4 && strcmp(words[1], "memory") == 0;
  if (count != 3 && !is_memory) return 2;
  read_text(words[count - 2], &machine_text);
  read_text(words[count - 1], &script_text);
  requests = 0;
  live = 0;
  if (is_memory) {
    memory();
  } else {
    without_a_record();
    bytes_that_make_none();
    opened_by_numbers();
    points_of_a_run();
  }
  return wrongs == 0 ? 0 : 1;
}
