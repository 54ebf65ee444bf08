/* What torusmem.sv imports: calls of torusmem.h for SystemVerilog, which has no structs by value and no pointers to room.
   A handle is a machine or a watch on the heap, null where it can't be made. */
#include <stdio.h>
#include <stdlib.h>
#include <string.h>
#include "torusmem.h"

enum { CONFIGURATIONS = 1000000 };

void *torusmem_dpi_open(const char *machine, const char *scripts);
void *torusmem_dpi_open_recorded(const char *machine, const char *scripts);
int torusmem_dpi_save(void *m, const char *file);
void *torusmem_dpi_restore(const char *file);
void *torusmem_dpi_clone(void *m);
void *torusmem_dpi_reopen(void *m);
void torusmem_dpi_close(void *m);
int torusmem_dpi_ask(void *m, uint32_t processor, uint32_t operation, uint32_t address, uint64_t first, uint64_t second);
void torusmem_dpi_round(void *m);
int torusmem_dpi_fair_round(void *m);
int torusmem_dpi_answer(void *m, uint32_t processor, uint32_t index, uint64_t *old);
uint64_t torusmem_dpi_word(void *m, uint32_t address);
void *torusmem_dpi_watch(uint32_t words);
int torusmem_dpi_watch_save(void *w, const char *file);
void *torusmem_dpi_watch_restore(const char *file, uint64_t *next);
void *torusmem_dpi_watch_clone(void *w);
void torusmem_dpi_unwatch(void *w);
int torusmem_dpi_issued(void *w, uint64_t number, uint32_t operation, uint32_t address, uint64_t first, uint64_t second);
int torusmem_dpi_answered(void *w, uint64_t number, uint32_t has_old, uint64_t old);
const char *torusmem_dpi_text(int code);

/* A code as a negative number, which no value is. */
static int refused(torusmem_outcome said) { return -(int)said.code; }

static const uint8_t *bytes(const char *text) { return (const uint8_t *)text; }

/* Writes bytes into a file: 0, or -TORUSMEM_NONE where that can't be done. */
static int written(const uint8_t *at, size_t length, const char *file) {
  FILE *out = fopen(file, "wb");
  bool is_there = out && fwrite(at, 1, length, out) == length;
  return out && fclose(out) == 0 && is_there ? 0 : -TORUSMEM_NONE;
}

/* The bytes of a file, on the heap, and how many; null where there are none. */
static uint8_t *read_from(const char *file, size_t *length) {
  FILE *in = fopen(file, "rb");
  long size = in && fseek(in, 0, SEEK_END) == 0 ? ftell(in) : -1;
  uint8_t *at = size >= 0 && fseek(in, 0, SEEK_SET) == 0 ? malloc((size_t)size + 1) : NULL;
  bool is_read = at && fread(at, 1, (size_t)size, in) == (size_t)size;
  if (in) fclose(in);
  *length = is_read ? (size_t)size : 0;
  if (is_read) return at;
  free(at);
  return NULL;
}

/* What a call filled, or null; whatever it holds otherwise is freed. */
static void *kept(torusmem_machine *m, torusmem_outcome said) {
  if (said.code == TORUSMEM_OK) return m;
  free(m);
  return NULL;
}

static void *opened(const char *machine, const char *scripts, bool is_recorded) {
  torusmem_machine *m = calloc(1, sizeof *m);
  uint8_t why[256];
  if (!m) return NULL;
  if ((is_recorded ? torusmem_load_recorded(m, bytes(machine), strlen(machine), bytes(scripts), strlen(scripts))
                   : torusmem_load(m, bytes(machine), strlen(machine), bytes(scripts), strlen(scripts))).code == TORUSMEM_OK)
    return m;
  torusmem_explanation said =
      torusmem_explain(bytes(machine), strlen(machine), bytes(scripts), strlen(scripts), why, sizeof why);
  fprintf(stderr, "%.*s\n", said.code == TORUSMEM_OK ? (int)said.length : 0, (const char *)why);
  free(m);
  return NULL;
}

void *torusmem_dpi_open(const char *machine, const char *scripts) { return opened(machine, scripts, false); }

void *torusmem_dpi_open_recorded(const char *machine, const char *scripts) { return opened(machine, scripts, true); }

int torusmem_dpi_save(void *m, const char *file) {
  torusmem_outcome said = torusmem_save(m, NULL, 0);
  if (said.code != TORUSMEM_SHORT) return refused(said);
  uint8_t *at = malloc((size_t)said.value);
  said = at ? torusmem_save(m, at, (size_t)said.value) : said;
  int code = said.code == TORUSMEM_OK ? written(at, (size_t)said.value, file) : refused(said);
  free(at);
  return code;
}

void *torusmem_dpi_restore(const char *file) {
  size_t length;
  uint8_t *at = read_from(file, &length);
  torusmem_machine *m = at ? calloc(1, sizeof *m) : NULL;
  void *made = m ? kept(m, torusmem_restore(m, at, length)) : NULL;
  free(at);
  return made;
}

void *torusmem_dpi_clone(void *m) {
  torusmem_machine *fresh = calloc(1, sizeof *fresh);
  return fresh ? kept(fresh, torusmem_clone(m, fresh)) : NULL;
}

void *torusmem_dpi_reopen(void *m) {
  torusmem_machine *fresh = calloc(1, sizeof *fresh);
  return fresh ? kept(fresh, torusmem_reopen(m, fresh)) : NULL;
}

void torusmem_dpi_close(void *m) {
  torusmem_free(m);
  free(m);
}

int torusmem_dpi_ask(void *m, uint32_t processor, uint32_t operation, uint32_t address, uint64_t first, uint64_t second) {
  torusmem_outcome said = torusmem_ask(m, processor, operation, address, first, second, 0);
  return said.code == TORUSMEM_OK ? (int)said.value : refused(said);
}

void torusmem_dpi_round(void *m) { torusmem_round(m); }

/* 1: the guard held back what would have begun; 0: it didn't. */
int torusmem_dpi_fair_round(void *m) { return (int)torusmem_fair_round(m).value; }

/* 1: answered; 0: not yet. */
int torusmem_dpi_answer(void *m, uint32_t processor, uint32_t index, uint64_t *old) {
  torusmem_answer found = torusmem_answer_of(m, processor, index);
  *old = found.old;
  if (found.code == TORUSMEM_OK) return 1;
  return found.code == TORUSMEM_NOT_YET ? 0 : -(int)found.code;
}

uint64_t torusmem_dpi_word(void *m, uint32_t address) { return torusmem_word(m, address).value; }

void *torusmem_dpi_watch(uint32_t words) {
  torusmem_watch *w = calloc(1, sizeof *w);
  uint64_t *opening = calloc(words > 0 ? words : 1, sizeof *opening);
  bool is_begun = w && opening && torusmem_watch_begin(w, opening, words).code == TORUSMEM_OK;
  free(opening);
  if (is_begun) return w;
  free(w);
  return NULL;
}

int torusmem_dpi_watch_save(void *w, const char *file) {
  torusmem_outcome said = torusmem_watch_save(w, NULL, 0);
  if (said.code != TORUSMEM_SHORT) return refused(said);
  uint8_t *at = malloc((size_t)said.value);
  said = at ? torusmem_watch_save(w, at, (size_t)said.value) : said;
  int code = said.code == TORUSMEM_OK ? written(at, (size_t)said.value, file) : refused(said);
  free(at);
  return code;
}

void *torusmem_dpi_watch_restore(const char *file, uint64_t *next) {
  size_t length;
  uint8_t *at = read_from(file, &length);
  torusmem_watch *w = at ? calloc(1, sizeof *w) : NULL;
  torusmem_outcome said = { TORUSMEM_NONE, 0 };
  if (w) said = torusmem_watch_restore(w, at, length);
  free(at);
  *next = said.value;
  if (said.code == TORUSMEM_OK) return w;
  free(w);
  return NULL;
}

void *torusmem_dpi_watch_clone(void *w) {
  torusmem_watch *fresh = calloc(1, sizeof *fresh);
  if (fresh && torusmem_watch_clone(w, fresh).code == TORUSMEM_OK) return fresh;
  free(fresh);
  return NULL;
}

void torusmem_dpi_unwatch(void *w) {
  torusmem_watch_end(w);
  free(w);
}

int torusmem_dpi_issued(void *w, uint64_t number, uint32_t operation, uint32_t address, uint64_t first, uint64_t second) {
  return refused(torusmem_watch_issue(w, number, operation, address, first, second));
}

int torusmem_dpi_answered(void *w, uint64_t number, uint32_t has_old, uint64_t old) {
  return refused(torusmem_watch_answer(w, number, has_old, old, CONFIGURATIONS));
}

const char *torusmem_dpi_text(int code) { return torusmem_code_text((uint32_t)-code); }
