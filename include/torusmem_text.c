/* What codes say, why a line is refused, and the version: link it beside torusmem_heap.c. It compiles as C and as C++.
   `packaging/codes text` writes it, of docs/FORMATS.md and of the proved crate's own words. */
#include "torusmem.h"
#include <inttypes.h>
#include <stdio.h>

static const char *const texts[] = {
  "the call did what it is for",
  "a radix is not 2 to 8",
  "the number of dimensions is not 1 to 3",
  "more than 64 tiles",
  "a line is not understood",
  "a setting is missing or given twice",
  "a number is out of its range",
  "an address is not below the number of words",
  "a processor is not below the number of tiles",
  "a script is too long, or all together are",
  "`last` in the first operation of a script",
  "a step names no agent, no channel, or a choice that its agent doesn't have",
  "a request for memory was refused",
  "a list has not one number for each dimension",
  "a dateline is not below its radix",
  "a report breaks a rule",
  "the handle holds no machine",
  "the handle holds a machine already",
  "there is no such agent, choice, tile, address, place or index",
  "the buffer is too short",
  "a pair of a network has no route",
  "a network's channels wait for one another in a circle",
  "no order explains a trace",
  "a word of a trace has more configurations than were allowed",
  "more operations of a trace are open on one word than are looked at",
  "the script of a processor has a spin, so that the index of what is asked behind it isn't known",
  "the operation isn't answered yet",
  "the machine keeps no record of what is done to it",
  "bytes are no record",
  "an action of a record can't be done",
  "a reply of a log isn't what its operation does to the word that it finds",
  "a network has no source-destination pair",
  "the numbers of a network's channels don't rise",
  "a reply of a log is what no write of its word left",
  "two atomics of a log found what only one write of their word left",
  "more states are reached than a search was allowed",
  "no run of any schedule has these replies",
  "the scripts have more operations than a search takes",
  "a word of an answer is no reply",
  "the scripts have other numbers of replies than an answer",
};

const char *torusmem_code_text(uint32_t code) {
  return code < sizeof texts / sizeof *texts ? texts[code] : "a code that this version doesn't know";
}

#if defined(__GNUC__)
/* What a library that is compiled without proofs says of itself; no other has it. */
extern const char torusmem_unproved[] __attribute__((weak));
#define IS_UNPROVED (torusmem_unproved != NULL)
#else
#define IS_UNPROVED false
#endif

const char *torusmem_version(void) { return IS_UNPROVED ? TORUSMEM_VERSION "-unproved" : TORUSMEM_VERSION; }

/* How many operations the script of a processor makes: an index below that has an answer, or will have one. */
static uint32_t operations_of(torusmem_machine *m, uint32_t processor) {
  uint32_t least = 0, most = 4096;
  while (least < most) {
    uint32_t middle = (least + most) / 2;
    if (torusmem_answer_of(m, processor, middle).code == TORUSMEM_NONE) most = middle;
    else least = middle + 1;
  }
  return least;
}

/* The sentence on a line whose operations are too many. */
static int say_length(torusmem_machine *m, uint32_t tiles, uint32_t processor, uint64_t more, char *out, size_t room) {
  uint64_t own = operations_of(m, processor) + more, all = more;
  if (own > 4096)
    return snprintf(out, room, "%" PRIu64 " operations of processor %" PRIu32 ": a script has at most 4096", own,
                    processor);
  for (uint32_t it = 0; it < tiles; it++) all += operations_of(m, it);
  return snprintf(out, room, "%" PRIu64 " operations: all scripts together have at most 65536", all);
}

/* The sentences are those of crates/sentences. The name stands in brackets, as a debug build has a macro of this name. */
size_t (torusmem_explain_line)(torusmem_machine *m, uint32_t code, uint32_t processor, uint32_t operation, uint32_t address,
                               uint64_t first, uint64_t second, uint32_t lasts, char *out, size_t out_length) {
  struct torusmem_shape shape;
  size_t room = out_length < 256 ? out_length : 256; /* all sentences are shorter */
  int length;
  (void)first, (void)lasts;
  if (torusmem_shape(m, &shape).code != TORUSMEM_OK) code = TORUSMEM_EMPTY;
  if (code == TORUSMEM_FAULT_PROCESSOR)
    length = snprintf(out, room, "processor %" PRIu32 ": the machine has the processors 0 to %" PRIu32, processor,
                      shape.tiles - 1);
  else if (code == TORUSMEM_FAULT_ADDRESS)
    length = snprintf(out, room, "address %" PRIu32 ": the machine has the words 0 to %" PRIu32, address,
                      shape.words - 1);
  else if (code == TORUSMEM_FAULT_RANGE)
    length = snprintf(out, room, "%" PRIu64 " loads: a spin makes 1 to 4096", second);
  else if (code == TORUSMEM_FAULT_LAST)
    length = snprintf(out, room, "last: processor %" PRIu32 " has no operation before it", processor);
  else if (code == TORUSMEM_FAULT_LENGTH)
    length = say_length(m, shape.tiles, processor, operation == TORUSMEM_SPIN ? second : 1, out, room);
  else
    length = snprintf(out, room, "%s", torusmem_code_text(code));
  return length > 0 ? (size_t)length : 0;
}
