/* torusmem: a proved shared memory over a wormhole torus, as a library for simulators (C99, C++).

   A machine is made from the texts that the program `torusmem` reads (docs/FORMATS.md), then stepped, looked at and
   freed. Each call is a function with a contract, and proved (docs/PROVED.md, "torusmem_c: the library for C"), but for
   the three of torusmem_text.c, which say things in words. No call prints, ends the process or starts a thread, and each
   call returns.

   MEMORY. torusmem_load, torusmem_open, their two that keep a record, torusmem_reopen, torusmem_restore and
   torusmem_clone allocate what the machine needs, torusmem_append and torusmem_ask what a further line needs, and
   torusmem_free frees all of it. Of a machine that keeps a record, the calls that make steps or rounds also allocate what the record needs.
   torusmem_report, torusmem_save, torusmem_events, torusmem_events_from, torusmem_check, torusmem_explain, torusmem_spins_out,
   torusmem_network, torusmem_network_answer, torusmem_linearize, torusmem_linearize_answer, torusmem_model,
   torusmem_model_values, torusmem_outcomes, torusmem_outcomes_run, torusmem_reach and torusmem_watch_save free what they
   allocate before they return. torusmem_watch_begin, torusmem_watch_clone and torusmem_watch_restore allocate what a watch
   needs at first, torusmem_watch_issue and torusmem_watch_answer allocate and free as operations open and end, and
   torusmem_watch_end frees all of it. No other call allocates.

   COSTS. Of a machine with t tiles, p ports of a router and r words of its row, after n operations: torusmem_step and
   torusmem_enabled, looks at a word, an answer, an entry or a number of them, torusmem_ask and torusmem_append take O(1);
   torusmem_answer_of O(1 + the later operations of the processor that were answered before this one); torusmem_finished
   O(t); a round O(t * p), a clocked or fair one O(t * p * p); torusmem_rows O(r). torusmem_order and torusmem_answered_to take
   O(k) for k rows from the first one on, torusmem_events_from O(k log k), torusmem_events O(n log n), torusmem_report O(n + r).
   torusmem_save takes as long as the record is, torusmem_restore and torusmem_clone as long as the run took. Of a watch with k
   operations open and c configurations held, torusmem_watch_issue takes O(k), torusmem_watch_clone, torusmem_watch_save and
   torusmem_watch_restore O(words + k + c), and torusmem_watch_answer follows the configurations of its word. Opening and loading
   take O(r + lines).

   LINKING. Link libtorusmem_c.a, torusmem_heap.c and torusmem_text.c; or what `make install` makes of them,
   libtorusmem.so or libtorusmem.a, as `pkg-config --cflags --libs torusmem` says. A program that defines the three
   functions of torusmem_heap.c itself uses its own with libtorusmem.a.

   WHAT THE CALLER MUST ENSURE. Nothing checks it, and without it nothing that is said here holds.
   - Each `m` points to a torusmem_machine that was initialized by TORUSMEM_MACHINE_INIT and then changed by calls of
     this library alone. Its bytes may be moved, if the old place is not used again; they are never copied. The same
     holds for each `w`, a torusmem_watch that was initialized by TORUSMEM_WATCH_INIT.
   - Each pointer that comes with a length points to that many readable bytes or items, aligned for their type and of one
     object. Where the length is 0 the pointer may be anything, also null. Texts, attempts, events and opening words are
     only read, and may overlap; what `out` points to is writable, and overlaps nothing else that the call is given. None
     of them contains a byte of the machine or watch.
   - One call at a time for each machine and watch, from any thread: each begins after the one before it has returned,
     which a lock, a join or a sequentially consistent atomic orders where these are two threads. Machines and watches
     share nothing.
   - malloc, realloc and free, which torusmem_heap.c calls, belong to one allocator and align each block to every power
     of two up to 16 that divides its size. They return: no exception and no longjmp leaves them, and they call nothing of
     this library. No call comes from a signal handler, or in the child that a process with threads forked.
   - Some kilobytes of stack are free at each call.

   All calls take the machine by a pointer that is not const, also those that change nothing.

   A DEBUG BUILD. Where TORUSMEM_DEBUG is defined before this header, in all files of a program, handles carry a mark. Then
   a call on a null pointer, on a handle that was not initialized, on a watch in place of a machine, or on a copy whose
   other one was used or freed since, one with a text, list or buffer that is null and has a length, and a
   torusmem_reopen, torusmem_clone or torusmem_watch_clone of one handle twice, prints a line that says so, with file and
   line, and aborts. */
#ifndef TORUSMEM_H
#define TORUSMEM_H
#define TORUSMEM_VERSION "0.3.0"
#define TORUSMEM_VERSION_NUMBER 3000 /* 1000000 times the first number, 1000 times the second, and the third */
#include <stdbool.h>
#include <stddef.h>
#include <stdint.h>
#if defined(__GNUC__)
#define TORUSMEM_RESULT __attribute__((warn_unused_result)) /* of a call whose answer has to be looked at */
#else
#define TORUSMEM_RESULT
#endif
#ifdef __cplusplus
extern "C" {
#endif

/* The version of the library that runs, as TORUSMEM_VERSION has that of the header. */
const char *torusmem_version(void) TORUSMEM_RESULT;

#ifdef TORUSMEM_DEBUG
/* What a handle carries in a debug build: what it is, and of what it holds a ticket. The ticket counts the calls, and has
   the thread that is in one, by the address of its errno. */
typedef struct torusmem_ticket {
  uint64_t calls;
  bool gone;
  const void *thread;
  const char *call;
} torusmem_ticket;
#define TORUSMEM_MARK uint64_t mark, calls; torusmem_ticket *ticket;
#define TORUSMEM_MARKED(mark) , mark, 0, NULL
#else
#define TORUSMEM_MARK
#define TORUSMEM_MARKED(mark)
#endif
#define TORUSMEM_IS_MACHINE UINT64_C(0x6D656D737572746F)
#define TORUSMEM_IS_WATCH UINT64_C(0x7761746368746F72)

/* Room for a machine. It belongs to the caller, on the stack, in a struct or elsewhere: initialized by
   TORUSMEM_MACHINE_INIT (all zeros), then changed by calls alone. Only torusmem_free frees what it holds. */
typedef struct torusmem_machine {
  bool full;
  void *at;
  TORUSMEM_MARK
} torusmem_machine;
#define TORUSMEM_MACHINE_INIT { false, NULL TORUSMEM_MARKED(TORUSMEM_IS_MACHINE) }

/* What a call answers: a code, and a number whose meaning each call states (0 where it states none). */
typedef struct torusmem_outcome {
  uint32_t code;
  uint64_t value;
} torusmem_outcome;

/* Codes. */
enum {
  TORUSMEM_OK = 0,
  /* The faults F1 to F14 of a text (docs/FORMATS.md); value: the line, from 1; 0 where memory was refused. */
  TORUSMEM_FAULT_RADIX = 1,
  TORUSMEM_FAULT_DIMENSIONS = 2,
  TORUSMEM_FAULT_TILES = 3,
  TORUSMEM_FAULT_LINE = 4,
  TORUSMEM_FAULT_SETTING = 5,
  TORUSMEM_FAULT_RANGE = 6,
  TORUSMEM_FAULT_ADDRESS = 7,
  TORUSMEM_FAULT_PROCESSOR = 8,
  TORUSMEM_FAULT_LENGTH = 9,
  TORUSMEM_FAULT_LAST = 10,
  TORUSMEM_FAULT_STEP = 11,
  TORUSMEM_FAULT_MEMORY = 12,
  TORUSMEM_FAULT_COUNT = 13,
  TORUSMEM_FAULT_DATELINE = 14,
  TORUSMEM_BAD_REPORT = 15, /* value: the first bad line, from 1 */
  TORUSMEM_EMPTY = 16,      /* there is no machine: none was loaded, or it was freed; or there is no watch */
  TORUSMEM_FULL = 17,       /* there is a machine already: free it first; or a watch: end it first */
  TORUSMEM_NONE = 18,       /* there is no such agent, choice, tile, address, place or index */
  TORUSMEM_SHORT = 19,      /* the buffer is too short; value: the length that is needed */
  TORUSMEM_NO_ROUTE = 20,   /* a pair of a network has no route; value: the length of the verdict's text */
  TORUSMEM_CYCLE = 21,      /* the channels of a network have a cycle; value: the length of the verdict's text */
  /* Of a trace; value: the event, from 0; of a watch, which is given one event at a time: 0. */
  TORUSMEM_NOT_LINEARIZABLE = 22, /* no order explains it up to this event */
  TORUSMEM_TOO_MANY = 23, /* undecided: at this answer a word has more configurations than were allowed */
  TORUSMEM_TOO_OPEN = 24, /* undecided: at this issue 64 other operations are open on its word */
  TORUSMEM_BEHIND_SPIN = 25, /* the script has a spin, so the index of an operation behind it is not known */
  TORUSMEM_NOT_YET = 26,     /* the operation is not answered yet */
  TORUSMEM_NO_RECORD = 27,   /* the machine keeps no record of what is done to it */
  TORUSMEM_BAD_RECORD = 28,  /* bytes are no record; value: the place of the first byte that is wrong, or missing, from 0 */
  TORUSMEM_BAD_ACTION = 29,  /* an action of a record can't be done; value: the action, from 0 */
  TORUSMEM_WRONG_REPLY = 30, /* of a log: a reply isn't what its operation does to the word that it finds */
  TORUSMEM_NO_PAIR = 31,     /* no packets go anywhere in a network; value: the length of the verdict's text */
  TORUSMEM_NOT_RISING = 32,  /* the numbers of a network's channels don't rise; value: the length of the answer's text */
  /* Of a log whose replies alone count. */
  TORUSMEM_UNWRITTEN = 33,   /* a reply is what no write of its word left; value: its line */
  TORUSMEM_LOST_UPDATE = 34, /* two atomics found what only one write of their word left; value: the line of the one */
  /* Of a search over all schedules. */
  TORUSMEM_UNDECIDED = 35,   /* more states are reached than it was allowed; value: the length of the text */
  TORUSMEM_NEVER = 36,       /* no run of any schedule has these replies; value: the length of the text */
  TORUSMEM_TOO_LONG = 37,    /* the scripts have more than 256 operations, a spin its greatest number of loads */
  TORUSMEM_NO_REPLY = 38,    /* a word of an answer is no reply */
  TORUSMEM_OTHER_COUNT = 39  /* the scripts have other numbers of replies than an answer */
};

/* What a code says, in a few words of ASCII, as "an address is not below the number of words". For any number. */
const char *torusmem_code_text(uint32_t code) TORUSMEM_RESULT;

/* Choices of agents. Tile t has the agents 3t, its processor; 3t + 1, its router; and 3t + 2, its bank. */
enum {
  TORUSMEM_SEND = 0,      /* a processor or bank puts its next flit */
  TORUSMEM_TAKE = 1,      /* a processor or bank takes a flit */
  TORUSMEM_TAKE_FROM = 2, /* a router takes a flit of an input */
  TORUSMEM_PUT = 3,       /* a router puts the flit that it took of an input */
  TORUSMEM_CREDIT = 4,    /* a processor or bank looks for a credit */
  TORUSMEM_CREDIT_OF = 5, /* a router looks for a credit of an output */
  TORUSMEM_SERVE = 6,     /* a bank serves a request */
  TORUSMEM_DONE = 7,      /* a processor reports that its script is finished */
  TORUSMEM_LOOK = 8       /* a processor looks whether all scripts are reported */
};

/* Operations. */
enum {
  TORUSMEM_LOAD = 0,
  TORUSMEM_STORE = 1,
  TORUSMEM_SWAP = 2,
  TORUSMEM_CAS = 3,
  TORUSMEM_ADD = 4,
  TORUSMEM_AND = 5,
  TORUSMEM_OR = 6,
  TORUSMEM_XOR = 7,
  TORUSMEM_MAX = 8,
  TORUSMEM_MIN = 9
};

/* Kinds of channels. */
enum { TORUSMEM_INJECTION = 0, TORUSMEM_HOP = 1, TORUSMEM_EJECTION = 2 };

/* Classes of packets. */
enum { TORUSMEM_REQUEST = 0, TORUSMEM_REPLY = 1 };

/* Loads the machine of a machine text, whose processors follow the scripts of a scripts text, before any step.
   OK; FULL; or a fault: the first one of the machine text, else the first one of the scripts, or out of memory.
   On anything but OK, *m is as it was and no memory is kept. The texts may go after the call. */
torusmem_outcome torusmem_load(torusmem_machine *m, const uint8_t *machine, size_t machine_length,
                               const uint8_t *scripts, size_t scripts_length) TORUSMEM_RESULT;

/* What a machine is built to (docs/FORMATS.md, "Machine text"). */
struct torusmem_shape {
  uint32_t dims;         /* 1 to 3 */
  uint32_t radices[3];   /* of each dimension, 2 to 8; 0 where there is no such dimension, as for datelines */
  uint32_t datelines[3];
  uint32_t depth;        /* flits of a channel, 1 to 8 */
  uint32_t tags;         /* of a processor, 1 to 16 */
  uint32_t words;        /* 1 to 65536 */
  uint32_t tiles;        /* 2 to 64 */
  uint32_t ports;        /* inputs of a router, and as many outputs: 8 for each dimension, and 2 */
};

/* Opens the machine of a shape, in place of texts: the first words_length of its words are given, the others are 0, and no
   processor has a line. tiles and ports, and what stands behind the last dimension, are not looked at.
   OK; FULL; or the first fault of the shape, value 0, in this order: 2, not one to three dimensions; 1, a radix; 3, more
   than 64 tiles; 14, a dateline; 6, the depth, the tags or the number of words; 7, more words are given than there are; or
   TORUSMEM_FAULT_MEMORY. On anything but OK, *m is as it was. The shape and the words may go after the call. */
torusmem_outcome torusmem_open(torusmem_machine *m, const struct torusmem_shape *shape, const uint64_t *words,
                               size_t words_length) TORUSMEM_RESULT;

/* Goes on with a machine that has come near a limit of its scripts: makes rounds until every script is finished, and opens
   in *fresh, which is empty, a machine of the same shape, whose opening words are the words of *m then, and whose
   processors have no line. What is asked of it is answered as if *m had gone on, since one memory answers both. Answers
   of *m stay to be fetched there, until it is freed; indices, limits and the numbers of the order begin anew. *fresh keeps
   a record of what is done to it where *m keeps one: so a run without end has checkpoints, each of the size of what was
   done since the last reopening.
   OK, value: how many rounds; FULL: *fresh isn't empty; EMPTY: *m is, and nothing has changed; TORUSMEM_FAULT_MEMORY:
   *m has made its rounds, and *fresh is empty. m and fresh are not the same. */
torusmem_outcome torusmem_reopen(torusmem_machine *m, torusmem_machine *fresh) TORUSMEM_RESULT;

/* RECORDS. A machine that keeps a record can be saved as bytes at any time, and made again of them (docs/FORMATS.md, "Record
   of a machine"). The record has the texts that were loaded, or a machine text of the numbers; each move, each call of
   torusmem_finish_clocked and each line that came later, in 4 bytes; and 32 bytes more of such a line. Rounds in a row take 4
   bytes together, as fair ones do, and up to 131071 clocked ones of which each has the turn behind that of the one before. So it
   hardly grows while a host makes such rounds and asks nothing. The state alone is the record of the machine that torusmem_reopen
   opens: at most 118 bytes, and 32 for each word that isn't 0. Where memory for the record is refused, or it would have
   268435456 lines, or a call makes as many rounds, it ends: nothing is left of it, torusmem_save answers NO_RECORD, and the
   machine goes on. No call fails for that. */

/* Does what torusmem_load does, and answers as it does; and the machine keeps a record from then on. */
torusmem_outcome torusmem_load_recorded(torusmem_machine *m, const uint8_t *machine, size_t machine_length,
                                        const uint8_t *scripts, size_t scripts_length) TORUSMEM_RESULT;

/* Does what torusmem_open does, and answers as it does; and the machine keeps a record from then on. */
torusmem_outcome torusmem_open_recorded(torusmem_machine *m, const struct torusmem_shape *shape, const uint64_t *words,
                                        size_t words_length) TORUSMEM_RESULT;

/* Puts the bytes of the machine's record into a buffer. torusmem_restore makes this machine of them. The machine goes on as
   if nothing was saved.
   OK: they are the first `value` of out, and the bytes behind them are as they were. SHORT: value is how many there
   are, and out is as it was; so is it on NO_RECORD, on TORUSMEM_FAULT_MEMORY and on EMPTY. */
torusmem_outcome torusmem_save(torusmem_machine *m, uint8_t *out, size_t out_length) TORUSMEM_RESULT;

/* Makes the machine of a record's bytes again: it loads the texts, and does what was done. The machine shows what the saved
   one showed, and each call does to it and answers what it would have done and answered there. It keeps the record.
   OK; FULL; BAD_RECORD: the bytes are no record; BAD_ACTION: an action can't be done where it comes, as a move that isn't
   enabled; or a fault: of a text of the record, as torusmem_load answers it, or TORUSMEM_FAULT_MEMORY. On anything but OK,
   *m is as it was. The bytes may go after the call. It takes as long as the rounds and moves took. */
torusmem_outcome torusmem_restore(torusmem_machine *m, const uint8_t *bytes, size_t bytes_length) TORUSMEM_RESULT;

/* Makes the same machine once more in *fresh, which is empty, with the same record, by doing what the record says. The two
   share nothing. OK; FULL: *fresh isn't empty; EMPTY: *m is; NO_RECORD; TORUSMEM_FAULT_MEMORY. *m is as it was, and but for
   OK so is *fresh. m and fresh are not the same. */
torusmem_outcome torusmem_clone(torusmem_machine *m, torusmem_machine *fresh) TORUSMEM_RESULT;

/* Texts of a load. */
enum { TORUSMEM_NO_TEXT = 0, TORUSMEM_MACHINE_TEXT = 1, TORUSMEM_SCRIPTS_TEXT = 2 };

/* Why a load is refused. */
typedef struct torusmem_explanation {
  uint32_t code;   /* of the sentence: OK, SHORT or FAULT_MEMORY */
  uint32_t fault;  /* 1 to 14, as torusmem_load answers it; 0: neither text has a fault, and the rest is 0 */
  uint32_t text;   /* which one it is in; TORUSMEM_NO_TEXT where memory was refused */
  uint64_t line;   /* of that text, from 1; 0 where memory was refused */
  uint64_t length; /* of the sentence; 0 where there is none */
} torusmem_explanation;

/* Tells the first fault of a machine text and a scripts text, which is the one that torusmem_load answers, and puts a
   sentence on it into a buffer, as "scripts:12: address 300: the machine has the words 0 to 255". It is ASCII without
   an end of line, begins with `machine` or `scripts`, and quotes words of the line. Needs no machine, and reads the
   texts once more, so that memory may be refused now and not before, or before and not now.
   OK: the sentence is the first `length` bytes of out, and the bytes behind them are as they were.
   SHORT: `length` is what it needs, and out is as it was; so is it on FAULT_MEMORY. */
torusmem_explanation torusmem_explain(const uint8_t *machine, size_t machine_length, const uint8_t *scripts,
                                      size_t scripts_length, uint8_t *out, size_t out_length) TORUSMEM_RESULT;

/* Frees what *m holds, if anything. It may be loaded again then. */
void torusmem_free(torusmem_machine *m);

/* Attempts one choice of one agent: at most one operation on one word of the machine's row.
   OK, value 1: it was enabled and is made. OK, value 0: it was not enabled, and nothing has changed. NONE: there is no
   such agent, the agent has no such choice, or its router no such input or output; nothing has changed. EMPTY.
   number: that of the router's input for TAKE_FROM and PUT, of its output for CREDIT_OF (docs/FLITS-AND-PORTS.md, "Channels
   and ports"); not looked at for other choices. */
torusmem_outcome torusmem_step(torusmem_machine *m, uint32_t agent, uint32_t choice, uint32_t number);

/* An attempt: what torusmem_step takes. */
typedef struct torusmem_attempt {
  uint32_t agent, choice, number;
} torusmem_attempt;

/* Makes attempts, one after the other, each as a call of torusmem_step does. OK, value: how many of them moved.
   NONE: torusmem_step would answer it to one of them; value: the first of these, from 0, and none is made. EMPTY. */
torusmem_outcome torusmem_run(torusmem_machine *m, const torusmem_attempt *attempts, size_t attempts_length);

/* Whether torusmem_step would move now. OK, value 1 or 0; NONE where torusmem_step answers it; EMPTY. */
torusmem_outcome torusmem_enabled(torusmem_machine *m, uint32_t agent, uint32_t choice, uint32_t number)
    TORUSMEM_RESULT;

/* ROUNDS. Plain rounds (torusmem_round) and turned ones (torusmem_clocked_round) starve: while other tiles go on asking, an
   operation may wait for ever. Fair rounds don't, so a host takes those. */

/* Makes one fair round: a clocked round, in which of the heads that ask for an output of a router the one goes first whose
   operation was issued first. Where one has been out for more than B fair rounds, a guard lets none begin; B is
   241 * tiles * tags. So each is answered within 2 * B + 2 * tiles + 1 fair rounds, whatever is asked meanwhile. OK,
   value 1: the guard held back what would have begun in this round; value 0: it didn't; EMPTY. */
torusmem_outcome torusmem_fair_round(torusmem_machine *m);

/* Makes fair rounds until every script is finished, at most so many. OK, value: how many; EMPTY. */
torusmem_outcome torusmem_fair_rounds(torusmem_machine *m, uint64_t most);

/* Makes one round: each choice of each agent is attempted once, in order. OK, value 0; EMPTY. */
torusmem_outcome torusmem_round(torusmem_machine *m);

/* Makes rounds until every script is finished. OK, value: how many rounds, the least number that does; EMPTY. */
torusmem_outcome torusmem_finish(torusmem_machine *m);

/* Makes one clocked round: each choice that is enabled now is attempted once, in the order of a round, so that a flit goes
   one stage at most. The puts of each router begin at input turn mod p, where p is the number of its inputs, and then come
   those before it: give the number of rounds so far. Such rounds starve. OK, value 0; EMPTY. */
torusmem_outcome torusmem_clocked_round(torusmem_machine *m, uint64_t turn);

/* Makes clocked rounds, with the turns from 0 on, until every script is finished. OK, value: how many rounds, the least
   number that does; EMPTY. */
torusmem_outcome torusmem_finish_clocked(torusmem_machine *m);

/* Lines of a script beside the operations: the next operation is issued when every earlier one is answered; loads of the
   address, one at a time, until one is answered with the first value, at most as many as the second says. */
enum { TORUSMEM_FENCE = 10, TORUSMEM_SPIN = 11 };

/* Which values of a line are `last`, the number replied to the operation just before it: add them for both. 0 says:
   neither. */
enum { TORUSMEM_FIRST_IS_LAST = 1, TORUSMEM_SECOND_IS_LAST = 2 };

/* Gives a processor a further line at the end of its script, at any time, before steps or after them: an operation
   (TORUSMEM_LOAD .. TORUSMEM_MIN), a fence or a spin. Where the processor has reported that its script is finished, all
   reports are taken back first. A value that the line doesn't have isn't looked at; nor is the address of a fence.
   first: the value of a store, swap, add, and, or, xor, max or min; what a cas expects; what a spin waits for.
   second: what a cas writes; how many loads a spin may make, 1 to 4096.
   OK, value 0: the line is taken; NONE: no line has this number, or lasts is above 3; EMPTY; the first fault that the
   line has, value 0, in this order: 8, there is no such processor; 7, no such address; 6, a spin hasn't 1 to 4096 loads; 10, `last` with no
   operation before it; 9, a script has at most 4096 operations, and all together at most 65536; or
   TORUSMEM_FAULT_MEMORY. But for OK nothing has changed. It and torusmem_ask are the calls after torusmem_load that take
   memory for the machine beside its record. */
torusmem_outcome torusmem_append(torusmem_machine *m, uint32_t processor, uint32_t operation, uint32_t address,
                                 uint64_t first, uint64_t second, uint32_t lasts) TORUSMEM_RESULT;

/* Gives a processor an operation, TORUSMEM_LOAD .. TORUSMEM_MIN, as torusmem_append does, and tells which one it is: the
   operation that the processor issues under this index, whenever it does, is the one that was asked. So a host asks,
   makes rounds, and takes the answer by torusmem_answer_of.
   OK, value: the index among the operations of the processor, from 0 in the order of issue. BEHIND_SPIN: its script has
   a spin, from its text or appended, and nobody can tell beforehand how many loads that makes; NONE: no operation has
   this number, or lasts is above 3; EMPTY; or a fault, as of torusmem_append. But for OK nothing has changed. Takes memory as it does. */
torusmem_outcome torusmem_ask(torusmem_machine *m, uint32_t processor, uint32_t operation, uint32_t address,
                              uint64_t first, uint64_t second, uint32_t lasts) TORUSMEM_RESULT;

/* Says why torusmem_append or torusmem_ask refuses this line, in the words of torusmem_explain: "address 300: the machine has
   the words 0 to 255". code is what the call has just answered, and the numbers are those that it was given; nothing was
   done to the machine since. For a code that no line of a text can have, it is what torusmem_code_text says.
   The sentence is put into out as a string of ASCII, cut to out_length bytes with the zero behind it, as snprintf does.
   Answers the length of the whole sentence, at most 255. It is plain C of torusmem_text.c, as torusmem_code_text and
   torusmem_version are, and not proved. */
size_t torusmem_explain_line(torusmem_machine *m, uint32_t code, uint32_t processor, uint32_t operation, uint32_t address,
                             uint64_t first, uint64_t second, uint32_t lasts, char *out, size_t out_length);

/* Whether every script is finished. OK, value 1 or 0; EMPTY. */
torusmem_outcome torusmem_finished(torusmem_machine *m) TORUSMEM_RESULT;

/* At most how many moves are left: no steps make more than this. OK, value: the number; EMPTY. */
torusmem_outcome torusmem_moves_left(torusmem_machine *m) TORUSMEM_RESULT;

#if defined(__cplusplus) && defined(__GNUC__) /* A struct has the name of the next call, of which -Wshadow warns. */
#pragma GCC diagnostic push
#pragma GCC diagnostic ignored "-Wshadow"
#endif
/* Tells what the machine is built to. OK: *out has it; EMPTY: *out is as it was. */
torusmem_outcome torusmem_shape(torusmem_machine *m, struct torusmem_shape *out) TORUSMEM_RESULT;
#if defined(__cplusplus) && defined(__GNUC__)
#pragma GCC diagnostic pop
#endif

/* The number of tiles, 2 to 64, and of words, 1 to 65536. OK, value: the number; EMPTY. */
torusmem_outcome torusmem_tiles(torusmem_machine *m) TORUSMEM_RESULT;
torusmem_outcome torusmem_words(torusmem_machine *m) TORUSMEM_RESULT;

/* The word of an address. OK, value: the word; NONE: no such address; EMPTY. */
torusmem_outcome torusmem_word(torusmem_machine *m, uint32_t address) TORUSMEM_RESULT;

/* The word at a place of the machine's row: the places of the channels, then the words of the memory by address, then
   the done word. OK, value: the word; NONE: the row is not so long; EMPTY. */
torusmem_outcome torusmem_row(torusmem_machine *m, uint32_t at) TORUSMEM_RESULT;

/* All words of the row in one call, each as torusmem_row tells it.
   OK: they are the first `value` of out, at most 79873, and those behind them are as they were.
   SHORT: value is how many there are, and out is as it was; so is it on EMPTY. */
torusmem_outcome torusmem_rows(torusmem_machine *m, uint64_t *out, size_t out_length) TORUSMEM_RESULT;

/* An answer of a processor. */
typedef struct torusmem_answer {
  uint32_t code;          /* OK, EMPTY, NONE or NOT_YET; the rest is 0 unless it is OK */
  uint32_t index;         /* among the operations of its processor, from 0 in the order of issue */
  uint32_t operation;     /* TORUSMEM_LOAD .. TORUSMEM_MIN */
  uint32_t bank;          /* the tile of the bank that served it */
  uint32_t place;         /* among the services of that bank, from 0 */
  uint32_t has_old;       /* 1: the reply is the old word; 0: it is `ok`, that of a store */
  uint64_t first, second; /* the operation's values: expected and new of a cas; the value of any other but a load, and
                             0; 0 and 0 of a load */
  uint64_t old;           /* the old word, or 0 */
} torusmem_answer;

/* How many answers a processor (by its tile) has. OK, value: the number; NONE: no such tile; EMPTY. */
torusmem_outcome torusmem_answers(torusmem_machine *m, uint32_t processor) TORUSMEM_RESULT;

/* Answer i of a processor, from 0 in the order of answering. Code NONE: no such tile, or no such answer yet. */
torusmem_answer torusmem_answer_at(torusmem_machine *m, uint32_t processor, uint32_t i) TORUSMEM_RESULT;

/* The answer of a processor to its operation of this index, from 0 in the order of issue, as torusmem_ask tells it.
   Code NOT_YET: it isn't answered yet; of a script with a spin it may never be issued. NONE: no such tile, or the script
   can't make so many operations. EMPTY. Of the processor's answers it looks at this one, at those to later operations that
   came before it, and at 16 more: in fair rounds its time doesn't grow with the run. */
torusmem_answer torusmem_answer_of(torusmem_machine *m, uint32_t processor, uint32_t index) TORUSMEM_RESULT;

/* An entry of a bank: one service. */
typedef struct torusmem_entry {
  uint32_t code;          /* OK, EMPTY or NONE; the rest is 0 unless it is OK */
  uint32_t source;        /* the tile of the processor that asked */
  uint32_t tag;           /* its tag */
  uint32_t address;       /* what was asked for */
  uint32_t operation;     /* as in an answer, and so are the rest */
  uint32_t has_old;
  uint64_t first, second;
  uint64_t old;
} torusmem_entry;

/* How many entries a bank (by its tile) has. OK, value: the number; NONE: no such tile; EMPTY. */
torusmem_outcome torusmem_entries(torusmem_machine *m, uint32_t bank) TORUSMEM_RESULT;

/* Entry i of a bank, from 0 in the order of its services. Code NONE: no such tile, or no such entry yet. */
torusmem_entry torusmem_entry_at(torusmem_machine *m, uint32_t bank, uint32_t i) TORUSMEM_RESULT;

/* A row of the one legal order of what is served so far: an operation, where it was served, and when. Events, which are
   issues, services and answers, are numbered from 1 in the order in which they happen. */
typedef struct torusmem_ordered {
  uint32_t bank, place; /* the service, of which torusmem_entry_at tells more */
  uint32_t source;      /* the tile of the processor that asked */
  uint32_t index;       /* among the operations of that processor, from 0 in the order of issue */
  uint32_t issued;      /* the number of its issue */
  uint32_t served;      /* the number of its service; these rise */
  uint32_t answered;    /* the number of its answer; 0 while it has none */
} torusmem_ordered;

/* The rows of the order from row `from` on, counted from 0: the operations in the order of the banks' services, as the
   report's order lines have them. A row stays, but for its answer. No memory is taken, and no other row is looked at: the
   last rows cost no more after a million operations than at first.
   OK: they are the first `value` of out, and those behind them are as they were; where there are no more, value is 0.
   SHORT: value is how many there are, and out is as it was; so is it on EMPTY. */
torusmem_outcome torusmem_order(torusmem_machine *m, uint32_t from, torusmem_ordered *out, size_t out_length)
    TORUSMEM_RESULT;

/* The first row of the order, from row `from` on, whose operation isn't answered yet; the number of rows, where all are.
   It goes over the rows between. OK, value: the row, counted from 0, and `from` where there are not so many; EMPTY. */
torusmem_outcome torusmem_answered_to(torusmem_machine *m, uint32_t from) TORUSMEM_RESULT;

/* What happens to an operation: it is issued, served and answered. */
enum { TORUSMEM_ISSUED = 0, TORUSMEM_SERVED = 1, TORUSMEM_ANSWERED = 2 };

/* An event of an operation that is served. */
typedef struct torusmem_happened {
  uint32_t number;            /* among all events, from 1 */
  uint32_t what;              /* TORUSMEM_ISSUED, TORUSMEM_SERVED or TORUSMEM_ANSWERED */
  torusmem_ordered operation; /* its row of torusmem_order */
} torusmem_happened;

/* The issues, services and answers of the operations that are served, those numbered `from` or higher, in the order in
   which they happened, by the numbers that torusmem_order tells. The issue of an operation comes with its service: until
   then its number is left free. The call goes over all rows of the order, so its time grows with the run.
   OK: they are the first `value` of out, and those behind them are as they were; where there are no more, value is 0.
   SHORT: value is how many there are, and out is as it was; so is it on FAULT_MEMORY and EMPTY. */
torusmem_outcome torusmem_events(torusmem_machine *m, uint32_t from, torusmem_happened *out, size_t out_length)
    TORUSMEM_RESULT;

/* Does what torusmem_events does, of the operations that stand in the order from row `row` on, counted from 0, and answers
   as it does. It goes over these rows alone. A host that follows a run gives the row that torusmem_answered_to has told
   behind the call before: all operations in front of it were answered then, so that nothing more happens to them. */
torusmem_outcome torusmem_events_from(torusmem_machine *m, uint32_t row, uint32_t from, torusmem_happened *out,
                                      size_t out_length) TORUSMEM_RESULT;

/* A spin that ran out of loads: it made all its loads, and none of them found the number that it sought. */
typedef struct torusmem_spin {
  uint32_t processor, address, loads;
  uint64_t line; /* of the scripts text, from 1 */
  uint64_t sought;
} torusmem_spin;

/* The spins that ran out of loads in what the machine has run so far, by processor, and of each in the order of its
   script. Takes the texts that the machine was loaded from once more: with others, it tells what comes of those scripts
   by the answers that the processors have. A spin counts once all operations of its script up to its last load are
   answered.
   OK: they are the first `value` of out, and those behind them are as they were.
   SHORT: value is how many there are, and out is as it was; so is it on a fault of a text, where value is its line, on
   FAULT_MEMORY and on EMPTY. */
torusmem_outcome torusmem_spins_out(torusmem_machine *m, const uint8_t *machine, size_t machine_length,
                                    const uint8_t *scripts, size_t scripts_length, torusmem_spin *out,
                                    size_t out_length) TORUSMEM_RESULT;

/* The report of the run so far, the text that the program prints.
   OK: it is the first `value` bytes of out, and the bytes behind them are as they were.
   SHORT: value is its length, and out is as it was; so is it on FAULT_MEMORY and EMPTY. */
torusmem_outcome torusmem_report(torusmem_machine *m, uint8_t *out, size_t out_length) TORUSMEM_RESULT;

/* Checks a report; needs no machine. OK: it is a good one. BAD_REPORT: value is its first bad line, from 1.
   FAULT_MEMORY. */
torusmem_outcome torusmem_check(const uint8_t *report, size_t report_length) TORUSMEM_RESULT;

/* A channel of a route. */
typedef struct torusmem_channel {
  uint32_t kind;            /* the injection of the tile, a hop out of it, or its ejection */
  uint32_t tile;
  uint32_t dim, minus, bit; /* of a hop: its dimension, 1 for minus or 0 for plus, its bit; else 0 */
  uint32_t number;          /* the channel's number: along each route the numbers rise */
} torusmem_channel;

/* The route of a packet of a class, TORUSMEM_REQUEST or TORUSMEM_REPLY, from tile to tile.
   OK: its channels are the first `value` of out, 2 to 10, and those behind them are as they were.
   SHORT: value is how many there are, and out is as it was; so is it on NONE (no such tile or class) and EMPTY. */
torusmem_outcome torusmem_route(torusmem_machine *m, uint32_t src, uint32_t dst, uint32_t reply,
                                torusmem_channel *out, size_t out_length) TORUSMEM_RESULT;

/* The way on of a packet for tile dst that came to tile at by this input of its router (docs/FLITS-AND-PORTS.md, "Channels and
   ports"). OK, value: the number of the router's output; NONE: no such tile or input; EMPTY. */
torusmem_outcome torusmem_next(torusmem_machine *m, uint32_t at, uint32_t input, uint32_t dst) TORUSMEM_RESULT;

/* Judges the network of a network text with one choice for each channel and destination (docs/FORMATS.md, "Network text"):
   whether each pair that it joins has a route, and numbers of its channels can rise along every route and every reply,
   so that it is free of deadlock. Needs no machine. The verdict's text, which the program prints, is put into a buffer.
   OK: the numbers rise; a line for each channel with its number, then `rising`; last the line on what packets go over.
   NO_ROUTE: the line of the first pair without a route, with the step and the reason.
   CYCLE: the line `cycle`, then a line for each channel of a cycle, with the packets that go on to the next one; then a
   line for each channel that fills up, and `locks up`: a run leads from the empty network to full channels of which
   nothing can go; of a text with a line `length` from which depth on such packets do so; last the line on what packets
   go over.
   NO_PAIR: the line `no pair`: no line of the network says join, so nothing is judged.
   Of these four, value is the length of the text: it is the first `value` bytes of out, and those behind them are as
   they were.
   SHORT: value is that length, and out is as it was; so is it on a fault of the text, where value is its line, and on
   FAULT_MEMORY. A verdict takes time; where a buffer was short, it is made again. */
torusmem_outcome torusmem_network(const uint8_t *network, size_t network_length, uint8_t *out, size_t out_length)
    TORUSMEM_RESULT;

/* Judges the network of a network text, whose routers may choose among channels, and puts the text into a buffer that the
   program `network` prints: of fixed routes the one of torusmem_network; where routers choose, the numbers of the channels, or
   a cycle, what has no escape, and what is then known: dead sets, channels that fill up, packets of one flit (docs/FORMATS.md,
   "Network text"). Needs no machine.
   OK: the numbers rise, so that the network never deadlocks. NOT_RISING: the text says what there is in their place.
   Of these two, value is the length of the text: it is the first `value` bytes of out, and those behind them are as they
   were. SHORT, a fault and FAULT_MEMORY: as of torusmem_network. */
torusmem_outcome torusmem_network_answer(const uint8_t *network, size_t network_length, uint8_t *out, size_t out_length)
    TORUSMEM_RESULT;

/* Kinds of events. */
enum { TORUSMEM_ISSUE = 0, TORUSMEM_ANSWER = 1 };

/* An event of a trace: an operation is issued, or answered. What isn't named for its kind is not looked at. */
typedef struct torusmem_event {
  uint32_t kind;
  uint32_t processor;     /* below 4096 */
  uint32_t operation;     /* of an issue: TORUSMEM_LOAD .. TORUSMEM_MIN */
  uint32_t address;       /* of an issue */
  uint32_t index;         /* of an answer: which operation of its processor, from 0 in the order of issue */
  uint32_t has_old;       /* of an answer: 1 for an old word, 0 for `ok`, that of a store */
  uint64_t first, second; /* of an issue: the operation's values, as in an answer of a processor */
  uint64_t old;           /* of an answer: the old word, where it has one */
} torusmem_event;

/* Judges a trace: whether one order explains events that are given in the order of time, over a memory that opens with
   these words (docs/FORMATS.md, "Trace text"; docs/CHECK-YOUR-TRACE.md). Needs no machine. Each address is below
   opening_length, so that a trace of other addresses is numbered first. configurations: how many of a word are looked
   at, at once; 1000000 is what the program takes.
   OK: the order, as the places of its operations' issues among the events, from 0, is the first `value` of out, and
   those behind them are as they were. Each operation that is answered is in it; one that isn't may be.
   NOT_LINEARIZABLE: what comes before event `value` has such an order, and with it there is none.
   TOO_MANY, TOO_OPEN: at event `value`; the trace isn't decided.
   SHORT: value is how many are in the order, and out is as it was; so is it on all other codes.
   A fault: event `value` can't stand. F4: it is of no kind, an operation or reply that there isn't, or a reply that
   doesn't go with its operation; F5: the operation is answered already; F6: its processor has no such operation yet;
   F7: its address is not below opening_length; F8: its processor is not below 4096. F12 is out of memory, with 0. */
torusmem_outcome torusmem_linearize(const uint64_t *opening, size_t opening_length, const torusmem_event *events,
                                    size_t events_length, uint64_t configurations, uint64_t *out, size_t out_length)
    TORUSMEM_RESULT;

/* What is said of a trace. */
typedef struct torusmem_said {
  uint32_t code;   /* of the text, as below */
  uint64_t line;   /* the line that it is of, from 1; 0 of a trace that an order explains, and of FAULT_MEMORY */
  uint64_t length; /* of the text; 0 on a fault */
} torusmem_said;

/* Judges the trace of a trace text (docs/FORMATS.md, "Trace text") as torusmem_linearize does, and puts a text into a buffer that
   says why. Needs no machine.
   OK: the operations in an order that explains the trace, a line each, then `linearizable`, as the program prints them.
   NOT_LINEARIZABLE: `not linearizable at line N`, then sentences of `linearize --explain`: what the answer could be,
   what is open on its word there, and which operations show it; they call the text `trace`. A first line `not linearizable by
   line N, undecided at M` says that an earlier line may be the first.
   TOO_MANY, TOO_OPEN: `undecided at line N`, with the reason.
   Of these four, the text is the first `length` bytes of out, and those behind them are as they were.
   SHORT: `length` is what the text needs, and out is as it was; so is it on a fault of the text and on FAULT_MEMORY. Where memory is
   refused for a sentence alone, the text has none. */
torusmem_said torusmem_linearize_answer(const uint8_t *trace, size_t trace_length, uint64_t configurations, uint8_t *out,
                                        size_t out_length) TORUSMEM_RESULT;

/* Kinds of entries of a log. */
enum {
  TORUSMEM_LOG_INIT = 0,         /* the opening word of an address; all of these stand in front */
  TORUSMEM_LOG_MADE = 1,         /* the next operation in a processor's program, or a fence */
  TORUSMEM_LOG_WROTE = 2,        /* an operation wrote next on its word; every one but a load writes */
  TORUSMEM_LOG_READ = 3,         /* a load read what an operation wrote */
  TORUSMEM_LOG_READ_OPENING = 4, /* a load read the opening word */
  TORUSMEM_LOG_SERVED = 5,       /* a load read what the last WROTE above left on its word */
  TORUSMEM_LOG_REPLIED = 6       /* what an operation replied */
};

/* An entry of a log. What isn't named for its kind is not looked at. */
typedef struct torusmem_log_entry {
  uint32_t kind;
  uint32_t processor;                  /* of all but INIT: that of the operation, below 4096 */
  uint32_t index;                      /* of WROTE to REPLIED: which operation of it, from 0; fences count too */
  uint32_t operation;                  /* of MADE: TORUSMEM_LOAD .. TORUSMEM_MIN, or TORUSMEM_FENCE */
  uint32_t address;                    /* of INIT, and of MADE but for a fence */
  uint32_t from_processor, from_index; /* of READ: the operation that wrote */
  uint32_t has_old;                    /* of REPLIED: 1 for an old word, 0 for `ok`, that of a store */
  uint64_t first, second;              /* of INIT: the word, in first; of MADE: the values, as in an answer */
  uint64_t old;                        /* of REPLIED: the old word, where it has one */
} torusmem_log_entry;

/* Memory models, weakest first: coherence; coherence with fences; partial and total store order (SPARC v9); sequential
   consistency (Lamport 1979). Several of them are the sum of their numbers. */
enum {
  TORUSMEM_COHERENT = 1,
  TORUSMEM_FENCED = 2,
  TORUSMEM_PSO = 4,
  TORUSMEM_TSO = 8,
  TORUSMEM_SC = 16
};

/* Which memory models a log obeys. */
typedef struct torusmem_models {
  uint32_t code;   /* OK, SHORT, WRONG_REPLY or a fault */
  uint32_t models; /* of OK and SHORT: those that it obeys; else 0 */
  uint64_t value;  /* of OK and SHORT: the length of the text; else the entry at fault, from 1 */
  uint64_t word;   /* of WRONG_REPLY: the word that the operation finds; else 0 */
  uint64_t writer; /* of WRONG_REPLY: the entry that made the operation which left that word; 0 for the opening word, and else */
} torusmem_models;

/* Judges a log by five memory models: what processors made, the order of each word's writes, and what each load read
   (docs/FORMATS.md, "Log text"), over a memory of so many words, 1 to 2^32. Needs no machine. It looks at time nowhere:
   a processor's program is the order of its MADE entries, a word's order that of its WROTE entries. Each MADE operation
   is named by one WROTE, READ, READ_OPENING or SERVED behind it; a reply may be there or not. Entries are numbered from
   1, and the text calls them lines.
   A text is put into a buffer: a line for each model, as `tso yes`; then the cycle of the weakest model that the log
   breaks, an operation a line with the reason to the next; then, unless order is 0, an order of the strongest that it
   obeys. Each yes and each no is proved.
   OK: the text is the first `value` bytes of out, and the bytes behind them are as they were.
   SHORT: `value` is what the text needs, and out is as it was; so is it on all other codes.
   WRONG_REPLY: at entry `value`; the replies are looked at before any model.
   A fault: entry `value` can't stand. F4: it is of no kind; there is no such operation or reply; it names a fence, a
   load where a write belongs or a write where a load belongs; or the reply doesn't go with its operation. F5: an INIT
   behind a MADE, or of the same address as one before; an operation that was named before, or replied; or a MADE one
   that nothing behind names. F6: the processor has made no such operation so far; with value 0: words is not 1 to 2^32.
   F7: the address is not below words, or a load and its write are on different words. F8: the processor is not below
   4096. F9: there are 4194304 operations already, or operations on 1048576 addresses. F12 is out of memory, with 0. */
torusmem_models torusmem_model(uint64_t words, const torusmem_log_entry *entries, size_t entries_length, uint32_t order,
                               uint8_t *out, size_t out_length) TORUSMEM_RESULT;

/* Which memory models a log obeys by its replies alone. */
typedef struct torusmem_decided {
  uint32_t code;   /* OK, SHORT, UNWRITTEN, LOST_UPDATE or a fault */
  uint32_t obeyed; /* of OK and SHORT: the models that it obeys; else 0 */
  uint32_t broken; /* of OK and SHORT: those that it breaks; else 0. A model is in neither where the search gave up, or
                      annotations or weaker fences leave it open: the text says which */
  uint64_t value;  /* of OK and SHORT: the length of the text; else the line at fault, from 1 */
  uint64_t other;  /* of LOST_UPDATE: the line of the other atomic; else 0 */
} torusmem_decided;

/* Judges the log of a log text (docs/FORMATS.md, "Log text") by five memory models, by what processors made and what was replied
   alone: whether some order of each word's writes, and some write for each load, lets it obey a model. nodes: how many are
   looked at for each model; 10000 is what the program takes. Needs no machine.
   The text that `model --values` prints is put into a buffer: a line for each model, as `tso yes`, or why it has neither yes
   nor no; then, unless order is 0, an order of the strongest that it obeys. Each yes and each no is proved.
   OK: the text is the first `value` bytes of out, and the bytes behind them are as they were.
   SHORT: `value` is what the text needs, and out is as it was; so is it on all other codes.
   UNWRITTEN, LOST_UPDATE: no order explains the log, so every model is broken. A fault: of line `value`, which is refused,
   or FAULT_MEMORY. */
torusmem_decided torusmem_model_values(const uint8_t *log, size_t log_length, uint64_t nodes, uint32_t order, uint8_t *out,
                                       size_t out_length) TORUSMEM_RESULT;

/* What a search for outcomes has found. */
typedef struct torusmem_searched {
  uint32_t code;     /* OK, UNDECIDED, SHORT, TOO_LONG or a fault */
  uint64_t outcomes; /* of OK, UNDECIDED and SHORT: how many are known; they are numbered from 0; else 0 */
  uint64_t states;   /* of these: how many states were looked at; else 0 */
  uint64_t value;    /* of these: the length of the text; of a fault its line; else 0 */
} torusmem_searched;

/* Finds the outcomes of a scripts text on the machine of a machine text, over all schedules (docs/OUTCOMES.md): the replies,
   and the words in the end. states: at most how many states are looked at, 1 to 10000000; 100000 is what the program takes.
   Needs no machine.
   The text that `outcomes` prints is put into a buffer: a line for each outcome that is known, then `exact` or `undecided`
   (docs/FORMATS.md, "Outcomes"). Some run comes to each, and where it is exact there are no others (proved).
   OK: it is exact. UNDECIDED: there may be others. Of these two, the text is the first `value` bytes of out, and the bytes
   behind them are as they were.
   SHORT: `value` is what the text needs, and out is as it was; so is it on all other codes.
   TOO_LONG. A fault: the first one of the machine text, else the first one of the scripts; FAULT_RANGE with value 0: `states`
   isn't 1 to 10000000; or FAULT_MEMORY. A search takes time and memory; where a buffer was short, it is made again. */
torusmem_searched torusmem_outcomes(const uint8_t *machine, size_t machine_length, const uint8_t *scripts,
                                    size_t scripts_length, uint64_t states, uint8_t *out,
                                    size_t out_length) TORUSMEM_RESULT;

/* Finds outcomes as torusmem_outcomes does, and puts the steps of a run to the one of a number into a buffer: the text that
   `outcomes --run` prints, a steps text.
   OK: it is the first `value` bytes of out, and the bytes behind them are as they were. NONE: there is no outcome of this number.
   UNDECIDED: none of this number is known, and there may be others; value is 0, and out is as it was.
   SHORT, TOO_LONG, a fault: as of torusmem_outcomes. */
torusmem_outcome torusmem_outcomes_run(const uint8_t *machine, size_t machine_length, const uint8_t *scripts,
                                       size_t scripts_length, uint64_t states, uint64_t number, uint8_t *out,
                                       size_t out_length) TORUSMEM_RESULT;

/* Finds a run whose replies are those of an answer, as `ok ok / 1 *`: those of each processor that has any, in the order of
   issue, ` / ` between two processors, `*` for any reply. The text that `reach` prints is put into a buffer.
   OK: the steps of a run with these replies, and `# reached`. NEVER: no run of any schedule has them. UNDECIDED: none is
   known that has. Of these three, the text is the first `value` bytes of out, and the bytes behind them are as they were.
   NO_REPLY, OTHER_COUNT: of the answer; value is 0, and out is as it was.
   SHORT, TOO_LONG, a fault: as of torusmem_outcomes. */
torusmem_outcome torusmem_reach(const uint8_t *machine, size_t machine_length, const uint8_t *scripts, size_t scripts_length,
                                const uint8_t *answer, size_t answer_length, uint64_t states, uint8_t *out,
                                size_t out_length) TORUSMEM_RESULT;

/* A watch of a trace that goes on: what torusmem_linearize judges at the end, it judges at each event, so that a host
   checks itself while it runs. Its memory follows the operations that are open, and not the length of the trace. Room
   for a watch is the caller's, as that of a machine: begun by TORUSMEM_WATCH_INIT, then changed by calls alone. */
typedef struct torusmem_watch {
  bool full;
  void *at;
  TORUSMEM_MARK
} torusmem_watch;
#define TORUSMEM_WATCH_INIT { false, NULL TORUSMEM_MARKED(TORUSMEM_IS_WATCH) }

/* Begins a watch of a trace, before its first event, over a memory that opens with these words. Each address is below
   opening_length. OK; FULL; FAULT_MEMORY. On anything but OK, *w is as it was. The words may go after the call. */
torusmem_outcome torusmem_watch_begin(torusmem_watch *w, const uint64_t *opening, size_t opening_length)
    TORUSMEM_RESULT;

/* Takes the next event, the issue of an operation, TORUSMEM_LOAD .. TORUSMEM_MIN with its values as in a
   torusmem_event. number: any that is above the numbers of all operations that were issued before; its answer names it.
   OK: the event is taken. Else it isn't, and the watch goes on as if it had not been given:
   NONE: there is no such operation or address, or the number isn't above the last one; FAULT_MEMORY; EMPTY. */
torusmem_outcome torusmem_watch_issue(torusmem_watch *w, uint64_t number, uint32_t operation, uint32_t address,
                                      uint64_t first, uint64_t second) TORUSMEM_RESULT;

/* Takes the next event, the answer to the operation of a number: has_old is 1 for an old word, 0 for `ok`, that of a
   store. configurations: how many of its word are looked at, at once; 1000000 is what the program takes. That is enough
   while at most 9 operations are open on one word; of 10 adds of equal values it is not.
   OK: the event is taken, and one order explains the trace with it. Else it isn't taken, and the watch goes on as if it
   had not been given:
   NOT_LINEARIZABLE: with this event no order explains the trace any more, and without it one does.
   TOO_MANY: it isn't decided, since its word has more configurations; FAULT_MEMORY.
   NONE: no operation of this number is open, or has_old is neither 0 nor 1; EMPTY. */
torusmem_outcome torusmem_watch_answer(torusmem_watch *w, uint64_t number, uint32_t has_old, uint64_t old,
                                       uint64_t configurations) TORUSMEM_RESULT;

/* Makes the same watch once more in *fresh, which is empty: it knows of the trace what *w knows, and goes on by itself, as
   where a simulator forks. The two share nothing. OK; FULL: *fresh isn't empty; EMPTY: *w is; FAULT_MEMORY. *w is as it was,
   and but for OK so is *fresh. w and fresh are not the same. */
torusmem_outcome torusmem_watch_clone(torusmem_watch *w, torusmem_watch *fresh) TORUSMEM_RESULT;

/* Puts what a watch knows into a buffer as bytes, in the form of docs/FORMATS.md, "Record of a machine".
   torusmem_watch_restore makes a watch of them that answers every later event as this one would. They follow the words, the
   operations that are open and the configurations that are held, and not the length of the trace. The watch goes on as if
   nothing was saved.
   OK: they are the first `value` of out, and the bytes behind them are as they were. SHORT: value is how many there are, and
   out is as it was; so is it on FAULT_MEMORY and EMPTY. */
torusmem_outcome torusmem_watch_save(torusmem_watch *w, uint8_t *out, size_t out_length) TORUSMEM_RESULT;

/* Makes the watch of saved bytes in *w, which is empty. It knows of the trace what the saved one knew, and goes on by itself.
   OK, value: the lowest number that torusmem_watch_issue takes next; FULL; FAULT_MEMORY; BAD_RECORD: no torusmem_watch_save
   gives these bytes: one is changed, they are cut, or of another kind. value: the place, from 0, where they are no record; 48
   where they are one of something else, as of a machine, which torusmem_restore takes. On anything but OK, *w is as it was. The
   bytes may go after the call. */
torusmem_outcome torusmem_watch_restore(torusmem_watch *w, const uint8_t *bytes, size_t bytes_length) TORUSMEM_RESULT;

/* Ends the watch that *w holds, if any, and gives its memory back. It may be begun again then. */
void torusmem_watch_end(torusmem_watch *w);

#ifdef TORUSMEM_DEBUG
#include <errno.h>
#include <stdio.h>
#include <stdlib.h>

/* Where this thread's last call stands, and the tickets of the calls that it is in: one may stand in the words of another. */
static __thread struct { const char *call, *file; int line; } torusmem_place;
static __thread struct { unsigned depth; torusmem_ticket *tickets[8]; } torusmem_inside;

/* Says what is wrong with a handle or a text that a call is given, and aborts. */
static inline void torusmem_look_at(bool is_right, const char *why, const char *call, const char *file, int line) {
  torusmem_place.call = call, torusmem_place.file = file, torusmem_place.line = line;
  if (is_right) return;
  fprintf(stderr, "%s:%d: %s: %s\n", file, line, call, why);
  abort();
}
#endif

/* The library's own calls take no null pointer. So a C program that calls one of the twenty-eight below has a call in front
   of it, by which a pointer with the length 0 becomes one to an item that is not looked at. */
#ifdef TORUSMEM_DEBUG
static inline void torusmem_look_at_items(const void *at, size_t length, const char *why) {
  torusmem_look_at(at != NULL || length == 0, why, torusmem_place.call, torusmem_place.file, torusmem_place.line);
}
#define TORUSMEM_ITEMS(at, length, none, what) \
  (torusmem_look_at_items(at, length, what " is null, and its length isn't 0"), (length) > 0 ? (at) : (none))
#else
#define TORUSMEM_ITEMS(at, length, none, what) ((length) > 0 ? (at) : (none))
#endif
#define TORUSMEM_LIST(at, none) TORUSMEM_ITEMS(at, at##_length, none, "a list")
#define TORUSMEM_OUT(none) TORUSMEM_ITEMS(out, out_length, none, "a buffer")

static inline const uint8_t *torusmem_text_at(const uint8_t *at, size_t length) {
  static const uint8_t none = 0;
  return TORUSMEM_ITEMS(at, length, &none, "a text");
}

TORUSMEM_RESULT
static inline torusmem_outcome torusmem_load_texts(torusmem_machine *m, const uint8_t *machine, size_t machine_length,
                                                   const uint8_t *scripts, size_t scripts_length) {
  return torusmem_load(m, torusmem_text_at(machine, machine_length), machine_length,
                       torusmem_text_at(scripts, scripts_length), scripts_length);
}
#define torusmem_load torusmem_load_texts

TORUSMEM_RESULT
static inline torusmem_outcome torusmem_load_recorded_texts(torusmem_machine *m, const uint8_t *machine,
                                                            size_t machine_length, const uint8_t *scripts,
                                                            size_t scripts_length) {
  return torusmem_load_recorded(m, torusmem_text_at(machine, machine_length), machine_length,
                                torusmem_text_at(scripts, scripts_length), scripts_length);
}
#define torusmem_load_recorded torusmem_load_recorded_texts

TORUSMEM_RESULT
static inline torusmem_outcome torusmem_save_into(torusmem_machine *m, uint8_t *out, size_t out_length) {
  uint8_t none = 0;
  return torusmem_save(m, TORUSMEM_OUT(&none), out_length);
}
#define torusmem_save torusmem_save_into

TORUSMEM_RESULT
static inline torusmem_outcome torusmem_restore_bytes(torusmem_machine *m, const uint8_t *bytes, size_t bytes_length) {
  return torusmem_restore(m, torusmem_text_at(bytes, bytes_length), bytes_length);
}
#define torusmem_restore torusmem_restore_bytes

TORUSMEM_RESULT
static inline torusmem_outcome torusmem_open_with(torusmem_machine *m, const struct torusmem_shape *shape,
                                                  const uint64_t *words, size_t words_length) {
  static const uint64_t none = 0;
  return torusmem_open(m, shape, TORUSMEM_LIST(words, &none), words_length);
}
#define torusmem_open torusmem_open_with

TORUSMEM_RESULT
static inline torusmem_outcome torusmem_open_recorded_with(torusmem_machine *m, const struct torusmem_shape *shape,
                                                           const uint64_t *words, size_t words_length) {
  static const uint64_t none = 0;
  return torusmem_open_recorded(m, shape, TORUSMEM_LIST(words, &none), words_length);
}
#define torusmem_open_recorded torusmem_open_recorded_with

TORUSMEM_RESULT
static inline torusmem_explanation torusmem_explain_texts(const uint8_t *machine, size_t machine_length,
                                                          const uint8_t *scripts, size_t scripts_length, uint8_t *out,
                                                          size_t out_length) {
  uint8_t none = 0;
  return torusmem_explain(torusmem_text_at(machine, machine_length), machine_length,
                          torusmem_text_at(scripts, scripts_length), scripts_length, TORUSMEM_OUT(&none),
                          out_length);
}
#define torusmem_explain torusmem_explain_texts

static inline torusmem_outcome torusmem_run_all(torusmem_machine *m, const torusmem_attempt *attempts,
                                                size_t attempts_length) {
  static const torusmem_attempt none = { 0, 0, 0 };
  return torusmem_run(m, TORUSMEM_LIST(attempts, &none), attempts_length);
}
#define torusmem_run torusmem_run_all

TORUSMEM_RESULT
static inline torusmem_outcome torusmem_rows_into(torusmem_machine *m, uint64_t *out, size_t out_length) {
  uint64_t none = 0;
  return torusmem_rows(m, TORUSMEM_OUT(&none), out_length);
}
#define torusmem_rows torusmem_rows_into

TORUSMEM_RESULT
static inline torusmem_outcome torusmem_spins_out_into(torusmem_machine *m, const uint8_t *machine,
                                                       size_t machine_length, const uint8_t *scripts,
                                                       size_t scripts_length, torusmem_spin *out, size_t out_length) {
  torusmem_spin none = { 0, 0, 0, 0, 0 };
  return torusmem_spins_out(m, torusmem_text_at(machine, machine_length), machine_length,
                            torusmem_text_at(scripts, scripts_length), scripts_length, TORUSMEM_OUT(&none),
                            out_length);
}
#define torusmem_spins_out torusmem_spins_out_into

TORUSMEM_RESULT
static inline torusmem_outcome torusmem_order_into(torusmem_machine *m, uint32_t from, torusmem_ordered *out,
                                                   size_t out_length) {
  torusmem_ordered none = { 0, 0, 0, 0, 0, 0, 0 };
  return torusmem_order(m, from, TORUSMEM_OUT(&none), out_length);
}
#define torusmem_order torusmem_order_into

TORUSMEM_RESULT
static inline torusmem_outcome torusmem_events_into(torusmem_machine *m, uint32_t from, torusmem_happened *out,
                                                    size_t out_length) {
  torusmem_happened none = { 0, 0, { 0, 0, 0, 0, 0, 0, 0 } };
  return torusmem_events(m, from, TORUSMEM_OUT(&none), out_length);
}
#define torusmem_events torusmem_events_into

TORUSMEM_RESULT
static inline torusmem_outcome torusmem_events_from_into(torusmem_machine *m, uint32_t row, uint32_t from,
                                                         torusmem_happened *out, size_t out_length) {
  torusmem_happened none = { 0, 0, { 0, 0, 0, 0, 0, 0, 0 } };
  return torusmem_events_from(m, row, from, TORUSMEM_OUT(&none), out_length);
}
#define torusmem_events_from torusmem_events_from_into

TORUSMEM_RESULT
static inline torusmem_outcome torusmem_report_into(torusmem_machine *m, uint8_t *out, size_t out_length) {
  uint8_t none = 0;
  return torusmem_report(m, TORUSMEM_OUT(&none), out_length);
}
#define torusmem_report torusmem_report_into

TORUSMEM_RESULT
static inline torusmem_outcome torusmem_check_text(const uint8_t *report, size_t report_length) {
  return torusmem_check(torusmem_text_at(report, report_length), report_length);
}
#define torusmem_check torusmem_check_text

TORUSMEM_RESULT
static inline torusmem_outcome torusmem_network_text(const uint8_t *network, size_t network_length, uint8_t *out,
                                                     size_t out_length) {
  uint8_t none = 0;
  return torusmem_network(torusmem_text_at(network, network_length), network_length, TORUSMEM_OUT(&none),
                          out_length);
}
#define torusmem_network torusmem_network_text

TORUSMEM_RESULT
static inline torusmem_outcome torusmem_network_answer_text(const uint8_t *network, size_t network_length, uint8_t *out,
                                                            size_t out_length) {
  uint8_t none = 0;
  return torusmem_network_answer(torusmem_text_at(network, network_length), network_length, TORUSMEM_OUT(&none), out_length);
}
#define torusmem_network_answer torusmem_network_answer_text

TORUSMEM_RESULT
static inline torusmem_outcome torusmem_linearize_events(const uint64_t *opening, size_t opening_length,
                                                         const torusmem_event *events, size_t events_length,
                                                         uint64_t configurations, uint64_t *out, size_t out_length) {
  static const torusmem_event no_event = { 0, 0, 0, 0, 0, 0, 0, 0, 0 };
  uint64_t none = 0;
  return torusmem_linearize(TORUSMEM_LIST(opening, &none), opening_length,
                            TORUSMEM_LIST(events, &no_event), events_length, configurations,
                            TORUSMEM_OUT(&none), out_length);
}
#define torusmem_linearize torusmem_linearize_events

TORUSMEM_RESULT
static inline torusmem_said torusmem_linearize_answer_text(const uint8_t *trace, size_t trace_length, uint64_t configurations,
                                                           uint8_t *out, size_t out_length) {
  uint8_t none = 0;
  return torusmem_linearize_answer(torusmem_text_at(trace, trace_length), trace_length, configurations,
                                   TORUSMEM_OUT(&none), out_length);
}
#define torusmem_linearize_answer torusmem_linearize_answer_text

TORUSMEM_RESULT
static inline torusmem_models torusmem_model_entries(uint64_t words, const torusmem_log_entry *entries,
                                                     size_t entries_length, uint32_t order, uint8_t *out,
                                                     size_t out_length) {
  static const torusmem_log_entry no_entry = { 0, 0, 0, 0, 0, 0, 0, 0, 0, 0, 0 };
  uint8_t none = 0;
  return torusmem_model(words, TORUSMEM_LIST(entries, &no_entry), entries_length, order,
                        TORUSMEM_OUT(&none), out_length);
}
#define torusmem_model torusmem_model_entries

TORUSMEM_RESULT
static inline torusmem_decided torusmem_model_values_text(const uint8_t *log, size_t log_length, uint64_t nodes, uint32_t order,
                                                          uint8_t *out, size_t out_length) {
  uint8_t none = 0;
  return torusmem_model_values(torusmem_text_at(log, log_length), log_length, nodes, order, TORUSMEM_OUT(&none), out_length);
}
#define torusmem_model_values torusmem_model_values_text

TORUSMEM_RESULT
static inline torusmem_searched torusmem_outcomes_text(const uint8_t *machine, size_t machine_length, const uint8_t *scripts,
                                                       size_t scripts_length, uint64_t states, uint8_t *out,
                                                       size_t out_length) {
  uint8_t none = 0;
  return torusmem_outcomes(torusmem_text_at(machine, machine_length), machine_length,
                           torusmem_text_at(scripts, scripts_length), scripts_length, states, TORUSMEM_OUT(&none),
                           out_length);
}
#define torusmem_outcomes torusmem_outcomes_text

TORUSMEM_RESULT
static inline torusmem_outcome torusmem_outcomes_run_text(const uint8_t *machine, size_t machine_length,
                                                          const uint8_t *scripts, size_t scripts_length, uint64_t states,
                                                          uint64_t number, uint8_t *out, size_t out_length) {
  uint8_t none = 0;
  return torusmem_outcomes_run(torusmem_text_at(machine, machine_length), machine_length,
                               torusmem_text_at(scripts, scripts_length), scripts_length, states, number,
                               TORUSMEM_OUT(&none), out_length);
}
#define torusmem_outcomes_run torusmem_outcomes_run_text

TORUSMEM_RESULT
static inline torusmem_outcome torusmem_reach_text(const uint8_t *machine, size_t machine_length, const uint8_t *scripts,
                                                   size_t scripts_length, const uint8_t *answer, size_t answer_length,
                                                   uint64_t states, uint8_t *out, size_t out_length) {
  uint8_t none = 0;
  return torusmem_reach(torusmem_text_at(machine, machine_length), machine_length,
                        torusmem_text_at(scripts, scripts_length), scripts_length,
                        torusmem_text_at(answer, answer_length), answer_length, states, TORUSMEM_OUT(&none), out_length);
}
#define torusmem_reach torusmem_reach_text

TORUSMEM_RESULT
static inline torusmem_outcome torusmem_watch_begin_at(torusmem_watch *w, const uint64_t *opening,
                                                       size_t opening_length) {
  static const uint64_t none = 0;
  return torusmem_watch_begin(w, TORUSMEM_LIST(opening, &none), opening_length);
}
#define torusmem_watch_begin torusmem_watch_begin_at

TORUSMEM_RESULT
static inline torusmem_outcome torusmem_watch_save_into(torusmem_watch *w, uint8_t *out, size_t out_length) {
  uint8_t none = 0;
  return torusmem_watch_save(w, TORUSMEM_OUT(&none), out_length);
}
#define torusmem_watch_save torusmem_watch_save_into

TORUSMEM_RESULT
static inline torusmem_outcome torusmem_watch_restore_bytes(torusmem_watch *w, const uint8_t *bytes, size_t bytes_length) {
  return torusmem_watch_restore(w, torusmem_text_at(bytes, bytes_length), bytes_length);
}
#define torusmem_watch_restore torusmem_watch_restore_bytes

TORUSMEM_RESULT
static inline torusmem_outcome torusmem_route_into(torusmem_machine *m, uint32_t src, uint32_t dst, uint32_t reply,
                                                   torusmem_channel *out, size_t out_length) {
  torusmem_channel none = { 0, 0, 0, 0, 0, 0 };
  return torusmem_route(m, src, dst, reply, TORUSMEM_OUT(&none), out_length);
}
#define torusmem_route torusmem_route_into

#ifdef TORUSMEM_DEBUG
/* Enters a call with what this ticket is of, unless another thread is in one. */
static inline void torusmem_enter(torusmem_ticket *ticket, const char *call, const char *file, int line) {
  const void *other = NULL, *here = &errno;
  if (!__atomic_compare_exchange_n(&ticket->thread, &other, here, false, __ATOMIC_ACQUIRE, __ATOMIC_RELAXED)) {
    if (other == here) return;
    fprintf(stderr, "%s:%d: %s: another thread is in %s with the handle\n", file, line, call,
            __atomic_load_n(&ticket->call, __ATOMIC_RELAXED));
    abort();
  }
  __atomic_store_n(&ticket->call, call, __ATOMIC_RELAXED);
  if (torusmem_inside.depth < 8) torusmem_inside.tickets[torusmem_inside.depth++] = ticket;
  else __atomic_store_n(&ticket->thread, NULL, __ATOMIC_RELEASE);
}

/* Leaves the calls that this thread is in. */
static inline void torusmem_leave(void) {
  while (torusmem_inside.depth > 0)
    __atomic_store_n(&torusmem_inside.tickets[--torusmem_inside.depth]->thread, NULL, __ATOMIC_RELEASE);
}

#define TORUSMEM_LEFT(name, answer) static inline answer name(answer said) { torusmem_leave(); return said; }
TORUSMEM_LEFT(torusmem_left, torusmem_outcome)
TORUSMEM_LEFT(torusmem_left_answer, torusmem_answer)
TORUSMEM_LEFT(torusmem_left_entry, torusmem_entry)
TORUSMEM_LEFT(torusmem_left_length, size_t)

/* Looks at the mark of a handle, and counts the call: a copy that is left behind has another count than the ticket. */
static inline void torusmem_look_at_mark(bool full, uint64_t mark, uint64_t wanted, uint64_t *calls, torusmem_ticket *ticket,
                                         const char *call, const char *file, int line) {
  bool is_other = mark == TORUSMEM_IS_MACHINE || mark == TORUSMEM_IS_WATCH;
  torusmem_look_at(mark == wanted || !is_other, "the handle is of the other kind, a machine or a watch", call, file, line);
  torusmem_look_at(mark == wanted, "the handle was not initialized", call, file, line);
  torusmem_look_at(full == (ticket != NULL), "the handle was changed by other means than calls", call, file, line);
  if (ticket == NULL) return;
  torusmem_enter(ticket, call, file, line);
  torusmem_look_at(!ticket->gone, "the handle is a copy of one that was freed", call, file, line);
  torusmem_look_at(*calls == ticket->calls, "the handle is a copy of one that was used since", call, file, line);
  *calls = ++ticket->calls;
}

/* A ticket for what a handle holds now, once a call has filled it. */
static inline torusmem_ticket *torusmem_ticket_of(bool full, torusmem_ticket *ticket, uint64_t *calls) {
  if (!full || ticket != NULL) return ticket;
  *calls = 0;
  ticket = (torusmem_ticket *)calloc(1, sizeof *ticket);
  if (ticket == NULL) abort();
  return ticket;
}

static inline torusmem_machine *torusmem_marked(torusmem_machine *m, const char *call, const char *file, int line) {
  torusmem_look_at(m != NULL, "the pointer is null", call, file, line);
  torusmem_look_at_mark(m->full, m->mark, TORUSMEM_IS_MACHINE, &m->calls, m->ticket, call, file, line);
  return m;
}

static inline torusmem_watch *torusmem_watch_marked(torusmem_watch *w, const char *call, const char *file, int line) {
  torusmem_look_at(w != NULL, "the pointer is null", call, file, line);
  torusmem_look_at_mark(w->full, w->mark, TORUSMEM_IS_WATCH, &w->calls, w->ticket, call, file, line);
  return w;
}

TORUSMEM_RESULT
static inline torusmem_outcome torusmem_load_marked(torusmem_machine *m, const uint8_t *machine, size_t machine_length,
                                                    const uint8_t *scripts, size_t scripts_length) {
  torusmem_outcome said = torusmem_load(m, machine, machine_length, scripts, scripts_length);
  m->ticket = torusmem_ticket_of(m->full, m->ticket, &m->calls);
  return said;
}

TORUSMEM_RESULT
static inline torusmem_outcome torusmem_open_marked(torusmem_machine *m, const struct torusmem_shape *shape,
                                                    const uint64_t *words, size_t words_length) {
  torusmem_outcome said = torusmem_open(m, shape, words, words_length);
  m->ticket = torusmem_ticket_of(m->full, m->ticket, &m->calls);
  return said;
}

TORUSMEM_RESULT
static inline torusmem_outcome torusmem_open_recorded_marked(torusmem_machine *m, const struct torusmem_shape *shape,
                                                             const uint64_t *words, size_t words_length) {
  torusmem_outcome said = torusmem_open_recorded(m, shape, words, words_length);
  m->ticket = torusmem_ticket_of(m->full, m->ticket, &m->calls);
  return said;
}

TORUSMEM_RESULT
static inline torusmem_outcome torusmem_reopen_marked(torusmem_machine *m, torusmem_machine *fresh, const char *file,
                                                      int line) {
  torusmem_look_at(m != fresh, "the two machines are one", "torusmem_reopen", file, line);
  torusmem_outcome said = torusmem_reopen(m, fresh);
  fresh->ticket = torusmem_ticket_of(fresh->full, fresh->ticket, &fresh->calls);
  return said;
}

TORUSMEM_RESULT
static inline torusmem_outcome torusmem_load_recorded_marked(torusmem_machine *m, const uint8_t *machine,
                                                             size_t machine_length, const uint8_t *scripts,
                                                             size_t scripts_length) {
  torusmem_outcome said = torusmem_load_recorded(m, machine, machine_length, scripts, scripts_length);
  m->ticket = torusmem_ticket_of(m->full, m->ticket, &m->calls);
  return said;
}

TORUSMEM_RESULT
static inline torusmem_outcome torusmem_restore_marked(torusmem_machine *m, const uint8_t *bytes, size_t bytes_length) {
  torusmem_outcome said = torusmem_restore(m, bytes, bytes_length);
  m->ticket = torusmem_ticket_of(m->full, m->ticket, &m->calls);
  return said;
}

TORUSMEM_RESULT
static inline torusmem_outcome torusmem_clone_marked(torusmem_machine *m, torusmem_machine *fresh, const char *file,
                                                     int line) {
  torusmem_look_at(m != fresh, "the two machines are one", "torusmem_clone", file, line);
  torusmem_outcome said = torusmem_clone(m, fresh);
  fresh->ticket = torusmem_ticket_of(fresh->full, fresh->ticket, &fresh->calls);
  return said;
}

static inline void torusmem_free_marked(torusmem_machine *m) {
  torusmem_free(m);
  if (m->ticket != NULL) m->ticket->gone = true;
  m->ticket = NULL;
  torusmem_leave();
}

TORUSMEM_RESULT
static inline torusmem_outcome torusmem_watch_begin_marked(torusmem_watch *w, const uint64_t *opening,
                                                           size_t opening_length) {
  torusmem_outcome said = torusmem_watch_begin(w, opening, opening_length);
  w->ticket = torusmem_ticket_of(w->full, w->ticket, &w->calls);
  return said;
}

TORUSMEM_RESULT
static inline torusmem_outcome torusmem_watch_clone_marked(torusmem_watch *w, torusmem_watch *fresh, const char *file,
                                                           int line) {
  torusmem_look_at(w != fresh, "the two watches are one", "torusmem_watch_clone", file, line);
  torusmem_outcome said = torusmem_watch_clone(w, fresh);
  fresh->ticket = torusmem_ticket_of(fresh->full, fresh->ticket, &fresh->calls);
  return said;
}

TORUSMEM_RESULT
static inline torusmem_outcome torusmem_watch_restore_marked(torusmem_watch *w, const uint8_t *bytes, size_t bytes_length) {
  torusmem_outcome said = torusmem_watch_restore(w, bytes, bytes_length);
  w->ticket = torusmem_ticket_of(w->full, w->ticket, &w->calls);
  return said;
}

static inline void torusmem_watch_end_marked(torusmem_watch *w) {
  torusmem_watch_end(w);
  if (w->ticket != NULL) w->ticket->gone = true;
  w->ticket = NULL;
  torusmem_leave();
}

#define TORUSMEM_MACHINE(m, call) torusmem_marked(m, call, __FILE__, __LINE__)
#define TORUSMEM_WATCH(w, call) torusmem_watch_marked(w, call, __FILE__, __LINE__)
#define TORUSMEM_HERE(call) torusmem_look_at(true, "", call, __FILE__, __LINE__)
#undef torusmem_explain
#undef torusmem_check
#undef torusmem_network
#undef torusmem_network_answer
#undef torusmem_linearize
#undef torusmem_linearize_answer
#undef torusmem_model
#undef torusmem_model_values
#undef torusmem_outcomes
#undef torusmem_outcomes_run
#undef torusmem_reach
#define torusmem_linearize(...) (TORUSMEM_HERE("torusmem_linearize"), torusmem_linearize_events(__VA_ARGS__))
#define torusmem_linearize_answer(...) (TORUSMEM_HERE("torusmem_linearize_answer"), torusmem_linearize_answer_text(__VA_ARGS__))
#define torusmem_model(...) (TORUSMEM_HERE("torusmem_model"), torusmem_model_entries(__VA_ARGS__))
#define torusmem_model_values(...) (TORUSMEM_HERE("torusmem_model_values"), torusmem_model_values_text(__VA_ARGS__))
#define torusmem_outcomes(...) (TORUSMEM_HERE("torusmem_outcomes"), torusmem_outcomes_text(__VA_ARGS__))
#define torusmem_outcomes_run(...) (TORUSMEM_HERE("torusmem_outcomes_run"), torusmem_outcomes_run_text(__VA_ARGS__))
#define torusmem_reach(...) (TORUSMEM_HERE("torusmem_reach"), torusmem_reach_text(__VA_ARGS__))
#define torusmem_explain(...) (TORUSMEM_HERE("torusmem_explain"), torusmem_explain_texts(__VA_ARGS__))
#define torusmem_check(...) (TORUSMEM_HERE("torusmem_check"), torusmem_check_text(__VA_ARGS__))
#define torusmem_network(...) (TORUSMEM_HERE("torusmem_network"), torusmem_network_text(__VA_ARGS__))
#define torusmem_network_answer(...) (TORUSMEM_HERE("torusmem_network_answer"), torusmem_network_answer_text(__VA_ARGS__))
#undef torusmem_load
#undef torusmem_load_recorded
#undef torusmem_restore
#undef torusmem_open
#undef torusmem_open_recorded
#undef torusmem_watch_begin
#define torusmem_open(m, ...) torusmem_left(torusmem_open_marked(TORUSMEM_MACHINE(m, "torusmem_open"), __VA_ARGS__))
#define torusmem_open_recorded(m, ...) \
  torusmem_left(torusmem_open_recorded_marked(TORUSMEM_MACHINE(m, "torusmem_open_recorded"), __VA_ARGS__))
#define torusmem_reopen(m, fresh) \
  torusmem_left(torusmem_reopen_marked(TORUSMEM_MACHINE(m, "torusmem_reopen"), TORUSMEM_MACHINE(fresh, "torusmem_reopen"), \
  __FILE__, __LINE__))
#define torusmem_load(m, ...) torusmem_left(torusmem_load_marked(TORUSMEM_MACHINE(m, "torusmem_load"), __VA_ARGS__))
#define torusmem_load_recorded(m, ...) \
  torusmem_left(torusmem_load_recorded_marked(TORUSMEM_MACHINE(m, "torusmem_load_recorded"), __VA_ARGS__))
#undef torusmem_save
#define torusmem_save(m, ...) torusmem_left(torusmem_save_into(TORUSMEM_MACHINE(m, "torusmem_save"), __VA_ARGS__))
#define torusmem_restore(m, ...) \
  torusmem_left(torusmem_restore_marked(TORUSMEM_MACHINE(m, "torusmem_restore"), __VA_ARGS__))
#define torusmem_clone(m, fresh) \
  torusmem_left(torusmem_clone_marked(TORUSMEM_MACHINE(m, "torusmem_clone"), TORUSMEM_MACHINE(fresh, "torusmem_clone"), \
  __FILE__, __LINE__))
#define torusmem_free(m) torusmem_free_marked(TORUSMEM_MACHINE(m, "torusmem_free"))
#define torusmem_watch_begin(w, ...) \
  torusmem_left(torusmem_watch_begin_marked(TORUSMEM_WATCH(w, "torusmem_watch_begin"), __VA_ARGS__))
#define torusmem_watch_end(w) torusmem_watch_end_marked(TORUSMEM_WATCH(w, "torusmem_watch_end"))
#define torusmem_step(m, ...) torusmem_left(torusmem_step(TORUSMEM_MACHINE(m, "torusmem_step"), __VA_ARGS__))
#undef torusmem_run
#define torusmem_run(m, ...) torusmem_left(torusmem_run_all(TORUSMEM_MACHINE(m, "torusmem_run"), __VA_ARGS__))
#define torusmem_enabled(m, ...) torusmem_left(torusmem_enabled(TORUSMEM_MACHINE(m, "torusmem_enabled"), __VA_ARGS__))
#define torusmem_round(m) torusmem_left(torusmem_round(TORUSMEM_MACHINE(m, "torusmem_round")))
#define torusmem_finish(m) torusmem_left(torusmem_finish(TORUSMEM_MACHINE(m, "torusmem_finish")))
#define torusmem_fair_round(m) torusmem_left(torusmem_fair_round(TORUSMEM_MACHINE(m, "torusmem_fair_round")))
#define torusmem_fair_rounds(m, ...) \
  torusmem_left(torusmem_fair_rounds(TORUSMEM_MACHINE(m, "torusmem_fair_rounds"), __VA_ARGS__))
#define torusmem_clocked_round(m, ...) \
  torusmem_left(torusmem_clocked_round(TORUSMEM_MACHINE(m, "torusmem_clocked_round"), __VA_ARGS__))
#define torusmem_finish_clocked(m) \
  torusmem_left(torusmem_finish_clocked(TORUSMEM_MACHINE(m, "torusmem_finish_clocked")))
#define torusmem_append(m, ...) torusmem_left(torusmem_append(TORUSMEM_MACHINE(m, "torusmem_append"), __VA_ARGS__))
#define torusmem_ask(m, ...) torusmem_left(torusmem_ask(TORUSMEM_MACHINE(m, "torusmem_ask"), __VA_ARGS__))
#define torusmem_explain_line(m, ...) \
  torusmem_left_length(torusmem_explain_line(TORUSMEM_MACHINE(m, "torusmem_explain_line"), __VA_ARGS__))
#define torusmem_finished(m) torusmem_left(torusmem_finished(TORUSMEM_MACHINE(m, "torusmem_finished")))
#define torusmem_moves_left(m) torusmem_left(torusmem_moves_left(TORUSMEM_MACHINE(m, "torusmem_moves_left")))
#define torusmem_shape(m, ...) torusmem_left(torusmem_shape(TORUSMEM_MACHINE(m, "torusmem_shape"), __VA_ARGS__))
#define torusmem_tiles(m) torusmem_left(torusmem_tiles(TORUSMEM_MACHINE(m, "torusmem_tiles")))
#define torusmem_words(m) torusmem_left(torusmem_words(TORUSMEM_MACHINE(m, "torusmem_words")))
#define torusmem_word(m, ...) torusmem_left(torusmem_word(TORUSMEM_MACHINE(m, "torusmem_word"), __VA_ARGS__))
#define torusmem_row(m, ...) torusmem_left(torusmem_row(TORUSMEM_MACHINE(m, "torusmem_row"), __VA_ARGS__))
#undef torusmem_rows
#define torusmem_rows(m, ...) torusmem_left(torusmem_rows_into(TORUSMEM_MACHINE(m, "torusmem_rows"), __VA_ARGS__))
#define torusmem_answers(m, ...) torusmem_left(torusmem_answers(TORUSMEM_MACHINE(m, "torusmem_answers"), __VA_ARGS__))
#define torusmem_answer_at(m, ...) \
  torusmem_left_answer(torusmem_answer_at(TORUSMEM_MACHINE(m, "torusmem_answer_at"), __VA_ARGS__))
#define torusmem_answer_of(m, ...) \
  torusmem_left_answer(torusmem_answer_of(TORUSMEM_MACHINE(m, "torusmem_answer_of"), __VA_ARGS__))
#define torusmem_entries(m, ...) torusmem_left(torusmem_entries(TORUSMEM_MACHINE(m, "torusmem_entries"), __VA_ARGS__))
#define torusmem_entry_at(m, ...) \
  torusmem_left_entry(torusmem_entry_at(TORUSMEM_MACHINE(m, "torusmem_entry_at"), __VA_ARGS__))
#undef torusmem_order
#define torusmem_order(m, ...) torusmem_left(torusmem_order_into(TORUSMEM_MACHINE(m, "torusmem_order"), __VA_ARGS__))
#undef torusmem_events
#define torusmem_events(m, ...) torusmem_left(torusmem_events_into(TORUSMEM_MACHINE(m, "torusmem_events"), __VA_ARGS__))
#undef torusmem_events_from
#define torusmem_events_from(m, ...) \
  torusmem_left(torusmem_events_from_into(TORUSMEM_MACHINE(m, "torusmem_events_from"), __VA_ARGS__))
#define torusmem_answered_to(m, ...) \
  torusmem_left(torusmem_answered_to(TORUSMEM_MACHINE(m, "torusmem_answered_to"), __VA_ARGS__))
#undef torusmem_spins_out
#define torusmem_spins_out(m, ...) \
  torusmem_left(torusmem_spins_out_into(TORUSMEM_MACHINE(m, "torusmem_spins_out"), __VA_ARGS__))
#undef torusmem_report
#define torusmem_report(m, ...) torusmem_left(torusmem_report_into(TORUSMEM_MACHINE(m, "torusmem_report"), __VA_ARGS__))
#undef torusmem_route
#define torusmem_route(m, ...) torusmem_left(torusmem_route_into(TORUSMEM_MACHINE(m, "torusmem_route"), __VA_ARGS__))
#define torusmem_next(m, ...) torusmem_left(torusmem_next(TORUSMEM_MACHINE(m, "torusmem_next"), __VA_ARGS__))
#define torusmem_watch_clone(w, fresh) \
  torusmem_left(torusmem_watch_clone_marked(TORUSMEM_WATCH(w, "torusmem_watch_clone"), \
  TORUSMEM_WATCH(fresh, "torusmem_watch_clone"), __FILE__, __LINE__))
#undef torusmem_watch_save
#define torusmem_watch_save(w, ...) \
  torusmem_left(torusmem_watch_save_into(TORUSMEM_WATCH(w, "torusmem_watch_save"), __VA_ARGS__))
#undef torusmem_watch_restore
#define torusmem_watch_restore(w, ...) \
  torusmem_left(torusmem_watch_restore_marked(TORUSMEM_WATCH(w, "torusmem_watch_restore"), __VA_ARGS__))
#define torusmem_watch_issue(m, ...) \
  torusmem_left(torusmem_watch_issue(TORUSMEM_WATCH(m, "torusmem_watch_issue"), __VA_ARGS__))
#define torusmem_watch_answer(m, ...) \
  torusmem_left(torusmem_watch_answer(TORUSMEM_WATCH(m, "torusmem_watch_answer"), __VA_ARGS__))
#endif

#ifdef __cplusplus
}
#endif
#endif
