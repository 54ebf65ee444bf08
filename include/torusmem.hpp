// torusmem in C++ (C++11 and later): the calls of torusmem.h as classes that free what they hold.
//
// A machine or watch is moved, not copied, and goes from thread to thread as torusmem.h says. A call that is refused
// throws torusmem::error. Texts are anything with data() and size(), lists a span: std::span where there is one, else a
// pointer with a length that converts from arrays, vectors and the like.
#ifndef TORUSMEM_HPP
#define TORUSMEM_HPP
#include <cstddef>
#include <cstdint>
#include <stdexcept>
#include <string>
#include <utility>
#include <vector>
#if defined(__has_include) && __cplusplus >= 202002L
#if __has_include(<span>)
#include <span>
#endif
#endif
#include "torusmem.h"

namespace torusmem {

#if defined(__cpp_lib_span)
template <class Item>
using span = std::span<Item>;
#else
template <class Item>
class span {
 public:
  span() = default;
  span(Item *data, size_t size) : data_(data), size_(size) {}
  template <class List, class = decltype(std::declval<List &>().data())>
  span(List &&list) : data_(list.data()), size_(list.size()) {}
  Item *data() const { return data_; }
  size_t size() const { return size_; }
  Item *begin() const { return data_; }
  Item *end() const { return data_ + size_; }
  Item &operator[](size_t at) const { return data_[at]; }

 private:
  Item *data_ = nullptr;
  size_t size_ = 0;
};
#endif

// A text: a string, a string_view, a list of bytes, or a literal.
class text {
 public:
  text() = default;
  text(const char *words) : text(words, std::char_traits<char>::length(words)) {}
  text(const void *data, size_t size) : data_(static_cast<const uint8_t *>(data)), size_(size) {}
  template <class Bytes, class = decltype(std::declval<const Bytes &>().data())>
  text(const Bytes &bytes) : text(bytes.data(), bytes.size()) {
    static_assert(sizeof *bytes.data() == 1, "a text is of bytes");
  }
  const uint8_t *data() const { return data_; }
  size_t size() const { return size_; }

 private:
  const uint8_t *data_ = nullptr;
  size_t size_ = 0;
};

// Why a call is refused: its code and value, as torusmem.h says them.
class error : public std::runtime_error {
 public:
  error(const char *call, torusmem_outcome said)
      : error(std::string(call) + ": " + torusmem_code_text(said.code) + " (code " + std::to_string(said.code) +
                  ", value " + std::to_string(said.value) + ")",
              said) {}
  error(const std::string &why, torusmem_outcome said) : std::runtime_error(why), said_(said) {}
  uint32_t code() const { return said_.code; }
  uint64_t value() const { return said_.value; }

 private:
  torusmem_outcome said_;
};

// What a call answers, where it is granted.
inline uint64_t granted(const char *call, torusmem_outcome said) {
  if (said.code != TORUSMEM_OK) throw error(call, said);
  return said.value;
}

// What a call puts into a list or string: a room is tried, and if it is too short one that is long enough.
template <class List, class Call>
List filled(const char *call, size_t room, Call put) {
  List made(room, typename List::value_type());
  torusmem_outcome said = put(&made[0], room);
  if (said.code == TORUSMEM_SHORT) {
    made.resize(static_cast<size_t>(said.value));
    said = put(&made[0], made.size());
  }
  made.resize(static_cast<size_t>(granted(call, said)));
  return made;
}

// The sentence on the first fault of two texts, as "scripts:12: address 300: the machine has the words 0 to 255"; empty
// where they have none.
inline std::string explain(text machine, text scripts) {
  std::string why(256, ' ');
  torusmem_explanation said;
  for (;;) {
    said = torusmem_explain(machine.data(), machine.size(), scripts.data(), scripts.size(),
                            reinterpret_cast<uint8_t *>(&why[0]), why.size());
    if (said.code != TORUSMEM_SHORT) break;
    why.resize(static_cast<size_t>(said.length));
  }
  if (said.code != TORUSMEM_OK) throw error("explain", {said.code, 0});
  why.resize(static_cast<size_t>(said.length));
  return why;
}

// Checks a report: an error has the first bad line.
inline void check(text report) { granted("check", torusmem_check(report.data(), report.size())); }

class machine {
 public:
  // Loads the machine of a machine text and a scripts text. An error has the sentence of explain().
  explicit machine(text shape, text scripts = text()) {
    torusmem_outcome said = torusmem_load(&held_, shape.data(), shape.size(), scripts.data(), scripts.size());
    if (said.code != TORUSMEM_OK) throw error(explain(shape, scripts), said);
  }
  // Opens the machine of a shape, whose first words are given, and whose others are 0.
  explicit machine(const struct torusmem_shape &shape, span<const uint64_t> words = span<const uint64_t>()) {
    granted("open", torusmem_open(&held_, &shape, words.data(), words.size()));
  }
  machine(machine &&other) noexcept { swap(other); }
  machine &operator=(machine &&other) noexcept { return swap(other), *this; }
  ~machine() { torusmem_free(&held_); }
  void swap(machine &other) noexcept { std::swap(held_, other.held_); }
  torusmem_machine *get() { return &held_; }

  bool step(uint32_t agent, uint32_t choice, uint32_t number = 0) {
    return granted("step", torusmem_step(&held_, agent, choice, number)) == 1;
  }
  bool enabled(uint32_t agent, uint32_t choice, uint32_t number = 0) {
    return granted("enabled", torusmem_enabled(&held_, agent, choice, number)) == 1;
  }
  uint64_t run(span<const torusmem_attempt> made) {
    return granted("run", torusmem_run(&held_, made.data(), made.size()));
  }
  void round() { granted("round", torusmem_round(&held_)); }
  uint64_t finish() { return granted("finish", torusmem_finish(&held_)); }
  bool fair_round() { return granted("fair_round", torusmem_fair_round(&held_)) == 1; }
  uint64_t fair_rounds(uint64_t most = UINT64_MAX) {
    return granted("fair_rounds", torusmem_fair_rounds(&held_, most));
  }
  void clocked_round(uint64_t turn) { granted("clocked_round", torusmem_clocked_round(&held_, turn)); }
  uint64_t finish_clocked() { return granted("finish_clocked", torusmem_finish_clocked(&held_)); }

  // Of append and ask an error says why the line is refused, as "append: address 300: the machine has the words 0 to 255".
  void append(uint32_t processor, uint32_t line, uint32_t address = 0, uint64_t first = 0, uint64_t second = 0,
              uint32_t lasts = 0) {
    taken("append", torusmem_append(&held_, processor, line, address, first, second, lasts), processor, line, address,
          first, second, lasts);
  }
  // The index of the operation, by which answered() finds its answer.
  uint32_t ask(uint32_t processor, uint32_t operation, uint32_t address, uint64_t first = 0, uint64_t second = 0,
               uint32_t lasts = 0) {
    return taken("ask", torusmem_ask(&held_, processor, operation, address, first, second, lasts), processor, operation,
                 address, first, second, lasts);
  }

  // Finishes its scripts, and opens a machine that goes on with its words; this one keeps its answers.
  machine reopened() {
    machine fresh;
    granted("reopen", torusmem_reopen(&held_, &fresh.held_));
    return fresh;
  }

  // Loads such a machine, which keeps a record of what is done to it, so that it can be saved.
  static machine recorded(text shape, text scripts = text()) {
    machine made;
    torusmem_outcome said = torusmem_load_recorded(&made.held_, shape.data(), shape.size(), scripts.data(), scripts.size());
    if (said.code != TORUSMEM_OK) throw error(explain(shape, scripts), said);
    return made;
  }
  // Opens such a machine, as the constructor does that takes a shape.
  static machine recorded(const struct torusmem_shape &shape, span<const uint64_t> words = span<const uint64_t>()) {
    machine made;
    granted("open_recorded", torusmem_open_recorded(&made.held_, &shape, words.data(), words.size()));
    return made;
  }
  // The bytes of its record, of which restored() makes this machine again.
  std::vector<uint8_t> save() {
    return filled<std::vector<uint8_t>>("save", 256, [&](uint8_t *at, size_t room) {
      return torusmem_save(&held_, at, room);
    });
  }
  static machine restored(span<const uint8_t> saved) {
    machine made;
    granted("restore", torusmem_restore(&made.held_, saved.data(), saved.size()));
    return made;
  }
  // The same machine once more, with the same record.
  machine clone() {
    machine fresh;
    granted("clone", torusmem_clone(&held_, &fresh.held_));
    return fresh;
  }

  bool finished() { return granted("finished", torusmem_finished(&held_)) == 1; }
  uint64_t moves_left() { return granted("moves_left", torusmem_moves_left(&held_)); }
  uint32_t tiles() { return number("tiles", torusmem_tiles(&held_)); }
  uint32_t words() { return number("words", torusmem_words(&held_)); }
  // What the machine is built to.
  struct torusmem_shape shape() {
    struct torusmem_shape built;
    granted("shape", torusmem_shape(&held_, &built));
    return built;
  }
  // How many inputs, and outputs, a router has.
  uint32_t ports() { return shape().ports; }

  uint64_t word(uint32_t address) { return granted("word", torusmem_word(&held_, address)); }
  uint64_t row(uint32_t at) { return granted("row", torusmem_row(&held_, at)); }
  std::vector<uint64_t> rows() {
    return filled<std::vector<uint64_t>>("rows", 256, [&](uint64_t *at, size_t room) {
      return torusmem_rows(&held_, at, room);
    });
  }
  uint64_t rows(span<uint64_t> out) { return granted("rows", torusmem_rows(&held_, out.data(), out.size())); }

  // The answers of a processor, in the order of answering: those from number `from` on.
  std::vector<torusmem_answer> answers(uint32_t processor, uint32_t from = 0) {
    std::vector<torusmem_answer> found;
    uint32_t count = number("answers", torusmem_answers(&held_, processor));
    for (uint32_t at = from; at < count; at++) found.push_back(torusmem_answer_at(&held_, processor, at));
    return found;
  }
  // Whether the operation of a processor that has this index is answered; then `out` is the answer.
  bool answered(uint32_t processor, uint32_t index, torusmem_answer &out) {
    torusmem_answer found = torusmem_answer_of(&held_, processor, index);
    if (found.code == TORUSMEM_NOT_YET) return false;
    granted("answer_of", {found.code, 0});
    out = found;
    return true;
  }
  // The services of a bank, in their order: those from number `from` on.
  std::vector<torusmem_entry> entries(uint32_t bank, uint32_t from = 0) {
    std::vector<torusmem_entry> found;
    uint32_t count = number("entries", torusmem_entries(&held_, bank));
    for (uint32_t at = from; at < count; at++) found.push_back(torusmem_entry_at(&held_, bank, at));
    return found;
  }
  // The operations served so far, in the one legal order: those from number `from` on.
  std::vector<torusmem_ordered> order(uint32_t from = 0) {
    return filled<std::vector<torusmem_ordered>>("order", 64, [&](torusmem_ordered *at, size_t room) {
      return torusmem_order(&held_, from, at, room);
    });
  }
  // The issues, services and answers of the operations served so far, in their order: those numbered `from` or higher.
  // Of the order it goes over the rows from `row` on alone: a host that follows a run gives what answered_to() told before.
  std::vector<torusmem_happened> events(uint32_t from = 1, uint32_t row = 0) {
    return filled<std::vector<torusmem_happened>>("events", 64, [&](torusmem_happened *at, size_t room) {
      return torusmem_events_from(&held_, row, from, at, room);
    });
  }
  // The first row of the order, from row `from` on, whose operation isn't answered yet; the number of rows, where all are.
  uint32_t answered_to(uint32_t from = 0) {
    return static_cast<uint32_t>(granted("answered_to", torusmem_answered_to(&held_, from)));
  }
  std::vector<torusmem_spin> spins_out(text shape, text scripts) {
    return filled<std::vector<torusmem_spin>>("spins_out", 16, [&](torusmem_spin *at, size_t room) {
      return torusmem_spins_out(&held_, shape.data(), shape.size(), scripts.data(), scripts.size(), at, room);
    });
  }
  std::string report() {
    return filled<std::string>("report", 4096, [&](char *at, size_t room) {
      return torusmem_report(&held_, reinterpret_cast<uint8_t *>(at), room);
    });
  }

  std::vector<torusmem_channel> route(uint32_t src, uint32_t dst, uint32_t reply = TORUSMEM_REQUEST) {
    return filled<std::vector<torusmem_channel>>("route", 10, [&](torusmem_channel *at, size_t room) {
      return torusmem_route(&held_, src, dst, reply, at, room);
    });
  }
  uint32_t next(uint32_t at, uint32_t input, uint32_t dst) {
    return number("next", torusmem_next(&held_, at, input, dst));
  }

 private:
  machine() = default;
  static uint32_t number(const char *call, torusmem_outcome said) { return static_cast<uint32_t>(granted(call, said)); }
  // What a call answers that gives a processor a line.
  uint32_t taken(const char *call, torusmem_outcome said, uint32_t processor, uint32_t line, uint32_t address,
                 uint64_t first, uint64_t second, uint32_t lasts) {
    if (said.code == TORUSMEM_OK) return static_cast<uint32_t>(said.value);
    char why[256];
    torusmem_explain_line(&held_, said.code, processor, line, address, first, second, lasts, why, sizeof why);
    throw error(std::string(call) + ": " + why, said);
  }

  torusmem_machine held_ = TORUSMEM_MACHINE_INIT;
};

// A watch of a trace that goes on.
class watch {
 public:
  explicit watch(span<const uint64_t> opening) {
    granted("watch", torusmem_watch_begin(&held_, opening.data(), opening.size()));
  }
  watch(watch &&other) noexcept { swap(other); }
  watch &operator=(watch &&other) noexcept { return swap(other), *this; }
  ~watch() { torusmem_watch_end(&held_); }
  void swap(watch &other) noexcept {
    std::swap(held_, other.held_);
    std::swap(next_, other.next_);
  }

  // Another watch that has seen what this one has, and goes on by itself.
  watch clone() {
    watch fresh;
    granted("clone", torusmem_watch_clone(&held_, &fresh.held_));
    fresh.next_ = next_;
    return fresh;
  }
  // The bytes of what it knows, of which restored() makes a watch that answers every later event as this one would.
  std::vector<uint8_t> save() {
    return filled<std::vector<uint8_t>>("save", 256, [&](uint8_t *at, size_t room) {
      return torusmem_watch_save(&held_, at, room);
    });
  }
  static watch restored(span<const uint8_t> saved) {
    watch made;
    made.next_ = granted("restore", torusmem_watch_restore(&made.held_, saved.data(), saved.size()));
    return made;
  }

  // Takes the issue of an operation; the number by which its answer names it.
  uint64_t issue(uint32_t operation, uint32_t address, uint64_t first = 0, uint64_t second = 0) {
    granted("issue", torusmem_watch_issue(&held_, next_, operation, address, first, second));
    return next_++;
  }
  // Take the answer to an operation, by an old word or, of a store, by none: whether one order explains the trace with
  // it. Where none does, the answer isn't taken. By default it is decided while at most 9 operations are open on one word.
  bool answer(uint64_t number, uint64_t old, uint64_t configurations = 1000000) {
    return taken(torusmem_watch_answer(&held_, number, 1, old, configurations));
  }
  bool stored(uint64_t number, uint64_t configurations = 1000000) {
    return taken(torusmem_watch_answer(&held_, number, 0, 0, configurations));
  }

 private:
  watch() = default;
  static bool taken(torusmem_outcome said) {
    return said.code != TORUSMEM_NOT_LINEARIZABLE && (granted("answer", said), true);
  }

  torusmem_watch held_ = TORUSMEM_WATCH_INIT;
  uint64_t next_ = 0;
};

// The verdict on a network: OK, NO_ROUTE, CYCLE or NO_PAIR, and the text that the program prints.
struct verdict {
  uint32_t code;
  std::string text;
};
inline verdict network(text network) {
  verdict made{TORUSMEM_OK, ""};
  made.text = filled<std::string>("network", 65536, [&](char *at, size_t room) {
    torusmem_outcome said = torusmem_network(network.data(), network.size(), reinterpret_cast<uint8_t *>(at), room);
    if (said.code == TORUSMEM_NO_ROUTE || said.code == TORUSMEM_CYCLE || said.code == TORUSMEM_NO_PAIR)
      made.code = said.code, said.code = TORUSMEM_OK;
    return said;
  });
  return made;
}

// The answer to a network text, whose routers may choose: OK or NOT_RISING, and the text that the program prints.
inline verdict network_answer(text network) {
  verdict made{TORUSMEM_OK, ""};
  made.text = filled<std::string>("network_answer", 65536, [&](char *at, size_t room) {
    torusmem_outcome said = torusmem_network_answer(network.data(), network.size(), reinterpret_cast<uint8_t *>(at), room);
    if (said.code == TORUSMEM_NOT_RISING) made.code = said.code, said.code = TORUSMEM_OK;
    return said;
  });
  return made;
}

// The verdict on a trace: OK with an order, or NOT_LINEARIZABLE, TOO_MANY or TOO_OPEN with its event.
struct judged {
  uint32_t code;
  uint64_t event;
  std::vector<uint64_t> order;
};
inline judged linearize(span<const uint64_t> opening, span<const torusmem_event> events,
                        uint64_t configurations = 1000000) {
  std::vector<uint64_t> order(events.size());
  torusmem_outcome said = torusmem_linearize(opening.data(), opening.size(), events.data(), events.size(),
                                             configurations, order.data(), order.size());
  if (said.code >= TORUSMEM_NOT_LINEARIZABLE && said.code <= TORUSMEM_TOO_OPEN) return {said.code, said.value, {}};
  order.resize(static_cast<size_t>(granted("linearize", said)));
  return {TORUSMEM_OK, 0, order};
}

// What is said of a trace text: OK with an order; NOT_LINEARIZABLE with the reasons; or TOO_MANY or TOO_OPEN. With the line,
// or 0.
struct trace_said {
  uint32_t code;
  uint64_t line;
  std::string text;
};
inline trace_said linearize_answer(text trace, uint64_t configurations = 1000000) {
  std::string made(4096, ' ');
  torusmem_said told;
  for (;;) {
    told = torusmem_linearize_answer(trace.data(), trace.size(), configurations, reinterpret_cast<uint8_t *>(&made[0]),
                                     made.size());
    if (told.code != TORUSMEM_SHORT) break;
    made.resize(static_cast<size_t>(told.length));
  }
  bool is_judged = told.code == TORUSMEM_OK || (told.code >= TORUSMEM_NOT_LINEARIZABLE && told.code <= TORUSMEM_TOO_OPEN);
  if (!is_judged) granted("linearize_answer", {told.code, told.line});
  made.resize(static_cast<size_t>(told.length));
  return {told.code, told.line, made};
}

// The verdict on a log: the models that it obeys, and the text that the program prints; or, of a wrong reply, its entry,
// the word that its operation finds, and the entry that made the operation which left it.
struct obeyed {
  uint32_t code;    // OK or WRONG_REPLY
  uint32_t models;  // the sum of TORUSMEM_COHERENT to TORUSMEM_SC
  std::string text;
  uint64_t entry, word, writer;
};
inline obeyed model(uint64_t words, span<const torusmem_log_entry> entries, bool order = false) {
  std::string made(4096, ' ');
  torusmem_models said;
  for (;;) {
    said = torusmem_model(words, entries.data(), entries.size(), order ? 1 : 0, reinterpret_cast<uint8_t *>(&made[0]),
                          made.size());
    if (said.code != TORUSMEM_SHORT) break;
    made.resize(static_cast<size_t>(said.value));
  }
  if (said.code == TORUSMEM_WRONG_REPLY) return {said.code, 0, "", said.value, said.word, said.writer};
  made.resize(static_cast<size_t>(granted("model", {said.code, said.value})));
  return {said.code, said.models, made, 0, 0, 0};
}

// The verdict on a log text by its replies alone: the models that it obeys, those that it breaks, and the text that the
// program prints; or the line of a reply that no write left, or the lines of a lost update. A model is in neither sum where
// the search gave up, or annotations or weaker fences leave it open.
struct decided {
  uint32_t code;            // OK, UNWRITTEN or LOST_UPDATE
  uint32_t obeyed, broken;  // sums of TORUSMEM_COHERENT to TORUSMEM_SC
  std::string text;
  uint64_t line, other;
};
inline decided model_values(text log, uint64_t nodes = 10000, bool order = false) {
  std::string made(4096, ' ');
  torusmem_decided told;
  for (;;) {
    told = torusmem_model_values(log.data(), log.size(), nodes, order ? 1 : 0, reinterpret_cast<uint8_t *>(&made[0]),
                                 made.size());
    if (told.code != TORUSMEM_SHORT) break;
    made.resize(static_cast<size_t>(told.value));
  }
  if (told.code == TORUSMEM_UNWRITTEN || told.code == TORUSMEM_LOST_UPDATE) return {told.code, 0, 0, "", told.value, told.other};
  made.resize(static_cast<size_t>(granted("model_values", {told.code, told.value})));
  return {told.code, told.obeyed, told.broken, made, 0, 0};
}

// The outcomes of a scripts text on the machine of a machine text, over all schedules, in at most so many states: OK where
// these are all, else UNDECIDED; how many are known, in how many states; and the text that the program prints.
struct searched {
  uint32_t code;
  uint64_t outcomes, states;
  std::string text;
};
inline searched outcomes(text shape, text scripts, uint64_t states = 100000) {
  std::string made(4096, ' ');
  torusmem_searched said;
  for (;;) {
    said = torusmem_outcomes(shape.data(), shape.size(), scripts.data(), scripts.size(), states,
                             reinterpret_cast<uint8_t *>(&made[0]), made.size());
    if (said.code != TORUSMEM_SHORT) break;
    made.resize(static_cast<size_t>(said.value));
  }
  if (said.code != TORUSMEM_UNDECIDED) granted("outcomes", {said.code, said.value});
  made.resize(static_cast<size_t>(said.value));
  return {said.code, said.outcomes, said.states, made};
}

// What a search says of a run: OK and its steps; or, of reach(), NEVER or UNDECIDED and the line that says so.
struct found_run {
  uint32_t code;
  std::string text;
};
// The steps of a run to the outcome of a number, as outcomes() counts them; UNDECIDED without a text where none of this number
// is known, and there may be others.
inline found_run outcomes_run(text shape, text scripts, uint64_t number, uint64_t states = 100000) {
  found_run made{TORUSMEM_OK, ""};
  made.text = filled<std::string>("outcomes_run", 4096, [&](char *at, size_t room) {
    torusmem_outcome said = torusmem_outcomes_run(shape.data(), shape.size(), scripts.data(), scripts.size(), states, number,
                                                  reinterpret_cast<uint8_t *>(at), room);
    if (said.code == TORUSMEM_UNDECIDED) made.code = said.code, said.code = TORUSMEM_OK;
    return said;
  });
  return made;
}
// The steps of a run whose replies are those of an answer, as "ok ok / 1 *".
inline found_run reach(text shape, text scripts, text answer, uint64_t states = 100000) {
  found_run made{TORUSMEM_OK, ""};
  made.text = filled<std::string>("reach", 4096, [&](char *at, size_t room) {
    torusmem_outcome said = torusmem_reach(shape.data(), shape.size(), scripts.data(), scripts.size(), answer.data(),
                                           answer.size(), states, reinterpret_cast<uint8_t *>(at), room);
    if (said.code == TORUSMEM_NEVER || said.code == TORUSMEM_UNDECIDED) made.code = said.code, said.code = TORUSMEM_OK;
    return said;
  });
  return made;
}

}  // namespace torusmem
#endif
