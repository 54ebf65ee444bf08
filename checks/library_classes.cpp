// library_classes: the classes of torusmem.hpp over small texts; prints a line for each thing that is not so. It compiles
// as C++11, with spans of its own, and as C++20, with those of the library.
#include <cstdio>
#include "torusmem.hpp"

namespace {

int wrongs = 0;

void must(bool is_so, const char *what, int line) {
  if (!is_so) wrongs += std::printf("line %d: not so: %s\n", line, what) > 0;
}
#define MUST(is_so) must(is_so, #is_so, __LINE__)

const std::string shape = "radix 2\ndims 1\ndepth 4\ntags 4\nwords 8\n";

// What a call throws: its code and its words.
template <class Call>
std::string thrown(uint32_t code, Call call) {
  try {
    call();
  } catch (const torusmem::error &fault) {
    return fault.code() == code ? fault.what() : "another code";
  }
  return "nothing";
}

void machines() {
  torusmem::machine first(shape, "0 store 5 17\n0 fence\n0 load 5\n"), other(shape);
  other = std::move(first);
  torusmem::machine m(std::move(other));
  std::vector<torusmem_attempt> steps = {{0, TORUSMEM_SEND, 0}, {1, TORUSMEM_TAKE_FROM, 8}, {1, TORUSMEM_TAKE_FROM, 8}};
  MUST(m.run(steps) == 2 && m.finish() == 12 && m.finished() && m.word(5) == 17);
  MUST(m.answers(0).size() == 2 && m.answers(0, 1).at(0).old == 17 && m.entries(1).size() == 2);
  MUST(m.rows().size() == 24 * 4 + 8 + 1 && m.rows()[24 * 4 + 5] == 17 && m.ports() == 10);
  MUST(m.order().size() == 2 && m.order(1).at(0).served == 5 && m.order(2).empty());
  MUST(m.events().size() == 6 && m.events(6).at(0).what == TORUSMEM_ANSWERED && m.events(7).empty());
  MUST(m.shape().radices[0] == 2 && m.shape().tags == 4);
  torusmem::machine again = m.reopened();
  MUST(again.word(5) == 17 && again.answers(0).empty() && m.answers(0).size() == 2);
  torusmem::machine kept = torusmem::machine::recorded(shape, "0 store 5 17\n0 fence\n0 load 5\n");
  kept.round();
  torusmem::machine restored = torusmem::machine::restored(kept.save()), cloned = kept.clone();
  MUST(restored.report() == kept.report() && restored.save() == cloned.save() && restored.finish() == cloned.finish());
  MUST(thrown(TORUSMEM_NO_RECORD, [&] { m.save(); }).find("save: the machine keeps no record") == 0);
  MUST(thrown(TORUSMEM_BAD_RECORD, [] { torusmem::machine::restored(std::vector<uint8_t>()); }).find("restore: bytes") == 0);
  std::vector<uint64_t> opening = {7, 8};
  MUST(torusmem::machine(m.shape(), opening).word(1) == 8 && torusmem::machine(m.shape()).word(1) == 0);
  torusmem::machine numbered = torusmem::machine::recorded(m.shape(), opening);
  MUST(numbered.ask(1, TORUSMEM_ADD, 1, 3) == 0 && numbered.finish() > 0);
  MUST(torusmem::machine::restored(numbered.save()).word(1) == 11 && numbered.clone().report() == numbered.report());
  struct torusmem_shape odd = m.shape();
  odd.depth = 9;
  MUST(thrown(TORUSMEM_FAULT_RANGE, [&] { torusmem::machine none(odd); }).find("open: a number is out of its range") == 0);
  MUST(thrown(TORUSMEM_FAULT_RANGE, [&] { torusmem::machine::recorded(odd); }).find("open_recorded: a number") == 0);
  MUST(thrown(TORUSMEM_NONE, [&] { m.step(0, TORUSMEM_SERVE); }).find("step: there is no such agent") == 0);
  MUST(m.route(0, 1).size() == 3 && m.next(0, 8, 1) < 10);
  uint32_t index = m.ask(1, TORUSMEM_ADD, 5, 3);
  torusmem_answer got;
  MUST(!m.answered(1, index, got));
  m.finish();
  MUST(m.answered(1, index, got) && got.old == 17 && m.word(5) == 20);
  torusmem::check(m.report());
  MUST(thrown(TORUSMEM_NONE, [&] { m.word(8); }).find("word: there is no such") == 0);
  MUST(thrown(TORUSMEM_FAULT_ADDRESS, [&] { m.append(0, TORUSMEM_LOAD, 8); }) ==
       "append: address 8: the machine has the words 0 to 7");
  MUST(thrown(TORUSMEM_FAULT_PROCESSOR, [&] { m.ask(2, TORUSMEM_LOAD, 8); }) ==
       "ask: processor 2: the machine has the processors 0 to 1");
  MUST(thrown(TORUSMEM_NONE, [&] { m.ask(0, TORUSMEM_FENCE, 0); }) == std::string("ask: ") + torusmem_code_text(TORUSMEM_NONE));
  MUST(thrown(TORUSMEM_FAULT_ADDRESS, [] { torusmem::machine(shape, "0 load 8\n"); }) ==
       "scripts:1: address 8: the machine has the words 0 to 7");
  MUST(thrown(TORUSMEM_BAD_REPORT, [] { torusmem::check("torusmem 2\n"); }).find("check: a report breaks a rule") == 0);
  MUST(thrown(TORUSMEM_EMPTY, [&] { other.round(); }).find("round: the handle holds no machine") == 0);
}

void judges() {
  uint64_t opening[2] = {0, 0};
  torusmem::watch w{torusmem::span<const uint64_t>(opening, 2)};
  uint64_t store = w.issue(TORUSMEM_STORE, 1, 7), load = w.issue(TORUSMEM_LOAD, 1);
  MUST(!w.answer(load, 8) && w.answer(load, 7) && w.stored(store));
  std::vector<torusmem_event> events(2, torusmem_event());
  events[0].operation = TORUSMEM_ADD;
  events[0].first = 1;
  events[1].kind = TORUSMEM_ANSWER;
  events[1].has_old = 1;
  torusmem::judged said = torusmem::linearize(std::vector<uint64_t>(1), events);
  MUST(said.code == TORUSMEM_OK && said.order == std::vector<uint64_t>(1));
  events[1].old = 9;
  said = torusmem::linearize(std::vector<uint64_t>(1), events);
  MUST(said.code == TORUSMEM_NOT_LINEARIZABLE && said.event == 1 && said.order.empty());
  torusmem::verdict rises = torusmem::network("channels 3\ninject 0\neject 2\njoin 0 2\nnext 0 2 1\nnext 1 2 2\n");
  MUST(rises.code == TORUSMEM_OK && rises.text.find("rising") != std::string::npos);
  MUST(torusmem::network("channels 2\ninject 0\neject 1\njoin 0 1\n").code == TORUSMEM_NO_ROUTE);
  MUST(torusmem::network("channels 2\ninject 0\neject 1\n").code == TORUSMEM_NO_PAIR);
  torusmem::verdict answer = torusmem::network_answer("channels 2\ninject 0\neject 1\njoin 0 1\n");
  MUST(answer.code == TORUSMEM_NOT_RISING && answer.text == "no route 0 1: no channel at step 1\n");
  torusmem::trace_said reasons = torusmem::linearize_answer("trace 1\nwords 8\nissue 0 load 5\nanswer 0 0 3\n");
  MUST(reasons.code == TORUSMEM_NOT_LINEARIZABLE && reasons.line == 4);
  MUST(reasons.text.find("trace:4: answer 0 0 3: no order gives 3: word 5 can be 0\n") != std::string::npos);
  MUST(torusmem::linearize_answer("trace 1\nwords 8\n").text == "linearizable\n");
  MUST(thrown(TORUSMEM_FAULT_SETTING, [&] { torusmem::linearize_answer("trace 1\n"); }).find("linearize_answer: ") == 0);
  torusmem::decided by = torusmem::model_values("log 1\nwords 2\nmade 0 load 1\nreplied 0 0 0\n", 10000, true);
  MUST(by.code == TORUSMEM_OK && by.obeyed == 31 && by.broken == 0 && by.text.find("an order of sc:\n") != std::string::npos);
  by = torusmem::model_values("log 1\nwords 2\nmade 0 load 1\nreplied 0 0 3\n");
  MUST(by.code == TORUSMEM_UNWRITTEN && by.line == 4 && by.text.empty());
  MUST(thrown(TORUSMEM_FAULT_SETTING, [&] { torusmem::model_values("log 1\n"); }).find("model_values: ") == 0);
  const char *message = "0 store 1 42\n0 fence\n0 store 0 1\n1 load 0\n1 fence\n1 load 1\n";
  torusmem::searched all = torusmem::outcomes(shape, message);
  MUST(all.code == TORUSMEM_OK && all.outcomes == 3 && all.states == 35);
  MUST(all.text.find("outcome 1 : ok ok / 0 0 ; 0 1 1 42\n") != std::string::npos);
  MUST(all.text.find("exact, 35 states\n") + 17 == all.text.size());
  all = torusmem::outcomes(shape, message, 7);
  MUST(all.code == TORUSMEM_UNDECIDED && all.outcomes == 0 && all.states == 7);
  MUST(all.text == "undecided, 7 states: 0 outcomes are known, there may be others\n");
  torusmem::found_run run = torusmem::outcomes_run(shape, message, 1);
  MUST(run.code == TORUSMEM_OK && run.text.find("# finished\n") + 11 == run.text.size());
  MUST(torusmem::reach(shape, message, "ok ok / 0 0").text == run.text + "# reached\n");
  run = torusmem::outcomes_run(shape, message, 3, 7);
  MUST(run.code == TORUSMEM_UNDECIDED && run.text.empty());
  run = torusmem::reach(shape, message, "ok ok / 1 0");
  MUST(run.code == TORUSMEM_NEVER && run.text == "never, 35 states\n");
  MUST(torusmem::reach(shape, message, "* * / 1 0", 7).code == TORUSMEM_UNDECIDED);
  MUST(thrown(TORUSMEM_NONE, [&] { torusmem::outcomes_run(shape, message, 3); }).find("outcomes_run: ") == 0);
  MUST(thrown(TORUSMEM_NO_REPLY, [&] { torusmem::reach(shape, message, "x"); }).find("reach: a word of") == 0);
  MUST(thrown(TORUSMEM_FAULT_RANGE, [&] { torusmem::outcomes(shape, message, 0); }).find("outcomes: ") == 0);
  std::vector<torusmem_log_entry> log(3, torusmem_log_entry());
  log[0].kind = TORUSMEM_LOG_MADE;
  log[1].kind = TORUSMEM_LOG_READ_OPENING;
  log[2].kind = TORUSMEM_LOG_REPLIED;
  log[2].has_old = 1;
  torusmem::obeyed found = torusmem::model(8, log, true);
  MUST(found.code == TORUSMEM_OK && found.models == 31 && found.text.find("an order of sc:\nline 1: 0 load 0\n") > 0);
  log[2].old = 9;
  found = torusmem::model(8, log);
  MUST(found.code == TORUSMEM_WRONG_REPLY && found.entry == 3 && found.word == 0 && found.writer == 0);
  MUST(thrown(TORUSMEM_FAULT_RANGE, [&] { torusmem::model(0, log); }).find("model: a number is out of") == 0);
}

}  // namespace

int main() {
  machines();
  judges();
  return wrongs == 0 ? 0 : 1;
}
