// clocked MACHINE SCRIPT [PERIOD..]: a machine as a clocked module with ports, as SystemC and gem5 have them.
//
// Signals take what is written to them at the end of a clock edge, so that all modules of an edge see the same values,
// whatever their order. Memory holds the machine: at each edge of its clock it attempts the choices of the tiles whose
// `enable` is set, in the order of a round, and shows on its outputs what was answered. Divider enables a tile every
// PERIOD-th edge: the first PERIOD is tile 0's, and so on round the tiles; 1 if none is given. Probe watches the outputs
// as a scoreboard would. With all periods 1 a cycle is a round, and the report is that of `torusmem round`.
//
// In SystemC, Signal is sc_signal, In and Out are sc_in and sc_out, Module is sc_module with a method sensitive to the
// clock, and Clock is the kernel; in gem5, Memory is a ClockedObject whose tick() is edge().
#include <fstream>
#include <iostream>
#include <iterator>
#include <memory>
#include "torusmem.hpp"

namespace {

// Signals, ports and modules.

class Updated {
 public:
  virtual ~Updated() = default;
  virtual void update() = 0;
};

class Module {
 public:
  virtual ~Module() = default;
  virtual void edge() = 0;
};

// The clock: at each edge all modules compute, and then all signals take what was written.
class Clock {
 public:
  void add(Module &module) { modules_.push_back(&module); }
  void add(Updated &signal) { signals_.push_back(&signal); }
  uint64_t cycles() const { return cycles_; }
  void tick() {
    for (Module *module : modules_) module->edge();
    for (Updated *signal : signals_) signal->update();
    cycles_++;
  }

 private:
  std::vector<Module *> modules_;
  std::vector<Updated *> signals_;
  uint64_t cycles_ = 0;
};

template <class Value>
class Signal : public Updated {
 public:
  explicit Signal(Clock &clock) { clock.add(*this); }
  Signal(const Signal &) = delete;
  Signal &operator=(const Signal &) = delete;
  const Value &read() const { return now_; }
  void write(const Value &value) { next_ = value; }
  void update() override { now_ = next_; }

 private:
  Value now_ = Value(), next_ = Value();
};

template <class Value>
class In {
 public:
  void bind(const Signal<Value> &signal) { signal_ = &signal; }
  const Value &read() const {
    if (!signal_) throw std::logic_error("an input is bound to no signal");
    return signal_->read();
  }

 private:
  const Signal<Value> *signal_ = nullptr;
};

template <class Value>
class Out {
 public:
  void bind(Signal<Value> &signal) { signal_ = &signal; }
  void write(const Value &value) const {
    if (!signal_) throw std::logic_error("an output is bound to no signal");
    signal_->write(value);
  }

 private:
  Signal<Value> *signal_ = nullptr;
};

// The machine as a module.

class Memory : public Module {
 public:
  std::vector<In<bool>> enable;                            // of each tile: whether it is clocked at this edge
  std::vector<Out<std::vector<torusmem_answer>>> answers;  // of each processor: what it was answered at the last edge
  Out<bool> finished;                                      // whether every script is finished

  Memory(const std::string &machine, const std::string &scripts) : machine_(machine, scripts) {
    uint32_t tiles = machine_.tiles(), ports = machine_.ports();
    for (uint32_t tile = 0; tile < tiles; tile++) turns_.push_back(turn(tile, ports));
    enable.resize(tiles);
    answers.resize(tiles);
    told_.resize(tiles);
  }

  uint32_t tiles() const { return static_cast<uint32_t>(turns_.size()); }

  void edge() override {
    for (uint32_t tile = 0; tile < tiles(); tile++)
      if (enable[tile].read()) machine_.run(turns_[tile]);
    for (uint32_t tile = 0; tile < tiles(); tile++) {
      std::vector<torusmem_answer> found = machine_.answers(tile, told_[tile]);
      told_[tile] += static_cast<uint32_t>(found.size());
      answers[tile].write(found);
    }
    finished.write(machine_.finished());
  }

  std::string report() { return machine_.report(); }

 private:
  // The choices of a tile's agents, in the order of a round.
  static std::vector<torusmem_attempt> turn(uint32_t tile, uint32_t ports) {
    std::vector<torusmem_attempt> made;
    for (uint32_t it : {TORUSMEM_SEND, TORUSMEM_TAKE, TORUSMEM_CREDIT, TORUSMEM_DONE, TORUSMEM_LOOK})
      made.push_back({3 * tile, it, 0});
    for (uint32_t it : {TORUSMEM_TAKE_FROM, TORUSMEM_PUT, TORUSMEM_CREDIT_OF})
      for (uint32_t port = 0; port < ports; port++) made.push_back({3 * tile + 1, it, port});
    for (uint32_t it : {TORUSMEM_TAKE, TORUSMEM_SERVE, TORUSMEM_SEND, TORUSMEM_CREDIT})
      made.push_back({3 * tile + 2, it, 0});
    return made;
  }

  torusmem::machine machine_;
  std::vector<std::vector<torusmem_attempt>> turns_;
  std::vector<uint32_t> told_;  // how many answers of each processor were shown
};

// What drives the inputs, and what watches the outputs.

class Divider : public Module {
 public:
  Out<bool> enable;
  explicit Divider(uint64_t period) : period_(period) {}
  void edge() override { enable.write(edges_++ % period_ == 0); }

 private:
  uint64_t period_, edges_ = 0;
};

class Probe : public Module {
 public:
  std::vector<In<std::vector<torusmem_answer>>> answers;
  explicit Probe(const Clock &clock) : clock_(clock) {}
  uint64_t count() const { return count_; }
  uint64_t last() const { return last_; }
  void edge() override {
    for (auto &input : answers)
      if (size_t some = input.read().size()) {
        count_ += some;
        last_ = clock_.cycles() - 1;  // they were answered an edge before
      }
  }

 private:
  const Clock &clock_;
  uint64_t count_ = 0, last_ = 0;
};

std::string read_file(const char *name) {
  std::ifstream file(name, std::ios::binary);
  if (!file) throw std::runtime_error(std::string("cannot read ") + name);
  return {std::istreambuf_iterator<char>(file), {}};
}

std::vector<uint64_t> periods_of(char **words, int count) {
  std::vector<uint64_t> found;
  for (int at = 0; at < count; at++) {
    std::string word = words[at];
    if (word.empty() || word.size() > 4 || word.find_first_not_of("0123456789") != std::string::npos || std::stoi(word) == 0)
      throw std::runtime_error("a period is a number from 1 to 9999, not '" + word + "'");
    found.push_back(std::stoull(word));
  }
  return found.empty() ? std::vector<uint64_t>{1} : found;
}

}  // namespace

int main(int count, char **words) try {
  if (count < 3) throw std::runtime_error("give MACHINE SCRIPT, and periods of tiles");
  std::vector<uint64_t> periods = periods_of(words + 3, count - 3);

  Clock clock;
  Memory memory(read_file(words[1]), read_file(words[2]));
  Probe probe(clock);
  Signal<bool> finished(clock);
  std::vector<std::unique_ptr<Signal<bool>>> enables;
  std::vector<std::unique_ptr<Signal<std::vector<torusmem_answer>>>> answers;
  std::vector<std::unique_ptr<Divider>> dividers;

  memory.finished.bind(finished);
  probe.answers.resize(memory.tiles());
  for (uint32_t tile = 0; tile < memory.tiles(); tile++) {
    enables.emplace_back(new Signal<bool>(clock));
    answers.emplace_back(new Signal<std::vector<torusmem_answer>>(clock));
    dividers.emplace_back(new Divider(periods[tile % periods.size()]));
    dividers[tile]->enable.bind(*enables[tile]);
    memory.enable[tile].bind(*enables[tile]);
    memory.answers[tile].bind(*answers[tile]);
    probe.answers[tile].bind(*answers[tile]);
    clock.add(*dividers[tile]);
  }
  clock.add(memory);
  clock.add(probe);

  clock.tick();  // the reset: the first enables are written, and no tile is enabled yet
  uint64_t start = clock.cycles();
  while (!finished.read()) clock.tick();
  uint64_t cycles = clock.cycles() - start;
  clock.tick();  // the probe sees the last answers

  std::string report = memory.report();
  torusmem::check(report);
  std::cerr << cycles << " cycles, " << probe.count() << " answers, the last in cycle " << probe.last() - start + 1 << "\n";
  std::cout << report << std::flush;
  if (!std::cout) throw std::runtime_error("output failed");
  return 0;
} catch (const std::exception &fault) {
  std::cerr << fault.what() << "\n";
  return 1;
}
