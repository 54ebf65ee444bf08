// bench MACHINE SCRIPT STEPS: runs the torus in Verilog, with the step machine of the library as its reference.
//
// The processor interfaces are given the operations of a script. Before each edge of the clock the monitor says which
// steps the edge makes. They are written to STEPS, as `torusmem steps` takes them, and made in the library: each must
// move, and then all words must be the same. When every script is finished, the answers must be the same too, and the
// report is printed. The status is 1 at the first difference. Where a script is finished, and where all are, the bench
// reports it for the processor (`done`, `look`), since a tile has no done word.
#include <cinttypes>
#include <cstdio>
#include <cstdlib>
#include <cstring>
#include <fstream>
#include <iterator>
#include <string>
#include <vector>
#include "Vbench.h"
#include "script.h"
#include "torusmem.h"
#include "verilated.h"
#if VM_TRACE
#include "verilated_vcd_c.h"
#endif

namespace {

constexpr uint64_t MOST_EDGES = 10000000;
constexpr const char *NAMES[] = {"send", "take", "take", "put", "credit", "credit", "serve", "done", "look"};

// Bits of a port of any width, from the lowest one on; Verilator keeps them in this order on little-endian processors.
template <typename Port>
uint64_t bits(const Port &port, size_t from, size_t width) {
  const uint8_t *bytes = reinterpret_cast<const uint8_t *>(&port);
  uint64_t found = 0;
  if (width == 64 && from % 8 == 0) {
    std::memcpy(&found, bytes + from / 8, 8);
    return found;
  }
  for (size_t at = 0; at < width; at++) found |= static_cast<uint64_t>(bytes[(from + at) / 8] >> (from + at) % 8 & 1) << at;
  return found;
}

template <typename Port>
void set_bits(Port &port, size_t from, size_t width, uint64_t value) {
  uint8_t *bytes = reinterpret_cast<uint8_t *>(&port);
  for (size_t at = 0; at < width; at++) {
    uint8_t mask = static_cast<uint8_t>(1 << (from + at) % 8);
    uint8_t &byte = bytes[(from + at) / 8];
    byte = static_cast<uint8_t>(value >> at & 1 ? byte | mask : byte & ~mask);
  }
}

class Bench {
 public:
  Bench(torusmem_machine *m, const std::string &script, std::FILE *steps)
      : m_(m), tiles_(static_cast<uint32_t>(torusmem_tiles(m).value)), scripts_(scripts(script, tiles_)),
        phases_(tiles_, 0), steps_(steps) {
    while (torusmem_next(m, 0, ports_, 0).code == TORUSMEM_OK) ports_++;
    words_ = torusmem_words(m).value;
    row_.resize(torusmem_rows(m, nullptr, 0).value);
    places_ = row_.size() - words_ - 1;
  }

#if VM_TRACE
  void trace(const char *file) {
    Verilated::traceEverOn(true);
    verilog_.trace(&waveform_, 8);
    waveform_.open(file);
  }
#endif

  // Runs until every script is finished: whether all was the same.
  bool run() {
    verilog_.reset = 1;
    edge();
    verilog_.reset = 0;
    if (!is_same_row()) return false;
    while (torusmem_finished(m_).value == 0) {
      if (edges_++ == MOST_EDGES) return wrong("not every script is finished");
      std::fprintf(steps_, "# edge %" PRIu64 "\n", edges_);
      ask();
      if (!make_steps()) return false;
      edge();
      answer();
      if (!report_ends() || !is_same_row()) return false;
    }
    return is_same_answers();
  }

  void print_counts() const {
    size_t answers = 0;
    for (const Script &script : scripts_) answers += script.asked.size();
    std::fprintf(stderr, "%" PRIu64 " edges, %" PRIu64 " steps, %zu answers: no difference\n", edges_, made_, answers);
  }

 private:
  bool wrong(const char *what) const {
    std::printf("edge %" PRIu64 ": %s\n", edges_, what);
    return false;
  }

  void dump() {
#if VM_TRACE
    if (waveform_.isOpen()) waveform_.dump(time_ += 5);
#endif
  }

  void edge() {
    verilog_.clock = 0;
    verilog_.eval();
    dump();
    verilog_.clock = 1;
    verilog_.eval();
    dump();
  }

  // Gives each processor interface what its script has now.
  void ask() {
    for (uint32_t tile = 0; tile < tiles_; tile++) {
      Operation next;
      bool is_ready = scripts_[tile].ready(next);
      set_bits(verilog_.request, tile, 1, is_ready);
      set_bits(verilog_.operation, 4 * tile, 4, next.kind);
      set_bits(verilog_.bank, 6 * tile, 6, next.address % tiles_);
      set_bits(verilog_.word, 32 * tile, 32, next.address / tiles_);
      set_bits(verilog_.first, 64 * tile, 64, next.first);
      set_bits(verilog_.second, 64 * tile, 64, next.second);
    }
    verilog_.clock = 0;
    verilog_.eval();
    for (uint32_t tile = 0; tile < tiles_; tile++)
      if (bits(verilog_.accepted, tile, 1)) scripts_[tile].issued(static_cast<uint32_t>(bits(verilog_.tag, 4 * tile, 4)));
  }

  void answer() {
    for (uint32_t tile = 0; tile < tiles_; tile++)
      if (bits(verilog_.replied, tile, 1))
        scripts_[tile].answered(static_cast<uint32_t>(bits(verilog_.reply_tag, 4 * tile, 4)),
                                bits(verilog_.reply_value, 64 * tile, 64),
                                static_cast<uint32_t>(bits(verilog_.reply_bank, 6 * tile, 6)),
                                static_cast<uint32_t>(bits(verilog_.reply_place, 32 * tile, 32)));
  }

  // A step in the library, which must move.
  bool step(uint32_t agent, uint32_t choice, uint32_t number, bool has_number) {
    std::fprintf(steps_, has_number ? "%" PRIu32 " %s %" PRIu32 "\n" : "%" PRIu32 " %s\n", agent, NAMES[choice], number);
    made_++;
    if (torusmem_step(m_, agent, choice, number).value == 1) return true;
    std::printf("edge %" PRIu64 ": %" PRIu32 " %s %" PRIu32 " doesn't move in the library\n", edges_, agent, NAMES[choice],
                number);
    return false;
  }

  template <typename Port>
  bool steps_of_routers(const Port &port, uint32_t choice) {
    for (uint32_t tile = 0; tile < tiles_; tile++)
      for (uint32_t at = 0; at < ports_; at++)
        if (bits(port, ports_ * tile + at, 1) && !step(3 * tile + 1, choice, at, true)) return false;
    return true;
  }
  bool steps_of_processors(uint32_t bit, uint32_t choice) {
    for (uint32_t tile = 0; tile < tiles_; tile++)
      if (bits(verilog_.asking, 3 * tile + bit, 1) && !step(3 * tile, choice, 0, false)) return false;
    return true;
  }
  bool steps_of_banks(uint32_t bit, uint32_t choice) {
    for (uint32_t tile = 0; tile < tiles_; tile++)
      if (bits(verilog_.serving, 4 * tile + bit, 1) && !step(3 * tile + 2, choice, 0, false)) return false;
    return true;
  }

  // The steps of the next edge: what is put, then what is taken and served, then the credits.
  bool make_steps() {
    return steps_of_processors(0, TORUSMEM_SEND) && steps_of_routers(verilog_.puts, TORUSMEM_PUT) &&
           steps_of_banks(0, TORUSMEM_SEND) && steps_of_banks(3, TORUSMEM_SERVE) &&
           steps_of_processors(1, TORUSMEM_TAKE) && steps_of_routers(verilog_.takes, TORUSMEM_TAKE_FROM) &&
           steps_of_banks(1, TORUSMEM_TAKE) && steps_of_processors(2, TORUSMEM_CREDIT) &&
           steps_of_routers(verilog_.credits, TORUSMEM_CREDIT_OF) && steps_of_banks(2, TORUSMEM_CREDIT);
  }

  // A processor reports once that its script is finished, and looks once when all have.
  bool report_ends() {
    for (uint32_t tile = 0; tile < tiles_; tile++)
      if (phases_[tile] == 0 && scripts_[tile].is_finished()) {
        if (!step(3 * tile, TORUSMEM_DONE, 0, false)) return false;
        phases_[tile] = 1;
        done_++;
      }
    for (uint32_t tile = 0; tile < tiles_ && done_ == tiles_; tile++)
      if (phases_[tile] == 1) {
        if (!step(3 * tile, TORUSMEM_LOOK, 0, false)) return false;
        phases_[tile] = 2;
      }
    return true;
  }

  bool is_same_row() {
    if (torusmem_rows(m_, row_.data(), row_.size()).code != TORUSMEM_OK) std::abort();
    for (size_t at = 0; at < row_.size(); at++) {
      size_t address = at - places_;
      uint64_t here = at < places_ ? bits(verilog_.row, 64 * at, 64) :
                      address < words_ ? bits(verilog_.memory, 64 * (address % tiles_ * banks_words() + address / tiles_), 64) :
                                         done_;
      if (here != row_[at]) {
        std::printf("edge %" PRIu64 ", place %zu of the row: library %016" PRIX64 ", Verilog %016" PRIX64 "\n", edges_, at,
                    row_[at], here);
        return false;
      }
    }
    return true;
  }
  size_t banks_words() const { return (words_ + tiles_ - 1) / tiles_; }

  bool is_same_answers() const {
    for (uint32_t tile = 0; tile < tiles_; tile++)
      for (uint32_t index = 0; index < scripts_[tile].asked.size(); index++) {
        const Answered &here = scripts_[tile].asked[index];
        torusmem_answer there = torusmem_answer_of(m_, tile, index);
        if (there.code != TORUSMEM_OK || here.old != there.old || here.bank != there.bank || here.place != there.place)
          return wrong("an answer is another one");
      }
    return true;
  }

  torusmem_machine *m_;
  uint32_t tiles_, ports_ = 0;
  std::vector<Script> scripts_;
  std::vector<int> phases_;  // of each processor: 1 it has reported, 2 it has seen that all have
  std::FILE *steps_;
  Vbench verilog_;
  std::vector<uint64_t> row_;
  size_t places_, words_;
  uint64_t edges_ = 0, made_ = 0, done_ = 0;
#if VM_TRACE
  VerilatedVcdC waveform_;
  uint64_t time_ = 0;
#endif
};

std::string read_file(const char *name) {
  std::ifstream file(name, std::ios::binary);
  return std::string(std::istreambuf_iterator<char>(file), {});
}

int bench(torusmem_machine *m, char **words, std::FILE *steps) {
  std::string machine = read_file(words[1]), script = read_file(words[2]);
  torusmem_outcome loaded = torusmem_load(m, reinterpret_cast<const uint8_t *>(machine.data()), machine.size(),
                                          reinterpret_cast<const uint8_t *>(script.data()), script.size());
  if (loaded.code != TORUSMEM_OK) {
    std::fprintf(stderr, "rtl: load: fault F%" PRIu32 " at line %" PRIu64 "\n", loaded.code, loaded.value);
    return 2;
  }
  Bench it(m, script, steps);
#if VM_TRACE
  if (const char *file = std::getenv("RTL_VCD")) it.trace(file);
#endif
  if (!it.run()) return 1;
  it.print_counts();
  std::vector<uint8_t> report(torusmem_report(m, nullptr, 0).value);
  if (torusmem_report(m, report.data(), report.size()).code != TORUSMEM_OK) return 1;
  if (torusmem_check(report.data(), report.size()).code != TORUSMEM_OK) return 1;
  return std::fwrite(report.data(), 1, report.size(), stdout) == report.size() && std::fflush(stdout) == 0 ? 0 : 1;
}

}  // namespace

int main(int count, char **words) {
  std::FILE *steps = count == 4 ? std::fopen(words[3], "w") : nullptr;
  if (!steps) {
    std::fprintf(stderr, "rtl: give MACHINE SCRIPT STEPS, a file that can be written\n");
    return 2;
  }
  torusmem_machine m = TORUSMEM_MACHINE_INIT;
  int status = bench(&m, words, steps);
  torusmem_free(&m);
  return std::fclose(steps) == 0 ? status : 1;
}
