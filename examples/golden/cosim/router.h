// The Verilog router of one tile, over a row of words.
#ifndef ROUTER_H
#define ROUTER_H
#include <cstddef>
#include <cstdint>
#include <memory>
#include <string>
#include "Vrouter.h"
#include "verilated.h"
#if VM_TRACE
#include "verilated_vcd_c.h"
#endif
#if VM_COVERAGE
#include "verilated_cov.h"
#endif

class Router {
 public:
  Router(uint32_t tile, uint8_t mistake) {
    verilog_.tile = static_cast<uint8_t>(tile);
    verilog_.mistake = mistake;
  }
  Router(const Router &) = delete;
  Router &operator=(const Router &) = delete;
  ~Router() { verilog_.final(); }

  // Makes a step, with its one operation on one word of the row; whether it moved. The choices are those of router.v:
  // 0 takes a flit of an input, 1 puts it, 2 looks for a credit of an output.
  bool attempt(uint32_t choice, uint32_t number, uint64_t *row, size_t length) {
    verilog_.clock = 0;
    verilog_.choice = static_cast<uint8_t>(choice);
    verilog_.number = static_cast<uint8_t>(number);
    verilog_.eval();
    uint32_t place = verilog_.place;
    if (verilog_.operation != NONE && place >= length) return false;
    verilog_.found = verilog_.operation == NONE ? 0 : row[place];
    verilog_.eval();
    dump();
    bool moves = verilog_.moves;
    if (verilog_.operation == SWAP) row[place] = 0;
    if (verilog_.operation == STORE) row[place] = verilog_.value;
    verilog_.clock = 1;
    verilog_.eval();
    dump();
    return moves;
  }

#if VM_TRACE
  // Writes a waveform from now on, ten units of time a step.
  void trace(const std::string &file) {
    Verilated::traceEverOn(true);
    waveform_.reset(new VerilatedVcdC);
    verilog_.trace(waveform_.get(), 8);
    waveform_->open(file.c_str());
  }
#else
  void trace(const std::string &) {}
#endif

#if VM_COVERAGE
  static void write_coverage(const char *file) { VerilatedCov::write(file); }
#else
  static void write_coverage(const char *) {}
#endif

 private:
  enum Operation { NONE, SWAP, STORE, LOAD };
  Vrouter verilog_;
#if VM_TRACE
  std::unique_ptr<VerilatedVcdC> waveform_;
  uint64_t time_ = 0;
  void dump() {
    if (waveform_) waveform_->dump(time_ += 5);
  }
#else
  void dump() {}
#endif
};
#endif
