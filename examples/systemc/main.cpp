// systemc MACHINE COUNT: initiators that count in one word of a torusmem machine, over TLM-2.0; prints the machine's report.
//
// Each processor of an even tile has an initiator by b_transport, each of an odd tile one by nb_transport with THREE adds
// out at once. Each adds 1 to word 0 COUNT times. All words that came back must be the numbers below their count, each
// once: so says any memory that behaves like one. The status is 0, and standard error says how many rounds it took; or 1.
//
//     cc -O2 -I include -c include/*.c
//     c++ -std=c++17 -I include -o systemc examples/systemc/main.cpp *.o crates/torusmem_c/out/libtorusmem_c.a -lsystemc
//     ./systemc examples/torus.txt 6
//
// It needs SystemC (Debian: libsystemc-dev).
#include <algorithm>
#include <fstream>
#include <iostream>
#include <iterator>
#include <memory>
#include <tlm_utils/simple_initiator_socket.h>
#include "memory.h"

namespace {

using Payload = tlm::tlm_generic_payload;
constexpr int THREE = 3;

// What all initiators have counted.
struct Count {
  std::vector<uint64_t> olds;
  size_t wanted;
  void take(uint64_t old) {
    olds.push_back(old);
    if (olds.size() == wanted) sc_core::sc_stop();
  }
};

// A transaction that adds 1 to word 0, with what belongs to it.
struct Add : Payload {
  uint64_t word = 0;
  Atomic atomic;
  explicit Add(tlm::tlm_mm_interface *owner = nullptr) : Payload(owner) {
    atomic.operation = TORUSMEM_ADD;
    atomic.first = 1;
    set_command(tlm::TLM_IGNORE_COMMAND);
    set_extension(&atomic);
    set_data_ptr(reinterpret_cast<unsigned char *>(&word));
    set_data_length(8);
    set_streaming_width(8);
  }
  ~Add() override { clear_extension(&atomic); }
};

void must(const Payload &it) {
  if (!it.is_response_ok()) throw std::runtime_error(it.get_response_string());
}

class Initiator : public sc_core::sc_module, tlm::tlm_mm_interface {
 public:
  tlm_utils::simple_initiator_socket<Initiator, 64> socket{"socket"};

  Initiator(sc_core::sc_module_name name, bool is_blocking, int count, Count &all)
      : sc_module(name), left_(count), all_(all) {
    socket.register_nb_transport_bw(this, &Initiator::nb_transport_bw);
    if (is_blocking) {
      SC_THREAD(run);
    } else {
      SC_METHOD(begin);
    }
  }
  SC_HAS_PROCESS(Initiator);

 private:
  void run() {
    for (; left_ > 0; left_--) {
      Add add;
      sc_core::sc_time delay(1, sc_core::SC_NS);
      socket->b_transport(add, delay);
      must(add);
      all_.take(add.word);
    }
  }

  void begin() {
    for (int at = 0; at < THREE; at++) {
      adds_.emplace_back(new Add(this));
      adds_.back()->acquire();
      send(*adds_.back());
    }
  }

  void send(Add &add) {
    tlm::tlm_phase phase = tlm::BEGIN_REQ;
    sc_core::sc_time delay = sc_core::SC_ZERO_TIME;
    if (left_-- <= 0) return;
    if (socket->nb_transport_fw(add, phase, delay) == tlm::TLM_COMPLETED) must(add);
  }

  // An add is answered: the response ends here, and the next one is sent by its transaction.
  tlm::tlm_sync_enum nb_transport_bw(Payload &it, tlm::tlm_phase &, sc_core::sc_time &) {
    Add &add = static_cast<Add &>(it);
    must(add);
    all_.take(add.word);
    send(add);
    return tlm::TLM_COMPLETED;
  }

  void free(Payload *) override {}  // the list keeps them

  int left_;
  Count &all_;
  std::vector<std::unique_ptr<Add>> adds_;
};

std::string read_file(const char *name) {
  std::ifstream file(name, std::ios::binary);
  if (!file) throw std::runtime_error(std::string("cannot read ") + name);
  return {std::istreambuf_iterator<char>(file), {}};
}

}  // namespace

int sc_main(int count, char **words) try {
  int each = count == 3 ? std::atoi(words[2]) : 0;
  if (each < 1) throw std::runtime_error("give MACHINE COUNT");
  sc_core::sc_clock clock("clock", 10, sc_core::SC_NS);
  Memory memory("memory", read_file(words[1]));
  memory.clock(clock);
  uint32_t tiles = memory.machine().tiles();
  Count all{{}, static_cast<size_t>(each) * tiles};
  std::vector<std::unique_ptr<Initiator>> initiators;
  for (uint32_t tile = 0; tile < tiles; tile++) {
    initiators.emplace_back(new Initiator(sc_core::sc_gen_unique_name("initiator"), tile % 2 == 0, each, all));
    initiators.back()->socket.bind(memory.sockets[tile]);
  }
  // Standard output is for the report alone: SystemC would say there that the simulation was stopped.
  sc_core::sc_report_handler::set_actions("/OSCI/SystemC", sc_core::SC_INFO, sc_core::SC_DO_NOTHING);
  sc_core::sc_start();

  std::sort(all.olds.begin(), all.olds.end());
  bool is_one = all.olds.size() == all.wanted;
  for (size_t at = 0; is_one && at < all.wanted; at++) is_one = all.olds[at] == at;
  if (!is_one) throw std::runtime_error("the counts are not those of one memory");
  memory.machine().finish();
  std::string report = memory.machine().report();
  torusmem::check(report);
  std::cerr << "counted to " << memory.machine().word(0) << " in " << memory.rounds() << " rounds\n";
  std::cout << report << std::flush;
  return std::cout ? 0 : 1;
} catch (const std::exception &fault) {
  std::cerr << fault.what() << "\n";
  return 1;
}
