// A memory for SystemC: a TLM-2.0 target with a socket for each processor of a torusmem machine.
//
// At each rising edge of its clock the machine makes a fair round. A transaction of eight bytes is a load or a store of the
// word at its address, which counts bytes; with an extension Atomic it is any operation of torusmem.h. It ends at the edge
// at which the machine has answered it: b_transport waits for that, nb_transport takes transactions while others are out,
// and answers them in the order of the machine's answers. Where a processor has made all the operations that a machine
// takes of one, all that is out is answered at once, and a machine goes on that opens with the words of this one.
#ifndef TORUSMEM_EXAMPLES_MEMORY_H
#define TORUSMEM_EXAMPLES_MEMORY_H
#include <cstring>
#include <deque>
#include <map>
#include <systemc>
#include <tlm>
#include <tlm_utils/simple_target_socket.h>
#include "torusmem.hpp"

// What a transaction does in place of a load or store. The word that was there before comes back as its data.
struct Atomic : tlm::tlm_extension<Atomic> {
  uint32_t operation = TORUSMEM_LOAD;
  uint64_t first = 0, second = 0;
  tlm::tlm_extension_base *clone() const override { return new Atomic(*this); }
  void copy_from(const tlm::tlm_extension_base &other) override { *this = static_cast<const Atomic &>(other); }
};

class Memory : public sc_core::sc_module {
  torusmem::machine machine_;

 public:
  using Payload = tlm::tlm_generic_payload;
  sc_core::sc_in<bool> clock{"clock"};
  sc_core::sc_vector<tlm_utils::simple_target_socket_tagged<Memory, 64>> sockets;

  Memory(sc_core::sc_module_name name, const std::string &machine)
      : sc_module(name), machine_(machine), sockets("socket", machine_.tiles()), lanes_(machine_.tiles()) {
    for (int at = 0; at < static_cast<int>(lanes_.size()); at++) {
      sockets[at].register_b_transport(this, &Memory::b_transport, at);
      sockets[at].register_nb_transport_fw(this, &Memory::nb_transport_fw, at);
    }
    SC_METHOD(edge);
    sensitive << clock.pos();
    dont_initialize();
  }
  SC_HAS_PROCESS(Memory);

  torusmem::machine &machine() { return machine_; }
  uint64_t rounds() const { return rounds_; }

 private:
  // A transaction that was asked: `done` wakes whoever waits for it in b_transport.
  struct Asked {
    Payload *payload;
    sc_core::sc_event *done;
  };
  // Of a processor: what is asked, by its index; how many answers were taken; what is answered and not told yet.
  struct Lane {
    std::map<uint32_t, Asked> asked;
    uint32_t taken = 0;
    std::deque<Payload *> answered;
    bool is_telling = false;
  };

  void b_transport(int processor, Payload &it, sc_core::sc_time &delay) {
    sc_core::sc_event done;
    wait(delay);
    delay = sc_core::SC_ZERO_TIME;
    if (ask(processor, it, &done)) wait(done);
  }

  tlm::tlm_sync_enum nb_transport_fw(int processor, Payload &it, tlm::tlm_phase &phase, sc_core::sc_time &) {
    if (phase == tlm::END_RESP) {
      end(lanes_[processor], it);
      return tlm::TLM_COMPLETED;
    }
    if (it.has_mm()) it.acquire();
    if (!ask(processor, it, nullptr)) {
      if (it.has_mm()) it.release();
      return tlm::TLM_COMPLETED;
    }
    phase = tlm::END_REQ;
    return tlm::TLM_UPDATED;
  }

  // Asks the machine for what a transaction is; false where it is refused, and has its status.
  bool ask(int processor, Payload &it, sc_core::sc_event *done) {
    Atomic *atomic = it.get_extension<Atomic>();
    uint64_t first = atomic ? atomic->first : 0, second = atomic ? atomic->second : 0, at = it.get_address();
    it.set_response_status(tlm::TLM_INCOMPLETE_RESPONSE);
    if (it.get_data_length() != 8) it.set_response_status(tlm::TLM_BURST_ERROR_RESPONSE);
    if (it.get_byte_enable_ptr()) it.set_response_status(tlm::TLM_BYTE_ENABLE_ERROR_RESPONSE);
    if (at % 8 != 0 || at / 8 > UINT32_MAX) it.set_response_status(tlm::TLM_ADDRESS_ERROR_RESPONSE);
    if (!atomic && it.get_command() == tlm::TLM_IGNORE_COMMAND) it.set_response_status(tlm::TLM_COMMAND_ERROR_RESPONSE);
    if (it.is_response_error() && it.get_response_status() != tlm::TLM_INCOMPLETE_RESPONSE) return false;
    if (!atomic && it.is_write()) std::memcpy(&first, it.get_data_ptr(), 8);
    uint32_t operation = it.is_write() ? TORUSMEM_STORE : TORUSMEM_LOAD;
    if (atomic) operation = atomic->operation;
    try {
      uint32_t word = static_cast<uint32_t>(at / 8);
      lanes_[processor].asked[index_of(static_cast<uint32_t>(processor), operation, word, first, second)] = {&it, done};
      return true;
    } catch (const torusmem::error &fault) {
      bool is_address = fault.code() == TORUSMEM_FAULT_ADDRESS;
      it.set_response_status(is_address ? tlm::TLM_ADDRESS_ERROR_RESPONSE : tlm::TLM_GENERIC_ERROR_RESPONSE);
      return false;
    }
  }

  // Asks for an operation, of a fresh machine where this one takes no more of them, and answers its index.
  uint32_t index_of(uint32_t processor, uint32_t operation, uint32_t word, uint64_t first, uint64_t second) {
    try {
      return machine_.ask(processor, operation, word, first, second);
    } catch (const torusmem::error &fault) {
      if (fault.code() != TORUSMEM_FAULT_LENGTH) throw;
    }
    reopen();
    return machine_.ask(processor, operation, word, first, second);
  }

  void reopen() {
    torusmem::machine fresh = machine_.reopened();
    take_all();
    machine_ = std::move(fresh);
    for (Lane &lane : lanes_) lane.taken = 0;
  }

  void edge() {
    machine_.fair_round();
    rounds_++;
    take_all();
    for (uint32_t processor = 0; processor < lanes_.size(); processor++) tell(processor, lanes_[processor]);
  }

  void take_all() {
    for (uint32_t processor = 0; processor < lanes_.size(); processor++) {
      Lane &lane = lanes_[processor];
      for (const torusmem_answer &answer : machine_.answers(processor, lane.taken)) take(lane, answer);
    }
  }

  void take(Lane &lane, const torusmem_answer &answer) {
    Asked asked = lane.asked.at(answer.index);
    lane.asked.erase(answer.index);
    lane.taken++;
    if (answer.has_old) std::memcpy(asked.payload->get_data_ptr(), &answer.old, 8);
    asked.payload->set_response_status(tlm::TLM_OK_RESPONSE);
    if (asked.done)
      asked.done->notify(sc_core::SC_ZERO_TIME);
    else
      lane.answered.push_back(asked.payload);
  }

  // Tells an initiator what is answered, one response at a time.
  void tell(uint32_t processor, Lane &lane) {
    while (!lane.is_telling && !lane.answered.empty()) {
      Payload &it = *lane.answered.front();
      tlm::tlm_phase phase = tlm::BEGIN_RESP;
      sc_core::sc_time now = sc_core::SC_ZERO_TIME;
      lane.answered.pop_front();
      lane.is_telling = true;
      tlm::tlm_sync_enum said = sockets[processor]->nb_transport_bw(it, phase, now);
      if (said == tlm::TLM_COMPLETED || (said == tlm::TLM_UPDATED && phase == tlm::END_RESP)) end(lane, it);
    }
  }

  void end(Lane &lane, Payload &it) {
    lane.is_telling = false;
    if (it.has_mm()) it.release();
  }

  std::vector<Lane> lanes_;
  uint64_t rounds_ = 0;
};
#endif
