// The script of a processor, which is asked line by line: what it can issue now, by the answers that it has.
#ifndef SCRIPT_H
#define SCRIPT_H
#include <cstdint>
#include <deque>
#include <map>
#include <sstream>
#include <string>
#include <vector>

constexpr const char *OPERATIONS[] = {"load", "store", "swap", "cas", "add", "and", "or", "xor", "max", "min", "fence", "spin"};
constexpr uint32_t FENCE = 10, SPIN = 11;

struct Operation {
  uint32_t kind = 0, address = 0;
  uint64_t first = 0, second = 0;
  bool first_is_last = false, second_is_last = false;
};

struct Answered {
  bool is_there = false;
  uint64_t old = 0;
  uint32_t bank = 0, place = 0;
};

class Script {
 public:
  void add(const Operation &line) { lines_.push_back(line); }

  // Whether an operation can be issued now, and which.
  bool ready(Operation &out) {
    pass_on();
    if (lines_.empty() || lines_.front().kind == FENCE) return false;
    out = lines_.front();
    bool is_answered = !asked.empty() && asked.back().is_there;
    uint64_t last = is_answered ? asked.back().old : 0;
    if (out.kind == SPIN) {
      out.kind = 0;
      return spun_ == 0 || is_answered;
    }
    if (out.first_is_last) out.first = last;
    if (out.second_is_last) out.second = last;
    return is_answered || !(out.first_is_last || out.second_is_last);
  }

  // It is issued under a tag.
  void issued(uint32_t tag) {
    tags_[tag] = asked.size();
    asked.emplace_back();
    if (lines_.front().kind == SPIN)
      spun_++;
    else
      lines_.pop_front();
  }

  void answered(uint32_t tag, uint64_t old, uint32_t bank, uint32_t place) {
    asked[tags_[tag]] = {true, old, bank, place};
    answers_++;
  }

  bool is_finished() {
    pass_on();
    return lines_.empty() && answers_ == asked.size();
  }

  std::vector<Answered> asked;  // in the order of issue

 private:
  // Drops what needs nothing more: fences behind answers, and spins that have ended.
  void pass_on() {
    while (!lines_.empty()) {
      const Operation &line = lines_.front();
      bool is_answered = !asked.empty() && asked.back().is_there;
      if (line.kind == FENCE && answers_ == asked.size()) {
        lines_.pop_front();
      } else if (line.kind == SPIN && spun_ && is_answered && (asked.back().old == line.first || spun_ == line.second)) {
        lines_.pop_front();
        spun_ = 0;
      } else {
        return;
      }
    }
  }

  std::deque<Operation> lines_;
  std::map<uint32_t, size_t> tags_;  // of each tag that is out: the operation
  uint64_t spun_ = 0, answers_ = 0;
};

// The scripts of all processors; the text is one that the library has loaded.
inline std::vector<Script> scripts(const std::string &text, uint32_t tiles) {
  std::vector<Script> found(tiles);
  std::istringstream lines(text);
  for (std::string line; std::getline(lines, line);) {
    std::istringstream words(line);
    std::string tile, name, value[2];
    if (!(words >> tile) || tile[0] == '#') continue;
    Operation it;
    words >> name;
    while (it.kind < SPIN && name != OPERATIONS[it.kind]) it.kind++;
    if (it.kind != FENCE) words >> it.address >> value[0] >> value[1];
    it.first_is_last = value[0] == "last";
    it.second_is_last = value[1] == "last";
    if (!value[0].empty() && !it.first_is_last) it.first = std::stoull(value[0]);
    if (!value[1].empty() && !it.second_is_last) it.second = std::stoull(value[1]);
    found[std::stoul(tile)].add(it);
  }
  return found;
}
#endif
