// cosim MACHINE SCRIPT SEED MISTAKE TILE..: steps routers in Verilog beside the library's. MISTAKE is what the router's
// input of this name is given, 0 or 1 for router.v, and a TILE may be the word `all`. COSIM_VCD in the environment names a
// folder for a waveform of each TILE, COSIM_COVERAGE a file for the coverage; each needs a program that was compiled for
// it (`verilated --vcd`, `verilated --coverage`).
//
// All agents of the machine make drawn steps in the library. A step of the router of a TILE is also made by its
// Verilog router, by its operation on one word of a row of its own, which is a copy of the library's before the step.
// Then both must have moved or not, and the two rows must be the same, also where neither has moved. The first step
// after which they are not is printed with each word and its channel, and the status is 1. Drawn steps finish every
// script, as no machine is dead before.
#include <cinttypes>
#include <cstdio>
#include <cstdlib>
#include <cstring>
#include <fstream>
#include <iterator>
#include <memory>
#include <string>
#include <vector>
#include "router.h"
#include "torusmem.h"

namespace {

// The choices of agents, by their numbers in these lists; those of a router are router.v's too.
constexpr uint32_t ROUTER_CHOICES[] = {TORUSMEM_TAKE_FROM, TORUSMEM_PUT, TORUSMEM_CREDIT_OF};
constexpr uint32_t PROCESSOR_CHOICES[] = {TORUSMEM_SEND, TORUSMEM_TAKE, TORUSMEM_CREDIT, TORUSMEM_DONE, TORUSMEM_LOOK};
constexpr uint32_t BANK_CHOICES[] = {TORUSMEM_TAKE, TORUSMEM_SERVE, TORUSMEM_SEND, TORUSMEM_CREDIT};
constexpr const char *NAMES[] = {"take", "put", "credit"};

// SplitMix64: Steele, Lea and Flood, Fast splittable pseudorandom number generators, 2014.
struct Numbers {
  uint64_t state;
  uint32_t below(uint32_t limit) {
    uint64_t z = state += 0x9E3779B97F4A7C15u;
    z = (z ^ (z >> 30)) * 0xBF58476D1CE4E5B9u;
    z = (z ^ (z >> 27)) * 0x94D049BB133111EBu;
    return static_cast<uint32_t>((z ^ (z >> 31)) % limit);
  }
};

// A step: its agent, and its choice by the number in the list of its agent's choices.
struct Step {
  uint32_t agent, choice, number;
};

// What the library tells of a machine's shape.
struct Shape {
  uint32_t tiles, ports, channels, places, depth;

  explicit Shape(torusmem_machine *m) {
    struct torusmem_shape told;
    if (torusmem_shape(m, &told).code != TORUSMEM_OK) std::abort();
    tiles = told.tiles, ports = told.ports, depth = told.depth, channels = ports + 2;
    places = tiles * channels * depth;
  }
};

// Reads the machine's row into a list that has its length.
void read_row(torusmem_machine *m, std::vector<uint64_t> &row) {
  if (torusmem_rows(m, row.data(), row.size()).code != TORUSMEM_OK) std::abort();
}

Step drawn(Numbers &numbers, const Shape &shape) {
  uint32_t agent = numbers.below(3 * shape.tiles);
  uint32_t choices = agent % 3 == 0 ? 5 : agent % 3 == 1 ? 3 : 4;
  uint32_t choice = numbers.below(choices);
  return {agent, choice, numbers.below(shape.ports)};
}

torusmem_outcome made(torusmem_machine *m, const Step &step) {
  const uint32_t *choices[] = {PROCESSOR_CHOICES, ROUTER_CHOICES, BANK_CHOICES};
  return torusmem_step(m, step.agent, choices[step.agent % 3][step.choice], step.number);
}

// The name of the channel of a place in the row.
std::string channel_name(const Shape &shape, uint32_t place) {
  uint32_t at = place / shape.depth % shape.channels, hops = shape.ports - 2;
  std::string name = "tile " + std::to_string(place / shape.depth / shape.channels);
  if (at >= hops) return name + (at % 2 ? ", reply " : ", request ") + (at < shape.ports ? "injection" : "ejection");
  if (hops > 8) name += ", dimension " + std::to_string(at / 8);
  return name + (at / 4 % 2 ? ", hop minus, " : ", hop plus, ") + (at / 2 % 2 ? "replies" : "requests") + ", bit " +
         std::to_string(at % 2);
}

// Prints where the places of all channels differ.
void print_differences(const Shape &shape, const std::vector<uint64_t> &library, const std::vector<uint64_t> &verilog) {
  for (uint32_t at = 0; at < shape.places; at++)
    if (library[at] != verilog[at])
      std::printf("  channel %" PRIu32 " (%s), place %" PRIu32 ": library %016" PRIX64 ", Verilog %016" PRIX64 "\n",
                  at / shape.depth, channel_name(shape, at).c_str(), at % shape.depth, library[at], verilog[at]);
}

// A router that is stepped beside the library's, and how often.
struct Tested {
  std::unique_ptr<Router> router;
  uint64_t steps = 0, moves = 0;
};

// Makes drawn steps till every script is finished; false at the first step that a router makes otherwise.
bool run(torusmem_machine *m, const Shape &shape, std::vector<Tested> &tested, Numbers numbers) {
  std::vector<uint64_t> row(torusmem_rows(m, nullptr, 0).value), after;
  read_row(m, row);
  after = row;
  std::vector<uint64_t> verilog;
  for (uint64_t draws = 0; torusmem_finished(m).value == 0; draws++) {
    Step step = drawn(numbers, shape);
    bool moved = made(m, step).value == 1;
    if (moved) read_row(m, after);
    Tested &it = tested[step.agent / 3];
    if (step.agent % 3 == 1 && it.router) {
      verilog = row;
      bool moved_too = it.router->attempt(step.choice, step.number, verilog.data(), shape.places);
      const std::vector<uint64_t> &library = moved ? after : row;
      it.steps++;
      it.moves += moved_too;
      if (moved != moved_too || library != verilog) {
        std::printf("step %" PRIu64 ", %s %" PRIu32 " of the router of tile %" PRIu32 ": library %s, Verilog %s\n", draws,
                    NAMES[step.choice], step.number, step.agent / 3, moved ? "moves" : "idle", moved_too ? "moves" : "idle");
        print_differences(shape, library, verilog);
        return false;
      }
    }
    if (moved) row.swap(after);
  }
  for (size_t tile = 0; tile < tested.size(); tile++)
    if (tested[tile].router)
      std::printf("tile %zu: %" PRIu64 " steps of its router, %" PRIu64 " of them moves: no difference\n", tile,
                  tested[tile].steps, tested[tile].moves);
  return true;
}

// The number that a word spells; false if it spells none below 2^64.
bool read_number(const char *word, uint64_t &number) {
  number = 0;
  for (const char *at = word; *at; at++) {
    if (*at < '0' || *at > '9' || number > (UINT64_MAX - (*at - '0')) / 10) return false;
    number = number * 10 + (*at - '0');
  }
  return *word != 0;
}

bool read_file(const char *name, std::string &text) {
  std::ifstream file(name, std::ios::binary);
  text.assign(std::istreambuf_iterator<char>(file), {});
  if (!file) std::fprintf(stderr, "cosim: cannot read %s\n", name);
  return bool(file);
}

// The routers of the tiles that the words name; none at all where a word names no tile.
std::vector<Tested> named(char **words, int count, uint32_t tiles, uint8_t mistake) {
  std::vector<Tested> tested(tiles);
  const char *folder = std::getenv("COSIM_VCD");
  auto add = [&](uint64_t tile) {
    tested[tile].router.reset(new Router(static_cast<uint32_t>(tile), mistake));
    if (folder) tested[tile].router->trace(std::string(folder) + "/tile" + std::to_string(tile) + ".vcd");
  };
  for (int at = 0; at < count; at++) {
    uint64_t tile;
    if (std::strcmp(words[at], "all") == 0) {
      for (tile = 0; tile < tiles; tile++) add(tile);
      continue;
    }
    if (!read_number(words[at], tile) || tile >= tiles) {
      std::fprintf(stderr, "cosim: there is no tile '%s': the tiles are 0 to %" PRIu32 "\n", words[at], tiles - 1);
      return {};
    }
    add(tile);
  }
  return tested;
}

int cosim(torusmem_machine *m, char **words, int count) {
  uint64_t seed, mistake;
  if (!read_number(words[3], seed) || !read_number(words[4], mistake) || mistake > 31) {
    std::fprintf(stderr, "cosim: SEED is a number below 2^64, and MISTAKE is 0 to 31\n");
    return 2;
  }
  std::string machine, script;
  if (!read_file(words[1], machine) || !read_file(words[2], script)) return 2;
  torusmem_outcome loaded = torusmem_load(m, reinterpret_cast<const uint8_t *>(machine.data()), machine.size(),
                                          reinterpret_cast<const uint8_t *>(script.data()), script.size());
  if (loaded.code != TORUSMEM_OK) {
    std::fprintf(stderr, "cosim: load: fault F%" PRIu32 " at line %" PRIu64 "\n", loaded.code, loaded.value);
    return 2;
  }
  Shape shape(m);
  std::vector<Tested> tested = named(words + 5, count - 5, shape.tiles, static_cast<uint8_t>(mistake));
  if (tested.empty()) return 2;
  bool is_same = run(m, shape, tested, Numbers{seed});
  if (const char *file = std::getenv("COSIM_COVERAGE")) Router::write_coverage(file);
  bool is_printed = std::fflush(stdout) == 0 && !std::ferror(stdout);
  if (!is_printed) std::fprintf(stderr, "cosim: output failed\n");
  return is_same && is_printed ? 0 : 1;
}

}  // namespace

int main(int count, char **words) {
  if (count < 6) {
    std::fprintf(stderr, "cosim: give MACHINE SCRIPT SEED MISTAKE TILE..\n");
    return 2;
  }
  torusmem_machine m = TORUSMEM_MACHINE_INIT;
  int status = cosim(&m, words, count);
  torusmem_free(&m);
  return status;
}
