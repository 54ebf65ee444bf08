// rounds MACHINE SCRIPT: runs a machine in rounds from C++, and prints its report.
#include <fstream>
#include <iostream>
#include <iterator>
#include "torusmem.hpp"

namespace {

std::string read_file(const char *name) {
  std::ifstream file(name, std::ios::binary);
  if (!file) throw std::runtime_error(std::string("cannot read ") + name);
  return {std::istreambuf_iterator<char>(file), {}};
}

}  // namespace

int main(int count, char **words) try {
  if (count != 3) throw std::runtime_error("give MACHINE SCRIPT");
  torusmem::machine machine(read_file(words[1]), read_file(words[2]));
  std::cerr << machine.finish() << " rounds\n";
  std::cout << machine.report() << std::flush;
  if (!std::cout) throw std::runtime_error("output failed");
  return 0;
} catch (const std::exception &fault) {
  std::cerr << fault.what() << "\n";
  return 1;
}
