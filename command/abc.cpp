#include "abc.h"

#include <fcntl.h>
#include <sys/mman.h>
#include <unistd.h>

#include <algorithm>
#include <cerrno>
#include <cstdio>
#include <cstring>

#include "failure.h"

namespace {

// A file without a name that a program which is started finds by its descriptor's number.
class Handed {
public:
  explicit Handed(const std::string &content) {
    int opened = memfd_create("chip", MFD_CLOEXEC);
    number = opened < 0 ? -1 : fcntl(opened, F_DUPFD, 20); // above those that a program is started with, and left open for it
    if (opened >= 0) close(opened);
    if (number < 0 || write(number, content.data(), content.size()) != static_cast<ssize_t>(content.size()))
      throw Failure("the chip cannot be handed to " + std::string(ABC) + ": " + std::strerror(errno));
  }
  ~Handed() { close(number); }
  Handed(const Handed &) = delete;
  Handed &operator=(const Handed &) = delete;
  std::string path() const { return "/dev/fd/" + std::to_string(number); }

private:
  int number;
};

} // namespace

std::string binary_aiger(const Aig &aig, const std::vector<uint32_t> &inputs, const std::vector<uint32_t> &latches, const std::vector<Lit> &outputs) {
  std::vector<Lit> roots = outputs;
  for (uint32_t node : latches) roots.push_back(aig.node(node).left);
  const std::vector<uint32_t> gates = aig.gates_below(roots);
  std::vector<uint32_t> number(aig.size());
  uint32_t next = 0;
  for (const auto *list : {&inputs, &latches, &gates})
    for (uint32_t node : *list) number[node] = ++next;
  auto code = [&](Lit literal) { return 2 * number[literal / 2] + (literal & 1); };
  std::string text = "aig " + std::to_string(next) + " " + std::to_string(inputs.size()) + " " + std::to_string(latches.size()) + " " +
                     std::to_string(outputs.size()) + " " + std::to_string(gates.size()) + "\n";
  for (uint32_t node : latches) text += std::to_string(code(aig.node(node).left)) + "\n";
  for (Lit output : outputs) text += std::to_string(code(output)) + "\n";
  auto put = [&](uint32_t difference) {
    for (; difference >= 128; difference >>= 7) text += static_cast<char>((difference & 127) | 128);
    text += static_cast<char>(difference);
  };
  for (uint32_t node : gates) {
    uint32_t left = code(aig.node(node).left), right = code(aig.node(node).right);
    if (left < right) std::swap(left, right);
    put(2 * number[node] - left), put(left - right);
  }
  return text;
}

std::vector<Lit> add_binary_aiger(Aig &aig, const std::vector<uint32_t> &inputs, const std::string &file) {
  auto refuse = [] { throw std::string("what it wrote is no netlist"); };
  unsigned last = 0, its_inputs = 0, latches = 0, outputs = 0, gates = 0;
  int length = 0;
  if (std::sscanf(file.c_str(), "aig %u %u %u %u %u%n", &last, &its_inputs, &latches, &outputs, &gates, &length) != 5 || latches != 0 ||
      its_inputs != inputs.size() || last - its_inputs != gates)
    refuse();
  size_t at = static_cast<size_t>(length) + 1;
  std::vector<unsigned> codes;
  for (; codes.size() < outputs && at < file.size(); at = std::min(file.find('\n', at), file.size() - 1) + 1) {
    codes.emplace_back();
    if (std::sscanf(file.c_str() + at, "%u", &codes.back()) != 1 || codes.back() / 2 > last) refuse();
  }
  if (codes.size() != outputs) refuse();
  auto take = [&] {
    uint32_t value = 0;
    for (unsigned shift = 0; shift < 32; shift += 7) {
      if (at >= file.size()) break;
      unsigned byte = static_cast<unsigned char>(file[at++]);
      value |= (byte & 127) << shift;
      if (byte < 128) return value;
    }
    refuse();
    return value;
  };
  std::vector<Lit> nodes{FALSE};
  for (uint32_t node : inputs) nodes.push_back(2 * node);
  auto lit = [&](uint32_t code) { return nodes[code / 2] ^ (code & 1); };
  while (nodes.size() <= last) {
    uint32_t own = static_cast<uint32_t>(2 * nodes.size()), first = take(), second = take();
    if (first == 0 || first > own || second > own - first) refuse();
    nodes.push_back(aig.land(lit(own - first), lit(own - first - second)));
  }
  std::vector<Lit> made;
  for (unsigned code : codes) made.push_back(lit(code));
  return made;
}

Finished run_abc(const std::string &file, const std::string &commands, Stop &stop, double seconds) {
  Handed handed(file);
  return run_program({ABC, "-q", "read_aiger " + handed.path() + "; " + commands}, stop, seconds);
}
