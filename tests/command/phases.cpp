// A design whose memory has two ports, as a sheet with two (from a given start) and as a sheet with one that they have in turn (from an unknown start):
// one frame of the first is two of the second, whatever state and inputs are and whatever the memory gives. By a solver, over both netlists.
// Arguments: those of the command for such a design. Linked with all of the command but its main.

#include <cstdio>
#include <map>

#include "../../command/aig.h"
#include "../../command/failure.h"
#include "../../command/options.h"
#include "../../command/verilog.h"

namespace {

unsigned passed = 0, failed = 0;
void check(const std::string &what, bool right) {
  (right ? passed : failed)++;
  if (!right) std::printf("FAILED: %s\n", what.c_str());
}

// the wires of a frame, from its inputs, latches and read bits; read bits are put in when addresses are there
struct Frame {
  Frame(Aig &graph, const Chip &of, const std::vector<Lit> &inputs, const std::vector<Lit> &latches) : aig(graph), chip(of), wires{FALSE} {
    wires.insert(wires.end(), inputs.begin(), inputs.end());
    wires.insert(wires.end(), latches.begin(), latches.end());
    wires.resize(chip.wires() + 1, FALSE);
  }
  void settle() {
    for (uint32_t g = 0; g < chip.net.gates; g++)
      wires[chip.first_read() + chip.read_bits() + g] = aig.land(value(chip.gates[g].left), value(chip.gates[g].right));
  }
  void read(uint32_t port, const std::vector<Lit> &word) {
    for (uint32_t t = 0; t < chip.net.n; t++) wires[chip.first_read(port) + t] = word[t];
  }
  Lit value(uint32_t code) const { return wires[code / 2] ^ (code & 1); }
  std::vector<Lit> values(const marrubigai_code *codes, uint32_t count) const {
    std::vector<Lit> made;
    for (uint32_t t = 0; t < count; t++) made.push_back(value(codes[t]));
    return made;
  }
  std::vector<Lit> next() const {
    std::vector<Lit> made;
    for (const marrubigai_latch &latch : chip.latches) made.push_back(value(latch.next));
    return made;
  }

  Aig &aig;
  const Chip &chip;
  std::vector<Lit> wires;
};

class Comparison {
public:
  Comparison(const Chip &of_two, const Chip &of_one) : two(of_two), one(of_one) {}

  void run() {
    const marrubigai_netlist &net = two.net;
    std::vector<Lit> state = fresh(net.latches), own;
    for (size_t l = net.latches; l < one.latches.size(); l++) own.push_back(one.latches[l].next == phase_next(l) ? FALSE : aig.add_input());
    std::vector<Lit> latches = state;
    latches.insert(latches.end(), own.begin(), own.end());

    // the words that the ports give, in turn; what is held from before may be anything
    std::vector<Lit> second_word = fresh(net.n), first_word = fresh(net.n), before = fresh(net.n);
    Frame reading(aig, one, fresh(one.net.inputs), latches);
    reading.settle();
    Lit reads = reading.value(one.net.re);
    std::vector<Lit> held = chosen(reads, second_word, before);
    reading.read(0, held);
    reading.settle();
    Frame writing(aig, one, fresh(one.net.inputs), reading.next());
    writing.settle();
    writing.read(0, chosen(writing.value(one.net.re), first_word, held));
    writing.settle();

    // the sheet with two ports, fed what the design's inputs are in the last frame
    Frame both(aig, two, inputs_of(writing), state);
    both.settle();
    Lit re = both.value(net.re), re2 = both.value(net.re2);
    both.read(0, chosen(re, first_word, fresh(net.n)));
    both.read(1, chosen(re2, second_word, fresh(net.n)));
    both.settle();

    same("the second port's enable", TRUE, {re2}, {reads});
    same("the second port's address", re2, both.values(net.address2, net.m), reading.values(one.net.address, net.m));
    same("nothing is written before the last frame", TRUE, {FALSE}, {reading.value(one.net.we)});
    same("nothing counts before the last frame", TRUE, {TRUE}, {reading.value(one.net.p)});
    same("the first port's enable", TRUE, {re}, {writing.value(one.net.re)});
    same("the write enable", TRUE, {both.value(net.we)}, {writing.value(one.net.we)});
    Lit used = aig.lor(re, both.value(net.we));
    same("the first port's address", used, both.values(net.address, net.m), writing.values(one.net.address, net.m));
    same("the word that is written", both.value(net.we), both.values(net.write_data, net.n), writing.values(one.net.write_data, net.n));
    same("the property", TRUE, {both.value(net.p)}, {writing.value(one.net.p)});
    std::vector<Lit> next = both.next(), after = writing.next();
    for (uint32_t l = 0; l < net.latches; l++) {
      same("register " + std::to_string(l), TRUE, {next[l]}, {after[l]});
      check("register " + std::to_string(l) + " begins alike", two.latches[l].reset == one.latches[l].reset);
    }
    for (size_t l = 0; l < own.size(); l++)
      if (own[l] == FALSE) same("the phase", TRUE, {FALSE}, {after[net.latches + l]});
  }

private:
  const Chip &two, &one;
  Aig aig;

  // a latch that is inverted by each frame tells the phases apart
  marrubigai_code phase_next(size_t latch) const { return static_cast<marrubigai_code>(2 * (one.net.inputs + 1 + latch) + 1); }

  std::vector<Lit> fresh(uint32_t count) {
    std::vector<Lit> made;
    while (made.size() < count) made.push_back(aig.add_input());
    return made;
  }
  std::vector<Lit> chosen(Lit condition, const std::vector<Lit> &then, const std::vector<Lit> &otherwise) {
    std::vector<Lit> made;
    for (size_t t = 0; t < then.size(); t++) made.push_back(aig.mux(condition, then[t], otherwise[t]));
    return made;
  }
  // by their names, as those that are held have other wires there; inputs without a name have the same place
  std::vector<Lit> inputs_of(const Frame &last) const {
    std::vector<Lit> made;
    for (uint32_t i = 0; i < two.net.inputs; i++) made.push_back(last.wires[1 + i]);
    for (const Word &word : two.named)
      for (const Word &other : one.named)
        for (size_t t = 0; word.name == other.name && t < word.codes.size(); t++)
          if (word.codes[t] != NO_CODE && word.codes[t] % 2 == 0 && word.codes[t] >= 2 && word.codes[t] / 2 <= two.net.inputs)
            made[word.codes[t] / 2 - 1] = last.value(other.codes[t]);
    return made;
  }
  void same(const std::string &what, Lit where, const std::vector<Lit> &left, const std::vector<Lit> &right) {
    check(what, !can_differ(aig, where, left, TRUE, right));
  }
};

} // namespace

int main(int count, char **arguments) {
  try {
    Options options = parse_options(count, arguments);
    Stop stop(0, false);
    options.start = {Start::Kind::word, 0};
    Chip two = chips_of_verilog(options, stop).at(0);
    options.start = {Start::Kind::unknown, 0};
    Chip one = chips_of_verilog(options, stop).at(0);
    check("two ports, and one in turn", two.net.second_port == 1 && two.phases == 1 && one.net.second_port == 0 && one.phases == 2);
    check("the same inputs, and registers that the first has not", two.net.inputs == one.net.inputs && two.net.latches < one.net.latches);
    check("the same memory", two.net.m == one.net.m && two.net.n == one.net.n);
    if (failed == 0) Comparison(two, one).run();
  } catch (const Failure &failure) {
    check(failure.message, false);
  }
  std::printf("%u passed, %u failed\n", passed, failed);
  return failed > 0;
}
