#include "pdr.h"

#include <cstdio>
#include <sstream>

#include "abc.h"
#include "transition.h"

namespace {

// The chip with its memory as registers. Every register begins as 0: one with reset 1 is kept inverted. What begins unknown is an input in a frame of
// its own before the first, which the register `begun` tells apart: what abc writes of an invariant is right only where all begin as 0.
class Model {
public:
  Model(const Chip &modelled, const Property &property) : chip(modelled), net(modelled.of(property)), bits(net) {
    find_kept();
    begun = has_unknown ? graph.add_latch(false) : TRUE;
    if (has_unknown) graph.set_next(begun, TRUE);
    for (uint32_t bit = 0; bit < bits.count; bit++) state.push_back(kept[bit] ? graph.add_latch(false) ^ starts_as_1(bit) : FALSE);
    settle();
    for (uint32_t bit = 0; bit < bits.count; bit++)
      if (kept[bit]) set_next(bit);
  }

  // In binary AIGER, with a name for each latch: s and the state's bit, or b for `begun`.
  std::string file() const {
    std::vector<uint32_t> inputs, latches;
    for (uint32_t node = 1; node < graph.size(); node++) {
      if (graph.node(node).kind == Aig::Kind::input) inputs.push_back(node);
      if (graph.node(node).kind == Aig::Kind::latch) latches.push_back(node);
    }
    std::vector<std::string> names(graph.size());
    if (has_unknown) names[begun / 2] = "b";
    for (uint32_t bit = 0; bit < bits.count; bit++)
      if (kept[bit]) names[state[bit] / 2] = "s" + std::to_string(bit);
    std::string text = binary_aiger(graph, inputs, latches, {bad});
    for (size_t l = 0; l < latches.size(); l++) text += "l" + std::to_string(l) + " " + names[latches[l]] + "\n";
    return text;
  }

  bool has_unknown = false;

  // The clause of a cube that pdr says is not reached; none where it is about the frame before the first. It throws a text where it is no such cube.
  std::optional<Clause> clause_of(const std::vector<std::string> &names, const std::string &cube) const {
    Clause clause;
    if (cube.size() != names.size()) throw std::string("a line of its invariant has another length");
    for (size_t at = 0; at < cube.size(); at++) {
      if (cube[at] == '-') continue;
      if (cube[at] != '0' && cube[at] != '1') throw std::string("a line of its invariant has a letter");
      bool is_1 = cube[at] == '1';
      if (names[at] == "b") {
        if (!is_1) return std::nullopt;
        continue;
      }
      uint32_t bit = UINT32_MAX;
      if (std::sscanf(names[at].c_str(), "s%u", &bit) != 1 || bit >= bits.count || !kept[bit])
        throw "its invariant names a register that there is not: " + names[at];
      int32_t number = static_cast<int32_t>(bit) + 1;
      clause.push_back(is_1 != starts_as_1(bit) ? -number : number);
    }
    return clause;
  }

private:
  const Chip &chip;
  marrubigai_netlist net;
  StateBits bits;
  Aig graph;
  Lit begun = TRUE, bad = FALSE;
  std::vector<bool> kept; // what the property depends on, by bit of the state
  std::vector<Lit> state, wires;
  std::vector<Lit> matches; // of the address that is written at, by word

  bool starts_as_1(uint32_t bit) const {
    if (bit < bits.latches) return chip.latches[bit].reset == 1;
    return bit >= bits.held && !net.unknown_start && (net.initial_word >> (bit - bits.held) % bits.n & 1);
  }
  bool starts_unknown(uint32_t bit) const { return bit >= bits.latches && (bit < bits.held || net.unknown_start); }
  marrubigai_code enable(uint32_t port) const { return port ? net.re2 : net.re; }
  Lit value(marrubigai_code code) const { return wires[code / 2] ^ (code & 1); }

  void find_kept() {
    kept.assign(bits.count, false);
    std::vector<bool> seen(chip.wires() + 1);
    std::vector<marrubigai_code> stack{net.p};
    auto push = [&](const marrubigai_code *codes) { stack.insert(stack.end(), codes, codes + net.m); };
    while (!stack.empty()) {
      uint32_t wire = stack.back() / 2;
      stack.pop_back();
      if (wire <= net.inputs || seen[wire]) continue;
      seen[wire] = true;
      uint32_t first_gate = chip.first_read() + chip.read_bits();
      if (wire < chip.first_read()) {
        uint32_t latch = wire - net.inputs - 1;
        kept[latch] = true;
        stack.push_back(chip.latches[latch].next);
      } else if (wire >= first_gate) {
        stack.push_back(chip.gates[wire - first_gate].left), stack.push_back(chip.gates[wire - first_gate].right);
      } else {
        uint32_t read = wire - chip.first_read(), port = read / net.n, t = read % net.n;
        if (enable(port) != 1) kept[net.latches + read] = true;
        stack.push_back(enable(port));
        if (enable(port) == 0) continue;
        for (uint32_t word = 0; word >> net.m == 0; word++) kept[bits.word(word, t)] = true;
        push(port ? net.address2 : net.address), push(net.address);
        stack.push_back(net.we), stack.push_back(net.write_data[t]);
      }
    }
    for (uint32_t bit = 0; bit < bits.count; bit++) has_unknown = has_unknown || (kept[bit] && starts_unknown(bit));
  }

  // the gates in their order, each read where its port's address is there: that depends on no read bit
  void settle() {
    wires.assign(chip.wires() + 1, FALSE);
    for (uint32_t i = 0; i < net.inputs; i++) wires[1 + i] = graph.add_input();
    for (uint32_t l = 0; l < net.latches; l++) wires[net.inputs + 1 + l] = state[l];
    settle_gates(false);
    for (uint32_t port = 0; port <= net.second_port; port++)
      for (uint32_t t = 0; t < net.n; t++) settle_read(port, t);
    settle_gates(true);
    bad = graph.land(value(net.p) ^ 1, begun);
  }

  // Before the reads are there, only what depends on none of them is made.
  void settle_gates(bool all) {
    uint32_t first_gate = chip.first_read() + chip.read_bits();
    std::vector<bool> open(chip.wires() + 1);
    for (uint32_t r = 0; r < chip.read_bits(); r++) open[chip.first_read() + r] = !all;
    for (uint32_t g = 0; g < net.gates; g++) {
      const marrubigai_gate &gate = chip.gates[g];
      open[first_gate + g] = open[gate.left / 2] || open[gate.right / 2];
      if (!open[first_gate + g]) wires[first_gate + g] = graph.land(value(gate.left), value(gate.right));
    }
  }

  void settle_read(uint32_t port, uint32_t t) {
    const marrubigai_code *address = port ? net.address2 : net.address;
    std::vector<Lit> words;
    for (uint32_t word = 0; word >> net.m == 0; word++) words.push_back(state[bits.word(word, t)]);
    for (uint32_t b = 0; b < net.m; b++) { // a tree of choices, by the lowest address bit first
      for (size_t w = 0; 2 * w < words.size(); w++) words[w] = graph.mux(value(address[b]), words[2 * w + 1], words[2 * w]);
      words.resize(words.size() / 2);
    }
    uint32_t read = port * net.n + t;
    wires[chip.first_read() + read] = graph.mux(value(enable(port)), words[0], state[net.latches + read]);
  }

  Lit match(uint32_t word) {
    if (matches.empty()) {
      matches = {value(net.we)};
      for (uint32_t b = net.m; b-- > 0;) { // by the highest address bit first, so that word w is at place w
        std::vector<Lit> finer;
        for (Lit part : matches)
          for (Lit last : {FALSE, TRUE}) finer.push_back(graph.land(part, value(net.address[b]) ^ last ^ 1));
        matches = finer;
      }
    }
    return matches[word];
  }

  void set_next(uint32_t bit) {
    Lit next;
    if (bit < bits.latches) {
      next = value(chip.latches[bit].next);
    } else if (bit < bits.held) {
      next = wires[chip.first_read() + bit - bits.latches];
    } else {
      uint32_t word = (bit - bits.held) / bits.n, t = (bit - bits.held) % bits.n;
      next = graph.mux(match(word), value(net.write_data[t]), state[bit]);
    }
    // in the frame before the first a register stays as it begins, or takes what it begins as
    Lit start = starts_unknown(bit) ? graph.add_input() : starts_as_1(bit) ? TRUE : FALSE;
    if (has_unknown) next = graph.mux(begun, next, start);
    graph.set_next(state[bit], next ^ starts_as_1(bit));
  }
};

// the last line that it said
std::string last_line(const std::string &said) {
  size_t end = said.find_last_not_of("\n \t");
  if (end == std::string::npos) return "";
  size_t begin = said.rfind('\n', end);
  begin = begin == std::string::npos ? 0 : begin + 1;
  return said.substr(begin, std::min<size_t>(end + 1 - begin, 100));
}

// a PLA file: the names of the inputs behind .ilb, and a cube in each line
PdrAnswer invariant_of(const Model &model, const std::string &pla) {
  PdrAnswer made;
  std::istringstream lines(pla);
  std::vector<std::string> names;
  bool ended = false;
  for (std::string line; std::getline(lines, line) && !ended;) {
    std::istringstream words(line);
    std::string first, word;
    if (!(words >> first) || first[0] == '#') continue;
    if (first == ".ilb")
      while (words >> word) names.push_back(word);
    if (first == ".e") ended = true;
    if (first[0] == '.') continue;
    auto clause = model.clause_of(names, first);
    if (clause) made.invariant.push_back(*clause);
  }
  if (!ended) throw std::string("its invariant is cut short");
  made.kind = PdrAnswer::Kind::invariant;
  return made;
}

} // namespace

PdrAnswer ask_pdr(const Chip &chip, const Property &property, Limit &limit, Stop &stop) {
  Model model(chip, property);
  PdrAnswer answer;
  auto none = [&](const std::string &why) { return answer.why = why, answer; };
  double began = stop.seconds();
  Finished finished = run_abc(model.file(), "pdr -d -I /dev/fd/3", stop, limit.seconds_left());
  char seconds[32];
  std::snprintf(seconds, sizeof seconds, "%.1f s", stop.seconds() - began);
  if (finished.missing) return none(std::string(ABC) + " is missing (Debian's package of this name)");
  answer.late = finished.killed;
  if (finished.killed) return none(std::string("no answer in ") + seconds);
  size_t asserted = finished.said.find("asserted in frame ");
  if (finished.said.find("Property proved") != std::string::npos) {
    try {
      return invariant_of(model, finished.written);
    } catch (const std::string &why) {
      return none(why);
    }
  }
  unsigned frame = 0;
  if (asserted != std::string::npos && std::sscanf(finished.said.c_str() + asserted, "asserted in frame %u", &frame) == 1) {
    answer.kind = PdrAnswer::Kind::broken;
    answer.frame = model.has_unknown && frame > 0 ? frame - 1 : frame;
    return answer;
  }
  return none(finished.status != 0 ? "it ended with status " + std::to_string(finished.status) : "it gave no answer: " + last_line(finished.said));
}
