#include "emission.h"

#include <algorithm>
#include <map>
#include <set>

#include "failure.h"
#include "phases.h"
#include "rewriting.h"

std::vector<uint32_t> Emission::codes_of(const std::vector<Lit> &literals) const {
  std::vector<uint32_t> made;
  for (Lit literal : literals) made.push_back(code(literal));
  return made;
}

namespace {

enum { MOST_WIRES = 600, MOST_ADDRESS_BITS = 12, MOST_DATA_BITS = 32 };

struct Cone {
  std::vector<char> has; // of each node
  std::vector<char> ports; // of the memory, those that something depends on
  std::vector<size_t> data_bits; // the same, bit by bit
};

Cone cone_of(const Aig &aig, const Memory &memory, std::vector<Lit> stack) {
  Cone cone;
  cone.has.assign(aig.size(), 0);
  cone.ports.assign(memory.ports.size(), 0);
  std::map<uint32_t, std::pair<size_t, size_t>> reads; // a node's port and bit
  for (size_t port = 0; port < memory.ports.size(); port++)
    for (size_t bit = 0; bit < memory.ports[port].read.size(); bit++) reads[memory.ports[port].read[bit] / 2] = {port, bit};
  std::set<size_t> data_bits;
  auto push = [&](const std::vector<Lit> &literals) { stack.insert(stack.end(), literals.begin(), literals.end()); };
  while (!stack.empty()) {
    uint32_t index = stack.back() / 2;
    stack.pop_back();
    if (cone.has[index]) continue;
    cone.has[index] = 1;
    const Aig::Node &node = aig.node(index);
    if (node.kind == Aig::Kind::latch) push({node.left});
    if (node.kind == Aig::Kind::gate) push({node.left, node.right});
    if (node.kind != Aig::Kind::read) continue;
    auto [port, bit] = reads.at(index);
    data_bits.insert(bit);
    push({memory.write_data[bit]});
    if (cone.ports[port]) continue;
    cone.ports[port] = 1;
    push(memory.ports[0].address); // what is read was written there
    push(memory.ports[port].address);
    push({memory.we, memory.ports[port].re});
  }
  cone.data_bits.assign(data_bits.begin(), data_bits.end());
  return cone;
}

// The address of each port, without the bits that tell no words apart: those that are the same constant in all ports, and those that are an earlier
// bit, inverted or not, in all of them alike.
std::vector<std::vector<Lit>> own_bits(Aig &aig, const std::vector<ReadPort> &ports) {
  std::vector<std::vector<Lit>> own(ports.size());
  auto bits = [&](size_t t) {
    std::vector<Lit> made;
    for (const ReadPort &port : ports) made.push_back(port.address[t]);
    return made;
  };
  auto inverted = [](std::vector<Lit> word) {
    for (Lit &bit : word) bit ^= 1;
    return word;
  };
  std::set<std::vector<Lit>> known{std::vector<Lit>(ports.size(), FALSE), std::vector<Lit>(ports.size(), TRUE)};
  for (size_t t = 0; t < ports[0].address.size(); t++) {
    std::vector<Lit> these = bits(t);
    if (!known.insert(these).second || !known.insert(inverted(these)).second) continue;
    for (size_t port = 0; port < ports.size(); port++) {
      // the same wire twice in one address would be refused, also where the other address has two wires there
      bool tied = std::any_of(own[port].begin(), own[port].end(), [&](Lit bit) { return bit > TRUE && bit / 2 == these[port] / 2; });
      own[port].push_back(tied ? aig.add_copy(these[port]) : these[port]);
    }
  }
  return own;
}

std::string wires_text(size_t inputs, size_t latches, size_t read_bits, size_t gates) {
  return std::to_string(inputs) + " inputs, " + std::to_string(latches) + " registers, " + std::to_string(read_bits) + " read bits, " +
         std::to_string(gates) + " gates";
}

std::string turns(const Chip &chip) {
  std::string count = std::to_string(chip.phases);
  return count + " ports in turn (a frame is " + count + " of the sheet)";
}

std::string size(const Chip &chip) {
  const marrubigai_netlist &net = chip.net;
  return std::to_string(chip.wires()) + " wires of at most 600 (" + wires_text(net.inputs, net.latches, chip.read_bits(), net.gates) + ")";
}

struct Begins {
  bool unknown = false;
  uint32_t word = 0;
};

Begins begins_as(const Memory &memory, const std::vector<size_t> &data_bits, const Start &start) {
  std::string words = "memory " + memory.name + " (" + memory.source + ")";
  size_t width = memory.write_data.size();
  if (start.kind == Start::Kind::word && width < 32 && start.word >> width != 0)
    throw Failure("--start " + std::to_string(start.word) + ": a word of " + words + " has " + std::to_string(width) + " bits");
  Begins begins;
  size_t unknown = 0;
  for (size_t t = 0; t < data_bits.size(); t++) {
    size_t bit = data_bits[t];
    char value = memory.start[bit];
    if (start.kind == Start::Kind::word) value = bit < 32 && start.word >> bit & 1 ? '1' : '0';
    if (start.kind == Start::Kind::unknown) value = 'x';
    if (value == '*')
      throw Failure(words + " begins with contents that differ from word to word, which is not built: all words begin alike, or unknown.\n"
                            "Let a reset write it, or ask from a start of your own (--start unknown, --start 0).");
    unknown += value == 'x';
    if (value == '1') begins.word |= uint32_t{1} << t;
  }
  if (unknown == 0) return begins;
  if (unknown != data_bits.size())
    throw Failure(words + " begins with words of which some bits are given and others are unknown, which is not built.\n"
                          "Fill whole words, or ask from a start of your own (--start unknown, --start 0).");
  return {true, 0};
}

void show_ports(Emission &made, const Memory &memory) {
  made.chip.ports.clear();
  for (const ReadPort &port : memory.ports) made.chip.ports.push_back({made.codes_of(port.address), made.codes_of(port.read), made.code(port.re)});
  made.chip.write_data = made.codes_of(memory.write_data);
}

// What the chip is made of: nodes of the graph.
struct Parts {
  Cone cone;
  Memory memory; // with the ports of the record: others than the first only where something depends on them
  std::vector<std::vector<Lit>> address; // of each port
  std::vector<uint32_t> inputs, latches, gates;

  size_t data_bits() const { return std::max<size_t>(cone.data_bits.size(), 1); }
  size_t read_bits() const { return memory.ports.size() * data_bits(); }
  size_t wires() const { return inputs.size() + latches.size() + read_bits() + gates.size(); }
  std::string text() const { return wires_text(inputs.size(), latches.size(), read_bits(), gates.size()); }
};

// the cone and the ports
Parts parts_of(const Aig &aig, const Memory &memory, const std::vector<Lit> &roots) {
  Parts made;
  made.cone = cone_of(aig, memory, roots);
  made.memory = memory;
  std::vector<ReadPort> &ports = made.memory.ports;
  ports.clear();
  for (size_t port = 0; port < memory.ports.size(); port++)
    if (port == 0 || made.cone.ports[port]) ports.push_back(memory.ports[port]);
  if (!made.cone.ports[0]) ports[0].re = FALSE; // it only writes
  for (const ReadPort &port : ports)
    for (Lit bit : port.address)
      if (!made.cone.data_bits.empty() && aig.depends_on(bit, Aig::Kind::read))
        throw NoFit(memory.source + ": the address of memory " + memory.name + " depends on a word that it reads in the same frame.\n" +
                    "Put a register on the path, so that the address comes from a word that an earlier step read.");
  return made;
}

// and what is behind them
void take_nodes(Aig &aig, Parts &parts) {
  const Memory &memory = parts.memory;
  parts.address.resize(memory.ports.size());
  if (!parts.cone.data_bits.empty()) parts.address = own_bits(aig, memory.ports);
  parts.cone.has.resize(aig.size(), 1); // copies of address bits
  for (uint32_t index = 1; index < aig.size(); index++) {
    if (!parts.cone.has[index]) continue;
    Aig::Kind kind = aig.node(index).kind;
    if (kind == Aig::Kind::input) parts.inputs.push_back(index);
    if (kind == Aig::Kind::latch) parts.latches.push_back(index);
    if (kind == Aig::Kind::gate) parts.gates.push_back(index);
  }
  if (parts.address[0].size() > MOST_ADDRESS_BITS)
    throw Failure(memory.source + ": memory " + memory.name + " has " + std::to_string(parts.address[0].size()) +
                  " address bits, and 12 is the most.\nMake it smaller by a parameter (-P).");
  if (parts.data_bits() > MOST_DATA_BITS)
    throw TooLarge(memory.source + ": what is asked about depends on " + std::to_string(parts.data_bits()) + " data bits of memory " + memory.name +
                   ", and 32 is the most.\nMake the words narrower by a parameter (-P).");
}

// Rewrites all that the chip computes in a frame: what goes into the memory, the roots, and what its registers take. The answer is why abc makes
// nothing of it, where it does not. The order is that of an exported record (RULES X3).
std::string shrink(Aig &aig, Parts &parts, std::vector<Lit> &roots, Stop &stop) {
  std::vector<Lit *> places;
  auto add = [&](std::vector<Lit> &literals) {
    for (Lit &literal : literals) places.push_back(&literal);
  };
  Memory &memory = parts.memory;
  if (!parts.cone.data_bits.empty()) {
    for (ReadPort &port : memory.ports) add(port.address);
    for (size_t bit : parts.cone.data_bits) places.push_back(&memory.write_data[bit]);
    places.push_back(&memory.we);
    for (ReadPort &port : memory.ports)
      if (port.re != FALSE) places.push_back(&port.re);
  }
  std::vector<Lit> nexts;
  for (uint32_t latch : parts.latches) nexts.push_back(aig.node(latch).left);
  add(roots), add(nexts);
  std::vector<Lit> before;
  for (Lit *place : places) before.push_back(*place);
  Rewritten rewritten = rewrite(aig, before, stop);
  if (rewritten.roots.empty()) return rewritten.problem;
  for (size_t at = 0; at < places.size(); at++) *places[at] = rewritten.roots[at];
  for (size_t l = 0; l < nexts.size(); l++) aig.set_next(2 * parts.latches[l], nexts[l]);
  return "";
}

Emission emit_cone(Aig &aig, const Memory &memory, const std::vector<Lit> &seen, const std::vector<Lit> &watched, const Start &start, Stop &stop);

// where the sheet cannot have so many ports: it can have two, from a given start
Emission emit_in_phases(const Aig &aig, const Memory &memory, const std::vector<Lit> &seen, const std::vector<Lit> &watched, const Start &start,
                        Stop &stop) {
  Phased phased = in_phases(aig, memory);
  std::vector<Lit> counted;
  for (Lit each : seen) counted.push_back(phased.aig.land(phased.literal(each), phased.last));
  Emission made = emit_cone(phased.aig, phased.memory, counted, phased.literals_of(watched), start, stop);
  made.chip.own.push_back({"phase", made.codes_of(phased.phase)});
  made.codes = made.codes_of(phased.literals);
  made.chip.phases = static_cast<uint32_t>(memory.ports.size());
  show_ports(made, memory);
  return made;
}

Emission emit_cone(Aig &aig, const Memory &memory, const std::vector<Lit> &seen, const std::vector<Lit> &watched, const Start &start, Stop &stop) {
  std::vector<Lit> roots; // what is asked about as a record has it: true where it is not seen
  for (Lit each : seen) roots.push_back(each ^ 1);
  roots.insert(roots.end(), watched.begin(), watched.end());
  Parts parts = parts_of(aig, memory, roots);
  Begins begins = begins_as(memory, parts.cone.data_bits, start);
  size_t port_count = parts.memory.ports.size();
  if (port_count > 2 || (port_count == 2 && begins.unknown)) return emit_in_phases(aig, parts.memory, seen, watched, start, stop);
  take_nodes(aig, parts);
  Emission made;
  std::vector<uint32_t> gone; // gates that the chip has others for, and that are shown
  if (parts.wires() > MOST_WIRES) {
    made.rewritten_from = std::to_string(parts.wires()) + " wires (" + parts.text() + ")";
    const std::vector<char> has = parts.cone.has;
    std::string problem = shrink(aig, parts, roots, stop);
    if (problem.empty()) {
      parts = parts_of(aig, parts.memory, roots);
      take_nodes(aig, parts);
    }
    if (parts.wires() > MOST_WIRES)
      throw TooLarge("what is asked about depends on " + made.rewritten_from + ", and 600 is the most" +
                     (problem.empty() ? "; abc's rewriting leaves " + std::to_string(parts.wires()) : "; not rewritten: " + problem) + ".\n" +
                     "Make the design smaller by a parameter (-P): narrower words, fewer of them.");
    for (uint32_t index = 1; index < has.size(); index++)
      if (has[index] && !parts.cone.has[index] && aig.node(index).kind == Aig::Kind::gate) gone.push_back(index);
  }
  made.codes.assign(aig.size(), NO_CODE);
  made.codes[0] = 0;
  uint32_t wire = 0;
  auto number = [&](uint32_t index) { made.codes[index] = 2 * ++wire; };
  const std::vector<ReadPort> &ports = parts.memory.ports;
  for (uint32_t index : parts.inputs) number(index);
  for (uint32_t index : parts.latches) number(index);
  for (const ReadPort &port : ports)
    for (size_t bit : parts.cone.data_bits) number(port.read[bit] / 2);
  if (parts.cone.data_bits.empty()) wire++; // a memory that nothing depends on, of one bit
  for (uint32_t index : parts.gates) number(index);

  Chip &chip = made.chip;
  for (uint32_t index : gone) {
    marrubigai_gate gate{made.code(aig.node(index).left), made.code(aig.node(index).right)};
    if (gate.left == NO_CODE || gate.right == NO_CODE) continue;
    number(index);
    chip.shown_gates.push_back(gate);
  }
  const std::vector<std::vector<Lit>> &address = parts.address;
  marrubigai_netlist &net = chip.net;
  net.inputs = static_cast<uint32_t>(parts.inputs.size());
  net.latches = static_cast<uint32_t>(parts.latches.size());
  net.gates = static_cast<uint32_t>(parts.gates.size());
  net.m = static_cast<uint32_t>(std::max<size_t>(address[0].size(), 1));
  net.n = static_cast<uint32_t>(parts.data_bits());
  net.second_port = ports.size() == 2;
  for (size_t t = 0; t < address[0].size(); t++) net.address[t] = made.code(address[0][t]);
  for (size_t t = 0; net.second_port && t < address[1].size(); t++) net.address2[t] = made.code(address[1][t]);
  for (size_t t = 0; t < parts.cone.data_bits.size(); t++) net.write_data[t] = made.code(parts.memory.write_data[parts.cone.data_bits[t]]);
  for (uint32_t index : parts.latches) chip.latches.push_back({made.code(aig.node(index).left), aig.node(index).reset});
  for (uint32_t index : parts.gates) chip.gates.push_back({made.code(aig.node(index).left), made.code(aig.node(index).right)});
  chip.memory_name = memory.name;
  chip.arrays = memory.arrays;
  if (parts.cone.data_bits.empty()) {
    chip.notes.push_back("what is asked about does not depend on the memory " + memory.name);
  } else {
    net.we = made.code(parts.memory.we);
    net.re = made.code(ports[0].re);
    if (net.second_port) net.re2 = made.code(ports[1].re);
    net.unknown_start = begins.unknown;
    net.initial_word = begins.word;
  }
  show_ports(made, parts.memory);
  for (size_t at = 0; at < seen.size(); at++) made.seen.push_back(made.code(roots[at]) ^ 1);
  return made;
}

} // namespace

Emission emit(Aig &aig, const Memory &memory, const std::vector<Lit> &seen, const std::vector<Lit> &watched, const Start &start, Stop &stop) {
  Emission made = emit_cone(aig, memory, seen, watched, start, stop);
  Chip &chip = made.chip;
  const marrubigai_netlist &net = chip.net;
  std::string ports = chip.phases > 1 ? turns(chip) + ", " : net.second_port ? "two ports, " : "";
  chip.notes.push_back("memory " + memory.name + " (" + memory.source + "): " + std::to_string(net.m) + " address bits, " + std::to_string(net.n) +
                       " data bits, " + ports + "start " + (net.unknown_start ? "unknown" : std::to_string(net.initial_word)) + "; " + size(chip) +
                       (made.rewritten_from.empty() ? "" : ", rewritten by abc from " + made.rewritten_from));
  return made;
}

Chip from_unknown(const Chip &chip, Stop &stop) {
  const marrubigai_netlist &net = chip.net;
  Aig aig;
  std::vector<Lit> wires{FALSE};
  auto literal = [&](marrubigai_code code) { return wires[code / 2] ^ (code & 1); };
  auto literals = [&](const std::vector<uint32_t> &codes) {
    std::vector<Lit> made;
    for (uint32_t code : codes) made.push_back(literal(code));
    return made;
  };
  while (wires.size() <= net.inputs) wires.push_back(aig.add_input());
  for (uint32_t l = 0; l < net.latches; l++) wires.push_back(aig.add_latch(chip.latches[l].reset));
  while (wires.size() < chip.first_read() + chip.read_bits()) wires.push_back(aig.add_read());
  for (uint32_t g = 0; g < net.gates; g++) wires.push_back(aig.land(literal(chip.gates[g].left), literal(chip.gates[g].right)));
  for (uint32_t l = 0; l < net.latches; l++) aig.set_next(wires[net.inputs + 1 + l], literal(chip.latches[l].next));
  Memory memory;
  for (const ShownPort &port : chip.ports) memory.ports.push_back({literals(port.address), literals(port.read_data), literal(port.re)});
  memory.write_data = literals(chip.write_data);
  memory.we = literal(net.we);
  memory.start.assign(net.n, 'x');
  std::vector<Lit> seen, watched;
  for (const Property &property : chip.properties) seen.push_back(literal(property.code ^ 1));
  for (const std::vector<Word> *words : {&chip.shown, &chip.named})
    for (const Word &word : *words)
      for (Lit each : literals(word.codes)) watched.push_back(each);
  std::vector<Lit> roots = seen;
  roots.insert(roots.end(), watched.begin(), watched.end());
  Cone cone = cone_of(aig, memory, roots);
  if (cone.ports[0] && cone.ports[1] && (net.re != 1 || net.re2 != 1)) // a port that does not read has its own word of the frame before
    throw Failure("the memory begins unknown, and both of its ports read, but not in every frame: that is not built.\n"
                  "Ask from a word of your own (--start 0): then this is what is read before it is written.");
  Emission emission = emit_cone(aig, memory, seen, watched, Start{}, stop);
  Chip made = emission.chip;
  made.properties = chip.properties;
  made.shown = chip.shown, made.named = chip.named, made.notes = chip.notes;
  for (size_t p = 0; p < seen.size(); p++) made.properties[p].code = emission.seen[p] ^ 1;
  for (std::vector<Word> *words : {&made.shown, &made.named})
    for (Word &word : *words) word.codes = emission.codes_of(literals(word.codes));
  if (made.phases > 1) made.notes.push_back("the memory begins unknown, with " + turns(made) + "; " + size(made) +
                         (emission.rewritten_from.empty() ? "" : ", rewritten by abc from " + emission.rewritten_from));
  return made;
}
