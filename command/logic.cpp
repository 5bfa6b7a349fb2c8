#include "logic.h"

#include <algorithm>

#include "failure.h"

namespace {

// yosys' cells and the port that drives a net
const std::map<std::string, std::string> outputs = {
    {"$_NOT_", "Y"},   {"$_AND_", "Y"},    {"$_DFF_P_", "Q"}, {"$_DFF_N_", "Q"},    {"$_FF_", "Q"},      {"$ff", "Q"},
    {"$anyseq", "Y"},  {"$anyconst", "Y"}, {"$allseq", "Y"},  {"$allconst", "Y"},   {"$initstate", "Y"}, {"$mem_v2", "RD_DATA"}};

} // namespace

Logic::Logic(const Design &read, const std::vector<Reset> &resets) : design(read) {
  for (const Cell &cell : design.cells) {
    if (is_formal(cell.type)) continue;
    auto port = outputs.find(cell.type);
    if (port == outputs.end())
      throw Failure(cell.source + ": yosys left a " + cell.type + ", which this version cannot take" +
                    (cell.type.compare(0, 7, "$_DLATC") == 0 ? ": a latch; give it a clock" : ""));
    for (Bit bit : cell.port(port->second)) {
      auto [driver, is_first] = drivers.emplace(bit, &cell);
      if (!is_first) throw Failure(cell.source + ": the wire " + name_of(bit) + " has a second driver, at " + driver->second->source);
    }
  }
  for (const Port &port : design.ports) {
    if (port.direction == "inout") throw Failure("the port " + port.name + " goes both ways (inout): make an input and an output of it");
    if (port.direction != "input") continue;
    for (Bit bit : port.bits) {
      if (drivers.count(bit)) throw Failure(drivers[bit]->source + ": the input " + name_of(bit) + " is driven here too");
      inputs.insert(bit);
      known[bit] = aig.add_input();
    }
  }
  for (const Reset &reset : resets) {
    auto port = std::find_if(design.ports.begin(), design.ports.end(), [&](const Port &other) { return other.name == reset.name; });
    if (port == design.ports.end() || port->direction != "input" || port->bits.size() != 1)
      throw Failure("--reset " + reset.name + ": the top module " + design.top + " has no input of one bit with this name");
    known[port->bits[0]] = after(reset.frames) ^ (reset.active_low ? 0 : 1);
  }
}

std::string Logic::name_of(Bit bit) const {
  for (const Net &net : design.nets)
    for (size_t t = 0; t < net.bits.size(); t++)
      if (net.bits[t] == bit) return net.bits.size() == 1 ? net.name : net.name + "[" + std::to_string(net.low + static_cast<int>(t)) + "]";
  return "a wire without a name";
}

Lit Logic::after(uint32_t frames) {
  while (since.size() < frames) {
    Lit latch = aig.add_latch(false);
    aig.set_next(latch, since.empty() ? TRUE : since.back());
    since.push_back(latch);
  }
  return since[frames - 1];
}

// A register that starts unknown is an input in frame 0. Its latch is false there, so that an OR will do.
Register Logic::add_register(char initial) {
  Lit latch = aig.add_latch(initial == '1');
  Lit value = initial == '0' || initial == '1' ? latch : aig.lor(latch, aig.land(started() ^ 1, aig.add_input()));
  registers.insert(value / 2);
  return {value, latch};
}

void Logic::take_clock(Bit its_clock, bool rising, const Cell &cell) {
  std::string edge = rising ? "rising" : "falling";
  if (!inputs.count(its_clock))
    throw Failure(cell.source + ": the clock " + name_of(its_clock) + " is no input of the top module " + design.top +
                  ": a frame is a step of all registers.\nUse an enable in place of a gated or divided clock.");
  if (!clocked) {
    clocked = &cell;
    clock = its_clock;
    clock_rising = rising;
  } else if (its_clock != clock || rising != clock_rising) {
    throw Failure(cell.source + ": it takes the " + edge + " edge of " + name_of(its_clock) + ", and " + clocked->source + " the " +
                  (clock_rising ? "rising" : "falling") + " edge of " + name_of(clock) + ": a frame is one step of all registers.\n" +
                  "Only designs with one clock and one edge can be taken.");
  }
}

Lit Logic::driven(const Cell &cell, Bit bit) {
  if (cell.type == "$_NOT_") return lit(cell.port("A")[0]) ^ 1;
  if (cell.type == "$_AND_") {
    Lit left = lit(cell.port("A")[0]);
    return aig.land(left, lit(cell.port("B")[0]));
  }
  if (cell.type == "$anyseq" || cell.type == "$allseq") return aig.add_input();
  if (cell.type == "$initstate") return started() ^ 1;
  if (cell.type == "$anyconst" || cell.type == "$allconst") { // unknown at first, and then as it was
    Register constant = add_register('x');
    aig.set_next(constant.latch, constant.value);
    return constant.value;
  }
  if (cell.type == "$mem_v2") throw Failure(cell.source + ": a second memory is read here"); // that of the one memory is driven beforehand
  if (cell.type == "$_DFF_P_" || cell.type == "$_DFF_N_") take_clock(cell.port("C")[0], cell.type == "$_DFF_P_", cell);
  const std::vector<Bit> &q = cell.port("Q");
  auto initial = design.initial.find(bit);
  Register made = add_register(initial == design.initial.end() ? 'x' : initial->second);
  known[bit] = made.value; // it may be read by its own next value
  size_t at = static_cast<size_t>(std::find(q.begin(), q.end(), bit) - q.begin());
  if (at != 0) throw Failure(cell.source + ": yosys left a register of several bits"); // the netlist is one of single bits
  pending.emplace_back(made.latch, &cell);
  return made.value;
}

Lit Logic::lit(Bit bit) {
  if (bit == BIT_0) return FALSE;
  if (bit == BIT_1) return TRUE;
  if (bit == BIT_X) {
    undefined.push_back(aig.add_input());
    return undefined.back();
  }
  if (clocked && bit == clock)
    throw Failure("the clock " + name_of(bit) + " is read as data too; within a frame it has no value");
  auto found = known.find(bit);
  if (found != known.end()) return found->second;
  auto driver = drivers.find(bit);
  if (driver == drivers.end()) {
    undriven.emplace_back(name_of(bit), aig.add_input());
    return known[bit] = undriven.back().second;
  }
  if (!under_way.insert(bit).second)
    throw Failure(driver->second->source + ": a loop of logic without a register in it, through " + name_of(bit));
  Lit made = driven(*driver->second, bit);
  under_way.erase(bit);
  return known[bit] = made;
}

Lit Logic::where(Lit literal, Lit given) {
  literal = aig.where(literal, given);
  for (uint32_t node : aig.support(literal)) {
    if (std::find(undefined.begin(), undefined.end(), 2 * node) == undefined.end()) continue;
    Lit without = aig.where(literal, 2 * node + 1), with = aig.where(literal, 2 * node);
    if (!can_differ(aig, given, {without}, given, {with})) literal = without;
  }
  return literal;
}

std::vector<Lit> Logic::lits(const std::vector<Bit> &bits) {
  std::vector<Lit> made;
  for (Bit bit : bits) made.push_back(lit(bit));
  return made;
}

void Logic::finish_registers() {
  while (!pending.empty()) {
    auto [latch, cell] = pending.back();
    pending.pop_back();
    aig.set_next(latch, lit(cell->port("D")[0]));
  }
}
