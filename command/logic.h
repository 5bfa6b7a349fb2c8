// The logic of a design as an and-inverter graph: what each bit of a net is in a frame. A frame is a step of the one clock.
#pragma once

#include <map>
#include <set>
#include <string>
#include <vector>

#include "aig.h"
#include "design.h"
#include "options.h"

// A register. `value` is what it is in a frame; `latch` takes its next value. They differ where it starts unknown.
struct Register {
  Lit value, latch;
};

class Logic {
public:
  Logic(const Design &design, const std::vector<Reset> &resets);

  Aig aig;

  Lit lit(Bit bit);
  std::vector<Lit> lits(const std::vector<Bit> &bits);
  // A literal of which only that counts which it is where `given` is true. What the source leaves undefined elsewhere is taken out of it, as yosys
  // makes much undefined that a statement or a write does not look at.
  Lit where(Lit literal, Lit given);
  // what a bit is, in place of what the netlist says: the memory's read data
  void drive(Bit bit, Lit literal) { known[bit] = literal; }
  // initial: 0, 1 or x
  Register add_register(char initial);
  // Gives every register that was met its next value; new ones may be met then, and are given theirs.
  void finish_registers();
  // false in frame 0 alone
  Lit started() { return after(1); }

  // A clocked cell: its clock must be the one of all others, and an input.
  void take_clock(Bit clock, bool rising, const Cell &cell);
  bool is_clock(Bit bit) const { return clock == bit; }
  bool is_rising() const { return clock_rising; }

  const std::map<Bit, Lit> &values() const { return known; }
  const std::set<uint32_t> &register_nodes() const { return registers; }
  bool begins_unknown(uint32_t node) const { return registers.count(node) > 0 && aig.node(node).kind != Aig::Kind::latch; }
  std::string name_of(Bit bit) const; // as the source has it
  std::vector<Lit> undefined; // bits that the source leaves undefined, each taken as an input
  std::vector<std::pair<std::string, Lit>> undriven; // wires without a driver, each taken as an input

private:
  const Design &design;
  std::map<Bit, const Cell *> drivers;
  std::map<Bit, Lit> known;
  std::set<Bit> inputs, under_way;
  std::set<uint32_t> registers;
  std::vector<std::pair<Lit, const Cell *>> pending; // latches whose next value is the cell's D
  std::vector<Lit> since; // false in the first frames: entry k - 1 in the first k
  Bit clock = BIT_X;
  bool clock_rising = true;
  const Cell *clocked = nullptr;

  Lit after(uint32_t frames);
  Lit driven(const Cell &cell, Bit bit);
};
