// A design as yosys left it: one module of gates, registers, memories and formal statements.
#pragma once

#include <map>
#include <string>
#include <utility>
#include <vector>

#include "json.h"
#include "words.h"

// a bit of a net, by yosys' number; or a constant
using Bit = int;
constexpr Bit BIT_0 = 0, BIT_1 = 1, BIT_X = -1;

struct Cell {
  std::string name, type;
  bool hidden = false; // the name is yosys' own
  std::string source; // file and line, as `ram.v:12`
  std::string column_source; // with the column, as `ram.v:12.3`
  unsigned first_line = 0; // where yosys has it begin
  std::map<std::string, std::vector<Bit>> ports;
  std::map<std::string, std::string> parameters; // numbers as bits, highest first
  std::vector<Array> arrays; // of a memory

  const std::vector<Bit> &port(const std::string &port_name) const;
  uint32_t number(const std::string &parameter) const;
  // the bits of a parameter, lowest first: 0, 1 or x
  std::string bits(const std::string &parameter) const;
};

struct Net {
  std::string name;
  std::pair<unsigned, unsigned> place{0, 0}; // line and column of its declaration
  std::vector<Bit> bits; // lowest first
  int low = 0; // the index of the lowest bit in the source
  bool upwards = false;
};

struct Port {
  std::string name, direction;
  std::vector<Bit> bits;
};

struct Design {
  std::string top;
  std::vector<Port> ports;
  std::vector<Cell> cells;
  std::vector<Net> nets; // those that have a name of the source
  std::map<Bit, char> initial; // 0 or 1, of registers that have one
  std::vector<std::string> warnings; // yosys' lines
};

// a statement of the source: it drives nothing
bool is_formal(const std::string &type);

Design read_design(const std::string &json_text);
