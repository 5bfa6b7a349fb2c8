// The clauses of the frames as a solver is given them: only those that what is asked about depends on (cone of influence), and with literals that
// are the same put for each other, also gates with the same operands in different frames (structural hashing). What propagates by them propagates by
// the clauses of the formula and the lemmas that are told here, so that what refutes them refutes the formula.
#pragma once

#include <cadical.hpp>

#include <cstdint>
#include <unordered_map>
#include <utility>
#include <vector>

#include "chip.h"
#include "refutation.h"

class Unrolling {
public:
  // The refutation, where there is one, is told what it has to know.
  Unrolling(const Chip &chip, uint32_t depth, CaDiCaL::Solver &solver, Refutation *refutation);

  // There is one more frame from here on; nothing is given of it yet.
  void add_frame();
  // of each frame
  const std::vector<marrubigai_position> &positions() const { return records; }
  // the formula's literal of a code in a frame
  int32_t literal(marrubigai_code code, const marrubigai_position &position) const;
  // The solver's literal for one of the formula; it is given all that this depends on.
  int32_t ask(int32_t literal);
  // a variable that the solver has not yet, for a purpose outside the formula
  int32_t new_variable();
  // by variable of the formula: nothing that was asked depends on it
  std::vector<bool> left_out() const;
  // a literal of the formula in the solver's model
  bool value(int32_t literal) const;

private:
  // Numbers of a list that define a wire.
  struct Range {
    uint32_t begin = 0, end = 0;
  };
  struct Frame {
    std::vector<int32_t> wires; // the group's numbers
    std::vector<Range> ranges; // by wire
    std::vector<int32_t> reads[2]; // the numbers of pairs and closing of a port, while they are needed
  };
  // Whose clauses define a variable.
  struct Origin {
    uint32_t frame, wire; // wire 0: a variable of a pair
    int port; // of a read bit or a pair; else none, -1
  };

  const Chip &chip;
  uint32_t depth, ports;
  CaDiCaL::Solver &solver;
  Refutation *refutation;
  std::vector<marrubigai_position> records;
  std::vector<Frame> frames;
  std::vector<int32_t> same; // by variable: a literal that it is the same as, 1 and -1 for constants, itself, or 0 where it was not given yet
  std::vector<int32_t> given; // by variable: the solver's literal for it, or 0
  int32_t last_given = 0;
  std::unordered_map<uint64_t, int32_t> gates; // by operands
  std::vector<uint32_t> noted; // variables that the solver gets next
  std::vector<int32_t> held; // clauses that the solver gets next, each ended by 0
  std::vector<int32_t> lemmas; // that the refutation gets next
  std::vector<int32_t> room, clause; // of a group; what is left of a clause, and whether it had one literal twice
  bool merged = false;

  Origin origin(uint32_t variable) const;
  uint32_t part_of_pair(uint32_t variable) const; // by RULES V5, from 1 on
  void append_group(std::vector<int32_t> &numbers, uint32_t frame, uint32_t kind, uint32_t j, uint32_t port);
  void write_wires(uint32_t frame);
  const std::vector<int32_t> &reads(uint32_t frame, int port);
  bool is_own(uint32_t variable, uint32_t frame, int port) const;
  void demand(uint32_t variable);

  int32_t find(int32_t literal) const; // the literal that it is the same as
  int32_t solvers(int32_t literal) const;
  bool is_fresh(int32_t variable) const; // not given, and the same as no other
  void make_same(int32_t variable, int32_t literal);
  void add_lemma(std::initializer_list<int32_t> literals);
  bool map(const int32_t *begin, const int32_t *end);
  void give(const int32_t *at, const int32_t *end);
  void give_gate(int32_t gate, int32_t a, int32_t b);
  const int32_t *give_bit(const int32_t *at, const int32_t *end);
  void give_mapped();
  void give_clause(std::initializer_list<int32_t> literals);
  void note(int32_t literal);
  void flush();
};
