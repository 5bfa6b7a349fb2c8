// What a solver writes of its reasons while it searches (binary DRAT), kept in a file without a name that goes with the command.
#pragma once

#include <cadical.hpp>

#include <cstdint>
#include <cstdio>
#include <string>
#include <utility>
#include <vector>

#include "elaborate.h"
#include "stop.h"

class Refutation {
public:
  Refutation();
  ~Refutation();
  Refutation(const Refutation &) = delete;
  Refutation &operator=(const Refutation &) = delete;

  // before the solver gets its first clause
  void trace(CaDiCaL::Solver &solver);
  // The formula's literal for the solver's next variable; 0 where it is none of the formula's. Without names they are the same.
  void name(int32_t literal) { names.push_back(literal); }
  // of what the solver writes next
  uint64_t place(CaDiCaL::Solver &solver);
  // From this place on the solver has clauses with variables of the formula up to this one.
  void reach(uint64_t place, uint32_t variable);
  // Clauses of the formula's variables, each ended by 0, that follow by propagation from what is before this place and from each other in turn. The
  // solver itself is told them, or what follows from them, as clauses of its own, of which it writes nothing.
  void add(uint64_t place, const std::vector<int32_t> &clauses);
  // by variable of the formula: it was never given
  void leave_out(std::vector<bool> variables) { left_out = std::move(variables); }
  // behind the last answer, while there is the solver
  void finish(CaDiCaL::Solver &solver);

  // What the solver wrote, with what was added in its places. It throws NoCertificate, and Stopped.
  Learnt learnt(Stop &stop);

private:
  // what stands before a place in the file: so many numbers of the lemmas, and then a reach, where it is not 0
  struct Note {
    uint64_t place;
    size_t lemmas;
    uint32_t reach;
  };
  std::FILE *file;
  std::vector<int32_t> lemmas; // each ended by 0
  std::vector<Note> notes;
  std::vector<bool> left_out;
  std::vector<int32_t> names; // from the solver's variable 1 on
  void rename(std::vector<int32_t> &clause) const;
};
