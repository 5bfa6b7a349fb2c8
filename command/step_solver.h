// A solver that is told the clauses of a step.
#pragma once

#include <cadical.hpp>

#include "transition.h"

enum Answer { SATISFIABLE = 10, UNSATISFIABLE = 20 }; // CaDiCaL's

// The variables of the step come in the opposite order: the solver decides those with the highest numbers first, and the first that are made are
// those of wires, on which most else depends.
class StepSolver {
public:
  CaDiCaL::Solver solver;

  StepSolver(Transition &asked, CaDiCaL::Terminator &limit) : step(asked), last(static_cast<int32_t>(asked.variables())) {
    solver.configure("plain"); // many short calls: to simplify the clauses between them costs more than it gives
    solver.set("quiet", 1);
    solver.connect_terminator(&limit);
  }
  ~StepSolver() { solver.disconnect_terminator(); }
  StepSolver(const StepSolver &) = delete;
  StepSolver &operator=(const StepSolver &) = delete;

  // and back
  int32_t turned(int32_t literal) const { return literal > 0 ? last + 1 - literal : -(last + 1 + literal); }
  int32_t now(int32_t number) { return turned(step.now_of(number)); }
  int32_t next(int32_t number) { return turned(step.next_of(number)); }
  int32_t holds() { return turned(step.property()); }
  // clauses of the step's literals, each ended by 0
  void add(const std::vector<int32_t> &numbers) {
    for (int32_t literal : numbers) solver.add(literal == 0 ? 0 : turned(literal));
  }

private:
  Transition &step;
  int32_t last;
};
