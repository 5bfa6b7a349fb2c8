// Facts about the states of a chip, as clauses over a state's bits, and the induction over its steps. Nothing of it is believed: obligations.h makes
// a certificate of it that the library checks.
#pragma once

#include <optional>
#include <string>
#include <vector>

#include "certificate.h"
#include "stop.h"

using Clause = std::vector<int32_t>; // numbers of state bits, from 1; negative where the bit is to be false

// What is true or not as a whole.
struct Fact {
  std::string words; // where it was stated
  std::vector<Clause> clauses;
};

// whether each clause has a number that is true in every state at the start, as RULES H3 asks
bool holds_at_start(const Chip &chip, const Fact &fact);

// An end of the time that comes before that of the whole.
class Limit : public CaDiCaL::Terminator {
public:
  Limit(Stop &whole, double seconds);
  bool terminate() override;
  double seconds_left() const;

private:
  Stop &stop;
  Stop::Clock::time_point deadline;
};

// What comes of facts that hold at the start.
struct Induction {
  enum class Answer { proved, broken_step, stopped } answer = Answer::stopped;
  std::vector<bool> kept; // by every step from a state in which all that are kept hold, and the property; as far as that was asked about
  std::vector<bool> needed; // where it is proved, for the proof
};

// Drops facts that a step may break until none is dropped (Flanagan and Leino's Houdini), and asks whether the property follows from those kept;
// where not all have to be judged, only what it follows from.
Induction induct(const Chip &chip, const Property &property, const std::vector<Fact> &facts, bool all, Limit &limit);
