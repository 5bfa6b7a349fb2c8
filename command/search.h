// The search: one incremental solver, fed the proved clauses through the running record.
#pragma once

#include <optional>
#include <string>
#include <vector>

#include "attempts.h"
#include "chip.h"
#include "refutation.h"
#include "run.h"
#include "stop.h"

struct Verdict {
  enum class Kind { broken, holds, stopped } kind = Kind::stopped;
  // The frames that were asked about and that no run breaks the property in, from `from`, so many: by the solver's word, unless it is certified.
  uint32_t from = 0, safe = 0;
  struct Certified {
    std::string file;
    size_t lemmas = 0, hints = 0;
  };
  std::optional<Certified> certified;
  bool certifying = false; // it was stopped while its certificate was made
  std::optional<Forever> forever; // where it was to be proved for every frame
  std::optional<Run> run; // of a broken property
  std::string confirmed; // what a simulator says of the run, where it was asked
  double seconds = 0;
};

struct Plan {
  uint32_t depth = 50, from = 0; // frames of the design
  bool any = false; // ask once about all frames
  Refutation *refutation = nullptr; // where the solver writes its reasons, of a chip with one property
};

// The first frame up to the depth that no run reaches with every assumption met, by the solver's word; none where one reaches them all, by a run that
// was stepped, or where it was time to stop.
std::optional<uint32_t> assumptions_end(const Chip &chip, uint32_t depth, Stop &stop);

// A Failure where the sheet has not so many frames.
void test_depth(const Chip &chip, uint32_t depth);

// A verdict for each property of the chip, in its order.
std::vector<Verdict> search(const Chip &chip, const Plan &plan, Stop &stop);
