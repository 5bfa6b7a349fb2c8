// "It holds in every frame", as a proved answer: an invariant is looked for by several ways, the cheap ones first, and the library checks it.
#pragma once

#include "attempts.h"
#include "invariant.h"
#include "options.h"

// What every property of a chip may be proved with: facts that are stated, and those that served a property before.
struct Known {
  std::vector<Fact> stated, proved;
};

// Where it is time to stop, what was tried by then; where what was made of an invariant does not certify, a Failure.
Forever prove(const Chip &chip, const Property &property, const Options &options, Known &known, Stop &stop);
