// Rewriting of gates by abc, where a chip does not fit: the same functions of inputs, registers and read bits with fewer gates.
#pragma once

#include <string>
#include <vector>

#include "aig.h"
#include "stop.h"

struct Rewritten {
  std::vector<Lit> roots; // in their order, among gates that were added to the graph; none where abc made nothing of them
  std::string problem; // why it made nothing
};

// None of the roots depends on a read bit that did not before: an address may not.
Rewritten rewrite(Aig &aig, const std::vector<Lit> &roots, Stop &stop);
