// Facts that a designer states, in a text (docs/COMMAND.md has its form): clauses over registers and words of the memory, by their names.
#pragma once

#include <string>
#include <vector>

#include "invariant.h"

// Each fact's words are the file and the line. A Failure names the line where it cannot be read.
std::vector<Fact> stated_facts(const std::string &path, const Chip &chip);
