// Facts that may hold in every state of a chip, of a few forms, as far as random runs do not break them: between registers, and between registers and
// the words that they point to. Which of them a step keeps is the induction's to find (invariant.h).
#pragma once

#include <vector>

#include "invariant.h"

// the bit of the state that a code is: a register's, or of one that begins unknown its latch's; none where it is neither
std::optional<int32_t> state_number(const Chip &chip, marrubigai_code code);

std::vector<Fact> likely_facts(const Chip &chip, const Property &property, Limit &limit);
