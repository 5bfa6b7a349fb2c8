// Runs of a chip with random inputs, 64 at a time: which facts about its states are worth a solver's question.
#pragma once

#include <cstdint>
#include <vector>

#include "chip.h"

// An address in a state: m bits of it, lowest first, and what is added to them.
struct Pointer {
  std::vector<uint32_t> bits;
  uint32_t offset = 0;
};

using Lanes = uint64_t; // a bit of each of 64 runs

struct Samples {
  size_t count = 0; // of states, 64 each
  std::vector<std::vector<Lanes>> bits; // by latch and bit held, and by sample
  std::vector<std::vector<std::vector<Lanes>>> pointed; // by pointer, bit of the word that it points to, and sample
  std::vector<std::vector<Lanes>> nonzero; // by word, whether it has a bit that is 1; of small memories
  std::vector<Lanes> counted; // by sample, the runs that count: where the latch `excused` was always true
};

// `excused`: a latch that excuses a run once it is false, or none where it is not below the latches.
Samples simulate(const Chip &chip, const std::vector<Pointer> &pointers, uint32_t excused);

constexpr uint32_t MOST_WORDS_BY_THEMSELVES = 64; // of a memory, for `nonzero`
