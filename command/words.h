// Words of a chip, by the codes of its sheet, and how their values are written.
#pragma once

#include <cstdint>
#include <string>
#include <vector>

#include "options.h"

// the code of a bit that the chip does not have: the property does not depend on it
constexpr uint32_t NO_CODE = UINT32_MAX;

struct Word {
  std::string name; // with the range of its bits where it has one, as total[9:2]
  std::vector<uint32_t> codes; // lowest bit first
};

// An array of the source: these bits of the memory's words.
struct Array {
  std::string name;
  size_t low = 0, width = 0;
};

// a value, lowest bit first; x where there is none
using Bits = std::vector<char>;

// In hex and binary with all digits, so that words of one width line up, and x for a digit that has an x; in decimal x for the whole.
std::string written(const Bits &bits, Radix radix);
