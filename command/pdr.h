// abc's pdr (Debian's berkeley-abc), started as a program on the chip with its memory as registers. Nothing of it is believed.
#pragma once

#include <string>
#include <vector>

#include "invariant.h"

struct PdrAnswer {
  enum class Kind { invariant, broken, none } kind = Kind::none;
  std::vector<Clause> invariant;
  uint32_t frame = 0; // in which it says that a run breaks the property
  std::string why; // of none, as `no answer in 60.0 s`
  bool late = false; // of none, that its time was out
};

PdrAnswer ask_pdr(const Chip &chip, const Property &property, Limit &limit, Stop &stop);
