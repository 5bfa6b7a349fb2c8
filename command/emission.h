// From the graph to the chip: the cone of what is asked about, numbered as a sheet numbers its wires.
#pragma once

#include "chip.h"
#include "memory.h"
#include "stop.h"

struct Emission {
  Chip chip; // without names and properties
  std::vector<uint32_t> codes; // of each node of the graph; NO_CODE where the cone has it not
  std::vector<uint32_t> seen; // codes of what is asked about, in the frames of the sheet in which it counts
  std::string rewritten_from; // its wires before they were rewritten, where they were

  uint32_t code(Lit literal) const { return codes[literal / 2] == NO_CODE ? NO_CODE : codes[literal / 2] ^ (literal & 1); }
  std::vector<uint32_t> codes_of(const std::vector<Lit> &literals) const;
};

// Only that is kept on which what is asked about, or watched, depends: of the memory too, bit by bit, as no data bit depends on another. Where that does
// not fit, its gates are rewritten, and those that are gone are only shown. A Failure where it does not fit then.
Emission emit(Aig &aig, const Memory &memory, const std::vector<Lit> &seen, const std::vector<Lit> &watched, const Start &start, Stop &stop);

// A chip with two ports whose memory begins unknown, as no record can say it: its ports have one in turn.
Chip from_unknown(const Chip &chip, Stop &stop);
