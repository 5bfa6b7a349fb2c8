// A run of a chip, as `marrubigai_replay` stepped it.
#pragma once

#include <functional>
#include <optional>
#include <string>
#include <vector>

#include "chip.h"

struct Run {
  uint32_t first = 0; // the frame of the design that breaks the property, and the last one
  // of each frame of the design, wire 1 first; behind those of the record, which were stepped, the gates that are only shown
  std::vector<std::string> wires;

  bool value(uint32_t code, uint32_t frame) const;
  Bits bits(const std::vector<uint32_t> &codes, uint32_t frame) const;
  uint32_t frames() const { return static_cast<uint32_t>(wires.size()); }
};

// What the memory does in a frame.
struct Access {
  struct Read {
    size_t port; // from 0 on
    Bits address, word;
    std::optional<uint32_t> writer; // the frame that wrote the word; none: it is of the start
  };
  struct Write {
    Bits address, word;
  };
  std::vector<Read> reads; // at most one for each port
  std::optional<Write> write;
};

// Steps the chip with its whole memory through the sheet's frames 0 to `depth`, fed what `value` says of the literals (true or false for a variable),
// and cuts the run behind the frame that first breaks the property. A Failure where no frame does: then the solver's answer was wrong.
Run replay(const Chip &chip, const Property &property, const std::vector<marrubigai_position> &frames, uint32_t depth,
           const std::function<bool(int32_t)> &value);

std::vector<Access> accesses(const Chip &chip, const Run &run);

// a word with a read bit of frame 0 where its port does not read: it is no word of the memory
bool is_idle(const Chip &chip, const Run &run, const std::vector<uint32_t> &codes, uint32_t frame);
