// What the command says of its verdicts: lines and tables for people, JSON for programs. docs/COMMAND.md has the schema.
#pragma once

#include <string>
#include <vector>

#include "chip.h"
#include "options.h"
#include "search.h"

// a chip with a verdict for each of its properties
struct Searched {
  Chip chip;
  std::vector<Verdict> verdicts;
  std::optional<uint32_t> assumptions_end{}; // the first frame that no run reaches with every assumption met
};

struct Report {
  const Options &options;
  const std::vector<Searched> &searched;
  std::string stopped; // why, where it was
  double seconds;

  const std::string &file() const { return options.files[0]; }
};

// a property in a sentence, as `assert no_nine (chip.v:11)`
std::string subject(const Property &property);

std::string report_text(const Report &report);
std::string report_json(const Report &report);
int exit_status(const Report &report);
std::string version_text();
