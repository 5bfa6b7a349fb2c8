// The files that the command writes where it is asked to: a waveform, and the sheets that verdicts are about.
#pragma once

#include <vector>

#include "options.h"
#include "report.h"

// Tests, before a search that may take long, that they can be written.
void test_outputs(const Options &options);

// DIR/1.sheet and DIR/1.names for the first property, and so on: what `frames` and `replay` take.
void keep_sheets(const std::vector<Chip> &chips, const std::string &folder);

// the run of the first property that has one
void write_waveform(const std::string &path, const std::vector<Searched> &searched);
