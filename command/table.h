// A run as a table: a line for each frame, with the words that are shown and what the memory does.
#pragma once

#include <string>

#include "run.h"

std::string table(const Chip &chip, const Property &property, const Run &run, Radix radix);

// the words that a run of this property is shown by
std::vector<Word> columns(const Chip &chip, const Property &property);
