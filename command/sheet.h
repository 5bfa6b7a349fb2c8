// A chip from a sheet (docs/FORMAT.md).
#pragma once

#include "chip.h"
#include "options.h"
#include "stop.h"

bool is_sheet(const std::string &path, const std::string &content);
Chip chip_of_sheet(const std::string &path, const std::string &content, const Options &options);

// lets the user's --start have its way over what the file says
void apply_start(Chip &chip, const Start &start, Stop &stop);

// The columns of a chip without names: all inputs as one word, and all registers.
void show_unnamed(Chip &chip);
// the columns that --watch asks for, or a Failure with the names there are
void show_watched(Chip &chip, const std::vector<std::string> &watched);
