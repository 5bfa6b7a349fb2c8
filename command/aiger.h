// A chip from ASCII AIGER, as docs/VERILOG.md has it: the memory cut out as ports.
#pragma once

#include "chip.h"
#include "options.h"
#include "stop.h"

bool is_aiger(const std::string &path, const std::string &content);
Chip chip_of_aiger(const std::string &path, const std::string &content, const Options &options, Stop &stop);
