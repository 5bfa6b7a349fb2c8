// A chip from Verilog as it is written: the memory is found and cut out, and every assertion is a property.
#pragma once

#include "chip.h"
#include "options.h"
#include "stop.h"

bool is_verilog(const std::string &path);
// One chip for all that is asked about; or, where that is too large, one for each statement.
std::vector<Chip> chips_of_verilog(const Options &options, Stop &stop);
