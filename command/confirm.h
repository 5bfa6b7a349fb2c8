// A run that was found in Verilog, tried on the original files by a simulator: iverilog, with the design's own array.
#pragma once

#include "chip.h"
#include "options.h"
#include "run.h"
#include "stop.h"

// What the simulator has to say: `confirmed by iverilog`, or why not. A Failure where it sees the property hold in the frame that breaks it.
std::string confirm(const Options &options, const Chip &chip, const Property &property, const Run &run, Stop &stop);
