// yosys, started to read Verilog.
#pragma once

#include "design.h"
#include "options.h"
#include "stop.h"

// Whether a memory's reads stay as they are written, without a clock, or take in the registers behind or before them where yosys finds such: then
// a read has an enable, and a step that writes need not read.
enum class Reads { as_written, clocked };

// The design as one module of gates, registers and memories. A Failure with what yosys says where it makes none of it.
Design read_verilog(const Options &options, Reads reads, Stop &stop);
