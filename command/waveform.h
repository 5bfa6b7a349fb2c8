// A run as a waveform (VCD, IEEE 1364): frame i is time i.
#pragma once

#include <string>

#include "run.h"

std::string waveform(const Chip &chip, const Property &property, const Run &run);
