// Arrays of a design with as many words each, as one memory: a word of it is one of each, side by side.
#pragma once

#include "design.h"

// Where all memories of the design have the same indices, it has one in their place. What does not fit then is told of this one.
Design join_arrays(Design design);

// a line for each array: how it alone stays a memory
std::string choices_of(const Design &design);
