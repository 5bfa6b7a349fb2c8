// abc (Debian's berkeley-abc), started as a program on an and-inverter graph.
#pragma once

#include <string>
#include <vector>

#include "aig.h"
#include "process.h"

constexpr const char *ABC = "berkeley-abc";

// In binary AIGER, without symbols: these nodes as inputs and latches, and the gates that the latches and the outputs depend on.
std::string binary_aiger(const Aig &aig, const std::vector<uint32_t> &inputs, const std::vector<uint32_t> &latches, const std::vector<Lit> &outputs);

// The outputs of a file without latches, as literals of the graph, where these are its inputs; its gates are added. It throws a text where it is
// no such file.
std::vector<Lit> add_binary_aiger(Aig &aig, const std::vector<uint32_t> &inputs, const std::string &file);

// It reads the file, and does what the commands say, of which /dev/fd/3 is what is `written`.
Finished run_abc(const std::string &file, const std::string &commands, Stop &stop, double seconds);
