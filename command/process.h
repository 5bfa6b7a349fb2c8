// Another program, started and waited for.
#pragma once

#include <optional>
#include <string>
#include <vector>

#include "stop.h"

struct Finished {
  int status = 0; // the exit status; 128 and the signal's number where it was ended by one
  bool missing = false; // there is no such program
  bool killed = false; // its own time was out, or it was time to stop
  std::string said; // on standard output and standard error
  std::string written; // to file descriptor 3, so that no file is needed
};

// The program ends with this one, however this one ends, and is killed where it is time to stop: then a Failure with status STOPPED. Where it has a
// time of its own, it is killed behind that too, and `killed` tells either.
Finished run_program(const std::vector<std::string> &arguments, Stop &stop, std::optional<double> seconds = std::nullopt);
