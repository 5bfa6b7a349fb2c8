// What ends the command early: a message for the user and the exit status.
#pragma once

#include <string>
#include <utility>

enum Status { BROKEN = 10, HOLDS = 20, STOPPED = 30, FAILED = 1, USAGE = 2 };

struct Failure {
  std::string message; // lines without the last line feed
  int status;
  explicit Failure(std::string text, int exit_status = FAILED) : message(std::move(text)), status(exit_status) {}
};

// more wires or data bits than the engine takes; a part of what is asked about may fit
struct TooLarge : Failure {
  using Failure::Failure;
};

// the memory does not fit into its ports, as it was read; it may fit when it is read in another way, or has one more
struct NoFit : Failure {
  using Failure::Failure;
};
