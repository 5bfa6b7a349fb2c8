// When to stop: an interrupt, or the time that the user gave. Asked by the solver many times a second, so it also moves the progress line.
#pragma once

#include <cadical.hpp>

#include <chrono>
#include <cstdint>

class Stop : public CaDiCaL::Terminator {
public:
  using Clock = std::chrono::steady_clock;

  // Catches SIGINT, SIGTERM and SIGHUP from here on. The time runs from here on too.
  Stop(double timeout_seconds, bool show_progress);
  ~Stop() override;
  Stop(const Stop &) = delete;
  Stop &operator=(const Stop &) = delete;

  bool terminate() override;
  bool is_due() const;
  const char *why() const; // "interrupted" or "out of time"
  // milliseconds to wait at most, for a poll; -1 where there is no end
  int milliseconds_left() const;
  double seconds() const;

  // The progress line, on a terminal alone and rewritten in place.
  void at_frame(uint32_t frame, uint32_t depth);
  void at_work(const char *what); // in place of frames
  void clear_line();

  // From here on a signal or the end of the time ends the command where it is, for a call that asks nobody: with these words on standard error and
  // status STOPPED. Nothing may be left that has to be cleaned up.
  void end_at_once(const char *words);

private:
  Clock::time_point began, deadline;
  bool has_deadline, show_progress, line_is_shown = false;
  Clock::time_point shown_at{};
  uint32_t frame = 0, depth = 0;
  const char *work = nullptr;
  void show_line();
};
