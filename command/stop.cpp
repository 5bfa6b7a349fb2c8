#include "stop.h"

#include <sys/time.h>
#include <unistd.h>

#include <algorithm>
#include <csignal>
#include <cstdio>
#include <cstring>

#include "failure.h"

namespace {

volatile std::sig_atomic_t interrupted = 0;

void interrupt(int) { interrupted = 1; }

const char *last_words = "";

void end(int signal) { // it only makes calls that are safe in a handler
  const char *why = signal == SIGALRM ? "out of time" : "interrupted";
  ssize_t count = write(STDERR_FILENO, why, std::strlen(why));
  count = write(STDERR_FILENO, last_words, std::strlen(last_words));
  static_cast<void>(count);
  _exit(STOPPED);
}

void handle(std::initializer_list<int> signals, void (*handler)(int)) {
  struct sigaction action {};
  action.sa_handler = handler; // without SA_RESTART: a read that waits ends with EINTR
  sigemptyset(&action.sa_mask);
  for (int signal : signals) sigaction(signal, &action, nullptr);
}

} // namespace

Stop::Stop(double timeout_seconds, bool wanted)
    : began(Clock::now()), deadline(began), has_deadline(timeout_seconds > 0), show_progress(wanted && isatty(STDERR_FILENO)) {
  if (has_deadline) deadline += std::chrono::duration_cast<Clock::duration>(std::chrono::duration<double>(timeout_seconds));
  handle({SIGINT, SIGTERM, SIGHUP}, interrupt);
}

void Stop::end_at_once(const char *words) {
  clear_line();
  last_words = words;
  handle({SIGINT, SIGTERM, SIGHUP, SIGALRM}, end);
  if (interrupted) end(SIGINT);
  if (!has_deadline) return;
  auto left = std::max<long long>(std::chrono::duration_cast<std::chrono::microseconds>(deadline - Clock::now()).count(), 1); // 0 would be never
  itimerval timer{{0, 0}, {static_cast<time_t>(left / 1000000), static_cast<suseconds_t>(left % 1000000)}};
  setitimer(ITIMER_REAL, &timer, nullptr);
}

Stop::~Stop() { clear_line(); }

bool Stop::is_due() const { return interrupted || (has_deadline && Clock::now() >= deadline); }

bool Stop::terminate() {
  if (show_progress && Clock::now() - shown_at >= std::chrono::milliseconds(200)) show_line();
  return is_due();
}

const char *Stop::why() const { return interrupted ? "interrupted" : "out of time"; }

int Stop::milliseconds_left() const {
  if (!has_deadline) return -1;
  auto left = std::chrono::duration_cast<std::chrono::milliseconds>(deadline - Clock::now()).count();
  return static_cast<int>(std::clamp<long long>(left + 1, 0, 1000000));
}

double Stop::seconds() const { return std::chrono::duration<double>(Clock::now() - began).count(); }

void Stop::at_frame(uint32_t now, uint32_t last) {
  frame = now;
  depth = last;
  work = nullptr;
  if (show_progress) show_line();
}

void Stop::at_work(const char *what) {
  work = what;
  if (show_progress) show_line();
}

void Stop::show_line() {
  shown_at = Clock::now();
  line_is_shown = true;
  if (work) std::fprintf(stderr, "\r\033[K%s, %.1f s", work, seconds());
  else std::fprintf(stderr, "\r\033[Kframe %u of %u, %.1f s", frame, depth, seconds());
  std::fflush(stderr);
}

void Stop::clear_line() {
  if (line_is_shown) std::fputs("\r\033[K", stderr);
  line_is_shown = false;
}
