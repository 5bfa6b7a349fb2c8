#include "process.h"

#include <fcntl.h>
#include <poll.h>
#include <sys/prctl.h>
#include <sys/wait.h>
#include <unistd.h>

#include <algorithm>
#include <cerrno>
#include <csignal>
#include <cstring>

#include "failure.h"

namespace {

struct Pipe {
  int ends[2] = {-1, -1};
  Pipe() {
    if (pipe2(ends, O_CLOEXEC) != 0) throw Failure(std::string("no pipe can be made: ") + std::strerror(errno));
  }
  Pipe(const Pipe &) = delete;
  Pipe &operator=(const Pipe &) = delete;
  ~Pipe() { shut(0), shut(1); }
  void shut(int end) {
    if (ends[end] >= 0) close(ends[end]);
    ends[end] = -1;
  }
};

constexpr int MISSING = 127;
constexpr int WRITTEN = 3; // where the program writes what is wanted of it

// what the child does: it only makes calls that are safe behind a fork
[[noreturn]] void become(char *const *arguments, int said, int written, pid_t parent) {
  prctl(PR_SET_PDEATHSIG, SIGKILL);
  if (getppid() != parent) _exit(MISSING); // the parent ended in between
  std::signal(SIGPIPE, SIG_DFL);
  int empty = open("/dev/null", O_RDONLY);
  // out of the way of the numbers that are due, which one of them may have
  int kept = fcntl(said, F_DUPFD, 10), kept_written = fcntl(written, F_DUPFD, 10);
  dup2(empty, STDIN_FILENO);
  dup2(kept, STDOUT_FILENO);
  dup2(kept, STDERR_FILENO);
  dup2(kept_written, WRITTEN);
  close(kept), close(kept_written);
  execvp(arguments[0], arguments);
  _exit(MISSING);
}

// whether there is more to come
bool take(Pipe &from, std::string &text) {
  char buffer[1 << 16];
  ssize_t count = read(from.ends[0], buffer, sizeof buffer);
  if (count < 0 && errno == EINTR) return true;
  if (count <= 0) {
    from.shut(0);
    return false;
  }
  text.append(buffer, static_cast<size_t>(count));
  return true;
}

} // namespace

Finished run_program(const std::vector<std::string> &arguments, Stop &stop, std::optional<double> seconds) {
  double until = stop.seconds() + seconds.value_or(0);
  std::vector<char *> pointers;
  for (const std::string &argument : arguments) pointers.push_back(const_cast<char *>(argument.c_str()));
  pointers.push_back(nullptr);
  Pipe said, written;
  pid_t parent = getpid(), child = fork();
  if (child < 0) throw Failure(arguments[0] + " cannot be started: " + std::strerror(errno));
  if (child == 0) become(pointers.data(), said.ends[1], written.ends[1], parent);
  said.shut(1), written.shut(1);
  Finished finished;
  while (said.ends[0] >= 0 || written.ends[0] >= 0) {
    double left = until - stop.seconds();
    if (stop.is_due() || (seconds && left <= 0)) {
      kill(child, SIGKILL);
      while (waitpid(child, nullptr, 0) < 0 && errno == EINTR) {}
      finished.killed = true;
      if (seconds) return finished;
      throw Failure(std::string(stop.why()) + " while " + arguments[0] + " was at work; nothing is known of any property", STOPPED);
    }
    pollfd waited[2] = {{said.ends[0], POLLIN, 0}, {written.ends[0], POLLIN, 0}}; // a descriptor of -1 is passed over
    int wait = stop.milliseconds_left(), own = static_cast<int>(std::min(left, 1e6) * 1000) + 1;
    int ready = poll(waited, 2, seconds && (wait < 0 || own < wait) ? own : wait);
    if (ready <= 0) continue;
    if (waited[0].revents) take(said, finished.said);
    if (waited[1].revents) take(written, finished.written);
  }
  int status = 0;
  while (waitpid(child, &status, 0) < 0 && errno == EINTR) {}
  finished.status = WIFEXITED(status) ? WEXITSTATUS(status) : 128 + WTERMSIG(status);
  finished.missing = finished.status == MISSING;
  return finished;
}
