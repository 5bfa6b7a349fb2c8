// Runs jobs, each a program with a file as standard input and /dev/null as standard output, one after the other and all of them
// several times over, so that a slow phase of the machine meets all alike. Prints for each job the least processor time of a run
// (user and system, in microseconds) and the most resident memory (KiB); what this program itself holds before it becomes the other
// is a floor of the last figure. Arguments: repetitions, then an input file and a program for each job.

#include <fcntl.h>
#include <stdio.h>
#include <stdlib.h>
#include <sys/resource.h>
#include <sys/wait.h>
#include <unistd.h>

typedef struct { long processor, resident; } Figures;

static long micros(struct timeval t) { return t.tv_sec * 1000000L + t.tv_usec; }

static Figures run(const char *input, const char *program) {
  pid_t child = fork();
  if (child == 0) {
    int in = open(input, O_RDONLY), out = open("/dev/null", O_WRONLY);
    if (in < 0 || out < 0 || dup2(in, 0) < 0 || dup2(out, 1) < 0) _exit(126);
    execl(program, program, (char *)NULL);
    _exit(127);
  }
  int status;
  struct rusage use;
  if (child < 0 || wait4(child, &status, 0, &use) < 0 || !WIFEXITED(status) || WEXITSTATUS(status) != 0) {
    fprintf(stderr, "%s failed\n", program);
    exit(1);
  }
  return (Figures){micros(use.ru_utime) + micros(use.ru_stime), use.ru_maxrss};
}

int main(int count, char **words) {
  int repetitions = count < 2 ? 0 : atoi(words[1]), jobs = (count - 2) / 2;
  if (repetitions < 1 || jobs < 1 || count % 2 != 0) return 2;
  Figures *best = calloc((size_t)jobs, sizeof *best);
  for (int repetition = 0; repetition < repetitions; repetition++) {
    for (int job = 0; job < jobs; job++) {
      Figures one = run(words[2 + 2 * job], words[3 + 2 * job]);
      if (repetition == 0 || one.processor < best[job].processor) best[job].processor = one.processor;
      if (one.resident > best[job].resident) best[job].resident = one.resident;
    }
  }
  for (int job = 0; job < jobs; job++) printf("%ld %ld\n", best[job].processor, best[job].resident);
  return 0;
}
