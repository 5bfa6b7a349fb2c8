#include "rewriting.h"

#include <map>
#include <set>

#include "abc.h"
#include "failure.h"

namespace {

constexpr double MOST_SECONDS = 20;
constexpr const char *COMMANDS = "strash; dc2; dc2; dc2; resub -K 12; resub -K 16; dc2; dc2; rewrite -z; refactor -z; dc2; dc2; "
                                 "write_aiger /dev/fd/3";

} // namespace

Rewritten rewrite(Aig &aig, const std::vector<Lit> &roots, Stop &stop) {
  std::map<Aig::Kind, std::set<uint32_t>> leaves;
  for (Lit root : roots)
    for (uint32_t node : aig.support(root)) leaves[aig.node(node).kind].insert(node);
  std::vector<uint32_t> inputs;
  for (Aig::Kind kind : {Aig::Kind::input, Aig::Kind::read, Aig::Kind::latch}) inputs.insert(inputs.end(), leaves[kind].begin(), leaves[kind].end());
  Finished finished = run_abc(binary_aiger(aig, inputs, {}, roots), COMMANDS, stop, MOST_SECONDS);
  if (finished.killed && stop.is_due())
    throw Failure(std::string(stop.why()) + " while " + ABC + " was at work; nothing is known of any property", STOPPED);
  if (finished.missing) return {{}, std::string(ABC) + " is missing (Debian's package of this name)"};
  if (finished.killed || finished.status != 0) return {{}, std::string(ABC) + " does not rewrite it"};
  Rewritten made;
  try {
    made.roots = add_binary_aiger(aig, inputs, finished.written);
  } catch (const std::string &problem) {
    return {{}, std::string(ABC) + ": " + problem};
  }
  if (made.roots.size() != roots.size()) return {{}, std::string(ABC) + ": what it wrote has other outputs"};
  for (size_t at = 0; at < roots.size(); at++)
    if (aig.depends_on(made.roots[at], Aig::Kind::read) && !aig.depends_on(roots[at], Aig::Kind::read)) made.roots[at] = roots[at];
  return made;
}
