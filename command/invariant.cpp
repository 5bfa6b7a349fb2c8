#include "invariant.h"

#include <algorithm>

#include "step_solver.h"

namespace {

// The facts in a solver, in which each is switched on by a variable of its own.
class Houdini {
public:
  Houdini(const Chip &chip, const Property &property, const std::vector<Fact> &candidates, Limit &limit)
      : facts(candidates), step(chip, property), solver(with_all_asked_for(), limit) {
    solver.add(step.clauses());
    int32_t variables = static_cast<int32_t>(step.variables());
    for (const Fact &fact : facts) {
      asserted.push_back(++variables);
      for (const Clause &clause : fact.clauses) {
        solver.solver.add(-asserted.back());
        for (int32_t number : clause) solver.solver.add(solver.now(number));
        solver.solver.add(0);
      }
    }
  }

  Induction run(bool all) {
    made.kept.assign(facts.size(), true);
    keepers.resize(facts.size());
    int answer = UNSATISFIABLE;
    if (all) answer = drop_one_by_one();
    if (answer != UNSATISFIABLE) return made;
    do answer = find_needed();
    while (answer == DROPPED);
    if (answer == SATISFIABLE) made.answer = Induction::Answer::broken_step;
    if (answer == UNSATISFIABLE) made.answer = Induction::Answer::proved;
    return made;
  }

private:
  const std::vector<Fact> &facts;
  Transition step;
  StepSolver solver;
  std::vector<int32_t> asserted;
  Induction made;
  std::vector<std::vector<bool>> keepers; // by fact, those that keep it, if every step does; none where that is not known
  enum { DROPPED = -1 }; // in place of an answer: a fact was, so that what is kept has to be asked about anew

  Transition &with_all_asked_for() {
    step.property();
    for (const Fact &fact : facts)
      for (const Clause &clause : fact.clauses) step.ask_for(clause);
    return step;
  }

  // with these facts
  int ask(const std::vector<bool> &used, const std::vector<int32_t> &assumed) {
    for (size_t f = 0; f < facts.size(); f++)
      if (used[f]) solver.solver.assume(asserted[f]);
    for (int32_t literal : assumed) solver.solver.assume(literal);
    return solver.solver.solve();
  }

  // of those that are kept, what the last answer needed
  void take_needed(std::vector<bool> &needed) {
    for (size_t f = 0; f < facts.size(); f++)
      if (made.kept[f] && solver.solver.failed(asserted[f])) needed[f] = true;
  }

  // Whether every step keeps the clauses of a fact, and by which facts: mostly by those that kept the clauses before, of which there are few.
  int keep(size_t f) {
    std::vector<bool> &used = keepers[f];
    bool known = !used.empty();
    for (size_t other = 0; known && other < facts.size(); other++) known = !used[other] || made.kept[other];
    if (known) return UNSATISFIABLE;
    used.assign(facts.size(), false);
    used[f] = true;
    for (const Clause &clause : facts[f].clauses) {
      std::vector<int32_t> left_by{solver.holds()};
      for (int32_t number : clause) left_by.push_back(-solver.next(number));
      int answer = ask(used, left_by);
      if (answer == SATISFIABLE) {
        answer = ask(made.kept, left_by);
        if (answer == UNSATISFIABLE) take_needed(used);
      }
      if (answer == UNSATISFIABLE) continue;
      used.clear();
      if (answer != SATISFIABLE) return answer;
      drop_violated();
      return DROPPED;
    }
    return UNSATISFIABLE;
  }

  int drop_one_by_one() {
    for (bool dropped = true; dropped;) {
      dropped = false;
      for (size_t f = 0; f < facts.size(); f++) {
        int answer = UNSATISFIABLE;
        while (made.kept[f] && (answer = keep(f)) == DROPPED) dropped = true;
        if (made.kept[f] && answer != UNSATISFIABLE) return answer;
      }
    }
    return UNSATISFIABLE;
  }

  // all that the step which was found leaves
  void drop_violated() {
    std::vector<int32_t> dropped;
    for (size_t f = 0; f < facts.size(); f++) {
      if (!made.kept[f]) continue;
      auto is_false = [&](int32_t number) { return solver.solver.val(solver.next(number)) < 0; };
      made.kept[f] = std::none_of(facts[f].clauses.begin(), facts[f].clauses.end(),
                                  [&](const Clause &clause) { return std::all_of(clause.begin(), clause.end(), is_false); });
      if (!made.kept[f]) dropped.insert(dropped.end(), {-asserted[f], 0});
    }
    for (int32_t number : dropped) solver.solver.add(number);
  }

  // what the property follows from, and what each of these is kept by
  int find_needed() {
    made.needed.assign(facts.size(), false);
    int answer = ask(made.kept, {-solver.holds()});
    if (answer != UNSATISFIABLE) return answer;
    take_needed(made.needed);
    std::vector<bool> asked(facts.size());
    for (size_t f = 0; f < facts.size(); f++) {
      if (!made.needed[f] || asked[f]) continue;
      asked[f] = true;
      answer = keep(f);
      if (answer != UNSATISFIABLE) return answer;
      for (size_t other = 0; other < facts.size(); other++) made.needed[other] = made.needed[other] || keepers[f][other];
      f = SIZE_MAX; // from the first on
    }
    return UNSATISFIABLE;
  }
};

} // namespace

bool holds_at_start(const Chip &chip, const Fact &fact) {
  StateBits bits(chip.net);
  auto is_true = [&](int32_t number) {
    uint32_t bit = static_cast<uint32_t>(std::abs(number)) - 1;
    if (bit < bits.latches) return (chip.latches[bit].reset == 1) == (number > 0);
    if (bit < bits.held || bit >= bits.count || chip.net.unknown_start) return false;
    return (chip.net.initial_word >> (bit - bits.held) % bits.n & 1) == (number > 0);
  };
  return std::all_of(fact.clauses.begin(), fact.clauses.end(),
                     [&](const Clause &clause) { return std::any_of(clause.begin(), clause.end(), is_true); });
}

Limit::Limit(Stop &whole, double seconds)
    : stop(whole), deadline(Stop::Clock::now() + std::chrono::duration_cast<Stop::Clock::duration>(std::chrono::duration<double>(seconds))) {}

bool Limit::terminate() { return stop.terminate() || Stop::Clock::now() >= deadline; }

double Limit::seconds_left() const { return std::chrono::duration<double>(deadline - Stop::Clock::now()).count(); }

Induction induct(const Chip &chip, const Property &property, const std::vector<Fact> &facts, bool all, Limit &limit) {
  return Houdini(chip, property, facts, limit).run(all);
}
