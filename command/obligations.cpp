// Clauses about one word of the memory are shown by a small solver of their own, which has what their next values depend on, without what is read
// of other words, and those clauses of the invariant that speak of nothing else: a step of the whole memory is large, and what is known of one word
// seldom needs the others. What does not follow so is asked with all that is read, and then of the whole step.

#include "obligations.h"

#include <algorithm>
#include <map>
#include <unordered_map>

#include "elaborate.h"
#include "refutation.h"
#include "step_solver.h"

namespace {

class Obligations {
public:
  Obligations(const Chip &of, const Property &its_property, const std::vector<Clause> &its_invariant, Stop &when)
      : chip(of), property(its_property), invariant(its_invariant), stop(when), bits(of.net), whole(of, its_property),
        shown_at(invariant.size() + 1) {
    whole.property();
    for (const Clause &clause : invariant) {
      clause_at.push_back(made.invariant.size());
      whole.ask_for(clause);
      made.invariant.insert(made.invariant.end(), clause.begin(), clause.end());
      made.invariant.push_back(0);
    }
    first_of_failure = whole.clauses().size();
    failing = whole.ask_for_failure(made.invariant);
    made.requests = whole.requests();
    for (size_t r = 0; r < made.requests.size(); r += 3) request_at.emplace(key(&made.requests[r]), r / 3 * NUMBERS);
    for (size_t c = 0; c < invariant.size(); c++) about[word_of(invariant[c])].push_back(c);
  }

  std::optional<ForeverCertificate> run() {
    std::vector<size_t> left, all(invariant.size());
    for (size_t c = 0; c < all.size(); c++) all[c] = c;
    if (!show_part({PROPERTY()}, std::nullopt).empty() && !show(whole, all, {PROPERTY()}).empty()) return std::nullopt;
    for (const auto &[word, clauses] : about) {
      if (refuted) break;
      std::vector<size_t> open = clauses;
      if (word != NO_WORD) open = show_part(open, word);
      if (!open.empty() && !refuted) open = show_part(open, std::nullopt);
      left.insert(left.end(), open.begin(), open.end());
    }
    if (!refuted && !left.empty() && !show(whole, all, left).empty()) return std::nullopt;
    if (!refuted) conclude();
    return std::move(made);
  }

private:
  const Chip &chip;
  const Property &property;
  const std::vector<Clause> &invariant;
  Stop &stop;
  StateBits bits;
  Transition whole;
  ForeverCertificate made;
  std::vector<int32_t> failing; // by clause, that it or one behind it fails
  size_t first_of_failure; // among the step's numbers
  std::unordered_map<uint64_t, size_t> request_at; // the place in the store of what a request gives, and of each clause of the invariant behind those
  std::vector<size_t> clause_at;
  std::map<uint32_t, std::vector<size_t>> about; // clauses of the invariant, by word
  std::vector<size_t> shown_at; // by target, the place of its lemma; 0 where there is none yet
  bool refuted = false; // the last lemma is empty: no state has this invariant

  // A target is a clause of the invariant, behind the step, or the property before it.
  size_t PROPERTY() const { return invariant.size(); }
  static constexpr size_t NUMBERS = 5; // of a request's clause
  static constexpr uint32_t NO_WORD = UINT32_MAX;

  static uint64_t key(const uint32_t *request) { return uint64_t{request[0]} << 58 | uint64_t{request[1]} << 29 | request[2]; }
  size_t invariant_place() const { return made.requests.size() / 3 * NUMBERS; }
  size_t lemma_place() const { return invariant_place() + made.invariant.size() + made.refutation.lemmas.size(); }

  // the first word that a clause speaks of; none, which counts as the last: of registers alone
  uint32_t word_of(const Clause &clause) const {
    uint32_t first = NO_WORD;
    for (int32_t number : clause) {
      uint32_t bit = static_cast<uint32_t>(std::abs(number)) - 1;
      if (bit >= bits.held) first = std::min(first, (bit - bits.held) / bits.n);
    }
    return first;
  }

  std::vector<int32_t> target_clause(Transition &step, size_t target) const {
    if (target == PROPERTY()) return {step.property()};
    std::vector<int32_t> clause;
    for (int32_t number : invariant[target]) clause.push_back(step.next_of(number));
    return clause;
  }

  std::vector<size_t> show_part(const std::vector<size_t> &targets, std::optional<uint32_t> word_read) {
    Transition step(chip, property, word_read);
    for (size_t target : targets)
      if (target == PROPERTY()) step.property();
      else step.ask_for(invariant[target]);
    std::vector<size_t> used;
    for (const auto &[word, clauses] : about) {
      if (word != NO_WORD && !has_word(step, word)) continue;
      for (size_t c : clauses)
        if (std::all_of(invariant[c].begin(), invariant[c].end(), [&](int32_t number) { return step.has(number); })) used.push_back(c);
    }
    return show(step, used, targets);
  }

  bool has_word(const Transition &step, uint32_t word) const {
    for (uint32_t t = 0; t < bits.n; t++)
      if (step.has(static_cast<int32_t>(bits.word(word, t)) + 1)) return true;
    return false;
  }

  // Lemmas that show the targets by a step and clauses of the invariant before it. The answer is the targets that do not follow.
  std::vector<size_t> show(Transition &step, const std::vector<size_t> &used, const std::vector<size_t> &targets) {
    std::vector<int32_t> formula = step.clauses();
    std::vector<size_t> places(formula.size()); // in the store, of each clause of the formula, by where it begins
    for (size_t at = 0; at < formula.size(); at += NUMBERS) places[at] = request_at.at(key(&step.requests()[at / NUMBERS * 3]));
    auto add = [&](const std::vector<int32_t> &clause, size_t place) {
      places.push_back(place);
      places.resize(places.size() + clause.size());
      formula.insert(formula.end(), clause.begin(), clause.end());
      formula.push_back(0);
    };
    for (size_t c : used) {
      std::vector<int32_t> clause;
      for (int32_t number : invariant[c]) clause.push_back(step.now_of(number));
      add(clause, invariant_place() + clause_at[c]);
    }
    if (&step == &whole && shown_at[PROPERTY()]) add({whole.property()}, shown_at[PROPERTY()]); // it holds before the step
    Refutation refutation;
    StepSolver solver(step, stop);
    refutation.trace(solver.solver);
    solver.add(formula);
    std::vector<size_t> left, shown;
    std::vector<int32_t> wanted;
    // What fails together, negated, is the last clause that the solver then writes: the target, or a part of it.
    for (size_t target : targets) {
      std::vector<int32_t> clause = target_clause(step, target);
      for (int32_t literal : clause) solver.solver.assume(solver.turned(-literal));
      int answer = solver.solver.solve();
      if (answer != SATISFIABLE && answer != UNSATISFIABLE) throw Stopped();
      if (answer == SATISFIABLE) {
        left.push_back(target);
        continue;
      }
      shown.push_back(target);
      wanted.insert(wanted.end(), clause.begin(), clause.end());
      wanted.push_back(0);
    }
    refutation.finish(solver.solver);
    if (shown.empty()) return left;
    Learnt learnt{refutation.learnt(stop).numbers, {}}; // what was deleted is among what is wanted at the end
    for (int32_t &literal : learnt.numbers)
      if (literal != 0) literal = solver.turned(literal);
    learnt.numbers.insert(learnt.numbers.end(), wanted.begin(), wanted.end());
    Elaborated lemmas = elaborate(formula, learnt, shown.size(), step.variables(), stop);
    refuted = lemmas.places.empty();
    for (size_t s = 0; s < shown.size() && !refuted; s++) shown_at[shown[s]] = lemma_place() + lemmas.places[s] - formula.size();
    take(step, lemmas.certificate, places);
    return left;
  }

  // Lemmas of a formula, whose hints become places in the store.
  void take(const Transition &step, const Certificate &lemmas, const std::vector<size_t> &places) {
    size_t first = lemma_place();
    for (int32_t literal : lemmas.lemmas) made.refutation.lemmas.push_back(literal == 0 ? 0 : step.original(literal));
    for (size_t at = 0; at < lemmas.hints.size();) {
      uint32_t count = lemmas.hints[at++];
      made.refutation.hints.push_back(count);
      for (; count > 0; count--) {
        size_t place = lemmas.hints[at++];
        made.refutation.hints.push_back(static_cast<uint32_t>(place < places.size() ? places[place] : first + place - places.size()));
      }
    }
  }

  void add_lemma(std::initializer_list<int32_t> literals, const std::vector<size_t> &hints) {
    for (int32_t literal : literals) made.refutation.lemmas.push_back(whole.original(literal));
    made.refutation.lemmas.push_back(0);
    made.refutation.hints.push_back(static_cast<uint32_t>(hints.size()));
    for (size_t hint : hints) made.refutation.hints.push_back(static_cast<uint32_t>(hint));
  }

  // From the targets that no clause fails behind the step, the last one first: their hints are known (RULES H4).
  void conclude() {
    constexpr size_t CONSTANT = 0; // the first request's clause: what the laws name as false is
    size_t end = whole.clauses().size() - NUMBERS; // behind the last clause there is none that fails
    std::vector<size_t> none_behind{CONSTANT, end};
    for (size_t c = invariant.size(); c-- > 0;) {
      size_t count = invariant[c].size();
      end -= NUMBERS; // a true number was found. Before it, of each number: it is true; it is false; and but for the first, one before it is true
      auto found = [&](size_t number) { return end - NUMBERS * (3 * (count - number) - 2); };
      auto is_true = [&](size_t number) { return number == 0 ? end - NUMBERS * (3 * count - 1) : found(number) - 2 * NUMBERS; };
      std::vector<size_t> hints = none_behind;
      hints.push_back(end);
      for (size_t number = count; number-- > 1;) hints.push_back(found(number));
      for (size_t number = 0; number < count; number++) hints.insert(hints.end(), {is_true(number), is_true(number) + NUMBERS});
      hints.back() = shown_at[c];
      none_behind = {CONSTANT, lemma_place()};
      add_lemma({-failing[c]}, hints);
      end -= count > 0 ? NUMBERS * (3 * count - 1) : 0;
    }
    none_behind.insert(none_behind.end(), {shown_at[PROPERTY()], first_of_failure});
    add_lemma({}, none_behind);
  }
};

} // namespace

std::optional<ForeverCertificate> certificate_of(const Chip &chip, const Property &property, const std::vector<Clause> &invariant, Stop &stop) {
  return Obligations(chip, property, invariant, stop).run();
}
