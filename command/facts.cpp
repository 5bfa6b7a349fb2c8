#include "facts.h"

#include <algorithm>
#include <set>

#include "simulation.h"
#include "transition.h"

namespace {

constexpr size_t MOST_POINTERS = 96, MOST_FACTS = 6000, MOST_CLAUSES = 400000;
constexpr unsigned MUCH = 64; // runs and states in which a guard was true, so that what holds there says something

class Guesser {
public:
  Guesser(const Chip &guessed, const Property &of, Limit &when) : chip(guessed), property(of), limit(when), bits(guessed.net) {}

  std::vector<Fact> run() {
    excused = excusing_latch();
    find_pointers();
    samples = simulate(chip, pointers, excused);
    zeros.assign(samples.count, 0);
    find_constants();
    find_pairs();
    find_pointed();
    find_nonzero();
    find_equalities();
    return std::move(facts);
  }

private:
  const Chip &chip;
  const Property &property;
  Limit &limit;
  StateBits bits;
  uint32_t excused = UINT32_MAX;
  std::vector<Pointer> pointers;
  Samples samples;
  std::vector<Lanes> zeros;
  std::vector<uint32_t> varying; // latches and bits held that are no constants
  std::vector<Fact> facts;
  size_t clauses = 0;

  // A latch that begins as 1, stays 0 once it is, and makes the property true then: that an assumption held so far.
  uint32_t excusing_latch() {
    Transition step(chip, property);
    CaDiCaL::Solver solver;
    solver.set("quiet", 1);
    solver.connect_terminator(&limit);
    size_t fed = 0;
    auto never = [&](const std::vector<int32_t> &literals) {
      for (; fed < step.clauses().size(); fed++) solver.add(step.clauses()[fed]);
      for (int32_t literal : literals) solver.assume(literal);
      return solver.solve() == 20;
    };
    uint32_t found = UINT32_MAX;
    for (uint32_t l = 0; l < chip.net.latches && found == UINT32_MAX; l++) {
      if (chip.latches[l].reset != 1) continue;
      int32_t now = step.now(l), next = step.next(l), holds = step.property();
      if (never({-now, next}) && never({-now, -holds})) found = l;
    }
    solver.disconnect_terminator();
    return found;
  }

  void add_pointer(const std::vector<uint32_t> &of) {
    for (const Pointer &known : pointers)
      if (known.bits == of) return;
    uint32_t last = (uint32_t{1} << chip.net.m) - 1;
    for (uint32_t offset : {0u, 1u, last}) {
      if (pointers.size() >= MOST_POINTERS) return;
      pointers.push_back({of, offset});
    }
  }

  // Registers as wide as an address, by their names; without names, latches that stand in a row.
  void find_pointers() {
    uint32_t m = chip.net.m;
    for (const Word &word : chip.named) {
      std::vector<uint32_t> of;
      for (uint32_t code : word.codes) {
        auto number = code == NO_CODE ? std::nullopt : state_number(chip, code);
        if (!number || *number < 0 || of.size() == m) break;
        of.push_back(static_cast<uint32_t>(*number) - 1);
      }
      if (of.size() == m && std::set<uint32_t>(of.begin(), of.end()).size() == m) add_pointer(of);
    }
    if (!pointers.empty() || !chip.named.empty()) return;
    for (uint32_t first = 0; first + m <= chip.net.latches; first++) {
      std::vector<uint32_t> of;
      for (uint32_t t = 0; t < m; t++) of.push_back(first + t);
      add_pointer(of);
    }
  }

  // whether a clause of these is false in a run that counts
  bool is_broken(const std::vector<Lanes> &left, bool invert_left, const std::vector<Lanes> &right, bool invert_right) const {
    for (size_t s = 0; s < samples.count; s++) {
      Lanes either = (invert_left ? ~left[s] : left[s]) | (invert_right ? ~right[s] : right[s]);
      if (~either & samples.counted[s]) return true;
    }
    return false;
  }

  void add(std::vector<Clause> made) {
    Fact fact{"", std::move(made)};
    if (facts.size() >= MOST_FACTS || clauses + fact.clauses.size() > MOST_CLAUSES) return;
    if (excused < bits.latches)
      for (Clause &clause : fact.clauses)
        if (clause[0] != static_cast<int32_t>(excused) + 1) clause.push_back(-static_cast<int32_t>(excused) - 1);
    if (!holds_at_start(chip, fact)) return;
    clauses += fact.clauses.size();
    facts.push_back(std::move(fact));
  }

  void find_constants() {
    for (uint32_t bit = 0; bit < samples.bits.size(); bit++) {
      if (bit == excused) continue;
      bool may_be_0 = is_broken(samples.bits[bit], false, zeros, false), may_be_1 = is_broken(samples.bits[bit], true, zeros, false);
      int32_t number = static_cast<int32_t>(bit) + 1;
      if (may_be_0 && may_be_1) varying.push_back(bit);
      else add({{may_be_1 ? number : -number}});
    }
  }

  void find_pairs() {
    for (size_t left = 0; left < varying.size(); left++)
      for (size_t right = left + 1; right < varying.size(); right++)
        for (int signs = 0; signs < 4; signs++) {
          if (is_broken(samples.bits[varying[left]], signs & 1, samples.bits[varying[right]], signs & 2)) continue;
          int32_t a = static_cast<int32_t>(varying[left]) + 1, b = static_cast<int32_t>(varying[right]) + 1;
          add({{signs & 1 ? -a : a, signs & 2 ? -b : b}});
        }
  }

  struct Guard {
    int32_t number; // 0: none
    unsigned true_in; // runs and states
  };

  Lanes guard_lanes(int32_t number, size_t sample) const {
    if (number == 0) return ~Lanes{0};
    Lanes lanes = samples.bits[static_cast<size_t>(std::abs(number)) - 1][sample];
    return number > 0 ? lanes : ~lanes;
  }

  // the guards under which two signals never differ, the weakest first
  std::vector<Guard> guards_of(const std::vector<Lanes> &left, const std::vector<Lanes> &right) const {
    std::vector<int32_t> alive{0};
    for (uint32_t bit : varying)
      if (bit < bits.latches) alive.push_back(static_cast<int32_t>(bit) + 1), alive.push_back(-static_cast<int32_t>(bit) - 1);
    for (size_t s = 0; s < samples.count && !alive.empty(); s++) {
      Lanes differ = (left[s] ^ right[s]) & samples.counted[s];
      if (!differ) continue;
      alive.erase(std::remove_if(alive.begin(), alive.end(), [&](int32_t number) { return differ & guard_lanes(number, s); }), alive.end());
    }
    std::vector<Guard> found;
    for (int32_t number : alive) {
      unsigned ones = 0, zero = 0; // it says little where one of both is always the same
      for (size_t s = 0; s < samples.count; s++) {
        Lanes lanes = guard_lanes(number, s) & samples.counted[s];
        ones += static_cast<unsigned>(__builtin_popcountll(lanes & left[s]));
        zero += static_cast<unsigned>(__builtin_popcountll(lanes & ~left[s]));
      }
      if (ones >= MUCH / 8 && zero >= MUCH / 8 && ones + zero >= MUCH) found.push_back({number, ones + zero});
    }
    std::stable_sort(found.begin(), found.end(), [](const Guard &a, const Guard &b) { return a.true_in > b.true_in; });
    return found;
  }

  // Where the guard holds, the word that a pointer points to has in this bit what a register or a bit held is.
  void find_pointed() {
    constexpr size_t MOST_GUARDS = 2;
    for (size_t p = 0; p < pointers.size() && !limit.terminate(); p++)
      for (uint32_t t = 0; t < bits.n; t++)
        for (uint32_t target : varying) {
          std::vector<Guard> guards = guards_of(samples.pointed[p][t], samples.bits[target]);
          for (size_t g = 0; g < guards.size() && g < (guards[0].number == 0 ? 1 : MOST_GUARDS); g++)
            add(pointed(p, t, static_cast<int32_t>(target) + 1, guards[g].number));
        }
  }

  std::vector<Clause> pointed(size_t p, uint32_t t, int32_t target, int32_t guard) const {
    std::vector<Clause> clauses_of;
    for (uint32_t word = 0; word >> chip.net.m == 0; word++) {
      Clause clause;
      if (guard) clause.push_back(-guard);
      uint32_t at = word - pointers[p].offset; // what the register is then
      for (uint32_t b = 0; b < chip.net.m; b++) {
        int32_t bit = static_cast<int32_t>(pointers[p].bits[b]) + 1;
        clause.push_back(at >> b & 1 ? -bit : bit);
      }
      int32_t own = static_cast<int32_t>(bits.word(word, t)) + 1;
      for (int sign : {1, -1}) {
        Clause one = clause;
        one.push_back(sign * own);
        // the guard or the register that it is the same as may be a bit of the pointer
        bool is_true = std::find(one.begin(), one.end(), sign * target) != one.end() ||
                       (guard && std::find(clause.begin(), clause.end(), guard) != clause.end());
        if (std::find(one.begin(), one.end(), -sign * target) == one.end()) one.push_back(-sign * target);
        if (guard && std::count(one.begin(), one.end(), -guard) > 1) one.erase(one.begin());
        if (!is_true) clauses_of.push_back(one);
      }
    }
    return clauses_of;
  }

  // Where a register is true, or false, a word is not 0.
  void find_nonzero() {
    for (size_t word = 0; word < samples.nonzero.size(); word++)
      for (uint32_t latch : varying) {
        if (latch >= bits.latches) continue;
        for (int sign : {1, -1}) {
          if (is_broken(samples.bits[latch], sign > 0, samples.nonzero[word], false)) continue;
          Clause clause{-sign * (static_cast<int32_t>(latch) + 1)};
          for (uint32_t t = 0; t < bits.n; t++) clause.push_back(static_cast<int32_t>(bits.word(static_cast<uint32_t>(word), t)) + 1);
          add({clause});
        }
      }
  }

  // Where a register is true, or false, two others, or bits held, are the same.
  void find_equalities() {
    for (size_t left = 0; left < varying.size() && !limit.terminate(); left++)
      for (size_t right = left + 1; right < varying.size(); right++) {
        int32_t a = static_cast<int32_t>(varying[left]) + 1, b = static_cast<int32_t>(varying[right]) + 1;
        for (const Guard &guard : guards_of(samples.bits[varying[left]], samples.bits[varying[right]])) {
          if (guard.number == 0) break; // then it is a pair of clauses already
          if (std::abs(guard.number) == a || std::abs(guard.number) == b) continue;
          add({{-guard.number, -a, b}, {-guard.number, a, -b}});
        }
      }
  }
};

} // namespace

std::optional<int32_t> state_number(const Chip &chip, marrubigai_code code) {
  const marrubigai_netlist &net = chip.net;
  auto latch = [&](marrubigai_code of) -> std::optional<int32_t> {
    uint32_t wire = of / 2;
    if (wire <= net.inputs || wire > net.inputs + net.latches) return std::nullopt;
    int32_t number = static_cast<int32_t>(wire - net.inputs);
    return of % 2 ? -number : number;
  };
  if (auto own = latch(code)) return own;
  uint32_t first_gate = chip.first_read() + chip.read_bits();
  if (code / 2 < first_gate || code % 2 == 0) return std::nullopt;
  // one that begins unknown is its latch or, in frame 0, an input: not (not the latch, and not the input in frame 0)
  const marrubigai_gate &gate = chip.gate(code / 2);
  for (auto [one, other] : {std::pair{gate.left, gate.right}, std::pair{gate.right, gate.left}}) {
    if (other / 2 < first_gate || other % 2 == 0 || one % 2 == 0) continue;
    const marrubigai_gate &begun = chip.gate(other / 2);
    bool left_input = begun.left % 2 == 0 && begun.left / 2 >= 1 && begun.left / 2 <= net.inputs;
    bool right_input = begun.right % 2 == 0 && begun.right / 2 >= 1 && begun.right / 2 <= net.inputs;
    auto own = latch(one ^ 1);
    if (own && (left_input || right_input)) return own;
  }
  return std::nullopt;
}

std::vector<Fact> likely_facts(const Chip &chip, const Property &property, Limit &limit) { return Guesser(chip, property, limit).run(); }
