// Forward, the clauses are added one by one until unit propagation alone gives a conflict: the empty lemma follows there. Then backward, each lemma
// that one behind it needs, or that is wanted, is derived by propagation from its negation through the clauses before it, and the clauses that
// propagated on the way to the conflict are its hints: those that are needed already are tried first, and those that the solver had deleted by then
// only where it does not follow without them. What was fixed before becomes a lemma of its own, a unit, once: no lemma repeats how it came about.

#include "elaborate.h"

#include <algorithm>
#include <array>
#include <cstdlib>

namespace {

using Literal = uint32_t; // twice the variable, and one more where it is negated
using Place = uint32_t; // of a clause among the numbers of all

constexpr Place NONE = UINT32_MAX;

// what a lemma cites: a clause, or the unit at a place of the trail
using Cited = uint32_t;
constexpr Cited UNIT = uint32_t{1} << 31; // no clause has such a place
bool is_unit(Cited cited) { return cited & UNIT; }

constexpr unsigned STEPS_BETWEEN = 1 << 10; // a look at the clock costs more than a step

uint32_t variable_of(int32_t number) { return static_cast<uint32_t>(std::abs(number)); }
Literal literal_of(int32_t number) { return 2 * variable_of(number) + (number < 0); }
int32_t number_of(Literal literal) { return literal & 1 ? -static_cast<int32_t>(literal / 2) : static_cast<int32_t>(literal / 2); }

// In which turn a clause is looked at: those that are needed, the others, those that the solver had deleted.
enum Rank : uint32_t { NEEDED, ACTIVE, RESTING, RANKS };

// All clauses, one behind the other: four times the length and the rank, the place in the certificate's store, and the literals. The first two are
// the watched ones.
class Clauses {
public:
  explicit Clauses(size_t room) { numbers.reserve(room); }

  Place end() const { return static_cast<Place>(numbers.size()); }
  uint32_t length(Place clause) const { return numbers[clause] >> 2; }
  Rank rank(Place clause) const { return static_cast<Rank>(numbers[clause] & 3); }
  void set_rank(Place clause, Rank rank) { numbers[clause] = (numbers[clause] & ~3u) | rank; }
  uint32_t &stored(Place clause) { return numbers[clause + 1]; }
  Literal *begin(Place clause) { return numbers.data() + clause + HEAD; }
  Literal *end(Place clause) { return begin(clause) + length(clause); }
  Place next(Place clause) const { return clause + HEAD + length(clause); }

  // without repeats
  Place add(const int32_t *from, const int32_t *to, size_t stored) {
    Place clause = end();
    numbers.insert(numbers.end(), {0, static_cast<uint32_t>(stored)});
    auto begin = [&] { return numbers.begin() + static_cast<std::ptrdiff_t>(clause + HEAD); };
    for (; from != to; from++)
      if (std::find(begin(), numbers.end(), literal_of(*from)) == numbers.end()) numbers.push_back(literal_of(*from));
    numbers[clause] = (end() - clause - HEAD) << 2 | ACTIVE;
    return clause;
  }

  static constexpr uint32_t HEAD = 2;

private:
  std::vector<uint32_t> numbers;
};

// A clause that watches a literal, and another literal of it: where that one is true, the clause need not be looked at.
struct Watch {
  uint32_t entry; // twice the clause, and one more where it has two literals: those are not looked at
  Literal other;
};

// What is assigned, and what follows from it.
class Propagation {
public:
  Propagation(uint32_t variables, size_t room, Stop &when)
      : clauses(room), left_out(variables + 1), values(2 * size_t{variables} + 2), reason(variables + 1), place(variables + 1),
        unit_needed(variables + 1), seen(variables + 1), stop(when) {
    trail.reserve(variables);
    for (Rank rank : {NEEDED, ACTIVE}) watches[rank].resize(values.size());
  }

  Clauses clauses;
  Place limit = NONE; // clauses from here on are gone; it only goes down
  // and so are those with an open literal from here on, which only goes down, or of a variable that is left out
  Literal bound = NONE;
  std::vector<bool> left_out;

  size_t length() const { return trail.size(); }
  Literal literal(size_t at) const { return trail[at]; }
  bool is_cited(size_t at) const { return unit_needed[at]; }

  void undo(size_t kept) {
    for (; trail.size() > kept; trail.pop_back()) values[trail.back()] = values[trail.back() ^ 1] = 0;
    for (size_t &turn : through) turn = std::min(turn, kept);
  }

  // A clause that was added is watched by two literals that are not false, as far as there are such. The answer is the clause where all are false.
  Place settle(Place clause) {
    Literal *begin = clauses.begin(clause), *open = begin;
    for (Literal *at = begin; at != clauses.end(clause) && open != begin + 2; at++)
      if (values[*at] >= 0) std::swap(*open++, *at);
    watch(clause);
    if (open == begin) return clause;
    if (open == begin + 1 && !values[*begin]) assign(*begin, clause);
    return NONE;
  }

  // Propagates through the clauses of the ranks before this one. The answer is a clause that became false, or none.
  Place propagate(Rank ranks = RESTING) {
    for (uint32_t rank = 0; rank < ranks;) {
      if (through[rank] == trail.size()) {
        rank++;
        continue;
      }
      if (++steps % STEPS_BETWEEN == 0 && stop.terminate()) throw Stopped();
      Place conflict = visit(trail[through[rank]++] ^ 1, static_cast<Rank>(rank));
      if (conflict != NONE) return conflict;
      rank = 0;
    }
    return NONE;
  }

  // Behind the last clause: from here on nothing is added, and what rests is watched only when it is asked for.
  void turn_back() {
    for (Rank rank : {NEEDED, ACTIVE}) watches[rank] = Lists(values.size());
    for (Place clause = 0; clause < clauses.end(); clause = clauses.next(clause))
      if (clauses.rank(clause) != RESTING) watch(clause);
    through[RESTING] = trail.size();
  }

  // the solver had not deleted it yet
  void wake(Place clause) {
    if (clause >= limit || clauses.rank(clause) != RESTING) return;
    clauses.set_rank(clause, ACTIVE);
    watch(clause);
  }

  // What a lemma follows from, by propagation from its negation, is put behind `cited`, as `explain` does; nothing where it does not follow.
  void derive(Place lemma, std::vector<Cited> &cited) {
    size_t base = trail.size(), before = cited.size();
    for (Literal *at = clauses.begin(lemma); at != clauses.end(lemma); at++) {
      uint32_t variable = *at / 2;
      if (values[*at] < 0) {
        seen[variable] = true; // it is no unit that has to be cited
      } else if (values[*at] == 0) {
        assign(*at ^ 1, NONE);
      } else {
        if (place[variable] < base) cited.push_back(cite(place[variable])); // else it has a literal and its opposite
        break;
      }
    }
    if (cited.size() == before) {
      Place conflict = propagate();
      if (conflict == NONE) {
        watch_resting();
        conflict = propagate(RANKS);
      }
      if (conflict != NONE) explain(conflict, base, cited);
    }
    for (Literal *at = clauses.begin(lemma); at != clauses.end(lemma); at++) seen[*at / 2] = false;
    undo(base);
  }

  // What led to a clause becoming false is put behind `cited`: that clause first, then backwards. All of it is needed. What was assigned before place
  // `base` is cited as units, which have reasons of their own; what has no reason is the lemma's.
  void explain(Place conflict, size_t base, std::vector<Cited> &cited) {
    units.clear();
    take(conflict, base, cited);
    for (size_t at = trail.size(); at-- > base;) {
      uint32_t variable = trail[at] / 2;
      if (!seen[variable]) continue;
      if (reason[variable] != NONE) take(reason[variable], base, cited);
      seen[variable] = false;
    }
    for (uint32_t at : units) {
      seen[trail[at] / 2] = false;
      cited.push_back(cite(at));
    }
  }

  // the same for a unit of the trail: the clause that assigned it, and the units of its other literals
  void explain_unit(size_t at, std::vector<Cited> &cited) {
    Place clause = reason[trail[at] / 2];
    need(clause);
    cited.push_back(clause);
    for (Literal *each = clauses.begin(clause); each != clauses.end(clause); each++)
      if (*each != trail[at]) cited.push_back(cite(place[*each / 2]));
  }

private:
  using Lists = std::vector<std::vector<Watch>>; // by literal
  std::array<Lists, RANKS> watches;
  std::vector<signed char> values; // by literal: 1 true, -1 false, 0 open
  std::vector<Place> reason; // by variable: the clause that assigned it, and its place in the trail
  std::vector<uint32_t> place;
  std::vector<char> unit_needed, seen; // by place in the trail; by variable
  std::vector<Literal> trail;
  std::vector<uint32_t> units; // places in the trail, of what is being explained
  std::array<size_t, RANKS> through{}; // how much of the trail is propagated
  Stop &stop;
  unsigned steps = 0;

  Cited cite(uint32_t at) {
    unit_needed[at] = true;
    return UNIT | at;
  }

  // What watched with another rank is dropped when it is met.
  void watch(Place clause) {
    uint32_t length = clauses.length(clause), entry = 2 * clause + (length == 2);
    if (length < 2) return;
    const Literal *watched = clauses.begin(clause);
    for (uint32_t at : {0, 1}) watches[clauses.rank(clause)][watched[at]].push_back({entry, watched[1 - at]});
  }

  void watch_resting() {
    if (!watches[RESTING].empty()) return;
    watches[RESTING].resize(values.size());
    for (Place clause = 0; clause < limit; clause = clauses.next(clause))
      if (clauses.rank(clause) == RESTING) watch(clause);
  }

  void need(Place clause) {
    if (clauses.rank(clause) == NEEDED) return;
    clauses.set_rank(clause, NEEDED);
    watch(clause);
  }

  void take(Place clause, size_t base, std::vector<Cited> &cited) {
    need(clause);
    cited.push_back(clause);
    for (Literal *at = clauses.begin(clause); at != clauses.end(clause); at++) {
      uint32_t variable = *at / 2;
      if (seen[variable]) continue;
      seen[variable] = true;
      if (place[variable] < base) units.push_back(place[variable]);
    }
  }

  void assign(Literal literal, Place clause) {
    values[literal] = 1;
    values[literal ^ 1] = -1;
    reason[literal / 2] = clause;
    place[literal / 2] = static_cast<uint32_t>(trail.size());
    trail.push_back(literal);
  }

  // Goes through the clauses of a rank that watch a literal which became false.
  Place visit(Literal falsified, Rank rank) {
    std::vector<Watch> &list = watches[rank][falsified];
    Watch *at = list.data(), *end = at + list.size(), *kept = at;
    Place conflict = NONE;
    while (at != end && conflict == NONE) {
      Watch met = *kept++ = *at++;
      signed char value = values[met.other];
      if (value > 0) continue;
      Place clause = met.entry / 2;
      if (clause >= limit || clauses.rank(clause) != rank) {
        kept--;
        continue;
      }
      Literal other = met.other;
      if (!(met.entry & 1)) {
        Literal *begin = clauses.begin(clause), *last = clauses.end(clause), *next = begin + 2;
        other = begin[0] ^ begin[1] ^ falsified;
        value = values[other];
        if (value <= 0)
          while (next != last && values[*next] < 0) next++;
        if (value > 0 || (next != last && values[*next] > 0)) {
          kept[-1].other = value > 0 ? other : *next;
          continue;
        }
        if (next != last) {
          begin[0] = other;
          begin[1] = *next;
          *next = falsified;
          watches[rank][begin[1]].push_back({met.entry, other});
          kept--;
          continue;
        }
      }
      if (value < 0) conflict = clause;
      else if (other < bound && !left_out[other / 2]) assign(other, clause);
      else kept--;
    }
    list.erase(list.begin() + (kept - list.data()), list.begin() + (at - list.data()));
    return conflict;
  }
};

// Clauses by a part of their keys: of several with the same, the last one.
class Keys {
public:
  explicit Keys(size_t most) {
    size_t room = 16;
    while (room < 2 * most) room *= 2;
    entries.resize(room, {0, NONE});
  }

  Place &operator[](uint64_t key) {
    uint32_t part = static_cast<uint32_t>(key >> 32);
    size_t mask = entries.size() - 1, at = key & mask;
    while (entries[at].clause != NONE && entries[at].part != part) at = (at + 1) & mask;
    entries[at].part = part;
    return entries[at].clause;
  }

private:
  struct Entry {
    uint32_t part;
    Place clause;
  };
  std::vector<Entry> entries;
};

// The way through all clauses until there is a conflict, and what is needed to go back.
struct Forward {
  struct Lemma {
    Place clause;
    uint32_t length; // of the trail before it
  };
  struct Deleted {
    Place clause;
    size_t behind; // so many lemmas
  };
  std::vector<Lemma> lemmas;
  std::vector<Deleted> deleted;
  Place conflict = NONE;

  Forward(Propagation &state, const std::vector<int32_t> &formula, const Learnt &learnt, uint32_t variables) {
    auto zeros = [](const std::vector<int32_t> &numbers) { return static_cast<size_t>(std::count(numbers.begin(), numbers.end(), 0)); };
    Keys keys(zeros(formula) + zeros(learnt.numbers));
    size_t count = 0;
    auto add = [&](const std::vector<int32_t> &numbers, size_t &begin) {
      size_t end = begin;
      for (; numbers[end] != 0; end++)
        if (numbers[end] == INT32_MIN || variable_of(numbers[end]) > variables)
          throw NoCertificate("clause " + std::to_string(count) + " has a variable above " + std::to_string(variables));
      Place clause = state.clauses.add(&numbers[begin], &numbers[end], begin);
      keys[clause_key(&numbers[begin], &numbers[end])] = clause;
      begin = end + 1;
      count++;
      return clause;
    };
    for (size_t begin = 0; begin < formula.size() && conflict == NONE;) conflict = state.settle(add(formula, begin));
    if (conflict == NONE) conflict = state.propagate();
    auto deletion = learnt.deletions.begin();
    for (size_t begin = 0; begin < learnt.numbers.size() && conflict == NONE;) {
      for (; deletion != learnt.deletions.end() && deletion->behind <= lemmas.size(); deletion++) {
        Place clause = keys[deletion->key];
        if (clause != NONE) deleted.push_back({clause, deletion->behind});
      }
      uint32_t length = static_cast<uint32_t>(state.length());
      lemmas.push_back({add(learnt.numbers, begin), length});
      conflict = state.settle(lemmas.back().clause);
      if (conflict == NONE) conflict = state.propagate();
    }
  }
};

} // namespace

uint64_t clause_key(const int32_t *begin, const int32_t *end) {
  uint64_t key = 0;
  for (; begin != end; begin++) {
    uint64_t mixed = (static_cast<uint32_t>(*begin) + uint64_t{1}) * 0x9e3779b97f4a7c15;
    key += (mixed ^ mixed >> 29) * 0xbf58476d1ce4e5b9;
  }
  return key;
}

Elaborated elaborate(const std::vector<int32_t> &formula, const Learnt &learnt, size_t wanted, uint32_t variables, Stop &stop) {
  size_t numbers = formula.size() + learnt.numbers.size();
  if (numbers > MOST_NUMBERS) throw NoCertificate("formula and refutation have " + std::to_string(numbers) + " numbers, too many to be kept");
  if (stop.terminate()) throw Stopped();
  Propagation state(variables, 2 * numbers, stop);
  Forward forward(state, formula, learnt, variables);
  if (forward.conflict != NONE) wanted = 0;
  else if (wanted == 0) throw NoCertificate("it does not lead to a conflict");

  // of each lemma what it cites, how many these are, and itself: a clause, a unit, or nothing where it is empty
  std::vector<Cited> cited;
  size_t before = 0;
  auto keep = [&](Cited self) {
    cited.insert(cited.end(), {static_cast<Cited>(cited.size() - before), self});
    before = cited.size();
    if (before > MOST_NUMBERS) throw NoCertificate("it needs more than " + std::to_string(MOST_NUMBERS) + " hints, too many to be kept");
  };
  std::vector<int32_t> fixed(state.length()); // by place in the trail
  for (size_t at = 0; at < fixed.size(); at++) fixed[at] = number_of(state.literal(at));
  auto keep_units = [&](size_t from) {
    for (size_t at = state.length(); at-- > from;)
      if (state.is_cited(at)) {
        state.explain_unit(at, cited);
        keep(UNIT | static_cast<Cited>(at));
      }
    state.undo(from);
  };
  for (const Forward::Deleted &deletion : forward.deleted) state.clauses.set_rank(deletion.clause, RESTING);
  for (size_t variable = 0; variable < std::min(learnt.left_out.size(), state.left_out.size()); variable++)
    state.left_out[variable] = learnt.left_out[variable];
  for (size_t lemma = forward.lemmas.size() - wanted; lemma < forward.lemmas.size(); lemma++)
    state.clauses.set_rank(forward.lemmas[lemma].clause, NEEDED);
  state.turn_back();
  if (wanted == 0) {
    state.explain(forward.conflict, forward.lemmas.empty() ? 0 : forward.lemmas.back().length, cited);
    keep(NONE);
  }
  auto deletion = forward.deleted.rbegin();
  auto reach = learnt.reaches.rbegin();
  for (size_t lemma = forward.lemmas.size(); lemma-- > 0;) {
    Place clause = forward.lemmas[lemma].clause;
    keep_units(forward.lemmas[lemma].length);
    state.limit = clause;
    for (; deletion != forward.deleted.rend() && deletion->behind > lemma; deletion++) state.wake(deletion->clause);
    for (; reach != learnt.reaches.rend() && reach->behind > lemma; reach++) {}
    if (reach != learnt.reaches.rend()) state.bound = 2 * reach->variable + 2;
    if (state.clauses.rank(clause) != NEEDED) continue;
    state.derive(clause, cited);
    if (cited.size() == before) throw NoCertificate("its lemma " + std::to_string(lemma) + " does not follow by unit propagation");
    keep(clause);
  }
  keep_units(0);

  Elaborated elaborated;
  Certificate &made = elaborated.certificate;
  std::vector<size_t> unit_places(fixed.size());
  while (!cited.empty()) {
    auto take = [&] {
      Cited last = cited.back();
      cited.pop_back();
      return last;
    };
    size_t here = formula.size() + made.lemmas.size();
    Cited self = take(), count = take();
    if (self == NONE) {
    } else if (is_unit(self)) {
      if (count == 1) { // it is a clause already
        unit_places[self & ~UNIT] = state.clauses.stored(take());
        continue;
      }
      unit_places[self & ~UNIT] = here;
      made.lemmas.push_back(fixed[self & ~UNIT]);
    } else {
      state.clauses.stored(self) = static_cast<uint32_t>(here);
      for (Literal *at = state.clauses.begin(self); at != state.clauses.end(self); at++) made.lemmas.push_back(number_of(*at));
    }
    made.lemmas.push_back(0);
    made.hints.push_back(count);
    for (; count > 0; count--) {
      Cited one = take();
      made.hints.push_back(static_cast<uint32_t>(is_unit(one) ? unit_places[one & ~UNIT] : state.clauses.stored(one)));
    }
  }
  for (size_t lemma = forward.lemmas.size() - wanted; lemma < forward.lemmas.size(); lemma++)
    elaborated.places.push_back(state.clauses.stored(forward.lemmas[lemma].clause));
  return elaborated;
}

Certificate elaborate(const std::vector<int32_t> &formula, const Learnt &learnt, uint32_t variables, Stop &stop) {
  return elaborate(formula, learnt, 0, variables, stop).certificate;
}
