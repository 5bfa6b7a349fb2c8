#include "unrolling.h"

#include <algorithm>
#include <cstdlib>

#include "failure.h"
#include "refusals.h"

namespace {

constexpr int32_t NOTED = INT32_MIN; // of a variable that the solver gets next
constexpr int32_t TRUE = 1; // the formula's own (RULES V7)

void test(uint32_t number, uint32_t place) {
  if (number == MARRUBIGAI_PASSED) return;
  std::string at = place ? " at line " + std::to_string(place) + " of its sheet" : "";
  throw Failure("the chip is " + refusal_word(number) + at + "\n" + refusal_hint(number));
}

uint32_t variable_of(int32_t literal) { return static_cast<uint32_t>(std::abs(literal)); }

const int32_t *end_of(const int32_t *clause) {
  while (*clause != 0) clause++;
  return clause;
}

} // namespace

Unrolling::Unrolling(const Chip &unrolled, uint32_t last, CaDiCaL::Solver &used_solver, Refutation *told)
    : chip(unrolled), depth(last), ports(1 + unrolled.net.second_port), solver(used_solver), refutation(told), same{0, TRUE}, given(2),
      room(MARRUBIGAI_GROUP_ROOM) {}

void Unrolling::add_frame() {
  marrubigai_position position{};
  position.depth = depth;
  if (!records.empty()) position = records.back();
  auto reply = marrubigai_move(chip.net, chip.latch_list(), chip.net.latches, chip.gate_list(), chip.net.gates, position,
                               records.empty() ? MARRUBIGAI_START : MARRUBIGAI_ON);
  test(reply.number, reply.place);
  records.push_back(reply.position);
  // the last variable of the frame and its pairs (RULES V2, V8)
  uint32_t last = reply.position.base + chip.wires() + ports * (chip.net.m + 4) * reply.position.frame;
  if (refutation) refutation->reach(refutation->place(solver), last);
  same.resize(last + 1);
  given.resize(last + 1);
  frames.emplace_back();
  if (frames.size() == 1) {
    note(TRUE);
    held = {TRUE, 0};
  }
  write_wires(reply.position.frame);
}

int32_t Unrolling::literal(marrubigai_code code, const marrubigai_position &position) const {
  auto reply = marrubigai_literal_at(chip.net, position, code);
  test(reply.number, reply.place);
  return reply.literal;
}

void Unrolling::append_group(std::vector<int32_t> &numbers, uint32_t frame, uint32_t kind, uint32_t j, uint32_t port) {
  auto reply = marrubigai_write_group_at(chip.net, chip.latch_list(), chip.net.latches, chip.gate_list(), chip.net.gates, records[frame], kind, j,
                                         port, room.data(), room.size());
  test(reply.number, reply.place);
  numbers.insert(numbers.end(), room.begin(), room.begin() + static_cast<std::ptrdiff_t>(reply.count));
}

// A clause of a frame's wires defines the last wire in it: operands stand before their gate, and what a latch takes is of the frame before.
void Unrolling::write_wires(uint32_t frame) {
  Frame &made = frames[frame];
  append_group(made.wires, frame, MARRUBIGAI_WIRES, 0, 0);
  made.ranges.resize(chip.wires() + 1);
  for (uint32_t begin = 0, end; begin < made.wires.size(); begin = end + 1) {
    uint32_t last = 0;
    for (end = begin; made.wires[end] != 0; end++) last = std::max(last, variable_of(made.wires[end]));
    if (last <= records[frame].base) continue; // the clause of TRUE
    Range &range = made.ranges[last - records[frame].base];
    if (range.end == 0) range.begin = begin;
    range.end = end + 1;
  }
}

Unrolling::Origin Unrolling::origin(uint32_t variable) const {
  auto behind = std::upper_bound(records.begin(), records.end(), variable,
                                 [](uint32_t sought, const marrubigai_position &position) { return sought <= position.base; });
  uint32_t frame = static_cast<uint32_t>(behind - records.begin()) - 1, wire = variable - records[frame].base;
  if (wire > chip.wires()) return {frame, 0, static_cast<int>((wire - chip.wires() - 1) / (chip.net.m + 4) % ports)};
  if (wire < chip.first_read() || wire >= chip.first_read() + chip.read_bits()) return {frame, wire, -1};
  return {frame, wire, static_cast<int>((wire - chip.first_read()) / chip.net.n)};
}

// 0 where it is of no pair
uint32_t Unrolling::part_of_pair(uint32_t variable) const {
  if (variable == TRUE) return 0;
  Origin of = origin(variable);
  return of.wire ? 0 : (variable - records[of.frame].base - chip.wires() - 1) % (chip.net.m + 4) + 1;
}

const std::vector<int32_t> &Unrolling::reads(uint32_t frame, int port) {
  std::vector<int32_t> &numbers = frames[frame].reads[port];
  if (!numbers.empty()) return numbers;
  uint32_t number = static_cast<uint32_t>(port) + 1;
  for (uint32_t j = frame; j > 0; j--) append_group(numbers, frame, MARRUBIGAI_PAIR, j - 1, number);
  append_group(numbers, frame, MARRUBIGAI_CLOSING, 0, number);
  return numbers;
}

bool Unrolling::is_own(uint32_t variable, uint32_t frame, int port) const {
  if (variable <= records[frame].base) return false;
  Origin of = origin(variable);
  return of.frame == frame && of.port == port;
}

// Whatever the clauses of a variable speak of is given before them.
void Unrolling::demand(uint32_t variable) {
  std::vector<uint32_t> open{variable};
  while (!open.empty()) {
    uint32_t top = open.back();
    if (same[top]) {
      open.pop_back();
      continue;
    }
    size_t before = open.size();
    Origin of = origin(top);
    if (of.port < 0) {
      const Frame &frame = frames[of.frame];
      const int32_t *begin = frame.wires.data() + frame.ranges[of.wire].begin, *end = frame.wires.data() + frame.ranges[of.wire].end;
      for (const int32_t *at = begin; at != end; at++)
        if (*at != 0 && variable_of(*at) != top && !same[variable_of(*at)]) open.push_back(variable_of(*at));
      if (open.size() > before) continue;
      same[top] = static_cast<int32_t>(top);
      give(begin, end);
    } else {
      const std::vector<int32_t> &numbers = reads(of.frame, of.port);
      for (int32_t number : numbers)
        if (number != 0 && !same[variable_of(number)] && !is_own(variable_of(number), of.frame, of.port)) open.push_back(variable_of(number));
      if (open.size() > before) continue;
      for (int32_t number : numbers)
        if (number != 0 && !same[variable_of(number)]) same[variable_of(number)] = std::abs(number);
      for (uint32_t t = 0; t < chip.net.n; t++) { // also where no clause has it
        uint32_t bit = records[of.frame].base + chip.first_read(static_cast<size_t>(of.port)) + t;
        if (!same[bit]) same[bit] = static_cast<int32_t>(bit);
      }
      give(numbers.data(), numbers.data() + numbers.size());
      frames[of.frame].reads[of.port] = {};
    }
  }
}

int32_t Unrolling::find(int32_t literal) const {
  for (;;) {
    int32_t next = same[variable_of(literal)];
    if (literal < 0) next = -next;
    if (next == literal) break;
    literal = next;
  }
  int32_t known = given[variable_of(literal)];
  int fixed = known && known != NOTED && variable_of(literal) != TRUE ? solver.fixed(literal < 0 ? -known : known) : 0;
  return fixed ? fixed > 0 ? TRUE : -TRUE : literal;
}

int32_t Unrolling::new_variable() {
  if (refutation) refutation->name(0);
  return ++last_given;
}

int32_t Unrolling::solvers(int32_t literal) const {
  int32_t known = given[variable_of(literal)];
  return literal < 0 ? -known : known;
}

bool Unrolling::is_fresh(int32_t variable) const {
  return variable > 0 && same[static_cast<size_t>(variable)] == variable && !given[static_cast<size_t>(variable)];
}

void Unrolling::add_lemma(std::initializer_list<int32_t> literals) {
  lemmas.insert(lemmas.end(), literals);
  lemmas.push_back(0);
}

// What is left of a clause: the literals that its own are the same as. Whether it is not true anyway.
bool Unrolling::map(const int32_t *begin, const int32_t *end) {
  clause.clear();
  merged = false;
  for (; begin != end; begin++) {
    int32_t literal = find(*begin);
    if (literal == TRUE || std::find(clause.begin(), clause.end(), -literal) != clause.end()) return false;
    if (literal == -TRUE) continue;
    if (std::find(clause.begin(), clause.end(), literal) == clause.end()) clause.push_back(literal);
    else merged = true;
  }
  return true;
}

void Unrolling::give_mapped() {
  if (merged) { // by the clause as it was, nothing propagates while two literals are open
    lemmas.insert(lemmas.end(), clause.begin(), clause.end());
    lemmas.push_back(0);
  }
  if (clause.size() == 1) same[variable_of(clause[0])] = clause[0] > 0 ? TRUE : -TRUE;
  for (int32_t literal : clause) note(literal);
  held.insert(held.end(), clause.begin(), clause.end());
  held.push_back(0);
}

void Unrolling::note(int32_t literal) {
  int32_t &known = given[variable_of(literal)];
  if (known) return;
  known = NOTED;
  noted.push_back(variable_of(literal));
}

// The solver decides about its last variables first, and that they are true: so they are in the formula's order, with the variables of pairs behind
// those of their frame, and s and S, which say that a frame wrote the word that is read, are negated. docs/COMMAND.md has what that gives.
void Unrolling::flush() {
  std::sort(noted.begin(), noted.end());
  for (uint32_t variable : noted) {
    uint32_t part = part_of_pair(variable);
    bool negated = part == chip.net.m + 2 || part == chip.net.m + 4;
    last_given++;
    given[variable] = negated ? -last_given : last_given;
    if (refutation) refutation->name(negated ? -static_cast<int32_t>(variable) : static_cast<int32_t>(variable));
  }
  noted.clear();
  for (int32_t literal : held) solver.add(literal ? solvers(literal) : 0);
  held.clear();
}

void Unrolling::give_clause(std::initializer_list<int32_t> literals) {
  if (map(literals.begin(), literals.end())) give_mapped();
}

// It is the same as this literal, which is the same as no other. The lemmas say so where propagation alone does not, and spare a refutation the way
// from one to the other through all frames between.
void Unrolling::make_same(int32_t variable, int32_t literal) {
  same[static_cast<size_t>(variable)] = literal;
  if (variable_of(literal) == TRUE) return add_lemma({literal < 0 ? -variable : variable});
  add_lemma({-variable, literal});
  add_lemma({variable, -literal});
}

// gate = a and b
void Unrolling::give_gate(int32_t gate, int32_t a, int32_t b) {
  int32_t x = find(a), y = find(b);
  if (x > y) std::swap(x, y);
  if (x == -TRUE || y == -TRUE || x == -y) {
    make_same(gate, -TRUE);
  } else if (x == TRUE || x == y) {
    make_same(gate, y);
  } else if (y == TRUE) {
    make_same(gate, x);
  } else {
    int32_t &known = gates[static_cast<uint64_t>(static_cast<uint32_t>(x)) << 32 | static_cast<uint32_t>(y)];
    if (known) {
      make_same(gate, find(known));
    } else {
      known = gate;
      give_clause({-gate, x});
      give_clause({-gate, y});
      give_clause({gate, -x, -y});
    }
  }
}

// The clauses of e of an address bit, which nothing but E's clause has: it is true where the bits are equal, and may be where they are not. The
// answer is what is behind them.
const int32_t *Unrolling::give_bit(const int32_t *at, const int32_t *end) {
  int32_t e = *at;
  std::vector<std::vector<int32_t>> left;
  for (; at != end && *at == e; at = end_of(at) + 1)
    if (map(at, end_of(at))) left.push_back(clause);
  merged = false;
  if (left.empty()) {
    same[e] = -TRUE; // E's clause says nothing
  } else if (left.size() == 1 && left[0].size() == 2) {
    same[e] = -left[0][1];
  } else if (left.size() == 2 && left[0].size() == 2 && left[1].size() == 2 && left[0][1] == -left[1][1]) {
    add_lemma({e});
    same[e] = TRUE;
  } else {
    for (std::vector<int32_t> &each : left) {
      clause = each;
      give_mapped();
    }
  }
  return at;
}

void Unrolling::give(const int32_t *at, const int32_t *end) {
  while (at != end) {
    const int32_t *first = end_of(at), *second = first + 1 == end ? end : end_of(first + 1);
    auto starts_pair = [&] { return second != end && first - at == 2 && second - first == 3; };
    // a gate: (-g a) (-g b) (g -a -b)
    if (starts_pair() && end - second > 4 && at[3] == at[0] && second[1] == -at[0] && second[2] == -at[1] && second[3] == -at[4] && second[4] == 0 &&
        is_fresh(-at[0])) {
      give_gate(-at[0], at[1], at[4]);
      at += 10;
      continue;
    }
    // an equality: (-q d) (q -d)
    if (starts_pair() && at[3] == -at[0] && at[4] == -at[1] && is_fresh(-at[0]) && variable_of(at[1]) != variable_of(at[0])) {
      make_same(-at[0], find(at[1]));
      at += 6;
      continue;
    }
    if (is_fresh(*at)) {
      uint32_t part = part_of_pair(variable_of(*at));
      if (part > 1 && part < chip.net.m + 2) {
        at = give_bit(at, end);
        continue;
      }
    }
    if (map(at, first)) {
      std::vector<int32_t> former = clause;
      bool former_merged = merged;
      // (x y) (x -y): x
      if (former.size() == 2 && second != end && map(first + 1, second) && clause.size() == 2 && clause[0] == former[0] && clause[1] == -former[1]) {
        add_lemma({former[0]});
        clause = {former[0]};
        merged = false;
        give_mapped();
        at = second + 1;
        continue;
      }
      clause = former;
      merged = former_merged;
      give_mapped();
    }
    at = first + 1;
  }
}

int32_t Unrolling::ask(int32_t literal) {
  uint64_t place = refutation ? refutation->place(solver) : 0; // the lemmas stand before what the solver makes of the clauses that it is given
  if (!same[variable_of(literal)]) demand(variable_of(literal));
  if (refutation && !lemmas.empty()) refutation->add(place, lemmas);
  lemmas.clear();
  literal = find(literal);
  note(literal);
  flush();
  return solvers(literal);
}

std::vector<bool> Unrolling::left_out() const {
  std::vector<bool> made(same.size());
  for (size_t variable = 0; variable < made.size(); variable++) made[variable] = !same[variable];
  return made;
}

bool Unrolling::value(int32_t literal) const {
  if (!same[variable_of(literal)]) return false;
  literal = find(literal);
  int32_t known = given[variable_of(literal)];
  return known && solver.val(literal < 0 ? -known : known) > 0;
}
