#include "transition.h"

namespace {

// a law, 8 times its family and twice its number in it; where a direction says nothing it is not asked for
enum Law : uint32_t {
  CONSTANT = 0, LATCH = 2, NEXT_LATCH = 4, FAILURE = 6,
  GATE_BY_RIGHT = 8, GATE_RIGHT_FALSE = 10, GATE_LEFT_FALSE = 14,
  READ_HELD = 16, READ_WORD = 18, NEXT_HELD = 20,
  WORD_WRITTEN = 24, WORD_IDLE = 26, WORD_ELSEWHERE = 28,
  MATCH_NONE = 32, MATCH_AGREES = 34, MATCH_DIFFERS = 36,
  PLACE_TRUE = 40, PLACE_FALSE = 42, PLACE_FOUND = 44, PLACE_END_FOUND = 42, PLACE_LAST = 40
};
constexpr uint32_t BACKWARD = 1;

} // namespace

Transition::Transition(const Chip &stepped, const Property &property, std::optional<uint32_t> only)
    : chip(stepped), net(stepped.of(property)), bits(net), word_read(only), defined(stepped.wires() + 1) {}

int32_t Transition::literal(uint32_t variable) {
  auto [found, is_new] = literals.emplace(variable, static_cast<int32_t>(originals.size()) + 1);
  if (is_new) originals.push_back(variable);
  return found->second;
}

int32_t Transition::original(int32_t literal) const {
  int32_t variable = static_cast<int32_t>(originals[bit_of(literal)]);
  return literal > 0 ? variable : -variable;
}

int32_t Transition::now(uint32_t bit) { return literal(bit + 1); }

void Transition::ask(uint32_t law, uint32_t i, uint32_t j, int32_t guard, int32_t second, int32_t left, int32_t right) {
  bool backward = law & BACKWARD;
  asked.insert(asked.end(), {law, i, j});
  written.insert(written.end(), {guard, second, backward ? left : -left, backward ? -right : right, 0});
}

void Transition::ask_both(uint32_t law, uint32_t i, uint32_t j, int32_t guard, int32_t second, int32_t left, int32_t right) {
  ask(law, i, j, guard, second, left, right);
  ask(law | BACKWARD, i, j, guard, second, left, right);
}

int32_t Transition::value(marrubigai_code code) {
  define(code / 2);
  int32_t wire = literal(WIRE, code / 2);
  return code % 2 ? -wire : wire;
}

void Transition::define(uint32_t wire) {
  if (defined[wire]) return;
  defined[wire] = true;
  if (!defined[0]) define(0); // the laws name it as the constant
  int32_t own = literal(WIRE, wire);
  if (wire == 0) return ask(CONSTANT, 0, 0, -own, -own, own, -own);
  if (wire <= net.inputs) return;
  uint32_t latch = wire - net.inputs - 1;
  if (latch < net.latches) return ask_both(LATCH, latch, 0, no(), no(), own, now(latch));
  if (wire < chip.first_read() + chip.read_bits()) return define_read(wire);
  uint32_t gate = wire - chip.first_read() - chip.read_bits();
  int32_t left = value(chip.gates[gate].left), right = value(chip.gates[gate].right);
  ask(GATE_RIGHT_FALSE, gate, 0, right, right, own, no());
  ask(GATE_LEFT_FALSE, gate, 0, left, left, own, no());
  ask(GATE_BY_RIGHT | BACKWARD, gate, 0, -right, -right, own, left);
}

void Transition::define_read(uint32_t wire) {
  uint32_t read = wire - chip.first_read(), port = read / net.n, bit = read % net.n, i = 2 * bit + port;
  int32_t own = literal(WIRE, wire);
  marrubigai_code enable = port ? net.re2 : net.re;
  int32_t re = value(enable);
  if (enable != 1) ask_both(READ_HELD, i, 0, re, re, own, now(net.latches + read));
  uint32_t first = word_read.value_or(0), behind = word_read ? first + 1 : uint32_t{1} << net.m;
  for (uint32_t word = first; enable != 0 && word < behind; word++)
    ask_both(READ_WORD, i, word, -re, -match(word, port), own, now(bits.word(word, bit)));
}

int32_t Transition::match(uint32_t word, uint32_t port) {
  uint32_t first = 32 * word + port;
  int32_t whole = literal(MATCH, first + 2 * net.m);
  if (!matched.emplace(first, true).second) return whole;
  const marrubigai_code *address = port ? net.address2 : net.address;
  int32_t before = literal(MATCH, first);
  ask(MATCH_NONE | BACKWARD, port, word, no(), no(), before, -no());
  for (uint32_t t = 0; t < net.m; t++) {
    int32_t own = value(address[t]), agrees = word >> t & 1 ? own : -own, with = literal(MATCH, first + 2 * t + 2);
    ask_both(MATCH_AGREES, 2 * t + port, word, -agrees, -agrees, with, before);
    ask(MATCH_DIFFERS, 2 * t + port, word, agrees, agrees, with, no());
    before = with;
  }
  return whole;
}

int32_t Transition::next(uint32_t bit) {
  int32_t after = literal(NEXT, bit);
  if (!followed.emplace(bit, true).second) return after;
  define(0);
  if (bit < net.latches) {
    ask_both(NEXT_LATCH, bit, 0, no(), no(), after, value(chip.latches[bit].next));
  } else if (bit < bits.held) {
    uint32_t read = bit - net.latches;
    ask_both(NEXT_HELD, 2 * (read % net.n) + read / net.n, 0, no(), no(), after, value(2 * (chip.first_read() + read)));
  } else {
    uint32_t word = (bit - bits.held) / net.n, t = (bit - bits.held) % net.n;
    int32_t we = value(net.we), before = now(bit);
    if (net.we != 1) ask_both(WORD_IDLE, t, word, we, we, after, before);
    if (net.we == 0) return after;
    int32_t here = match(word, 0);
    ask_both(WORD_WRITTEN, t, word, -we, -here, after, value(net.write_data[t]));
    ask_both(WORD_ELSEWHERE, t, word, here, here, after, before);
  }
  return after;
}

std::vector<int32_t> Transition::ask_for_failure(const std::vector<int32_t> &invariant) {
  std::vector<int32_t> clauses;
  bool first = true; // of its clause
  int32_t p = property();
  ask(FAILURE | BACKWARD, 0, 0, -p, -p, literal(NONE_FOUND, 0), -no());
  for (uint32_t place = 0; place < invariant.size(); place++) {
    int32_t none = literal(NONE_FOUND, place), one = literal(ONE_FOUND, place);
    if (first) clauses.push_back(none);
    if (invariant[place] == 0) {
      ask(PLACE_END_FOUND, place, 0, no(), no(), one, literal(NONE_FOUND, place + 1));
    } else {
      int32_t after = next_of(invariant[place]);
      ask(PLACE_TRUE, place, 0, -after, -after, none, literal(ONE_FOUND, place + 1));
      ask(PLACE_FALSE, place, 0, after, after, none, literal(NONE_FOUND, place + 1));
      if (!first) ask(PLACE_FOUND, place, 0, no(), no(), one, literal(ONE_FOUND, place + 1));
    }
    first = invariant[place] == 0;
  }
  ask(PLACE_LAST, static_cast<uint32_t>(invariant.size()), 0, no(), no(), literal(NONE_FOUND, static_cast<uint32_t>(invariant.size())), no());
  return clauses;
}
