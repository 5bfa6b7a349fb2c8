#include "phases.h"

#include <optional>

namespace {

constexpr int DEEPEST = 4; // of the conditions under which a register keeps its value

class Phaser {
public:
  Phaser(const Aig &of, const Memory &memory) : from(of), had(memory), phases(memory.ports.size()) {}

  Phased run() {
    made.literals.assign(from.size(), FALSE);
    for (uint32_t index = 0; index < from.size(); index++) {
      if (from.node(index).kind == Aig::Kind::input) made.literals[index] = aig.add_input();
      if (from.node(index).kind == Aig::Kind::latch) made.literals[index] = aig.add_latch(from.node(index).reset);
    }
    count_phases();
    hold_inputs();
    keep_words();
    for (uint32_t index = 0; index < from.size(); index++) {
      const Aig::Node &node = from.node(index);
      if (node.kind == Aig::Kind::gate) made.literals[index] = aig.land(made.literal(node.left), made.literal(node.right));
    }
    for (uint32_t index = 0; index < from.size(); index++)
      if (from.node(index).kind == Aig::Kind::latch) hold_register(made.literals[index], made.literal(from.node(index).left));
    join_ports();
    return std::move(made);
  }

private:
  const Aig &from;
  const Memory &had;
  const size_t phases;
  Phased made;
  Aig &aig = made.aig;
  std::vector<Lit> since; // by phase: true from it on
  std::vector<Lit> word; // the one port's

  void count_phases() {
    since.push_back(TRUE);
    while (since.size() < phases) since.push_back(aig.add_latch(false));
    made.phase.assign(since.begin() + 1, since.end());
    made.last = since.back();
    for (size_t phase = 1; phase < phases; phase++) aig.set_next(since[phase], aig.land(since[phase - 1], made.last ^ 1));
  }

  // true in the phase of a port that only reads
  Lit turn(size_t port) { return aig.land(since[port - 1], since[port] ^ 1); }

  void hold_inputs() {
    std::set<uint32_t> read;
    for (size_t port = 1; port < phases; port++) {
      std::vector<Lit> roots = had.ports[port].address;
      roots.push_back(had.ports[port].re);
      for (Lit root : roots)
        for (uint32_t node : from.support(root))
          if (from.node(node).kind == Aig::Kind::input) read.insert(node);
    }
    for (uint32_t node : read) {
      Lit held = aig.add_latch(false), value = aig.mux(turn(1), made.literals[node], held);
      aig.set_next(held, value);
      made.literals[node] = value;
    }
  }

  // The memory itself holds the word that it read last. Words that were read before that are kept in registers.
  void keep_words() {
    size_t held = had.ports[0].re == FALSE ? phases - 1 : 0;
    for (size_t t = 0; t < had.write_data.size(); t++) word.push_back(aig.add_read());
    for (size_t port = 0; port < phases; port++)
      for (size_t t = 0; t < word.size(); t++) {
        Lit &read = made.literals[had.ports[port].read[t] / 2];
        read = word[t];
        if (port == held || port == 0) continue;
        read = aig.add_latch(false);
        aig.set_next(read, port + 1 == phases ? word[t] : aig.mux(turn(port), word[t], read));
      }
  }

  // What it takes is taken in the last phase alone.
  void hold_register(Lit latch, Lit next) { aig.set_next(latch, held(next, latch, DEEPEST).value_or(aig.mux(made.last, next, latch))); }

  // `next` in the last phase, and the register's value in others. This way takes fewer gates, where by an enable or a reset `next` can be that value.
  std::optional<Lit> held(Lit next, Lit latch, int depth) {
    if (next == latch) return latch;
    if (depth == 0 || aig.node(next / 2).kind != Aig::Kind::gate) return std::nullopt;
    for (const Choice &choice : choices_of(next)) {
      if (auto otherwise = held(choice.otherwise, latch, depth - 1)) return aig.mux(aig.land(choice.condition, made.last), choice.then, *otherwise);
      if (auto then = held(choice.then, latch, depth - 1)) return aig.mux(aig.lor(choice.condition, made.last ^ 1), *then, choice.otherwise);
    }
    Lit left = aig.node(next / 2).left, right = aig.node(next / 2).right, inverted = next & 1;
    for (auto [kept, other] : {std::pair(left, right), std::pair(right, left)}) { // of a conjunction, or inverted, of what is none
      auto inner = held(kept ^ inverted, latch, depth - 1);
      if (inner) return aig.land(*inner ^ inverted, aig.lor(other, made.last ^ 1)) ^ inverted;
    }
    return std::nullopt;
  }

  struct Choice {
    Lit condition, then, otherwise;
  };

  // An exclusive or is a choice by either of its operands.
  std::vector<Choice> choices_of(Lit literal) const {
    std::vector<Choice> found;
    const Aig::Node &either = aig.node(literal / 2);
    if (literal % 2 == 0 || either.left % 2 == 0 || either.right % 2 == 0) return found;
    const Aig::Node &one = aig.node(either.left / 2), &other = aig.node(either.right / 2);
    if (one.kind != Aig::Kind::gate || other.kind != Aig::Kind::gate) return found;
    for (auto [condition, then] : {std::pair(one.left, one.right), std::pair(one.right, one.left)})
      for (auto [without, otherwise] : {std::pair(other.left, other.right), std::pair(other.right, other.left)})
        if (condition == (without ^ 1)) found.push_back({condition, then, otherwise});
    return found;
  }

  void join_ports() {
    Memory &memory = made.memory;
    memory = had;
    memory.we = aig.land(made.last, made.literal(had.we));
    memory.write_data = made.literals_of(had.write_data);
    ReadPort port{made.literals_of(had.ports[0].address), word, aig.land(made.last, made.literal(had.ports[0].re))};
    for (size_t at = 1; at < phases; at++) {
      for (size_t t = 0; t < port.address.size(); t++) port.address[t] = aig.mux(turn(at), made.literal(had.ports[at].address[t]), port.address[t]);
      port.re = aig.lor(port.re, aig.land(turn(at), made.literal(had.ports[at].re)));
    }
    memory.ports = {port};
  }
};

} // namespace

Phased in_phases(const Aig &aig, const Memory &memory) { return Phaser(aig, memory).run(); }
