// An and-inverter graph that is built up gate by gate: constants are folded, and a gate that is there already is not made again.
#pragma once

#include <cstddef>
#include <cstdint>
#include <map>
#include <utility>
#include <vector>

// twice the node, plus 1 for the inverted node; node 0 is false
using Lit = uint32_t;
constexpr Lit FALSE = 0, TRUE = 1;

class Aig {
public:
  enum class Kind : uint8_t { constant, input, latch, read, gate };
  struct Node {
    Kind kind;
    bool reset; // of a latch
    Lit left, right; // of a gate its operands; of a latch left is what it takes at the frame's end
  };

  Aig() : nodes{{Kind::constant, false, 0, 0}} {}

  Lit add_input() { return add({Kind::input, false, 0, 0}); }
  Lit add_latch(bool reset) { return add({Kind::latch, reset, 0, 0}); }
  Lit add_read() { return add({Kind::read, false, 0, 0}); }
  void set_next(Lit latch, Lit next) { nodes[latch / 2].left = next; }

  Lit land(Lit left, Lit right);
  Lit lor(Lit left, Lit right) { return land(left ^ 1, right ^ 1) ^ 1; }
  Lit lxor(Lit left, Lit right) { return land(land(left, right) ^ 1, land(left ^ 1, right ^ 1) ^ 1); }
  Lit mux(Lit condition, Lit then, Lit otherwise);
  // a gate of its own that is what the literal is
  Lit add_copy(Lit literal) { return add({Kind::gate, false, literal, TRUE}); }

  const Node &node(uint32_t index) const { return nodes[index]; }
  size_t size() const { return nodes.size(); }

  // The literal where `given` is known to be true: what it is then, and else as it likes.
  Lit where(Lit literal, Lit given);
  // gates below the literals, each behind its operands
  std::vector<uint32_t> gates_below(const std::vector<Lit> &roots) const;
  // inputs, latches and read bits that are reached through gates
  std::vector<uint32_t> support(Lit literal) const;
  bool depends_on(Lit literal, Kind kind) const;

private:
  std::vector<Node> nodes;
  std::map<std::pair<Lit, Lit>, Lit> gates;

  Lit add(Node node) {
    nodes.push_back(node);
    return static_cast<Lit>(2 * (nodes.size() - 1));
  }
};

// Whether in some frame, whatever inputs, registers and read bits are, both are active and their words differ: by a SAT solver.
bool can_differ(const Aig &aig, Lit active, const std::vector<Lit> &word, Lit other_active, const std::vector<Lit> &other_word);
