// One step of a chip from any state, in the clauses that the library gives for the asking (RULES H4; docs/LIBRARY.md has the requests).
#pragma once

#include <cstdint>
#include <optional>
#include <unordered_map>
#include <vector>

#include "chip.h"

// Where the bits of a state are (RULES H3), counted from 0.
struct StateBits {
  explicit StateBits(const marrubigai_netlist &net)
      : latches(net.latches), held(net.latches + (1 + net.second_port) * net.n), n(net.n), count(held + (net.n << net.m)) {}
  uint32_t latches, held, n, count; // the words held end before `held`
  uint32_t word(uint32_t address, uint32_t bit) const { return held + address * n + bit; }
};

// Literals are of variables counted from 1 without gaps. What a literal depends on is asked for with it, and nothing else.
class Transition {
public:
  // Of reads, only what says that they read this word, where one is given.
  Transition(const Chip &chip, const Property &property, std::optional<uint32_t> word_read = std::nullopt);

  int32_t now(uint32_t bit); // of the state, counted from 0
  int32_t next(uint32_t bit); // of the state behind the step
  int32_t value(marrubigai_code code); // in the frame
  int32_t property() { return value(net.p); }
  // A number of an invariant, before and behind the step.
  int32_t now_of(int32_t number) { return number > 0 ? now(bit_of(number)) : -now(bit_of(number)); }
  int32_t next_of(int32_t number) { return number > 0 ? next(bit_of(number)) : -next(bit_of(number)); }
  // both, of each number of a clause
  void ask_for(const std::vector<int32_t> &clause) {
    for (int32_t number : clause) now_of(number), next_of(number);
  }
  // whether a bit of the state before the step was asked for
  bool has(int32_t number) const { return literals.count(bit_of(number) + 1) > 0; }

  // Asks for what says that the property is false or the invariant fails behind the step. The answer is, for each clause of the invariant, the
  // literal that says that it or one behind it fails.
  std::vector<int32_t> ask_for_failure(const std::vector<int32_t> &invariant);

  const std::vector<uint32_t> &requests() const { return asked; }
  const std::vector<int32_t> &clauses() const { return written; } // five numbers for each request
  uint32_t variables() const { return static_cast<uint32_t>(originals.size()); }
  // the library's number of a literal
  int32_t original(int32_t literal) const;

private:
  enum Family { NEXT, WIRE, MATCH, NONE_FOUND, ONE_FOUND };
  const Chip &chip;
  marrubigai_netlist net;
  StateBits bits;
  std::optional<uint32_t> word_read;
  std::vector<uint32_t> asked;
  std::vector<int32_t> written;
  std::unordered_map<uint32_t, int32_t> literals; // by the library's variable
  std::vector<uint32_t> originals; // the library's variable of each
  std::vector<bool> defined; // by wire
  std::unordered_map<uint32_t, bool> matched, followed; // by match and by bit of the next state, what is asked for

  static uint32_t bit_of(int32_t number) { return static_cast<uint32_t>(number > 0 ? number : -number) - 1; }
  int32_t literal(uint32_t variable);
  int32_t literal(Family family, uint32_t index) { return literal(bits.count + 5 * index + family + 1); }
  int32_t no() { return literal(WIRE, 0); }

  void ask(uint32_t law, uint32_t i, uint32_t j, int32_t guard, int32_t second, int32_t left, int32_t right);
  void ask_both(uint32_t law, uint32_t i, uint32_t j, int32_t guard, int32_t second, int32_t left, int32_t right);
  void define(uint32_t wire);
  void define_read(uint32_t wire);
  int32_t match(uint32_t word, uint32_t port);
};
