// From a solver's refutation to lemmas and hints (RULES U3). Nobody believes it: what it makes is checked by the library.
#pragma once

#include <cstdint>
#include <stdexcept>
#include <string>
#include <vector>

#include "certificate.h"
#include "stop.h"

// why there is no certificate: the refutation does not lead to a conflict, or is too large
struct NoCertificate : std::runtime_error {
  using std::runtime_error::runtime_error;
};

// it was time to stop
struct Stopped {};

// What a solver wrote: the clauses that it added, each ended by 0, and those that it deleted, by their keys. A deletion only says that a clause is
// probably of no use from then on. Where a solver was given the formula piece by piece, the reaches say how far it was: for the clauses behind so many
// of those that were added, it had no variable above this one.
struct Learnt {
  struct Deletion {
    uint64_t key;
    size_t behind; // so many of the clauses that were added
  };
  struct Reach {
    uint32_t variable;
    size_t behind;
  };
  std::vector<int32_t> numbers;
  std::vector<Deletion> deletions{};
  std::vector<Reach> reaches{};
  std::vector<bool> left_out{}; // by variable: it was never given; where this is empty, all were
};

// the same for the same literals in any order
uint64_t clause_key(const int32_t *begin, const int32_t *end);

// Lemmas and hints from a formula's numbers, clauses ended by 0 each, and what a solver learnt of it: down to the empty lemma.
Certificate elaborate(const std::vector<int32_t> &formula, const Learnt &learnt, uint32_t variables, Stop &stop);

// The same down to the last clauses that were learnt, so many (one or more), with the place in the store of each; or down to the empty lemma, without
// places, where there is a conflict.
struct Elaborated {
  Certificate certificate;
  std::vector<size_t> places{};
};
Elaborated elaborate(const std::vector<int32_t> &formula, const Learnt &learnt, size_t wanted, uint32_t variables, Stop &stop);
