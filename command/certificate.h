// Certificates that no run breaks a property, to a depth or at all (docs/LIBRARY.md): what they are made of, their files, and the proved checks.
#pragma once

#include <cstdint>
#include <string>
#include <variant>
#include <vector>

#include "chip.h"

struct Certificate {
  std::vector<int32_t> lemmas; // clauses, each ended by 0
  std::vector<uint32_t> hints;

  size_t lemma_count() const;
};

// that the property holds in every frame: an inductive invariant, and a refutation of a step that leaves it
struct ForeverCertificate {
  std::vector<int32_t> invariant; // clauses, each ended by 0
  std::vector<uint32_t> requests; // three numbers each
  Certificate refutation;

  size_t clause_count() const;
};

// numbers of a formula and of lemmas, or hints, that are taken at most: each list is 2 GiB then
constexpr size_t MOST_NUMBERS = size_t{1} << 29;

// a Failure that names the file where it has neither form
std::variant<Certificate, ForeverCertificate> read_certificate(const std::string &path);
void write_certificate(const std::string &path, const Certificate &certificate);
void write_certificate(const std::string &path, const ForeverCertificate &certificate);

// the property's formula to a depth: all groups in the order of the whole
struct Formula {
  std::vector<int32_t> numbers;
  uint32_t variables = 0;
};
Formula formula_of(const Chip &chip, const Property &property, uint32_t depth);

// what marrubigai_certify answers for the sheet of the property and a depth
struct Checked {
  bool certified = false;
  size_t lemma = 0; // the first that does not follow, where it is not
};
Checked check(const Chip &chip, const Property &property, uint32_t depth, const Certificate &certificate);
// what marrubigai_certify_forever answers for the sheet of the property
Checked check(const Chip &chip, const Property &property, const ForeverCertificate &certificate);

// the sheet of the record that has this property
std::string sheet_of(const Chip &chip, const Property &property);
