// What was tried to prove a property for ever, and what came of it.
#pragma once

#include <cstddef>
#include <cstdint>
#include <optional>
#include <string>
#include <vector>

#include "certificate.h"

struct Attempt {
  std::string way, result;
  double seconds = 0;
};

struct Forever {
  bool certified = false;
  std::string way; // by which it was, as `abc's pdr`
  size_t clauses = 0, requests = 0, lemmas = 0, hints = 0; // of the certificate
  std::string file; // that the certificate was written to
  std::vector<Attempt> tried; // in their order
  std::vector<std::string> stated; // of each fact that was stated, what came of it
  std::optional<uint32_t> claimed; // a frame in which abc says that a run breaks it

  // that this certificate was checked, and certifies it
  void take(const ForeverCertificate &certificate, const std::string &written) {
    certified = true;
    clauses = certificate.clause_count();
    requests = certificate.requests.size() / 3;
    lemmas = certificate.refutation.lemma_count();
    hints = certificate.refutation.hints.size();
    file = written;
  }
};
