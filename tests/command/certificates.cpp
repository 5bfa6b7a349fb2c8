// Certificates that are damaged, and refutations of solvers that lie: none certifies a chip with a fault, and none is believed.
// Built with sanitizers, and linked with all of the command but its main.
// Arguments: how many are damaged, a seed, a sheet, its twin with a fault, the depth, a certificate of the first, and a file to write to.

#include <cstdio>
#include <cstdlib>
#include <functional>
#include <random>

#include "../../command/certificate.h"
#include "../../command/certify.h"
#include "../../command/elaborate.h"
#include "../../command/failure.h"
#include "../../command/files.h"
#include "../../command/sheet.h"

namespace {

unsigned passed = 0, failed = 0;

void check_that(const char *what, bool holds) {
  (holds ? passed : failed)++;
  if (!holds) std::printf("FAILED: %s\n", what);
}

std::mt19937 random_source;
size_t below(size_t bound) { return random_source() % bound; }

std::string damaged(std::string text) {
  size_t at = below(text.size());
  switch (below(6)) {
  case 0: text[below(40)] = static_cast<char>(below(256)); break; // of the first line, mostly
  case 1: text.resize(at); break;
  case 2: text.insert(at, 1, static_cast<char>(below(256))); break;
  case 3: text.erase(at, 4); break;
  case 4: text[at] = static_cast<char>(text[at] ^ (1 << below(8))); break;
  default: text[text.size() - 1 - below(std::min<size_t>(text.size(), 400))] ^= 1; // where the empty lemma's hints are
  }
  return text;
}

// whether elaborating ends with these words; empty: with a certificate
bool ends_with_words(const std::string &words, const std::vector<int32_t> &formula, const std::vector<int32_t> &lemmas, Stop &stop) {
  try {
    elaborate(formula, {lemmas, {}}, 3, stop);
    return words.empty();
  } catch (const NoCertificate &problem) {
    return words == problem.what();
  }
}

// what certifying says of a verdict that the solver gave
std::string said(const Chip &chip, const Options &options, Stop &stop, const std::function<void(Refutation &, CaDiCaL::Solver &)> &lie) {
  Refutation refutation;
  CaDiCaL::Solver solver;
  refutation.trace(solver);
  lie(refutation, solver);
  refutation.finish(solver);
  Verdict verdict;
  verdict.kind = Verdict::Kind::holds;
  verdict.safe = options.depth + 1;
  try {
    certify(chip, options, refutation, verdict, stop);
  } catch (const Failure &failure) {
    return failure.message;
  }
  return verdict.certifying ? "stopped" : "certified";
}

} // namespace

int main(int count, char **arguments) {
  if (count != 8) return 2;
  unsigned long times = std::strtoul(arguments[1], nullptr, 10);
  random_source.seed(static_cast<unsigned>(std::strtoul(arguments[2], nullptr, 10)));
  Options options;
  options.depth = static_cast<uint32_t>(std::strtoul(arguments[5], nullptr, 10));
  options.certificate_file = arguments[7];
  Chip good = chip_of_sheet(arguments[3], read_file(arguments[3]), options), faulty = chip_of_sheet(arguments[4], read_file(arguments[4]), options);
  std::string file = read_file(arguments[6]);

  Certificate whole = std::get<Certificate>(read_certificate(arguments[6]));
  check_that("the certificate certifies", check(good, good.properties[0], options.depth, whole).certified);
  write_certificate(arguments[7], whole);
  check_that("it is written as it was read", read_file(arguments[7]) == file);
  unsigned refused = 0, rejected = 0;
  for (unsigned long time = 0; time < times; time++) {
    write_file(arguments[7], damaged(file));
    try {
      Certificate read = std::get<Certificate>(read_certificate(arguments[7]));
      if (!check(good, good.properties[0], options.depth, read).certified) rejected++;
      if (check(faulty, faulty.properties[0], options.depth, read).certified) check_that("a chip with a fault is certified", false);
    } catch (const Failure &failure) {
      refused++;
      if (failure.message.empty()) check_that("a certificate is refused without a word", false);
    }
  }
  check_that("damaged certificates are refused, and others do not certify", refused > 0 && rejected > 0);

  Stop stop(0, false);
  std::vector<int32_t> formula{1, 2, 0, -1, 2, 0, 1, -2, 3, 0, -1, -2, 0}; // true by 2, not 1, and 3
  check_that("one that leads nowhere", ends_with_words("it does not lead to a conflict", formula, {2, 0}, stop));
  check_that("none", ends_with_words("it does not lead to a conflict", formula, {}, stop));
  check_that("a lemma that does not follow", ends_with_words("its lemma 1 does not follow by unit propagation", formula, {2, 0, -3, 0}, stop));
  check_that("a variable that there is not", ends_with_words("clause 4 has a variable above 3", formula, {4, 0}, stop));
  check_that("a number that is no literal", ends_with_words("clause 4 has a variable above 3", formula, {INT32_MIN, 0}, stop));
  formula.insert(formula.end(), {-3, -2, 0});
  check_that("a refutation of two lemmas", ends_with_words("", formula, {2, 0, 0}, stop));
  formula.insert(formula.end(), {-2, 0});
  check_that("a formula that needs none", ends_with_words("", formula, {}, stop));

  // a solver that lies about the chip with a fault
  std::string only = "That the property holds in the frames 0 to " + std::to_string(options.depth) +
                     " is only the solver's word: no certificate of it was written.\nThe solver's refutation: ";
  std::string fault = "\nThis is a fault of the solver or of this command, not of the chip's.";
  write_file(arguments[7], "as it was");
  auto nothing = [](Refutation &, CaDiCaL::Solver &) {};
  check_that("no refutation", said(faulty, options, stop, nothing) == only + "it does not lead to a conflict." + fault);
  auto claims = [&](Refutation &refutation, CaDiCaL::Solver &solver) {
    std::vector<int32_t> numbers = formula_of(faulty, faulty.properties[0], options.depth).numbers;
    for (size_t at = numbers.size() - 1; at > 0 && numbers[at - 1] != 0; at--) refutation.add(refutation.place(solver), {-numbers[at - 1], 0});
  };
  std::string answer = said(faulty, options, stop, claims);
  check_that("units that do not follow", answer.compare(0, only.size() + 10, only + "its lemma ") == 0);
  check_that("nothing is written then", read_file(arguments[7]) == "as it was");
  Stop due(1e-9, false);
  check_that("out of time", said(good, options, due, nothing) == "stopped");
  std::printf("%u passed, %u failed\n", passed, failed);
  return failed != 0;
}
