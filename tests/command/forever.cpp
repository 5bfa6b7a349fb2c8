// Certificates for ever that are damaged: none certifies a chip with a fault, and none that is cut short is taken.
// Built with sanitizers, and linked with all of the command but its main.
// Arguments: a step, a sheet, its twin with a fault, a certificate of the first, and a file to write to. Every byte that the step meets is changed.

#include <cstdio>
#include <cstdlib>
#include <functional>

#include "../../command/certificate.h"
#include "../../command/failure.h"
#include "../../command/files.h"
#include "../../command/sheet.h"

namespace {

unsigned passed = 0, failed = 0;

void check_that(const char *what, bool holds) {
  (holds ? passed : failed)++;
  if (!holds) std::printf("FAILED: %s\n", what);
}

enum class Outcome { refused, rejected, certified };

Outcome outcome(const std::string &path, const Chip &chip) {
  try {
    auto read = read_certificate(path);
    const ForeverCertificate *forever = std::get_if<ForeverCertificate>(&read);
    return forever && check(chip, chip.properties[0], *forever).certified ? Outcome::certified : Outcome::rejected;
  } catch (const Failure &failure) {
    if (failure.message.empty()) check_that("a certificate is refused without a word", false);
    return Outcome::refused;
  }
}

} // namespace

int main(int count, char **arguments) {
  if (count != 6) return 2;
  size_t step = std::strtoul(arguments[1], nullptr, 10);
  Options options;
  Chip good = chip_of_sheet(arguments[2], read_file(arguments[2]), options), faulty = chip_of_sheet(arguments[3], read_file(arguments[3]), options);
  std::string file = read_file(arguments[4]), scratch = arguments[5];

  auto whole = std::get<ForeverCertificate>(read_certificate(arguments[4]));
  write_certificate(scratch, whole);
  check_that("it is written as it was read", read_file(scratch) == file);
  check_that("it certifies", outcome(scratch, good) == Outcome::certified);
  check_that("it does not certify the chip with a fault", outcome(scratch, faulty) == Outcome::rejected);
  unsigned outcomes[3] = {};
  for (size_t at = 0; at < file.size(); at += step) {
    std::string damaged = file;
    damaged[at] = static_cast<char>(damaged[at] ^ (1 << at % 8));
    write_file(scratch, damaged);
    outcomes[static_cast<int>(outcome(scratch, good))]++;
    if (outcome(scratch, faulty) == Outcome::certified) check_that("a chip with a fault is certified", false);
    write_file(scratch, file.substr(0, at));
    if (outcome(scratch, good) != Outcome::refused) check_that("a certificate that is cut short is taken", false);
  }
  check_that("some are refused, and most do not certify", outcomes[0] > 0 && outcomes[1] > outcomes[2]);
  write_file(scratch, file + "x");
  check_that("one that is longer is refused", outcome(scratch, good) == Outcome::refused);

  // what is not certified although it is well-formed
  auto rejected = [&](const char *what, const std::function<void(ForeverCertificate &)> &change) {
    ForeverCertificate changed = whole;
    change(changed);
    check_that(what, !check(good, good.properties[0], changed).certified);
  };
  rejected("an empty invariant", [](ForeverCertificate &one) { one.invariant.clear(); });
  rejected("one that is false at the start", [](ForeverCertificate &one) { one.invariant.insert(one.invariant.begin(), 0); });
  rejected("one that speaks of a word past the memory", [](ForeverCertificate &one) { one.invariant[0] = 200000; });
  rejected("no requests", [](ForeverCertificate &one) { one.requests.clear(); });
  rejected("no lemmas", [](ForeverCertificate &one) { one.refutation.lemmas.clear(); });
  rejected("no hints", [](ForeverCertificate &one) { one.refutation.hints.clear(); });
  rejected("lemmas without a reason", [](ForeverCertificate &one) { one.refutation.lemmas = {0}, one.refutation.hints = {0}; });
  check_that("nothing at all", !check(good, good.properties[0], ForeverCertificate{}).certified);
  std::printf("%u passed, %u failed\n", passed, failed);
  return failed != 0;
}
