#include "certify.h"

#include "certificate.h"
#include "elaborate.h"
#include "failure.h"
#include "report.h"

namespace {

std::string claim(const Property &property, uint32_t depth) {
  bool cover = property.kind == Property::Kind::cover;
  return subject(property) + (cover ? " is not reached" : " holds") + " in the frames 0 to " + std::to_string(depth);
}

std::string claim(const Property &property) {
  return subject(property) + (property.kind == Property::Kind::cover ? " is never reached" : " holds in every frame");
}

[[noreturn]] void fail(const Property &property, uint32_t depth, const std::string &why) {
  throw Failure("That " + claim(property, depth) + " is only the solver's word: no certificate of it was written.\nThe solver's refutation: " + why +
                ".\nThis is a fault of the solver or of this command, not of the chip's.");
}

} // namespace

void test_one_property(const std::vector<Chip> &chips, const char *option) {
  std::string names;
  size_t count = 0;
  for (const Chip &chip : chips)
    for (const Property &property : chip.properties) {
      names += std::string(count++ ? ", " : "") + (property.kind == Property::Kind::cover ? "--cover " : "--property ") + property.name;
    }
  if (count > 1) throw Failure(std::string(option) + ": a certificate is about one property; choose by " + names, USAGE);
}

void certify(const Chip &chip, const Options &options, Refutation &refutation, Verdict &verdict, Stop &stop) {
  const Property &property = chip.properties[0];
  stop.at_work("certificate");
  try {
    Formula formula = formula_of(chip, property, chip.sheet_frame(options.depth));
    Certificate made = elaborate(formula.numbers, refutation.learnt(stop), formula.variables, stop);
    Checked checked = check(chip, property, chip.sheet_frame(options.depth), made);
    if (!checked.certified)
      fail(property, options.depth, "the lemma " + std::to_string(checked.lemma) + " that was made of it does not follow by its hints");
    write_certificate(options.certificate_file, made);
    verdict.certified = Verdict::Certified{options.certificate_file, made.lemma_count(), made.hints.size()};
    verdict.seconds = stop.seconds();
  } catch (const Stopped &) {
    verdict.kind = Verdict::Kind::stopped;
    verdict.certifying = true;
  } catch (const NoCertificate &problem) {
    fail(property, options.depth, problem.what());
  }
  stop.clear_line();
}

Verdict check_certificate(const Chip &chip, const Options &options, Stop &stop) {
  const Property &property = chip.properties[0];
  stop.end_at_once(" while the certificate was checked; nothing is known of the property\n");
  auto read = read_certificate(options.check_file);
  const ForeverCertificate *forever = std::get_if<ForeverCertificate>(&read);
  const Certificate &refutation = forever ? forever->refutation : std::get<Certificate>(read);
  if (!forever) test_depth(chip, options.depth);
  Checked checked = forever ? check(chip, property, *forever) : check(chip, property, chip.sheet_frame(options.depth), refutation);
  if (!checked.certified)
    throw Failure(options.check_file + ": this does not certify that " + (forever ? claim(property) : claim(property, options.depth)) + ": of its " +
                  std::to_string(refutation.lemma_count()) + " lemmas, the one numbered " + std::to_string(checked.lemma) +
                  " from 0 is the first that does not follow" + (forever ? ", or its invariant does not hold at the start" : "") +
                  ".\nIt is another chip's, another" + (forever ? "" : " depth's or another") + " start's, or it is damaged.");
  Verdict verdict;
  verdict.kind = Verdict::Kind::holds;
  if (forever) {
    verdict.forever = Forever{};
    verdict.forever->take(*forever, options.check_file);
  } else {
    verdict.safe = options.depth + 1;
    verdict.certified = Verdict::Certified{options.check_file, refutation.lemma_count(), refutation.hints.size()};
  }
  verdict.seconds = stop.seconds();
  return verdict;
}
