#include "prove.h"

#include <algorithm>
#include <cstdio>

#include "elaborate.h"
#include "facts.h"
#include "failure.h"
#include "obligations.h"
#include "pdr.h"

namespace {

constexpr double SECONDS = 60; // for each way, where no time is given
// at most, for two ways in turn: each is quick for some chips, and of no use for others
constexpr double LONG = 1e6;
constexpr struct Turn {
  double pdr, likely;
} TURNS[] = {{0.3, 2}, {2, LONG}, {LONG, 0}};

class Prover {
public:
  Prover(const Chip &proved, const Property &which, const Options &wanted, Known &had, Stop &when)
      : chip(proved), property(which), options(wanted), known(had), stop(when) {}

  Forever run() {
    stop.at_work("proof");
    if (!known.stated.empty()) try_stated();
    if (!is_over()) try_facts("no invariant", {});
    if (!is_over() && !known.proved.empty()) try_facts("what proved the properties before", known.proved);
    for (const Turn &turn : TURNS) {
      if (!is_over() && pdr_is_open) try_pdr(std::min(turn.pdr, seconds()));
      if (!is_over() && likely_is_open && turn.likely > 0) try_likely(std::min(turn.likely, seconds()));
    }
    stop.clear_line();
    return std::move(made);
  }

private:
  const Chip &chip;
  const Property &property;
  const Options &options;
  Known &known;
  Stop &stop;
  Forever made;
  bool pdr_is_open = true, likely_is_open = true; // their time was out, if they had a turn

  // where abc says that a run breaks it, the search is what shows that
  bool is_over() const { return made.certified || made.claimed || stop.is_due(); }

  // for a way: half of the time that is left, where one is given
  double seconds() const {
    int left = stop.milliseconds_left();
    return left < 0 ? SECONDS : left / 2000.0;
  }

  void tell(const std::string &way, const std::string &result, double began) { made.tried.push_back({way, result, stop.seconds() - began}); }

  // A certificate of the facts; what comes of it otherwise is told.
  void certify(const std::string &way, const std::vector<Fact> &facts, const std::vector<bool> &needed, double began) {
    std::vector<Clause> invariant;
    for (size_t f = 0; f < facts.size(); f++)
      if (needed[f]) invariant.insert(invariant.end(), facts[f].clauses.begin(), facts[f].clauses.end());
    try {
      auto certificate = certificate_of(chip, property, invariant, stop);
      std::string its = "its invariant of " + counted(invariant.size(), "clause");
      if (!certificate) return tell(way, its + " is left by a step, or does not keep the property from breaking", began);
      Checked checked = check(chip, property, *certificate);
      if (!checked.certified) return tell(way, its + " is not certified: " + why(facts, needed, checked), began);
      if (!options.certificate_file.empty()) write_certificate(options.certificate_file, *certificate);
      made.take(*certificate, options.certificate_file);
      made.way = way;
      for (size_t f = 0; f < facts.size(); f++)
        if (needed[f]) known.proved.push_back(facts[f]);
      tell(way, "certified", began);
    } catch (const Stopped &) {
      tell(way, "stopped while its certificate was made", began);
    } catch (const NoCertificate &problem) {
      tell(way, std::string("no certificate: ") + problem.what(), began);
    }
  }

  std::string why(const std::vector<Fact> &facts, const std::vector<bool> &needed, const Checked &checked) const {
    for (size_t f = 0; f < facts.size(); f++)
      if (needed[f] && !holds_at_start(chip, facts[f])) return "it does not hold at the start of every run";
    return "lemma " + std::to_string(checked.lemma) + " does not follow";
  }

  static std::string counted(size_t count, const std::string &what) { return std::to_string(count) + " " + what + (count == 1 ? "" : "s"); }

  // Facts that all hold at the start. The answer is what the induction found.
  Induction try_facts(const std::string &way, const std::vector<Fact> &facts) {
    Limit limit(stop, seconds());
    return try_facts(way, facts, true, stop.seconds(), limit);
  }

  Induction try_facts(const std::string &way, const std::vector<Fact> &facts, bool all, double began, Limit &limit) {
    Induction found = induct(chip, property, facts, all, limit);
    if (found.answer == Induction::Answer::proved) {
      certify(way, facts, found.needed, began);
    } else if (found.answer == Induction::Answer::stopped) {
      tell(way, "no answer", began);
    } else {
      std::string state = facts.empty() ? "some state" : "a state in which all hold that every step keeps, of " + counted(facts.size(), "fact") + ",";
      tell(way, state + " breaks the property", began);
    }
    return found;
  }

  void try_stated() {
    std::vector<Fact> facts;
    std::vector<size_t> places;
    for (size_t f = 0; f < known.stated.size(); f++)
      if (holds_at_start(chip, known.stated[f])) facts.push_back(known.stated[f]), places.push_back(f);
    Induction found = try_facts("the facts of " + options.invariant_file, facts);
    std::vector<std::string> told(known.stated.size(), "does not hold at the start of every run");
    for (size_t f = 0; f < facts.size(); f++) {
      std::string &words = told[places[f]];
      words = "holds at the start";
      if (found.answer == Induction::Answer::stopped) continue;
      words += found.kept[f] ? ", kept by every step" : ", not kept: a step from a state in which the others and it hold breaks it";
      if (found.kept[f] && found.answer == Induction::Answer::proved) words += found.needed[f] ? ", needed" : ", not needed";
    }
    for (size_t f = 0; f < told.size(); f++) made.stated.push_back(known.stated[f].words + ": " + told[f]);
  }

  void try_likely(double most) {
    double began = stop.seconds();
    Limit limit(stop, most);
    std::vector<Fact> facts = likely_facts(chip, property, limit);
    for (const auto *others : {&known.stated, &known.proved})
      for (const Fact &fact : *others)
        if (holds_at_start(chip, fact)) facts.push_back(fact);
    Induction found = try_facts("facts of registers and words that random runs suggest", facts, false, began, limit);
    likely_is_open = found.answer == Induction::Answer::stopped;
  }

  void try_pdr(double most) {
    const std::string way = "abc's pdr";
    double began = stop.seconds();
    Limit limit(stop, most);
    PdrAnswer answer = ask_pdr(chip, property, limit, stop);
    switch (answer.kind) {
    case PdrAnswer::Kind::none: tell(way, answer.why, began); break;
    case PdrAnswer::Kind::broken:
      made.claimed = chip.design_frame(answer.frame);
      tell(way, "it says that a run breaks it in frame " + std::to_string(*made.claimed), began);
      break;
    case PdrAnswer::Kind::invariant: certify(way, {{"", answer.invariant}}, {true}, began); break;
    }
    pdr_is_open = answer.late;
  }
};

} // namespace

Forever prove(const Chip &chip, const Property &property, const Options &options, Known &known, Stop &stop) {
  return Prover(chip, property, options, known, stop).run();
}
