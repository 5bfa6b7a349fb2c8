// marrubigai: from a chip with a memory to an answer. docs/COMMAND.md is the user's page.

#include <algorithm>
#include <csignal>
#include <cstdio>
#include <optional>

#include "aiger.h"
#include "certify.h"
#include "confirm.h"
#include "failure.h"
#include "files.h"
#include "outputs.h"
#include "prove.h"
#include "report.h"
#include "search.h"
#include "sheet.h"
#include "stated.h"
#include "verilog.h"

namespace {

void print(const std::string &text) {
  bool written = std::fwrite(text.data(), 1, text.size(), stdout) == text.size();
  if (std::fflush(stdout) != 0 || !written) throw Failure("standard output cannot be written (a full disk, or its reader has gone)");
}

// What only one kind of file has a use for is refused with the others, so that no option does nothing.
void test_options(const Options &options, bool verilog) {
  auto unused = [&](bool given, const char *option) {
    std::string kind = verilog ? "sheets and ASCII AIGER" : "Verilog";
    if (given) throw Failure(option + (" is for " + kind) + ", and this is none\n" + usage_line, USAGE);
  };
  if (verilog) return unused(options.widths.has_value(), "--widths"), unused(!options.names_file.empty(), "--names");
  unused(!options.top.empty(), "--top");
  unused(!options.macros.empty(), "-D");
  unused(!options.folders.empty(), "-I");
  unused(!options.parameters.empty(), "-P");
  unused(!options.resets.empty(), "--reset");
  unused(!options.memory.empty(), "--memory");
  unused(!options.properties.empty(), "--property");
  unused(!options.covers.empty(), "--cover");
  unused(options.confirm, "--confirm");
  if (options.files.size() > 1) throw Failure("one sheet or one text at a time: " + options.files[1] + " is too many\n" + usage_line, USAGE);
}

std::vector<Chip> load(const Options &options, Stop &stop) {
  const std::string &path = options.files[0];
  if (is_verilog(path)) {
    test_options(options, true);
    return chips_of_verilog(options, stop);
  }
  std::string content = read_file(path);
  bool sheet = is_sheet(path, content), text = !sheet && is_aiger(path, content);
  if (!sheet && !text) {
    std::string kind = other_kind(content);
    throw Failure(path + ": " + (kind.empty() ? "this is neither Verilog (.v, .sv) nor a sheet nor ASCII AIGER" : "this is " + kind));
  }
  test_options(options, false);
  if (text && !options.names_file.empty()) throw Failure("--names is for sheets: a text has its names in its symbols", USAGE);
  Chip chip = sheet ? chip_of_sheet(path, content, options) : chip_of_aiger(path, content, options, stop);
  apply_start(chip, options.start, stop);
  show_watched(chip, options.watched);
  return {chip};
}

// to the depth, certified where that is wanted
std::vector<Verdict> search_to_depth(const Chip &chip, const Options &options, Stop &stop) {
  std::optional<Refutation> refutation;
  if (!options.certificate_file.empty()) refutation.emplace();
  std::vector<Verdict> verdicts = search(chip, Plan{options.depth, options.from, options.any, refutation ? &*refutation : nullptr}, stop);
  if (refutation && verdicts[0].kind == Verdict::Kind::holds) certify(chip, options, *refutation, verdicts[0], stop);
  return verdicts;
}

// First to a low depth, where a fault is mostly found; then for ever; and what is neither broken nor proved then, to the depth.
std::vector<Verdict> search_and_prove(const Chip &chip, const Options &options, Stop &stop) {
  constexpr uint32_t LOW = 10;
  std::vector<Verdict> verdicts = search(chip, Plan{std::min(options.depth, LOW), 0, options.any, nullptr}, stop);
  Known known;
  if (!options.invariant_file.empty()) known.stated = stated_facts(options.invariant_file, chip);
  Chip rest = chip;
  rest.properties.clear();
  std::vector<size_t> open;
  Options further = options;
  for (size_t p = 0; p < verdicts.size(); p++) {
    if (verdicts[p].kind == Verdict::Kind::broken) continue;
    if (verdicts[p].kind == Verdict::Kind::holds) verdicts[p].forever = prove(chip, chip.properties[p], options, known, stop);
    verdicts[p].seconds = stop.seconds();
    if (!verdicts[p].forever || verdicts[p].forever->certified) continue;
    if (verdicts[p].forever->claimed) further.depth = std::max(further.depth, std::min(*verdicts[p].forever->claimed, chip.most_depth()));
    rest.properties.push_back(chip.properties[p]);
    open.push_back(p);
  }
  if (open.empty()) return verdicts;
  std::vector<Verdict> found = search_to_depth(rest, further, stop);
  for (size_t at = 0; at < open.size(); at++) {
    Verdict &verdict = verdicts[open[at]];
    if (found[at].kind == Verdict::Kind::stopped && found[at].safe < verdict.safe) found[at].safe = verdict.safe; // it is known already
    found[at].forever = verdict.forever;
    verdict = found[at];
  }
  return verdicts;
}

Searched search_chip(const Chip &chip, const Options &options, Stop &stop) {
  if (!options.check_file.empty()) return {chip, {check_certificate(chip, options, stop)}};
  std::vector<Verdict> verdicts = options.prove ? search_and_prove(chip, options, stop) : search_to_depth(chip, options, stop);
  std::optional<uint32_t> end;
  if (std::any_of(verdicts.begin(), verdicts.end(), [](const Verdict &verdict) { return verdict.kind == Verdict::Kind::holds; }))
    end = assumptions_end(chip, options.depth, stop);
  if (end && *end == 0)
    throw Failure(options.files[0] + ": no run meets the assumptions in frame 0: nothing can be said of the design.\n"
                                     "Two of them are contrary to each other, or to --reset (a reset that is active when it is 0 is --reset '!NAME').");
  for (size_t p = 0; options.confirm && p < verdicts.size(); p++)
    if (verdicts[p].run) verdicts[p].confirmed = confirm(options, chip, chip.properties[p], *verdicts[p].run, stop);
  return {chip, verdicts, end};
}

int run(const Options &options) {
  Stop stop(options.timeout, !options.quiet);
  test_outputs(options);
  std::vector<Chip> chips = load(options, stop);
  for (const Chip &chip : chips)
    if (options.check_file.empty()) test_depth(chip, options.depth);
  if (!options.certificate_file.empty()) test_one_property(chips, "--certificate");
  if (!options.check_file.empty()) test_one_property(chips, "--check");
  if (!options.keep_folder.empty()) keep_sheets(chips, options.keep_folder);
  std::vector<Searched> searched;
  for (const Chip &chip : chips) searched.push_back(search_chip(chip, options, stop));
  if (!options.vcd_file.empty()) write_waveform(options.vcd_file, searched);
  Report report{options, searched, "", stop.seconds()};
  for (const Searched &each : searched)
    for (const Verdict &verdict : each.verdicts)
      if (verdict.kind == Verdict::Kind::stopped) report.stopped = stop.why();
  print(options.json ? report_json(report) : report_text(report));
  return exit_status(report);
}

} // namespace

int main(int count, char **arguments) {
  std::signal(SIGPIPE, SIG_IGN); // a reader that has gone is told as a failed write
  try {
    Options options = parse_options(count, arguments);
    if (options.show_help) return print(help_text), 0;
    if (options.show_version) return print(version_text() + "\n"), 0;
    return run(options);
  } catch (const Failure &failure) {
    std::fprintf(stderr, "%s\n", failure.message.c_str());
    return failure.status;
  } catch (const std::exception &problem) {
    std::fprintf(stderr, "marrubigai: %s\n", problem.what());
    return FAILED;
  }
}
