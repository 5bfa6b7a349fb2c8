#include "outputs.h"

#include <algorithm>

#include "certificate.h"
#include "failure.h"
#include "files.h"
#include "table.h"
#include "waveform.h"

void test_outputs(const Options &options) {
  std::vector<std::string> read = options.files;
  for (const std::string &file : {options.names_file, options.invariant_file})
    if (!file.empty()) read.push_back(file);
  auto test = [&](const std::string &path, const std::string &what) {
    if (path.empty()) return;
    for (const std::string &file : read)
      if (same_file(file, path)) throw Failure(what + " would be written over " + file, USAGE);
    test_writable(path);
  };
  test(options.vcd_file, "the waveform");
  test(options.certificate_file, "the certificate");
  bool both = !options.vcd_file.empty() && !options.certificate_file.empty();
  if (both && (options.vcd_file == options.certificate_file || same_file(options.vcd_file, options.certificate_file)))
    throw Failure("the certificate would be written over the waveform " + options.vcd_file, USAGE);
  if (!options.keep_folder.empty()) make_folder(options.keep_folder);
}

namespace {

void keep_sheet(const Chip &chip, const Property &property, const std::string &stem) {
  std::string names;
  for (const Word &word : columns(chip, property)) {
    if (std::any_of(word.codes.begin(), word.codes.end(), [&](uint32_t code) { return code / 2 > chip.wires(); })) continue; // or NO_CODE
    names += word.name;
    for (uint32_t code : word.codes) names += " " + std::to_string(code);
    names += "\n";
  }
  write_file(stem + ".sheet", sheet_of(chip, property));
  write_file(stem + ".names", names);
}

} // namespace

void keep_sheets(const std::vector<Chip> &chips, const std::string &folder) {
  size_t number = 0;
  for (const Chip &chip : chips)
    for (const Property &property : chip.properties) keep_sheet(chip, property, folder + "/" + std::to_string(++number));
}

void write_waveform(const std::string &path, const std::vector<Searched> &searched) {
  for (const Searched &each : searched)
    for (size_t p = 0; p < each.verdicts.size(); p++)
      if (each.verdicts[p].run) return write_file(path, waveform(each.chip, each.chip.properties[p], *each.verdicts[p].run));
}
