#include "sheet.h"

#include <algorithm>
#include <sstream>

#include "emission.h"
#include "failure.h"
#include "files.h"
#include "refusals.h"

namespace {

constexpr size_t LINE = 32;

// the line that a refusal names; a byte that cannot be printed is shown as a question mark
std::string line_text(const std::string &content, uint32_t place) {
  if (place == 0) return "";
  std::string at = " at line " + std::to_string(place);
  if (content.size() < LINE * place) return at + ", behind the last";
  std::string text = content.substr(LINE * (place - 1), LINE - 1);
  for (char &byte : text)
    if (byte < ' ' || byte > '~') byte = '?';
  text.erase(text.find_last_not_of(' ') + 1);
  return at + ": " + text;
}

// In each line a name and its codes, lowest bit first.
std::vector<Word> read_names(const std::string &path, uint32_t wires) {
  std::vector<Word> words;
  std::istringstream lines(read_file(path));
  std::string line;
  for (unsigned number = 1; std::getline(lines, line); number++) {
    std::istringstream fields(line);
    Word word;
    if (!(fields >> word.name)) continue;
    std::string text;
    while (fields >> text) {
      bool digits = text.size() <= 9 && text.find_first_not_of("0123456789") == std::string::npos;
      unsigned long code = digits ? std::stoul(text) : UINT32_MAX;
      if (code > 2ul * wires + 1)
        throw Failure(path + ", line " + std::to_string(number) + ": '" + text + "' is no code of this sheet, whose largest is " +
                      std::to_string(2ul * wires + 1));
      word.codes.push_back(static_cast<uint32_t>(code));
    }
    if (word.codes.empty()) throw Failure(path + ", line " + std::to_string(number) + ": the name " + word.name + " has no codes");
    words.push_back(word);
  }
  return words;
}

} // namespace

bool is_sheet(const std::string &path, const std::string &content) {
  return ends_with(path, ".sheet") || (content.size() >= LINE && content[0] == 'N' && content.find_first_not_of("0123456789 ", 1) == LINE - 1);
}

Chip chip_of_sheet(const std::string &path, const std::string &content, const Options &options) {
  if (options.widths) throw Failure("--widths is for ASCII AIGER: the sheet " + path + " says its own widths", USAGE);
  Chip chip;
  chip.latches.resize(MARRUBIGAI_LIST_ROOM);
  chip.gates.resize(MARRUBIGAI_LIST_ROOM);
  auto reply = marrubigai_read(reinterpret_cast<const uint8_t *>(content.data()), content.size(), chip.latches.data(), chip.latches.size(),
                               chip.gates.data(), chip.gates.size());
  if (reply.number != MARRUBIGAI_PASSED) {
    std::string kind = other_kind(content);
    if (!kind.empty()) throw Failure(path + ": this is no sheet but " + kind);
    throw Failure(path + ": " + refusal_word(reply.number) + line_text(content, reply.place) + "\n" + refusal_hint(reply.number));
  }
  chip.net = reply.net;
  Property property;
  property.name = "property";
  property.code = chip.net.p;
  chip.properties.push_back(property);
  show_ports_of_record(chip);
  if (options.names_file.empty()) {
    show_unnamed(chip);
  } else {
    chip.named = read_names(options.names_file, chip.wires());
    chip.shown = chip.named;
  }
  return chip;
}

void apply_start(Chip &chip, const Start &start, Stop &stop) {
  if (start.kind == Start::Kind::as_given) return;
  if (start.kind == Start::Kind::unknown && chip.net.second_port) {
    chip = from_unknown(chip, stop);
    return;
  }
  chip.net.unknown_start = start.kind == Start::Kind::unknown;
  chip.net.initial_word = start.word;
  if (chip.net.n < 32 && start.word >> chip.net.n != 0)
    throw Failure("--start " + std::to_string(start.word) + ": a word of this memory has " + std::to_string(chip.net.n) + " bits");
}

void show_unnamed(Chip &chip) {
  auto word = [&](const char *name, uint32_t first, uint32_t count) {
    Word made{name, {}};
    for (uint32_t w = first; w < first + count; w++) made.codes.push_back(2 * w);
    if (count > 0) chip.shown.push_back(made);
  };
  word("inputs", 1, chip.net.inputs);
  word("registers", chip.net.inputs + 1, chip.net.latches);
}

void show_watched(Chip &chip, const std::vector<std::string> &watched) {
  if (watched.empty()) return;
  std::vector<Word> wanted;
  for (const std::string &name : watched) {
    bool found = false;
    for (const Word &word : chip.named) {
      if (word.name != name && word.name.substr(0, word.name.rfind('[')) != name) continue;
      wanted.push_back(word);
      found = true;
    }
    if (found) continue;
    std::string known;
    for (const Word &word : chip.named) known += (known.empty() ? "" : ", ") + word.name;
    throw Failure("--watch " + name + ": there is no such word" + (known.empty() ? "; this file has no names" : "; there are " + known));
  }
  chip.shown = wanted;
  for (Property &property : chip.properties) property.read.clear();
}
