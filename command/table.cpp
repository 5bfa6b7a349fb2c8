#include "table.h"

#include <algorithm>

namespace {

std::string right(const std::string &text, size_t width) { return std::string(width > text.size() ? width - text.size() : 0, ' ') + text; }

// Where several ports can read, it says which does.
std::string memory_text(const Chip &chip, const Access &access, Radix radix) {
  std::string text;
  bool several = std::count_if(chip.ports.begin(), chip.ports.end(), [](const ShownPort &port) { return port.re != 0; }) > 1;
  for (const Access::Read &read : access.reads) {
    text += (text.empty() ? "" : ", ") + (several ? "port " + std::to_string(read.port + 1) + " " : "");
    text += "reads " + written(read.word, radix) + " at " + written(read.address, radix) + " (";
    text += read.writer ? "written in frame " + std::to_string(*read.writer) : chip.net.unknown_start ? "unknown start" : "start word";
    text += ")";
  }
  if (access.write)
    text += (text.empty() ? "writes " : ", writes ") + written(access.write->word, radix) + " at " + written(access.write->address, radix);
  return text.empty() ? "idle" : text;
}

} // namespace

std::vector<Word> columns(const Chip &chip, const Property &property) {
  std::vector<Word> words = chip.shown;
  for (const Word &word : property.read)
    if (std::none_of(words.begin(), words.end(), [&](const Word &other) { return other.codes == word.codes || other.name == word.name; }))
      words.push_back(word);
  return words;
}

std::string table(const Chip &chip, const Property &property, const Run &run, Radix radix) {
  std::vector<Word> words = columns(chip, property);
  std::vector<Access> memory = accesses(chip, run);
  std::vector<std::vector<std::string>> cells(run.frames());
  std::vector<size_t> width;
  for (const Word &word : words) width.push_back(word.name.size());
  for (uint32_t i = 0; i < run.frames(); i++)
    for (size_t w = 0; w < words.size(); w++) {
      cells[i].push_back(is_idle(chip, run, words[w].codes, i) ? "-" : written(run.bits(words[w].codes, i), radix));
      width[w] = std::max(width[w], cells[i][w].size());
    }
  std::string text = "frame";
  for (size_t w = 0; w < words.size(); w++) text += "  " + right(words[w].name, width[w]);
  text += "  memory\n";
  const char *mark = property.kind == Property::Kind::cover ? "  <- reached" : "  <- property broken";
  uint32_t folded = 0;
  std::string last;
  for (uint32_t i = 0; i < run.frames(); i++) {
    std::string row;
    for (size_t w = 0; w < words.size(); w++) row += "  " + right(cells[i][w], width[w]);
    row += "  " + memory_text(chip, memory[i], radix);
    bool is_broken = !run.value(property.code, i);
    // a frame that is like the one before it in all that is shown
    if (i > 0 && !is_broken && row == last) {
      folded++;
      continue;
    }
    if (folded > 0) text += "  ...  " + std::to_string(folded) + (folded == 1 ? " frame" : " frames") + " like this one\n";
    folded = 0;
    text += right(std::to_string(i), 5) + row + (is_broken ? mark : "") + "\n";
    last = row;
  }
  return text;
}
