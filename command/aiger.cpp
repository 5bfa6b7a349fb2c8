#include "aiger.h"

#include <map>
#include <set>
#include <sstream>

#include "emission.h"
#include "failure.h"
#include "files.h"
#include "refusals.h"
#include "sheet.h"

namespace {

// The counts of the first line and the symbols. Only names are taken from here: the netlist is what the library's import makes of the text.
struct Symbols {
  size_t inputs = 0, latches = 0, outputs = 0, gates = 0;
  std::vector<std::string> input, latch, output; // a name for each, or an empty one
  std::set<uint64_t> read; // variables that something reads
};

Symbols symbols_of(const std::string &content) {
  Symbols symbols;
  std::istringstream lines(content);
  std::string line, word;
  size_t most;
  if (!std::getline(lines, line)) return symbols;
  std::istringstream head(line);
  if (!(head >> word >> most >> symbols.inputs >> symbols.latches >> symbols.outputs >> symbols.gates)) return Symbols();
  size_t counted = symbols.inputs + symbols.latches + symbols.outputs + symbols.gates;
  if (symbols.inputs > content.size() || symbols.latches > content.size() || symbols.outputs > content.size() || counted > content.size())
    return Symbols(); // there are not so many lines; the import says so
  symbols.input.resize(symbols.inputs);
  symbols.latch.resize(symbols.latches);
  symbols.output.resize(symbols.outputs);
  for (size_t at = 0; at < counted && std::getline(lines, line); at++) {
    std::istringstream fields(line);
    uint64_t literal;
    bool defines = at < symbols.inputs || at >= symbols.inputs + symbols.latches + symbols.outputs ||
                   (at >= symbols.inputs && at < symbols.inputs + symbols.latches); // the first number of the line is no use
    for (size_t field = 0; fields >> literal; field++)
      if (!defines || field > 0) symbols.read.insert(literal / 2);
  }
  while (std::getline(lines, line) && line != "c") {
    size_t space = line.find(' ');
    if (line.size() < 2 || space == std::string::npos || space < 2 || space > 9) continue;
    std::string digits = line.substr(1, space - 1);
    if (digits.find_first_not_of("0123456789") != std::string::npos) continue;
    auto &names = line[0] == 'i' ? symbols.input : line[0] == 'l' ? symbols.latch : symbols.output;
    size_t at = std::stoul(digits);
    if (std::string("ilo").find(line[0]) != std::string::npos && at < names.size()) names[at] = line.substr(space + 1);
  }
  return symbols;
}

// the name of a port's bit; a port of one bit has its own name
std::string bit_name(const char *port, uint32_t width, uint32_t at) { return width == 1 ? port : std::string(port) + "[" + std::to_string(at) + "]"; }

// how many names of a list are a port's, by itself or with an index
uint32_t width_of(const std::vector<std::string> &names, const std::string &port) {
  uint32_t width = 0;
  for (const std::string &name : names) width += name == port || name.compare(0, port.size() + 1, port + "[") == 0;
  return width;
}

// The names of the read bits, and of the outputs: those of a second port have a 2 behind them.
struct Names {
  std::vector<std::string> reads, outputs;
};

Names names_of(const Widths &widths) {
  Names names;
  auto add = [](std::vector<std::string> &list, const char *port, uint32_t width) {
    for (uint32_t at = 0; at < width; at++) list.push_back(bit_name(port, width, at));
  };
  bool two = widths.ports == 2;
  add(names.reads, "read_data", widths.data);
  if (two) add(names.reads, "read_data2", widths.data);
  add(names.outputs, "address", widths.address);
  add(names.outputs, "write_data", widths.data);
  if (two) add(names.outputs, "address2", widths.address);
  if (two) add(names.outputs, "read_enable2", 1);
  for (const char *one : {"write_enable", "read_enable", "property_holds"}) add(names.outputs, one, 1);
  return names;
}

// Where symbols name the ports they have to stand as the import takes them: it reads no name, and would take another order for another chip.
void test_ports(const std::string &path, const Symbols &symbols, const Widths &widths) {
  auto expect = [&](const std::string &name, const std::string &due, const std::string &what) {
    if (!name.empty() && name != due) throw Failure(path + ": " + what + " is " + name + ", and " + due + " is due\n" +
        "The last inputs are read_data; the outputs address, write_data, write_enable, read_enable, property_holds. With two ports read_data2 stands " +
        "behind read_data, and address2 and read_enable2 behind write_data (docs/VERILOG.md).");
  };
  Names names = names_of(widths);
  size_t reads = names.reads.size(), outputs = names.outputs.size();
  if (symbols.inputs < reads || symbols.outputs != outputs)
    throw Failure(path + ": it has " + std::to_string(symbols.inputs) + " inputs and " + std::to_string(symbols.outputs) + " outputs; " +
                  std::to_string(widths.address) + " address bits and " + std::to_string(widths.data) + " data bits" +
                  (widths.ports == 2 ? " with two ports" : "") + " need at least " + std::to_string(reads) + " inputs and " +
                  std::to_string(outputs) + " outputs");
  size_t first = symbols.inputs - reads;
  for (size_t at = 0; at < reads; at++) expect(symbols.input[first + at], names.reads[at], "input " + std::to_string(first + at));
  for (size_t at = 0; at < outputs; at++) expect(symbols.output[at], names.outputs[at], "output " + std::to_string(at));
}

Widths widths_of(const std::string &path, const Symbols &symbols, const Options &options) {
  if (options.widths) return *options.widths;
  uint32_t ports = width_of(symbols.output, "address2") > 0 ? 2 : 1;
  Widths widths{width_of(symbols.output, "address"), width_of(symbols.output, "write_data"), ports};
  if (widths.address == 0 || widths.data == 0)
    throw Failure(path + ": its symbols do not tell how wide the memory is (outputs named address and write_data); say it: --widths 3,8 for three "
                         "address bits and eight data bits, --widths 3,8,2 with two read ports");
  return widths;
}

// Bits by their names' indices. A symbol with several names, parted by spaces, is a bit of each.
struct Gathered {
  std::vector<std::string> order;
  std::map<std::string, std::map<uint32_t, uint32_t>> bits; // word, index, code
  std::map<std::string, uint32_t> whole;
  std::set<std::string> seen; // has a bit that something reads

  void add(const std::string &symbol, uint32_t code, bool is_read) {
    std::istringstream names(symbol);
    std::string name;
    while (names >> name) {
      size_t open = name.rfind('[');
      std::string index = open == std::string::npos || open == 0 || name.back() != ']' ? "" : name.substr(open + 1, name.size() - open - 2);
      bool digits = !index.empty() && index.size() <= 4 && index.find_first_not_of("0123456789") == std::string::npos;
      bool plain = digits && (index == "0" || index[0] != '0');
      std::string word = plain ? name.substr(0, open) : name;
      if (!whole.count(word) && !bits.count(word)) order.push_back(word);
      if (plain) bits[word][static_cast<uint32_t>(std::stoul(index))] = code;
      else whole[word] = code;
      if (is_read) seen.insert(word);
    }
  }

  // Words in the order of their first bits. Bits that stand together are a word with their range, unless it is whole.
  std::vector<Word> words(const std::set<std::string> &inputs) const {
    std::vector<Word> made;
    for (const std::string &name : order) {
      if (!seen.count(name)) continue; // as the clock
      if (whole.count(name)) made.push_back({name, {whole.at(name)}});
      if (!bits.count(name)) continue;
      const auto &its = bits.at(name);
      // a text has all bits of an input, but of a register those that were kept
      bool complete = inputs.count(name) && its.rbegin()->first + 1 == its.size();
      for (auto at = its.begin(); at != its.end();) {
        Word word;
        uint32_t low = at->first, next = low;
        for (; at != its.end() && at->first == next; ++at, ++next) word.codes.push_back(at->second);
        std::string high = std::to_string(next - 1);
        word.name = complete ? name : name + "[" + (next == low + 1 ? "" : high + ":") + std::to_string(low) + "]";
        made.push_back(word);
      }
    }
    return made;
  }
};

void name_words(Chip &chip, const Symbols &symbols, const std::string &content) {
  Gathered gathered;
  std::set<std::string> inputs;
  std::istringstream lines(content);
  std::string line;
  std::getline(lines, line);
  auto next_variable = [&]() -> uint64_t {
    uint64_t literal = 0;
    std::getline(lines, line);
    std::istringstream(line) >> literal;
    return literal / 2;
  };
  for (size_t at = 0; at < symbols.inputs; at++) {
    bool is_read = symbols.read.count(next_variable()) > 0;
    uint32_t own = static_cast<uint32_t>(at) + 1;
    gathered.add(symbols.input[at], 2 * (at < chip.net.inputs ? own : own + chip.net.latches), is_read);
    inputs.insert(symbols.input[at].substr(0, symbols.input[at].rfind('[')));
  }
  for (size_t at = 0; at < symbols.latches; at++) {
    next_variable();
    gathered.add(symbols.latch[at], 2 * (chip.net.inputs + static_cast<uint32_t>(at) + 1), true);
  }
  chip.named = gathered.words(inputs);
  chip.shown = chip.named;
  if (chip.named.empty()) show_unnamed(chip);
}

} // namespace

bool is_aiger(const std::string &path, const std::string &content) { return ends_with(path, ".aag") || content.compare(0, 4, "aag ") == 0; }

Chip chip_of_aiger(const std::string &path, const std::string &content, const Options &options, Stop &stop) {
  std::string kind = content.compare(0, 4, "aag ") == 0 ? "" : other_kind(content);
  if (!kind.empty()) throw Failure(path + ": this is no ASCII AIGER but " + kind);
  Symbols symbols = symbols_of(content);
  bool counted = symbols.outputs > 0;
  Widths widths = counted ? widths_of(path, symbols, options) : options.widths.value_or(Widths{1, 1, 1});
  if (counted) test_ports(path, symbols, widths);
  Chip chip;
  chip.latches.resize(MARRUBIGAI_LIST_ROOM);
  chip.gates.resize(MARRUBIGAI_LIST_ROOM);
  bool unknown = options.start.kind != Start::Kind::word, two_ports = widths.ports == 2;
  auto reply = marrubigai_import(reinterpret_cast<const uint8_t *>(content.data()), content.size(), widths.address, widths.data,
                                 unknown ? 0 : options.start.word, unknown && !two_ports, two_ports, chip.latches.data(), chip.latches.size(),
                                 chip.gates.data(), chip.gates.size());
  if (reply.number != MARRUBIGAI_PASSED) {
    bool of_text = reply.number == MARRUBIGAI_NOT_AIGER || reply.number == MARRUBIGAI_UNDEFINED;
    std::string at = reply.place == 0 ? "" : " at line " + std::to_string(reply.place) + (of_text ? "" : " of the sheet that it would be");
    throw Failure(path + ": " + refusal_word(reply.number) + at + "\n" + refusal_hint(reply.number));
  }
  chip.net = reply.net;
  Property property;
  property.name = "property_holds";
  property.code = chip.net.p;
  chip.properties.push_back(property);
  show_ports_of_record(chip);
  name_words(chip, symbols, content);
  if (options.start.kind == Start::Kind::as_given)
    chip.notes.push_back("a text does not say what the memory begins as: each word may be anything (--start WORD for a memory that is filled)");
  return unknown && two_ports ? from_unknown(chip, stop) : chip;
}
