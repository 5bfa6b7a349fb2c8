#include "stated.h"

#include <algorithm>
#include <cctype>
#include <sstream>

#include "facts.h"
#include "failure.h"
#include "files.h"
#include "transition.h"

namespace {

constexpr size_t MOST_CLAUSES = 400000;
constexpr int32_t YES = INT32_MAX; // a constant in place of a number; -YES is false
constexpr int32_t MISSING = 0; // a bit on which the property does not depend

using Bit = int32_t;
using Bits32 = std::vector<Bit>; // lowest first
using Cnf = std::vector<Clause>;

// clauses without constants: one with YES is left out, and -YES out of each
void add_clause(Cnf &cnf, const Clause &literals) {
  Clause clause;
  for (int32_t literal : literals) {
    if (literal == YES || (literal != MISSING && std::find(clause.begin(), clause.end(), -literal) != clause.end())) return;
    if (literal != -YES && std::find(clause.begin(), clause.end(), literal) == clause.end()) clause.push_back(literal);
  }
  cnf.push_back(clause);
}

class Reader {
public:
  Reader(const std::string &of, unsigned line_number, const std::string &written, const Chip &named)
      : path(of), number(line_number), text(written), chip(named), bits(named.net) {}

  // the line's clauses: where `@` stands, for every number of so many bits, as many as an address has where none are said
  Cnf read() {
    for (size_t place = text.find('@'); place != std::string::npos; place = text.find('@', place + 1)) {
      at = place + 1;
      bool said = at < text.size() && std::isdigit(static_cast<unsigned char>(text[at]));
      uint32_t width = said ? decimal("a number of bits") : chip.net.m;
      if (width == 0 || width > 16 || (every != 0 && width != every)) fail("@ is a number of 1 to 16 bits, the same in the whole line");
      every = width;
    }
    Cnf made;
    for (every_value = 0; every_value == 0 || (every != 0 && every_value >> every == 0); every_value++) {
      at = 0;
      Cnf one = line();
      made.insert(made.end(), one.begin(), one.end());
      if (made.size() > MOST_CLAUSES) fail("it has more than " + std::to_string(MOST_CLAUSES) + " clauses");
    }
    return made;
  }

private:
  const std::string &path;
  unsigned number;
  const std::string &text;
  const Chip &chip;
  StateBits bits;
  size_t at = 0;
  uint32_t every = 0, every_value = 0; // what @ stands for: its bits, none where there is no @, and the number

  [[noreturn]] void fail(const std::string &what) const { throw Failure(path + ":" + std::to_string(number) + ": " + what); }

  void skip() {
    while (at < text.size() && std::isspace(static_cast<unsigned char>(text[at]))) at++;
  }
  bool take_every() {
    if (!take("@")) return false;
    while (at < text.size() && std::isdigit(static_cast<unsigned char>(text[at]))) at++;
    return true;
  }
  bool take(const std::string &sign) {
    skip();
    if (text.compare(at, sign.size(), sign) != 0) return false;
    at += sign.size();
    return true;
  }

  // a clause of comparisons, as the clauses that it stands for
  Cnf line() {
    Cnf made{{}};
    do {
      Cnf part = comparison(), both;
      if (made.size() * part.size() > MOST_CLAUSES) fail("it has more than " + std::to_string(MOST_CLAUSES) + " clauses");
      for (const Clause &left : made)
        for (const Clause &right : part) {
          Clause joined = left;
          joined.insert(joined.end(), right.begin(), right.end());
          add_clause(both, joined);
        }
      made = both;
    } while (take("|"));
    skip();
    if (at < text.size()) fail("'" + text.substr(at) + "' is not understood: comparisons parted by | are wanted");
    for (const Clause &clause : made)
      if (std::find(clause.begin(), clause.end(), MISSING) != clause.end())
        fail("the property does not depend on all bits that are compared: a part of a word is written as name[7:4]");
    return made;
  }

  Cnf comparison() {
    if (take("!")) {
      Bit one = single(operand());
      return {{-one}};
    }
    Bits32 left = operand();
    for (const char *sign : {"==", "!=", "<=", ">=", "<", ">"}) {
      if (!take(sign)) continue;
      Bits32 right = operand();
      match_widths(left, right);
      std::string which = sign;
      if (which == "==") return equal(left, right);
      if (which == "!=") return different(left, right);
      if (which == "<=") return at_most(left, right, false);
      if (which == ">=") return at_most(right, left, false);
      if (which == "<") return at_most(left, right, true);
      return at_most(right, left, true);
    }
    return {{single(left)}};
  }

  Bit single(const Bits32 &word) const {
    if (word.size() != 1) fail("a word of " + std::to_string(word.size()) + " bits stands where one bit is wanted");
    return word[0];
  }

  // a number takes the other's width
  void match_widths(Bits32 &left, Bits32 &right) const {
    auto fit = [&](Bits32 &word, size_t width) {
      bool constant = std::all_of(word.begin(), word.end(), [](Bit bit) { return std::abs(bit) == YES; });
      while (constant && word.size() > width && word.back() == -YES) word.pop_back();
      while (constant && word.size() < width) word.push_back(-YES);
    };
    fit(left, right.size()), fit(right, left.size());
    if (left.size() != right.size())
      fail("words of " + std::to_string(left.size()) + " and " + std::to_string(right.size()) +
           " bits are compared; a part of one is written as name[2:0]");
  }

  static Cnf equal(const Bits32 &left, const Bits32 &right) {
    Cnf made;
    for (size_t t = 0; t < left.size(); t++) add_clause(made, {-left[t], right[t]}), add_clause(made, {left[t], -right[t]});
    return made;
  }

  Cnf different(const Bits32 &left, const Bits32 &right) const {
    Cnf made{{}};
    for (size_t t = 0; t < left.size(); t++) {
      Cnf longer;
      for (const Clause &clause : made)
        for (int sign : {1, -1}) {
          Clause with = clause;
          with.push_back(sign * left[t]), with.push_back(sign * right[t]);
          add_clause(longer, with);
        }
      made = longer;
      if (made.size() > MOST_CLAUSES) fail("it has more than " + std::to_string(MOST_CLAUSES) + " clauses");
    }
    return made;
  }

  Cnf at_most(const Bits32 &left, const Bits32 &right, bool strictly) const {
    Cnf made;
    if (strictly) made.push_back({});
    for (size_t t = 0; t < left.size(); t++) {
      Cnf longer;
      add_clause(longer, {-left[t], right[t]});
      for (const Clause &clause : made)
        for (int sign : {1, -1}) {
          Clause with = clause;
          with.push_back(sign * left[t]), with.push_back(sign * right[t]);
          add_clause(longer, with);
        }
      made = longer;
      if (made.size() > MOST_CLAUSES) fail("it has more than " + std::to_string(MOST_CLAUSES) + " clauses");
    }
    return made;
  }

  uint32_t decimal(const char *what) {
    skip();
    size_t begin = at;
    uint64_t value = 0;
    for (; at < text.size() && std::isdigit(static_cast<unsigned char>(text[at])) && at - begin < 10; at++)
      value = 10 * value + static_cast<uint64_t>(text[at] - '0');
    if (at == begin || value > UINT32_MAX) fail(std::string(what) + " is wanted at '" + text.substr(begin) + "'");
    return static_cast<uint32_t>(value);
  }

  static Bits32 constant(uint32_t value, uint32_t width) {
    Bits32 made;
    for (uint32_t t = 0; t < width; t++) made.push_back(value >> t & 1 ? YES : -YES);
    return made;
  }

  Bits32 operand() {
    if (take_every()) return constant(every_value, every);
    skip();
    if (at < text.size() && std::isdigit(static_cast<unsigned char>(text[at]))) return constant(decimal("a number"), 32);
    size_t begin = at;
    while (at < text.size() && (std::isalnum(static_cast<unsigned char>(text[at])) || text[at] == '_' || text[at] == '.' || text[at] == '$')) at++;
    std::string name = text.substr(begin, at - begin);
    if (name.empty()) fail("a name, a number or @ is wanted at '" + text.substr(begin) + "'");
    std::optional<Bits32> word = memory_word(name);
    if (!word) word = register_word(name);
    return take("[") ? part(*word, name) : *word;
  }

  Bits32 part(const Bits32 &word, const std::string &name) {
    uint32_t high = decimal("a bit's number"), low = high;
    if (take(":")) low = decimal("a bit's number");
    if (!take("]")) fail("] is wanted at '" + text.substr(at) + "'");
    if (low > high || high >= word.size()) fail(name + " has the bits 0 to " + std::to_string(word.size() - 1));
    return {word.begin() + low, word.begin() + high + 1};
  }

  // none where it is no name of the memory, or of an array of it
  std::optional<Bits32> memory_word(const std::string &name) {
    auto array = std::find_if(chip.arrays.begin(), chip.arrays.end(), [&](const Array &each) { return each.name == name; });
    if (array == chip.arrays.end() && (!chip.arrays.empty() || name != "memory")) return std::nullopt;
    if (!take("[")) fail("of the memory " + name + " a word is wanted: " + name + "[@] is any of them");
    uint32_t last = (1u << chip.net.m) - 1, word = take_every() ? every_value & last : decimal("an address");
    if (!take("]")) fail("] is wanted at '" + text.substr(at) + "'");
    if (word > last) fail("the last word of " + name + " is " + std::to_string(last));
    const ShownPort &port = chip.ports[0];
    if (port.address.size() != chip.net.m)
      fail("some bits of the address of " + name + " are constants, so that its words are not told apart by it");
    Bits32 made;
    for (uint32_t code : port.read_data) {
      made.push_back(code == NO_CODE ? MISSING : static_cast<Bit>(bits.word(word, code / 2 - chip.first_read())) + 1);
    }
    if (array == chip.arrays.end()) return made;
    auto low = made.begin() + static_cast<std::ptrdiff_t>(array->low);
    return Bits32(low, low + static_cast<std::ptrdiff_t>(array->width));
  }

  Bits32 register_word(const std::string &name) {
    std::vector<Word> words = chip.named.empty() ? chip.shown : chip.named;
    words.insert(words.end(), chip.own.begin(), chip.own.end());
    for (const Word &word : words) {
      if (word.name != name && word.name.substr(0, word.name.rfind('[')) != name) continue;
      Bits32 made;
      for (uint32_t code : word.codes) {
        auto found = code == NO_CODE ? MISSING : code < 2 ? (code ? YES : -YES) : state_number(chip, code);
        if (!found) fail(name + " is no register: only registers and words of the memory have a next state");
        made.push_back(*found);
      }
      return made;
    }
    for (uint32_t port = 0; port <= chip.net.second_port; port++) {
      if (name != (port ? "held2" : "held")) continue;
      Bits32 made;
      for (uint32_t t = 0; t < bits.n; t++) made.push_back(static_cast<Bit>(bits.latches + port * bits.n + t) + 1);
      return made;
    }
    fail("there is no register " + name);
  }
};

} // namespace

std::vector<Fact> stated_facts(const std::string &path, const Chip &chip) {
  std::vector<Fact> facts;
  std::istringstream lines(read_file(path));
  std::string line;
  for (unsigned number = 1; std::getline(lines, line); number++) {
    std::string stated = line.substr(0, line.find('#'));
    if (stated.find_first_not_of(" \t\r") == std::string::npos) continue;
    facts.push_back({path + ":" + std::to_string(number), Reader(path, number, stated, chip).read()});
  }
  return facts;
}
