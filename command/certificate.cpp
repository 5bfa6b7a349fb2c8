#include "certificate.h"

#include <sys/stat.h>

#include <algorithm>
#include <cerrno>
#include <cstdio>
#include <cstring>
#include <memory>

#include "failure.h"
#include "files.h"
#include "refusals.h"
#include "transition.h"

namespace {

const std::string HEADING = "marrubigai certificate 1", FOREVER_HEADING = "marrubigai certificate for ever 1";
constexpr size_t LONGEST_HEADING = 96;

void test(uint32_t number, const char *what) {
  if (number != MARRUBIGAI_PASSED) throw Failure(std::string(what) + ": " + refusal_word(number) + "\n" + refusal_hint(number));
}

struct Closing {
  void operator()(std::FILE *file) const { std::fclose(file); }
};

// Read piece by piece: how long a list is said to be does not make room for it, only what is there does, and the file's own length, where it has one.
class Reader {
public:
  explicit Reader(const std::string &name) : path(name), file(std::fopen(name.c_str(), "rbe")) {
    if (!file) throw Failure(path + ": it cannot be opened: " + std::strerror(errno));
    struct stat status {};
    if (fstat(fileno(file.get()), &status) == 0 && S_ISREG(status.st_mode)) length = static_cast<size_t>(status.st_size);
  }

  std::string line() {
    std::string text;
    for (int byte; (byte = std::fgetc(file.get())) != '\n'; text += static_cast<char>(byte))
      if (byte == EOF || text.size() == LONGEST_HEADING)
        refuse("it does not begin with a line '" + HEADING + "' and two numbers, or '" + FOREVER_HEADING + "' and four");
    return text;
  }

  template <typename Number> std::vector<Number> numbers(size_t count) {
    std::vector<Number> read;
    read.reserve(std::min(count, length / 4));
    std::vector<unsigned char> piece(std::min(count, PIECE) * 4);
    while (read.size() < count) {
      size_t wanted = std::min(count - read.size(), PIECE);
      if (std::fread(piece.data(), 4, wanted, file.get()) != wanted) refuse("it is shorter than its first line says");
      for (const unsigned char *at = piece.data(), *end = at + 4 * wanted; at != end; at += 4)
        read.push_back(static_cast<Number>(at[0] | uint32_t{at[1]} << 8 | uint32_t{at[2]} << 16 | uint32_t{at[3]} << 24));
    }
    return read;
  }

  void end() {
    if (std::fgetc(file.get()) != EOF) refuse("it is longer than its first line says");
    if (std::ferror(file.get())) refuse("");
  }

  [[noreturn]] void refuse(const std::string &what) {
    if (std::ferror(file.get())) throw Failure(path + ": it cannot be read: " + std::strerror(errno));
    throw Failure(path + ": this is no certificate: " + what);
  }

private:
  static constexpr size_t PIECE = 1 << 14;
  std::string path;
  std::unique_ptr<std::FILE, Closing> file;
  size_t length = 0;
};

// a count without a leading zero, and what is behind it is left; above the most that is taken where it is none
size_t count_at(const std::string &line, size_t &at) {
  size_t begin = at, value = 0;
  for (; at < line.size() && line[at] >= '0' && line[at] <= '9'; at++)
    value = std::min(10 * value + static_cast<size_t>(line[at] - '0'), MOST_NUMBERS + 1);
  bool good = at > begin && (line[begin] != '0' || at == begin + 1);
  return good ? value : MOST_NUMBERS + 1;
}

// the counts behind a heading; none where they are not these
std::vector<size_t> counts_of(const std::string &line, const std::string &heading, size_t count) {
  std::vector<size_t> counts;
  size_t at = heading.size();
  bool good = line.compare(0, at, heading) == 0;
  while (good && counts.size() < count) {
    good = at < line.size() && line[at++] == ' ';
    if (good) counts.push_back(count_at(line, at));
    good = good && counts.back() <= MOST_NUMBERS;
  }
  return good && at == line.size() ? counts : std::vector<size_t>();
}

template <typename Number> void append(std::string &text, const std::vector<Number> &numbers) {
  text.reserve(text.size() + 4 * numbers.size());
  for (Number number : numbers)
    for (int shift = 0; shift < 32; shift += 8) text += static_cast<char>(static_cast<uint32_t>(number) >> shift & 255);
}

size_t clauses_in(const std::vector<int32_t> &numbers) { return static_cast<size_t>(std::count(numbers.begin(), numbers.end(), 0)); }

// lists as they are lent: an element's address also where there is none, as the header asks
template <typename Number> const Number *lent(const std::vector<Number> &numbers) {
  static const Number none = 0;
  return numbers.empty() ? &none : numbers.data();
}

// The variables of the formula of a depth; its numbers are told group by group.
template <typename Told> uint32_t tell_formula(const Chip &chip, const Property &property, uint32_t depth, Told told) {
  marrubigai_netlist net = chip.of(property);
  auto heading = marrubigai_heading(net, chip.latch_list(), net.latches, chip.gate_list(), net.gates, depth);
  test(heading.number, "the formula");
  std::vector<int32_t> room(MARRUBIGAI_GROUP_ROOM);
  marrubigai_group_reply group{};
  group.kind = MARRUBIGAI_WIRES;
  for (; !group.end; group = marrubigai_next_group(depth, 1 + net.second_port, group.kind, group.j, group.i, group.port)) {
    auto reply = marrubigai_write_group(net, chip.latch_list(), net.latches, chip.gate_list(), net.gates, depth, group.kind, group.j, group.i,
                                        group.port, room.data(), room.size());
    test(reply.number, "the formula");
    told(room.data(), reply.count);
  }
  return heading.variables;
}

} // namespace

size_t Certificate::lemma_count() const { return clauses_in(lemmas); }
size_t ForeverCertificate::clause_count() const { return clauses_in(invariant); }

std::variant<Certificate, ForeverCertificate> read_certificate(const std::string &path) {
  Reader reader(path);
  std::string line = reader.line();
  std::vector<size_t> counts = counts_of(line, HEADING, 2), forever = counts_of(line, FOREVER_HEADING, 4);
  if (counts.empty() && forever.empty())
    reader.refuse("its first line is neither '" + HEADING + "' and two numbers nor '" + FOREVER_HEADING + "' and four, each up to " +
                  std::to_string(MOST_NUMBERS));
  ForeverCertificate read;
  if (!forever.empty()) {
    read.invariant = reader.numbers<int32_t>(forever[0]);
    read.requests = reader.numbers<uint32_t>(forever[1]);
    counts.assign(forever.begin() + 2, forever.end());
  }
  read.refutation.lemmas = reader.numbers<int32_t>(counts[0]);
  read.refutation.hints = reader.numbers<uint32_t>(counts[1]);
  reader.end();
  if (forever.empty()) return read.refutation;
  return read;
}

void write_certificate(const std::string &path, const Certificate &certificate) {
  std::string text = HEADING + " " + std::to_string(certificate.lemmas.size()) + " " + std::to_string(certificate.hints.size()) + "\n";
  append(text, certificate.lemmas);
  append(text, certificate.hints);
  write_file(path, text);
}

void write_certificate(const std::string &path, const ForeverCertificate &certificate) {
  const Certificate &refutation = certificate.refutation;
  std::string text = FOREVER_HEADING;
  for (size_t count : {certificate.invariant.size(), certificate.requests.size(), refutation.lemmas.size(), refutation.hints.size()})
    text += " " + std::to_string(count);
  text += "\n";
  append(text, certificate.invariant);
  append(text, certificate.requests);
  append(text, refutation.lemmas);
  append(text, refutation.hints);
  write_file(path, text);
}

Formula formula_of(const Chip &chip, const Property &property, uint32_t depth) {
  Formula made;
  made.variables =
      tell_formula(chip, property, depth, [&](const int32_t *group, size_t count) { made.numbers.insert(made.numbers.end(), group, group + count); });
  return made;
}

std::string sheet_of(const Chip &chip, const Property &property) {
  std::string sheet(MARRUBIGAI_SHEET_BYTES, '\0');
  auto reply = marrubigai_write_sheet(chip.of(property), chip.latch_list(), chip.net.latches, chip.gate_list(), chip.net.gates,
                                      reinterpret_cast<uint8_t *>(sheet.data()), sheet.size());
  test(reply.number, "the sheet could not be written");
  sheet.resize(reply.count);
  return sheet;
}

Checked check(const Chip &chip, const Property &property, uint32_t depth, const Certificate &certificate) {
  size_t numbers = 0; // of the formula, which is not kept here beside the one in the store
  uint32_t variables = tell_formula(chip, property, depth, [&](const int32_t *, size_t count) { numbers += count; });
  char depth_line[16];
  std::snprintf(depth_line, sizeof depth_line, "%10u\n", static_cast<unsigned>(depth));
  std::string input = depth_line + sheet_of(chip, property);
  std::vector<int32_t> store(numbers + certificate.lemmas.size() + 1); // one more, so that there is an address to lend
  std::vector<uint32_t> marks(2 * (size_t{variables} + 1));
  auto reply = marrubigai_certify(reinterpret_cast<const uint8_t *>(input.data()), input.size(), lent(certificate.lemmas), certificate.lemmas.size(),
                                  lent(certificate.hints), certificate.hints.size(), store.data(), store.size(), marks.data(), marks.size());
  test(reply.number, "the certificate could not be checked");
  return {reply.certified == 1, reply.lemma};
}

Checked check(const Chip &chip, const Property &property, const ForeverCertificate &certificate) {
  const Certificate &refutation = certificate.refutation;
  std::string sheet = sheet_of(chip, property);
  std::vector<int32_t> store(certificate.requests.size() / 3 * 5 + certificate.invariant.size() + refutation.lemmas.size() + 1);
  // Behind the bits of the state, five variables take turns: the bits behind the step, the wires, 32 matches a word, and the invariant's places.
  size_t bits = StateBits(chip.net).count;
  size_t most = std::max({bits, size_t{chip.wires()}, size_t{32} << chip.net.m, certificate.invariant.size()}) + 1;
  std::vector<uint32_t> marks(2 * (bits + 5 * (most + 1)));
  auto reply = marrubigai_certify_forever(reinterpret_cast<const uint8_t *>(sheet.data()), sheet.size(), lent(certificate.invariant),
                                          certificate.invariant.size(), lent(certificate.requests), certificate.requests.size(),
                                          lent(refutation.lemmas), refutation.lemmas.size(), lent(refutation.hints), refutation.hints.size(),
                                          store.data(), store.size(), marks.data(), marks.size());
  test(reply.number, "the certificate could not be checked");
  return {reply.certified == 1, reply.lemma};
}
