#include "refutation.h"

#include <fcntl.h>
#include <stdlib.h>
#include <unistd.h>

#include <cerrno>
#include <cstring>

#include "certificate.h"
#include "elaborate.h"
#include "failure.h"

namespace {

// a file in binary DRAT, line by line
class DratReader {
public:
  explicit DratReader(std::FILE *read) : file(read) {}
  uint64_t place() const { return at; } // of the next line

  enum class Line { addition, deletion, end };
  // the next line's clause
  Line next(std::vector<int32_t> &clause) {
    clause.clear();
    int kind = byte();
    if (kind == EOF) return Line::end;
    if (kind != 'a' && kind != 'd') throw NoCertificate("a line of it begins with the byte " + std::to_string(kind));
    for (uint32_t read; (read = number()) != 0;) {
      if (read == 1) throw NoCertificate("it has a literal without a variable");
      int32_t variable = static_cast<int32_t>(read / 2);
      clause.push_back(read % 2 ? -variable : variable);
    }
    return kind == 'a' ? Line::addition : Line::deletion;
  }

private:
  std::FILE *file;
  uint64_t at = 0;

  int byte() {
    int read = getc_unlocked(file);
    if (read != EOF) at++;
    return read;
  }

  // seven bits in each byte, the lowest first
  uint32_t number() {
    uint64_t value = 0;
    for (int shift = 0; shift < 35; shift += 7) {
      int read = byte();
      if (read == EOF) throw NoCertificate("it ends within a clause");
      value |= static_cast<uint64_t>(read & 127) << shift;
      if (read < 128 && value <= UINT32_MAX) return static_cast<uint32_t>(value);
    }
    throw NoCertificate("a number of it is too large");
  }
};

} // namespace

Refutation::Refutation() {
  const char *given = std::getenv("TMPDIR");
  std::string folder = given && *given ? given : "/tmp", path = folder + "/marrubigai.XXXXXX";
  int opened = mkostemp(path.data(), O_CLOEXEC);
  if (opened < 0) throw Failure(folder + ": no file can be made there: " + std::strerror(errno));
  unlink(path.c_str());
  file = fdopen(opened, "w+b");
  if (!file) {
    close(opened);
    throw Failure("no file can be made: " + std::string(std::strerror(errno)));
  }
}

Refutation::~Refutation() { std::fclose(file); }

void Refutation::trace(CaDiCaL::Solver &solver) {
  if (!solver.trace_proof(file, "refutation")) throw Failure("the solver does not write its refutation");
}

uint64_t Refutation::place(CaDiCaL::Solver &solver) {
  solver.flush_proof_trace();
  off_t length = std::fflush(file) == 0 && !std::ferror(file) ? ftello(file) : -1;
  if (length < 0)
    throw Failure("the solver's refutation could not be written: the disk is full, or a limit reached (TMPDIR names another folder for it)");
  return static_cast<uint64_t>(length);
}

void Refutation::reach(uint64_t place, uint32_t variable) { notes.push_back({place, lemmas.size(), variable}); }

void Refutation::add(uint64_t place, const std::vector<int32_t> &clauses) {
  lemmas.insert(lemmas.end(), clauses.begin(), clauses.end());
  notes.push_back({place, lemmas.size(), 0});
}

void Refutation::finish(CaDiCaL::Solver &solver) { place(solver); }

void Refutation::rename(std::vector<int32_t> &clause) const {
  for (int32_t &literal : clause) {
    size_t variable = static_cast<size_t>(std::abs(literal));
    int32_t name = variable <= names.size() ? names[variable - 1] : 0;
    if (!name) throw NoCertificate("it speaks of a variable that the formula has not");
    literal = literal < 0 ? -name : name;
  }
}

Learnt Refutation::learnt(Stop &stop) {
  std::rewind(file);
  DratReader reader(file);
  Learnt made;
  size_t note = 0, put = 0, added = 0, lines = 0;
  std::vector<int32_t> clause;
  for (;;) {
    for (; note < notes.size() && notes[note].place <= reader.place(); note++) {
      for (; put < notes[note].lemmas; put++) {
        made.numbers.push_back(lemmas[put]);
        added += lemmas[put] == 0;
      }
      if (notes[note].reach) made.reaches.push_back({notes[note].reach, added});
    }
    DratReader::Line line = reader.next(clause);
    if (line == DratReader::Line::end) break;
    if (!names.empty()) rename(clause);
    if (line == DratReader::Line::addition) {
      made.numbers.insert(made.numbers.end(), clause.begin(), clause.end());
      made.numbers.push_back(0);
      added++;
    } else {
      made.deletions.push_back({clause_key(clause.data(), clause.data() + clause.size()), added});
    }
    if (++lines % 4096 == 0 && stop.terminate()) throw Stopped();
    if (made.numbers.size() > MOST_NUMBERS) throw NoCertificate("it has more than " + std::to_string(MOST_NUMBERS) + " numbers, too many to be kept");
  }
  if (note < notes.size()) throw NoCertificate("it is shorter than it was");
  made.left_out = left_out;
  return made;
}
