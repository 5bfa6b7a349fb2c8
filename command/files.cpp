#include "files.h"

#include <fcntl.h>
#include <sys/stat.h>
#include <unistd.h>

#include <cerrno>
#include <cstdio>
#include <cstring>

#include "failure.h"
#include "refusals.h"

namespace {

constexpr size_t MOST_BYTES = size_t{1} << 28; // no netlist that the engine takes comes near

[[noreturn]] void fail(const std::string &path, const std::string &what) { throw Failure(path + ": " + what + ": " + std::strerror(errno)); }

struct Descriptor {
  int number;
  explicit Descriptor(int opened) : number(opened) {}
  Descriptor(const Descriptor &) = delete;
  Descriptor &operator=(const Descriptor &) = delete;
  ~Descriptor() { if (number >= 0) close(number); }
};

std::string folder_of(const std::string &path) {
  size_t slash = path.rfind('/');
  if (slash == std::string::npos) return ".";
  return slash == 0 ? "/" : path.substr(0, slash);
}

} // namespace

std::string read_file(const std::string &path) {
  Descriptor file(open(path.c_str(), O_RDONLY | O_CLOEXEC));
  if (file.number < 0) fail(path, "it cannot be opened");
  std::string content;
  char buffer[1 << 16];
  for (;;) {
    ssize_t count = read(file.number, buffer, sizeof buffer);
    if (count < 0 && errno == EINTR) continue;
    if (count < 0) fail(path, "it cannot be read");
    if (count == 0) return content;
    content.append(buffer, static_cast<size_t>(count));
    if (content.size() > MOST_BYTES) throw Failure(path + ": it is too long for a sheet or a text");
  }
}

void test_writable(const std::string &path) {
  struct stat found;
  if (stat(path.c_str(), &found) == 0) {
    if (S_ISDIR(found.st_mode)) throw Failure(path + ": it is a folder, and a file is to be written there");
    if (access(path.c_str(), W_OK) != 0) fail(path, "it cannot be written");
  } else if (errno != ENOENT || access(folder_of(path).c_str(), W_OK | X_OK) != 0) {
    fail(path, "it cannot be written");
  }
}

void write_file(const std::string &path, const std::string &text) {
  int opened = open(path.c_str(), O_WRONLY | O_CREAT | O_TRUNC | O_CLOEXEC, 0666);
  if (opened < 0) fail(path, "it could not be written");
  for (size_t done = 0; done < text.size();) {
    ssize_t count = write(opened, text.data() + done, text.size() - done);
    if (count < 0 && errno == EINTR) continue;
    if (count < 0) {
      int why = errno;
      close(opened);
      errno = why;
      fail(path, "it could not be written");
    }
    done += static_cast<size_t>(count);
  }
  if (close(opened) != 0) fail(path, "it could not be written");
}

void make_folder(const std::string &path) {
  struct stat found;
  if (mkdir(path.c_str(), 0777) != 0 && errno != EEXIST) fail(path, "the folder cannot be made");
  if (stat(path.c_str(), &found) != 0 || !S_ISDIR(found.st_mode)) throw Failure(path + ": it is no folder");
  if (access(path.c_str(), W_OK | X_OK) != 0) fail(path, "nothing can be written there");
}

bool same_file(const std::string &left, const std::string &right) {
  struct stat a, b;
  return stat(left.c_str(), &a) == 0 && stat(right.c_str(), &b) == 0 && a.st_dev == b.st_dev && a.st_ino == b.st_ino;
}

bool ends_with(const std::string &text, const std::string &end) {
  return text.size() >= end.size() && text.compare(text.size() - end.size(), end.size(), end) == 0;
}

std::string other_kind(const std::string &content) {
  static const struct { const char *begin, *kind; } kinds[] = {
      {"aig ", "a netlist in binary AIGER; write it in ASCII (aigtoaig, or yosys' write_aiger -ascii)"},
      {"p cnf ", "a formula in DIMACS CNF; the sheet or the Verilog that it was made of is wanted"},
      {"$date", "a waveform (VCD)"},
      {"$comment", "a waveform (VCD)"},
      {".model", "a netlist in BLIF; write it as ASCII AIGER, or give the Verilog"},
      {"; BTOR", "a netlist in BTOR2; give the Verilog"},
      {"{", "JSON; give the Verilog"},
      {"\177ELF", "a program"},
      {"\037\213", "compressed; unpack it first"},
      {"PK\003\004", "an archive; unpack it first"},
  };
  unsigned number = 0, place = 0;
  if (std::sscanf(content.c_str(), "refused%10u%10u", &number, &place) == 2) // what a program prints in place of a sheet
    return "the refusal of an import or a conversion: " + refusal_word(number) + (place ? " at line " + std::to_string(place) : "") + "\n" +
           refusal_hint(number);
  for (auto &known : kinds)
    if (content.compare(0, std::strlen(known.begin), known.begin) == 0) return known.kind;
  if (content.find('\0') != std::string::npos) return "binary data";
  return "";
}
