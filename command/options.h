// The command line.
#pragma once

#include <cstdint>
#include <optional>
#include <string>
#include <vector>

enum class Radix { hex, dec, bin };

// what the memory's words begin as: what the file says, unknown, or one word
struct Start {
  enum class Kind { as_given, unknown, word } kind = Kind::as_given;
  uint32_t word = 0;
};

// an input that is held for the first frames and let go then
struct Reset {
  std::string name;
  bool active_low = false;
  uint32_t frames = 1;
};

constexpr uint32_t MOST_DEPTH = 255;

struct Widths {
  uint32_t address = 0, data = 0, ports = 1;
};

struct Options {
  std::vector<std::string> files;
  // Verilog, as yosys takes it
  std::string top;
  std::vector<std::string> macros, folders, parameters;
  std::vector<Reset> resets;
  std::string memory; // the array that stays a memory where a design has several
  // ASCII AIGER and sheets
  std::optional<Widths> widths;
  std::string names_file;
  // what is looked for, and how far
  std::vector<std::string> properties, covers;
  Start start;
  uint32_t depth = 50, from = 0;
  bool any = false;
  bool prove = false; // for every frame
  std::string invariant_file; // facts that are stated for that
  double timeout = 0; // seconds; 0 is none
  // what is shown
  std::string vcd_file, keep_folder;
  std::string certificate_file, check_file; // to be written; to be checked
  Radix radix = Radix::hex;
  std::vector<std::string> watched;
  bool json = false, quiet = false, confirm = false;
  bool show_version = false, show_help = false;
};

// throws a Failure with status USAGE
Options parse_options(int count, char **arguments);

extern const char *const usage_line;
extern const char *const help_text;
