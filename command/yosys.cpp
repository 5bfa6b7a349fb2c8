#include "yosys.h"

#include <sstream>

#include "failure.h"
#include "files.h"
#include "process.h"
#include "source.h"

namespace {

// A word of a yosys script. Names with spaces are quoted; yosys has no way to write one with a quote.
std::string word(const std::string &text, const char *what) {
  if (text.find_first_of("\"\n\r") != std::string::npos) throw Failure(text + ": yosys cannot take " + what + " with a quote or a line end in it");
  return text.find_first_of(" \t;#") == std::string::npos ? text : "\"" + text + "\"";
}

// without quotes too, where yosys does not take them off again
std::string bare(const std::string &text, const char *what) {
  if (text.find_first_of(" \t;#\"\n\r") == std::string::npos) return text;
  throw Failure(text + ": yosys cannot take " + what + " with a blank, a quote, ; or # in it");
}

std::string reading(const Options &options) {
  std::ostringstream lines;
  for (const std::string &file : options.files) {
    lines << "read_verilog -formal" << (ends_with(file, ".sv") ? " -sv" : "");
    for (const std::string &macro : options.macros) lines << " -D" << bare(macro, "a macro");
    for (const std::string &folder : options.folders) lines << " -I" << bare(folder, "a folder");
    lines << " " << word(file[0] == '-' ? "./" + file : file, "a file name") << "\n";
  }
  return lines.str();
}

std::string hierarchy(const Options &options, const std::string &top) {
  std::ostringstream line;
  line << "hierarchy -check " << (top.empty() ? "-auto-top" : "-top " + bare(top, "a module"));
  for (const std::string &parameter : options.parameters) {
    size_t equals = parameter.find('=');
    if (equals == std::string::npos || equals == 0) throw Failure("-P " + parameter + ": NAME=VALUE is wanted", USAGE);
    line << " -chparam " << bare(parameter.substr(0, equals), "a parameter") << " " << bare(parameter.substr(equals + 1), "a value");
  }
  return line.str() + "\n";
}

// What is undefined stays so (-keepdc): each such bit is an input of its own later. Statements are asked about in the frame that they are of. yosys
// takes a register into a read only where it has found its enable, which leaves more undefined than the source does: so only there.
std::string synthesis(const Options &options, Reads reads) {
  std::ostringstream lines;
  bool as_written = reads == Reads::as_written;
  lines << "proc\nflatten\nchformal -early\nopt -keepdc" << (as_written ? " -nodffe -nosdff" : "") << "\n"
        << "memory -nomap -nowiden -norom" << (as_written ? " -nordff" : "") << "\nmemory_map -rom-only -keepdc\n";
  if (!options.memory.empty()) lines << "memory_map t:$mem_v2 c:" << bare(options.memory, "a memory's name") << " %d\n";
  lines << "opt -keepdc -nodffe -nosdff\nasync2sync\ndffunmap\ntechmap\nopt -keepdc -nodffe -nosdff\naigmap\nopt_clean\n"
           "write_json /dev/fd/3\n";
  return lines.str();
}

// yosys' own lines that tell what is wrong
std::string complaint(const std::string &said) {
  std::istringstream lines(said);
  std::string line, kept;
  while (std::getline(lines, line))
    if (!line.empty()) kept += "\n  yosys: " + line;
  return kept.empty() ? "\n  yosys says nothing" : kept;
}

Finished run_yosys(const Options &options, const std::string &script, Stop &stop) {
  Finished finished = run_program({"yosys", "-Q", "-T", "-q", "-p", script}, stop);
  if (finished.missing) throw Failure("yosys is missing, which reads the Verilog: Debian has a package yosys");
  if (finished.status != 0) throw Failure(options.files[0] + ": yosys makes no netlist of it:" + complaint(finished.said));
  return finished;
}

std::vector<std::string> warnings_of(const std::string &said) {
  std::vector<std::string> warnings;
  std::istringstream lines(said);
  std::string line;
  while (std::getline(lines, line))
    if (line.find("Warning: ") != std::string::npos) warnings.push_back("yosys: " + line);
  return warnings;
}

// The top module where the user does not say which, asked for by itself: yosys sets parameters only of one that it is told.
std::string found_top(const Options &options, Stop &stop) {
  std::istringstream words(run_yosys(options, reading(options) + "hierarchy -auto-top\ntee -q -o /dev/fd/3 ls A:top\n", stop).written);
  std::string each, last;
  while (words >> each) last = each;
  return last;
}

} // namespace

Design read_verilog(const Options &options, Reads reads, Stop &stop) {
  std::vector<std::pair<std::string, std::string>> files; // what cannot be read is told as of any other file
  for (const std::string &file : options.files) files.emplace_back(file, read_file(file));
  test_struct_arrays(files);
  std::string top = options.top;
  if (top.empty() && !options.parameters.empty()) top = found_top(options, stop);
  Finished finished = run_yosys(options, reading(options) + hierarchy(options, top) + synthesis(options, reads), stop);
  Design design = read_design(finished.written);
  design.warnings = warnings_of(finished.said);
  return design;
}
