#include "confirm.h"

#include <stdlib.h>
#include <unistd.h>

#include <algorithm>
#include <cerrno>
#include <cstdio>
#include <cstring>
#include <set>
#include <sstream>

#include "failure.h"
#include "files.h"
#include "process.h"

namespace {

// a folder that goes with what is in it
class Scratch {
public:
  Scratch() {
    const char *parent = std::getenv("TMPDIR");
    path = std::string(parent && *parent ? parent : "/tmp") + "/marrubigai.XXXXXX";
    if (!mkdtemp(path.data())) throw Failure(path + ": no folder can be made there: " + std::strerror(errno));
  }
  Scratch(const Scratch &) = delete;
  Scratch &operator=(const Scratch &) = delete;
  ~Scratch() {
    for (const char *name : {"/bench.v", "/bench.vvp"}) unlink((path + name).c_str());
    rmdir(path.c_str());
  }
  std::string path;
};

std::string literal(Bits bits) {
  std::replace(bits.begin(), bits.end(), 'x', '0'); // nothing that is asked about depends on it
  return std::to_string(bits.size()) + "'b" + std::string(bits.rbegin(), bits.rend());
}

// Frame i has its edge at time 2i + 1; its inputs are set at 2i.
std::string bench_text(const Options &options, const Chip &chip, const Run &run) {
  const Bench &bench = chip.bench;
  std::ostringstream text;
  text << "module marrubigai_bench;\n  reg \\" << bench.clock << "  = " << !bench.rising << ";\n";
  for (const Word &input : bench.inputs) text << "  reg [" << input.codes.size() - 1 << ":0] \\" << input.name << " ;\n";
  text << "  " << bench.top;
  for (size_t at = 0; at < options.parameters.size(); at++) {
    const std::string &parameter = options.parameters[at];
    size_t equals = parameter.find('=');
    text << (at ? ", ." : " #(.") << parameter.substr(0, equals) << "(" << parameter.substr(equals + 1) << ")";
  }
  text << (options.parameters.empty() ? "" : ")") << " dut (.\\" << bench.clock << " (\\" << bench.clock << " )";
  for (const Word &input : bench.inputs) text << ", .\\" << input.name << " (\\" << input.name << " )";
  text << ");\n  initial begin\n";
  auto set_inputs = [&](uint32_t frame) {
    for (const Word &input : bench.inputs) text << "    \\" << input.name << "  = " << literal(run.bits(input.codes, frame)) << ";\n";
  };
  set_inputs(0);
  text << "    #0;\n"; // behind the design's own initial blocks
  for (const Word &unknown : bench.unknown) text << "    $deposit(dut." << unknown.name << ", " << literal(run.bits(unknown.codes, 0)) << ");\n";
  // the words that a run reads of what the memory begins as
  std::set<Bits> filled;
  for (const Access &access : accesses(chip, run))
    for (const Access::Read &read : access.reads)
      if (!read.writer && filled.insert(read.address).second)
        for (const Array &array : chip.arrays) {
          auto low = read.word.begin() + static_cast<std::ptrdiff_t>(array.low);
          Bits word(low, low + static_cast<std::ptrdiff_t>(array.width));
          text << "    dut." << array.name << "[" << literal(read.address) << "] = " << literal(word) << ";\n";
        }
  for (uint32_t i = 0; i < run.frames(); i++) {
    if (i > 0) set_inputs(i);
    text << "    #1 \\" << bench.clock << "  = " << bench.rising << "; #1 \\" << bench.clock << "  = " << !bench.rising << ";\n";
  }
  text << "    $finish;\n  end\nendmodule\n";
  return text.str();
}

// iverilog's `ERROR: file.v:44:` and below it `Time: 3`: whether the assertion failed in the frame. Its line is one of those that the statement has.
bool has_failed(const std::string &said, const Property &property, uint32_t frame) {
  std::istringstream lines(said);
  std::string line, file = "ERROR: " + property.source.substr(0, property.source.rfind(':') + 1);
  bool ours = false;
  while (std::getline(lines, line)) {
    unsigned number = 0, time = 0;
    if (line.compare(0, 7, "ERROR: ") == 0) {
      ours = line.compare(0, file.size(), file) == 0 && std::sscanf(line.c_str() + file.size(), "%u", &number) == 1 &&
             number >= property.first_line && number <= property.last_line;
    } else if (ours && std::sscanf(line.c_str(), " Time: %u", &time) == 1 && time / 2 == frame) {
      return true;
    }
  }
  return false;
}

} // namespace

std::string confirm(const Options &options, const Chip &chip, const Property &property, const Run &run, Stop &stop) {
  if (property.kind == Property::Kind::cover) return "not tried by iverilog: a cover says nothing there";
  if (!chip.bench.obstacle.empty()) return "not tried by iverilog: " + chip.bench.obstacle;
  Scratch scratch;
  std::string file = scratch.path + "/bench.v", program = scratch.path + "/bench.vvp";
  write_file(file, bench_text(options, chip, run));
  std::vector<std::string> compile{"iverilog", "-g2012", "-DFORMAL", "-s", "marrubigai_bench", "-o", program};
  for (const std::string &macro : options.macros) compile.push_back("-D" + macro);
  for (const std::string &folder : options.folders) compile.push_back("-I" + folder);
  compile.push_back(file);
  for (const std::string &source : options.files) compile.push_back(source[0] == '-' ? "./" + source : source);
  Finished compiled = run_program(compile, stop);
  if (compiled.missing) throw Failure("--confirm: iverilog is missing: Debian has a package iverilog");
  if (compiled.status != 0) return "not tried by iverilog, which cannot take the files: " + compiled.said.substr(0, compiled.said.find('\n'));
  Finished simulated = run_program({"vvp", "-n", program}, stop);
  if (simulated.status != 0) return "not tried by iverilog: vvp ended with " + std::to_string(simulated.status);
  if (has_failed(simulated.said, property, run.first)) return "confirmed by iverilog on the original files";
  throw Failure(property.source + ": iverilog, fed the run that was found, sees no failure of this assertion in frame " + std::to_string(run.first) +
                ".\nWhat yosys and this command made of the design is not the design, or the run needs something that Verilog leaves undefined.");
}
