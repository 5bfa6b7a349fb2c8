#include "verilog.h"

#include <algorithm>
#include <cstdio>
#include <optional>
#include <set>

#include "emission.h"
#include "arrays.h"
#include "failure.h"
#include "files.h"
#include "yosys.h"

namespace {

// an assert or a cover, with the literal of the frames that break it or reach it
struct Statement {
  Property property;
  Lit seen = FALSE; // whatever is assumed
  std::vector<Lit> reads; // for the table: the words that it reads are looked for from here
};

bool is_asked_about(const std::string &type) { return type == "$assert" || type == "$cover"; }

// by a label, or by the line where it stands
std::string name_of(const Design &design, const Cell &cell) {
  if (!cell.hidden) return cell.name;
  for (const Cell &other : design.cells)
    if (&other != &cell && is_asked_about(other.type) && other.hidden && other.source == cell.source) return cell.column_source;
  return cell.source;
}

// Without one, yosys leaves nothing of the design.
void test_statements(const Design &design) {
  for (const Cell &cell : design.cells)
    if (is_asked_about(cell.type)) return;
  throw Failure(design.top + ": the design has no assert and no cover: there is nothing to ask about.\n"
                             "Write assert (..) in an always block, in lines that `ifdef FORMAL keeps from other tools.");
}

class Chipmaker {
public:
  Chipmaker(const Design &read, const Options &wanted, const PortPlan &plan, Stop &when)
      : design(read), options(wanted), stop(when), logic(read, wanted.resets), cut(logic, only_memory(read, wanted.memory), plan) {}

  std::vector<Property> asked_about() {
    find_statements();
    std::vector<Property> made;
    for (const Statement &statement : statements) made.push_back(statement.property);
    return made;
  }

  PortPlan plan(size_t most_ports) {
    find_roots();
    std::vector<Lit> roots = seen;
    roots.insert(roots.end(), watched.begin(), watched.end());
    return cut.plan_ports(roots, most_ports);
  }

  Chip make() {
    find_roots();
    Memory memory = cut.finish();
    Lit started = logic.started();
    Emission emission = emit(logic.aig, memory, seen, watched, options.start, stop);
    Chip &chip = emission.chip;
    for (size_t at = 0; at < statements.size(); at++) {
      statements[at].property.code = emission.seen[at] ^ 1;
      chip.properties.push_back(statements[at].property);
    }
    if (assumed != TRUE) chip.assumptions = emission.seen.back();
    chip.net.p = chip.properties[0].code;
    chip.notes.insert(chip.notes.end(), memory.notes.begin(), memory.notes.end());
    chip.notes.insert(chip.notes.end(), design.warnings.begin(), design.warnings.end());
    note_inputs(emission);
    name_words(emission);
    set_bench(emission);
    chip.own.push_back({"started", {emission.code(started)}});
    chip.own.push_back({"assumed", {emission.code(assumed)}});
    return chip;
  }

private:
  const Design &design;
  const Options &options;
  Stop &stop;
  Logic logic;
  MemoryCut cut;
  std::vector<Statement> statements;
  // What is kept of the design is what these depend on. `seen`: of each statement, under the assumptions; and these, where there are some.
  std::vector<Lit> seen, watched;
  Lit assumed = TRUE; // a register, true as long as all assumptions held

  void find_roots() {
    find_statements();
    Lit allowed = assumptions();
    for (const Statement &statement : statements) seen.push_back(logic.aig.land(statement.seen, allowed));
    if (assumed != TRUE) seen.push_back(allowed);
    for (const std::string &name : options.watched) {
      std::vector<Lit> bits = logic.lits(watched_net(name).bits);
      watched.insert(watched.end(), bits.begin(), bits.end());
    }
  }

  bool is_wanted(const Property &property) const {
    if (options.properties.empty() && options.covers.empty()) return true;
    const auto &names = property.kind == Property::Kind::cover ? options.covers : options.properties;
    return std::any_of(names.begin(), names.end(), [&](const std::string &name) { return name == property.name || name == property.source; });
  }

  void find_statements() {
    std::vector<Property> all;
    for (const Cell &cell : design.cells) {
      if (!is_asked_about(cell.type)) continue;
      Statement statement;
      statement.property.kind = cell.type == "$cover" ? Property::Kind::cover : Property::Kind::assertion;
      statement.property.name = name_of(design, cell);
      statement.property.source = cell.source;
      statement.property.first_line = cell.first_line;
      std::sscanf(cell.source.c_str() + cell.source.rfind(':') + 1, "%u", &statement.property.last_line);
      all.push_back(statement.property);
      if (!is_wanted(statement.property)) continue;
      Lit enable = logic.lit(cell.port("EN")[0]);
      Lit holds = logic.where(logic.lit(cell.port("A")[0]), enable); // yosys leaves it undefined elsewhere
      statement.seen = logic.aig.land(enable, statement.property.kind == Property::Kind::cover ? holds : holds ^ 1);
      statement.reads = {enable, holds};
      statements.push_back(statement);
    }
    test_names(all, Property::Kind::assertion, options.properties, "--property ");
    test_names(all, Property::Kind::cover, options.covers, "--cover ");
    std::stable_sort(statements.begin(), statements.end(), [](const Statement &left, const Statement &right) {
      return std::make_pair(left.property.kind, left.property.last_line) < std::make_pair(right.property.kind, right.property.last_line);
    });
  }

  void test_names(const std::vector<Property> &all, Property::Kind kind, const std::vector<std::string> &names, const char *option) const {
    for (const std::string &name : names) {
      std::string known;
      bool found = false;
      for (const Property &property : all) {
        if (property.kind != kind) continue;
        found = found || property.name == name || property.source == name;
        known += (known.empty() ? "" : ", ") + property.name;
      }
      if (!found) throw Failure(option + name + ": there is none of this name" + (known.empty() ? "" : "; there are " + known));
    }
  }

  // True where every assumption holds in this frame and held in all before: an assumption that a run breaks only later does not excuse it.
  Lit assumptions() {
    Lit now = TRUE;
    for (const Cell &cell : design.cells) {
      if (cell.type != "$assume") continue;
      Lit enable = logic.lit(cell.port("EN")[0]);
      now = logic.aig.land(now, logic.aig.land(enable, logic.where(logic.lit(cell.port("A")[0]), enable) ^ 1) ^ 1);
    }
    if (now == TRUE) return TRUE;
    assumed = logic.aig.add_latch(true);
    Lit allowed = logic.aig.land(assumed, now);
    logic.aig.set_next(assumed, allowed);
    return allowed;
  }

  const Net &watched_net(const std::string &name) const {
    for (const Net &net : design.nets)
      if (net.name == name) return net;
    throw Failure("--watch " + name + ": the design has no signal of this name; one of an inner module has its instance in front, as ram.q");
  }

  void note_inputs(Emission &emission) const {
    Chip &chip = emission.chip;
    for (const auto &[wire, input] : logic.undriven) {
      if (emission.code(input) == NO_CODE) continue;
      chip.notes.push_back("the wire " + wire + " has no driver: it may be anything in each frame");
      chip.bench.obstacle = "the wire " + wire + " has no driver";
    }
    auto kept = std::count_if(logic.undefined.begin(), logic.undefined.end(), [&](Lit input) { return emission.code(input) != NO_CODE; });
    if (kept > 0) {
      chip.notes.push_back(std::to_string(kept) + " bits are left undefined (x) by the source: they may be anything in each frame");
      chip.bench.obstacle = "it depends on what the source leaves undefined";
    }
    for (const Cell &cell : design.cells)
      if (cell.type == "$live" || cell.type == "$fair") chip.notes.push_back(cell.source + ": what shall hold some time is not asked about");
  }

  // for a simulator: the clock, all inputs, and the registers that begin as the run says
  void set_bench(Emission &emission) const {
    Bench &bench = emission.chip.bench;
    bench.top = design.top;
    bench.rising = logic.is_rising();
    for (const Net &net : design.nets) {
      Word word = word_of(net, emission);
      word.name = net.name; // without a range
      if (is_input(net) && logic.is_clock(net.bits[0])) bench.clock = net.name;
      else if (is_input(net)) bench.inputs.push_back(word);
      else if (std::any_of(net.bits.begin(), net.bits.end(), [&](Bit bit) {
                 auto known = logic.values().find(bit);
                 return known != logic.values().end() && logic.begins_unknown(known->second / 2) && emission.code(known->second) != NO_CODE;
               }))
        bench.unknown.push_back(word);
    }
  }

  // The names of the source for what the chip has; of several names for the same bits the table shows that of the outermost module.
  void name_words(Emission &emission) {
    Chip &chip = emission.chip;
    std::vector<const Net *> nets;
    for (const Net &net : design.nets) nets.push_back(&net);
    auto rank = [](const Net *net) { return std::count(net->name.begin(), net->name.end(), '.'); };
    std::stable_sort(nets.begin(), nets.end(), [&](const Net *left, const Net *right) {
      return std::make_tuple(rank(left), left->place) < std::make_tuple(rank(right), right->place);
    });
    std::set<std::vector<uint32_t>> shown;
    std::map<uint32_t, Word> by_wire; // for the words that a property reads
    std::vector<Word> inputs, registers;
    for (const Net *net : nets) {
      Word word = word_of(*net, emission);
      bool has_bits = std::any_of(word.codes.begin(), word.codes.end(), [](uint32_t code) { return code != NO_CODE && code > 1; });
      if (!has_bits) continue;
      chip.named.push_back(word);
      if (!shown.insert(word.codes).second) continue;
      for (uint32_t code : word.codes)
        if (code != NO_CODE) by_wire.emplace(code / 2, word);
      if (is_input(*net)) inputs.push_back(word);
      else if (is_register(*net)) registers.push_back(word);
    }
    if (!options.watched.empty()) {
      for (const std::string &name : options.watched) chip.shown.push_back(word_of(watched_net(name), emission));
      return;
    }
    chip.shown = inputs;
    chip.shown.insert(chip.shown.end(), registers.begin(), registers.end());
    for (size_t p = 0; p < statements.size(); p++) chip.properties[p].read = words_read(emission, by_wire, statements[p].reads);
  }

  Word word_of(const Net &net, const Emission &emission) const {
    Word word{net.name, {}};
    for (Bit bit : net.bits) {
      auto known = logic.values().find(bit);
      bool has_value = known != logic.values().end() && !logic.is_clock(bit);
      word.codes.push_back(bit == BIT_0 ? 0 : bit == BIT_1 ? 1 : has_value ? emission.code(known->second) : NO_CODE);
    }
    int high = net.low + static_cast<int>(net.bits.size()) - 1;
    if (net.low != 0 || net.upwards) word.name += "[" + std::to_string(high) + ":" + std::to_string(net.low) + "]";
    return word;
  }

  bool is_input(const Net &net) const {
    return std::any_of(design.ports.begin(), design.ports.end(),
                       [&](const Port &port) { return port.direction == "input" && port.name == net.name; });
  }

  bool is_register(const Net &net) const {
    return std::any_of(net.bits.begin(), net.bits.end(), [&](Bit bit) {
      auto known = logic.values().find(bit);
      return known != logic.values().end() && logic.register_nodes().count(known->second / 2) > 0;
    });
  }

  // Back from the statement to the first names on each path.
  std::vector<Word> words_read(const Emission &emission, const std::map<uint32_t, Word> &by_wire, std::vector<Lit> stack) const {
    std::vector<Word> words;
    std::set<uint32_t> met;
    while (!stack.empty()) {
      Lit literal = stack.back();
      stack.pop_back();
      if (!met.insert(literal / 2).second) continue;
      uint32_t code = emission.code(literal);
      auto named = code == NO_CODE ? by_wire.end() : by_wire.find(code / 2);
      if (named != by_wire.end()) {
        const Word &word = named->second;
        if (std::none_of(words.begin(), words.end(), [&](const Word &other) { return other.name == word.name; })) words.push_back(word);
        continue;
      }
      const Aig::Node &node = logic.aig.node(literal / 2);
      if (node.kind != Aig::Kind::gate) continue;
      stack.push_back(node.left);
      stack.push_back(node.right);
    }
    return words;
  }
};

Chip chip_of_design(const Design &design, const Options &options, size_t most_ports, Stop &stop) {
  const Cell &memory = only_memory(design, options.memory);
  if (most_ports == 1) return Chipmaker(design, options, one_port(memory), stop).make();
  PortPlan plan = Chipmaker(design, options, port_for_each(memory), stop).plan(most_ports);
  return Chipmaker(design, options, plan, stop).make();
}

std::vector<Chip> chips_of_design(const Design &design, const Options &options, size_t most_ports, Stop &stop) {
  test_statements(design);
  try {
    return {chip_of_design(design, options, most_ports, stop)};
  } catch (const TooLarge &together) {
    std::vector<Property> statements = Chipmaker(design, options, one_port(only_memory(design, options.memory)), stop).asked_about();
    if (statements.size() < 2) throw;
    std::vector<Chip> chips;
    for (const Property &statement : statements) {
      Options one = options;
      one.properties.clear(), one.covers.clear();
      (statement.kind == Property::Kind::cover ? one.covers : one.properties).push_back(statement.name);
      try {
        chips.push_back(chip_of_design(design, one, most_ports, stop));
      } catch (const TooLarge &alone) {
        throw Failure(statement.name + ", asked about by itself: " + alone.message);
      }
    }
    return chips;
  }
}

// Fewer ports make fewer clauses, and reads that have their registers fit where others do not.
std::vector<Chip> chips_by_ports(const Design &as_written, const Options &options, Stop &stop) {
  std::optional<Design> clocked;
  std::optional<NoFit> no_fit;
  for (size_t most_ports : {size_t{1}, size_t{2}, MOST_PORTS}) {
    try {
      return chips_of_design(as_written, options, most_ports, stop);
    } catch (const NoFit &why) {
      no_fit = why;
    }
    if (!clocked) clocked = join_arrays(read_verilog(options, Reads::clocked, stop));
    try {
      return chips_of_design(*clocked, options, most_ports, stop);
    } catch (const NoFit &) {
    }
  }
  throw *no_fit;
}

} // namespace

bool is_verilog(const std::string &path) { return ends_with(path, ".v") || ends_with(path, ".sv"); }

std::vector<Chip> chips_of_verilog(const Options &options, Stop &stop) {
  for (const std::string &file : options.files)
    if (!is_verilog(file)) throw Failure(file + ": only Verilog (.v, .sv) can be given in several files", USAGE);
  Design as_written = join_arrays(read_verilog(options, Reads::as_written, stop));
  try {
    return chips_by_ports(as_written, options, stop);
  } catch (Failure &failure) {
    std::string choices = choices_of(as_written);
    if (!choices.empty()) failure.message += "\nOr let one array stay a memory; the others become registers, which fits where they are small:" + choices;
    throw;
  }
}
