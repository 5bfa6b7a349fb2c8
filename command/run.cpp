#include "run.h"

#include <algorithm>
#include <map>
#include <set>

#include "failure.h"
#include "refusals.h"

namespace {

// what the run is fed, in the SAT Competition's form: the inputs and read bits of all frames
std::string answer_text(const Chip &chip, const std::vector<marrubigai_position> &frames, uint32_t depth, const std::function<bool(int32_t)> &value) {
  std::string text = "s SATISFIABLE\n";
  auto add = [&](uint32_t wire, const marrubigai_position &position) {
    auto reply = marrubigai_literal_at(chip.net, position, 2 * wire);
    if (reply.number != MARRUBIGAI_PASSED) throw Failure("the literal of a wire: " + refusal_word(reply.number));
    text += "v " + std::to_string(value(reply.literal) ? reply.literal : -reply.literal) + "\n";
  };
  for (uint32_t i = 0; i <= depth; i++) {
    for (uint32_t w = 1; w <= chip.net.inputs; w++) add(w, frames[i]);
    for (uint32_t t = 0; t < chip.read_bits(); t++) add(chip.first_read() + t, frames[i]);
  }
  return text + "v 0\n";
}

} // namespace

bool Run::value(uint32_t code, uint32_t frame) const {
  bool bit = code >= 2 && wires[frame][code / 2 - 1] == '1';
  return bit != (code % 2 == 1);
}

Bits Run::bits(const std::vector<uint32_t> &codes, uint32_t frame) const {
  Bits made;
  for (uint32_t code : codes) made.push_back(code == NO_CODE ? 'x' : value(code, frame) ? '1' : '0');
  return made;
}

Run replay(const Chip &chip, const Property &property, const std::vector<marrubigai_position> &frames, uint32_t depth,
           const std::function<bool(int32_t)> &value) {
  std::string answer = answer_text(chip, frames, depth, value);
  std::vector<uint32_t> memory(MARRUBIGAI_MEMORY_WORDS);
  size_t line = chip.wires() + 1;
  std::vector<uint8_t> trace(line * (depth + 1));
  auto reply = marrubigai_replay(chip.of(property), chip.latch_list(), chip.net.latches, chip.gate_list(), chip.net.gates, depth,
                                 reinterpret_cast<const uint8_t *>(answer.data()), answer.size(), memory.data(), memory.size(), trace.data(),
                                 trace.size());
  if (reply.number == MARRUBIGAI_NO_VIOLATION)
    throw Failure("The solver claims a run that breaks " + property.name + ", but the chip, stepped with its memory as the solver says, breaks it " +
                  "in no frame 0 to " + std::to_string(chip.design_frame(depth)) + ". The solver is wrong: nothing is known of this property.");
  if (reply.number != MARRUBIGAI_PASSED || reply.claimed)
    throw Failure("the solver's answer cannot be stepped: " + refusal_word(reply.number) + "\n" + refusal_hint(reply.number));
  Run run;
  run.first = chip.design_frame(reply.first);
  for (uint32_t i = 0; i <= run.first; i++)
    run.wires.emplace_back(reinterpret_cast<const char *>(trace.data()) + chip.sheet_frame(i) * line, line - 1);
  for (uint32_t i = 0; i < run.frames(); i++)
    for (const marrubigai_gate &gate : chip.shown_gates) run.wires[i] += run.value(gate.left, i) && run.value(gate.right, i) ? '1' : '0';
  return run;
}

std::vector<Access> accesses(const Chip &chip, const Run &run) {
  std::vector<Access> made;
  std::map<Bits, uint32_t> writers;
  for (uint32_t i = 0; i < run.frames(); i++) {
    Access access;
    for (size_t port = 0; port < chip.ports.size(); port++) {
      const ShownPort &shown = chip.ports[port];
      if (!run.value(shown.re, i)) continue;
      Access::Read read{port, run.bits(shown.address, i), run.bits(shown.read_data, i), std::nullopt};
      auto writer = writers.find(read.address);
      if (writer != writers.end()) read.writer = writer->second;
      access.reads.push_back(read);
    }
    if (run.value(chip.net.we, i)) {
      access.write = Access::Write{run.bits(chip.ports[0].address, i), run.bits(chip.write_data, i)};
      writers[access.write->address] = i;
    }
    made.push_back(access);
  }
  return made;
}

bool is_idle(const Chip &chip, const Run &run, const std::vector<uint32_t> &codes, uint32_t frame) {
  if (frame > 0) return false;
  std::set<uint32_t> idle, read; // ports that have one of the sheet's in turn may have their bits from the same wires
  for (const ShownPort &port : chip.ports)
    for (uint32_t code : port.read_data) (run.value(port.re, frame) ? read : idle).insert(code / 2);
  return std::any_of(codes.begin(), codes.end(), [&](uint32_t code) { return code != NO_CODE && idle.count(code / 2) && !read.count(code / 2); });
}
