// A chip as the library takes it, with what is to be told of it: its properties and the names of its words.
#pragma once

#include <marrubigai.h>

#include <optional>
#include <string>
#include <vector>

#include "words.h"

struct Property {
  enum class Kind { property, assertion, cover };
  Kind kind = Kind::property;
  std::string name, source; // source: file and line, or empty
  unsigned first_line = 0, last_line = 0; // of Verilog
  marrubigai_code code = 0; // what shall hold in every frame; of a cover, that it is not reached
  std::vector<Word> read; // the named words that it reads, for the table
};

// What a test bench around the original Verilog needs to know.
struct Bench {
  std::string top, clock; // empty where the chip is none of Verilog
  bool rising = true;
  std::vector<Word> inputs; // without the clock
  std::vector<Word> unknown; // registers that begin unknown, by all their names
  std::string obstacle; // why a run cannot be tried, where it cannot
};

// A port of the memory as it is shown. A bit of an address that is a constant or another bit's wire is no bit of the sheet's address, and a data
// bit on which no property depends is no bit of the sheet's words.
struct ShownPort {
  std::vector<uint32_t> address, read_data;
  marrubigai_code re = 0;
};

struct Chip {
  marrubigai_netlist net{}; // its property is put in by `of`
  std::vector<marrubigai_latch> latches;
  std::vector<marrubigai_gate> gates;
  std::vector<marrubigai_gate> shown_gates; // of the design, and not of the record, which has others in their place: numbered behind its wires
  std::vector<Property> properties;
  std::optional<marrubigai_code> assumptions; // that they hold and held in all frames before, where there are some

  std::vector<Word> shown; // the table's columns
  std::vector<Word> named; // every word that has a name
  // Registers of the command's own, for facts: `started`, false in frame 0 alone; `assumed`, true as long as all assumptions held; `phase`.
  std::vector<Word> own;
  std::string memory_name; // of Verilog
  std::vector<Array> arrays; // of Verilog, that the memory is made of
  std::vector<ShownPort> ports; // of the design, as many as the sheet has or more; the first one's address is the one that is written at
  std::vector<uint32_t> write_data;
  Bench bench;
  std::vector<std::string> notes; // what the user should know of how the chip was made

  // A frame of the design is so many frames of the sheet, and its words are what they are in the last of these (phases.h).
  uint32_t phases = 1;
  uint32_t sheet_frame(uint32_t frame) const { return (frame + 1) * phases - 1; }
  uint32_t design_frame(uint32_t sheet_frame) const { return sheet_frame / phases; }
  uint32_t most_depth() const { return (MOST_DEPTH + 1) / phases - 1; }

  // the record with the property in its place
  marrubigai_netlist of(const Property &property) const {
    marrubigai_netlist record = net;
    record.p = property.code;
    return record;
  }
  // the lists as they are lent: an element's address also where there is none, as the header asks
  const marrubigai_latch *latch_list() const {
    static const marrubigai_latch none{};
    return latches.empty() ? &none : latches.data();
  }
  const marrubigai_gate *gate_list() const {
    static const marrubigai_gate none{};
    return gates.empty() ? &none : gates.data();
  }
  uint32_t read_bits() const { return (1 + net.second_port) * net.n; }
  uint32_t wires() const { return net.inputs + net.latches + read_bits() + net.gates; }
  // of a wire from the first gate's on
  const marrubigai_gate &gate(uint32_t wire) const {
    uint32_t at = wire - first_read() - read_bits();
    return at < gates.size() ? gates[at] : shown_gates[at - gates.size()];
  }
  // of a port, 0 or 1
  uint32_t first_read(size_t port = 0) const { return net.inputs + net.latches + 1 + static_cast<uint32_t>(port) * net.n; }
};

// the ports as the record has them, for a chip that came as a sheet or a text
inline void show_ports_of_record(Chip &chip) {
  const marrubigai_netlist &net = chip.net;
  chip.ports.push_back({{net.address, net.address + net.m}, {}, net.re});
  if (net.second_port) chip.ports.push_back({{net.address2, net.address2 + net.m}, {}, net.re2});
  for (size_t port = 0; port < chip.ports.size(); port++)
    for (uint32_t t = 0; t < net.n; t++) chip.ports[port].read_data.push_back(2 * (chip.first_read(port) + t));
  chip.write_data.assign(net.write_data, net.write_data + net.n);
}
