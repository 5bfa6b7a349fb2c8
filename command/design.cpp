#include "design.h"

#include <cstdio>

#include "failure.h"

namespace {

// `ram.v:12.3-14.9` or `a.v:1.1|b.v:2.2`, whose last part is the innermost: file and line, and with the column too. Of a statement it is the
// end that counts: yosys has it begin where the statement before it ends.
void set_source(const std::string &text, bool is_statement, std::string &line, std::string &column, unsigned &first_line) {
  size_t bar = text.rfind('|');
  std::string inner = bar == std::string::npos ? text : text.substr(bar + 1);
  size_t colon = inner.rfind(':');
  if (colon == std::string::npos) return;
  std::string place = inner.substr(colon + 1);
  size_t dash = place.find('-');
  std::sscanf(place.c_str(), "%u", &first_line);
  place = is_statement && dash != std::string::npos ? place.substr(dash + 1) : place.substr(0, dash);
  column = inner.substr(0, colon + 1) + place;
  line = inner.substr(0, colon + 1) + place.substr(0, place.find('.'));
}

std::vector<Bit> bits_of(const Json &list) {
  std::vector<Bit> bits;
  for (const Json &bit : list.list) {
    if (bit.kind == Json::Kind::number) bits.push_back(static_cast<Bit>(bit.number));
    else bits.push_back(bit.text == "0" ? BIT_0 : bit.text == "1" ? BIT_1 : BIT_X);
  }
  return bits;
}

std::string text_of(const Json *value) { return value ? value->text : ""; }

} // namespace

bool is_formal(const std::string &type) { return type == "$assert" || type == "$assume" || type == "$cover" || type == "$live" || type == "$fair"; }

const std::vector<Bit> &Cell::port(const std::string &port_name) const {
  auto found = ports.find(port_name);
  if (found == ports.end()) throw Failure("yosys' netlist has a cell " + type + " without its port " + port_name);
  return found->second;
}

std::string Cell::bits(const std::string &parameter) const {
  auto found = parameters.find(parameter);
  if (found == parameters.end()) throw Failure("yosys' netlist has a cell " + type + " without its parameter " + parameter);
  return std::string(found->second.rbegin(), found->second.rend());
}

uint32_t Cell::number(const std::string &parameter) const {
  uint32_t value = 0;
  std::string digits = bits(parameter);
  for (size_t t = 0; t < digits.size() && t < 32; t++)
    if (digits[t] == '1') value |= uint32_t{1} << t;
  return value;
}

Design read_design(const std::string &json_text) {
  Json whole = parse_json(json_text);
  const Json *module = nullptr;
  Design design;
  for (const auto &[name, candidate] : whole.at("modules").members) {
    if (module && !candidate.at("attributes").find("top")) continue;
    module = &candidate;
    design.top = name;
  }
  if (!module) throw Failure("yosys made no module of it");
  for (const auto &[name, port] : module->at("ports").members)
    design.ports.push_back({name, port.at("direction").text, bits_of(port.at("bits"))});
  for (const auto &[name, json] : module->at("cells").members) {
    Cell cell;
    cell.name = name;
    cell.type = json.at("type").text;
    cell.hidden = json.at("hide_name").number != 0;
    set_source(text_of(json.at("attributes").find("src")), is_formal(cell.type), cell.source, cell.column_source, cell.first_line);
    for (const auto &[port, bits] : json.at("connections").members) cell.ports[port] = bits_of(bits);
    for (const auto &[parameter, value] : json.at("parameters").members) cell.parameters[parameter] = value.text;
    if (cell.type == "$mem_v2") cell.arrays.push_back({cell.name, 0, cell.number("WIDTH")});
    design.cells.push_back(std::move(cell));
  }
  for (const auto &[name, json] : module->at("netnames").members) {
    Net net;
    std::string line, column;
    unsigned first_line = 0;
    net.name = name;
    net.bits = bits_of(json.at("bits"));
    set_source(text_of(json.at("attributes").find("src")), false, line, column, first_line);
    std::sscanf(column.c_str() + column.rfind(':') + 1, "%u.%u", &net.place.first, &net.place.second);
    if (const Json *offset = json.find("offset")) net.low = static_cast<int>(offset->number);
    if (const Json *upto = json.find("upto")) net.upwards = upto->number != 0;
    if (const Json *init = json.at("attributes").find("init")) {
      const std::string &values = init->text; // highest first
      for (size_t t = 0; t < net.bits.size() && t < values.size(); t++) {
        char value = values[values.size() - 1 - t];
        if (net.bits[t] > BIT_1 && value != 'x') design.initial[net.bits[t]] = value;
      }
    }
    if (json.at("hide_name").number == 0) design.nets.push_back(std::move(net));
  }
  return design;
}
