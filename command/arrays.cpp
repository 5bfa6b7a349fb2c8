#include "arrays.h"

#include <algorithm>

namespace {

// of each port so many elements, lowest first; what is missing is filled up
template <class Row> std::vector<Row> rows(const Row &all, size_t count, size_t width, typename Row::value_type missing) {
  std::vector<Row> made;
  for (size_t at = 0; at < count; at++) {
    Row row;
    for (size_t t = at * width; t < (at + 1) * width; t++) row.push_back(t < all.size() ? all[t] : missing);
    made.push_back(row);
  }
  return made;
}

class Joining {
public:
  Joining(const Cell &low, const Cell &high, Bit &unused_bit) : one(low), other(high), unused(unused_bit), made(low) {}

  Cell run() {
    made.name = one.name + " and " + other.name;
    for (const Array &array : other.arrays) made.arrays.push_back({array.name, one_width + array.low, array.width});
    set_number("WIDTH", one_width + other_width);
    set_number("RD_PORTS", one.number("RD_PORTS") + other.number("RD_PORTS"));
    set_number("WR_PORTS", one.number("WR_PORTS") + other.number("WR_PORTS"));
    set_start();
    for (const char *side : {"RD", "WR"}) {
      std::string front = std::string(side) + "_";
      for (const char *each : {"CLK_ENABLE", "CLK_POLARITY", "WIDE_CONTINUATION"}) append_bits(front + each);
      append_ports(front, "ADDR", one.number("ABITS"));
      append_ports(front, "CLK", 1);
    }
    append_bits("RD_CE_OVER_SRST");
    for (const char *each : {"EN", "ARST", "SRST"}) append_ports("RD_", each, 1);
    for (const char *values : {"RD_INIT_VALUE", "RD_SRST_VALUE"}) {
      std::string low, high;
      for (const std::string &row : rows(one.bits(values), one.number("RD_PORTS"), one_width, 'x')) low += row + std::string(other_width, 'x');
      for (const std::string &row : rows(other.bits(values), other.number("RD_PORTS"), other_width, 'x')) high += std::string(one_width, 'x') + row;
      set_bits(values, low + high);
    }
    std::string low, high;
    size_t one_writers = one.number("WR_PORTS"), other_writers = other.number("WR_PORTS");
    for (const std::string &row : rows(one.bits("RD_TRANSPARENCY_MASK"), one.number("RD_PORTS"), one_writers, '0'))
      low += row + std::string(other_writers, '0');
    for (const std::string &row : rows(other.bits("RD_TRANSPARENCY_MASK"), other.number("RD_PORTS"), other_writers, '0'))
      high += std::string(one_writers, '0') + row;
    set_bits("RD_TRANSPARENCY_MASK", low + high);
    widen("RD_", "DATA", [&] { return unused++; });
    widen("WR_", "DATA", [] { return BIT_0; });
    widen("WR_", "EN", [] { return BIT_0; });
    return made;
  }

private:
  const Cell &one, &other;
  Bit &unused; // the next bit of a net that the design has not
  Cell made;
  const size_t one_width = one.number("WIDTH"), other_width = other.number("WIDTH");

  void set_bits(const std::string &parameter, const std::string &lowest_first) {
    made.parameters[parameter] = std::string(lowest_first.rbegin(), lowest_first.rend());
  }
  void set_number(const std::string &parameter, size_t value) {
    std::string bits;
    for (int t = 0; t < 32; t++) bits += value >> t & 1 ? '1' : '0';
    set_bits(parameter, bits);
  }

  void set_start() {
    size_t words = one.number("SIZE");
    std::vector<std::string> low = rows(one.bits("INIT"), words, one_width, 'x'), high = rows(other.bits("INIT"), words, other_width, 'x');
    std::string all;
    for (size_t word = 0; word < words; word++) all += low[word] + high[word];
    set_bits("INIT", all);
  }

  size_t count(const Cell &cell, const std::string &parameter_or_port) const { return cell.number(parameter_or_port.substr(0, 3) + "PORTS"); }

  // a bit for each port
  void append_bits(const std::string &parameter) {
    std::string low = one.bits(parameter).substr(0, count(one, parameter)), high = other.bits(parameter).substr(0, count(other, parameter));
    set_bits(parameter, low + high);
  }

  void append_ports(const std::string &side, const std::string &port, size_t width) {
    std::vector<Bit> &bits = made.ports[side + port];
    bits.resize(count(one, side) * width);
    const std::vector<Bit> &more = other.port(side + port);
    bits.insert(bits.end(), more.begin(), more.begin() + static_cast<std::ptrdiff_t>(count(other, side) * width));
  }

  // a word for each port, with these bits in the place of the other array's
  template <class Filling> void widen(const std::string &side, const std::string &port, Filling filling) {
    std::vector<Bit> bits;
    auto fill = [&](size_t width) {
      for (size_t t = 0; t < width; t++) bits.push_back(filling());
    };
    for (const std::vector<Bit> &row : rows(one.port(side + port), count(one, side), one_width, BIT_X)) {
      bits.insert(bits.end(), row.begin(), row.end());
      fill(other_width);
    }
    for (const std::vector<Bit> &row : rows(other.port(side + port), count(other, side), other_width, BIT_X)) {
      fill(one_width);
      bits.insert(bits.end(), row.begin(), row.end());
    }
    made.ports[side + port] = bits;
  }
};

bool is_memory(const Cell &cell) { return cell.type == "$mem_v2"; }

bool have_same_indices(const Cell &one, const Cell &other) {
  const char *const shape[] = {"SIZE", "ABITS", "OFFSET"};
  return std::all_of(std::begin(shape), std::end(shape), [&](const char *each) { return one.number(each) == other.number(each); });
}

Bit unused_bit(const Design &design) {
  Bit largest = BIT_1;
  auto look = [&](const std::vector<Bit> &bits) {
    for (Bit bit : bits) largest = std::max(largest, bit);
  };
  for (const Port &port : design.ports) look(port.bits);
  for (const Net &net : design.nets) look(net.bits);
  for (const Cell &cell : design.cells)
    for (const auto &[name, bits] : cell.ports) look(bits);
  return largest + 1;
}

} // namespace

Design join_arrays(Design design) {
  auto others = std::stable_partition(design.cells.begin(), design.cells.end(), is_memory);
  std::vector<Cell> arrays(design.cells.begin(), others); // in the order of the source
  std::stable_sort(arrays.begin(), arrays.end(), [](const Cell &left, const Cell &right) { return left.first_line < right.first_line; });
  if (!std::all_of(arrays.begin(), arrays.end(), [&](const Cell &array) { return have_same_indices(arrays[0], array); })) return design;
  Bit unused = unused_bit(design);
  for (; arrays.size() > 1; arrays.erase(arrays.begin() + 1)) arrays[0] = Joining(arrays[0], arrays[1], unused).run();
  design.cells.erase(design.cells.begin(), others);
  design.cells.insert(design.cells.begin(), arrays.begin(), arrays.end());
  return design;
}

std::string choices_of(const Design &design) {
  std::string text;
  for (const Cell &cell : design.cells)
    for (const Array &array : cell.arrays)
      if (cell.arrays.size() > 1)
        text += "\n  --memory " + array.name + "   " + std::to_string(cell.number("SIZE")) + " words of " + std::to_string(array.width) + " bits";
  return text;
}
