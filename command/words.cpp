#include "words.h"

#include <algorithm>

namespace {

std::string decimal(const Bits &bits) {
  std::string digits = "0"; // lowest first
  for (size_t t = bits.size(); t-- > 0;) {
    int carry = bits[t] == '1';
    for (char &digit : digits) {
      int doubled = 2 * (digit - '0') + carry;
      digit = static_cast<char>('0' + doubled % 10);
      carry = doubled / 10;
    }
    if (carry) digits += '1';
  }
  std::reverse(digits.begin(), digits.end());
  return digits;
}

} // namespace

std::string written(const Bits &bits, Radix radix) {
  bool has_x = std::find(bits.begin(), bits.end(), 'x') != bits.end();
  if (radix == Radix::dec) return has_x ? "x" : decimal(bits);
  size_t step = radix == Radix::hex ? 4 : 1;
  std::string digits;
  for (size_t low = 0; low < bits.size(); low += step) {
    int value = 0;
    bool known = true;
    for (size_t t = low; t < bits.size() && t < low + step; t++) {
      known = known && bits[t] != 'x';
      if (bits[t] == '1') value |= 1 << (t - low);
    }
    digits += known ? "0123456789abcdef"[value] : 'x';
  }
  std::reverse(digits.begin(), digits.end());
  return digits;
}
