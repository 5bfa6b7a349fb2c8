// Damaged sheets, texts and netlists by the thousand: whatever bytes are handed in, the command's readers make a chip of them or throw a
// Failure with a message. Built with sanitizers, and linked with all of the command but its main.
// Arguments: how many of each, a seed, and files to damage: sheets, ASCII AIGER, yosys' JSON.

#include <cstdio>
#include <cstdlib>
#include <random>

#include "../../command/aiger.h"
#include "../../command/design.h"
#include "../../command/failure.h"
#include "../../command/files.h"
#include "../../command/sheet.h"

namespace {

std::mt19937 random_source;
size_t below(size_t bound) { return random_source() % bound; }

std::string damaged(std::string text, const std::string &other) {
  static const char chosen[] = "0123456789 \n\t-aglioNMTLGADBRC{}[],:\"\\\xff"; // and the byte 0 behind them
  static const std::string bytes(chosen, sizeof chosen);
  for (size_t times = 1 + below(4); times > 0; times--) {
    size_t at = text.empty() ? 0 : below(text.size()), count = text.empty() ? 0 : below(std::min<size_t>(text.size() - at, 64) + 1);
    switch (below(6)) {
    case 0: if (!text.empty()) text[at] = bytes[below(bytes.size())]; break;
    case 1: text.erase(at, count); break;
    case 2: text.insert(at, 1, bytes[below(bytes.size())]); break;
    case 3: text.insert(at, text.substr(at, count)); break;
    case 4: text.resize(at); break;
    default: text.insert(at, other.substr(other.empty() ? 0 : below(other.size()), below(200)));
    }
  }
  return text;
}

unsigned taken = 0, refused = 0, wrong = 0;

template <class Read> void try_one(const char *what, Read read) {
  try {
    read();
    taken++;
  } catch (const Failure &failure) {
    refused++;
    if (!failure.message.empty()) return;
    std::printf("FAILED: %s is refused without a word\n", what);
    wrong++;
  }
}

} // namespace

int main(int count, char **arguments) {
  if (count < 4) return 2;
  unsigned long times = std::strtoul(arguments[1], nullptr, 10);
  random_source.seed(static_cast<unsigned>(std::strtoul(arguments[2], nullptr, 10)));
  std::vector<std::string> files;
  for (int at = 3; at < count; at++) files.push_back(read_file(arguments[at]));
  Options options, with_widths;
  with_widths.widths = Widths{3, 8};
  Stop stop(options.timeout, false);
  for (size_t at = 0; at < files.size(); at++) {
    std::string name = arguments[3 + at];
    for (unsigned long time = 0; time < times; time++) {
      std::string text = damaged(files[at], files[below(files.size())]);
      if (ends_with(name, ".sheet")) try_one("a sheet", [&] { chip_of_sheet("chip.sheet", text, options); });
      else if (ends_with(name, ".aag")) try_one("a text", [&] { chip_of_aiger("chip.aag", text, time % 2 ? options : with_widths, stop); });
      else try_one("a netlist", [&] { read_design(text); });
    }
  }
  std::printf("%u taken, %u refused\n%u passed, %u failed\n", taken, refused, wrong == 0 && taken > 0 && refused > 0 ? 1 : 0, wrong + (taken == 0 || refused == 0));
  return wrong == 0 && taken > 0 && refused > 0 ? 0 : 1;
}
