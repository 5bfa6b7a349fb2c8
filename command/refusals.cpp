#include "refusals.h"

namespace {

struct Entry {
  uint32_t number;
  const char *word, *hint;
};

// made of refusals.txt
const Entry entries[] = {
#include "refusals.inc"
};

const Entry *entry(uint32_t number) {
  for (const Entry &known : entries)
    if (known.number == number) return &known;
  return nullptr;
}

} // namespace

std::string refusal_word(uint32_t number) {
  const Entry *known = entry(number);
  return "refused " + std::to_string(number) + (known ? " (" + std::string(known->word) + ")" : "");
}

std::string refusal_hint(uint32_t number) {
  const Entry *known = entry(number);
  return known ? known->hint : "This should not have come up: it is a fault of the command itself.";
}
