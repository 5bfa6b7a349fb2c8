// The library's refusals, each with its word and what to do.
#pragma once

#include <cstdint>
#include <string>

// as `refused 6 (memory loop)`
std::string refusal_word(uint32_t number);
std::string refusal_hint(uint32_t number);
