// What has to be seen in the source itself, as yosys does not tell it.
#pragma once

#include <string>
#include <utility>
#include <vector>

// yosys 0.23 reads an array of a struct or a union type as one word, without a warning: another design. A Failure with file and line where there is
// one. Files with their texts, in order; what they include is not looked at.
void test_struct_arrays(const std::vector<std::pair<std::string, std::string>> &files);
