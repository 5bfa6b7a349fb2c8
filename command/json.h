// JSON as yosys writes it, read into a tree.
#pragma once

#include <string>
#include <utility>
#include <vector>

struct Json {
  enum class Kind { null, boolean, number, text, list, object } kind = Kind::null;
  double number = 0; // of a boolean 0 or 1
  std::string text;
  std::vector<Json> list;
  std::vector<std::pair<std::string, Json>> members; // in the text's order

  const Json *find(const std::string &name) const; // a member, or null
  // a member that has to be there; a Failure where it is not
  const Json &at(const std::string &name) const;
};

// throws a Failure where it is no JSON
Json parse_json(const std::string &text);
