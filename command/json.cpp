#include "json.h"

#include <cstdlib>

#include "failure.h"

namespace {

class Parser {
public:
  explicit Parser(const std::string &parsed) : text(parsed) {}

  Json whole() {
    Json value = one(0);
    skip();
    if (at != text.size()) fail();
    return value;
  }

private:
  static constexpr int DEEPEST = 64;
  const std::string &text;
  size_t at = 0;

  [[noreturn]] void fail() const { throw Failure("yosys' JSON cannot be read at byte " + std::to_string(at)); }
  void skip() {
    while (at < text.size() && (text[at] == ' ' || text[at] == '\n' || text[at] == '\t' || text[at] == '\r')) at++;
  }
  bool take(char due) {
    skip();
    if (at >= text.size() || text[at] != due) return false;
    at++;
    return true;
  }
  void expect(char due) {
    if (!take(due)) fail();
  }
  Json word(const char *spelled, Json value) {
    std::string due = spelled;
    if (text.compare(at, due.size(), due) != 0) fail();
    at += due.size();
    return value;
  }

  std::string string() {
    expect('"');
    std::string made;
    while (at < text.size() && text[at] != '"') {
      char byte = text[at++];
      if (byte != '\\') {
        made += byte;
        continue;
      }
      if (at >= text.size()) fail();
      char escape = text[at++];
      switch (escape) {
      case 'n': made += '\n'; break;
      case 't': made += '\t'; break;
      case 'r': made += '\r'; break;
      case 'b': made += '\b'; break;
      case 'f': made += '\f'; break;
      case 'u': // yosys escapes control bytes alone so
        if (at + 4 > text.size()) fail();
        made += static_cast<char>(std::strtoul(text.substr(at, 4).c_str(), nullptr, 16));
        at += 4;
        break;
      default: made += escape;
      }
    }
    expect('"');
    return made;
  }

  Json one(int depth) {
    if (depth > DEEPEST) fail();
    skip();
    if (at >= text.size()) fail();
    Json value;
    switch (text[at]) {
    case '{':
      at++;
      value.kind = Json::Kind::object;
      if (take('}')) return value;
      do {
        skip();
        std::string name = string();
        expect(':');
        value.members.emplace_back(std::move(name), one(depth + 1));
      } while (take(','));
      expect('}');
      return value;
    case '[':
      at++;
      value.kind = Json::Kind::list;
      if (take(']')) return value;
      do value.list.push_back(one(depth + 1));
      while (take(','));
      expect(']');
      return value;
    case '"':
      value.kind = Json::Kind::text;
      value.text = string();
      return value;
    case 't':
      value.kind = Json::Kind::boolean;
      value.number = 1;
      return word("true", value);
    case 'f': value.kind = Json::Kind::boolean; return word("false", value);
    case 'n': return word("null", value);
    default:
      char *end = nullptr;
      value.kind = Json::Kind::number;
      value.number = std::strtod(text.c_str() + at, &end);
      size_t count = static_cast<size_t>(end - (text.c_str() + at));
      if (count == 0) fail();
      at += count;
      return value;
    }
  }
};

} // namespace

const Json *Json::find(const std::string &name) const {
  for (const auto &member : members)
    if (member.first == name) return &member.second;
  return nullptr;
}

const Json &Json::at(const std::string &name) const {
  const Json *member = find(name);
  if (!member) throw Failure("yosys' JSON has no " + name + " where one is due");
  return *member;
}

Json parse_json(const std::string &text) { return Parser(text).whole(); }
