#include "source.h"

#include <cctype>
#include <set>

#include "failure.h"

namespace {

struct Token {
  std::string text;
  unsigned line;
};

bool is_letter(char byte) { return std::isalnum(static_cast<unsigned char>(byte)) || byte == '_' || byte == '$'; }
bool is_name(const Token &token) { return is_letter(token.text[0]) && !std::isdigit(static_cast<unsigned char>(token.text[0])); }

// names, numbers and signs, without comments and texts; an empty one behind the last
std::vector<Token> tokens_of(const std::string &text) {
  std::vector<Token> tokens;
  unsigned line = 1;
  for (size_t at = 0; at < text.size();) {
    size_t begin = at, end = at + 1;
    char byte = text[at];
    bool blank = std::isspace(static_cast<unsigned char>(byte));
    if (text.compare(at, 2, "//") == 0) {
      end = text.find('\n', at);
      blank = true;
    } else if (text.compare(at, 2, "/*") == 0) {
      end = text.find("*/", at + 2);
      if (end != std::string::npos) end += 2;
      blank = true;
    } else if (byte == '"') {
      while (end < text.size() && text[end] != '"') end += text[end] == '\\' ? 2 : 1;
      end++;
      blank = true;
    } else if (is_letter(byte)) {
      while (end < text.size() && is_letter(text[end])) end++;
    }
    at = std::min(end, text.size());
    if (!blank) tokens.push_back({text.substr(begin, at - begin), line});
    for (; begin < at; begin++) line += text[begin] == '\n';
  }
  tokens.push_back({std::string(1, '\0'), line});
  return tokens;
}

class Scan {
public:
  Scan(const std::string &name, const std::string &text, std::set<std::string> &known) : file(name), tokens(tokens_of(text)), types(known) {}

  void run() {
    for (; !ends(); at++) {
      if (is("typedef") && (is("struct", 1) || is("union", 1))) take_type();
      else if (types.count(tokens[at].text)) test_declaration();
    }
  }

private:
  const std::string &file;
  const std::vector<Token> tokens;
  std::set<std::string> &types; // by their names
  size_t at = 0;

  bool ends() const { return at + 1 >= tokens.size(); }
  bool is(const char *text, size_t behind = 0) const { return at + behind < tokens.size() && tokens[at + behind].text == text; }

  void take_type() {
    size_t open = 0;
    for (; !ends() && (open > 0 || !is(";")); at++) {
      if (is("{")) open++;
      if (is("}") && open > 0 && --open == 0 && is_name(tokens[at + 1])) types.insert(tokens[at + 1].text);
      if (open > 0 && types.count(tokens[at].text)) test_declaration();
    }
  }

  // behind a type: a range, or names of which one has a range
  void test_declaration() {
    const Token &type = tokens[at];
    size_t name = at + 1;
    bool array = tokens[name].text == "[";
    while (!array && is_name(tokens[name])) {
      const std::string &next = tokens[name + 1].text;
      array = next == "[";
      if (next != ",") break;
      name += 2;
    }
    if (array)
      throw Failure(file + ":" + std::to_string(type.line) + ": an array of " + type.text +
                    ", which is a struct or a union: yosys reads it as one word.\nDeclare the words as vectors (logic [7:0] words [0:15]), and take their fields apart where they are used.");
  }
};

} // namespace

void test_struct_arrays(const std::vector<std::pair<std::string, std::string>> &files) {
  std::set<std::string> types;
  for (const auto &[file, text] : files) Scan(file, text, types).run();
}
