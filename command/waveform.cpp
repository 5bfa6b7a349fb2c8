#include "waveform.h"

#include <cstdio>
#include <map>

namespace {

// printable characters, as many as it takes: digits to the base 94
std::string id_of(size_t signal) {
  std::string id;
  for (signal++; signal > 0; signal = (signal - 1) / 94) id.insert(id.begin(), static_cast<char>('!' + (signal - 1) % 94));
  return id;
}

// A scope with what is declared in it, in the order of their names: a name with dots stands in the scopes that it names.
struct Scope {
  std::map<std::string, Scope> inner;
  std::vector<std::string> declared;

  void print(const std::string &name, std::string &text) const {
    text += "$scope module " + name + " $end\n";
    for (const std::string &line : declared) text += line;
    for (const auto &[inner_name, scope] : inner) scope.print(inner_name, text);
    text += "$upscope $end\n";
  }
};

class Waveform {
public:
  // A name that begins with $ or [ would be taken for a keyword or a range; one that ends in the range of its bits, as sum[6:4], has this range.
  void declare(Scope &scope, std::string label, const std::vector<uint32_t> &codes) {
    size_t width = codes.size(), open = label.rfind('[');
    std::string range = width > 1 ? "[" + std::to_string(width - 1) + ":0]" : "";
    unsigned high, low;
    bool has_range = open != std::string::npos && open > 0 && std::sscanf(label.c_str() + open, "[%u:%u]", &high, &low) == 2;
    if (has_range && high >= low && high - low + 1 == width) {
      range = label.substr(open);
      label.erase(open);
    }
    if (label[0] == '$' || label[0] == '[') label.insert(label.begin(), '_');
    if (!range.empty()) label += " " + range;
    scope.declared.push_back("$var wire " + std::to_string(width) + " " + id_of(signals.size()) + " " + label + " $end\n");
    signals.push_back(codes);
  }

  std::string changes(const Run &run) const {
    std::string text;
    std::vector<std::string> last(signals.size());
    for (uint32_t i = 0; i < run.frames(); i++) {
      text += "#" + std::to_string(i) + "\n" + (i == 0 ? "$dumpvars\n" : "");
      for (size_t s = 0; s < signals.size(); s++) {
        Bits bits = run.bits(signals[s], i);
        std::string value(bits.rbegin(), bits.rend());
        value = value.size() > 1 ? "b" + value + " " + id_of(s) : value + id_of(s);
        if (value != last[s]) text += value + "\n";
        last[s] = value;
      }
      if (i == 0) text += "$end\n";
    }
    return text + "#" + std::to_string(run.frames()) + "\n"; // the last frame has an end, so that a viewer shows it
  }

private:
  std::vector<std::vector<uint32_t>> signals;
};

// where a word with dots in its name stands, and its name there
Scope &scope_of(Scope &top, std::string &name) {
  Scope *scope = &top;
  size_t end = name.find('['), dot;
  if (name.find_first_of("\\$") != std::string::npos) return *scope; // an escaped name may have dots of its own
  while ((dot = name.find('.')) != std::string::npos && dot > 0 && dot < end && dot + 1 < name.size()) {
    scope = &scope->inner[name.substr(0, dot)];
    name.erase(0, dot + 1);
    end = name.find('[');
  }
  return *scope;
}

} // namespace

std::string waveform(const Chip &chip, const Property &property, const Run &run) {
  Waveform made;
  Scope top, memory, words;
  made.declare(top, "property", {property.code});
  for (size_t port = 0; port < chip.ports.size(); port++) {
    std::string number = port ? std::to_string(port + 1) : "";
    made.declare(memory, "address" + number, chip.ports[port].address);
    made.declare(memory, "read_data" + number, chip.ports[port].read_data);
    if (port == 0) made.declare(memory, "write_data", chip.write_data);
    made.declare(memory, "RE" + number, {chip.ports[port].re});
    if (port == 0) made.declare(memory, "WE", {chip.net.we});
  }
  for (const Word &word : chip.named) {
    std::string name = word.name;
    Scope &scope = scope_of(words, name);
    made.declare(scope, name, word.codes);
  }
  for (uint32_t w = 1; chip.named.empty() && w <= chip.wires(); w++) made.declare(words, "wire" + std::to_string(w), {2 * w});
  std::string text = "$comment a run that " + std::string(property.kind == Property::Kind::cover ? "reaches " : "breaks ") + property.name +
                     " in frame " + std::to_string(run.first) + "; frame i is time i $end\n$timescale 1 ns $end\n";
  top.inner["memory"] = memory;
  top.inner[chip.named.empty() ? "wires" : "words"] = words;
  top.print("circuit", text);
  return text + "$enddefinitions $end\n" + made.changes(run);
}
