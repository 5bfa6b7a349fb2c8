#include "report.h"

#include <cadical.hpp>

#include <cstdio>

#include "failure.h"
#include "table.h"

#ifndef KIT_VERSION
#define KIT_VERSION "an unnamed kit"
#endif

std::string subject(const Property &property) {
  if (property.kind == Property::Kind::property) return "the property";
  std::string named = (property.kind == Property::Kind::cover ? "cover " : "assert ") + property.name;
  return property.source.empty() || property.source == property.name ? named : named + " (" + property.source + ")";
}

namespace {

std::string frames_text(uint32_t from, uint32_t count) {
  uint32_t last = from + count - 1;
  return count == 1 ? "frame " + std::to_string(from) : "frames " + std::to_string(from) + " to " + std::to_string(last);
}

bool is_for_ever(const Verdict &verdict) { return verdict.forever && verdict.forever->certified; }

// The verdict as a sentence. That no earlier frame breaks it is the solver's word, and that this one does is not: the run was stepped.
std::string verdict_text(const Property &property, const Verdict &verdict, const Options &options, const std::string &stopped) {
  bool cover = property.kind == Property::Kind::cover;
  bool earliest = !options.any && options.from == 0;
  std::string holds = cover ? " is not reached in " : " holds in ";
  if (is_for_ever(verdict)) return subject(property) + (cover ? " is never reached" : " holds in every frame") + ", certified";
  std::string word = verdict.certified ? ", certified" : ", by the solver's word";
  std::string not_proved = verdict.forever ? "; not proved for ever" : "";
  std::string safe = verdict.safe == 0 ? "" : frames_text(verdict.from, verdict.safe) + word;
  switch (verdict.kind) {
  case Verdict::Kind::broken:
    return subject(property) + (cover ? " is reached" : " is broken") + (earliest ? "" : " first") + " in frame " +
           std::to_string(verdict.run->first) + (earliest ? " at the earliest" : "");
  case Verdict::Kind::holds: return subject(property) + holds + safe + not_proved;
  case Verdict::Kind::stopped: break;
  }
  std::string when = verdict.certifying ? " while its certificate was made; " : "; ";
  return subject(property) + ": " + stopped + when + (safe.empty() ? "nothing is known of it" : "it" + holds + safe) + not_proved;
}

// what has to be believed where the command made the sheet
std::string believed(const Chip &chip) {
  if (chip.bench.top.empty() && chip.phases == 1) return "";
  return std::string("; that the sheet which it is about is ") + (chip.bench.top.empty() ? "this chip's" : "the design's") +
         " has to be (--keep writes it)";
}

// what a certified verdict rests on
std::string certified_text(const Chip &chip, const Verdict::Certified &certified) {
  return certified.file + ", " + std::to_string(certified.lemmas) + " lemmas with " + std::to_string(certified.hints) +
         " hints, was checked by marrubigai_certify, which is proved: no solver has to be believed" + believed(chip);
}

std::string forever_text(const Chip &chip, const Forever &forever) {
  return (forever.file.empty() ? "" : forever.file + ", ") + "an invariant of " + std::to_string(forever.clauses) + " clauses" +
         (forever.way.empty() ? "" : ", by " + forever.way) + ", with " + std::to_string(forever.requests) + " requests, " +
         std::to_string(forever.lemmas) + " lemmas and " + std::to_string(forever.hints) +
         " hints, was checked by marrubigai_certify_forever, which is proved: nothing that found it has to be believed" + believed(chip);
}

std::string seconds_text(double seconds, int digits) {
  char text[32];
  std::snprintf(text, sizeof text, "%.*f", digits, seconds);
  return text;
}

// what was tried for ever: in a note each, what was stated and what was not enough; and what it rests on
std::string forever_notes(const std::string &front, const Chip &chip, const Forever &forever) {
  std::string text;
  for (const std::string &stated : forever.stated) text += front + stated + "\n";
  for (const Attempt &attempt : forever.tried)
    if (!forever.certified) text += front + "for ever, by " + attempt.way + ": " + attempt.result + " (" + seconds_text(attempt.seconds, 1) + " s)\n";
  if (forever.certified) text += front + forever_text(chip, forever) + "\n";
  return text;
}

std::string quoted(const std::string &text) {
  std::string made = "\"";
  for (char byte : text) {
    unsigned char value = static_cast<unsigned char>(byte);
    char escape[8];
    if (byte == '"' || byte == '\\') made += std::string("\\") + byte;
    else if (value < 0x20) std::snprintf(escape, sizeof escape, "\\u%04x", value), made += escape;
    else made += byte;
  }
  return made + "\"";
}

std::string word_json(const std::vector<uint32_t> &codes, const Run &run, uint32_t frame, Radix radix) {
  return quoted(written(run.bits(codes, frame), radix));
}

std::string read_json(const Access::Read &read, Radix radix) {
  return "\"read\": " + quoted(written(read.word, radix)) + ", \"written_in\": " + (read.writer ? std::to_string(*read.writer) : "null");
}

// the first port's address, read and write; the read of each other port as an object of its own
std::string access_json(const Access &access, Radix radix) {
  std::vector<std::string> members;
  auto address = [&](const Bits &bits) { return "\"address\": " + quoted(written(bits, radix)); };
  for (const Access::Read &read : access.reads)
    if (read.port == 0) members = {address(read.address), read_json(read, radix)};
  if (access.write) {
    if (members.empty()) members.push_back(address(access.write->address));
    members.push_back("\"write\": " + quoted(written(access.write->word, radix)));
  }
  static const char *const others[] = {"second", "third", "fourth", "fifth"};
  for (const Access::Read &read : access.reads)
    if (read.port > 0) members.push_back(quoted(others[read.port - 1]) + ": {" + address(read.address) + ", " + read_json(read, radix) + "}");
  std::string text;
  for (const std::string &member : members) text += (text.empty() ? "" : ", ") + member;
  return "{" + text + "}";
}

std::string run_json(const Chip &chip, const Property &property, const Run &run, Radix radix) {
  std::vector<Access> memory = accesses(chip, run);
  const std::vector<Word> words = chip.named.empty() ? columns(chip, property) : chip.named;
  std::string text = "[";
  for (uint32_t i = 0; i < run.frames(); i++) {
    text += std::string(i ? "," : "") + "\n      {\"frame\": " + std::to_string(i);
    text += std::string(", \"holds\": ") + (run.value(property.code, i) ? "true" : "false");
    text += ", \"words\": {";
    for (size_t w = 0; w < words.size(); w++) {
      bool idle = is_idle(chip, run, words[w].codes, i);
      text += (w ? ", " : "") + quoted(words[w].name) + ": " + (idle ? "null" : word_json(words[w].codes, run, i, radix));
    }
    text += "}, \"memory\": " + access_json(memory[i], radix) + "}";
  }
  return text + "\n    ]";
}

std::string verdict_word(const Property &property, const Verdict &verdict) {
  bool cover = property.kind == Property::Kind::cover;
  switch (verdict.kind) {
  case Verdict::Kind::broken: return cover ? "reached" : "broken";
  case Verdict::Kind::holds: return cover ? "not reached" : "holds";
  case Verdict::Kind::stopped: break;
  }
  return "stopped";
}

std::string forever_json(const Forever &forever) {
  std::string text = std::string("{\"certified\": ") + (forever.certified ? "true" : "false");
  if (!forever.way.empty()) text += ", \"by\": " + quoted(forever.way);
  if (forever.certified)
    text += ", \"clauses\": " + std::to_string(forever.clauses) + ", \"requests\": " + std::to_string(forever.requests) +
            ", \"lemmas\": " + std::to_string(forever.lemmas) + ", \"hints\": " + std::to_string(forever.hints);
  if (!forever.file.empty()) text += ", \"file\": " + quoted(forever.file);
  text += ", \"tried\": [";
  for (size_t at = 0; at < forever.tried.size(); at++) {
    const Attempt &attempt = forever.tried[at];
    text += (at ? ", " : "") + ("{\"by\": " + quoted(attempt.way)) + ", \"result\": " + quoted(attempt.result) + ", \"seconds\": " +
            seconds_text(attempt.seconds, 3) + "}";
  }
  text += "], \"stated\": [";
  for (size_t at = 0; at < forever.stated.size(); at++) text += (at ? ", " : "") + quoted(forever.stated[at]);
  return text + "]}";
}

std::string property_json(const Searched &searched, size_t p, Radix radix) {
  const Chip &chip = searched.chip;
  const Property &property = chip.properties[p];
  const Verdict &verdict = searched.verdicts[p];
  static const char *const kinds[] = {"property", "assert", "cover"};
  std::string text = "{\"name\": " + quoted(property.name) + ", \"kind\": \"" + kinds[static_cast<int>(property.kind)] + "\"";
  if (!property.source.empty()) text += ", \"source\": " + quoted(property.source);
  text += ", \"verdict\": \"" + verdict_word(property, verdict) + "\"";
  if (verdict.run) text += ", \"frame\": " + std::to_string(verdict.run->first) + ", \"by\": \"run\"";
  if (!verdict.confirmed.empty()) text += ", \"simulator\": " + quoted(verdict.confirmed);
  if (is_for_ever(verdict)) {
    text += ", \"safe\": {\"from\": 0, \"to\": null, \"by\": \"certificate\"}";
  } else if (verdict.safe > 0) {
    text += ", \"safe\": {\"from\": " + std::to_string(verdict.from) + ", \"to\": " + std::to_string(verdict.from + verdict.safe - 1) +
            ", \"by\": \"" + (verdict.certified ? "certificate" : "solver") + "\"}";
  }
  if (verdict.certified)
    text += ", \"certificate\": {\"file\": " + quoted(verdict.certified->file) + ", \"lemmas\": " + std::to_string(verdict.certified->lemmas) +
            ", \"hints\": " + std::to_string(verdict.certified->hints) + "}";
  if (verdict.forever) text += ",\n     \"forever\": " + forever_json(*verdict.forever);
  text += ", \"seconds\": " + seconds_text(verdict.seconds, 3);
  if (verdict.run) text += ",\n     \"run\": " + run_json(chip, property, *verdict.run, radix);
  return text + "}";
}

std::string chip_json(const Searched &searched, Radix radix) {
  const Chip &chip = searched.chip;
  std::string text = "{\"inputs\": " + std::to_string(chip.net.inputs) + ", \"latches\": " + std::to_string(chip.net.latches) +
                     ", \"gates\": " + std::to_string(chip.net.gates) + ", \"wires\": " + std::to_string(chip.wires()) + ",\n   \"memory\": {";
  if (!chip.memory_name.empty()) text += "\"name\": " + quoted(chip.memory_name) + ", ";
  text += "\"address_bits\": " + std::to_string(chip.net.m) + ", \"data_bits\": " + std::to_string(chip.net.n) + ", \"ports\": " +
          std::to_string(chip.ports.size()) + ", \"phases\": " + std::to_string(chip.phases) + ", \"start\": " +
          (chip.net.unknown_start ? "null" : std::to_string(chip.net.initial_word)) + "},\n   \"notes\": [";
  for (size_t at = 0; at < chip.notes.size(); at++) text += (at ? ", " : "") + quoted(chip.notes[at]);
  text += "],";
  if (searched.assumptions_end) text += " \"assumptions_end\": " + std::to_string(*searched.assumptions_end) + ",";
  text += "\n   \"properties\": [";
  for (size_t p = 0; p < searched.verdicts.size(); p++) text += (p ? ",\n    " : "\n    ") + property_json(searched, p, radix);
  return text + "\n   ]}";
}

} // namespace

std::string version_text() {
  return std::string("marrubigai " MARRUBIGAI_VERSION ", library proved with ") + KIT_VERSION + ", solver CaDiCaL " + CaDiCaL::Solver::version();
}

std::string report_text(const Report &report) {
  static const char *const radix_words[] = {"hex", "decimal", "binary"};
  const Options &options = report.options;
  std::string text;
  for (const Searched &searched : report.searched) {
    if (!options.quiet)
      for (const std::string &note : searched.chip.notes) text += report.file() + ": note: " + note + "\n";
    for (size_t p = 0; p < searched.verdicts.size(); p++) {
      const Property &property = searched.chip.properties[p];
      const Verdict &verdict = searched.verdicts[p];
      text += report.file() + ": " + verdict_text(property, verdict, options, report.stopped);
      bool shown = verdict.run && !options.quiet;
      if (shown && options.radix != Radix::dec) text += std::string(" (words in ") + radix_words[static_cast<int>(options.radix)] + ")";
      text += shown ? ":\n" + table(searched.chip, property, *verdict.run, options.radix) : "\n";
      if (verdict.forever && !options.quiet) text += forever_notes(report.file() + ": note: ", searched.chip, *verdict.forever);
      if (verdict.certified && !options.quiet) text += report.file() + ": note: " + certified_text(searched.chip, *verdict.certified) + "\n";
      if (!verdict.confirmed.empty()) text += report.file() + ": " + subject(property) + ": " + verdict.confirmed + "\n";
    }
    if (searched.assumptions_end)
      text += report.file() + ": warning: no run meets the assumptions up to frame " + std::to_string(*searched.assumptions_end) +
              ": of that frame and later ones nothing is said\n";
  }
  return text;
}

std::string report_json(const Report &report) {
  static const char *const radix_words[] = {"hex", "dec", "bin"};
  const Options &options = report.options;
  std::string text = "{\"marrubigai\": " + quoted(MARRUBIGAI_VERSION) + ", \"file\": " + quoted(report.file()) +
                     ", \"depth\": " + std::to_string(options.depth) + ", \"radix\": \"" + radix_words[static_cast<int>(options.radix)] + "\",\n";
  text += " \"status\": " + std::to_string(exit_status(report)) + ", \"seconds\": " + seconds_text(report.seconds, 3);
  if (!report.stopped.empty()) text += ", \"stopped\": " + quoted(report.stopped);
  text += ",\n \"chips\": [";
  for (size_t at = 0; at < report.searched.size(); at++) text += (at ? ",\n  " : "\n  ") + chip_json(report.searched[at], options.radix);
  return text + "\n ]}\n";
}

int exit_status(const Report &report) {
  bool broken = false, reached = false, stopped = false, only_covers = true;
  for (const Searched &searched : report.searched)
    for (size_t p = 0; p < searched.verdicts.size(); p++) {
      bool cover = searched.chip.properties[p].kind == Property::Kind::cover;
      Verdict::Kind kind = searched.verdicts[p].kind;
      (cover ? reached : broken) |= kind == Verdict::Kind::broken;
      stopped |= kind == Verdict::Kind::stopped;
      only_covers &= cover;
    }
  if (broken || (only_covers && reached)) return BROKEN;
  return stopped ? STOPPED : HOLDS;
}
