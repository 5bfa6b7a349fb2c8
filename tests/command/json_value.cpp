// Prints what stands at a path of a JSON text: arguments are a file, and names or indices. Exit status 1 where there is nothing.
#include <cstdio>
#include <cstdlib>

#include "../../command/failure.h"
#include "../../command/files.h"
#include "../../command/json.h"

int main(int count, char **arguments) {
  try {
    Json whole = parse_json(read_file(arguments[1]));
    const Json *at = &whole;
    for (int step = 2; step < count; step++) {
      if (at->kind == Json::Kind::list) at = std::strtoul(arguments[step], nullptr, 10) < at->list.size() ? &at->list[std::strtoul(arguments[step], nullptr, 10)] : nullptr;
      else at = at->find(arguments[step]);
      if (!at) return 1;
    }
    if (at->kind == Json::Kind::number || at->kind == Json::Kind::boolean) std::printf("%g\n", at->number);
    else if (at->kind == Json::Kind::text) std::printf("%s\n", at->text.c_str());
    else std::printf("%s of %zu\n", at->kind == Json::Kind::list ? "list" : at->kind == Json::Kind::object ? "object" : "null", at->list.size() + at->members.size());
    return 0;
  } catch (const Failure &failure) {
    std::fprintf(stderr, "%s\n", failure.message.c_str());
    return 1;
  }
}
