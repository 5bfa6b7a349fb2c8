#include "aig.h"

#include <cadical.hpp>

#include <algorithm>
#include <set>

Lit Aig::land(Lit left, Lit right) {
  if (left > right) std::swap(left, right);
  if (left == FALSE || left == (right ^ 1)) return FALSE;
  if (left == TRUE || left == right) return right;
  auto [found, is_new] = gates.try_emplace({left, right}, 0);
  if (is_new) found->second = add({Kind::gate, false, left, right});
  return found->second;
}

Lit Aig::mux(Lit condition, Lit then, Lit otherwise) {
  if (then == otherwise) return then;
  return lor(land(condition, then), land(condition ^ 1, otherwise));
}

namespace {

enum { MOST_CONFLICTS = 20000 };

} // namespace

std::vector<uint32_t> Aig::gates_below(const std::vector<Lit> &roots) const {
  std::vector<char> seen(nodes.size());
  std::vector<uint32_t> found, stack;
  auto push = [&](Lit of) {
    uint32_t index = of / 2;
    if (nodes[index].kind != Kind::gate || seen[index]) return;
    seen[index] = 1;
    stack.push_back(index);
  };
  for (Lit root : roots) push(root);
  while (!stack.empty()) {
    found.push_back(stack.back());
    stack.pop_back();
    push(nodes[found.back()].left), push(nodes[found.back()].right);
  }
  std::sort(found.begin(), found.end()); // a gate is made when its operands are there
  return found;
}

Lit Aig::where(Lit literal, Lit given) {
  // a conjunction that is true has true conjuncts
  std::map<uint32_t, Lit> now;
  std::vector<Lit> known{given};
  while (!known.empty()) {
    Lit truth = known.back();
    known.pop_back();
    if (truth < 2 || !now.emplace(truth / 2, truth % 2 ? FALSE : TRUE).second) continue;
    if (truth % 2 == 0 && nodes[truth / 2].kind == Kind::gate) {
      known.push_back(nodes[truth / 2].left);
      known.push_back(nodes[truth / 2].right);
    }
  }
  auto value = [&](Lit of) {
    auto found = now.find(of / 2);
    return found == now.end() ? of : found->second ^ (of & 1);
  };
  for (uint32_t index : gates_below({literal})) {
    if (now.count(index)) continue;
    Lit left = value(nodes[index].left), right = value(nodes[index].right);
    now[index] = land(left, right);
  }
  return value(literal);
}

std::vector<uint32_t> Aig::support(Lit literal) const {
  std::set<uint32_t> found;
  auto add = [&](Lit of) {
    if (of > TRUE && nodes[of / 2].kind != Kind::gate) found.insert(of / 2);
  };
  add(literal);
  for (uint32_t index : gates_below({literal})) add(nodes[index].left), add(nodes[index].right);
  return {found.begin(), found.end()};
}

bool Aig::depends_on(Lit literal, Kind kind) const {
  std::vector<uint32_t> found = support(literal);
  return std::any_of(found.begin(), found.end(), [&](uint32_t index) { return nodes[index].kind == kind; });
}

bool can_differ(const Aig &aig, Lit active, const std::vector<Lit> &word, Lit other_active, const std::vector<Lit> &other_word) {
  if (word == other_word || active == FALSE || other_active == FALSE) return false;
  CaDiCaL::Solver solver;
  solver.set("quiet", 1);
  solver.limit("conflicts", MOST_CONFLICTS); // where that is not enough they count as different
  auto literal = [](Lit of) { return of % 2 ? -static_cast<int>(of / 2 + 1) : static_cast<int>(of / 2 + 1); };
  std::vector<Lit> roots{active, other_active};
  roots.insert(roots.end(), word.begin(), word.end());
  roots.insert(roots.end(), other_word.begin(), other_word.end());
  solver.add(-1), solver.add(0); // node 0 is false
  for (uint32_t index : aig.gates_below(roots)) {
    int gate = literal(2 * index), left = literal(aig.node(index).left), right = literal(aig.node(index).right);
    solver.add(-gate), solver.add(left), solver.add(0);
    solver.add(-gate), solver.add(right), solver.add(0);
    solver.add(gate), solver.add(-left), solver.add(-right), solver.add(0);
  }
  solver.add(literal(active)), solver.add(0);
  solver.add(literal(other_active)), solver.add(0);
  std::vector<int> different;
  int next = static_cast<int>(aig.size()) + 1;
  for (size_t t = 0; t < word.size(); t++) {
    int bit = next++, one = literal(word[t]), other = literal(other_word[t]);
    solver.add(-bit), solver.add(one), solver.add(other), solver.add(0);
    solver.add(-bit), solver.add(-one), solver.add(-other), solver.add(0);
    different.push_back(bit);
  }
  for (int bit : different) solver.add(bit);
  solver.add(0);
  return solver.solve() != 20;
}
