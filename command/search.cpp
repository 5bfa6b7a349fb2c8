#include "search.h"

#include <algorithm>

#include "failure.h"
#include "unrolling.h"

namespace {

enum Answer { SATISFIABLE = 10, UNSATISFIABLE = 20 }; // CaDiCaL's

class Search {
public:
  Search(const Chip &searched, const Plan &wanted, Stop &when)
      : chip(searched), plan(wanted), stop(when), unrolling(searched, searched.sheet_frame(wanted.depth), solver, wanted.refutation),
        verdicts(searched.properties.size()) {
    solver.set("quiet", 1); // standard output is ours
    // Many short calls gain from neither stable phases nor local search; docs/COMMAND.md has what was measured.
    solver.set("stabilize", 0);
    solver.set("walk", 0);
    if (plan.refutation) plan.refutation->trace(solver);
    solver.connect_terminator(&stop);
    for (Verdict &verdict : verdicts) verdict.from = plan.from;
  }
  ~Search() { solver.disconnect_terminator(); }
  Search(const Search &) = delete;
  Search &operator=(const Search &) = delete;

  std::vector<Verdict> run() {
    if (plan.any) ask_once();
    else ask_by_frame();
    if (plan.refutation && verdicts[0].kind == Verdict::Kind::holds) {
      plan.refutation->leave_out(unrolling.left_out());
      plan.refutation->finish(solver);
    }
    return std::move(verdicts);
  }

private:
  const Chip &chip;
  const Plan &plan;
  Stop &stop;
  CaDiCaL::Solver solver;
  Unrolling unrolling;
  std::vector<Verdict> verdicts;

  // not P of a frame, a literal of the formula
  int32_t violation(const Property &property, const marrubigai_position &position) { return unrolling.literal(property.code ^ 1, position); }

  // Nothing is believed of the model: only what the chip, stepped with it, does.
  void take_model(Verdict &verdict, const Property &property) {
    const std::vector<marrubigai_position> &frames = unrolling.positions();
    verdict.run = replay(chip, property, frames, frames.back().frame, [&](int32_t literal) { return unrolling.value(literal); });
    verdict.kind = Verdict::Kind::broken;
    verdict.seconds = stop.seconds();
    if (verdict.run->first < verdict.from + verdict.safe && verdict.run->first >= verdict.from)
      throw Failure("The solver found no run that breaks " + property.name + " in frame " + std::to_string(verdict.run->first) +
                    ", but here is one. The solver is wrong: nothing that it says of this chip can be relied on.");
  }

  // one of the sheet, in this frame of the design; not where it is time to stop
  bool add_frame(uint32_t frame) {
    if (stop.is_due()) return false;
    stop.at_frame(frame, plan.depth);
    unrolling.add_frame();
    return true;
  }

  void ask_by_frame() {
    std::vector<size_t> open(chip.properties.size());
    for (size_t p = 0; p < open.size(); p++) open[p] = p;
    for (uint32_t of_sheet = 0; of_sheet <= chip.sheet_frame(plan.depth) && !open.empty(); of_sheet++) {
      uint32_t frame = chip.design_frame(of_sheet);
      if (!add_frame(frame)) return;
      if (frame < plan.from) continue;
      for (size_t at = 0; at < open.size();) {
        const Property &property = chip.properties[open[at]];
        Verdict &verdict = verdicts[open[at]];
        int32_t broken = violation(property, unrolling.positions().back()), asked = unrolling.ask(broken);
        solver.assume(asked);
        int answer = solver.solve();
        if (answer == SATISFIABLE) {
          take_model(verdict, property);
          open.erase(open.begin() + static_cast<std::ptrdiff_t>(at));
          continue;
        }
        if (answer != UNSATISFIABLE) return;
        if (plan.refutation) plan.refutation->add(plan.refutation->place(solver), {-broken, 0});
        solver.add(-asked); // it follows from the clauses that are there
        solver.add(0);
        verdict.safe = chip.design_frame(of_sheet + 1) - plan.from;
        verdict.seconds = stop.seconds();
        at++;
      }
    }
    for (size_t p : open) verdicts[p].kind = Verdict::Kind::holds;
  }

  void ask_once() {
    for (uint32_t of_sheet = 0; of_sheet <= chip.sheet_frame(plan.depth); of_sheet++)
      if (!add_frame(chip.design_frame(of_sheet))) return;
    for (size_t p = 0; p < verdicts.size(); p++) {
      // A variable of our own that switches the property's clause on; a single property's is on. So a refutation is one of the formula.
      int32_t asked = verdicts.size() == 1 ? 0 : unrolling.new_variable();
      std::vector<int32_t> clause;
      for (const marrubigai_position &frame : unrolling.positions()) clause.push_back(unrolling.ask(violation(chip.properties[p], frame)));
      if (asked) solver.add(-asked);
      for (int32_t literal : clause) solver.add(literal);
      solver.add(0);
      if (asked) solver.assume(asked);
      int answer = solver.solve();
      if (answer == SATISFIABLE) {
        take_model(verdicts[p], chip.properties[p]);
      } else if (answer == UNSATISFIABLE) {
        verdicts[p].kind = Verdict::Kind::holds;
        verdicts[p].safe = plan.depth + 1;
        verdicts[p].seconds = stop.seconds();
      } else {
        return;
      }
    }
  }
};

} // namespace

void test_depth(const Chip &chip, uint32_t depth) {
  if (depth > chip.most_depth())
    throw Failure("-k " + std::to_string(depth) + ": a frame of this design is " + std::to_string(chip.phases) + " of its sheet, which can have 256: " +
                      std::to_string(chip.most_depth()) + " is the most",
                  USAGE);
}

std::vector<Verdict> search(const Chip &chip, const Plan &plan, Stop &stop) {
  std::vector<Verdict> verdicts = Search(chip, plan, stop).run();
  stop.clear_line();
  return verdicts;
}

std::optional<uint32_t> assumptions_end(const Chip &chip, uint32_t depth, Stop &stop) {
  if (!chip.assumptions) return std::nullopt;
  Chip asked = chip;
  Property met;
  met.kind = Property::Kind::cover;
  met.name = "of the assumptions";
  met.code = *chip.assumptions ^ 1;
  asked.properties = {met};
  auto is_without_run = [&](uint32_t frame) { return search(asked, Plan{frame, frame, false, nullptr}, stop)[0].kind == Verdict::Kind::holds; };
  if (!is_without_run(depth)) return std::nullopt;
  uint32_t first = 0, last = depth; // it is one of these: where a frame is without, all later ones are
  while (first < last) {
    uint32_t middle = (first + last) / 2;
    if (is_without_run(middle)) last = middle;
    else first = middle + 1;
  }
  return first;
}
