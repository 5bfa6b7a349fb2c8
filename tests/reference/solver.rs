//! A naive search for all satisfying assignments of a small formula: unit propagation, then a
//! decision on the lowest variable without a value. Unit propagation alone also serves large
//! formulas.

pub struct Solver {
    clauses: Vec<Vec<i32>>,
    /// For each variable, the clauses that name it.
    occurrences: Vec<Vec<usize>>,
    /// By variable; entry 0 is not used.
    values: Vec<Option<bool>>,
    /// The variables that have a value, in the order in which they got it.
    trail: Vec<usize>,
    /// Whether propagation before any decision met a false clause.
    contradiction: bool,
}

impl Solver {
    /// A solver over variables 1 to `variables` for numbers in which each 0 ends one clause.
    pub fn new(variables: usize, numbers: &[i32]) -> Solver {
        let mut solver = Solver {
            clauses: clauses(numbers),
            occurrences: vec![Vec::new(); variables + 1],
            values: vec![None; variables + 1],
            trail: Vec::new(),
            contradiction: false,
        };
        for (index, clause) in solver.clauses.iter().enumerate() {
            for literal in clause {
                solver.occurrences[variable(*literal)].push(index);
            }
        }
        let all: Vec<usize> = (0..solver.clauses.len()).collect();
        solver.contradiction = !solver.propagate(all);
        solver
    }

    pub fn value(&self, variable: usize) -> Option<bool> {
        self.values[variable]
    }

    /// Makes a literal true and draws all unit consequences; false at a contradiction.
    pub fn assume(&mut self, literal: i32) -> bool {
        match self.literal_value(literal) {
            Some(value) => value && !self.contradiction,
            None => {
                self.set(literal);
                let touched = self.occurrences[variable(literal)].clone();
                self.propagate(touched) && !self.contradiction
            }
        }
    }

    /// Visits every assignment that makes all clauses true; entry v is the value of variable v.
    pub fn models(&mut self, visit: &mut dyn FnMut(&[bool])) {
        self.search(&mut |model| {
            visit(model);
            true
        });
    }

    /// An assignment that makes all clauses true, if there is one.
    pub fn first_model(&mut self) -> Option<Vec<bool>> {
        let mut first = None;
        self.search(&mut |model| {
            first = Some(model.to_vec());
            false
        });
        first
    }

    /// Visits assignments that make all clauses true as long as the visitor asks for more; whether it
    /// still does.
    fn search(&mut self, visit: &mut dyn FnMut(&[bool]) -> bool) -> bool {
        if self.contradiction {
            return true;
        }
        let free = match self.values.iter().skip(1).position(Option::is_none) {
            Some(before) => before + 1,
            None => {
                let model: Vec<bool> = self
                    .values
                    .iter()
                    .map(|value| *value == Some(true))
                    .collect();
                return visit(&model);
            }
        };
        for literal in [free as i32, -(free as i32)] {
            let mark = self.trail.len();
            let more = !self.assume(literal) || self.search(visit);
            for index in self.trail.drain(mark..) {
                self.values[index] = None;
            }
            if !more {
                return false;
            }
        }
        true
    }

    /// How a search fails that decides these variables first: for each set of decisions that fails, the clause that denies
    /// it, the last of them empty, each of which follows by unit propagation from those before it. None where there is
    /// an assignment that makes all clauses true, or where there are more than `most` such clauses.
    pub fn refutation(&mut self, first: &[usize], most: usize) -> Option<Vec<Vec<i32>>> {
        let used = |variable: &usize| !self.occurrences[*variable].is_empty();
        let others = (1..self.values.len()).filter(used);
        let order: Vec<usize> = first.iter().copied().chain(others).collect();
        let mut denied = Vec::new();
        let refuted = self.deny(&order, &mut Vec::new(), &mut denied, most);
        refuted.then_some(denied)
    }

    fn deny(&mut self, order: &[usize], decided: &mut Vec<i32>, denied: &mut Vec<Vec<i32>>, most: usize) -> bool {
        if !self.contradiction {
            let free = match order.iter().position(|variable| self.values[*variable].is_none()) {
                Some(free) if denied.len() < most => free,
                _ => return false,
            };
            for literal in [order[free] as i32, -(order[free] as i32)] {
                let mark = self.trail.len();
                decided.push(literal);
                let fails = if self.assume(literal) {
                    self.deny(&order[free + 1..], decided, denied, most)
                } else {
                    denied.push(decided.iter().map(|literal| -literal).collect());
                    true
                };
                decided.pop();
                for index in self.trail.drain(mark..) {
                    self.values[index] = None;
                }
                if !fails {
                    return false;
                }
            }
        }
        denied.push(decided.iter().map(|literal| -literal).collect());
        true
    }

    fn literal_value(&self, literal: i32) -> Option<bool> {
        self.values[variable(literal)].map(|value| value == (literal > 0))
    }

    fn set(&mut self, literal: i32) {
        self.values[variable(literal)] = Some(literal > 0);
        self.trail.push(variable(literal));
    }

    /// Looks at the given clauses and at all that change by their consequences.
    fn propagate(&mut self, mut pending: Vec<usize>) -> bool {
        while let Some(index) = pending.pop() {
            let clause = &self.clauses[index];
            if clause
                .iter()
                .any(|literal| self.literal_value(*literal) == Some(true))
            {
                continue;
            }
            let mut free = clause
                .iter()
                .filter(|literal| self.literal_value(**literal).is_none());
            match (free.next().copied(), free.next()) {
                (None, _) => return false,
                (Some(literal), None) => {
                    self.set(literal);
                    pending.extend_from_slice(&self.occurrences[variable(literal)]);
                }
                _ => {}
            }
        }
        true
    }
}

fn variable(literal: i32) -> usize {
    literal.unsigned_abs() as usize
}

/// The clauses in numbers of which each 0 ends one; repeated literals count once.
fn clauses(numbers: &[i32]) -> Vec<Vec<i32>> {
    let mut clauses = Vec::new();
    for part in numbers.split_inclusive(|number| *number == 0) {
        let mut clause = part[..part.len() - 1].to_vec();
        clause.sort_unstable();
        clause.dedup();
        clauses.push(clause);
    }
    clauses
}

/// Whether every clause has a true literal; entry v is the value of variable v.
pub fn satisfies(values: &[bool], numbers: &[i32]) -> bool {
    let is_true = |literal: &i32| values[variable(*literal)] == (*literal > 0);
    clauses(numbers)
        .iter()
        .all(|clause| clause.iter().any(is_true))
}
