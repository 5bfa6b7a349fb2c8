//! From a solver's refutation in binary DRAT to lemmas and hints (RULES U3). Nobody believes it: what it makes is checked by the library.
//!
//! Forward, the clauses are added one by one until unit propagation alone gives a conflict: the empty lemma follows there. Then backward, each lemma
//! that one behind it needs is derived by propagation from its negation through the clauses before it, those that are needed already first, and the
//! clauses that propagated on the way to the conflict are its hints. Deletions are passed over: what was deleted may be cited.

use super::refutation::Certificate;

type Id = usize;

const NONE: Id = Id::MAX;

/// Clauses with two watched literals, and what is assigned.
struct Propagation {
    /// the literals of all clauses, without repeats, and where each begins
    literals: Vec<i32>,
    starts: Vec<usize>,
    /// by literal: the clauses that watch it; those that are needed apart from the others
    needed_watches: Vec<Vec<Id>>,
    watches: Vec<Vec<Id>>,
    needed: Vec<bool>,
    /// by literal: whether it is true; by variable: the clause that made it so, and its place in the trail
    holds: Vec<bool>,
    reason: Vec<Id>,
    place: Vec<usize>,
    trail: Vec<i32>,
    /// how much of the trail is propagated, through needed clauses and through all
    through_needed: usize,
    through_all: usize,
    seen: Vec<bool>,
}

fn slot(literal: i32) -> usize {
    2 * literal.unsigned_abs() as usize + usize::from(literal < 0)
}

impl Propagation {
    fn new(variables: usize) -> Self {
        let slots = 2 * variables + 2;
        Propagation {
            literals: Vec::new(),
            starts: vec![0],
            needed_watches: vec![Vec::new(); slots],
            watches: vec![Vec::new(); slots],
            needed: Vec::new(),
            holds: vec![false; slots],
            reason: vec![NONE; variables + 1],
            place: vec![0; variables + 1],
            trail: Vec::new(),
            through_needed: 0,
            through_all: 0,
            seen: vec![false; variables + 1],
        }
    }

    fn clause(&self, id: Id) -> &[i32] {
        &self.literals[self.starts[id]..self.starts[id + 1]]
    }

    fn is_false(&self, literal: i32) -> bool {
        self.holds[slot(-literal)]
    }

    fn assign(&mut self, literal: i32, reason: Id) {
        let variable = literal.unsigned_abs() as usize;
        self.holds[slot(literal)] = true;
        self.reason[variable] = reason;
        self.place[variable] = self.trail.len();
        self.trail.push(literal);
    }

    fn undo(&mut self, length: usize) {
        for literal in self.trail.drain(length..) {
            self.holds[slot(literal)] = false;
        }
        self.through_needed = self.through_needed.min(length);
        self.through_all = self.through_all.min(length);
    }

    /// Adds a clause: a literal that is not false is watched if there is one. The answer is the clause where all are false.
    fn add(&mut self, clause: &[i32]) -> Option<Id> {
        let id = self.needed.len();
        let start = self.literals.len();
        for literal in clause {
            if !self.literals[start..].contains(literal) {
                self.literals.push(*literal);
            }
        }
        self.starts.push(self.literals.len());
        self.needed.push(false);
        let mut free = start;
        for at in start..self.literals.len() {
            if free < start + 2 && !self.is_false(self.literals[at]) {
                self.literals.swap(free, at);
                free += 1;
            }
        }
        if self.literals.len() >= start + 2 {
            for at in [start, start + 1] {
                self.watches[slot(self.literals[at])].push(id);
            }
        }
        if free == start {
            return Some(id);
        }
        if free == start + 1 && !self.holds[slot(self.literals[start])] {
            self.assign(self.literals[start], id);
        }
        None
    }

    /// Propagates through the clauses before `limit`. The answer is a clause that became false.
    fn propagate(&mut self, limit: Id) -> Option<Id> {
        loop {
            let needed_first = self.through_needed < self.trail.len();
            let turn = if needed_first { &mut self.through_needed } else { &mut self.through_all };
            let literal = *self.trail.get(*turn)?;
            *turn += 1;
            if let Some(id) = self.visit(slot(-literal), limit, needed_first) {
                return Some(id);
            }
        }
    }

    /// Goes through the clauses that watch a literal which became false.
    fn visit(&mut self, watched: usize, limit: Id, needed_first: bool) -> Option<Id> {
        let list = if needed_first { &mut self.needed_watches } else { &mut self.watches };
        let mut ids = std::mem::take(&mut list[watched]);
        let mut kept = 0;
        let mut conflict = None;
        let mut at = 0;
        while at < ids.len() {
            let id = ids[at];
            at += 1;
            if id >= limit {
                continue; // gone for good: the limit only goes down
            }
            let (start, end) = (self.starts[id], self.starts[id + 1]);
            if slot(self.literals[start]) == watched {
                self.literals.swap(start, start + 1);
            }
            let other = self.literals[start];
            let mut moved = self.holds[slot(other)];
            let mut stays = true;
            if !moved {
                for next in start + 2..end {
                    if !self.is_false(self.literals[next]) {
                        self.literals.swap(start + 1, next);
                        let watch = slot(self.literals[start + 1]);
                        let list = if self.needed[id] { &mut self.needed_watches } else { &mut self.watches };
                        list[watch].push(id);
                        moved = true;
                        stays = false;
                        break;
                    }
                }
            }
            if stays {
                if !needed_first && self.needed[id] {
                    self.needed_watches[watched].push(id);
                } else {
                    ids[kept] = id;
                    kept += 1;
                }
            }
            if moved {
                continue;
            }
            if self.is_false(other) {
                conflict = Some(id);
                break;
            }
            self.assign(other, id);
        }
        while at < ids.len() {
            ids[kept] = ids[at];
            kept += 1;
            at += 1;
        }
        ids.truncate(kept);
        let list = if needed_first { &mut self.needed_watches } else { &mut self.watches };
        // what came in meanwhile stands behind
        let came = std::mem::take(&mut list[watched]);
        ids.extend(came);
        list[watched] = ids;
        conflict
    }

    /// The clauses that led to a clause becoming false, in their order, and that clause; all of them are needed. The lemma's own literals need none.
    fn explain(&mut self, conflict: Id, lemma: &[i32]) -> Vec<Id> {
        let mut places = Vec::new();
        for literal in lemma {
            self.seen[literal.unsigned_abs() as usize] = true;
        }
        let mut open = vec![conflict];
        while let Some(id) = open.pop() {
            for at in self.starts[id]..self.starts[id + 1] {
                let variable = self.literals[at].unsigned_abs() as usize;
                if !self.seen[variable] {
                    self.seen[variable] = true;
                    places.push(self.place[variable]);
                    if self.reason[variable] != NONE {
                        open.push(self.reason[variable]);
                    }
                }
            }
        }
        places.sort_unstable();
        let mut ids: Vec<Id> = Vec::new();
        for place in places {
            let variable = self.trail[place].unsigned_abs() as usize;
            self.seen[variable] = false;
            let id = self.reason[variable];
            if id != NONE {
                ids.push(id);
            }
        }
        for literal in lemma {
            self.seen[literal.unsigned_abs() as usize] = false;
        }
        ids.push(conflict);
        for id in &ids {
            self.needed[*id] = true;
        }
        ids
    }
}

/// The lemmas that a binary DRAT text adds, in their order.
pub fn added_lemmas(proof: &[u8]) -> Result<Vec<Vec<i32>>, String> {
    let mut lemmas = Vec::new();
    let mut bytes = proof.iter().copied();
    while let Some(kind) = bytes.next() {
        let mut lemma = Vec::new();
        loop {
            let (mut number, mut shift) = (0u64, 0);
            loop {
                let byte = bytes.next().ok_or("the proof ends within a clause")?;
                number |= u64::from(byte & 127) << shift;
                shift += 7;
                if byte < 128 {
                    break;
                }
                if shift > 28 {
                    return Err("a number of the proof is too large".to_string());
                }
            }
            if number == 0 {
                break;
            }
            let variable = i32::try_from(number / 2).map_err(|_| "a variable of the proof is too large")?;
            lemma.push(if number % 2 == 1 { -variable } else { variable });
        }
        match kind {
            b'a' => lemmas.push(lemma),
            b'd' => {}
            _ => return Err(format!("byte {kind} begins no line of a proof")),
        }
    }
    Ok(lemmas)
}

/// Lemmas and hints from a formula's numbers and the lemmas of its refutation.
pub fn elaborate(formula: &[i32], lemmas: &[Vec<i32>], variables: usize) -> Result<Certificate, String> {
    let mut state = Propagation::new(variables);
    let mut places = Vec::new();
    let mut at = 0;
    let mut lengths = Vec::new(); // of the trail, before each clause
    let mut conflict = None;
    let clauses = formula.split_inclusive(|number| *number == 0).map(|clause| {
        let place = at;
        at += clause.len();
        (Some(place), &clause[..clause.len() - 1])
    });
    let mut count = 0;
    for (place, clause) in clauses.chain(lemmas.iter().map(|lemma| (None, lemma.as_slice()))) {
        if clause.iter().any(|literal| literal.unsigned_abs() as usize > variables) {
            return Err(format!("clause {count} has a variable above {variables}"));
        }
        count += 1;
        if let Some(place) = place {
            places.push(place);
        }
        lengths.push(state.trail.len());
        conflict = state.add(clause);
        if conflict.is_none() {
            conflict = state.propagate(count);
        }
        if conflict.is_some() {
            break;
        }
    }
    let first = places.len(); // the lemmas' first id
    let conflict = conflict.ok_or("the proof does not lead to a conflict")?;
    let mut hints = vec![(NONE, state.explain(conflict, &[]))];
    for id in (first..count).rev() {
        state.undo(lengths[id]);
        if !state.needed[id] {
            continue;
        }
        let lemma = state.clause(id).to_vec();
        let length = state.trail.len();
        // a literal that is true already is made so by a clause in which it is then the last that is not false
        let mut met = None;
        for literal in &lemma {
            if state.holds[slot(*literal)] {
                met = Some(state.reason[literal.unsigned_abs() as usize]);
                break;
            }
            if !state.is_false(*literal) {
                state.assign(-*literal, NONE);
            }
        }
        state.through_needed = state.through_needed.min(length);
        let met = match met {
            Some(id) => Some(id),
            None => state.propagate(id),
        };
        let met = met.ok_or_else(|| format!("lemma {} does not follow by unit propagation", id - first))?;
        hints.push((id, state.explain(met, &lemma)));
        state.undo(length);
    }
    hints.reverse();
    let mut made = Certificate::default();
    let mut place_of = vec![NONE; count];
    place_of[..first].copy_from_slice(&places);
    for (id, cited) in hints {
        if id != NONE {
            place_of[id] = formula.len() + made.lemmas.len();
            made.lemmas.extend(state.clause(id));
        }
        made.lemmas.push(0);
        made.hints.push(cited.len() as u32);
        for clause in cited {
            made.hints.push(u32::try_from(place_of[clause]).map_err(|_| "the certificate is too large")?);
        }
    }
    Ok(made)
}
