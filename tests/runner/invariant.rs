//! A second checker of certificates for every depth, written from docs/LIBRARY.md and RULES H1 to H6: the bits of a state, the variables of a step,
//! the laws that requests ask for, the invariant at the start.

use super::reference::netlist::{Netlist, FIRST_PORT};
use super::reference::refusal::{require, NO_ROOM};
use super::reference::sheet::read_sheet;
use super::refutation::{Certificate, Outcome};

/// Of a request: three numbers for five.
pub const REQUEST: usize = 3;
pub const CLAUSE: usize = 5;

/// An invariant, which clauses of a step are asked for, and the refutation of these with the invariant.
#[derive(Clone, Debug, Default, PartialEq, Eq)]
pub struct Forever {
    pub invariant: Vec<i32>,
    pub requests: Vec<u32>,
    pub refutation: Certificate,
}

/// What a variable of a step stands for; indices from 0.
#[derive(Clone, Copy, Debug, PartialEq, Eq)]
pub enum Variable {
    Bit(usize),
    /// Behind the step.
    Next(usize),
    Wire(usize),
    /// The lowest bits, so many, of the address at a port are those of a word.
    Match { word: usize, bits: usize, port: usize },
    /// The clauses from a place of the invariant on fail behind the step, with a number of the first found true before the place or with none.
    Fails { place: usize, found: bool },
}

/// Two terms that are equal where two guards are false. Their numbers may be too large for a clause.
#[derive(Clone, Copy, Debug, PartialEq, Eq)]
pub struct Law {
    guards: [i64; 2],
    terms: [i64; 2],
}

/// A clause with a number beyond this one says nothing.
const LARGEST: i64 = i32::MAX as i64 - 1;
/// Matches are numbered for as many words as the largest memory has.
const MATCHED_WORDS: usize = 4_096;

/// One step of an accepted netlist under an invariant.
pub struct Step<'a> {
    pub netlist: &'a Netlist,
    pub invariant: &'a [i32],
}

impl Step<'_> {
    fn latches(&self) -> usize {
        self.netlist.latch_count as usize
    }

    fn width(&self) -> usize {
        self.netlist.data_width as usize
    }

    fn ports(&self) -> usize {
        self.netlist.port_count() as usize
    }

    pub fn words(&self) -> usize {
        1 << self.netlist.address_width
    }

    /// How many bits a state has: latches, words held, memory.
    pub fn bits(&self) -> usize {
        self.latches() + (self.ports() + self.words()) * self.width()
    }

    /// Ports from 0.
    pub fn held_bit(&self, port: usize, bit: usize) -> usize {
        self.latches() + port * self.width() + bit
    }

    pub fn memory_bit(&self, word: usize, bit: usize) -> usize {
        self.latches() + (self.ports() + word) * self.width() + bit
    }

    /// A variable as a clause has it.
    pub fn number(&self, variable: Variable) -> i64 {
        let behind = |index: usize, family: usize| self.bits() + 5 * index + family;
        let index = match variable {
            Variable::Bit(bit) => bit,
            Variable::Next(bit) => behind(bit, 0),
            Variable::Wire(wire) => behind(wire, 1),
            Variable::Match { word, bits, port } => behind(32 * word + 2 * bits + port, 2),
            Variable::Fails { place, found } => behind(place, 3 + usize::from(found)),
        };
        index as i64 + 1
    }

    /// One more than the largest variable of any law that says something.
    pub fn end(&self) -> usize {
        let wires = self.netlist.wire_count() as usize + 1;
        let most = (32 * self.words()).max(wires).max(self.bits()).max(self.invariant.len() + 1);
        self.bits() + 5 * most + 1
    }

    /// A code, true or inverted; wire 0 is false.
    fn code(&self, code: u32) -> i64 {
        let number = self.number(Variable::Wire(code as usize / 2));
        if code % 2 == 1 {
            -number
        } else {
            number
        }
    }

    fn never(&self) -> i64 {
        self.code(0)
    }

    fn always(&self) -> i64 {
        self.code(1)
    }

    /// A number of the invariant, of the state behind the step.
    fn next(&self, number: i32) -> i64 {
        self.number(Variable::Next(number.unsigned_abs() as usize - 1)) * i64::from(number.signum())
    }

    /// The law of a family with its indices, if there is one.
    pub fn law(&self, family: u32, law: u32, i: u32, j: u32) -> Option<Law> {
        let (i, j) = (i as usize, j as usize);
        match family {
            0 => self.latch_law(law, i),
            1 => self.gate_law(law, i),
            2 => self.read_law(law, i / 2, i % 2, j),
            3 => self.write_law(law, i, j),
            4 => self.match_law(law, i / 2, i % 2, j),
            5 => self.invariant_law(law, i),
            _ => None,
        }
    }

    fn equal(&self, u: i64, w: i64) -> Law {
        self.equal_unless(self.never(), u, w)
    }

    /// One guard stands for both.
    fn equal_unless(&self, guard: i64, u: i64, w: i64) -> Law {
        Law { guards: [guard; 2], terms: [u, w] }
    }

    fn latch_law(&self, law: u32, latch: usize) -> Option<Law> {
        let wire = |latch: usize| self.number(Variable::Wire(self.netlist.first_latch() as usize + latch));
        match law {
            0 => Some(Law { guards: [self.always(); 2], terms: [self.never(), self.always()] }),
            3 => Some(self.equal_unless(-self.code(self.netlist.property), self.number(Variable::Fails { place: 0, found: false }), self.always())),
            _ if latch >= self.latches() => None,
            1 => Some(self.equal(wire(latch), self.number(Variable::Bit(latch)))),
            _ => Some(self.equal(self.number(Variable::Next(latch)), self.code(self.netlist.latches[latch].next))),
        }
    }

    fn gate_law(&self, law: u32, gate: usize) -> Option<Law> {
        let operands = self.netlist.gates.get(gate)?;
        let own = self.number(Variable::Wire(self.netlist.first_gate() as usize + gate));
        let (left, right) = (self.code(operands.left), self.code(operands.right));
        let (this, other) = if law < 2 { (left, right) } else { (right, left) };
        Some(match law % 2 {
            0 => self.equal_unless(-other, own, this),
            _ => self.equal_unless(other, own, self.never()),
        })
    }

    /// That the address at a port is a word's.
    fn matched(&self, word: usize, port: usize) -> i64 {
        self.number(Variable::Match { word, bits: self.netlist.address_width as usize, port })
    }

    fn read_law(&self, law: u32, bit: usize, port: usize, word: usize) -> Option<Law> {
        if bit >= self.width() || port >= self.ports() || word >= self.words() {
            return None;
        }
        let number = FIRST_PORT + port as u32;
        let wire = self.number(Variable::Wire(self.netlist.read_bits(number).start as usize + bit));
        let reads = self.code(self.netlist.read_enable_of(number));
        let held = self.held_bit(port, bit);
        match law {
            0 => Some(self.equal_unless(reads, wire, self.number(Variable::Bit(held)))),
            1 => {
                let stored = self.number(Variable::Bit(self.memory_bit(word, bit)));
                Some(Law { guards: [-reads, -self.matched(word, port)], terms: [wire, stored] })
            }
            2 => Some(self.equal(self.number(Variable::Next(held)), wire)),
            _ => None,
        }
    }

    fn write_law(&self, law: u32, bit: usize, word: usize) -> Option<Law> {
        if bit >= self.width() || word >= self.words() {
            return None;
        }
        let stored = self.memory_bit(word, bit);
        let (now, next) = (self.number(Variable::Bit(stored)), self.number(Variable::Next(stored)));
        let (writes, matched) = (self.code(self.netlist.write_enable), self.matched(word, 0));
        match law {
            0 => Some(Law { guards: [-writes, -matched], terms: [next, self.code(self.netlist.write_data[bit])] }),
            1 => Some(self.equal_unless(writes, next, now)),
            2 => Some(self.equal_unless(matched, next, now)),
            _ => None,
        }
    }

    fn match_law(&self, law: u32, bit: usize, port: usize, word: usize) -> Option<Law> {
        if port >= self.ports() || word >= MATCHED_WORDS {
            return None;
        }
        let code = *self.netlist.address_codes_of(FIRST_PORT + port as u32).get(bit)?;
        let matched = |bits: usize| self.number(Variable::Match { word, bits, port });
        let agrees = if word >> bit & 1 == 1 { self.code(code) } else { -self.code(code) };
        match law {
            0 => Some(self.equal(matched(0), self.always())),
            1 => Some(self.equal_unless(-agrees, matched(bit + 1), matched(bit))),
            2 => Some(self.equal_unless(agrees, matched(bit + 1), self.never())),
            _ => None,
        }
    }

    fn invariant_law(&self, law: u32, place: usize) -> Option<Law> {
        let fails = |place: usize, found: bool| self.number(Variable::Fails { place, found });
        match (self.invariant.get(place), law) {
            (None, 0 | 1) => Some(self.equal(fails(place, law == 1), self.never())),
            (Some(0), 0) => Some(self.equal(fails(place, false), self.always())),
            (Some(0), 1) => Some(self.equal(fails(place, true), fails(place + 1, false))),
            (Some(0) | None, _) => None,
            (Some(number), 0) => Some(self.equal_unless(-self.next(*number), fails(place, false), fails(place + 1, true))),
            (Some(number), 1) => Some(self.equal_unless(self.next(*number), fails(place, false), fails(place + 1, false))),
            (Some(_), 2) => Some(self.equal(fails(place, true), fails(place + 1, true))),
            _ => None,
        }
    }

    /// The clause that a request asks for. One without a law says that variable 1 is what it is.
    pub fn clause(&self, kind: u32, i: u32, j: u32) -> [i32; CLAUSE] {
        let nothing = Law { guards: [1; 2], terms: [1; 2] };
        let Law { guards: [first, second], terms: [u, w] } = self.law(kind / 8, kind / 2 % 4, i, j).unwrap_or(nothing);
        let sign = if kind % 2 == 0 { -1 } else { 1 };
        let numbers = [first, second, sign * u, -sign * w, 0];
        if numbers.iter().any(|number| number.abs() > LARGEST) {
            return [1, 1, -1, -1, 0];
        }
        numbers.map(|number| number as i32)
    }

    /// The clauses of all requests.
    pub fn clauses(&self, requests: &[u32]) -> Vec<i32> {
        requests.chunks_exact(REQUEST).flat_map(|request| self.clause(request[0], request[1], request[2])).collect()
    }

    /// Every request for a law that says something, in both directions.
    pub fn all_requests(&self) -> Vec<u32> {
        let mut requests = Vec::new();
        let most = self.words().max(self.invariant.len() + 1).max(2 * (self.netlist.address_width as usize + 1)).max(2 * self.width());
        let most = most.max(self.latches()).max(self.netlist.gates.len()) as u32;
        let (without, with) = (1, self.words() as u32);
        for (family, words) in [(0, without), (1, without), (2, with), (3, with), (4, with), (5, without)] {
            for (law, i, j) in (0..4).flat_map(|law| (0..most).flat_map(move |i| (0..words).map(move |j| (law, i, j)))) {
                // some laws do not have an index: they are asked for once
                let again = match (family, law) {
                    (0, 0 | 3) => i > 0,
                    (2, 0 | 2) => j > 0,
                    (4, 0) => i > 1,
                    (4, _) => j as usize >= self.words(),
                    (5, _) => i as usize > self.invariant.len(),
                    _ => false,
                };
                if !again && self.law(family, law, i, j).is_some() {
                    requests.extend([8 * family + 2 * law, i, j, 8 * family + 2 * law + 1, i, j]);
                }
            }
        }
        requests
    }

    /// Whether a number is true in every state at the start: bits of latches, and of memory words where the start is given (RULES H3).
    fn begins_true(&self, number: i32) -> bool {
        let bit = match (number.unsigned_abs() as usize).checked_sub(1) {
            Some(bit) if bit < self.bits() => bit,
            _ => return false,
        };
        let memory = self.memory_bit(0, 0);
        let begins = if bit < self.latches() {
            Some(self.netlist.latches[bit].reset == 1)
        } else if bit < memory || self.netlist.has_unknown_start() {
            None
        } else {
            Some(self.netlist.start_word >> ((bit - memory) % self.width()) & 1 == 1)
        };
        begins == Some(number > 0)
    }

    /// Whether no number of the invariant is past the last bit, and each clause, ended by 0, has one that is true in every state at the start.
    pub fn holds_at_start(&self) -> bool {
        let within = |number: &i32| number.unsigned_abs() as usize <= self.bits();
        let mut clauses = self.invariant.split_inclusive(|number| *number == 0).filter(|clause| clause.ends_with(&[0]));
        self.invariant.iter().all(within) && clauses.all(|clause| clause.iter().any(|number| self.begins_true(*number)))
    }
}

impl Forever {
    /// How many numbers a store needs (RULES H6).
    pub fn need(&self) -> usize {
        self.requests.len() / REQUEST * CLAUSE + self.invariant.len() + self.refutation.lemmas.len()
    }

    /// What a call answers of a sheet with this certificate, and leaves (RULES H5 and H6).
    pub fn outcome(&self, sheet: &[u8], store: usize, marks: usize) -> Outcome {
        let refutation = &self.refutation;
        let tested = read_sheet(sheet, usize::MAX, usize::MAX).and_then(|netlist| require(store >= self.need(), NO_ROOM, 0).map(|()| netlist));
        let netlist = match tested {
            Ok(netlist) => netlist,
            Err(refusal) => return Outcome::refused(refusal),
        };
        let step = Step { netlist: &netlist, invariant: &self.invariant };
        let known = [step.clauses(&self.requests), self.invariant.clone()].concat();
        let written = [&known[..], &refutation.lemmas].concat();
        if step.holds_at_start() {
            Outcome::checked(refutation.unjustified(&known, marks / 2), written, marks)
        } else {
            Outcome::checked(Some(0), written, 0)
        }
    }
}
