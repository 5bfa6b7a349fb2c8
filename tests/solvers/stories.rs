//! The sheets of examples/: the solvers' verdicts, and what all runs that break the property have in common.

use std::fs;
use std::path::Path;

use super::cadical::Cadical;
use super::judge::{judge, read_dimacs, Faults};
use super::programs::{Answer, Programs};
use super::reference::agreement::variable;
use super::reference::formula::Fault;
use super::reference::netlist::Netlist;
use super::reference::sheet::read_sheet;
use super::reference::tally::Tally;
use super::wrong::{wrong_text, Mistake};

enum Fact {
    /// In a frame a named word has this value.
    Is(usize, &'static str, u32),
    /// In a frame a named word has another value than this.
    Other(usize, &'static str, u32),
    /// In two frames a named word has the same value.
    Same(usize, usize, &'static str),
}
use Fact::{Is, Other, Same};

/// A sheet and a depth, and what holds of every run that breaks the property in frames 0 to depth; no
/// facts where no run does.
type Story = (&'static str, u32, &'static [Fact]);

#[rustfmt::skip]
const STORIES: [Story; 15] = [
    ("echo/chip", 0, &[]),
    ("echo/chip", 1, &[Is(0, "input", 1), Is(1, "read", 1)]),
    // Fifty is written, a hundred is written over it; two frames later the carton is counted with the fifty.
    ("fourth-revision/faulty", 2, &[]),
    ("fourth-revision/faulty", 3, &[
        Is(0, "scan", 1), Is(0, "size", 50),
        Is(1, "scan", 1), Is(1, "size", 100), Same(0, 1, "carton"),
        Is(2, "scan", 0),
        Is(3, "scan", 0), Is(3, "count", 1), Same(0, 3, "carton"), Is(3, "held-size", 50), Is(3, "operand", 50),
    ]),
    ("fourth-revision/repaired", 12, &[]),
    // One scan writes a hundred and reads the fifty that the scan before it wrote.
    ("fifth-revision/faulty", 0, &[]),
    ("fifth-revision/faulty", 1, &[
        Is(0, "scan", 1), Is(0, "size", 50),
        Is(1, "scan", 1), Is(1, "size", 100), Same(0, 1, "carton"), Is(1, "operand", 50),
    ]),
    ("fifth-revision/repaired", 12, &[]),
    // A carton is counted that was never scanned, and the word that stands there is not 0.
    ("sixth-revision/unknown", 0, &[]),
    ("sixth-revision/unknown", 1, &[
        Is(0, "scan", 0), Is(0, "count", 1), Other(0, "operand", 0),
        Is(1, "scanned", 0), Other(1, "total", 0),
    ]),
    ("sixth-revision/cleared", 12, &[]),
    ("sixth-revision/repaired", 12, &[]),
    // A frame takes a size and puts another: the size that it took is taken again.
    ("seventh-revision/faulty", 1, &[]),
    ("seventh-revision/faulty", 2, &[
        Is(0, "scan", 1), Is(0, "end", 0),
        Is(1, "scan", 1), Is(1, "count", 1), Is(1, "first", 0), Is(1, "end", 1),
        Is(2, "count", 1), Is(2, "first", 0), Is(2, "end", 2), Is(2, "waiting", 1), Same(1, 2, "operand"), Same(0, 2, "first"),
    ]),
    ("seventh-revision/repaired", 12, &[]),
];

/// Where a wrong generator misleads a designer: it misses a fault, or reports one in a repaired chip.
const MISLED: [(&str, u32, Fault, bool); 5] = [
    ("fifth-revision/faulty", 4, Fault::OwnFrameWrite, false),
    ("sixth-revision/unknown", 4, Fault::UnknownStartsZero, false),
    ("fourth-revision/repaired", 5, Fault::OldestWrite, true),
    ("seventh-revision/faulty", 4, Fault::FirstPending, false),
    ("seventh-revision/repaired", 4, Fault::SecondAddressWrites, true),
];

pub fn stories(tally: &mut Tally, programs: &Programs, examples: &Path) {
    for (name, depth, facts) in STORIES {
        let example = Example::read(&examples.join(name));
        let text = programs.frames_of_sheet(&example.sheet, depth);
        let judgement = judge(programs, &example.netlist, depth, &text);
        tally.equal((name, depth, "faults"), judgement.faults, Faults::default());
        for answer in programs.solve(&text) {
            let verdict = match answer {
                Answer::Satisfiable(_) => !facts.is_empty(),
                Answer::Unsatisfiable => facts.is_empty(),
                Answer::Refused(_) => false,
            };
            tally.check((name, depth, "verdict"), verdict);
        }
        let formula = read_dimacs(&text).expect("a formula");
        let mut solver = Cadical::new(formula.variables, &formula.numbers);
        for (index, fact) in facts.iter().enumerate() {
            let mut otherwise = example.otherwise(fact).into_iter();
            let always = otherwise.all(|assumptions| solver.solve(&assumptions).is_none());
            tally.check((name, depth, "fact", index), always);
        }
    }
    for (name, depth, fault, found) in MISLED {
        let example = Example::read(&examples.join(name));
        for answer in programs.solve(&wrong_text(&example.netlist, depth, Mistake::Of(fault))) {
            tally.equal((name, depth, fault), answer.is_satisfiable(), found);
        }
    }
}

struct Example {
    sheet: Vec<u8>,
    netlist: Netlist,
    /// Names of words, each with its codes, the lowest bit first.
    names: Vec<(String, Vec<u32>)>,
}

impl Example {
    fn read(path: &Path) -> Example {
        let sheet = fs::read(path.with_extension("sheet")).expect("the sheet of an example");
        let names = fs::read_to_string(path.with_extension("names")).expect("its names");
        let named = |line: &str| {
            let mut words = line.split(' ');
            let name = words.next().unwrap_or_default().to_string();
            (
                name,
                words.map(|code| code.parse().expect("a code")).collect(),
            )
        };
        Example {
            netlist: read_sheet(&sheet, 600, 600).expect("a sheet that is accepted"),
            names: names.lines().map(named).collect(),
            sheet,
        }
    }

    /// The bits of a named word as literals of a frame; variable 1 is true.
    fn literals(&self, frame: usize, name: &str) -> Vec<i32> {
        let found = self.names.iter().find(|(other, _)| other == name);
        let (_, codes) = found.expect("a name of the example");
        let literal = |code: &u32| {
            let positive = match code / 2 {
                0 => -1,
                wire => variable(&self.netlist, frame, wire as usize) as i32,
            };
            if code % 2 == 0 {
                positive
            } else {
                -positive
            }
        };
        codes.iter().map(literal).collect()
    }

    /// The literals that all hold exactly if a named word has this value in a frame.
    fn bits_of(&self, frame: usize, name: &str, value: u32) -> Vec<i32> {
        let bits = self.literals(frame, name).into_iter().enumerate();
        bits.map(|(bit, literal)| {
            if (value >> bit) & 1 == 1 {
                literal
            } else {
                -literal
            }
        })
        .collect()
    }

    /// Assumptions of which one can be met exactly if the fact can fail.
    fn otherwise(&self, fact: &Fact) -> Vec<Vec<i32>> {
        match *fact {
            Is(frame, name, value) => {
                let bits = self.bits_of(frame, name, value).into_iter();
                bits.map(|literal| vec![-literal]).collect()
            }
            Other(frame, name, value) => vec![self.bits_of(frame, name, value)],
            Same(first, second, name) => {
                let (a, b) = (self.literals(first, name), self.literals(second, name));
                a.iter()
                    .zip(&b)
                    .flat_map(|(a, b)| [vec![*a, -b], vec![-a, *b]])
                    .collect()
            }
        }
    }
}
