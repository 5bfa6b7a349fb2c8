//! Demand 3 of one formula text, by the public solvers and the simulated chip, and demand 2, by the
//! second implementation's text. A text from the program and a text from a wrong generator are judged
//! alike.

use super::cadical::Cadical;
use super::cases::all_runs;
use super::programs::{Answer, Programs};
use super::reference::agreement::{agrees, feeds_of_model, first_reads, variable};
use super::reference::circuit::{word, Run};
use super::reference::formula::{
    clauses_text, header_text, pair_base_of, Fault, Formula as Reference,
};
use super::reference::netlist::{Netlist, FIRST_PORT};
use super::reference::random::{random_feeds, Random};
use super::reference::solver::satisfies;

/// Free bits up to which all runs of a netlist are compared.
const ALL_RUNS_BITS: u32 = 12;
/// Random runs that are compared where there are too many.
const SAMPLE: usize = 24;

/// What is wrong with a text.
#[derive(Clone, Copy, Debug, Default, PartialEq, Eq)]
pub struct Faults {
    /// Demand 2: it is not the text of the second implementation. No solver sees the order of clauses.
    pub text: bool,
    /// A solver does not take the file, the solvers differ, or a model is none.
    pub file: bool,
    /// Demand 3's first half: an assignment that differs from its run, or whose run breaks nothing.
    pub assignment_to_run: bool,
    /// Its second half: a run that breaks the property, without an assignment.
    pub run_to_assignment: bool,
    /// An e that is not as free, or not as bound, as RULES M5 says.
    pub bit_equality: bool,
}

#[derive(Debug, Default)]
pub struct Judgement {
    pub faults: Faults,
    pub satisfiable: bool,
    /// All runs were compared, so that the projected models are exactly the breaking feeds.
    pub all_runs: bool,
    pub breaking_runs: usize,
}

/// Judges a DIMACS text that stands for this netlist and depth.
pub fn judge(programs: &Programs, netlist: &Netlist, depth: u32, text: &[u8]) -> Judgement {
    let mut judgement = Judgement::default();
    let formula = match read_dimacs(text) {
        Some(formula) => formula,
        None => {
            judgement.faults.file = true;
            return judgement;
        }
    };
    judgement.faults.text = text != due_text(netlist, depth);
    let answers = programs.solve(text);
    judgement.satisfiable = answers[0].is_satisfiable();
    judgement.faults.file = answers[0].is_satisfiable() != answers[1].is_satisfiable();
    for answer in &answers {
        match answer {
            Answer::Unsatisfiable => {}
            Answer::Refused(_) => judgement.faults.file = true,
            Answer::Satisfiable(model) => {
                let proper =
                    model.len() == formula.variables + 1 && satisfies(model, &formula.numbers);
                judgement.faults.file |= !proper;
                judgement.faults.assignment_to_run |=
                    !proper || !follows_its_run(netlist, depth, model);
            }
        }
    }
    compare_runs(&mut judgement, netlist, depth, &formula);
    judgement
}

/// The second implementation's text.
fn due_text(netlist: &Netlist, depth: u32) -> Vec<u8> {
    let formula = Reference::new(netlist, depth, Fault::None);
    let header = header_text(formula.variable_count(), formula.clause_total());
    [header, clauses_text(&formula.numbers())].concat()
}

/// Numbers of which each 0 ends one clause, over variables 1 to `variables`.
pub struct Formula {
    pub variables: usize,
    pub numbers: Vec<i32>,
}

/// The numbers of a DIMACS text; none for anything else. That the counts hold is the solvers' to say.
pub fn read_dimacs(text: &[u8]) -> Option<Formula> {
    let (header, clauses) = std::str::from_utf8(text).ok()?.split_once('\n')?;
    let (variables, _) = header.strip_prefix("p cnf ")?.split_once(' ')?;
    let numbers: Result<Vec<i32>, _> = clauses.split_whitespace().map(str::parse).collect();
    Some(Formula {
        variables: variables.parse().ok()?,
        numbers: numbers.ok()?,
    })
}

/// Whether the run that a model feeds has every wire as assigned and breaks the property. Where the start
/// is unknown, it begins with a whole memory: what the model reads first, and zeros.
pub fn follows_its_run(netlist: &Netlist, depth: u32, model: &[bool]) -> bool {
    let feeds = feeds_of_model(netlist, depth, model);
    let mut run = Run::new(netlist, &feeds);
    if netlist.has_unknown_start() {
        let word = |it: &Option<(usize, u32)>| it.map_or(0, |(_, word)| word);
        let memory: Vec<u32> = first_reads(netlist, &run).iter().map(word).collect();
        run = Run::from_memory(netlist, &memory, &feeds);
    }
    run.first_break.is_some() && agrees(netlist, model, &run)
}

fn compare_runs(judgement: &mut Judgement, netlist: &Netlist, depth: u32, formula: &Formula) {
    let mut solver = Cadical::new(formula.variables, &formula.numbers);
    let all = all_runs(netlist, depth, ALL_RUNS_BITS);
    judgement.all_runs = all.is_some();
    let runs = all.unwrap_or_else(|| sample_runs(netlist, depth));
    let mut bits_judged = false;
    let mut blocking = Vec::new();
    for run in &runs {
        let breaks = run.first_break.is_some();
        let feed = projection(netlist, run);
        if breaks {
            judgement.breaking_runs += 1;
            blocking.extend(feed.iter().map(|literal| -literal).chain([0]));
        }
        match solver.solve(&feed) {
            None => judgement.faults.run_to_assignment |= breaks,
            Some(model) => {
                judgement.faults.assignment_to_run |= !breaks || !agrees(netlist, &model, run);
                if !bits_judged {
                    bits_judged = true;
                    judgement.faults.bit_equality |=
                        !bits_as_stated(&mut solver, netlist, run, &feed);
                }
            }
        }
    }
    if judgement.all_runs {
        // What is still satisfiable is a projected model that is no breaking feed.
        solver.add(&blocking);
        judgement.faults.assignment_to_run |= solver.solve(&[]).is_some();
    }
}

fn sample_runs(netlist: &Netlist, depth: u32) -> Vec<Run> {
    let mut random = Random::new(u64::from(netlist.property) << 32 | u64::from(depth));
    (0..SAMPLE)
        .map(|_| Run::new(netlist, &random_feeds(&mut random, netlist, depth)))
        .collect()
}

/// A run's inputs and read bits as literals. But where the run takes a fed word the read bits follow from
/// the rest, and an assignment with others is not to be taken for the run's.
fn projection(netlist: &Netlist, run: &Run) -> Vec<i32> {
    let inputs = 1..netlist.first_latch() as usize;
    let read_bits = netlist.first_read_bit() as usize..netlist.first_gate() as usize;
    let wires: Vec<usize> = inputs.chain(read_bits).collect();
    let mut literals = Vec::new();
    for (frame, values) in run.frames.iter().enumerate() {
        for wire in &wires {
            let number = variable(netlist, frame, *wire) as i32;
            literals.push(if values[*wire] { number } else { -number });
        }
    }
    literals
}

/// RULES M5: where the bits are equal e holds; where they differ it may be either, unless all others
/// hold (E is false then, and not all e may hold). Of each port: its address of frame i against the
/// address that writes in frame j.
fn bits_as_stated(solver: &mut Cadical, netlist: &Netlist, run: &Run, feed: &[i32]) -> bool {
    let m = netlist.address_width;
    let address =
        |port: u32, frame: u32| word(&run.frames[frame as usize], netlist.address_codes_of(port));
    let mut can_be = |literal: i32| solver.solve(&[feed, &[literal]].concat()).is_some();
    let frames = run.frames.len() as u32;
    let pairs = (0..frames).flat_map(|i| (0..i).map(move |j| (j, i)));
    let mut pairs = pairs.flat_map(|pair| netlist.ports().map(move |port| (port, pair)));
    pairs.all(|(port, (j, i))| {
        let differing = address(FIRST_PORT, j) ^ address(port, i);
        (0..m).all(|bit| {
            let e = pair_base_of(netlist, port, j, i) as i32 + 2 + bit as i32;
            let differs = (differing >> bit) & 1 == 1;
            let others_differ = differing & !(1 << bit) != 0;
            can_be(-e) == differs && can_be(e) == (!differs || others_differ)
        })
    })
}
