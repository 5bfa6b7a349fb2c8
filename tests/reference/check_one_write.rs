//! K13: one write behind each read, and what an assignment is settled by.

use std::collections::HashMap;

use super::agreement::feed_literals;
use super::check_examples::{accepted, FULL_RUN};
use super::check_ports::CONSTANT_READS;
use super::circuit::Run;
use super::formula::{Fault, Formula};
use super::netlist::Netlist;
use super::one_write::{
    code_value, reads, source_due, source_variables, sources_named, writes_of_address, wrong_read,
    Read, Source,
};
use super::random::{
    enable_often, random_feeds, tiny_netlist, tiny_two_ports, wide_netlist, wide_two_ports, Random,
};
use super::second_assignment::{choices, equality_variables, settled, two_assignments, Question};
use super::solver::{satisfies, Solver};
use super::Tally;

use Source::{Start, Write};

/// Sheet, depth, the variables that are true in an assignment, and what its reads must name, by port and
/// frame.
type Row = (
    &'static str,
    u32,
    &'static [usize],
    &'static [(Read, Option<Source>)],
);

/// The full run with RE false, and with WE false.
const NEVER_READS: &str = "N 1 0 0/M 1 1 0/A 0/D 2/C 1 0 5";
const NEVER_WRITES: &str = "N 1 0 0/M 1 1 0/A 0/D 2/C 0 1 4";

/// Address, WE and RE are inputs 1 to 3, write data is true, the read bit is wire 4: it breaks the
/// property.
const ALL_FREE: &str = "N 3 0 0/M 1 1 0/A 2/D 1/C 4 6 9";

#[rustfmt::skip]
const ASSIGNMENTS: [Row; 6] = [
    // Every frame writes and reads one word: the newest write is the frame before. Frames are 2 and 3,
    // 4 and 5, 11 and 12; pairs (0, 1) 6 to 10, (0, 2) 13 to 17, (1, 2) 18 to 22.
    (
        FULL_RUN, 2, &[1, 2, 5, 6, 7, 8, 10, 11, 13, 14, 15, 18, 19, 20, 22],
        &[((1, 0), Some(Start)), ((1, 1), Some(Write(0))), ((1, 2), Some(Write(1)))],
    ),
    // No write: Z of all frames is true.
    (
        NEVER_WRITES, 2, &[1, 6, 7, 9, 13, 14, 16, 18, 19, 21],
        &[((1, 0), Some(Start)), ((1, 1), Some(Start)), ((1, 2), Some(Start))],
    ),
    // No read: all are false. The idle word is 1.
    (
        NEVER_READS, 1, &[1, 3, 5, 6, 7, 8],
        &[((1, 0), None), ((1, 1), None)],
    ),
    // The second port reads an address that is never written. Frames are 2 to 4 and 5 to 7; the pair
    // (0, 1) is 8 to 12 and 13 to 17.
    (
        CONSTANT_READS, 1, &[1, 2, 6, 8, 9, 10, 12, 16],
        &[((1, 0), Some(Start)), ((2, 0), Some(Start)), ((1, 1), Some(Write(0))), ((2, 1), Some(Start))],
    ),
    // Frames are 2 to 5, 6 to 9, 15 to 18; pairs (0, 1) 10 to 14, (0, 2) 19 to 23, (1, 2) 24 to 28.
    // Frames 0 and 1 write word 0, frame 2 reads it: the newer one is named.
    (
        ALL_FREE, 2, &[1, 3, 7, 10, 11, 12, 17, 18, 19, 20, 21, 24, 25, 26, 28],
        &[((1, 0), None), ((1, 1), None), ((1, 2), Some(Write(1)))],
    ),
    // Frame 1 writes word 1: frame 2 sees the write of frame 0.
    (
        ALL_FREE, 2, &[1, 3, 6, 7, 17, 18, 19, 20, 21, 23, 27],
        &[((1, 0), None), ((1, 1), None), ((1, 2), Some(Write(0)))],
    ),
];

/// An assignment of `ASSIGNMENTS` by its index, variables turned over in it, and the first read at fault.
#[rustfmt::skip]
const TURNED: [(usize, &[usize], Option<Read>); 17] = [
    (0, &[], None),
    // The oldest write, the start, both, none, all.
    (0, &[17, 22], Some((1, 2))),
    (0, &[16, 22], Some((1, 2))),
    (0, &[16], Some((1, 2))),
    (0, &[22], Some((1, 2))),
    (0, &[16, 17], Some((1, 2))),
    (0, &[9, 10], Some((1, 1))),
    (0, &[9, 10, 16, 22], Some((1, 1))),
    // Other variables of the pairs, e among them, are not looked at.
    (0, &[6, 7, 8, 13, 14, 15, 21], None),
    (1, &[9], Some((1, 1))),
    (1, &[17], Some((1, 2))),
    (2, &[9], Some((1, 1))),
    (2, &[9, 10], Some((1, 1))),
    (3, &[16, 17], Some((2, 1))),
    (3, &[11, 12], Some((1, 1))),
    // WE of frame 1 turned over, or its address: the older write is then due, which is not named.
    (4, &[7], Some((1, 2))),
    (4, &[6], Some((1, 2))),
];

fn assignment(netlist: &Netlist, depth: u32, true_variables: &[usize]) -> Vec<bool> {
    let variables = Formula::new(netlist, depth, Fault::None).variable_count() as usize;
    (0..=variables)
        .map(|it| true_variables.contains(&it))
        .collect()
}

pub fn by_hand(tally: &mut Tally) {
    for (short, depth, true_variables, due) in ASSIGNMENTS {
        let netlist = accepted(short);
        let model = assignment(&netlist, depth, true_variables);
        let formula = Formula::new(&netlist, depth, Fault::None);
        for asked in formula.port_groups() {
            let holds = satisfies(&model, &formula.port_group(asked));
            tally.check((short, asked), holds);
        }
        tally.equal((short, "reads"), reads(&netlist, depth).len(), due.len());
        for (read, source) in due {
            let found = source_due(&netlist, *read, &model);
            tally.equal((short, read, "due"), found, *source);
            let named = sources_named(&netlist, *read, &model);
            tally.equal((short, read, "named"), named, Vec::from_iter(*source));
        }
        tally.equal(short, wrong_read(&netlist, depth, &model), None);
    }
    for (index, turned, expected) in TURNED {
        let (short, depth, true_variables, _) = ASSIGNMENTS[index];
        let netlist = accepted(short);
        let mut model = assignment(&netlist, depth, true_variables);
        turned.iter().for_each(|it| model[*it] = !model[*it]);
        let found = wrong_read(&netlist, depth, &model);
        tally.equal((short, turned), found, expected);
    }
}

/// Tiny netlists of both kinds with a depth of at most 3. A third frame is taken where there are few
/// assignments: inputs and address bits are few.
fn tiny_cases(seed: u64, count: usize) -> Vec<(Netlist, u32)> {
    let mut random = Random::new(seed);
    let case = |index: usize| {
        let netlist = match index % 2 {
            0 => tiny_netlist(&mut random),
            _ => tiny_two_ports(&mut random),
        };
        let few = netlist.inputs < 2 && netlist.address_width == 1;
        let depth = random.below(if few { 4 } else { 3 });
        (netlist, depth)
    };
    (0..count).map(case).collect()
}

fn visit_models(netlist: &Netlist, depth: u32, fault: Fault, mut visit: impl FnMut(&[bool])) {
    let formula = Formula::new(netlist, depth, fault);
    let mut solver = Solver::new(formula.variable_count() as usize, &formula.numbers());
    solver.models(&mut visit);
}

/// A wrong checker: the oldest write behind each read.
fn oldest_holds(netlist: &Netlist, depth: u32, model: &[bool]) -> bool {
    reads(netlist, depth).into_iter().all(|read| {
        let oldest = writes_of_address(netlist, read, model).first().copied();
        let due = source_due(netlist, read, model);
        let due = due.map(|_| oldest.map_or(Start, Write));
        sources_named(netlist, read, model) == Vec::from_iter(due)
    })
}

/// A wrong checker: the exclusive or of Z and the S is RE, and nothing more.
fn exclusive_or_holds(netlist: &Netlist, depth: u32, model: &[bool]) -> bool {
    reads(netlist, depth).into_iter().all(|(port, frame)| {
        let named = sources_named(netlist, (port, frame), model);
        let reads = code_value(netlist, frame, model, netlist.read_enable_of(port));
        (named.len() % 2 == 1) == reads
    })
}

/// All assignments of tiny netlists. The wrong checkers: the oldest write fails on some; the exclusive or
/// does not, so other assignments are made below.
pub fn all_assignments(tally: &mut Tally) {
    let [mut assignments, mut idle, mut start, mut written, mut several] = [0; 5];
    let [mut oldest_fails, mut exclusive_or_fails] = [0; 2];
    for (index, (netlist, depth)) in tiny_cases(80, 1200).iter().enumerate() {
        let mut wrong = None;
        visit_models(netlist, *depth, Fault::None, |model| {
            assignments += 1;
            wrong = wrong.or(wrong_read(netlist, *depth, model));
            oldest_fails += usize::from(!oldest_holds(netlist, *depth, model));
            exclusive_or_fails += usize::from(!exclusive_or_holds(netlist, *depth, model));
            for read in reads(netlist, *depth) {
                match source_due(netlist, read, model) {
                    None => idle += 1,
                    Some(Start) => start += 1,
                    Some(Write(_)) => written += 1,
                }
                let writes = writes_of_address(netlist, read, model);
                several += usize::from(writes.len() > 1);
            }
        });
        tally.equal((index, depth, netlist), wrong, None);
    }
    let counts = [assignments, idle, start, written, several, oldest_fails];
    tally.check(
        ("enough of each", counts),
        counts.iter().all(|it| *it >= 500),
    );
    tally.equal("exclusive or alone", exclusive_or_fails, 0);
    tally.remark = format!(
        " ({assignments} assignments; reads: {idle} idle, {start} of the start, {written} of a write, \
         {several} where several frames wrote; the oldest write fails on {oldest_fails} assignments)"
    );
}

/// Assignments in which Z and the S of one read are set otherwise: each is seen, at that read. The
/// exclusive or alone accepts many of them.
pub fn altered_assignments(tally: &mut Tally) {
    let [mut altered, mut exclusive_or_accepts, mut oldest_accepts] = [0; 3];
    for (index, (netlist, depth)) in tiny_cases(81, 400).iter().enumerate() {
        let (mut visited, mut all_seen) = (0, true);
        visit_models(netlist, *depth, Fault::None, |model| {
            visited += 1;
            if visited > 10 {
                return;
            }
            for read in reads(netlist, *depth) {
                let variables = source_variables(netlist, read);
                for set in 0..1u32 << variables.len() {
                    let mut other = model.to_vec();
                    for (bit, (_, variable)) in variables.iter().enumerate() {
                        other[*variable] = (set >> bit) & 1 == 1;
                    }
                    if other != model {
                        altered += 1;
                        all_seen &= wrong_read(netlist, *depth, &other) == Some(read);
                        let accepted = exclusive_or_holds(netlist, *depth, &other);
                        exclusive_or_accepts += usize::from(accepted);
                        let accepted = oldest_holds(netlist, *depth, &other);
                        oldest_accepts += usize::from(accepted);
                    }
                }
            }
        });
        tally.check((index, depth, netlist), all_seen);
    }
    tally.check("exclusive or differs", exclusive_or_accepts >= 1000);
    tally.check("oldest write differs", oldest_accepts >= 10);
    tally.remark = format!(
        " ({altered} altered; the exclusive or accepts {exclusive_or_accepts}, the oldest write \
         {oldest_accepts})"
    );
}

/// Faults of a formula, and whether its assignments name wrong sources.
const FAULTS: [(Fault, bool); 12] = [
    (Fault::None, false),
    (Fault::OldestWrite, true),
    (Fault::ReaderWriteEnable, true),
    (Fault::IdleReadsFree, false),
    (Fault::HolderReadEnable, false),
    (Fault::AgreementOmitted, false),
    (Fault::SecondAddressWrites, true),
    (Fault::WriteBySecondAddress, true),
    (Fault::SecondPortReadsFirst, true),
    (Fault::FirstReadEnable, true),
    (Fault::FirstWordHeld, false),
    (Fault::ConstantsKept, false),
];

pub fn faults(tally: &mut Tally) {
    let cases = tiny_cases(82, 300);
    let mut remarks = Vec::new();
    for (fault, expected) in FAULTS {
        let mut caught = 0;
        for (netlist, depth) in &cases {
            let mut wrong = false;
            visit_models(netlist, *depth, fault, |model| {
                wrong |= wrong_read(netlist, *depth, model).is_some();
            });
            caught += usize::from(wrong);
        }
        tally.equal(fault, caught > 0, expected);
        remarks.push(format!("{fault:?} {caught}"));
    }
    tally.remark = format!(" (of {} cases: {})", cases.len(), remarks.join(", "));
}

/// All assignments that have the same inputs and idle read bits of frame 0 have the same values of all
/// but the e: each against the first of its choices. With an unknown start this fails for some.
pub fn settled_assignments(tally: &mut Tally) {
    let [mut assignments, mut kinds, mut unknown_parts] = [0; 3];
    for (index, (netlist, depth)) in tiny_cases(83, 900).iter().enumerate() {
        let mut by_choices = HashMap::new();
        let mut same = true;
        visit_models(netlist, *depth, Fault::None, |model| {
            let found = settled(netlist, *depth, model);
            let first = by_choices
                .entry(choices(netlist, *depth, model))
                .or_insert_with(|| found.clone());
            same &= *first == found;
            assignments += 1;
        });
        kinds += by_choices.len();
        if netlist.has_unknown_start() {
            unknown_parts += usize::from(!same);
        } else {
            tally.check((index, depth, netlist), same);
        }
    }
    tally.check("unknown starts part", unknown_parts >= 10);
    // The e are not settled.
    tally.check("more assignments than choices", assignments > kinds + 1000);
    tally.remark = format!(
        " ({assignments} assignments of {kinds} choices; {unknown_parts} netlists with an unknown start part)"
    );
}

/// Whether two assignments that were found answer their question.
fn is_answer(netlist: &Netlist, depth: u32, question: Question, both: &[Vec<bool>; 2]) -> bool {
    let numbers = Formula::new(netlist, depth, Fault::None).numbers();
    let [first, second] = both;
    let same_choices = choices(netlist, depth, first) == choices(netlist, depth, second);
    let differ = settled(netlist, depth, first) != settled(netlist, depth, second);
    let of_question = match question {
        Question::SecondAssignment => same_choices && differ,
        Question::EqualitiesToo => same_choices && first != second,
        Question::IdleBitsFree | Question::LastInputsFree => !same_choices && differ,
    };
    of_question && both.iter().all(|model| satisfies(model, &numbers))
}

/// The doubled formula has no second assignment where the start word is given. It has one where the start
/// is unknown, where less need agree or where the e count, for some netlists: the question is not hollow.
pub fn doubled_formulas(tally: &mut Tally) {
    let [mut given, mut satisfiable, mut unknown_found] = [0; 3];
    let mut found = [0; 3];
    for (index, (netlist, depth)) in tiny_cases(84, 500).iter().enumerate() {
        let question = Question::SecondAssignment;
        let second = two_assignments(netlist, *depth, question);
        if netlist.has_unknown_start() {
            if let Some(both) = &second {
                let answers = is_answer(netlist, *depth, question, both);
                tally.check((index, "unknown start"), answers);
                unknown_found += 1;
            }
            continue;
        }
        given += 1;
        tally.check((index, depth, netlist), second.is_none());
        let formula = Formula::new(netlist, *depth, Fault::None);
        let variables = formula.variable_count() as usize;
        let model = Solver::new(variables, &formula.numbers()).first_model();
        satisfiable += usize::from(model.is_some());
        let others = [
            Question::IdleBitsFree,
            Question::LastInputsFree,
            Question::EqualitiesToo,
        ];
        for (count, question) in found.iter_mut().zip(others) {
            if let Some(both) = two_assignments(netlist, *depth, question) {
                let answers = is_answer(netlist, *depth, question, &both);
                tally.check((index, question), answers);
                *count += 1;
            }
        }
    }
    tally.check("enough satisfiable", satisfiable >= 100);
    tally.check(("other questions", found), found.iter().all(|it| *it >= 10));
    tally.check("unknown starts", unknown_found >= 10);
    tally.remark = format!(
        " ({given} with a start word, {satisfiable} of them satisfiable; found where idle bits are free, \
         last inputs are free, the e count: {found:?}; with an unknown start: {unknown_found})"
    );
}

/// Netlists of every size: inputs and idle read bits give every variable but the e a value by unit
/// propagation, so no two assignments differ in it; and the assignment so found, with the e that are left
/// made false, names one source for each read. P is false, so that every run breaks the property.
pub fn wide_netlists(tally: &mut Tally) {
    let mut random = Random::new(85);
    let [mut idle, mut start, mut written] = [0; 3];
    for round in 0..120 {
        let mut netlist = match round % 2 {
            0 => wide_netlist(&mut random),
            _ => wide_two_ports(&mut random),
        };
        netlist.property = 0;
        enable_often(&mut random, &mut netlist);
        if netlist.has_unknown_start() {
            netlist.unknown_start = 0;
        }
        let depth = random.below(8);
        let feeds = random_feeds(&mut random, &netlist, depth);
        let run = Run::new(&netlist, &feeds);
        let numbers = Formula::new(&netlist, depth, Fault::None).numbers();
        let is_equality = equality_variables(&netlist, depth);
        let mut solver = Solver::new(is_equality.len() - 1, &numbers);
        let literals = feed_literals(&netlist, &run);
        let possible = literals.into_iter().all(|it| solver.assume(it));
        let given = |it: usize| solver.value(it).is_some() || is_equality[it];
        let all_given = (1..is_equality.len()).all(given);
        tally.check((round, "propagation"), possible && all_given);
        let model: Vec<bool> = (0..is_equality.len())
            .map(|it| solver.value(it) == Some(true))
            .collect();
        tally.check((round, "clauses"), satisfies(&model, &numbers));
        tally.equal((round, "reads"), wrong_read(&netlist, depth, &model), None);
        for read in reads(&netlist, depth) {
            match source_due(&netlist, read, &model) {
                None => idle += 1,
                Some(Start) => start += 1,
                Some(Write(_)) => written += 1,
            }
        }
    }
    let counts = [idle, start, written];
    tally.check(
        ("enough of each", counts),
        counts.iter().all(|it| *it >= 50),
    );
    tally.remark = format!(" (reads: {idle} idle, {start} of the start, {written} of a write)");
}
