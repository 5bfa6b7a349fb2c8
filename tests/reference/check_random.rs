//! Checks on random netlists with fixed seeds.

use std::collections::HashSet;

use super::agreement::{
    breaking_runs, compare, compare_with, first_reads, propagation_follows_run, Frames,
};
use super::circuit::{Circuit, Feed, Run, Values};
use super::formula::{
    clause_bound, clause_count, frame_base, frames, group_call, heading, number_bound,
    number_count, pair_base, pair_size, Fault, Formula, Group, Heading,
};
use super::netlist::Netlist;
use super::random::{
    damaged_record, damaged_sheet, random_feeds, tiny_netlist, wide_netlist, Random, SHAPES,
};
use super::refusal::{Refusal, CODE, MEMORY_LOOP, NO_ROOM, OUT_OF_ORDER, TIED_ADDRESS};
use super::sheet::{expand, read_sheet, write_depth, write_sheet, LINE_BYTES};
use super::solver::{satisfies, Solver};
use super::Tally;

/// The search finds exactly the assignments that brute force finds, and fails with a refutation exactly where there are none.
pub fn solver(tally: &mut Tally) {
    let mut random = Random::new(1);
    for round in 0..300 {
        let variables = random.between(1, 7);
        let mut numbers = Vec::new();
        for _ in 0..random.below(16) {
            for _ in 0..random.below(5) {
                let literal = random.between(1, variables) as i32;
                numbers.push(if random.percent(50) {
                    literal
                } else {
                    -literal
                });
            }
            numbers.push(0);
        }
        let mut found = HashSet::new();
        let mut visits = 0;
        Solver::new(variables as usize, &numbers).models(&mut |model| {
            visits += 1;
            found.insert(model[1..].to_vec());
        });
        let assignment = |bits: u32| (0..=variables).map(move |bit| (bits << 1 >> bit) & 1 == 1);
        let expected: HashSet<Vec<bool>> = (0..1 << variables)
            .map(|bits| assignment(bits).collect::<Vec<bool>>())
            .filter(|values| satisfies(values, &numbers))
            .map(|values| values[1..].to_vec())
            .collect();
        tally.check(round, found == expected && visits == expected.len());
        let refuted = Solver::new(variables as usize, &numbers).refutation(&[1], usize::MAX);
        tally.check((round, "refuted"), refuted.is_some() == expected.is_empty());
    }
}

/// A sheet's netlist and a netlist's sheet are each other's inverse, and the random netlists have
/// every shape that the other families rely on.
pub fn round_trip(tally: &mut Tally) {
    let mut random = Random::new(2);
    let mut shapes = [0; SHAPES.len()];
    for round in 0..400 {
        let netlist = wide_netlist(&mut random);
        let sheet = write_sheet(&netlist);
        let read = read_sheet(&sheet, netlist.latches.len(), netlist.gates.len());
        tally.equal((round, "accepted"), netlist.check(), Ok(()));
        tally.equal(
            (round, "lines"),
            sheet.len() / LINE_BYTES,
            netlist.line_count() as usize,
        );
        tally.equal((round, "round trip"), read, Ok(netlist.clone()));
        for (count, (_, has_shape)) in shapes.iter_mut().zip(SHAPES) {
            *count += usize::from(has_shape(&netlist));
        }
    }
    for (count, (name, _)) in shapes.iter().zip(SHAPES) {
        tally.check((name, count), *count >= 20);
    }
}

/// A record and its sheet get the same refusal at the same place.
pub fn damaged_records(tally: &mut Tally) {
    let mut random = Random::new(3);
    let mut counts = [0; 18];
    for round in 0..400 {
        let netlist = wide_netlist(&mut random);
        let record = damaged_record(&mut random, &netlist);
        let found = record.check();
        let read = read_sheet(&write_sheet(&record), 600, 600).map(|_| ());
        counts[found.map_or_else(|refusal| refusal.number as usize, |()| 0)] += 1;
        tally.equal(round, found, read);
    }
    for number in [0, CODE, MEMORY_LOOP, TIED_ADDRESS] {
        tally.check(("occurrences of", number), counts[number as usize] >= 20);
    }
}

/// An accepted sheet is the only sheet of its netlist; a refusal at a line depends on no later
/// line.
pub fn damaged_sheets(tally: &mut Tally) {
    let mut random = Random::new(4);
    let mut counts = [0; 18];
    let mut unknown = 0;
    for round in 0..3000 {
        let netlist = if random.percent(80) {
            tiny_netlist(&mut random)
        } else {
            wide_netlist(&mut random)
        };
        let sheet = damaged_sheet(&mut random, &write_sheet(&netlist));
        match read_sheet(&sheet, 600, 600) {
            Ok(read) => {
                counts[0] += 1;
                unknown += usize::from(read.unknown_start == 1);
                tally.check(round, write_sheet(&read) == sheet);
            }
            Err(refusal) => {
                counts[refusal.number as usize] += 1;
                tally.check((round, refusal), refusal_is_local(&sheet, refusal));
            }
        }
    }
    for number in [0, 1, 2, 3, 4, 5, 6, 17] {
        tally.check(("occurrences of", number), counts[number] >= 20);
    }
    tally.check(("unknown starts", unknown), unknown >= 20);
    let numbers: Vec<String> = counts[..7].iter().map(usize::to_string).collect();
    tally.remark = format!(
        " (accepted and numbers 1 to 6: {}; 17: {}; accepted with an unknown start: {unknown})",
        numbers.join(", "),
        counts[17]
    );
}

/// Whether a refusal at a line is that of the sheet up to this line, and the line before it ends
/// a sheet that is only too short (or complete, where the line was one too many).
pub fn refusal_is_local(sheet: &[u8], refusal: Refusal) -> bool {
    let lines = sheet.len() / LINE_BYTES;
    let place = refusal.place as usize;
    let of_all_lines = |number: u32| [MEMORY_LOOP, TIED_ADDRESS].contains(&number);
    if place == 0 || place > lines || of_all_lines(refusal.number) {
        return place <= lines + 1;
    }
    let first = |count: usize| read_sheet(&sheet[..count * LINE_BYTES], 600, 600);
    let missing = Refusal {
        number: OUT_OF_ORDER,
        place: refusal.place,
    };
    let prefix_passes = match first(place - 1) {
        Ok(_) => true,
        Err(other) => place == 1 || other == missing || of_all_lines(other.number),
    };
    first(place) == Err(refusal) && prefix_passes
}

/// Variable 1, wires and pairs take every number from 1 to B(k + 1) once, in order.
pub fn numbering(tally: &mut Tally) {
    let mut random = Random::new(5);
    for round in 0..100 {
        let netlist = wide_netlist(&mut random);
        let depth = random.below(12);
        let (wires, pair) = (i64::from(netlist.wire_count()), pair_size(&netlist));
        let mut end = 1;
        let mut in_order = true;
        for i in 0..=depth {
            in_order &= frame_base(&netlist, i) == end;
            end += wires;
            for j in 0..i {
                in_order &= pair_base(&netlist, j, i) == end;
                end += pair;
            }
        }
        tally.check(round, in_order && frame_base(&netlist, depth + 1) == end);
    }
}

/// Clauses and numbers that are really there.
pub fn counted(numbers: &[i32]) -> [i64; 2] {
    let clauses = numbers.iter().filter(|number| **number == 0).count();
    [clauses as i64, numbers.len() as i64]
}

/// Whether every group of a formula has the clauses and numbers counted for it.
pub fn lengths_hold(netlist: &Netlist, depth: u32, fault: Fault) -> bool {
    let formula = Formula::new(netlist, depth, fault);
    formula
        .port_groups()
        .into_iter()
        .all(|asked| counted(&formula.port_group(asked)) == formula.port_counts(asked))
}

/// Whether all groups of a formula together have the clauses of its heading.
pub fn heading_holds(netlist: &Netlist, depth: u32, fault: Fault) -> bool {
    let formula = Formula::new(netlist, depth, fault);
    counted(&formula.numbers())[0] == formula.clause_total()
}

/// What K4 leaves of clauses with constants in them: variable 1 stands for no wire, so a number 1
/// is a true literal and -1 a false one.
pub fn without_constants(numbers: &[i32]) -> Vec<i32> {
    let mut left = Vec::new();
    for clause in numbers.split_inclusive(|number| *number == 0) {
        if clause.contains(&1) {
            continue;
        }
        let kept = clause.iter().filter(|number| **number != -1);
        match clause {
            [.., 0] if kept.clone().count() == 1 => left.extend([-1, 0]),
            _ => left.extend(kept),
        }
    }
    left
}

/// Every group is what K4 leaves of the group of K3, whose counts are the closed forms; these are
/// bounds of what is counted now. Variable 1 stands in the first clause and in a last -1 alone.
pub fn constants(tally: &mut Tally) {
    let mut random = Random::new(10);
    let [mut shorter, mut empty, mut uneven] = [0; 3];
    for round in 0..400 {
        let netlist = if round % 4 == 0 {
            wide_netlist(&mut random)
        } else {
            tiny_netlist(&mut random)
        };
        let depth = random.pick(&[0, 1, 2, 5]);
        let formula = Formula::new(&netlist, depth, Fault::None);
        let full = Formula::new(&netlist, depth, Fault::ConstantsKept);
        for group in formula.groups() {
            let (numbers, all) = (formula.group(group), full.group(group));
            let most = [
                clause_bound(&netlist, group),
                number_bound(&netlist, depth, group),
            ];
            let [clauses, need] = [
                clause_count(&netlist, group),
                number_count(&netlist, depth, group),
            ];
            tally.equal((round, group, "closed form"), counted(&all), most);
            let within = clauses <= most[0] && need <= most[1];
            tally.check((round, group, "bound"), within);
            let mut left = without_constants(&all);
            if group == Group::Wires(0) {
                left.splice(..0, [1, 0]);
            }
            tally.check((round, group), numbers == left);
            shorter += usize::from(numbers.len() < all.len());
            empty += usize::from(numbers.is_empty() && !all.is_empty());
            if let Group::Pair(_, i) = group {
                let newest = number_count(&netlist, depth, Group::Pair(i - 1, i));
                uneven += usize::from(need != newest);
            }
        }
        let numbers = formula.numbers();
        let ones: Vec<usize> = (0..numbers.len())
            .filter(|at| numbers[*at].abs() == 1)
            .collect();
        let mut expected = vec![0];
        if netlist.property == 1 {
            expected.push(numbers.len() - 2);
        }
        tally.equal((round, "variable 1"), ones, expected);
    }
    for (name, count) in [("shorter", shorter), ("empty", empty), ("uneven", uneven)] {
        tally.check(("occurrences of", name, count), count >= 20);
    }
    tally.remark = format!(
        " ({shorter} groups shorter than K3's, {empty} empty, {uneven} pairs unlike the newest)"
    );
}

/// Counts against what is written; a slice of exactly that length is enough, one less not.
pub fn lengths(tally: &mut Tally) {
    let mut random = Random::new(6);
    for round in 0..200 {
        let netlist = wide_netlist(&mut random);
        let depth = random.pick(&[0, 1, 2, 5, 9]);
        tally.check(
            (round, "lengths"),
            lengths_hold(&netlist, depth, Fault::None),
        );
        let formula = Formula::new(&netlist, depth, Fault::None);
        let no_room = Refusal {
            number: NO_ROOM,
            place: 0,
        };
        for group in formula.groups() {
            let numbers = formula.group(group);
            let need = numbers.len();
            tally.check(
                group,
                group_call(&netlist, depth, group, need) == Ok(numbers),
            );
            if need > 0 {
                tally.equal(
                    group,
                    group_call(&netlist, depth, group, need - 1),
                    Err(no_room),
                );
            }
        }
    }
}

/// The heading counts what is written, no variable is above B(k + 1), and the text of `frames` is
/// the heading and these numbers.
pub fn headings(tally: &mut Tally) {
    headings_of(tally, 7, wide_netlist);
}

pub fn headings_of(tally: &mut Tally, seed: u64, wide: fn(&mut Random) -> Netlist) {
    let mut random = Random::new(seed);
    for round in 0..150 {
        let netlist = wide(&mut random);
        let depth = random.pick(&[0, 1, 3, 8, 20]);
        let numbers = Formula::new(&netlist, depth, Fault::None).numbers();
        let largest = numbers.iter().map(|number| number.abs()).max();
        let variables = frame_base(&netlist, depth + 1);
        let expected = Heading {
            variables,
            clauses: counted(&numbers)[0],
        };
        tally.equal((round, "heading"), heading(&netlist, depth), Ok(expected));
        let fits = largest.map_or(false, |largest| i64::from(largest) <= variables);
        tally.check((round, "largest variable"), fits);

        let text = frames(&[write_depth(depth), write_sheet(&netlist)].concat());
        tally.check(
            (round, "text"),
            text == dimacs(expected, &numbers).into_bytes(),
        );
    }
}

/// DIMACS CNF text: the heading, then one clause a line, single spaces.
pub fn dimacs(heading: Heading, numbers: &[i32]) -> String {
    let mut text = format!("p cnf {} {}\n", heading.variables, heading.clauses);
    for clause in numbers.split_inclusive(|number| *number == 0) {
        let words: Vec<String> = clause.iter().map(i32::to_string).collect();
        text += &words.join(" ");
        text += "\n";
    }
    text
}

/// Tiny netlists with a depth of at most 2, the same for every caller. I and n are at most 2, so
/// each case has at most 2^8 runs.
fn tiny_cases(count: usize) -> Vec<(Netlist, u32)> {
    let mut random = Random::new(8);
    let mut cases = Vec::new();
    while cases.len() < count {
        let netlist = tiny_netlist(&mut random);
        let depth = random.below(3);
        cases.push((netlist, depth));
    }
    cases
}

/// Of each case all runs that break the property.
pub fn runs_of(cases: &[(Netlist, u32)]) -> Vec<HashSet<Frames>> {
    let of_case = |(netlist, depth): &(Netlist, u32)| breaking_runs(netlist, *depth);
    cases.iter().map(of_case).collect()
}

/// Both halves of demand 3 on all assignments and all runs of tiny netlists. At least a fifth of
/// them is satisfiable and a fifth unsatisfiable, not counting those with a constant P.
pub fn demand_3(tally: &mut Tally) {
    demand_3_of(tally, &tiny_cases(1200));
}

pub fn demand_3_of(tally: &mut Tally, cases: &[(Netlist, u32)]) {
    let (mut satisfiable, mut unsatisfiable, mut models) = (0, 0, 0);
    for (index, (netlist, depth)) in cases.iter().enumerate() {
        let found = compare(netlist, *depth, Fault::None);
        tally.check((index, depth, netlist), found.holds());
        models += found.models;
        match found.models {
            _ if netlist.property < 2 => {}
            0 => unsatisfiable += 1,
            _ => satisfiable += 1,
        }
    }
    tally.check("enough satisfiable", 5 * satisfiable >= cases.len());
    tally.check("enough unsatisfiable", 5 * unsatisfiable >= cases.len());
    let constant = cases.len() - satisfiable - unsatisfiable;
    tally.remark = format!(
        " ({satisfiable} satisfiable, {unsatisfiable} unsatisfiable, {constant} with constant P, \
         {models} assignments)"
    );
}

/// Stands for an empty start field.
const UNKNOWN: u32 = u32::MAX;

/// Start word, next code, address code, write-data code, WE, RE and P of a sheet with wires input
/// 1, latch 2 and read bit 3: constants and at least one wire.
const CODES: [&[u32]; 7] = [
    &[0, 1, UNKNOWN],
    &[0, 1, 6],
    &[0, 1, 2],
    &[0, 1, 3],
    &[0, 1, 4],
    &[0, 1, 2],
    &[0, 1, 6, 7],
];

/// Both halves of demand 3 at depth 2 with every set of constants, and the counts.
pub fn constant_sets(tally: &mut Tally) {
    let sets: usize = CODES.iter().map(|choices| choices.len()).product();
    let mut satisfiable = 0;
    for set in 0..sets {
        let mut rest = set;
        let [start, next, address, data, write, read, property] = CODES.map(|choices| {
            let choice = choices[rest % choices.len()];
            rest /= choices.len();
            choice
        });
        let start = match start {
            UNKNOWN => String::new(),
            word => format!(" {word}"),
        };
        let lines = format!("N 1 1 0/M 1 1{start}/L {next} 1/A {address}/D {data}");
        let short = format!("{lines}/C {write} {read} {property}");
        let netlist = read_sheet(&expand(&short), 1, 0).expect("an accepted sheet");
        let found = compare(&netlist, 2, Fault::None);
        tally.check((&short, "demand 3"), found.holds());
        let counts = lengths_hold(&netlist, 2, Fault::None);
        let heading = heading_holds(&netlist, 2, Fault::None);
        tally.check((&short, "counts"), counts && heading);
        satisfiable += usize::from(found.models > 0);
    }
    tally.remark = format!(" ({satisfiable} of {sets} satisfiable)");
}

/// Demand 3 for random feeds of netlists of every size.
pub fn single_feeds(tally: &mut Tally) {
    let mut random = Random::new(9);
    let mut unknown = 0;
    for round in 0..300 {
        let netlist = wide_netlist(&mut random);
        let depth = random.below(7);
        let feeds = random_feeds(&mut random, &netlist, depth);
        tally.check((round, depth), propagation_follows_run(&netlist, &feeds));
        let run = Run::new(&netlist, &feeds);
        let again = Run::new(&netlist, &run.feeds(&netlist));
        tally.check((round, "fed again"), again.frames == run.frames);
        tally.check((round, "from state to state"), goes_on(&netlist, &feeds));
        if netlist.has_unknown_start() {
            unknown += 1;
            tally.check((round, "whole memory"), starts_somewhere(&netlist, &feeds));
        }
    }
    tally.remark = format!(" ({unknown} with an unknown start)");
    tally.check(("unknown starts", unknown), unknown >= 50);
}

/// Whether a run is the same where each frame is stepped from the state that the frame before leaves.
fn goes_on(netlist: &Netlist, feeds: &[Feed]) -> bool {
    let memory = vec![netlist.start_word; 1 << netlist.address_width];
    let mut circuit = Circuit::from_memory(netlist, &memory);
    let step = |feed: &Feed| {
        let values = circuit.step(feed);
        circuit = Circuit::in_state(netlist, &circuit.state());
        values
    };
    let frames: Vec<Values> = feeds.iter().map(step).collect();
    frames == Run::from_memory(netlist, &memory, feeds).frames
}

/// Whether a run that settles an unknown start by its feeds is a run from a whole memory, whatever the
/// words are that it does not settle.
fn starts_somewhere(netlist: &Netlist, feeds: &[Feed]) -> bool {
    let run = Run::new(netlist, feeds);
    let settled = first_reads(netlist, &run);
    let all_ones = u32::MAX >> (32 - netlist.data_width);
    [0, all_ones].iter().all(|other| {
        let word = |it: &Option<(usize, u32)>| it.map_or(*other, |(_, word)| word);
        let memory: Vec<u32> = settled.iter().map(word).collect();
        Run::from_memory(netlist, &memory, feeds).frames == run.frames
    })
}

/// Each fault, and which checks are to notice it: demand 3's first half, its second half, the
/// lengths, and the heading. A fault that a check is not to notice must pass it on every case.
const FAULTS: [(Fault, [bool; 4]); 22] = [
    (Fault::OwnFrameWrite, [true, true, true, true]),
    (Fault::OldestWrite, [true, true, true, false]),
    (Fault::ReaderWriteEnable, [true, true, false, false]),
    (Fault::IdleReadsZero, [false, true, true, true]),
    (Fault::IdleReadsFree, [true, false, true, true]),
    (Fault::HolderReadEnable, [true, true, false, false]),
    (Fault::EqualitySettled, [false, false, true, true]),
    (Fault::ConstantsKept, [false, false, true, true]),
    (Fault::TrueClauseWritten, [false, false, true, true]),
    (Fault::TrueLiteralDropped, [false, true, true, true]),
    (Fault::FalseLiteralKept, [false, false, true, false]),
    (Fault::EmptyClauseOmitted, [true, false, true, true]),
    (Fault::EmptyClauseBare, [false, false, true, false]),
    (Fault::FirstClauseOmitted, [true, false, true, true]),
    (Fault::StartBitsKept, [false, false, true, true]),
    (Fault::BothSignsOmitted, [false, false, true, true]),
    (Fault::NewestPairCounted, [false, false, true, true]),
    (Fault::AgreementOmitted, [true, false, true, true]),
    (Fault::AgreementOfNeighbours, [true, false, true, true]),
    (Fault::AgreementWithoutEarlier, [false, true, true, true]),
    (Fault::AgreementWithoutLater, [false, true, true, false]),
    (Fault::UnknownStartsZero, [false, true, true, true]),
];

pub fn faults(tally: &mut Tally) {
    let cases = tiny_cases(500);
    let runs = runs_of(&cases);
    let mut remarks = Vec::new();
    for (fault, expected) in FAULTS {
        let mut caught = [0; 4];
        for ((netlist, depth), breaking) in cases.iter().zip(&runs) {
            let found = compare_with(netlist, *depth, fault, breaking);
            caught[0] += usize::from(found.disagreeing > 0);
            caught[1] += usize::from(found.missed > 0);
            caught[2] += usize::from(!lengths_hold(netlist, *depth, fault));
            caught[3] += usize::from(!heading_holds(netlist, *depth, fault));
        }
        tally.equal(fault, caught.map(|count| count > 0), expected);
        remarks.push(format!("{fault:?} {caught:?}"));
    }
    tally.remark = format!(
        " (of {} cases, by first half, second half, lengths, heading: {})",
        cases.len(),
        remarks.join(", ")
    );
}
