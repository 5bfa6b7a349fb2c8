//! K10 on random T netlists with fixed seeds.

use std::collections::HashSet;

use super::agreement::{compare, compare_with, propagation_follows_run};
use super::answer::{replay, Claim};
use super::answer_calls::Call;
use super::check_answers::satisfiable;
use super::check_examples::accepted;
use super::check_ports::{two_of_sizes, CONSTANT_READS, TWO_READS, TWO_RICH};
use super::check_position::change_unused;
use super::check_random::{
    counted, demand_3_of, heading_holds, headings_of, lengths_hold, refusal_is_local, runs_of,
    without_constants,
};
use super::check_random_answers::{assignments_of, Runs};
use super::check_refusals::verdict;
use super::circuit::{value, word, Run, Values};
use super::formula::{
    clause_bound, counts, frame_base, number_bound, pair_base_of, pair_size, port_group_call,
    Fault, Formula, Group, PortGroup,
};
use super::netlist::{Gate, Netlist, FIRST_PORT, MAX_DEPTH, SECOND_PORT};
use super::position::{start, FrameGroup, Position};
use super::random::{
    damaged_record, damaged_sheet, random_feeds, tiny_two_ports, two_port_shapes, wide_two_ports,
    Random,
};
use super::random_answers::{
    answer_case_of, call_case_of, two_port_draft, written, Draft, CALL_FAULTS, FEED_FAULTS, UNSEEN,
};
use super::refusal::{
    Refusal, CODE, MEMORY_LOOP, MISPRINT, NO_ROOM, OUT_OF_ORDER, RAGGED, SIZE, TIED_ADDRESS,
};
use super::sheet::{expand, read_sheet, write_back, write_sheet, LINE_BYTES};
use super::Tally;

fn read(sheet: &[u8]) -> Result<Netlist, Refusal> {
    read_sheet(sheet, 600, 600)
}

/// A sheet's netlist and a netlist's sheet are each other's inverse, unused entries or not, and the
/// random netlists have every shape that the other families rely on.
pub fn round_trip(tally: &mut Tally) {
    let mut random = Random::new(40);
    let shapes = two_port_shapes();
    let mut found = vec![0; shapes.len()];
    for round in 0..500 {
        let netlist = wide_two_ports(&mut random);
        let sheet = write_sheet(&netlist);
        tally.equal((round, "accepted"), netlist.check(), Ok(()));
        let lines = netlist.latch_count + netlist.gate_count + netlist.data_width;
        let lines = lines + 2 * netlist.address_width + 4;
        tally.equal((round, "lines"), sheet.len(), lines as usize * LINE_BYTES);
        tally.check((round, "round trip"), read(&sheet) == Ok(netlist.clone()));
        let mut record = netlist.clone();
        change_unused(&mut random, &mut record);
        let written = write_back(&record, sheet.len());
        tally.check((round, "unused entries"), written == Ok(sheet.clone()));
        let short = verdict(write_back(&record, sheet.len() - 1));
        tally.equal((round, "short"), short, (NO_ROOM, 0));
        for (count, (_, has_shape)) in found.iter_mut().zip(&shapes) {
            *count += usize::from(has_shape(&netlist));
        }
    }
    for (count, (name, _)) in found.iter().zip(&shapes) {
        tally.check((name, count), *count >= 20);
    }
}

/// A record and its sheet get the same refusal at the same place, and it is that of a second way to find
/// it.
pub fn damaged_records(tally: &mut Tally) {
    let mut random = Random::new(41);
    let mut counts = [0; 18];
    for round in 0..800 {
        let netlist = match round % 2 {
            0 => wide_two_ports(&mut random),
            _ => tiny_two_ports(&mut random),
        };
        let record = damaged_record(&mut random, &netlist);
        let found = record.check();
        let read = read(&write_sheet(&record)).map(|_| ());
        counts[found.map_or_else(|refusal| refusal.number as usize, |()| 0)] += 1;
        tally.equal(round, found, read);
        tally.equal((round, "lines"), verdict(found), judged_by_lines(&record));
    }
    for number in [0, CODE, MEMORY_LOOP, TIED_ADDRESS] {
        tally.check(("occurrences of", number), counts[number as usize] >= 20);
    }
    tally.remark = format!(
        " (accepted {}, 5: {}, 6: {}, 17: {})",
        counts[0], counts[5], counts[6], counts[17]
    );
}

/// The verdict on a T record with sizes within their limits, from a list of its lines: letter, codes and
/// the limit of each.
fn judged_by_lines(record: &Netlist) -> (u32, u32) {
    let (m, n) = (record.address_width as usize, record.data_width as usize);
    let wires = record.inputs + record.latch_count + 2 * record.data_width + record.gate_count;
    let first_read_bit = record.inputs + record.latch_count + 1;
    let first_gate = first_read_bit + 2 * record.data_width;
    let most = 2 * wires + 1;
    let mut lines: Vec<(char, Vec<(u32, u32)>)> = vec![('N', vec![]), ('T', vec![])];
    for latch in &record.latches {
        lines.push(('L', vec![(latch.next, most), (latch.reset, 1)]));
    }
    for (gate, own) in record.gates.iter().zip(first_gate..) {
        let limit = 2 * own - 1;
        lines.push(('G', vec![(gate.left, limit), (gate.right, limit)]));
    }
    lines.extend(
        record.address[..m]
            .iter()
            .map(|code| ('A', vec![(*code, most)])),
    );
    lines.extend(
        record.write_data[..n]
            .iter()
            .map(|code| ('D', vec![(*code, most)])),
    );
    lines.extend(
        record.second_address[..m]
            .iter()
            .map(|code| ('B', vec![(*code, most)])),
    );
    lines.push(('R', vec![(record.second_read_enable, most)]));
    let control = [record.write_enable, record.read_enable, record.property];
    lines.push(('C', control.map(|code| (code, most)).to_vec()));
    let place_of = |found: Option<usize>| found.map(|index| index as u32 + 1);

    let bad = |line: &(char, Vec<(u32, u32)>)| line.1.iter().any(|(code, limit)| code > limit);
    if let Some(place) = place_of(lines.iter().position(bad)) {
        return (CODE, place);
    }
    let wire_at = |index: usize| lines[index].1[0].0 / 2;
    let tied = |index: &usize| {
        let letter = lines[*index].0;
        let same = |other: usize| lines[other].0 == letter && wire_at(other) == wire_at(*index);
        (letter == 'A' || letter == 'B') && wire_at(*index) > 0 && (0..*index).any(same)
    };
    if let Some(place) = place_of((0..lines.len()).find(tied)) {
        return (TIED_ADDRESS, place);
    }
    let reached = |wire: u32| reads_into(record, first_read_bit, first_gate, wire);
    let looped = |line: &(char, Vec<(u32, u32)>)| match line.0 {
        'A' | 'B' | 'R' => reached(line.1[0].0 / 2),
        'C' => reached(line.1[1].0 / 2),
        _ => false,
    };
    match place_of(lines.iter().position(looped)) {
        Some(place) => (MEMORY_LOOP, place),
        None => (0, 0),
    }
}

/// Whether a read bit reaches a wire, by going back from it.
fn reads_into(record: &Netlist, first_read_bit: u32, first_gate: u32, wire: u32) -> bool {
    let (mut seen, mut open) = (HashSet::new(), vec![wire]);
    while let Some(wire) = open.pop() {
        if !seen.insert(wire) || wire < first_read_bit {
            continue;
        }
        if wire < first_gate {
            return true;
        }
        let Gate { left, right } = record.gates[(wire - first_gate) as usize];
        open.extend([left / 2, right / 2]);
    }
    false
}

/// An accepted sheet is the only sheet of its netlist; a refusal at a line depends on no later line.
pub fn damaged_sheets(tally: &mut Tally) {
    let mut random = Random::new(42);
    let mut counts = [0; 18];
    let mut other_kind = 0;
    for round in 0..4000 {
        let netlist = if random.percent(80) {
            tiny_two_ports(&mut random)
        } else {
            wide_two_ports(&mut random)
        };
        let sheet = damaged_sheet(&mut random, &write_sheet(&netlist));
        match read(&sheet) {
            Ok(read) => {
                counts[0] += 1;
                other_kind += usize::from(read.two_ports == 0);
                tally.check(round, write_sheet(&read) == sheet && read.check().is_ok());
            }
            Err(refusal) => {
                counts[refusal.number as usize] += 1;
                tally.check((round, refusal), refusal_is_local(&sheet, refusal));
            }
        }
    }
    for number in [
        0,
        RAGGED,
        MISPRINT,
        OUT_OF_ORDER,
        SIZE,
        CODE,
        MEMORY_LOOP,
        TIED_ADDRESS,
    ] {
        let count = counts[number as usize];
        tally.check(("occurrences of", number, count), count >= 20);
    }
    let numbers: Vec<String> = counts[..7].iter().map(usize::to_string).collect();
    tally.remark = format!(
        " (accepted and numbers 1 to 6: {}; 17: {}; accepted M sheets: {other_kind})",
        numbers.join(", "),
        counts[17]
    );
}

/// Variable 1, wires and pairs of both ports take every number from 1 to B(k + 1) once, in order.
pub fn numbering(tally: &mut Tally) {
    let mut random = Random::new(43);
    for round in 0..100 {
        let netlist = wide_two_ports(&mut random);
        let depth = random.below(12);
        let wires =
            netlist.inputs + netlist.latch_count + 2 * netlist.data_width + netlist.gate_count;
        tally.equal((round, "V"), netlist.wire_count(), wires);
        tally.equal(
            (round, "m + 4"),
            pair_size(&netlist),
            i64::from(netlist.address_width) + 4,
        );
        let mut end = 1;
        let mut in_order = true;
        for i in 0..=depth {
            in_order &= frame_base(&netlist, i) == end;
            end += i64::from(wires);
            for j in 0..i {
                for port in [FIRST_PORT, SECOND_PORT] {
                    in_order &= pair_base_of(&netlist, port, j, i) == end;
                    end += pair_size(&netlist);
                }
            }
        }
        tally.check(round, in_order && frame_base(&netlist, depth + 1) == end);
    }
}

/// The variables that a group of a port may name, by the papers: its pair's own block, the neighbour's
/// PS, the wires of its frames, and -1 for an empty clause.
fn names_its_own(netlist: &Netlist, asked: PortGroup, numbers: &[i32]) -> bool {
    let base = |frame: u32| frame_base(netlist, frame) as i32;
    let wires = netlist.wire_count() as i32;
    let in_frame = |it: i32, frame: u32| base(frame) < it && it <= base(frame) + wires;
    let size = pair_size(netlist) as i32;
    let in_pair = |it: i32, j: u32, i: u32| {
        let first = pair_base_of(netlist, asked.port, j, i) as i32;
        first < it && it <= first + size
    };
    let read_bits = |port: u32, frame: u32| {
        let bits = netlist.read_bits(port);
        base(frame) + bits.start as i32..base(frame) + bits.end as i32
    };
    let other_port = FIRST_PORT + SECOND_PORT - asked.port;
    numbers.iter().map(|it| it.abs()).all(|it| {
        let known = match asked.group {
            Group::Wires(0) => it == 1 || in_frame(it, 0),
            Group::Wires(i) => in_frame(it, i) || in_frame(it, i - 1),
            Group::Pair(j, i) => {
                in_frame(it, i)
                    || in_frame(it, j)
                    || in_pair(it, j, i)
                    || (j + 1 < i && in_pair(it, j + 1, i))
            }
            Group::Closing(i) => {
                in_frame(it, i)
                    || (i > 0 && in_frame(it, i - 1))
                    || (0..i).any(|j| in_pair(it, j, i))
            }
            Group::Property => (0..=MAX_DEPTH).any(|frame| in_frame(it, frame)),
        };
        // A port's closing names no read bit of the other one.
        let foreign = match asked.group {
            Group::Closing(i) => read_bits(other_port, i).contains(&it),
            _ => false,
        };
        it == 0 || it == 1 || (known && !foreign)
    })
}

/// Every group is what K4 leaves of the group with constants, whose counts are the closed forms; these
/// are bounds of what is counted. A slice of exactly the need is enough, one less not.
pub fn groups(tally: &mut Tally) {
    let mut random = Random::new(44);
    let [mut shorter, mut uneven, mut unlike] = [0; 3];
    for round in 0..300 {
        let netlist = if round % 4 == 0 {
            wide_two_ports(&mut random)
        } else {
            tiny_two_ports(&mut random)
        };
        let depth = random.pick(&[0, 1, 2, 5]);
        let formula = Formula::new(&netlist, depth, Fault::None);
        let full = Formula::new(&netlist, depth, Fault::ConstantsKept);
        let mut joined = Vec::new();
        for asked in formula.port_groups() {
            let (numbers, all) = (formula.port_group(asked), full.port_group(asked));
            let most = [
                clause_bound(&netlist, asked.group),
                number_bound(&netlist, depth, asked.group),
            ];
            tally.equal((round, asked, "closed form"), counted(&all), most);
            let counts = counts(&netlist, depth, asked);
            tally.equal((round, asked, "counts"), counted(&numbers), counts);
            let within = counts[0] <= most[0] && counts[1] <= most[1];
            tally.check((round, asked, "bound"), within);
            let mut left = without_constants(&all);
            if asked.group == Group::Wires(0) {
                left.splice(..0, [1, 0]);
            }
            tally.check((round, asked), numbers == left);
            let own = names_its_own(&netlist, asked, &numbers);
            tally.check((round, asked, "variables"), own);

            let need = numbers.len();
            let call = |room| port_group_call(&netlist, depth, asked, room);
            tally.check((round, asked, "call"), call(need) == Ok(numbers.clone()));
            if need > 0 {
                let short = verdict(call(need - 1));
                tally.equal((round, asked, "short"), short, (NO_ROOM, 0));
            }
            shorter += usize::from(numbers.len() < all.len());
            let first = super::formula::counts(&netlist, depth, PortGroup::first(asked.group));
            unlike += usize::from(counts != first);
            if let Group::Pair(_, i) = asked.group {
                let group = Group::Pair(i - 1, i);
                let newest = super::formula::counts(&netlist, depth, PortGroup { group, ..asked });
                uneven += usize::from(counts != newest);
            }
            joined.extend(numbers);
        }
        tally.check((round, "joined"), joined == formula.numbers());
    }
    for (name, count) in [("shorter", shorter), ("uneven", uneven), ("unlike", unlike)] {
        tally.check(("occurrences of", name, count), count >= 20);
    }
    tally.remark = format!(
        " ({shorter} groups shorter than with constants, {uneven} pairs unlike the newest, {unlike} \
         groups of the second port unlike the first's in length)"
    );
}

/// As `check_random::headings`, of netlists with two ports.
pub fn headings(tally: &mut Tally) {
    headings_of(tally, 45, wide_two_ports);
}

/// The M netlist in which the second port's read bits are inputs behind the others, with the variable
/// that each wire of it has in the T netlist.
fn as_one_port(netlist: &Netlist) -> (Netlist, Vec<u32>) {
    let second = netlist.read_bits(SECOND_PORT);
    let mut old_wires: Vec<u32> = (0..=netlist.inputs).collect();
    old_wires.extend(second.clone());
    old_wires.extend((netlist.inputs + 1..=netlist.wire_count()).filter(|it| !second.contains(it)));
    let new_wire = |old: u32| old_wires.iter().position(|it| *it == old).expect("a wire") as u32;
    let code = |old: u32| 2 * new_wire(old / 2) + old % 2;
    let mut one = netlist.clone();
    one.two_ports = 0;
    one.inputs += netlist.data_width;
    one.latches
        .iter_mut()
        .for_each(|it| it.next = code(it.next));
    for gate in &mut one.gates {
        (gate.left, gate.right) = (code(gate.left), code(gate.right));
    }
    let (m, n) = (netlist.address_width as usize, netlist.data_width as usize);
    one.address[..m].iter_mut().for_each(|it| *it = code(*it));
    one.write_data[..n]
        .iter_mut()
        .for_each(|it| *it = code(*it));
    one.write_enable = code(one.write_enable);
    one.read_enable = code(one.read_enable);
    one.property = code(one.property);
    (one, old_wires)
}

/// The netlist with its ports exchanged in all that reads, and its read bits with them.
fn exchanged(netlist: &Netlist) -> Netlist {
    let n = netlist.data_width;
    let (first, second) = (
        netlist.read_bits(FIRST_PORT),
        netlist.read_bits(SECOND_PORT),
    );
    let code = |old: u32| match old / 2 {
        wire if first.contains(&wire) => old + 2 * n,
        wire if second.contains(&wire) => old - 2 * n,
        _ => old,
    };
    let mut other = netlist.clone();
    other
        .latches
        .iter_mut()
        .for_each(|it| it.next = code(it.next));
    for gate in &mut other.gates {
        (gate.left, gate.right) = (code(gate.left), code(gate.right));
    }
    other.write_data[..n as usize]
        .iter_mut()
        .for_each(|it| *it = code(*it));
    other.write_enable = code(other.write_enable);
    other.property = code(other.property);
    other.read_enable = netlist.second_read_enable;
    other.second_read_enable = netlist.read_enable;
    other
}

/// The first port's groups are those of an M sheet to which the second port's read bits are inputs; the
/// second port's are the first's where both read one address, with its own read bits, RE and variables.
pub fn ports_alike(tally: &mut Tally) {
    let mut random = Random::new(46);
    for round in 0..120 {
        let mut netlist = match round % 3 {
            0 => wide_two_ports(&mut random),
            _ => tiny_two_ports(&mut random),
        };
        let depth = random.pick(&[0, 1, 3, 6]);
        let formula = Formula::new(&netlist, depth, Fault::None);
        let (one, old_wires) = as_one_port(&netlist);
        tally.equal((round, "accepted"), one.check(), Ok(()));
        let one_formula = Formula::new(&one, depth, Fault::None);
        let renumbered = renumbering(&netlist, &one, &old_wires, depth);
        for group in one_formula.groups() {
            let numbers: Vec<i32> = one_formula
                .group(group)
                .iter()
                .map(|it| it.signum() * renumbered[it.unsigned_abs() as usize])
                .collect();
            tally.check(
                (round, group, "first port"),
                numbers == formula.group(group),
            );
        }

        netlist.second_address = netlist.address;
        let other = exchanged(&netlist);
        let formula = Formula::new(&netlist, depth, Fault::None);
        let other_formula = Formula::new(&other, depth, Fault::None);
        let swapped = port_exchange(&netlist, depth);
        for asked in formula.port_groups() {
            let port = match asked.group {
                Group::Wires(_) | Group::Property => asked.port,
                _ => FIRST_PORT + SECOND_PORT - asked.port,
            };
            let group = asked.group;
            let numbers: Vec<i32> = other_formula
                .port_group(PortGroup { port, group })
                .iter()
                .map(|it| it.signum() * swapped[it.unsigned_abs() as usize])
                .collect();
            let same = numbers == formula.port_group(asked);
            tally.check((round, asked, "ports exchanged"), same);
        }
    }
}

/// For each variable of the M netlist's formula, the one of the T netlist's; a wire of the M netlist is
/// that of `old_wires` in the T netlist.
pub fn renumbering(two: &Netlist, one: &Netlist, old_wires: &[u32], depth: u32) -> Vec<i32> {
    let mut variables = vec![0; frame_base(one, depth + 1) as usize + 1];
    variables[1] = 1;
    for i in 0..=depth {
        for (new, old) in old_wires.iter().enumerate().skip(1) {
            let base = frame_base(one, i) as usize;
            variables[base + new] = (frame_base(two, i) + i64::from(*old)) as i32;
        }
        for j in 0..i {
            let (from, to) = (pair_base_of(one, 1, j, i), pair_base_of(two, 1, j, i));
            for at in 1..=pair_size(one) {
                variables[(from + at) as usize] = (to + at) as i32;
            }
        }
    }
    variables
}

/// For each variable, the one that stands for it when the ports are exchanged.
fn port_exchange(netlist: &Netlist, depth: u32) -> Vec<i32> {
    let mut variables: Vec<i32> = (0..=frame_base(netlist, depth + 1) as i32).collect();
    let n = netlist.data_width as usize;
    for i in 0..=depth {
        let first = frame_base(netlist, i) as usize + netlist.read_bits(FIRST_PORT).start as usize;
        for bit in first..first + n {
            variables.swap(bit, bit + n);
        }
        for j in 0..i {
            let size = pair_size(netlist) as usize;
            let first = pair_base_of(netlist, FIRST_PORT, j, i) as usize + 1;
            for at in first..first + size {
                variables.swap(at, at + size);
            }
        }
    }
    variables
}

/// Tiny T netlists with a depth of at most 2, the same for every caller. I and n are at most 2, so each
/// case has at most 2^10 runs.
fn tiny_cases(count: usize) -> Vec<(Netlist, u32)> {
    let mut random = Random::new(47);
    let case = |_| (tiny_two_ports(&mut random), random.below(3));
    (0..count).map(case).collect()
}

/// Both halves of demand 3 on all assignments and all runs of tiny T netlists.
pub fn demand_3(tally: &mut Tally) {
    demand_3_of(tally, &tiny_cases(3000));
}

/// Start word, first address, second address, write data, WE, RE, second RE and P of a sheet with wires
/// input 1, latch 2, read bits 3 and 4: constants and at least one wire.
const CODES: [&[u32]; 8] = [
    &[0, 1],
    &[0, 1, 2],
    &[0, 1, 2, 4],
    &[0, 3],
    &[1, 4],
    &[0, 1, 2],
    &[0, 1, 2, 5],
    &[6, 7, 8, 9],
];

/// Both halves of demand 3 at depth 1 with every set of these codes, at depth 2 with some, and the
/// counts.
pub fn constant_sets(tally: &mut Tally) {
    let sets: usize = CODES.iter().map(|choices| choices.len()).product();
    let mut satisfiable = 0;
    for set in 0..sets {
        let mut rest = set;
        let [start, address, second, data, write, read, second_read, property] =
            CODES.map(|choices| {
                let choice = choices[rest % choices.len()];
                rest /= choices.len();
                choice
            });
        let lines = format!("N 1 1 0/T 1 1 {start}/L 8 1/A {address}/D {data}/B {second}");
        let short = format!("{lines}/R {second_read}/C {write} {read} {property}");
        let netlist = accepted(&short);
        let depth = if set % 7 == 0 { 2 } else { 1 };
        let found = compare(&netlist, depth, Fault::None);
        tally.check((&short, "demand 3"), found.holds());
        let counts = lengths_hold(&netlist, depth, Fault::None);
        let heading = heading_holds(&netlist, depth, Fault::None);
        tally.check((&short, "counts"), counts && heading);
        satisfiable += usize::from(found.models > 0);
    }
    tally.remark = format!(" ({satisfiable} of {sets} satisfiable)");
}

/// Demand 3 for random feeds of T netlists of every size, and each read by a second look at the memory.
pub fn single_feeds(tally: &mut Tally) {
    let mut random = Random::new(48);
    for round in 0..300 {
        let netlist = wide_two_ports(&mut random);
        let depth = random.below(7);
        let feeds = random_feeds(&mut random, &netlist, depth);
        tally.check((round, depth), propagation_follows_run(&netlist, &feeds));
        let run = Run::new(&netlist, &feeds);
        let again = Run::new(&netlist, &run.feeds(&netlist));
        tally.check((round, "fed again"), again.frames == run.frames);
        for port in netlist.ports() {
            tally.check((round, port, "reads"), reads_hold(&netlist, &run, port));
        }
        let idle = |port| !value(&run.frames[0], netlist.read_enable_of(port));
        let fed = [feeds[0].idle_word, feeds[0].second_idle_word];
        for (port, fed) in netlist.ports().zip(fed) {
            let read = word(&run.frames[0], &netlist.read_data_codes_of(port));
            tally.check((round, port, "idle word"), !idle(port) || read == fed);
        }
    }
}

/// Whether the words that a port reads are the newest that an earlier frame wrote at its address, else
/// the start word, and those held are the ones of the frame before, by the wires alone.
fn reads_hold(netlist: &Netlist, run: &Run, port: u32) -> bool {
    let address = |values: &Values, port: u32| word(values, netlist.address_codes_of(port));
    let read = |values: &Values| word(values, &netlist.read_data_codes_of(port));
    (0..run.frames.len()).all(|frame| {
        let values = &run.frames[frame];
        if !value(values, netlist.read_enable_of(port)) {
            return frame == 0 || read(values) == read(&run.frames[frame - 1]);
        }
        let writes = |it: &&Values| {
            value(it, netlist.write_enable) && address(it, FIRST_PORT) == address(values, port)
        };
        let newest = run.frames[..frame].iter().rev().find(writes);
        let expected = newest.map_or(netlist.start_word, |it| {
            word(it, netlist.write_data_codes())
        });
        read(values) == expected
    })
}

/// Each fault, and which checks are to notice it on T netlists: demand 3's first half, its second half,
/// the lengths, the heading, and the numbers of the whole. The first seven are those of one port.
const FAULTS: [(Fault, [bool; 5]); 20] = [
    (Fault::OwnFrameWrite, [true, true, true, true, true]),
    (Fault::OldestWrite, [true, true, true, false, true]),
    (Fault::ReaderWriteEnable, [true, true, false, false, true]),
    (Fault::IdleReadsZero, [false, true, true, true, true]),
    (Fault::IdleReadsFree, [true, false, true, true, true]),
    (Fault::HolderReadEnable, [true, true, false, false, true]),
    (Fault::NewestPairCounted, [false, false, true, true, false]),
    (Fault::SecondAddressWrites, [true, true, true, true, true]),
    (Fault::WriteBySecondAddress, [true, true, true, true, true]),
    (Fault::SecondPortReadsFirst, [true, true, true, true, true]),
    (Fault::FirstReadEnable, [true, true, true, true, true]),
    // A port that is to read nothing, or to hold its word, finds no assignment; nothing wrong is let in.
    (Fault::FirstEnableInChain, [false, true, true, true, true]),
    (Fault::FirstWordHeld, [true, true, false, false, true]),
    (Fault::HeldWordsExchanged, [true, true, false, false, true]),
    // The closing's last clause still asks for a selected write or the start: nothing wrong is let in.
    (Fault::FirstUntouched, [false, true, true, true, true]),
    (Fault::FirstPending, [false, true, false, false, true]),
    (Fault::SecondPortOmitted, [true, false, false, true, true]),
    (Fault::SecondPortBehind, [false, false, false, false, true]),
    (Fault::PortByPort, [false, false, false, false, true]),
    (Fault::PortsExchanged, [false, false, false, false, true]),
];

pub fn faults(tally: &mut Tally) {
    let cases = tiny_cases(500);
    let runs = runs_of(&cases);
    let mut remarks = Vec::new();
    for (fault, expected) in FAULTS {
        let mut caught = [0; 5];
        for ((netlist, depth), breaking) in cases.iter().zip(&runs) {
            // Without the second port's groups its pairs' variables are free: too many assignments.
            if fault != Fault::SecondPortOmitted || *depth == 0 {
                let found = compare_with(netlist, *depth, fault, breaking);
                caught[0] += usize::from(found.disagreeing > 0);
                caught[1] += usize::from(found.missed > 0);
            }
            caught[2] += usize::from(!lengths_hold(netlist, *depth, fault));
            caught[3] += usize::from(!heading_holds(netlist, *depth, fault));
            let numbers = Formula::new(netlist, *depth, fault).numbers();
            let right = Formula::new(netlist, *depth, Fault::None).numbers();
            caught[4] += usize::from(numbers != right);
        }
        tally.equal(fault, caught.map(|count| count > 0), expected);
        remarks.push(format!("{fault:?} {caught:?}"));
    }
    tally.remark = format!(
        " (of {} cases, by first half, second half, lengths, heading, numbers: {})",
        cases.len(),
        remarks.join(", ")
    );
}

/// From frame to frame of random T netlists: the base by the sum of the frames before, each group of
/// each port as by frame number, and all of them joined the numbers of the whole.
pub fn walks(tally: &mut Tally) {
    let mut random = Random::new(49);
    for round in 0..45 {
        let netlist = if round % 3 == 0 {
            wide_two_ports(&mut random)
        } else {
            tiny_two_ports(&mut random)
        };
        let depth = random.pick(&[0, 1, 4, 5, 30, 255]);
        let mut position = start(&netlist, depth).expect("an accepted netlist");
        let (mut base, mut joined) = (1, Vec::new());
        for frame in 0..=depth {
            let expected = Position { depth, frame, base };
            tally.equal((round, frame), position, expected);
            if frame < 6 || frame == depth {
                for (port, group) in groups_of(frame, depth) {
                    let asked = PortGroup {
                        port,
                        group: position.numbered(group),
                    };
                    let by_frame = port_group_call(&netlist, depth, asked, 20_000);
                    let found = position.port_group(&netlist, port, group, 20_000);
                    tally.check((round, frame, group), found == by_frame);
                    joined.extend(found.unwrap_or_default());
                }
            }
            let moved = position.on(&netlist);
            tally.equal((round, frame, "on"), moved.is_ok(), frame < depth);
            base += netlist.wire_count() + frame * 2 * (netlist.address_width + 4);
        }
        let variables = frame_base(&netlist, depth + 1);
        tally.equal((round, "variables"), i64::from(base), variables);
        if depth < 6 {
            let whole = Formula::new(&netlist, depth, Fault::None).numbers();
            tally.check((round, "joined"), joined == whole);
        }
        let went = position.back(&netlist);
        let zero = Position {
            depth,
            frame: 0,
            base: 1,
        };
        tally.check((round, "back"), went.is_ok() && position == zero);
    }
}

fn groups_of(frame: u32, depth: u32) -> Vec<(u32, FrameGroup)> {
    let both = |group: FrameGroup| [(FIRST_PORT, group), (SECOND_PORT, group)];
    let mut groups = vec![(FIRST_PORT, FrameGroup::Wires)];
    groups.extend((0..frame).rev().map(FrameGroup::Pair).flat_map(both));
    groups.extend(both(FrameGroup::Closing));
    if frame == depth {
        groups.push((FIRST_PORT, FrameGroup::Property));
    }
    groups
}

/// 600 wires, 4096 words and 256 frames, with two ports that never read.
fn largest_chip(tally: &mut Tally, random: &mut Random) {
    let mut netlist = two_of_sizes([12, 0, 524], [12, 32]);
    netlist.start_word = u32::MAX;
    netlist.write_enable = 1;
    for bit in 0..12 {
        netlist.address[bit] = 2 * (bit as u32 + 1);
        netlist.second_address[bit] = 2 * (12 - bit as u32);
    }
    let feeds = random_feeds(random, &netlist, MAX_DEPTH);
    let run = Run::new(&netlist, &feeds);
    let mut draft = Draft::new(&netlist, MAX_DEPTH, run);
    // All inputs of 256 frames, and both idle words of frame 0.
    tally.equal("numbers needed", draft.numbers.len(), 256 * 12 + 64);
    let (_, all_others) = UNSEEN[0];
    all_others(random, &mut draft);
    let answer = written(random, &draft.numbers);
    let call = Call::new(&netlist, MAX_DEPTH, answer, [3, 3]);
    tally.check("largest chip", call.outcome() == call.of_run(&draft.run));
    tally.equal("largest trace", call.trace.len() - 3, 256 * 601);
}

/// Answers of every shape for chips with two ports, alone and with each fault.
pub fn answers(tally: &mut Tally) {
    let mut random = Random::new(50);
    largest_chip(tally, &mut random);
    let mut idle = [0; 4];
    for round in 0..1500 {
        let draft = two_port_draft(&mut random);
        let answer = written(&mut random, &draft.numbers);
        let call = draft.call(&mut random, answer);
        let expected = call.of_run(&draft.run);
        tally.check((round, "outcome"), call.outcome() == expected);
        let printed = replay(&call.input(), &call.answer);
        tally.check((round, "printed"), printed == expected.printed());
        let reads = |port| value(&draft.run.frames[0], draft.netlist.read_enable_of(port));
        idle[usize::from(!reads(1)) + 2 * usize::from(!reads(2))] += 1;
    }
    for count in idle {
        tally.check(("idle in frame 0", count), count >= 100);
    }
    for round in 0..1000 {
        let draft = two_port_draft(&mut random);
        let (name, call, expected) = answer_case_of(&mut random, draft);
        tally.check((round, name), call.outcome() == expected);
        let printed = replay(&call.input(), &call.answer);
        tally.check((round, name, "printed"), printed == expected.printed());
        let draft = two_port_draft(&mut random);
        let (name, call, expected) = call_case_of(&mut random, draft);
        tally.check((round, name, "call"), call.outcome() == expected);
    }
    for (name, fault) in FEED_FAULTS {
        let mut count = 0;
        for round in 0..150 {
            let mut draft = two_port_draft(&mut random);
            if !fault(&mut random, &mut draft) {
                continue;
            }
            count += 1;
            let answer = written(&mut random, &draft.numbers);
            let call = draft.call(&mut random, answer);
            tally.check((round, name), call.outcome() == call.bad_answer());
        }
        tally.check(("occurrences of", name, count), count >= 30);
    }
    for (name, fault) in CALL_FAULTS {
        let mut count = 0;
        for round in 0..60 {
            let draft = two_port_draft(&mut random);
            let answer = written(&mut random, &draft.numbers);
            let mut call = draft.call(&mut random, answer);
            if let Some(refusal) = fault(&mut random, &mut call) {
                count += 1;
                let fits = call.outcome() == call.untouched(Err(refusal));
                tally.check((round, name, refusal), fits);
            }
        }
        tally.check(("occurrences of", name, count), count >= 10);
    }
    tally.remark = format!(
        " (in frame 0 both read {}, the first idle {}, the second idle {}, both idle {})",
        idle[0], idle[1], idle[2], idle[3]
    );
}

/// Every subset of the numbers that a small answer may have, against all runs; and assignments of the
/// formula against replays, both ways.
pub fn assignments(tally: &mut Tally) {
    let mut counts = [0; 3];
    // Both addresses are constants; the second port reads where the input is true, the first where it is
    // false; each is written inverted. Variables of the frames: 2 to 4 and 5 to 7.
    let reading = "N 1 0 0/T 1 1 1/A 0/D 5/B 0/R 2/C 3 3 6";
    for (depth, short, variables) in [
        (1, CONSTANT_READS, &[2, 3, 4, 5, 6][..]),
        (0, reading, &[2, 3, 4, 5][..]),
        (1, reading, &[2, 3, 4, 5, 6, 7][..]),
        (
            0,
            "N 0 0 0/T 1 2 1/A 0/D 2/D 2/B 0/R 0/C 0 0 7",
            &[2, 3, 4, 5][..],
        ),
    ] {
        let runs = Runs::new(accepted(short), depth);
        for choice in 0..4u32.pow(variables.len() as u32) {
            let mut numbers = Vec::new();
            for (index, variable) in variables.iter().enumerate() {
                let signs = choice >> (2 * index);
                numbers.extend((signs & 1 == 1).then_some(*variable));
                numbers.extend((signs & 2 == 2).then_some(-variable));
            }
            let words: Vec<String> = numbers.iter().chain(&[0]).map(i32::to_string).collect();
            let call = runs.call(satisfiable(&words.join(" ")));
            let (found, expected) = (call.outcome(), runs.outcome(&call));
            counts[match expected.result {
                Ok(Claim::Breaks(_)) => 0,
                Err(refusal) if refusal.number == 14 => 1,
                _ => 2,
            }] += 1;
            tally.check((short, numbers), found == expected);
        }
    }
    for count in counts {
        tally.check(("occurrences", count), count >= 20);
    }
    assignments_of(tally, &mut Random::new(51), tiny_cases(300), 60);
}

/// Every byte of small T sheets replaced by others: the refusal is one that the byte's place can cause.
pub fn damaged_bytes(tally: &mut Tally) {
    let mut counts = [0; 18];
    for short in [CONSTANT_READS, TWO_READS, TWO_RICH] {
        let sheet = expand(short);
        for at in 0..sheet.len() {
            for byte in b"0123456789 NMTLGADBRC\n\r\t\0x" {
                let mut damaged = sheet.clone();
                damaged[at] = *byte;
                let found = verdict(read(&damaged));
                counts[found.0 as usize] += 1;
                let line = (at / LINE_BYTES) as u32 + 1;
                let column = at % LINE_BYTES;
                let fits = match found.0 {
                    0 => true,
                    MISPRINT => found.1 == line,
                    // A wrong letter, or a size that makes another line due, or too few.
                    OUT_OF_ORDER => (column == 0 && found.1 >= line) || (line <= 2 && found.1 > 2),
                    SIZE => line <= 2 && (found.1 == line || found.1 == 2),
                    CODE | MEMORY_LOOP | TIED_ADDRESS => column > 0 || line == 2,
                    _ => false,
                };
                tally.check((short, at, byte, found), fits);
            }
        }
    }
    for number in [0, MISPRINT, OUT_OF_ORDER, SIZE, CODE, MEMORY_LOOP] {
        let count = counts[number as usize];
        tally.check(("occurrences of", number, count), count >= 10);
    }
}
