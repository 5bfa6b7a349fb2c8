//! Accepted sheets: what `frames` prints, byte for byte against the second implementation.

use super::largest::{extremes, rows, Largest};
use super::process::{difference, Program};
use super::reference::check_examples::{full_run_rows, input, of_sizes};
use super::reference::check_ports::{two_of_sizes, two_port_runs};
use super::reference::formula::{Fault, Formula};
use super::reference::netlist::{Netlist, MAX_DEPTH};
use super::reference::random::{
    fill, two_port_shapes, wide_netlist, wide_two_ports, Random, Shape, SHAPES,
};
use super::reference::sheet::{write_depth, write_sheet};
use super::reference::Tally;

/// The full run (RULES P17), and the runs that were worked out by hand: no second implementation.
pub fn full_runs(program: &Program, tally: &mut Tally) {
    for (depth, short, text) in full_run_rows().into_iter().chain(two_port_runs()) {
        let bytes = input(depth, short);
        let ran = program.run(&bytes);
        let holds = ran.ended_well() && ran.output == text.as_bytes();
        tally.check_with((short, depth), holds, || {
            difference(&bytes, &ran, text.as_bytes())
        });
    }
}

fn agrees(program: &Program, tally: &mut Tally, name: &str, netlist: &Netlist, depth: u32) {
    let bytes = [write_depth(depth), write_sheet(netlist)].concat();
    program.agrees(tally, &format!("{name}, depth {depth}"), &bytes);
}

/// Every depth once, with small sheets: the text grows with the square of the depth.
pub fn every_depth(program: &Program, tally: &mut Tally) {
    let mut random = Random::new(101);
    for depth in 0..=MAX_DEPTH {
        let sizes = Netlist {
            inputs: random.below(2),
            latch_count: random.below(2),
            gate_count: random.below(3),
            address_width: random.pick(&[1, 1, 1, 2]),
            data_width: random.pick(&[1, 1, 1, 2]),
            two_ports: depth % 2,
            ..Netlist::default()
        };
        let netlist = fill(&mut random, sizes);
        agrees(program, tally, "small sheet", &netlist, depth);
    }
}

/// How many numbers the texts of the random sheets may have: all but a few of them little.
const NUMBERS: [i64; 8] = [8_000, 8_000, 8_000, 8_000, 8_000, 20_000, 60_000, 200_000];

/// The greatest depth up to `most` whose formula has at most this many numbers.
fn depth_within(netlist: &Netlist, most: u32, numbers: i64) -> u32 {
    let fits = |depth: &u32| {
        let formula = Formula::new(netlist, *depth, Fault::None);
        let lengths = formula
            .port_groups()
            .into_iter()
            .map(|asked| formula.port_counts(asked)[1]);
        lengths.sum::<i64>() <= numbers
    };
    (1..=most).take_while(fits).last().unwrap_or(0)
}

/// M sheets of every shape.
pub fn random_sheets(program: &Program, tally: &mut Tally) {
    let mut random = Random::new(102);
    sheets_of(program, tally, &mut random, wide_netlist, &SHAPES);
}

/// T sheets of every shape.
pub fn random_two_ports(program: &Program, tally: &mut Tally) {
    let mut random = Random::new(104);
    sheets_of(
        program,
        tally,
        &mut random,
        wide_two_ports,
        &two_port_shapes(),
    );
}

/// Random sheets, each shape at least twenty times.
fn sheets_of(
    program: &Program,
    tally: &mut Tally,
    random: &mut Random,
    netlist: fn(&mut Random) -> Netlist,
    shapes: &[Shape],
) {
    let mut counts = vec![0; shapes.len()];
    let mut depths = [0; MAX_DEPTH as usize + 1];
    for round in 0..2_500 {
        let mut netlist = netlist(random);
        if random.percent(5) {
            only_constants(&mut netlist);
        }
        let most = if random.percent(50) {
            random.below(4)
        } else {
            random.below(MAX_DEPTH + 1)
        };
        let depth = depth_within(&netlist, most, random.pick(&NUMBERS));
        for (count, (_, has_shape)) in counts.iter_mut().zip(shapes) {
            *count += usize::from(has_shape(&netlist));
        }
        depths[depth as usize] += 1;
        agrees(
            program,
            tally,
            &format!("random sheet {round}"),
            &netlist,
            depth,
        );
    }
    for (count, (name, _)) in counts.iter().zip(shapes) {
        tally.check((name, count), *count >= 20);
    }
    let different = depths.iter().filter(|count| **count > 0).count();
    tally.remark = format!(" ({different} depths)");
}

/// Every code a constant, with the value that its lowest bit has.
fn only_constants(netlist: &mut Netlist) {
    let Netlist {
        latches,
        gates,
        address,
        write_data,
        second_address,
        ..
    } = netlist;
    let operands = gates
        .iter_mut()
        .flat_map(|gate| [&mut gate.left, &mut gate.right]);
    let next = latches.iter_mut().map(|latch| &mut latch.next);
    let controls = [
        &mut netlist.write_enable,
        &mut netlist.read_enable,
        &mut netlist.second_read_enable,
        &mut netlist.property,
    ];
    let codes = operands
        .chain(next)
        .chain(address)
        .chain(write_data)
        .chain(second_address)
        .chain(controls);
    codes.for_each(|code| *code %= 2);
}

/// The sheet on which the speed is measured, and the sizes with the most clauses and variables, of one port and of two.
pub fn largest(program: &Program, tally: &mut Tally) {
    let mut random = Random::new(103);
    let measured = of_sizes([60, 100, 408], [12, 32]);
    let most_clauses = of_sizes([0, 0, 568], [12, 32]);
    let of_two_ports = two_of_sizes([0, 24, 512], [12, 32]);
    for sizes in [measured, most_clauses, of_two_ports] {
        let name = format!(
            "{}, {} and {}, {} ports",
            sizes.inputs,
            sizes.latch_count,
            sizes.gate_count,
            sizes.port_count()
        );
        let empty = Netlist {
            latches: vec![],
            gates: vec![],
            ..sizes
        };
        let netlist = fill(&mut random, empty);
        agrees(program, tally, &name, &netlist, MAX_DEPTH);
    }
}

/// The formulas with the most variables, clauses and bytes: their first line, how much is printed, and every number within the bound.
pub fn bounds(program: &Program, tally: &mut Tally) {
    for Largest { name, netlist, variables, clauses, bytes } in rows() {
        let ran = program.run(&[write_depth(MAX_DEPTH), write_sheet(&netlist)].concat());
        tally.check((name, "ended"), ran.ended_well());
        let header = format!("p cnf {variables} {clauses}\n");
        tally.check((name, "header"), ran.output.starts_with(header.as_bytes()));
        tally.equal((name, "bytes"), ran.output.len(), bytes);
        let body = std::str::from_utf8(&ran.output[header.len()..]).unwrap_or_default();
        tally.equal((name, "lines"), body.matches('\n').count(), clauses as usize);
        let numbers = body.split_ascii_whitespace().map(|word| word.parse().unwrap_or(i32::MAX));
        tally.equal((name, "numbers"), extremes(numbers), [-variables, variables]);
    }
}
