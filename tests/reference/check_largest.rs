//! K12: the largest variable over all sizes and depths, and every number of every group within it.

use super::check_examples::of_sizes;
use super::check_ports::two_of_sizes;
use super::formula::{
    frame_base, heading, largest_variable, port_group_call, Fault, Formula, Group, PortGroup,
};
use super::netlist::{Netlist, MAX_ADDRESS_WIDTH, MAX_DATA_WIDTH, MAX_DEPTH, MAX_WIRES};
use super::random::{tiny_netlist, tiny_two_ports, wide_netlist, wide_two_ports, Random};
use super::Tally;

/// An accepted record with V wires; which of them are inputs, latches or gates has no effect on B.
fn of_wires(ports: u32, wires: u32, widths: [u32; 2]) -> Netlist {
    let counts = [wires - ports * widths[1], 0, 0];
    match ports {
        1 => of_sizes(counts, widths),
        _ => two_of_sizes(counts, widths),
    }
}

/// B(k + 1) for every number of ports, n, m, V and k: the largest, and how many sizes have it.
pub fn all_sizes(tally: &mut Tally) {
    tally.equal("by the formula", largest_variable(), 1_198_081);
    for (ports, expected) in [(1, 675_841), (2, 1_198_081)] {
        let (mut most, mut attained, mut accepted, mut all) = (0, 0, 0, 0);
        for n in 1..=MAX_DATA_WIDTH {
            for m in 1..=MAX_ADDRESS_WIDTH {
                for wires in ports * n..=MAX_WIRES {
                    let netlist = of_wires(ports, wires, [m, n]);
                    all += 1;
                    accepted += usize::from(netlist.check().is_ok());
                    for depth in 0..=MAX_DEPTH {
                        let variables = frame_base(&netlist, depth + 1);
                        if variables > most {
                            (most, attained) = (variables, 0);
                        }
                        attained += usize::from(variables == most);
                    }
                }
            }
        }
        tally.equal((ports, "largest"), most, expected);
        // Only at the limits of V, m and k, with each n.
        tally.equal((ports, "attained"), attained, 32);
        tally.equal((ports, "accepted"), accepted, all);
        tally.remark += &format!(" ({all} sizes with {ports} of 2 ports)");
    }
    let mut largest = of_wires(2, 600, [12, 32]);
    // A constant would take one sign of the last variable away.
    (largest.write_enable, largest.second_read_enable) = (2, 2);
    let variables = heading(&largest, 255).map(|it| it.variables);
    tally.equal("attained by a heading", variables, Ok(1_198_081));
    let last = PortGroup::second(Group::Pair(254, 255));
    let numbers = port_group_call(&largest, 255, last, 600).unwrap_or_default();
    let named = |number: i32| numbers.contains(&number);
    tally.check("attained by a group", named(1_198_081) && named(-1_198_081));
}

/// Whether every number lies between the bound and its negative.
fn within(numbers: &[i32], bound: i64) -> bool {
    let in_bound = |number: &i32| (-bound..=bound).contains(&i64::from(*number));
    numbers.iter().all(in_bound)
}

fn random_netlist(random: &mut Random) -> Netlist {
    match random.below(4) {
        0 => tiny_netlist(random),
        1 => tiny_two_ports(random),
        2 => wide_netlist(random),
        _ => wide_two_ports(random),
    }
}

/// A group that exists at this depth, of frames near the last one often.
fn random_group(random: &mut Random, depth: u32) -> Group {
    let any = random.below(depth + 1);
    let i = random.pick(&[depth, any, any]);
    match random.below(4) {
        1 if i > 0 => Group::Pair(random.pick(&[0, i - 1, any.min(i - 1)]), i),
        2 => Group::Closing(i),
        3 => Group::Property,
        _ => Group::Wires(i),
    }
}

/// Groups of random sheets of both kinds: within the bound of K12, and within the heading's variables,
/// of which the last is written wherever there is a pair.
pub fn groups(tally: &mut Tally) {
    let mut random = Random::new(64);
    let (mut numbers_seen, mut largest_seen) = (0, 0);
    for round in 0..150 {
        let netlist = random_netlist(&mut random);
        let depth = random.pick(&[0, 1, 7, 100, 254, 255]);
        let variables = heading(&netlist, depth).map_or(i64::MAX, |it| it.variables);
        tally.check((round, "heading"), variables <= largest_variable());
        for port in netlist.ports() {
            for _ in 0..40 {
                let group = random_group(&mut random, depth);
                let asked = PortGroup { port, group };
                let numbers = port_group_call(&netlist, depth, asked, 20_000);
                let numbers = numbers.expect("a group that exists");
                let fits = within(&numbers, variables) && within(&numbers, largest_variable());
                tally.check((round, depth, asked), fits);
                numbers_seen += numbers.len();
            }
        }
        // The whole of the last frames, and of all frames where there are few.
        let formula = Formula::new(&netlist, depth, Fault::None);
        let in_last = |group: Group| match group {
            Group::Wires(i) | Group::Closing(i) | Group::Pair(_, i) => i + 1 >= depth,
            Group::Property => true,
        };
        let mut largest = 0;
        for asked in formula.port_groups() {
            if depth < 10 || in_last(asked.group) {
                let numbers = formula.port_group(asked);
                tally.check((round, asked, "whole"), within(&numbers, variables));
                largest = numbers.iter().map(|it| it.abs()).fold(largest, i32::max);
                numbers_seen += numbers.len();
            }
        }
        if depth > 0 {
            tally.equal((round, "last variable"), i64::from(largest), variables);
        }
        largest_seen = largest_seen.max(largest);
    }
    // The bound is met by some sheet, so a smaller one would be noticed.
    tally.equal("largest", i64::from(largest_seen), largest_variable());
    tally.remark = format!(" ({numbers_seen} numbers)");
}
