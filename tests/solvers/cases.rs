//! Small random sheets with fixed seeds, and all runs of a small netlist.

use super::reference::circuit::{feed_of_words, Circuit, Feed, Run};
use super::reference::netlist::{Netlist, SECOND_PORT};
use super::reference::random::{enable_often, fill, tiny_netlist, tiny_two_ports, Random};

/// A netlist with a depth of at most 4.
pub struct Case {
    pub netlist: Netlist,
    pub depth: u32,
}

/// Netlists of one port with m, n at most 3 whose property depends on a read bit.
pub fn small_cases(seed: u64, count: usize) -> Vec<Case> {
    cases_of(seed, count, small_netlist, |_| true)
}

/// Those of them that have an unknown start.
pub fn unknown_cases(seed: u64, count: usize) -> Vec<Case> {
    cases_of(seed, count, small_netlist, Netlist::has_unknown_start)
}

/// Netlists of two ports with m, n at most 2 whose property depends on a read bit.
pub fn two_port_cases(seed: u64, count: usize) -> Vec<Case> {
    cases_of(seed, count, small_two_ports, |_| true)
}

/// Netlists of both kinds in turn, so small that all assignments to their formulas can be gone through.
pub fn tiny_cases(seed: u64, count: usize) -> Vec<Case> {
    let mut random = Random::new(seed);
    let case = |index: usize| {
        let mut netlist = match index % 2 {
            0 => tiny_netlist(&mut random),
            _ => tiny_two_ports(&mut random),
        };
        let few = netlist.inputs < 2 && netlist.address_width == 1;
        // Then every run breaks the property.
        if few && random.percent(30) {
            netlist.property = 0;
        }
        Case {
            depth: random.below(if few { 4 } else { 3 }),
            netlist,
        }
    };
    (0..count).map(case).collect()
}

fn cases_of(
    seed: u64,
    count: usize,
    netlist: fn(&mut Random) -> Netlist,
    is_wanted: fn(&Netlist) -> bool,
) -> Vec<Case> {
    let mut random = Random::new(seed);
    let mut cases = Vec::new();
    while cases.len() < count {
        let netlist = netlist(&mut random);
        let depth = random.below(5);
        if depends_on_read_bit(&netlist, netlist.property) && is_wanted(&netlist) {
            cases.push(Case { netlist, depth });
        }
    }
    cases
}

pub fn depends_on_read_bit(netlist: &Netlist, code: u32) -> bool {
    netlist.read_dependence()[code as usize / 2]
}

/// Whether a read bit of the second port reaches a code by wiring through gates.
pub fn depends_on_second(netlist: &Netlist, code: u32) -> bool {
    let mut depends = vec![false; netlist.first_gate() as usize];
    let second = netlist.read_bits(SECOND_PORT);
    depends[second.start as usize..second.end as usize].fill(true);
    for gate in &netlist.gates {
        depends.push(depends[gate.left as usize / 2] || depends[gate.right as usize / 2]);
    }
    depends[code as usize / 2]
}

fn small_netlist(random: &mut Random) -> Netlist {
    let sizes = Netlist {
        inputs: random.pick(&[0, 1, 1, 2, 2, 3]),
        latch_count: random.below(4),
        gate_count: random.between(1, 12),
        address_width: random.between(1, 3),
        data_width: random.between(1, 3),
        ..Netlist::default()
    };
    filled(random, sizes)
}

fn small_two_ports(random: &mut Random) -> Netlist {
    let sizes = Netlist {
        inputs: random.pick(&[0, 1, 1, 2, 2, 3]),
        latch_count: random.below(4),
        gate_count: random.between(1, 12),
        address_width: random.between(1, 2),
        data_width: random.between(1, 2),
        two_ports: 1,
        ..Netlist::default()
    };
    filled(random, sizes)
}

fn filled(random: &mut Random, sizes: Netlist) -> Netlist {
    let mut netlist = fill(random, sizes);
    enable_often(random, &mut netlist);
    // An inverted gate is often true in all frames: such a property is seldom broken, or never.
    if random.percent(60) {
        netlist.property = 2 * (netlist.wire_count() - random.below(3).min(netlist.gate_count)) + 1;
    }
    netlist
}

/// All runs to frame `depth`, where none is fed more than `most` free bits: I input bits in each frame,
/// and n bits for each port whose RE is false in frame 0, or where a word of an unknown start is read
/// first. There are then at most 2^most, and they are the runs from every starting memory.
pub fn all_runs(netlist: &Netlist, depth: u32, most: u32) -> Option<Vec<Run>> {
    let mut prefixes = vec![(Circuit::new(netlist), Vec::new(), 0)];
    for _ in 0..=depth {
        let mut longer = Vec::new();
        for (circuit, feeds, bits) in &prefixes {
            for inputs in all_inputs(netlist) {
                let takes_word = |port: &u32| circuit.port_takes_fed_word(*port, &inputs);
                let fed: Vec<u32> = netlist.ports().filter(takes_word).collect();
                let word_bits = fed.len() as u32 * netlist.data_width;
                let bits = bits + netlist.inputs + word_bits;
                if bits > most {
                    return None;
                }
                for words in 0..1u32 << word_bits {
                    // Those that are fed a word take their bits in turn; the others' words count for nothing.
                    let word = |port: u32| {
                        let at = fed.iter().position(|other| *other == port).unwrap_or(0);
                        (words >> (at as u32 * netlist.data_width)) & ((1 << netlist.data_width) - 1)
                    };
                    let feed = feed_of_words(netlist, inputs.clone(), word);
                    let mut circuit = circuit.clone();
                    circuit.step(&feed);
                    let feeds: Vec<Feed> = [feeds.as_slice(), &[feed]].concat();
                    longer.push((circuit, feeds, bits));
                }
            }
        }
        prefixes = longer;
    }
    let feeds = prefixes.iter().map(|(_, feeds, _)| feeds);
    Some(feeds.map(|feeds| Run::new(netlist, feeds)).collect())
}

fn all_inputs(netlist: &Netlist) -> impl Iterator<Item = Vec<bool>> {
    let inputs = netlist.inputs;
    (0..1u32 << inputs).map(move |bits| (0..inputs).map(|bit| (bits >> bit) & 1 == 1).collect())
}
