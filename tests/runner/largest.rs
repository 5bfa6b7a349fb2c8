//! K12: the sheets whose formulas have the most variables, clauses and bytes (RULES V6; docs/FORMAT.md says why no other has more). The counts
//! were worked out by hand, the bytes were measured once. Every number lies within the bound, and the last variable is named with both signs.

use super::reference::check_examples::of_sizes;
use super::reference::check_ports::two_of_sizes;
use super::reference::netlist::{Gate, Latch, Netlist, MAX_WIRES};

/// The largest variable of either kind of sheet.
pub const MOST_VARIABLES: i32 = 1_198_081;

pub struct Largest {
    pub name: &'static str,
    pub netlist: Netlist,
    pub variables: i32,
    pub clauses: u32,
    /// Of the whole text.
    pub bytes: usize,
}

/// All wires but the read bits are gates, each of the wire before it twice; all codes but those of the first gate are wires, the highest ones. The
/// first gate is of a latch where there is one, and else of code 0 twice, which is two clauses a frame where another gate is three.
fn chain(ports: u32, latch_count: u32) -> Netlist {
    let counts = [0, latch_count, MAX_WIRES - ports * 32 - latch_count];
    let mut netlist = match ports {
        1 => of_sizes(counts, [12, 32]),
        _ => two_of_sizes(counts, [12, 32]),
    };
    let last = 2 * MAX_WIRES;
    let first_gate = netlist.first_gate();
    let operand = |wire: u32| if wire == first_gate { 2 * latch_count } else { 2 * wire - 2 };
    let gates = (first_gate..=MAX_WIRES).map(operand);
    netlist.gates = gates.map(|code| Gate { left: code, right: code }).collect();
    netlist.latches = vec![Latch { next: last, reset: 0 }; latch_count as usize];
    let addresses = std::array::from_fn(|bit| last - 2 * bit as u32);
    (netlist.address, netlist.second_address) = (addresses, addresses);
    netlist.write_data.fill(last);
    (netlist.write_enable, netlist.property) = (last, last);
    // Inverted: a sign more in each clause of G25.
    (netlist.read_enable, netlist.second_read_enable) = (last + 1, last + 1);
    netlist
}

/// From an unknown start RE is not inverted: its negation stands in as many clauses of G32, as that of frame 0's Z, as RE does in those of G25; and
/// in those of G13 too.
fn unknown_start(netlist: Netlist) -> Netlist {
    Netlist { unknown_start: 1, read_enable: 2 * MAX_WIRES, ..netlist }
}

/// Of 256 frames and 32,640 pairs of frames. Clauses: wires 1 + 256 × 3 × (L + A), less 256 for a first gate of constants, or less 257 for a latch;
/// a pair 122, or 186 from an unknown start; a closing 97, or 65, but 64 less in frame 0; the property 1.
pub fn rows() -> Vec<Largest> {
    let row = |name, netlist, variables, clauses, bytes| Largest { name, netlist, variables, clauses, bytes };
    vec![
        row("most clauses of two ports", chain(2, 0), MOST_VARIABLES, 8_425_090, 206_989_844),
        row("most bytes of two ports", chain(2, 1), MOST_VARIABLES, 8_425_089, 206_993_296),
        row("most clauses of one port, start given", chain(1, 0), 675_841, 4_442_818, 105_498_362),
        row("most bytes of one port, start given", chain(1, 1), 675_841, 4_442_817, 105_501_732),
        row("most clauses of one port, start unknown", unknown_start(chain(1, 0)), 675_841, 6_523_586, 187_590_545),
        row("most bytes of one port, start unknown", unknown_start(chain(1, 1)), 675_841, 6_523_585, 187_594_424),
    ]
}

/// The least and the greatest number, 0 beside them.
pub fn extremes(numbers: impl Iterator<Item = i32>) -> [i32; 2] {
    numbers.fold([0, 0], |[least, greatest], it| [it.min(least), it.max(greatest)])
}
