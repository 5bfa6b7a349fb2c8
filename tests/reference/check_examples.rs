//! The rules' own examples and figures (RULES P8, P10, F1 to F3, F7 to F10), as K3 and K4 have
//! them, and the same sheets with an unknown start (K7).

use super::agreement::compare;
use super::circuit::{Feed, Run};
use super::formula::{
    clause_count, frame_base, frames, group_call, heading, number_count, Fault, Formula, Group,
    Heading,
};
use super::netlist::{Gate, Latch, Netlist};
use super::refusal::{Refusal, DEPTH, MEMORY_LOOP, NO_ROOM, NO_SUCH_GROUP};
use super::sheet::{expand, read_sheet, write_depth};
use super::Tally;

/// The sheet of the full run (RULES P8).
pub const FULL_RUN: &str = "N 1 0 0/M 1 1 0/A 0/D 2/C 1 1 5";

const FULL_RUN_TEXT: &str = "\
p cnf 10 15
1 0
-3 0
7 0
-7 6 0
-8 6 0
8 -6 0
-9 -8 0
9 8 0
-10 8 0
10 -8 0
-10 -5 2 0
-10 5 -2 0
-9 -5 0
9 10 0
3 5 0
";

/// The same sheet at depth 0.
const DEPTH_0_TEXT: &str = "\
p cnf 3 3
1 0
-3 0
3 0
";

/// A sheet with every kind of line and two bits in both widths. Wires: input 1, latch 2, read
/// bits 3 and 4, gate 5.
pub const RICH: &str = "N 1 1 1/M 2 2 2/L 10 1/G 2 7/A 4/A 3/D 10/D 8/C 11 5 9";

/// Its text at depth 2, worked out by hand from the rules. It settles what the full run cannot
/// show: clauses bit by bit, S in ascending order, pairs in descending order, N as PS. The wires
/// of the frames are 2 to 6, 7 to 11 and 18 to 22; the pair (0, 1) is 12 to 17, the pair (0, 2)
/// is 23 to 28 and the pair (1, 2) is 29 to 34.
const RICH_TEXT: [&str; 11] = [
    "p cnf 34 99\n",
    // Frame 0: wires, closing.
    "1 0\n3 0\n-6 2 0\n-6 -4 0\n6 -2 4 0\n",
    "3 -4 0\n3 5 0\n3 -3 0\n",
    // Frame 1: wires, pair (0, 1), closing.
    "-8 6 0\n8 -6 0\n-11 7 0\n-11 -9 0\n11 -7 9 0\n",
    "-12 3 -8 0\n-12 -3 8 0\n13 3 8 0\n13 -3 -8 0\n\
     -12 -2 7 0\n-12 2 -7 0\n14 -2 -7 0\n14 2 7 0\n-13 -14 12 0\n\
     -15 12 0\n-15 -6 0\n15 -12 6 0\n\
     -16 -15 0\n-16 -8 0\n16 15 8 0\n\
     -17 15 0\n-17 -8 0\n17 -15 8 0\n\
     -17 -9 6 0\n-17 9 -6 0\n-17 -10 5 0\n-17 10 -5 0\n",
    "-16 -9 0\n-16 10 0\n\
     -8 -9 4 0\n-8 9 -4 0\n-8 -10 5 0\n-8 10 -5 0\n8 16 17 0\n",
    // Frame 2: wires, pair (1, 2), pair (0, 2), closing.
    "-19 11 0\n19 -11 0\n-22 18 0\n-22 -20 0\n22 -18 20 0\n",
    "-29 8 -19 0\n-29 -8 19 0\n30 8 19 0\n30 -8 -19 0\n\
     -29 -7 18 0\n-29 7 -18 0\n31 -7 -18 0\n31 7 18 0\n-30 -31 29 0\n\
     -32 29 0\n-32 -11 0\n32 -29 11 0\n\
     -33 -32 0\n-33 -19 0\n33 32 19 0\n\
     -34 32 0\n-34 -19 0\n34 -32 19 0\n\
     -34 -20 11 0\n-34 20 -11 0\n-34 -21 10 0\n-34 21 -10 0\n",
    "-23 3 -19 0\n-23 -3 19 0\n24 3 19 0\n24 -3 -19 0\n\
     -23 -2 18 0\n-23 2 -18 0\n25 -2 -18 0\n25 2 18 0\n-24 -25 23 0\n\
     -26 23 0\n-26 -6 0\n26 -23 6 0\n\
     -27 -26 0\n-27 33 0\n27 26 -33 0\n\
     -28 26 0\n-28 33 0\n28 -26 -33 0\n\
     -28 -20 6 0\n-28 20 -6 0\n-28 -21 5 0\n-28 21 -5 0\n",
    "-27 -20 0\n-27 21 0\n\
     -19 -20 9 0\n-19 20 -9 0\n-19 -21 10 0\n-19 21 -10 0\n19 27 28 34 0\n",
    // Property.
    "5 10 21 0\n",
];

/// A sheet in which every code is a constant, and its text at depth 1, worked out by hand: the
/// property's clause is left empty. The read bit is 2 and 3, the pair is 4 to 8.
const CONSTANT: &str = "N 0 0 0/M 1 1 1/A 1/D 0/C 0 0 1";

const CONSTANT_TEXT: [&str; 5] = [
    "p cnf 8 14\n1 0\n",
    // The pair: e, E, s, PS, S, data.
    "5 0\n-5 4 0\n-6 4 0\n-6 0\n-7 -6 0\n-7 0\n-8 6 0\n-8 0\n-8 -3 0\n",
    // The closing of frame 1: start word, then the word held.
    "-7 3 0\n",
    "-3 2 0\n3 -2 0\n",
    "-1 0\n",
];

/// A sheet with constants among wires in every kind of line: the property's clause has a true
/// literal. Wires: input 1, latches 2 and 3, read bits 4 and 5, gates 6 to 10.
const MIXED: &str = "N 1 2 5/M 2 2 1/L 1 0/L 0 1/G 1 1/G 0 0/G 1 2/G 3 0/G 0 1/\
                     A 1/A 3/D 1/D 4/C 2 1 0";

/// Its text at depth 2, worked out by hand. N is RE, a constant, in the pairs (0, 1) and (1, 2),
/// but not in the pair (0, 2). The wires of the frames are 2 to 11, 12 to 21 and 28 to 37; the
/// pair (0, 1) is 22 to 27, the pair (0, 2) is 38 to 43 and the pair (1, 2) is 44 to 49.
const MIXED_TEXT: [&str; 10] = [
    "p cnf 49 89\n",
    // Frame 0: wires, closing.
    "1 0\n-3 0\n4 0\n7 0\n-8 0\n-8 0\n-9 2 0\n9 -2 0\n-10 -2 0\n-10 0\n-11 0\n",
    "5 0\n-6 0\n",
    // Frame 1: wires, pair (0, 1), closing.
    "13 0\n-14 0\n17 0\n-18 0\n-18 0\n-19 12 0\n19 -12 0\n-20 -12 0\n-20 0\n-21 0\n",
    "23 0\n-22 -2 12 0\n-22 2 -12 0\n24 -2 -12 0\n24 2 12 0\n-23 -24 22 0\n\
     -25 22 0\n-25 2 0\n25 -22 -2 0\n-26 -25 0\n26 25 0\n-27 25 0\n27 -25 0\n\
     -27 15 0\n-27 -16 3 0\n-27 16 -3 0\n",
    "-26 15 0\n-26 -16 0\n26 27 0\n",
    // Frame 2: wires, pair (1, 2), pair (0, 2), closing.
    "29 0\n-30 0\n33 0\n-34 0\n-34 0\n-35 28 0\n35 -28 0\n-36 -28 0\n-36 0\n-37 0\n",
    "45 0\n-44 -12 28 0\n-44 12 -28 0\n46 -12 -28 0\n46 12 28 0\n-45 -46 44 0\n\
     -47 44 0\n-47 12 0\n47 -44 -12 0\n-48 -47 0\n48 47 0\n-49 47 0\n49 -47 0\n\
     -49 31 0\n-49 -32 13 0\n-49 32 -13 0\n",
    "39 0\n-38 -2 28 0\n-38 2 -28 0\n40 -2 -28 0\n40 2 28 0\n-39 -40 38 0\n\
     -41 38 0\n-41 2 0\n41 -38 -2 0\n\
     -42 -41 0\n-42 48 0\n42 41 -48 0\n-43 41 0\n-43 48 0\n43 -41 -48 0\n\
     -43 31 0\n-43 -32 3 0\n-43 32 -3 0\n",
    "-42 31 0\n-42 -32 0\n42 43 49 0\n",
];

/// The sheet of the full run with an unknown start.
pub const UNKNOWN_FULL_RUN: &str = "N 1 0 0/M 1 1/A 0/D 2/C 1 1 5";

/// Its text at depth 1. RE is always true, so Z of frame 0 is.
const UNKNOWN_FULL_RUN_TEXT: &str = "\
p cnf 10 15
1 0
7 0
-7 6 0
-8 6 0
8 -6 0
-9 -8 0
9 8 0
-10 8 0
10 -8 0
-10 -5 2 0
-10 5 -2 0
-6 -9 -5 3 0
-6 -9 5 -3 0
9 10 0
3 5 0
";

/// `RICH` with an unknown start.
pub const UNKNOWN_RICH: &str = "N 1 1 1/M 2 2/L 10 1/G 2 7/A 4/A 3/D 10/D 8/C 11 5 9";

/// Its text at depth 2. Z of the frames is -3 (RE), 16 and 27.
const UNKNOWN_RICH_TEXT: [&str; 11] = [
    "p cnf 34 105\n",
    // Frame 0: wires, closing.
    "1 0\n3 0\n-6 2 0\n-6 -4 0\n6 -2 4 0\n",
    "3 -3 0\n",
    // Frame 1: wires, pair (0, 1), closing.
    "-8 6 0\n8 -6 0\n-11 7 0\n-11 -9 0\n11 -7 9 0\n",
    "-12 3 -8 0\n-12 -3 8 0\n13 3 8 0\n13 -3 -8 0\n\
     -12 -2 7 0\n-12 2 -7 0\n14 -2 -7 0\n14 2 7 0\n-13 -14 12 0\n\
     -15 12 0\n-15 -6 0\n15 -12 6 0\n\
     -16 -15 0\n-16 -8 0\n16 15 8 0\n\
     -17 15 0\n-17 -8 0\n17 -15 8 0\n\
     -17 -9 6 0\n-17 9 -6 0\n-17 -10 5 0\n-17 10 -5 0\n\
     -12 3 -16 -9 4 0\n-12 3 -16 9 -4 0\n-12 3 -16 -10 5 0\n-12 3 -16 10 -5 0\n",
    "-8 -9 4 0\n-8 9 -4 0\n-8 -10 5 0\n-8 10 -5 0\n8 16 17 0\n",
    // Frame 2: wires, pair (1, 2), pair (0, 2), closing.
    "-19 11 0\n19 -11 0\n-22 18 0\n-22 -20 0\n22 -18 20 0\n",
    "-29 8 -19 0\n-29 -8 19 0\n30 8 19 0\n30 -8 -19 0\n\
     -29 -7 18 0\n-29 7 -18 0\n31 -7 -18 0\n31 7 18 0\n-30 -31 29 0\n\
     -32 29 0\n-32 -11 0\n32 -29 11 0\n\
     -33 -32 0\n-33 -19 0\n33 32 19 0\n\
     -34 32 0\n-34 -19 0\n34 -32 19 0\n\
     -34 -20 11 0\n-34 20 -11 0\n-34 -21 10 0\n-34 21 -10 0\n\
     -29 -16 -27 -20 9 0\n-29 -16 -27 20 -9 0\n-29 -16 -27 -21 10 0\n-29 -16 -27 21 -10 0\n",
    "-23 3 -19 0\n-23 -3 19 0\n24 3 19 0\n24 -3 -19 0\n\
     -23 -2 18 0\n-23 2 -18 0\n25 -2 -18 0\n25 2 18 0\n-24 -25 23 0\n\
     -26 23 0\n-26 -6 0\n26 -23 6 0\n\
     -27 -26 0\n-27 33 0\n27 26 -33 0\n\
     -28 26 0\n-28 33 0\n28 -26 -33 0\n\
     -28 -20 6 0\n-28 20 -6 0\n-28 -21 5 0\n-28 21 -5 0\n\
     -23 3 -27 -20 4 0\n-23 3 -27 20 -4 0\n-23 3 -27 -21 5 0\n-23 3 -27 21 -5 0\n",
    "-19 -20 9 0\n-19 20 -9 0\n-19 -21 10 0\n-19 21 -10 0\n19 27 28 34 0\n",
    // Property.
    "5 10 21 0\n",
];

/// `CONSTANT` with an unknown start: RE is never true, so frame 0 has nothing to agree on. At depth 2
/// the read bits are 2, 3 and 9, the pair (0, 1) is 4 to 8, (0, 2) is 10 to 14, (1, 2) is 15 to 19.
const UNKNOWN_CONSTANT: &str = "N 0 0 0/M 1 1/A 1/D 0/C 0 0 1";

const UNKNOWN_CONSTANT_TEXT: [&str; 7] = [
    "p cnf 19 37\n1 0\n",
    // Frame 1: pair (0, 1), closing.
    "5 0\n-5 4 0\n-6 4 0\n-6 0\n-7 -6 0\n-7 0\n-8 6 0\n-8 0\n-8 -3 0\n",
    "-3 2 0\n3 -2 0\n",
    // Frame 2: pair (1, 2), pair (0, 2), closing.
    "16 0\n-16 15 0\n-17 15 0\n-17 0\n-18 -17 0\n-18 0\n-19 17 0\n-19 0\n-19 -9 0\n\
     -15 -7 -13 -9 3 0\n-15 -7 -13 9 -3 0\n",
    "11 0\n-11 10 0\n-12 10 0\n-12 0\n-13 -12 0\n-13 18 0\n13 12 -18 0\n\
     -14 12 0\n-14 18 0\n14 -12 -18 0\n-14 -9 0\n",
    "-9 3 0\n9 -3 0\n",
    "-1 0\n",
];

/// `MIXED` with an unknown start. Z of the frames is true, 26 and 42.
const UNKNOWN_MIXED: &str = "N 1 2 5/M 2 2/L 1 0/L 0 1/G 1 1/G 0 0/G 1 2/G 3 0/G 0 1/\
                             A 1/A 3/D 1/D 4/C 2 1 0";

const UNKNOWN_MIXED_TEXT: [&str; 9] = [
    "p cnf 49 95\n",
    // Frame 0: wires.
    "1 0\n-3 0\n4 0\n7 0\n-8 0\n-8 0\n-9 2 0\n9 -2 0\n-10 -2 0\n-10 0\n-11 0\n",
    // Frame 1: wires, pair (0, 1), closing.
    "13 0\n-14 0\n17 0\n-18 0\n-18 0\n-19 12 0\n19 -12 0\n-20 -12 0\n-20 0\n-21 0\n",
    "23 0\n-22 -2 12 0\n-22 2 -12 0\n24 -2 -12 0\n24 2 12 0\n-23 -24 22 0\n\
     -25 22 0\n-25 2 0\n25 -22 -2 0\n-26 -25 0\n26 25 0\n-27 25 0\n27 -25 0\n\
     -27 15 0\n-27 -16 3 0\n-27 16 -3 0\n\
     -22 -26 -15 5 0\n-22 -26 15 -5 0\n-22 -26 -16 6 0\n-22 -26 16 -6 0\n",
    "26 27 0\n",
    // Frame 2: wires, pair (1, 2), pair (0, 2), closing.
    "29 0\n-30 0\n33 0\n-34 0\n-34 0\n-35 28 0\n35 -28 0\n-36 -28 0\n-36 0\n-37 0\n",
    "45 0\n-44 -12 28 0\n-44 12 -28 0\n46 -12 -28 0\n46 12 28 0\n-45 -46 44 0\n\
     -47 44 0\n-47 12 0\n47 -44 -12 0\n-48 -47 0\n48 47 0\n-49 47 0\n49 -47 0\n\
     -49 31 0\n-49 -32 13 0\n-49 32 -13 0\n\
     -44 -26 -42 -31 15 0\n-44 -26 -42 31 -15 0\n-44 -26 -42 -32 16 0\n-44 -26 -42 32 -16 0\n",
    "39 0\n-38 -2 28 0\n-38 2 -28 0\n40 -2 -28 0\n40 2 28 0\n-39 -40 38 0\n\
     -41 38 0\n-41 2 0\n41 -38 -2 0\n\
     -42 -41 0\n-42 48 0\n42 41 -48 0\n-43 41 0\n-43 48 0\n43 -41 -48 0\n\
     -43 31 0\n-43 -32 3 0\n-43 32 -3 0\n\
     -38 -42 -31 5 0\n-38 -42 31 -5 0\n-38 -42 -32 6 0\n-38 -42 32 -6 0\n",
    "42 43 49 0\n",
];

/// The input of `frames`: a depth and the sheet of a short form.
pub fn input(depth: u32, short: &str) -> Vec<u8> {
    [write_depth(depth), expand(short)].concat()
}

/// Bytes in which `/` stands for a line feed.
pub fn bytes_of(short: &str) -> Vec<u8> {
    short.replace('/', "\n").into_bytes()
}

/// The netlist of an accepted short form.
pub fn accepted(short: &str) -> Netlist {
    read_sheet(&expand(short), 600, 600).expect("an accepted sheet")
}

/// A netlist of given sizes in which every code, reset and start bit is 0.
pub fn of_sizes(counts: [u32; 3], widths: [u32; 2]) -> Netlist {
    let [inputs, latch_count, gate_count] = counts;
    let [address_width, data_width] = widths;
    Netlist {
        inputs,
        latch_count,
        gate_count,
        address_width,
        data_width,
        latches: vec![Latch { next: 0, reset: 0 }; latch_count as usize],
        gates: vec![Gate { left: 0, right: 0 }; gate_count as usize],
        ..Netlist::default()
    }
}

/// A netlist of given sizes in which no code is a constant: it is that of wire 1, but each address bit
/// has the next wire that no read bit reaches, as long as there is one. Resets and start bits are 0. It
/// is accepted unless wire 1 is a read bit or there are fewer such wires than address bits.
pub fn without_constants(counts: [u32; 3], widths: [u32; 2]) -> Netlist {
    let mut netlist = of_sizes(counts, widths);
    let code = 2;
    netlist.latches.iter_mut().for_each(|it| it.next = code);
    for gate in &mut netlist.gates {
        (gate.left, gate.right) = (code, code);
    }
    let [inputs, latches, gates] = counts;
    let behind = netlist.first_gate()..netlist.first_gate() + gates;
    let own_wires = (1..=inputs + latches).chain(behind);
    for (entry, wire) in netlist.address[..widths[0] as usize]
        .iter_mut()
        .zip(own_wires)
    {
        *entry = 2 * wire;
    }
    netlist.write_data[..widths[1] as usize].fill(code);
    netlist.write_enable = code;
    netlist.read_enable = code;
    netlist.property = code;
    netlist
}

/// Depth, sheet and text of the runs that were worked out by hand or stand in the rules.
pub fn full_run_rows() -> [(u32, &'static str, String); 9] {
    [
        (1, FULL_RUN, FULL_RUN_TEXT.to_string()),
        (0, FULL_RUN, DEPTH_0_TEXT.to_string()),
        (2, RICH, RICH_TEXT.concat()),
        (1, CONSTANT, CONSTANT_TEXT.concat()),
        (2, MIXED, MIXED_TEXT.concat()),
        (1, UNKNOWN_FULL_RUN, UNKNOWN_FULL_RUN_TEXT.to_string()),
        (2, UNKNOWN_RICH, UNKNOWN_RICH_TEXT.concat()),
        (2, UNKNOWN_CONSTANT, UNKNOWN_CONSTANT_TEXT.concat()),
        (2, UNKNOWN_MIXED, UNKNOWN_MIXED_TEXT.concat()),
    ]
}

pub fn full_runs(tally: &mut Tally) {
    for (depth, short, text) in full_run_rows() {
        let printed = String::from_utf8(frames(&input(depth, short))).expect("ASCII");
        tally.equal((short, depth), printed, text);
    }
    // The unknown word breaks the property in frame 0, or the input of frame 0 does in frame 1; the
    // other inputs are free.
    let netlist = accepted(UNKNOWN_FULL_RUN);
    for (depth, models) in [(0, 2), (1, 6)] {
        let found = compare(&netlist, depth, Fault::None);
        tally.check("demand 3 of the full run, unknown start", found.holds());
        tally.equal("assignments, unknown start", found.models, models);
    }
    let netlist = accepted(FULL_RUN);
    for (first, second, first_break) in [(true, false, Some(1)), (false, true, None)] {
        let feeds = [first, second].map(|bit| Feed::new(vec![bit], 1));
        let run = Run::new(&netlist, &feeds);
        tally.equal("first frame that breaks", run.first_break, first_break);
    }
    for (depth, satisfiable) in [(0, false), (1, true)] {
        let found = compare(&netlist, depth, Fault::None);
        tally.check("demand 3 of the full run", found.holds());
        tally.equal("satisfiable", found.models > 0, satisfiable);
    }
}

/// Inputs 1 to 5 are address bits 0 and 1, write data, WE and RE; latches 6 and 7 exchange their
/// values; wire 8 is the read bit, and the property.
const MEMORY: &str = "N 5 2 0/M 2 1 1/L 14 1/L 12 0/A 2/A 4/D 6/C 8 10 16";

/// Inputs from 1 to 5, idle word, and the read bit that RULES C4, C17 and C18 give.
const MEMORY_FRAMES: [([u8; 5], u32, bool); 11] = [
    ([1, 0, 0, 1, 1], 0, true), // The start word: the read comes before this frame's write.
    ([1, 0, 1, 0, 1], 1, false), // The word written in frame 0; WE is false.
    ([0, 1, 1, 1, 1], 0, true), // Another address still has the start word.
    ([1, 0, 0, 0, 0], 0, true), // RE is false: the word of the frame before, whatever the address.
    ([1, 0, 1, 1, 0], 0, true), // RE is false: the same word again, and the write is done.
    ([1, 0, 0, 1, 1], 0, true), // The newest write of two.
    ([1, 0, 1, 0, 1], 1, false), // The newest write of three.
    ([1, 0, 1, 1, 0], 1, false), // RE is false: the word that was read, not the one written now.
    ([0, 1, 0, 0, 0], 1, false), // RE is false: the same word again.
    ([1, 0, 0, 0, 1], 0, true), // The word that was written while RE was false.
    ([1, 1, 0, 0, 1], 0, true), // An address never written.
];

/// Two runs that begin with idle frames, written down in the same way.
const IDLE_FRAMES: [([u8; 5], u32, bool); 4] = [
    ([1, 0, 1, 1, 0], 0, false), // RE is false in frame 0: the idle word, and the write is done.
    ([1, 0, 0, 0, 0], 1, false), // RE is false: the word of the frame before.
    ([1, 0, 0, 0, 1], 0, true),  // The word written in frame 0.
    ([0, 0, 0, 0, 0], 0, true),  // RE is false: the word of the frame before.
];

const OTHER_IDLE_FRAMES: [([u8; 5], u32, bool); 3] = [
    ([0, 0, 0, 1, 0], 1, true), // RE is false in frame 0: the idle word, and the write is done.
    ([0, 0, 0, 0, 0], 0, true), // RE is false: the word of the frame before.
    ([0, 0, 0, 0, 1], 1, false), // The word written in frame 0.
];

/// The same chip with an unknown start: inputs, fed word and read bit as above. The fed word counts
/// where a word is read first, if no frame wrote it.
const UNKNOWN_MEMORY: &str = "N 5 2 0/M 2 1/L 14 1/L 12 0/A 2/A 4/D 6/C 8 10 16";

const UNKNOWN_FRAMES: [([u8; 5], u32, bool); 11] = [
    ([1, 0, 0, 1, 1], 1, true), // Read first: the fed word, and the write is done behind the read.
    ([1, 0, 1, 0, 1], 1, false), // The word written in frame 0.
    ([0, 1, 1, 0, 1], 0, false), // Another address, read first.
    ([0, 1, 1, 0, 1], 1, false), // Read again: the same word.
    ([0, 0, 1, 1, 0], 1, false), // RE is false: the word held; address 0 is written unread.
    ([1, 1, 0, 0, 0], 1, false), // RE is false: the word held; address 3 is neither read nor written.
    ([0, 0, 0, 0, 1], 0, true),  // The word written in frame 4, not the fed one.
    ([1, 1, 0, 0, 1], 1, true),  // Address 3 is read first.
    ([0, 1, 1, 1, 1], 1, false), // Address 2 again, and now it is written.
    ([0, 1, 0, 0, 1], 0, true),  // The word written in frame 8.
    ([1, 1, 0, 0, 1], 0, true),  // Address 3 again.
];

/// Its starting memory, as far as the run shows it; address 0 is written before it is read.
const UNKNOWN_STARTS: [u32; 4] = [0, 1, 0, 1];

/// The words behind it.
const UNKNOWN_ENDS: [u32; 4] = [1, 0, 1, 1];

pub fn unknown_memory_run(tally: &mut Tally) {
    let netlist = accepted(UNKNOWN_MEMORY);
    let feeds: Vec<Feed> = UNKNOWN_FRAMES.iter().map(feed_of).collect();
    let run = Run::new(&netlist, &feeds);
    for (frame, (_, _, read_bit)) in UNKNOWN_FRAMES.iter().enumerate() {
        tally.equal(("frame", frame), run.frames[frame][8], *read_bit);
    }
    tally.equal("first frame that breaks", run.first_break, Some(1));
    tally.equal("words", run.words.as_slice(), &UNKNOWN_ENDS[..]);
    for first_word in [0, 1] {
        let mut memory = UNKNOWN_STARTS;
        memory[0] = first_word;
        let whole = Run::from_memory(&netlist, &memory, &feeds);
        tally.check("run from the whole memory", whole.frames == run.frames);
        tally.equal("its words", whole.words.as_slice(), &UNKNOWN_ENDS[..]);
    }
    for (address, word) in [(1, 0), (2, 1), (3, 0)] {
        let mut memory = UNKNOWN_STARTS;
        memory[address] = word;
        let whole = Run::from_memory(&netlist, &memory, &feeds);
        tally.check("run from another memory", whole.frames != run.frames);
    }
    // Words that are neither read nor written end as 0.
    let run = Run::new(&netlist, &feeds[..3]);
    tally.equal("words after frame 2", run.words, vec![0, 0, 0, 0]);
    let run = Run::new(&netlist, &feeds[..1]);
    tally.equal("words after frame 0", run.words, vec![0, 0, 0, 0]);
    let run = Run::new(&netlist, &feeds[7..8]);
    tally.equal("words after frame 7 alone", run.words, vec![0, 0, 0, 1]);
}

fn feed_of((inputs, idle_word, _): &([u8; 5], u32, bool)) -> Feed {
    Feed::new(inputs.map(|bit| bit == 1).to_vec(), *idle_word)
}

pub fn memory_run(tally: &mut Tally) {
    let netlist = accepted(MEMORY);
    for (frames, first_break) in [
        (&MEMORY_FRAMES[..], 1),
        (&IDLE_FRAMES, 0),
        (&OTHER_IDLE_FRAMES, 2),
    ] {
        let feeds: Vec<Feed> = frames.iter().map(feed_of).collect();
        let run = Run::new(&netlist, &feeds);
        for (frame, (_, _, read_bit)) in frames.iter().enumerate() {
            let even = frame % 2 == 0;
            let found = &run.frames[frame][6..];
            tally.equal(("frame", frame), found, &[even, !even, *read_bit]);
        }
        tally.equal(
            "first frame that breaks",
            run.first_break,
            Some(first_break),
        );
    }
}

/// The nine starred facts as K4 reissues them, the sentence on slices that follows them, and the
/// clauses of two more depths. At depth 2 the pairs of frame 2 have 10 and 12 clauses.
pub fn starred_facts(tally: &mut Tally) {
    let netlist = accepted(FULL_RUN);
    let pair = Group::Pair(0, 1);
    let numbers = Formula::new(&netlist, 1, Fault::None).group(pair);
    let ends = numbers.iter().filter(|number| **number == 0).count();
    let clauses_at = |depth| heading(&netlist, depth).map_or(0, |it| it.clauses);
    let rows = [
        ("B(0)", frame_base(&netlist, 0), 1),
        ("B(1)", frame_base(&netlist, 1), 3),
        ("B(2)", frame_base(&netlist, 2), 10),
        ("clauses of the pair", ends as i64, 10),
        ("its clauses counted", clause_count(&netlist, pair), 10),
        ("numbers of the pair", numbers.len() as i64, 31),
        ("its numbers counted", number_count(&netlist, 1, pair), 31),
        ("clauses at depth 0", clauses_at(0), 3),
        ("clauses at depth 1", clauses_at(1), 15),
        ("clauses at depth 2", clauses_at(2), 39),
    ];
    for (name, found, expected) in rows {
        tally.equal(name, found, expected);
    }
    let loops = read_sheet(&expand("N 1 0 0/M 1 1 0/A 4/D 2/C 1 1 5"), 600, 600);
    let count = |depth, group, room| group_call(&netlist, depth, group, room).map(|it| it.len());
    let rows = [
        ("address code 4", loops.map(|_| 0), Err((MEMORY_LOOP, 3))),
        ("depth 255", count(255, pair, 31), Ok(31)),
        ("depth 256", count(256, pair, 31), Err((DEPTH, 0))),
        (
            "pair (1, 1)",
            count(1, Group::Pair(1, 1), 31),
            Err((NO_SUCH_GROUP, 0)),
        ),
        ("slice of 31", count(1, pair, 31), Ok(31)),
        ("slice of 30", count(1, pair, 30), Err((NO_ROOM, 0))),
    ];
    for (name, found, expected) in rows {
        let expected = expected.map_err(|(number, place)| Refusal { number, place });
        tally.equal(name, found, expected);
    }
}

/// The largest number of variables (RULES V6), and the largest counts that follow from its limits.
pub fn largest_sizes(tally: &mut Tally) {
    let mut most = 0;
    for (wires, address_width) in (1..=600).flat_map(|v| (1..=12).map(move |m| (v, m))) {
        let netlist = of_sizes([wires - 1, 0, 0], [address_width, 1]);
        most = (0..=256)
            .map(|frame| frame_base(&netlist, frame))
            .fold(most, i64::max);
    }
    tally.equal("largest number of variables", most, 675_841);

    // Constants only take away, and the address needs wires that no read bit reaches: with a latch
    // there are the most numbers, with a gate of constants the most clauses.
    let widest = without_constants([0, 1, 567], [12, 32]);
    let mut most_clauses = without_constants([0, 0, 568], [12, 32]);
    most_clauses.gates[0] = Gate { left: 0, right: 0 };
    let clean = 2 * most_clauses.first_gate();
    for gate in &mut most_clauses.gates[1..12] {
        (gate.left, gate.right) = (clean, clean);
    }
    most_clauses.read_enable = clean;
    let [mut widest_unknown, mut most_unknown] = [widest.clone(), most_clauses.clone()];
    widest_unknown.unknown_start = 1;
    most_unknown.unknown_start = 1;
    let mut most_gates = of_sizes([0, 0, 599], [1, 1]);
    most_gates.gates.fill(Gate { left: 2, right: 2 });
    let needs = [
        (&most_gates, Group::Wires(0), 5_992),
        (&widest, Group::Pair(254, 255), 492),
        (&widest, Group::Pair(0, 255), 492),
        (&widest, Group::Closing(0), 99),
        (&widest, Group::Closing(255), 610),
        (&widest, Group::Property, 257),
        (&widest_unknown, Group::Pair(254, 255), 876),
        (&widest_unknown, Group::Pair(0, 255), 876),
        (&widest_unknown, Group::Closing(0), 3),
        (&widest_unknown, Group::Closing(255), 514),
    ];
    for (netlist, group, need) in needs {
        let written = group_call(netlist, 255, group, need).map(|numbers| numbers.len());
        tally.equal(group, written, Ok(need));
    }
    for (netlist, clauses) in [
        (&widest, 4_442_817),
        (&most_clauses, 4_442_818),
        (&widest_unknown, 6_523_585),
        (&most_unknown, 6_523_586),
    ] {
        let expected = Heading {
            variables: 675_841,
            clauses,
        };
        tally.equal("largest heading", heading(netlist, 255), Ok(expected));
    }
    for (netlist, expected) in [(&widest, 17_635_455), (&widest_unknown, 30_144_639)] {
        let formula = Formula::new(netlist, 255, Fault::None);
        let groups = formula.groups();
        let numbers: usize = groups.iter().map(|group| formula.group(*group).len()).sum();
        tally.equal("numbers at the largest sizes", numbers, expected);
    }
}
