//! K10 by hand: T sheets, their records, groups, positions, runs and replays.

use super::agreement::compare;
use super::answer::replay;
use super::answer_calls::Call;
use super::check_answers::satisfiable;
use super::check_examples::{accepted, bytes_of, input, of_sizes, FULL_RUN, RICH};
use super::check_position::position_of;
use super::check_refusals::{largest_sheet, verdict, Row, Verdict, ACCEPTED, RECORDS};
use super::circuit::{Circuit, Feed, Run};
use super::formula::{
    counts, frame_base, frames, group_call, heading, pair_base, pair_base_of, port_group_call,
    refusal_text, Fault, Formula, Group, Heading, PortGroup,
};
use super::netlist::{Gate, Kind, Latch, Netlist, FIRST_PORT, SECOND_PORT};
use super::position::{start, FrameGroup};
use super::refusal::*;
use super::sheet::{
    expand, read_line, read_sheet, write_back, write_depth, write_sheet, LINE_BYTES,
};
use super::Tally;

/// No code is a constant. Wires: inputs 1 to 6, which are first address, second address, write data, WE,
/// RE and second RE; read bits 7 and 8; gate 9, the property's opposite: the first port reads 1 and the
/// second 0.
pub const TWO_READS: &str = "N 6 0 1/T 1 1 1/G 14 17/A 2/D 6/B 4/R 12/C 8 10 19";

/// Its text at depth 1, worked out by hand. The wires of the frames are 2 to 10 and 11 to 19; the pair
/// (0, 1) is 20 to 24 for the first port and 25 to 29 for the second.
const TWO_READS_TEXT: [&str; 10] = [
    "p cnf 29 52\n",
    // Frame 0: wires, closings.
    "1 0\n-10 8 0\n-10 -9 0\n10 -8 9 0\n",
    "-6 8 0\n-6 6 0\n",
    "-7 9 0\n-7 7 0\n",
    // Frame 1: wires, pairs, closings.
    "-19 17 0\n-19 -18 0\n19 -17 18 0\n",
    "-20 2 -11 0\n-20 -2 11 0\n21 2 11 0\n21 -2 -11 0\n-21 20 0\n\
     -22 20 0\n-22 5 0\n22 -20 -5 0\n-23 -22 0\n-23 15 0\n23 22 -15 0\n\
     -24 22 0\n-24 15 0\n24 -22 -15 0\n-24 -17 4 0\n-24 17 -4 0\n",
    // The first address of frame 0, which is 2, against the second of frame 1, which is 12.
    "-25 2 -12 0\n-25 -2 12 0\n26 2 12 0\n26 -2 -12 0\n-26 25 0\n\
     -27 25 0\n-27 5 0\n27 -25 -5 0\n-28 -27 0\n-28 16 0\n28 27 -16 0\n\
     -29 27 0\n-29 16 0\n29 -27 -16 0\n-29 -18 4 0\n-29 18 -4 0\n",
    "-23 17 0\n15 -17 8 0\n15 17 -8 0\n-15 23 24 0\n",
    "-28 18 0\n16 -18 9 0\n16 18 -9 0\n-16 28 29 0\n",
    // Property.
    "10 19 0\n",
];

/// Its text at depth 0.
const TWO_READS_DEPTH_0: &str = "\
p cnf 10 9
1 0
-10 8 0
-10 -9 0
10 -8 9 0
-6 8 0
-6 6 0
-7 9 0
-7 7 0
10 0
";

/// The sheet of the full run with a second port that reads address 1, which is never written: the bits
/// compared are two different constants. Wires: input 1, read bits 2 and 3.
pub const CONSTANT_READS: &str = "N 1 0 0/T 1 1 0/A 0/D 2/B 1/R 1/C 1 1 5";

/// Its text at depth 1. The wires of the frames are 2 to 4 and 5 to 7; the pair (0, 1) is 8 to 12 for
/// the first port and 13 to 17 for the second.
const CONSTANT_READS_TEXT: [&str; 8] = [
    "p cnf 17 28\n1 0\n",
    "-3 0\n",
    "-4 0\n",
    "9 0\n-9 8 0\n-10 8 0\n10 -8 0\n-11 -10 0\n11 10 0\n-12 10 0\n12 -10 0\n-12 -6 2 0\n-12 6 -2 0\n",
    "-13 0\n-14 13 0\n-15 13 0\n15 -13 0\n-16 -15 0\n16 15 0\n-17 15 0\n17 -15 0\n-17 -7 2 0\n-17 7 -2 0\n",
    "-11 -6 0\n11 12 0\n",
    "-16 -7 0\n16 17 0\n",
    "3 6 0\n",
];

/// Every kind of line, two bits in both widths, and one constant in the second address. Wires: input 1,
/// latch 2, read bits 3 and 4 of the first port, 5 and 6 of the second, gate 7.
pub const TWO_RICH: &str = "N 1 1 1/T 2 2 2/L 14 1/G 2 13/A 4/A 3/D 14/D 8/B 3/B 1/R 4/C 15 5 11";

/// Its text at depth 2, worked out by hand: it settles how Q steps in j, the order of ports and pairs,
/// and that N is the port's own PS. The wires of the frames are 2 to 8, 9 to 15 and 28 to 34. Pairs of
/// the first and the second port: (0, 1) is 16 to 21 and 22 to 27, (0, 2) is 35 to 40 and 41 to 46,
/// (1, 2) is 47 to 52 and 53 to 58.
const TWO_RICH_TEXT: [&str; 17] = [
    "p cnf 58 176\n",
    // Frame 0: wires, closings.
    "1 0\n3 0\n-8 2 0\n-8 -7 0\n8 -2 7 0\n",
    "3 -4 0\n3 5 0\n3 -3 0\n",
    "-3 -6 0\n-3 7 0\n-3 3 0\n",
    // Frame 1: wires, pair (0, 1) of each port, closings.
    "-10 8 0\n10 -8 0\n-15 9 0\n-15 -14 0\n15 -9 14 0\n",
    "-16 3 -10 0\n-16 -3 10 0\n17 3 10 0\n17 -3 -10 0\n\
     -16 -2 9 0\n-16 2 -9 0\n18 -2 -9 0\n18 2 9 0\n-17 -18 16 0\n\
     -19 16 0\n-19 -8 0\n19 -16 8 0\n-20 -19 0\n-20 -10 0\n20 19 10 0\n\
     -21 19 0\n-21 -10 0\n21 -19 10 0\n\
     -21 -11 8 0\n-21 11 -8 0\n-21 -12 5 0\n-21 12 -5 0\n",
    "-22 3 9 0\n-22 -3 -9 0\n23 3 -9 0\n23 -3 9 0\n-22 -2 0\n24 2 0\n-23 -24 22 0\n\
     -25 22 0\n-25 -8 0\n25 -22 8 0\n-26 -25 0\n-26 10 0\n26 25 -10 0\n\
     -27 25 0\n-27 10 0\n27 -25 -10 0\n\
     -27 -13 8 0\n-27 13 -8 0\n-27 -14 5 0\n-27 14 -5 0\n",
    "-20 -11 0\n-20 12 0\n-10 -11 4 0\n-10 11 -4 0\n-10 -12 5 0\n-10 12 -5 0\n10 20 21 0\n",
    "-26 -13 0\n-26 14 0\n10 -13 6 0\n10 13 -6 0\n10 -14 7 0\n10 14 -7 0\n-10 26 27 0\n",
    // Frame 2: wires, pair (1, 2) of each port, pair (0, 2) of each port, closings.
    "-29 15 0\n29 -15 0\n-34 28 0\n-34 -33 0\n34 -28 33 0\n",
    "-47 10 -29 0\n-47 -10 29 0\n48 10 29 0\n48 -10 -29 0\n\
     -47 -9 28 0\n-47 9 -28 0\n49 -9 -28 0\n49 9 28 0\n-48 -49 47 0\n\
     -50 47 0\n-50 -15 0\n50 -47 15 0\n-51 -50 0\n-51 -29 0\n51 50 29 0\n\
     -52 50 0\n-52 -29 0\n52 -50 29 0\n\
     -52 -30 15 0\n-52 30 -15 0\n-52 -31 12 0\n-52 31 -12 0\n",
    "-53 10 28 0\n-53 -10 -28 0\n54 10 -28 0\n54 -10 28 0\n-53 -9 0\n55 9 0\n-54 -55 53 0\n\
     -56 53 0\n-56 -15 0\n56 -53 15 0\n-57 -56 0\n-57 29 0\n57 56 -29 0\n\
     -58 56 0\n-58 29 0\n58 -56 -29 0\n\
     -58 -32 15 0\n-58 32 -15 0\n-58 -33 12 0\n-58 33 -12 0\n",
    "-35 3 -29 0\n-35 -3 29 0\n36 3 29 0\n36 -3 -29 0\n\
     -35 -2 28 0\n-35 2 -28 0\n37 -2 -28 0\n37 2 28 0\n-36 -37 35 0\n\
     -38 35 0\n-38 -8 0\n38 -35 8 0\n-39 -38 0\n-39 51 0\n39 38 -51 0\n\
     -40 38 0\n-40 51 0\n40 -38 -51 0\n\
     -40 -30 8 0\n-40 30 -8 0\n-40 -31 5 0\n-40 31 -5 0\n",
    "-41 3 28 0\n-41 -3 -28 0\n42 3 -28 0\n42 -3 28 0\n-41 -2 0\n43 2 0\n-42 -43 41 0\n\
     -44 41 0\n-44 -8 0\n44 -41 8 0\n-45 -44 0\n-45 57 0\n45 44 -57 0\n\
     -46 44 0\n-46 57 0\n46 -44 -57 0\n\
     -46 -32 8 0\n-46 32 -8 0\n-46 -33 5 0\n-46 33 -5 0\n",
    "-39 -30 0\n-39 31 0\n-29 -30 11 0\n-29 30 -11 0\n-29 -31 12 0\n-29 31 -12 0\n29 39 40 52 0\n",
    "-45 -32 0\n-45 33 0\n29 -32 13 0\n29 32 -13 0\n29 -33 14 0\n29 33 -14 0\n-29 45 46 58 0\n",
    // Property.
    "6 13 32 0\n",
];

/// Depth, sheet and text of the runs that were worked out by hand.
pub fn two_port_runs() -> [(u32, &'static str, String); 4] {
    [
        (1, TWO_READS, TWO_READS_TEXT.concat()),
        (0, TWO_READS, TWO_READS_DEPTH_0.to_string()),
        (1, CONSTANT_READS, CONSTANT_READS_TEXT.concat()),
        (2, TWO_RICH, TWO_RICH_TEXT.concat()),
    ]
}

pub fn texts(tally: &mut Tally) {
    for (depth, short, text) in two_port_runs() {
        let printed = frames(&input(depth, short));
        let printed = String::from_utf8(printed).expect("ASCII");
        tally.equal((short, depth), printed, text);
    }
    // `CONSTANT_READS`: what is written in a frame reaches the first port in the next, and the second
    // never; the last input is free and all e are settled. `TWO_READS` at depth 0: each port's word is
    // the start word where it reads, so it breaks where the second port is idle with 0 and the first
    // reads or is idle with 1; four inputs are free.
    for (short, depth, models) in [
        (CONSTANT_READS, 0, 0),
        (CONSTANT_READS, 1, 2),
        (CONSTANT_READS, 2, 6),
        (TWO_READS, 0, 32),
    ] {
        let found = compare(&accepted(short), depth, Fault::None);
        tally.check((short, depth, "demand 3"), found.holds());
        tally.equal((short, depth, "assignments"), found.models, models);
    }
    numbering_by_hand(tally);
}

/// B and Q, by their formulas with 2(m + 4) for m + 4.
fn numbering_by_hand(tally: &mut Tally) {
    let netlist = accepted(TWO_READS);
    let bases = [1, 10, 29, 58, 97];
    for (frame, base) in bases.iter().enumerate() {
        tally.equal(("B", frame), frame_base(&netlist, frame as u32), *base);
    }
    let rows = [
        // j, i, Q of the first port, Q of the second.
        (0, 1, 19, 24),
        (0, 2, 38, 43),
        (1, 2, 48, 53),
        (0, 3, 67, 72),
        (1, 3, 77, 82),
        (2, 3, 87, 92),
    ];
    for (j, i, first, second) in rows {
        tally.equal((j, i), pair_base(&netlist, j, i), first);
        tally.equal((j, i, 1), pair_base_of(&netlist, FIRST_PORT, j, i), first);
        tally.equal((j, i, 2), pair_base_of(&netlist, SECOND_PORT, j, i), second);
    }
    // 1 + 255 * 9 + 10 * 255 * 254 / 2.
    tally.equal("B(255)", frame_base(&netlist, 255), 326_146);
    let order = |port: u32, group: Group| PortGroup { port, group };
    let expected = vec![
        order(1, Group::Wires(0)),
        order(1, Group::Closing(0)),
        order(2, Group::Closing(0)),
        order(1, Group::Wires(1)),
        order(1, Group::Pair(0, 1)),
        order(2, Group::Pair(0, 1)),
        order(1, Group::Closing(1)),
        order(2, Group::Closing(1)),
        order(1, Group::Wires(2)),
        order(1, Group::Pair(1, 2)),
        order(2, Group::Pair(1, 2)),
        order(1, Group::Pair(0, 2)),
        order(2, Group::Pair(0, 2)),
        order(1, Group::Closing(2)),
        order(2, Group::Closing(2)),
        order(1, Group::Property),
    ];
    let found = Formula::new(&netlist, 2, Fault::None).port_groups();
    tally.equal("order of the whole", found, expected);
}

/// Whole sheets as short forms. `N 1 0 0/T 1 1 0`: V = 3, so codes go to 7; the first port's read bit is
/// 4 and 5, the second's 6 and 7; lines A 3, D 4, B 5, R 6, C 7.
#[rustfmt::skip]
const SHEETS: [(&str, Verdict); 124] = [
    (TWO_READS, ACCEPTED),
    (CONSTANT_READS, ACCEPTED),
    (TWO_RICH, ACCEPTED),
    ("N 1 0 0/T 1 1 0/A 0/D 2/B 0/R 1/C 1 1 5", ACCEPTED),
    ("N 0 0 0/T 1 1 0/A 0/D 0/B 0/R 0/C 0 0 0", ACCEPTED),
    ("N 0 0 0/T 1 1 1/A 1/D 5/B 1/R 1/C 5 1 4", ACCEPTED),
    // A line missing at the end: one past the last.
    ("N 1 0 0/T 1 1 0", (OUT_OF_ORDER, 3)),
    ("N 1 0 0/T 1 1 0/A 0", (OUT_OF_ORDER, 4)),
    ("N 1 0 0/T 1 1 0/A 0/D 2", (OUT_OF_ORDER, 5)),
    ("N 1 0 0/T 1 1 0/A 0/D 2/B 0", (OUT_OF_ORDER, 6)),
    ("N 1 0 0/T 1 1 0/A 0/D 2/B 0/R 1", (OUT_OF_ORDER, 7)),
    // A line missing before others: the line in its place is not the line due.
    ("T 1 1 0/A 0/D 2/B 0/R 1/C 1 1 5", (OUT_OF_ORDER, 1)),
    ("N 1 0 0/A 0/D 2/B 0/R 1/C 1 1 5", (OUT_OF_ORDER, 2)),
    ("N 1 0 0/T 1 1 0/D 2/B 0/R 1/C 1 1 5", (OUT_OF_ORDER, 3)),
    ("N 1 0 0/T 1 1 0/A 0/B 0/R 1/C 1 1 5", (OUT_OF_ORDER, 4)),
    ("N 1 0 0/T 1 1 0/A 0/D 2/R 1/C 1 1 5", (OUT_OF_ORDER, 5)),
    ("N 1 0 0/T 1 1 0/A 0/D 2/B 0/C 1 1 5", (OUT_OF_ORDER, 6)),
    ("N 1 0 0/T 1 1 0/A 0/D 2/C 1 1 5", (OUT_OF_ORDER, 5)),
    ("N 1 0 0/T 2 1 0/A 0/A 2/D 2/B 0/R 1/C 1 1 5", (OUT_OF_ORDER, 7)),
    ("N 1 0 0/T 2 1 0/A 0/D 2/B 0/B 0/R 1/C 1 1 5", (OUT_OF_ORDER, 4)),
    // Another order, and lines of the other kind of sheet.
    ("N 1 0 0/T 1 1 0/A 0/D 2/C 1 1 5/B 0/R 1", (OUT_OF_ORDER, 5)),
    ("N 1 0 0/T 1 1 0/A 0/B 0/D 2/R 1/C 1 1 5", (OUT_OF_ORDER, 4)),
    ("N 1 0 0/T 1 1 0/A 0/D 2/R 1/B 0/C 1 1 5", (OUT_OF_ORDER, 5)),
    ("N 1 0 0/T 1 1 0/B 0/D 2/A 0/R 1/C 1 1 5", (OUT_OF_ORDER, 3)),
    ("N 1 0 0/M 1 1 0/A 0/D 2/B 0/R 1/C 1 1 5", (OUT_OF_ORDER, 5)),
    ("N 1 0 0/M 1 1 0/A 0/D 2/R 1/C 1 1 5", (OUT_OF_ORDER, 5)),
    ("N 1 0 0/M 1 1 0/A 0/D 2/C 1 1 5/B 0", (OUT_OF_ORDER, 6)),
    ("N 1 0 0/M 1 1 0/A 0/D 2/C 1 1 5/R 0", (OUT_OF_ORDER, 6)),
    ("N 1 0 0/M 1 1 0/B 0/D 2/C 1 1 5", (OUT_OF_ORDER, 3)),
    ("N 1 0 0/M 1 1 0/A 0/R 2/C 1 1 5", (OUT_OF_ORDER, 4)),
    ("N 1 0 0/M 1 1 0/T 1 1 0", (OUT_OF_ORDER, 3)),
    ("N 1 0 0/T 1 1 0/M 1 1 0", (OUT_OF_ORDER, 3)),
    ("N 1 0 0/T 1 1 0/T 1 1 0", (OUT_OF_ORDER, 3)),
    ("N 1 0 0/B 0", (OUT_OF_ORDER, 2)),
    ("N 1 0 0/R 0", (OUT_OF_ORDER, 2)),
    ("B 0", (OUT_OF_ORDER, 1)),
    // Too many lines; a misprint comes before that, a code after.
    ("N 1 0 0/T 1 1 0/A 0/A 0/D 2/B 0/R 1/C 1 1 5", (OUT_OF_ORDER, 4)),
    ("N 1 0 0/T 1 1 0/A 0/D 2/B 0/B 0/R 1/C 1 1 5", (OUT_OF_ORDER, 6)),
    ("N 1 0 0/T 1 1 0/A 0/D 2/B 0/R 1/R 1/C 1 1 5", (OUT_OF_ORDER, 7)),
    ("N 1 0 0/T 1 1 0/A 0/D 2/B 0/R 1/C 1 1 5/C 1 1 5", (OUT_OF_ORDER, 8)),
    ("N 1 0 0/T 1 1 0/A 0/D 2/B 0/R 1/C 1 1 5/R 99", (OUT_OF_ORDER, 8)),
    ("N 1 0 0/T 1 1 0/A 0/D 2/B 0/R 1/C 1 1 5/R 1 1", (MISPRINT, 8)),
    ("N 1 0 0/T 1 1 0/A 0/D 2/B 0/B 99/R 1/C 1 1 5", (OUT_OF_ORDER, 6)),
    // Fields: T's are M's, those of B and R are A's.
    ("N 1 0 0/T 1  0/A 0/D 2/B 0/R 1/C 1 1 5", (MISPRINT, 2)),
    ("N 1 0 0/T  1 0/A 0/D 2/B 0/R 1/C 1 1 5", (MISPRINT, 2)),
    ("N 1 0 0/T 1/A 0/D 2/B 0/R 1/C 1 1 5", (MISPRINT, 2)),
    ("N 1 0 0/T/A 0/D 2/B 0/R 1/C 1 1 5", (MISPRINT, 2)),
    ("N 1 0 0/T 1 1 00/A 0/D 2/B 0/R 1/C 1 1 5", (MISPRINT, 2)),
    ("N 1 0 0/T 1 1 4294967296/A 0/D 2/B 0/R 1/C 1 1 5", (MISPRINT, 2)),
    ("N 1 0 0/T 1 1 0/A 0/D 2/B/R 1/C 1 1 5", (MISPRINT, 5)),
    ("N 1 0 0/T 1 1 0/A 0/D 2/B 0 0/R 1/C 1 1 5", (MISPRINT, 5)),
    ("N 1 0 0/T 1 1 0/A 0/D 2/B 0  0/R 1/C 1 1 5", (MISPRINT, 5)),
    ("N 1 0 0/T 1 1 0/A 0/D 2/B  0/R 1/C 1 1 5", (MISPRINT, 5)),
    ("N 1 0 0/T 1 1 0/A 0/D 2/B 0/R/C 1 1 5", (MISPRINT, 6)),
    ("N 1 0 0/T 1 1 0/A 0/D 2/B 0/R 1 1/C 1 1 5", (MISPRINT, 6)),
    ("N 1 0 0/T 1 1 0/A 0/D 2/B 0/R 1  1/C 1 1 5", (MISPRINT, 6)),
    ("N 1 0 0/t 1 1 0/A 0/D 2/B 0/R 1/C 1 1 5", (MISPRINT, 2)),
    ("N 1 0 0/T 1 1 0/A 0/D 2/b 0/R 1/C 1 1 5", (MISPRINT, 5)),
    ("N 1 0 0/T 1 1 0/A 0/D 2/B 0/r 1/C 1 1 5", (MISPRINT, 6)),
    // Judged by the letter on the line: C's fields under R or B, R's fields under C.
    ("N 1 0 0/T 1 1 0/A 0/D 2/B 0/C 1/C 1 1 5", (MISPRINT, 6)),
    ("N 1 0 0/T 1 1 0/A 0/D 2/B 0/R 1/R 1 1 5", (MISPRINT, 7)),
    ("N 1 0 0/T 1 1 0/A 0/D 2/T 1 1/R 1/C 1 1 5", (OUT_OF_ORDER, 5)),
    ("N 1 0 0/T 1 1 0/A 0/D 2/T 1/R 1/C 1 1 5", (MISPRINT, 5)),
    // Sizes. An empty start field is 4, with whatever else this line has; line 1 and misprints come first.
    ("N 1 0 0/T 1 1/A 0/D 2/B 0/R 1/C 1 1 5", (SIZE, 2)),
    ("N 1 0 0/T 1 1", (SIZE, 2)),
    ("N 1 0 0/T 0 1", (SIZE, 2)),
    ("N 1 0 0/T 1 1/?", (SIZE, 2)),
    ("N 1 0 0/T 12 32", (SIZE, 2)),
    ("N 600 600 600/T 1 1", (SIZE, 2)),
    ("N 600 600 600/T 1", (MISPRINT, 2)),
    ("N 601 0 0/T 1 1", (SIZE, 1)),
    ("T 1 1", (OUT_OF_ORDER, 1)),
    ("N 1 0 0/M 1 1 0/T 1 1", (OUT_OF_ORDER, 3)),
    ("N 1 0 0/T 1 1 2/A 0/D 2/B 0/R 1/C 1 1 5", (SIZE, 2)),
    // V is I + L + 2n + A.
    ("N 598 0 0/T 1 1 0/A 0/D 2/B 0/R 1/C 1 1 5", ACCEPTED),
    ("N 599 0 0/T 1 1 0/A 0/D 2/B 0/R 1/C 1 1 5", (SIZE, 2)),
    ("N 597 0 0/T 1 2 0/A 0/D 2/D 2/B 0/R 1/C 1 1 5", (SIZE, 2)),
    ("N 596 0 0/T 1 2 0/A 0/D 2/D 2/B 0/R 1/C 1 1 5", ACCEPTED),
    ("N 600 0 0/T 1 1 0", (SIZE, 2)),
    ("N 0 599 0/T 1 1 0", (SIZE, 2)),
    ("N 0 0 599/T 1 1 0", (SIZE, 2)),
    ("N 598 0 0/T 1 1 0/A 1196/D 1201/B 2/R 1197/C 1201 1 1200", ACCEPTED),
    ("N 598 0 0/T 1 1 0/A 1196/D 1202/B 2/R 1197/C 1201 1 1200", (CODE, 4)),
    // Codes.
    ("N 1 0 0/T 1 1 0/A 8/D 2/B 0/R 1/C 1 1 5", (CODE, 3)),
    ("N 1 0 0/T 1 1 0/A 0/D 7/B 0/R 1/C 7 1 7", ACCEPTED),
    ("N 1 0 0/T 1 1 0/A 0/D 8/B 0/R 1/C 1 1 5", (CODE, 4)),
    ("N 1 0 0/T 1 1 0/A 0/D 2/B 8/R 1/C 1 1 5", (CODE, 5)),
    ("N 1 0 0/T 1 1 0/A 0/D 2/B 4294967295/R 1/C 1 1 5", (CODE, 5)),
    ("N 1 0 0/T 1 1 0/A 0/D 2/B 0/R 8/C 1 1 5", (CODE, 6)),
    ("N 1 0 0/T 1 1 0/A 0/D 2/B 0/R 1/C 1 1 8", (CODE, 7)),
    ("N 1 0 0/T 1 1 0/A 0/D 2/B 8/R 8/C 8 8 8", (CODE, 5)),
    ("N 1 0 0/T 1 1 0/A 0/D 2/B 0/R 8/?", (CODE, 6)),
    ("N 1 0 1/T 1 1 0/G 7 7/A 0/D 2/B 0/R 1/C 1 1 5", ACCEPTED),
    ("N 1 0 1/T 1 1 0/G 8 0/A 0/D 2/B 0/R 1/C 1 1 5", (CODE, 3)),
    // Dependence on a read bit of either port, at the first A or B line, else at R, else at C.
    ("N 1 0 0/T 1 1 0/A 4/D 2/B 0/R 1/C 1 1 5", (MEMORY_LOOP, 3)),
    ("N 1 0 0/T 1 1 0/A 7/D 2/B 0/R 1/C 1 1 5", (MEMORY_LOOP, 3)),
    ("N 1 0 0/T 1 1 0/A 0/D 2/B 5/R 1/C 1 1 5", (MEMORY_LOOP, 5)),
    ("N 1 0 0/T 1 1 0/A 0/D 2/B 6/R 1/C 1 1 5", (MEMORY_LOOP, 5)),
    ("N 1 0 0/T 1 1 0/A 0/D 2/B 0/R 4/C 1 1 5", (MEMORY_LOOP, 6)),
    ("N 1 0 0/T 1 1 0/A 0/D 2/B 0/R 7/C 1 1 5", (MEMORY_LOOP, 6)),
    ("N 1 0 0/T 1 1 0/A 0/D 2/B 0/R 1/C 1 5 5", (MEMORY_LOOP, 7)),
    ("N 1 0 0/T 1 1 0/A 0/D 2/B 0/R 1/C 1 6 5", (MEMORY_LOOP, 7)),
    ("N 1 0 0/T 1 1 0/A 6/D 2/B 4/R 4/C 1 6 5", (MEMORY_LOOP, 3)),
    ("N 1 0 0/T 1 1 0/A 0/D 2/B 4/R 4/C 1 6 5", (MEMORY_LOOP, 5)),
    ("N 1 0 0/T 1 1 0/A 0/D 2/B 0/R 4/C 1 6 5", (MEMORY_LOOP, 6)),
    ("N 1 0 0/T 1 1 0/A 2/D 6/B 2/R 2/C 4 2 6", ACCEPTED),
    ("N 1 0 0/T 1 1 0/A 0/D 2/B 0/R 4/C 1 1 8", (CODE, 7)),
    ("N 1 0 0/T 1 1 0/A 0/D 2/B 4/R 1", (OUT_OF_ORDER, 7)),
    // By wiring through gates, not through latches.
    ("N 1 0 1/T 1 1 0/G 6 0/A 8/D 2/B 0/R 1/C 1 1 5", (MEMORY_LOOP, 4)),
    ("N 1 0 1/T 1 1 0/G 6 0/A 0/D 2/B 9/R 1/C 1 1 5", (MEMORY_LOOP, 6)),
    ("N 1 0 1/T 1 1 0/G 4 5/A 0/D 2/B 0/R 8/C 1 1 5", (MEMORY_LOOP, 7)),
    ("N 1 0 1/T 1 1 0/G 0 7/A 0/D 2/B 0/R 1/C 1 8 5", (MEMORY_LOOP, 8)),
    ("N 1 0 1/T 1 1 0/G 2 2/A 8/D 2/B 8/R 9/C 1 8 5", ACCEPTED),
    ("N 0 1 0/T 1 1 0/L 6 0/A 2/D 4/B 3/R 2/C 1 2 5", ACCEPTED),
    // Ties bind each port: lines A 3 and 4, D 5, B 6 and 7, R 8, C 9; read bits are 6 to 9.
    ("N 2 0 0/T 2 1 0/A 2/A 4/D 2/B 2/B 4/R 1/C 1 1 5", ACCEPTED),
    ("N 2 0 0/T 2 1 0/A 2/A 4/D 2/B 5/B 3/R 1/C 1 1 5", ACCEPTED),
    ("N 2 0 0/T 2 1 0/A 2/A 3/D 2/B 2/B 4/R 1/C 1 1 5", (TIED_ADDRESS, 4)),
    ("N 2 0 0/T 2 1 0/A 2/A 4/D 2/B 2/B 3/R 1/C 1 1 5", (TIED_ADDRESS, 7)),
    ("N 2 0 0/T 2 1 0/A 2/A 2/D 2/B 4/B 4/R 1/C 1 1 5", (TIED_ADDRESS, 4)),
    ("N 2 0 0/T 2 1 0/A 0/A 1/D 2/B 1/B 1/R 1/C 1 1 5", ACCEPTED),
    // Before 6, whichever line that has, and behind all else.
    ("N 2 0 0/T 2 1 0/A 6/A 4/D 2/B 2/B 3/R 1/C 1 1 5", (TIED_ADDRESS, 7)),
    ("N 2 0 0/T 2 1 0/A 2/A 4/D 2/B 8/B 9/R 6/C 1 6 5", (TIED_ADDRESS, 7)),
    ("N 2 0 0/T 2 1 0/A 2/A 4/D 2/B 2/B 2/R 1/C 1 1 10", (CODE, 9)),
    ("N 2 0 0/T 2 1 0/A 2/A 4/D 2/B 2/B 2/R 1", (OUT_OF_ORDER, 9)),
];

/// m, n, start word, and the verdict on a sheet of constants with this T line.
const MEMORIES: [(u32, u32, &str, Verdict); 20] = [
    (0, 1, "0", (SIZE, 2)),
    (1, 1, "0", ACCEPTED),
    (12, 1, "0", ACCEPTED),
    (13, 1, "0", (SIZE, 2)),
    (u32::MAX, 1, "0", (SIZE, 2)),
    (1, 0, "0", (SIZE, 2)),
    (1, 32, "0", ACCEPTED),
    (12, 32, "4294967295", ACCEPTED),
    (1, 33, "0", (SIZE, 2)),
    (1, u32::MAX, "0", (SIZE, 2)),
    (1, 2_147_483_648, "0", (SIZE, 2)),
    (1, 1, "1", ACCEPTED),
    (1, 1, "2", (SIZE, 2)),
    (1, 31, "2147483648", (SIZE, 2)),
    (1, 32, "4294967296", (MISPRINT, 2)),
    (1, 1, "", (SIZE, 2)),
    (12, 32, "", (SIZE, 2)),
    (0, 1, "", (SIZE, 2)),
    (13, 33, "", (SIZE, 2)),
    (0, 33, "4294967296", (MISPRINT, 2)),
];

/// The tables above.
pub fn two_port_sheet_rows() -> Vec<Row> {
    let mut rows = Vec::new();
    let mut add = |short: String, expected| rows.push((short.clone(), expand(&short), expected));
    for (short, expected) in SHEETS {
        add(short.to_string(), expected);
    }
    for (m, n, start, expected) in MEMORIES {
        let lines = |letter: &str, count: u32| format!("/{letter} 0").repeat(count as usize);
        let (addresses, data) = (lines("A", m.min(13)), lines("D", n.min(33)));
        let second = lines("B", m.min(13));
        let short = format!("N 0 0 0/T {m} {n} {start}{addresses}{data}{second}/R 0/C 0 0 0");
        add(short, expected);
    }
    rows
}

/// The largest sheet: 627 lines, 20,064 bytes. n = 1, so that only two wires are read bits.
pub fn largest_two_port_sheet() -> Vec<u8> {
    write_sheet(&two_of_sizes([0, 298, 300], [12, 1]))
}

/// A T netlist of given sizes in which every code, reset and start bit is 0.
pub fn two_of_sizes(counts: [u32; 3], widths: [u32; 2]) -> Netlist {
    Netlist {
        two_ports: 1,
        ..of_sizes(counts, widths)
    }
}

/// Refusal 1 and the largest sheets of both kinds.
pub fn two_port_length_rows() -> Vec<Row> {
    let small = expand(FULL_RUN);
    let line = small[small.len() - LINE_BYTES..].to_vec();
    let misprint = [b'?'; LINE_BYTES];
    let (one, two) = (largest_sheet(), largest_two_port_sheet());
    let last_line = two[two.len() - LINE_BYTES..].to_vec();
    let rows = [
        ("largest of one port", one.clone(), ACCEPTED),
        ("largest of two ports", two.clone(), ACCEPTED),
        (
            "one port, a line over",
            [&one[..], &line].concat(),
            (OUT_OF_ORDER, 616),
        ),
        (
            "one port, a misprint over",
            [&one[..], &misprint].concat(),
            (MISPRINT, 616),
        ),
        (
            "one port, 627 lines",
            [&one[..], &line.repeat(12)].concat(),
            (OUT_OF_ORDER, 616),
        ),
        (
            "one port, 628 lines",
            [&one[..], &line.repeat(13)].concat(),
            (RAGGED, 0),
        ),
        (
            "one port, a byte over",
            [&one[..], b"\n"].concat(),
            (RAGGED, 0),
        ),
        (
            "two ports, a line over",
            [&two[..], &last_line].concat(),
            (RAGGED, 0),
        ),
        (
            "two ports, a byte over",
            [&two[..], b"\n"].concat(),
            (RAGGED, 0),
        ),
        (
            "two ports, a byte short",
            two[..two.len() - 1].to_vec(),
            (RAGGED, 0),
        ),
        (
            "two ports, a line short",
            two[..two.len() - LINE_BYTES].to_vec(),
            (OUT_OF_ORDER, 627),
        ),
        (
            "627 lines, 5 due",
            [&small[..], &line.repeat(622)].concat(),
            (OUT_OF_ORDER, 6),
        ),
        ("628 misprints", misprint.repeat(628), (RAGGED, 0)),
        ("627 misprints", misprint.repeat(627), (MISPRINT, 1)),
        ("empty", Vec::new(), (RAGGED, 0)),
    ];
    rows.map(|(name, sheet, expected)| (name.to_string(), sheet, expected))
        .to_vec()
}

/// The record of `TWO_RICH`, field by field: entries past the widths are 0.
pub fn two_rich() -> Netlist {
    let mut netlist = Netlist {
        inputs: 1,
        latch_count: 1,
        gate_count: 1,
        address_width: 2,
        data_width: 2,
        start_word: 2,
        two_ports: 1,
        write_enable: 15,
        read_enable: 5,
        property: 11,
        second_read_enable: 4,
        latches: vec![Latch { next: 14, reset: 1 }],
        gates: vec![Gate { left: 2, right: 13 }],
        ..Netlist::default()
    };
    netlist.address[..2].copy_from_slice(&[4, 3]);
    netlist.write_data[..2].copy_from_slice(&[14, 8]);
    netlist.second_address[..2].copy_from_slice(&[3, 1]);
    netlist
}

pub fn sheets(tally: &mut Tally) {
    let judge = |sheet: &[u8]| verdict(read_sheet(sheet, 600, 600));
    for (name, sheet, expected) in two_port_sheet_rows() {
        tally.equal(&name, judge(&sheet), expected);
        let text = frames(&[write_depth(0), sheet].concat());
        let (number, place) = expected;
        let fits = match expected {
            ACCEPTED => text.starts_with(b"p cnf "),
            _ => text == refusal_text(Refusal { number, place }),
        };
        tally.check((name, "frames"), fits);
    }
    tally.equal("largest sheet", largest_two_port_sheet().len(), 20_064);
    for (name, sheet, expected) in two_port_length_rows() {
        tally.equal(name, judge(&sheet), expected);
    }
    rooms_and_rows(tally);
    letters(tally);
}

/// Refusal 9 of the lent lists, last.
fn rooms_and_rows(tally: &mut Tally) {
    for (short, latch_room, gate_room, expected) in [
        (TWO_RICH, 1, 1, ACCEPTED),
        (TWO_RICH, 0, 1, (NO_ROOM, 0)),
        (TWO_RICH, 1, 0, (NO_ROOM, 0)),
        (CONSTANT_READS, 0, 0, ACCEPTED),
        (
            "N 0 1 0/T 1 1 0/L 0 0/A 0/D 0/B 4/R 1/C 0 0 0",
            0,
            0,
            (MEMORY_LOOP, 6),
        ),
        (
            "N 0 1 0/T 2 1 0/L 0 0/A 0/A 0/D 0/B 2/B 3/R 1/C 0 0 0",
            0,
            0,
            (TIED_ADDRESS, 8),
        ),
    ] {
        let result = read_sheet(&expand(short), latch_room, gate_room);
        tally.equal((short, latch_room, gate_room), verdict(result), expected);
    }
    tally.equal("record", accepted(TWO_RICH), two_rich());
    let record = read_sheet(&expand(RICH), 600, 600);
    tally.equal("record of an M sheet", record, Ok(accepted(RICH)));
    tally.equal("kind of an M sheet", accepted(RICH).two_ports, 0);
}

/// Lines alone: the letters of a second port.
fn letters(tally: &mut Tally) {
    let (full, first) = ([Some(1), Some(2), Some(3)], [Some(1), None, None]);
    let rows = [
        ("T 1 2 3", Some((Kind::TwoPortMemory, full))),
        (
            "T 1 2",
            Some((Kind::TwoPortMemory, [Some(1), Some(2), None])),
        ),
        ("T 1", None),
        ("B 1", Some((Kind::SecondAddress, first))),
        ("B 1 2", None),
        ("B", None),
        ("R 1", Some((Kind::SecondReadEnable, first))),
        ("R 1 2 3", None),
        ("R", None),
    ];
    for (short, expected) in rows {
        let line = expand(short);
        tally.equal(short, read_line(&line), expected);
    }
}

/// A change of the record of `TWO_RICH`: V = 7; lines L 3, G 4, A 5 and 6, D 7 and 8, B 9 and 10, R 11,
/// C 12; read bits are codes 6 to 13, of which the gate (14) depends on 12.
pub type RecordRow = (&'static str, fn(&mut Netlist), Verdict);

#[rustfmt::skip]
pub const TWO_PORT_RECORDS: [RecordRow; 63] = [
    ("unchanged", |_| {}, ACCEPTED),
    // The kind: 0 or 1, else 4 at line 2.
    ("kind 2", |it| it.two_ports = 2, (SIZE, 2)),
    ("kind 2^32 - 1", |it| it.two_ports = u32::MAX, (SIZE, 2)),
    ("kind 2^31", |it| it.two_ports = 1 << 31, (SIZE, 2)),
    ("kind 2, I = 601", |it| (it.two_ports, it.inputs) = (2, 601), (SIZE, 1)),
    ("kind 2, no list", |it| (it.two_ports, it.latches) = (2, vec![]), (SIZE, 2)),
    ("kind 2, n = 2^32 - 1", |it| (it.two_ports, it.data_width) = (2, u32::MAX), (SIZE, 2)),
    ("kind 0: V = 5", |it| it.two_ports = 0, (CODE, 3)),
    // 4: V is I + L + 2n + A; the start must be given.
    ("I = 601", |it| it.inputs = 601, (SIZE, 1)),
    ("I = 2^32 - 1", |it| it.inputs = u32::MAX, (SIZE, 1)),
    ("V = 600", |it| it.inputs = 594, ACCEPTED),
    ("V = 601", |it| it.inputs = 595, (SIZE, 2)),
    ("I = 600", |it| it.inputs = 600, (SIZE, 2)),
    ("m = 0", |it| it.address_width = 0, (SIZE, 2)),
    ("m = 13", |it| it.address_width = 13, (SIZE, 2)),
    ("m = 2^32 - 1", |it| it.address_width = u32::MAX, (SIZE, 2)),
    ("n = 0", |it| (it.data_width, it.start_word) = (0, 0), (SIZE, 2)),
    ("n = 33", |it| it.data_width = 33, (SIZE, 2)),
    ("n = 2^31", |it| it.data_width = 1 << 31, (SIZE, 2)),
    ("n = 2^32 - 1", |it| it.data_width = u32::MAX, (SIZE, 2)),
    ("start word 3", |it| it.start_word = 3, ACCEPTED),
    ("start word 4", |it| it.start_word = 4, (SIZE, 2)),
    ("unknown start", |it| it.unknown_start = 1, (SIZE, 2)),
    ("unknown start, word 0", |it| (it.unknown_start, it.start_word) = (1, 0), (SIZE, 2)),
    ("unknown start, no list", |it| (it.unknown_start, it.gates) = (1, vec![]), (SIZE, 2)),
    ("unknown start, I = 601", |it| (it.unknown_start, it.inputs) = (1, 601), (SIZE, 1)),
    ("flag 2", |it| it.unknown_start = 2, (SIZE, 2)),
    // 3: before every 5.
    ("no latches", |it| it.latches.clear(), (OUT_OF_ORDER, 0)),
    ("no gates and a bad code", |it| (it.gates, it.second_read_enable) = (vec![], 99), (OUT_OF_ORDER, 0)),
    // Entries past the sizes are ignored, by 5, 17 and 6.
    ("entry past m", |it| it.second_address[2] = u32::MAX, ACCEPTED),
    ("read bit past m", |it| it.second_address[11] = 6, ACCEPTED),
    ("wire of bit 0 past m", |it| it.second_address[2] = 3, ACCEPTED),
    ("first address's entry past m", |it| it.address[2] = u32::MAX, ACCEPTED),
    ("entry past n", |it| it.write_data[2] = u32::MAX, ACCEPTED),
    // 5 in line order: codes go to 15, gate operands to 13.
    ("next", |it| it.latches[0].next = 16, (CODE, 3)),
    ("operand", |it| it.gates[0].left = 14, (CODE, 4)),
    ("operand, the last read bit", |it| it.gates[0].left = 13, ACCEPTED),
    ("address bit 1", |it| it.address[1] = 16, (CODE, 6)),
    ("write data bit 1", |it| it.write_data[1] = 16, (CODE, 8)),
    ("second address bit 0", |it| it.second_address[0] = u32::MAX, (CODE, 9)),
    ("second address bit 1", |it| it.second_address[1] = 16, (CODE, 10)),
    ("second RE", |it| it.second_read_enable = 16, (CODE, 11)),
    ("RE", |it| it.read_enable = 16, (CODE, 12)),
    ("P", |it| it.property = 16, (CODE, 12)),
    ("second RE and P", |it| (it.second_read_enable, it.property) = (16, 16), (CODE, 11)),
    ("write data and second RE", |it| (it.write_data[0], it.second_read_enable) = (16, 16), (CODE, 7)),
    ("P and a loop", |it| (it.property, it.second_address[0]) = (16, 6), (CODE, 12)),
    // 17 within each port.
    ("tied", |it| it.address[1] = 4, (TIED_ADDRESS, 6)),
    ("tied in the second port", |it| it.second_address[1] = 3, (TIED_ADDRESS, 10)),
    ("tied in the second port, inverted", |it| it.second_address[1] = 2, (TIED_ADDRESS, 10)),
    ("tied in both", |it| (it.address[1], it.second_address[1]) = (5, 2), (TIED_ADDRESS, 6)),
    ("one address for both ports", |it| it.second_address = it.address, ACCEPTED),
    ("second port's constants", |it| (it.second_address[0], it.second_address[1]) = (0, 0), ACCEPTED),
    ("tied read bits", |it| (it.second_address[0], it.second_address[1]) = (6, 7), (TIED_ADDRESS, 10)),
    ("tied, loop in address bit 0", |it| (it.address[0], it.second_address[1]) = (6, 2), (TIED_ADDRESS, 10)),
    ("tied, P", |it| (it.second_address[1], it.property) = (2, 16), (CODE, 12)),
    // 6: A and B lines, R, C; read bits of either port.
    ("loop in address bit 0", |it| it.address[0] = 12, (MEMORY_LOOP, 5)),
    ("loops in both addresses", |it| (it.address[1], it.second_address[0]) = (6, 6), (MEMORY_LOOP, 6)),
    ("loop in second address bit 0", |it| it.second_address[0] = 6, (MEMORY_LOOP, 9)),
    ("loop in second address bit 1", |it| it.second_address[1] = 14, (MEMORY_LOOP, 10)),
    ("loops in second bit 1 and RE", |it| (it.second_address[1], it.read_enable) = (10, 6), (MEMORY_LOOP, 10)),
    ("loops in both REs", |it| (it.second_read_enable, it.read_enable) = (13, 6), (MEMORY_LOOP, 11)),
    ("loop in RE", |it| it.read_enable = 15, (MEMORY_LOOP, 12)),
];

/// Changes of the record of the M sheet `RICH` that concern the second port: its entries are not looked
/// at.
#[rustfmt::skip]
pub const ONE_PORT_RECORDS: [RecordRow; 7] = [
    ("second address", |it| it.second_address = [u32::MAX; 12], ACCEPTED),
    ("second address, read bits", |it| it.second_address = [6; 12], ACCEPTED),
    ("second RE", |it| it.second_read_enable = u32::MAX, ACCEPTED),
    ("second RE, read bit", |it| it.second_read_enable = 6, ACCEPTED),
    ("kind 2", |it| it.two_ports = 2, (SIZE, 2)),
    ("kind 2, unknown start", |it| (it.two_ports, it.unknown_start) = (2, 1), (SIZE, 2)),
    // V = 7: code 10 is a read bit of the second port, and the second port never reads.
    ("kind 1", |it| it.two_ports = 1, ACCEPTED),
];

/// Every record above with its verdict, changed already.
pub fn two_port_record_rows() -> Vec<(&'static str, Netlist, Verdict)> {
    let changed = |short: &str, (name, change, expected): RecordRow| {
        let mut record = accepted(short);
        change(&mut record);
        (name, record, expected)
    };
    let two = TWO_PORT_RECORDS.iter().map(|row| changed(TWO_RICH, *row));
    let one = ONE_PORT_RECORDS.iter().map(|row| changed(RICH, *row));
    two.chain(one).collect()
}

pub fn records(tally: &mut Tally) {
    for (name, record, expected) in two_port_record_rows() {
        tally.equal(name, verdict(record.check()), expected);
        let room = if expected == ACCEPTED { 20_064 } else { 0 };
        tally.equal(
            (name, "written"),
            verdict(write_back(&record, room)),
            expected,
        );
        if expected == ACCEPTED {
            continue;
        }
        for port in [0, 1, 2, 3] {
            let group = Group::Pair(300, 300);
            let call = port_group_call(&record, 256, PortGroup { port, group }, 0);
            tally.equal((name, port, "group call"), verdict(call), expected);
            let position = position_of([256, 300, 7]);
            let call = position.port_group(&record, port, FrameGroup::Closing, 0);
            tally.equal((name, port, "position"), verdict(call), expected);
        }
        tally.equal((name, "heading"), verdict(heading(&record, 256)), expected);
        tally.equal((name, "start"), verdict(start(&record, 256)), expected);
        let mut call = Call::new(&accepted(TWO_RICH), 0, Vec::new(), [0, 0]);
        (call.netlist, call.depth) = (record, 256);
        let found = verdict(call.outcome().result);
        tally.equal((name, "replay"), found, expected);
    }
    // What one port is refused for does not change with K10's record.
    for (name, change, expected) in RECORDS {
        let mut record = accepted(RICH);
        change(&mut record);
        record.second_address.fill(6);
        record.second_read_enable = 6;
        tally.equal((name, "one port"), verdict(record.check()), expected);
    }
}

/// Depth, port, group, and the exact need or the refusal, for `CONSTANT_READS`: V = 3, m = n = 1.
#[rustfmt::skip]
pub const PORT_CALLS: [(u32, u32, Group, Result<usize, u32>); 38] = [
    (0, 1, Group::Wires(0), Ok(2)),
    (1, 1, Group::Wires(1), Ok(0)),
    (0, 1, Group::Closing(0), Ok(2)),
    (0, 2, Group::Closing(0), Ok(2)),
    (1, 1, Group::Closing(1), Ok(6)),
    (1, 2, Group::Closing(1), Ok(6)),
    (255, 2, Group::Closing(255), Ok(260)),
    (1, 1, Group::Pair(0, 1), Ok(31)),
    (1, 2, Group::Pair(0, 1), Ok(31)),
    (2, 2, Group::Pair(1, 2), Ok(31)),
    (2, 2, Group::Pair(0, 2), Ok(39)),
    (255, 2, Group::Pair(0, 255), Ok(39)),
    (255, 1, Group::Property, Ok(257)),
    // Wires and property take no port.
    (0, 2, Group::Wires(0), Ok(2)),
    (0, 0, Group::Wires(0), Ok(2)),
    (255, 3, Group::Property, Ok(257)),
    // A port that is neither 1 nor 2.
    (1, 0, Group::Closing(1), Err(NO_SUCH_GROUP)),
    (1, 3, Group::Closing(1), Err(NO_SUCH_GROUP)),
    (1, u32::MAX, Group::Closing(1), Err(NO_SUCH_GROUP)),
    (1, 0, Group::Pair(0, 1), Err(NO_SUCH_GROUP)),
    (1, 3, Group::Pair(0, 1), Err(NO_SUCH_GROUP)),
    (1, u32::MAX, Group::Pair(0, 1), Err(NO_SUCH_GROUP)),
    (1, 1 << 31, Group::Pair(0, 1), Err(NO_SUCH_GROUP)),
    (1, 257, Group::Pair(0, 1), Err(NO_SUCH_GROUP)),
    // 7 before 8, and 8 for the frames of the second port as for the first.
    (256, 2, Group::Closing(0), Err(DEPTH)),
    (256, 3, Group::Closing(0), Err(DEPTH)),
    (256, 0, Group::Pair(1, 1), Err(DEPTH)),
    (u32::MAX, 3, Group::Pair(0, u32::MAX), Err(DEPTH)),
    (0, 2, Group::Closing(1), Err(NO_SUCH_GROUP)),
    (255, 2, Group::Closing(256), Err(NO_SUCH_GROUP)),
    (255, 2, Group::Closing(u32::MAX), Err(NO_SUCH_GROUP)),
    (0, 2, Group::Pair(0, 0), Err(NO_SUCH_GROUP)),
    (0, 2, Group::Pair(0, 1), Err(NO_SUCH_GROUP)),
    (1, 2, Group::Pair(1, 1), Err(NO_SUCH_GROUP)),
    (2, 2, Group::Pair(2, 1), Err(NO_SUCH_GROUP)),
    (255, 2, Group::Pair(0, 256), Err(NO_SUCH_GROUP)),
    (255, 2, Group::Pair(u32::MAX, 255), Err(NO_SUCH_GROUP)),
    (255, 3, Group::Pair(255, 255), Err(NO_SUCH_GROUP)),
];

/// Sheet, depth, port, group and the exact need. Wires of `N 1 0 0/T 1 1 0`: input 1, read bits 2 and 3.
#[rustfmt::skip]
pub const PORT_NEEDS: [(&str, u32, u32, Group, usize); 36] = [
    // Address bits of frame j and frame i: 16 numbers for two wires, 6 for a wire and a constant, 2 for
    // two constants, and 3 more for E; 10 for s, 20 for PS and S, 8 for the data bit.
    ("N 1 0 0/T 1 1 0/A 2/D 2/B 2/R 2/C 2 2 2", 2, 1, Group::Pair(0, 1), 57),
    ("N 1 0 0/T 1 1 0/A 2/D 2/B 2/R 2/C 2 2 2", 2, 2, Group::Pair(0, 1), 57),
    ("N 1 0 0/T 1 1 0/A 2/D 2/B 3/R 2/C 2 2 2", 2, 2, Group::Pair(0, 1), 57),
    ("N 1 0 0/T 1 1 0/A 2/D 2/B 0/R 2/C 2 2 2", 2, 1, Group::Pair(0, 1), 57),
    ("N 1 0 0/T 1 1 0/A 2/D 2/B 0/R 2/C 2 2 2", 2, 2, Group::Pair(0, 1), 47),
    ("N 1 0 0/T 1 1 0/A 2/D 2/B 1/R 2/C 2 2 2", 2, 2, Group::Pair(0, 1), 47),
    ("N 1 0 0/T 1 1 0/A 0/D 2/B 2/R 2/C 2 2 2", 2, 1, Group::Pair(0, 1), 43),
    ("N 1 0 0/T 1 1 0/A 0/D 2/B 2/R 2/C 2 2 2", 2, 2, Group::Pair(0, 1), 47),
    ("N 1 0 0/T 1 1 0/A 1/D 2/B 3/R 2/C 2 2 2", 2, 2, Group::Pair(0, 1), 47),
    ("N 1 0 0/T 1 1 0/A 0/D 2/B 0/R 2/C 2 2 2", 2, 2, Group::Pair(0, 1), 43),
    ("N 1 0 0/T 1 1 0/A 0/D 2/B 1/R 2/C 2 2 2", 2, 2, Group::Pair(0, 1), 43),
    ("N 1 0 0/T 1 1 0/A 1/D 2/B 0/R 2/C 2 2 2", 2, 2, Group::Pair(0, 1), 43),
    ("N 1 0 0/T 1 1 0/A 1/D 2/B 1/R 2/C 2 2 2", 2, 2, Group::Pair(0, 1), 43),
    // RE of each port counts for its own groups: N is RE where j = i - 1.
    ("N 1 0 0/T 1 1 0/A 2/D 2/B 2/R 0/C 2 1 2", 2, 1, Group::Pair(1, 2), 49),
    ("N 1 0 0/T 1 1 0/A 2/D 2/B 2/R 0/C 2 1 2", 2, 2, Group::Pair(1, 2), 47),
    ("N 1 0 0/T 1 1 0/A 2/D 2/B 2/R 0/C 2 1 2", 2, 1, Group::Pair(0, 2), 57),
    ("N 1 0 0/T 1 1 0/A 2/D 2/B 2/R 0/C 2 1 2", 2, 2, Group::Pair(0, 2), 57),
    ("N 1 0 0/T 1 1 0/A 2/D 2/B 2/R 1/C 2 2 2", 2, 2, Group::Pair(1, 2), 49),
    // WE and write data are the same for both ports.
    ("N 1 0 0/T 1 1 0/A 2/D 2/B 2/R 2/C 0 2 2", 2, 2, Group::Pair(0, 2), 52),
    ("N 1 0 0/T 1 1 0/A 2/D 2/B 2/R 2/C 1 2 2", 2, 2, Group::Pair(0, 2), 53),
    ("N 1 0 0/T 1 1 0/A 2/D 1/B 2/R 2/C 2 2 2", 2, 2, Group::Pair(0, 2), 52),
    // Closings, n = 2.
    ("N 1 0 0/T 1 2 2/A 2/D 2/D 2/B 2/R 0/C 2 1 2", 2, 1, Group::Closing(0), 4),
    ("N 1 0 0/T 1 2 2/A 2/D 2/D 2/B 2/R 0/C 2 1 2", 2, 2, Group::Closing(0), 0),
    ("N 1 0 0/T 1 2 2/A 2/D 2/D 2/B 2/R 0/C 2 1 2", 2, 1, Group::Closing(1), 9),
    ("N 1 0 0/T 1 2 2/A 2/D 2/D 2/B 2/R 0/C 2 1 2", 2, 2, Group::Closing(1), 18),
    ("N 1 0 0/T 1 2 2/A 2/D 2/D 2/B 2/R 0/C 2 1 2", 2, 2, Group::Closing(2), 18),
    ("N 1 0 0/T 1 2 2/A 2/D 2/D 2/B 2/R 2/C 2 0 2", 2, 1, Group::Closing(2), 18),
    ("N 1 0 0/T 1 2 2/A 2/D 2/D 2/B 2/R 2/C 2 0 2", 2, 2, Group::Closing(0), 9),
    ("N 1 0 0/T 1 2 2/A 2/D 2/D 2/B 2/R 2/C 2 0 2", 2, 2, Group::Closing(2), 27),
    // Wires and property.
    ("N 1 0 1/T 1 1 0/G 6 4/A 2/D 2/B 2/R 2/C 2 2 2", 1, 1, Group::Wires(0), 12),
    ("N 1 0 1/T 1 1 0/G 6 4/A 2/D 2/B 2/R 2/C 2 2 2", 1, 1, Group::Wires(1), 10),
    ("N 1 0 0/T 1 1 0/A 2/D 2/B 2/R 2/C 2 2 1", 9, 1, Group::Property, 2),
    ("N 1 0 0/T 1 1 0/A 2/D 2/B 2/R 2/C 2 2 0", 9, 1, Group::Property, 0),
    ("N 1 0 0/T 1 1 0/A 2/D 2/B 2/R 2/C 2 2 6", 9, 1, Group::Property, 11),
    (TWO_RICH, 2, 1, Group::Pair(0, 2), 82),
    (TWO_RICH, 2, 2, Group::Pair(0, 2), 72),
];

pub fn group_calls(tally: &mut Tally) {
    let netlist = accepted(CONSTANT_READS);
    for (depth, port, group, expected) in PORT_CALLS {
        let asked = PortGroup { port, group };
        check_call(tally, &netlist, depth, asked, expected);
        if port == FIRST_PORT {
            let room = expected.unwrap_or(0);
            let counted = Formula::new(&netlist, depth, Fault::None).counts(group);
            let same = counted == counts(&netlist, depth, asked);
            tally.check((depth, group, "counts"), expected.is_err() || same);
            let found = group_call(&netlist, depth, group, room);
            tally.check(
                (depth, group),
                found == port_group_call(&netlist, depth, asked, room),
            );
        }
    }
    for (short, depth, port, group, need) in PORT_NEEDS {
        let asked = PortGroup { port, group };
        check_call(tally, &accepted(short), depth, asked, Ok(need));
    }
    // An M sheet has no second port.
    let netlist = accepted(FULL_RUN);
    for group in [Group::Closing(0), Group::Closing(1), Group::Pair(0, 1)] {
        for (port, expected) in [
            (0, Err(NO_SUCH_GROUP)),
            (2, Err(NO_SUCH_GROUP)),
            (3, Err(NO_SUCH_GROUP)),
        ] {
            check_call(tally, &netlist, 1, PortGroup { port, group }, expected);
            check_call(tally, &netlist, 256, PortGroup { port, group }, Err(DEPTH));
        }
        let asked = PortGroup::first(group);
        let need = counts(&netlist, 1, asked)[1] as usize;
        check_call(tally, &netlist, 1, asked, Ok(need));
    }
    check_call(
        tally,
        &netlist,
        1,
        PortGroup::second(Group::Wires(0)),
        Ok(2),
    );
    for (depth, expected) in [(0, ACCEPTED), (255, ACCEPTED), (256, (DEPTH, 0))] {
        let found = verdict(heading(&accepted(TWO_RICH), depth));
        tally.equal(("heading", depth), found, expected);
    }
}

fn check_call(
    tally: &mut Tally,
    netlist: &Netlist,
    depth: u32,
    asked: PortGroup,
    expected: Result<usize, u32>,
) {
    let call = |room| port_group_call(netlist, depth, asked, room).map(|it| it.len());
    match expected {
        Ok(need) => {
            for room in [need, need + 9] {
                tally.equal((depth, asked, room), call(room), Ok(need));
            }
            if need > 0 {
                let short = verdict(call(need - 1));
                tally.equal((depth, asked, need - 1), short, (NO_ROOM, 0));
            }
        }
        Err(number) => {
            for room in [0, usize::MAX] {
                tally.equal((depth, asked, room), verdict(call(room)), (number, 0));
            }
        }
    }
}

/// Depth, frame, base, port, the pair's j, room, and the count or the verdict, for `CONSTANT_READS`: B
/// is 1, 4, 17, 40 and then 73.
#[rustfmt::skip]
pub const PORT_POSITIONS: [([u32; 3], u32, u32, usize, Result<usize, u32>); 18] = [
    ([2, 1, 4], 1, 0, 31, Ok(31)),
    ([2, 1, 4], 2, 0, 31, Ok(31)),
    ([2, 1, 4], 2, 0, 30, Err(NO_ROOM)),
    ([2, 2, 17], 2, 0, 39, Ok(39)),
    ([2, 2, 17], 2, 1, 31, Ok(31)),
    ([3, 3, 40], 2, 0, 39, Ok(39)),
    ([4, 4, 73], 2, 3, 31, Ok(31)),
    // 8, then 16, then 9.
    ([2, 2, 17], 3, 0, 600, Err(NO_SUCH_GROUP)),
    ([2, 2, 17], 0, 0, 600, Err(NO_SUCH_GROUP)),
    ([2, 2, 18], 3, 0, 0, Err(NO_SUCH_GROUP)),
    ([2, 2, 18], 2, 2, 0, Err(NO_SUCH_GROUP)),
    ([2, 2, 18], 2, 1, 0, Err(WRONG_BASE)),
    ([2, 2, 18], 2, 1, 600, Err(WRONG_BASE)),
    // The base of the M sheet of these sizes.
    ([2, 2, 12], 1, 1, 600, Err(WRONG_BASE)),
    ([2, 2, 12], 2, 1, 600, Err(WRONG_BASE)),
    ([2, 3, 40], 2, 0, 600, Err(NO_SUCH_GROUP)),
    ([256, 2, 18], 3, 2, 0, Err(DEPTH)),
    ([256, 2, 17], 2, 1, 600, Err(DEPTH)),
];

pub fn positions(tally: &mut Tally) {
    let netlist = accepted(CONSTANT_READS);
    for (row, port, j, room, expected) in PORT_POSITIONS {
        let found = position_of(row).port_group(&netlist, port, FrameGroup::Pair(j), room);
        let found = found.map(|numbers| numbers.len()).map_err(|it| it.number);
        tally.equal((row, port, j, room), found, expected);
    }
    for (port, group, room, expected) in [
        (1, FrameGroup::Closing, 6, Ok(6)),
        (2, FrameGroup::Closing, 6, Ok(6)),
        (2, FrameGroup::Closing, 5, Err(NO_ROOM)),
        (3, FrameGroup::Closing, 6, Err(NO_SUCH_GROUP)),
        (0, FrameGroup::Closing, 0, Err(NO_SUCH_GROUP)),
        (3, FrameGroup::Wires, 0, Ok(0)),
        (3, FrameGroup::Property, 3, Ok(3)),
    ] {
        let found = position_of([1, 1, 4]).port_group(&netlist, port, group, room);
        let found = found.map(|numbers| numbers.len()).map_err(|it| it.number);
        tally.equal((port, group, room), found, expected);
    }
    // Moving on and back: B is that of two ports.
    let mut position = start(&netlist, 4).expect("an accepted netlist");
    for (frame, base) in [1, 4, 17, 40, 73].iter().enumerate() {
        tally.equal(frame, position, position_of([4, frame as u32, *base]));
        let moved = verdict(position.on(&netlist));
        let expected = if frame < 4 {
            ACCEPTED
        } else {
            (NO_SUCH_GROUP, 0)
        };
        tally.equal((frame, "on"), moved, expected);
    }
    tally.equal("back", position.back(&netlist), Ok(()));
    tally.equal("back", position, position_of([4, 0, 1]));
    let mut wrong = position_of([4, 2, 12]);
    tally.equal("wrong base", verdict(wrong.on(&netlist)), (WRONG_BASE, 0));
    tally.equal("wrong base", verdict(wrong.back(&netlist)), (WRONG_BASE, 0));
    tally.equal("unchanged", wrong, position_of([4, 2, 12]));
    // An M sheet has no second port, whatever the base.
    let netlist = accepted(FULL_RUN);
    for row in [[2, 1, 3], [2, 1, 4]] {
        let found = position_of(row).port_group(&netlist, 2, FrameGroup::Closing, 600);
        tally.equal((row, "one port"), verdict(found), (NO_SUCH_GROUP, 0));
    }
}

/// Inputs 1 to 6 of `TWO_READS` (first address, second address, write data, WE, RE, second RE), both
/// idle words, and both read bits. The start word is 1.
type Frame = ([u8; 6], [u32; 2], [u8; 2]);

const FRAMES: [Frame; 8] = [
    ([0, 1, 0, 1, 1, 1], [0, 0], [1, 1]), // Both read the start; 0 is written to address 0.
    ([1, 0, 0, 0, 1, 1], [0, 1], [1, 0]), // The second port reads what was written.
    ([1, 1, 0, 1, 0, 0], [0, 1], [1, 0]), // Each holds its own word; 0 is written to address 1.
    ([0, 1, 1, 1, 0, 1], [0, 1], [1, 0]), // The first holds; the write is at the first address.
    ([1, 0, 0, 0, 1, 1], [1, 0], [0, 1]), // Each reads the newest word of its own address.
    ([0, 0, 0, 1, 1, 1], [0, 0], [1, 1]), // Both read one word, before this frame's write.
    ([1, 0, 1, 1, 0, 1], [0, 1], [1, 0]), // The first holds, the second reads the word of frame 5.
    ([1, 1, 0, 0, 1, 0], [0, 1], [1, 0]), // The second holds.
];

const IDLE_FRAMES: [Frame; 4] = [
    ([0, 0, 0, 0, 0, 0], [0, 1], [0, 1]), // Neither reads in frame 0: an idle word for each.
    ([0, 0, 0, 0, 0, 1], [1, 0], [0, 1]), // The first holds its idle word.
    ([0, 0, 0, 1, 0, 0], [1, 0], [0, 1]), // Both hold; 0 is written.
    ([0, 0, 0, 0, 1, 1], [1, 1], [0, 0]), // Both read it.
];

const SECOND_IDLE_FRAMES: [Frame; 3] = [
    ([0, 0, 0, 1, 1, 0], [0, 0], [1, 0]), // Only the second port's idle word counts.
    ([1, 0, 0, 0, 0, 0], [0, 1], [1, 0]), // Both hold.
    ([1, 0, 0, 0, 0, 1], [0, 1], [1, 0]), // The second port reads what was written in frame 0.
];

const FIRST_IDLE_FRAMES: [Frame; 3] = [
    ([0, 1, 0, 1, 0, 1], [0, 0], [0, 1]), // Only the first port's idle word counts; a write at 0.
    ([1, 1, 0, 0, 0, 0], [1, 0], [0, 1]), // Both hold.
    ([1, 0, 0, 0, 1, 0], [0, 0], [1, 1]), // The first reads the start of address 1.
];

fn feed_of((inputs, words, _): &Frame) -> Feed {
    Feed {
        inputs: inputs.map(|bit| bit == 1).to_vec(),
        idle_word: words[0],
        second_idle_word: words[1],
    }
}

pub fn memory_runs(tally: &mut Tally) {
    let netlist = accepted(TWO_READS);
    let runs: [(&[Frame], Option<usize>, [u32; 2]); 4] = [
        (&FRAMES, Some(1), [0, 1]),
        (&IDLE_FRAMES, None, [0, 1]),
        (&SECOND_IDLE_FRAMES, Some(0), [0, 1]),
        (&FIRST_IDLE_FRAMES, None, [0, 1]),
    ];
    for (index, (frames, first_break, words)) in runs.iter().enumerate() {
        let feeds: Vec<Feed> = frames.iter().map(feed_of).collect();
        let run = Run::new(&netlist, &feeds);
        for (frame, (_, _, read_bits)) in frames.iter().enumerate() {
            let [first, second] = read_bits.map(|bit| bit == 1);
            let expected = [first, second, first && !second];
            tally.equal((index, frame), &run.frames[frame][7..], &expected);
        }
        tally.equal((index, "first break"), run.first_break, *first_break);
        tally.equal((index, "words"), run.words.as_slice(), words);
        let whole = Run::from_memory(&netlist, &[1, 1], &feeds);
        tally.check((index, "from the whole memory"), whole.frames == run.frames);
        let again = Run::new(&netlist, &run.feeds(&netlist));
        tally.check((index, "fed again"), again.frames == run.frames);
    }
    // Before frame 0 a port takes the fed word where its RE is false.
    let circuit = Circuit::new(&netlist);
    for (first, second) in [(false, false), (false, true), (true, false), (true, true)] {
        let inputs = [false, false, false, false, first, second];
        let takes = |port| circuit.port_takes_fed_word(port, &inputs);
        tally.equal((first, second), [takes(1), takes(2)], [!first, !second]);
        tally.equal((first, "first"), circuit.takes_fed_word(&inputs), !first);
    }
}

/// Depth, the numbers of the answer, and what is printed (`/` for a line feed) or the refusal's number,
/// for `TWO_READS`: inputs are 2 to 7 and 11 to 16, read bits 8, 9 and 17, 18.
#[rustfmt::skip]
pub const TWO_PORT_REPLAYS: [(u32, &str, Result<&str, u32>); 28] = [
    // The first port reads the start, the second is idle: 9 is needed, 8 is not.
    (0, "-2 -3 -4 -5 6 -7 -9 0", Ok("0/000010101/")),
    (0, "-2 -3 -4 -5 6 -7 9 0", Err(15)),
    (0, "-2 -3 -4 -5 6 -7 0", Err(14)),
    (0, "-2 -3 -4 -5 6 -7 8 0", Err(14)),
    (0, "-2 -3 -4 -5 6 -7 9 -9 0", Err(14)),
    (0, "-2 -3 -4 -5 6 -7 8 -8 -9 0", Ok("0/000010101/")),
    (0, "-2 -3 -4 -5 6 -7 -8 -9 -10 0", Ok("0/000010101/")),
    // The second port reads, the first is idle: 8 is needed, 9 is not.
    (0, "-2 -3 -4 -5 -6 7 8 0", Err(15)),
    (0, "-2 -3 -4 -5 -6 7 -8 0", Err(15)),
    (0, "-2 -3 -4 -5 -6 7 9 0", Err(14)),
    (0, "-2 -3 -4 -5 -6 7 8 -8 9 0", Err(14)),
    (0, "-2 -3 -4 -5 -6 7 8 9 -9 0", Err(15)),
    // Both idle: both needed. Both reading: neither.
    (0, "-2 -3 -4 -5 -6 -7 8 -9 0", Ok("0/000000101/")),
    (0, "-2 -3 -4 -5 -6 -7 -8 9 0", Err(15)),
    (0, "-2 -3 -4 -5 -6 -7 8 0", Err(14)),
    (0, "-2 -3 -4 -5 -6 -7 -9 0", Err(14)),
    (0, "-2 -3 -4 -5 -6 -7 0", Err(14)),
    (0, "-2 -3 -4 -5 6 7 0", Err(15)),
    (0, "-2 -3 -4 -5 6 7 8 -8 9 -9 0", Err(15)),
    // An input missing.
    (0, "-2 -4 -5 6 -7 -9 0", Err(14)),
    (0, "-2 -3 -4 -5 6 -9 0", Err(14)),
    // Frame 1: each port holds its word; its read bits are never needed.
    (1, "-2 -3 -4 -5 6 -7 -9 -11 -12 -13 -14 -15 -16 0", Ok("0/000010101/000000101/")),
    (1, "-2 -3 -4 -5 6 -7 9 -11 -12 -13 -14 -15 -16 0", Err(15)),
    (1, "-2 -3 -4 -5 6 -7 9 -11 -12 -13 -14 -15 -16 17 -17 -18 0", Err(15)),
    // A write at the first address in frame 0, read by the second port in frame 1, the first holding.
    (1, "-2 3 -4 5 6 7 -11 -12 -13 -14 -15 16 0", Ok("1/010111110/000001101/")),
    (1, "-2 3 -4 5 6 7 -11 12 -13 -14 -15 16 0", Err(15)),
    // The second address does not write.
    (1, "2 -3 -4 5 6 7 -11 -12 -13 -14 -15 16 0", Err(15)),
    (1, "2 -3 -4 5 6 7 -11 12 -13 -14 -15 16 0", Ok("1/100111110/010001101/")),
];

pub fn replays(tally: &mut Tally) {
    for (depth, numbers, expected) in TWO_PORT_REPLAYS {
        let answer = satisfiable(numbers);
        let printed = replay(&input(depth, TWO_READS), &answer);
        let expected = match expected {
            Ok(short) => bytes_of(short),
            Err(number) => refusal_text(Refusal { number, place: 0 }),
        };
        let name = (depth, numbers);
        tally.check_with(name, printed == expected, || {
            format!(": found {}", printed.escape_ascii())
        });
    }
    let text = replay(&input(1, TWO_READS), b"s UNSATISFIABLE\n");
    tally.equal("none", text, b"claimed unsatisfiable\n".to_vec());
    // Memory and trace: V is that of two ports.
    let netlist = accepted(TWO_READS);
    for (numbers, words) in [
        ("-2 3 -4 5 6 7 -11 -12 -13 -14 -15 16 0", [0, 1]),
        ("2 -3 -4 5 6 7 -11 12 -13 -14 -15 16 0", [1, 0]),
        ("-2 -3 -4 -5 6 -7 9 -11 -12 -13 -14 -15 -16 0", [1, 1]),
        ("-2 0", [0, 0]),
    ] {
        let call = Call::new(&netlist, 1, satisfiable(numbers), [2, 2]);
        tally.equal("trace", call.trace.len(), 2 * 10 + 2);
        let outcome = call.outcome();
        tally.equal((numbers, "words"), &outcome.memory[..2], &words[..]);
        tally.equal((numbers, "behind"), &outcome.memory[2..], &call.memory[2..]);
        let mut short = call.clone();
        short.trace.truncate(2 * 10 - 1);
        let outcome = short.outcome();
        tally.equal(
            (numbers, "short trace"),
            verdict(outcome.result),
            (NO_ROOM, 0),
        );
        tally.equal((numbers, "untouched"), outcome.memory, short.memory);
    }
}

/// Sheets that are read and written back, each with the exact length.
const WRITTEN: [&str; 6] = [
    TWO_READS,
    CONSTANT_READS,
    TWO_RICH,
    "N 0 0 0/T 1 1 0/A 0/D 0/B 0/R 0/C 0 0 0",
    "N 598 0 0/T 1 1 1/A 1196/D 1201/B 1197/R 2/C 1 1 5",
    "N 2 0 0/T 2 1 0/A 2/A 4/D 2/B 5/B 3/R 1/C 1 1 5",
];

pub fn written_back(tally: &mut Tally) {
    let mut sheets: Vec<Vec<u8>> = WRITTEN.iter().map(|short| expand(short)).collect();
    sheets.push(largest_two_port_sheet());
    for sheet in sheets {
        let lines = sheet.len() / LINE_BYTES;
        let netlist = read_sheet(&sheet, 600, 600).expect("accepted");
        let need = sheet.len();
        for room in [need, need + 1, usize::MAX] {
            let found = write_back(&netlist, room);
            tally.check((lines, room), found == Ok(sheet.clone()));
        }
        for room in [0, 1, need - LINE_BYTES, need - 1] {
            let found = verdict(write_back(&netlist, room));
            tally.equal((lines, room), found, (NO_ROOM, 0));
        }
    }
    // Two records with the same used entries give one sheet: an M record's second port is not used.
    for (short, bytes) in [(RICH, 9), (FULL_RUN, 5)] {
        let mut record = accepted(short);
        record.second_address.fill(77);
        record.second_read_enable = 78;
        let found = write_back(&record, bytes * LINE_BYTES);
        tally.check(short, found == Ok(expand(short)));
    }
}

/// The largest number of variables, and the largest counts of a T sheet.
pub fn largest_sizes(tally: &mut Tally) {
    let mut most = 0;
    for (wires, address_width) in (2..=600).flat_map(|v| (1..=12).map(move |m| (v, m))) {
        let netlist = two_of_sizes([wires - 2, 0, 0], [address_width, 1]);
        tally.check("V", netlist.wire_count() == wires);
        most = (0..=256)
            .map(|frame| frame_base(&netlist, frame))
            .fold(most, i64::max);
    }
    tally.equal("largest number of variables", most, 1_198_081);
    // Inputs have no clauses, and some wire must be there that no read bit reaches.
    let mut most = [0, 0];
    for (m, n) in (1..=12).flat_map(|m| (1..=32).map(move |n| (m, n))) {
        for latches in 1..=600 - 2 * n {
            let counts = counts_of_sizes([latches, 600 - 2 * n - latches], [m, n]);
            most = [0, 1].map(|it| most[it].max(counts[it]));
        }
    }
    tally.equal("largest counts", most, [WIDEST_CLAUSES, WIDEST_NUMBERS]);
    tally.equal("largest counts", most, [8_425_089, 33_735_679]);
    let widest = without_constants([0, 1, 535], [12, 32]);
    let mut most_clauses = without_constants([0, 0, 536], [12, 32]);
    most_clauses.gates[0] = Gate { left: 0, right: 0 };
    let clean = 2 * most_clauses.first_gate();
    for gate in &mut most_clauses.gates[1..12] {
        (gate.left, gate.right) = (clean, clean);
    }
    most_clauses.read_enable = clean;
    most_clauses.second_read_enable = clean;
    let mut most_gates = two_of_sizes([0, 0, 598], [1, 1]);
    most_gates.gates.fill(Gate { left: 2, right: 2 });
    let needs = [
        (&most_gates, FIRST_PORT, Group::Wires(0), 5_982),
        (&most_gates, FIRST_PORT, Group::Wires(1), 5_980),
        (&widest, FIRST_PORT, Group::Pair(254, 255), 492),
        (&widest, SECOND_PORT, Group::Pair(254, 255), 492),
        (&widest, SECOND_PORT, Group::Pair(0, 255), 492),
        (&widest, SECOND_PORT, Group::Closing(0), 99),
        (&widest, FIRST_PORT, Group::Closing(255), 610),
        (&widest, SECOND_PORT, Group::Closing(255), 610),
        (&widest, FIRST_PORT, Group::Property, 257),
    ];
    for (netlist, port, group, need) in needs {
        let asked = PortGroup { port, group };
        let written = port_group_call(netlist, 255, asked, need).map(|numbers| numbers.len());
        tally.equal(asked, written, Ok(need));
    }
    for (netlist, clauses, numbers) in [
        (&widest, WIDEST_CLAUSES, WIDEST_NUMBERS),
        (&most_clauses, WIDEST_CLAUSES + 1, WIDEST_NUMBERS - 508),
    ] {
        let expected = Heading {
            variables: 1_198_081,
            clauses,
        };
        tally.equal("largest heading", heading(netlist, 255), Ok(expected));
        let formula = Formula::new(netlist, 255, Fault::None);
        let (mut found, mut largest) = (0, 0);
        for asked in formula.port_groups() {
            let group = formula.port_group(asked);
            found += group.len() as i64;
            largest = group.iter().map(|it| it.abs()).fold(largest, i32::max);
        }
        tally.equal("numbers at the largest sizes", found, numbers);
        tally.equal("largest variable written", largest, 1_198_081);
    }
}

/// Clauses and numbers at depth 255 of a T netlist without inputs and constants.
fn counts_of_sizes([latches, gates]: [i64; 2], [m, n]: [i64; 2]) -> [i64; 2] {
    let pairs = [4 * m + 2 * n + 10, 17 * m + 8 * n + 32];
    // Of the clauses with a start bit half are left; the last clauses have i + 3 numbers.
    let closings = [
        256 * (n + 1) + 255 * 2 * n,
        256 * (3 * n + 3) + 255 * 8 * n + 32_640,
    ];
    let wires = [
        1 + latches + 255 * 2 * latches + 256 * 3 * gates,
        2 + 2 * latches + 255 * 6 * latches + 256 * 10 * gates,
    ];
    let property = [1, 257];
    [0, 1].map(|it| 2 * 32_640 * pairs[it] + 2 * closings[it] + wires[it] + property[it])
}

/// At depth 255 and the largest sizes, 32,640 pairs for each port: 122 clauses and 492 numbers each.
const WIDEST_CLAUSES: i64 = 2 * 32_640 * 122 + CLOSING_CLAUSES + WIRE_CLAUSES + 1;
const WIDEST_NUMBERS: i64 = 2 * 32_640 * 492 + CLOSING_NUMBERS + WIRE_NUMBERS + 257;
/// For each port 32 clauses with start bits and the last, and in 255 frames 64 that hold the word.
const CLOSING_CLAUSES: i64 = 2 * (256 * 33 + 255 * 64);
/// The last clause has i + 3 numbers: 3 in each of 256 frames, and the sum of 0 to 255.
const CLOSING_NUMBERS: i64 = 2 * (256 * (32 * 3 + 3) + 32_640 + 255 * 64 * 4);
/// 535 gates in each frame, the latch's two clauses in 255 and its reset in frame 0, and (1).
const WIRE_CLAUSES: i64 = 256 * 535 * 3 + 255 * 2 + 2;
const WIRE_NUMBERS: i64 = 256 * 535 * 10 + 255 * 6 + 4;

/// A T netlist of given sizes in which no code is a constant, as far as there are wires for both
/// addresses.
fn without_constants(counts: [u32; 3], widths: [u32; 2]) -> Netlist {
    let mut netlist = two_of_sizes(counts, widths);
    let code = 2;
    netlist.latches.iter_mut().for_each(|it| it.next = code);
    for gate in &mut netlist.gates {
        (gate.left, gate.right) = (code, code);
    }
    let [inputs, latches, gates] = counts;
    let behind = netlist.first_gate()..netlist.first_gate() + gates;
    let own_wires: Vec<u32> = (1..=inputs + latches).chain(behind).collect();
    for (bit, wire) in own_wires.iter().take(widths[0] as usize).enumerate() {
        netlist.address[bit] = 2 * wire;
        netlist.second_address[bit] = 2 * wire + 1;
    }
    netlist.write_data[..widths[1] as usize].fill(code);
    netlist.write_enable = code;
    netlist.read_enable = code;
    netlist.second_read_enable = code;
    netlist.property = code;
    netlist
}
