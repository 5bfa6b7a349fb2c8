//! K11: T sheets as M sheets, by hand and on random sheets.

use std::collections::HashSet;

use super::check_examples::{accepted, FULL_RUN, RICH, UNKNOWN_RICH};
use super::check_ports::{largest_two_port_sheet, CONSTANT_READS, TWO_READS, TWO_RICH};
use super::check_random_ports::renumbering;
use super::check_refusals::{largest_sheet, verdict, Verdict};
use super::circuit::{value, Circuit, Feed, Run};
use super::formula::{Fault, Formula};
use super::netlist::{Netlist, SECOND_PORT};
use super::one_port::{one_port, without_second_port};
use super::random::{random_feeds, tiny_netlist, tiny_two_ports, wide_two_ports, Random};
use super::refusal::*;
use super::sheet::{expand, read_sheet, write_sheet, LINE_BYTES};
use super::solver::Solver;
use super::Tally;

/// Every kind of line. Wires: input 1, latch 2, read bits 3 and 4, second read bits 5 and 6, gates 7 and
/// 8. Lines: N, T, L, G, G, A, A, D, D, B, B, R, C.
const UNUSED: [u8; 416] = *b"\
N         1         1         2\n\
T         2         2         2\n\
L        16         1          \n\
G         2         9          \n\
G        14         7          \n\
A         4                    \n\
A         3                    \n\
D        14                    \n\
D         8                    \n\
B         3                    \n\
B         1                    \n\
R         0                    \n\
C        17         5        16\n";

/// Its gates are wires 5 and 6.
const UNUSED_AS_M: [u8; 320] = *b"\
N         1         1         2\n\
M         2         2         2\n\
L        12         1          \n\
G         2         9          \n\
G        10         7          \n\
A         4                    \n\
A         3                    \n\
D        10                    \n\
D         8                    \n\
C        13         5        12\n";

/// T sheets that are converted, and the M sheets they become.
const CONVERTED: [[&str; 2]; 12] = [
    [
        "N 0 0 0/T 1 1 0/A 0/D 0/B 0/R 0/C 0 0 0",
        "N 0 0 0/M 1 1 0/A 0/D 0/C 0 0 0",
    ],
    // The second address may be any wire that no read bit reaches, also one of the first address.
    [
        "N 2 0 0/T 1 1 1/A 2/D 6/B 2/R 0/C 1 1 7",
        "N 2 0 0/M 1 1 1/A 2/D 6/C 1 1 7",
    ],
    [
        "N 2 0 0/T 1 1 1/A 2/D 6/B 5/R 0/C 1 1 7",
        "N 2 0 0/M 1 1 1/A 2/D 6/C 1 1 7",
    ],
    // A gate that no read bit reaches, in every place: wire 5 becomes 4.
    [
        "N 2 0 1/T 1 1 0/G 2 4/A 10/D 11/B 10/R 0/C 10 11 11",
        "N 2 0 1/M 1 1 0/G 2 4/A 8/D 9/C 8 9 9",
    ],
    // The same below latches.
    [
        "N 0 2 1/T 1 1 0/L 10 0/L 11 1/G 2 4/A 10/D 11/B 11/R 0/C 11 10 10",
        "N 0 2 1/M 1 1 0/L 8 0/L 9 1/G 2 4/A 8/D 9/C 9 8 8",
    ],
    // Gates of constants and of gates; wires 3, 4 and 5 become 2, 3 and 4.
    [
        "N 0 0 3/T 1 1 1/G 0 1/G 1 6/G 7 8/A 6/D 9/B 8/R 0/C 10 8 11",
        "N 0 0 3/M 1 1 1/G 0 1/G 1 4/G 5 6/A 4/D 7/C 8 6 9",
    ],
    // The last of the first port's read bits and the first gate stand beside the bits that go.
    [
        "N 0 0 1/T 1 3 5/G 6 7/A 1/D 14/D 15/D 6/B 0/R 0/C 7 0 14",
        "N 0 0 1/M 1 3 5/G 6 7/A 1/D 8/D 9/D 6/C 7 0 8",
    ],
    // An operand order in which the larger one is second, and equal operands.
    [
        "N 1 0 2/T 1 1 0/G 2 5/G 8 8/A 2/D 10/B 0/R 0/C 9 1 8",
        "N 1 0 2/M 1 1 0/G 2 5/G 6 6/A 2/D 8/C 7 1 6",
    ],
    // Start word and m are no codes, though second read bits are wires 5 to 8.
    [
        "N 0 0 0/T 12 4 10/A 0/A 0/A 0/A 0/A 0/A 0/A 0/A 0/A 0/A 0/A 0/A 1/D 2/D 4/D 6/D 9/\
         B 1/B 1/B 1/B 1/B 1/B 1/B 1/B 1/B 1/B 1/B 1/B 0/R 0/C 0 1 9",
        "N 0 0 0/M 12 4 10/A 0/A 0/A 0/A 0/A 0/A 0/A 0/A 0/A 0/A 0/A 0/A 1/D 2/D 4/D 6/D 9/C 0 1 9",
    ],
    // As large as sizes can be: V is 600 and becomes 599.
    [
        "N 598 0 0/T 1 1 1/A 1196/D 1198/B 1197/R 0/C 1 1 1199",
        "N 598 0 0/M 1 1 1/A 1196/D 1198/C 1 1 1199",
    ],
    // A latch that takes a read bit of the first port, and one that holds itself.
    [
        "N 0 2 0/T 1 1 1/L 6 1/L 4 0/A 2/D 7/B 4/R 0/C 5 3 6",
        "N 0 2 0/M 1 1 1/L 6 1/L 4 0/A 2/D 7/C 5 3 6",
    ],
    // Decimals that lose a digit: wire 52, code 104, becomes wire 48, code 96.
    [
        "N 40 0 4/T 1 4 9/G 2 88/G 89 98/G 100 2/G 102 103/A 2/D 98/D 100/D 104/D 88/B 3/R 0/C 105 80 104",
        "N 40 0 4/M 1 4 9/G 2 88/G 89 90/G 92 2/G 94 95/A 2/D 90/D 92/D 96/D 88/C 97 80 96",
    ],
];

/// M sheets; they pass as they are.
const ONE_PORT: [&str; 5] = [
    FULL_RUN,
    RICH,
    UNKNOWN_RICH,
    "N 0 0 0/M 1 1/A 0/D 0/C 0 0 0",
    "N 2 0 1/M 1 2 3/G 6 9/A 2/D 10/D 11/C 1 1 10",
];

/// Sheets that are refused.
#[rustfmt::skip]
const REFUSED: [(&str, Verdict); 34] = [
    // The second RE: true, an input, a latch, a gate that is always false.
    ("N 1 1 0/T 1 1 0/L 4 0/A 2/D 6/B 2/R 1/C 1 1 6", (SECOND_PORT_USED, 7)),
    ("N 1 1 0/T 1 1 0/L 4 0/A 2/D 6/B 2/R 2/C 1 1 6", (SECOND_PORT_USED, 7)),
    ("N 1 1 0/T 1 1 0/L 4 0/A 2/D 6/B 2/R 3/C 1 1 6", (SECOND_PORT_USED, 7)),
    ("N 1 1 0/T 1 1 0/L 4 0/A 2/D 6/B 2/R 4/C 1 1 6", (SECOND_PORT_USED, 7)),
    ("N 1 0 1/T 1 1 0/G 0 0/A 2/D 4/B 2/R 8/C 1 1 4", (SECOND_PORT_USED, 7)),
    ("N 1 0 1/T 1 1 0/G 2 3/A 2/D 4/B 2/R 8/C 1 1 4", (SECOND_PORT_USED, 7)),
    // The first RE is the same wire: no matter.
    ("N 1 0 0/T 1 1 0/A 2/D 4/B 2/R 2/C 1 2 4", (SECOND_PORT_USED, 6)),
    // Sheets that stand elsewhere: a gate of a second read bit, R alone, a gate again.
    (TWO_READS, (SECOND_PORT_USED, 3)),
    (CONSTANT_READS, (SECOND_PORT_USED, 6)),
    (TWO_RICH, (SECOND_PORT_USED, 4)),
    // A second read bit whose port never reads is still named.
    ("N 1 0 0/T 1 1 0/A 2/D 4/B 2/R 0/C 1 1 6", (SECOND_PORT_USED, 7)),
    ("N 1 0 0/T 1 1 0/A 2/D 7/B 2/R 0/C 1 1 4", (SECOND_PORT_USED, 4)),
    // By a gate that nothing uses, and by a gate that is always false.
    ("N 1 0 1/T 1 1 0/G 6 2/A 2/D 4/B 2/R 0/C 1 1 4", (SECOND_PORT_USED, 3)),
    ("N 1 0 1/T 1 1 0/G 0 7/A 2/D 4/B 2/R 0/C 1 1 4", (SECOND_PORT_USED, 3)),
    // The first of several lines.
    ("N 1 1 1/T 1 1 0/L 8 0/G 8 8/A 2/D 8/B 2/R 1/C 8 1 8", (SECOND_PORT_USED, 3)),
    ("N 1 1 1/T 1 1 0/L 6 0/G 8 8/A 2/D 8/B 2/R 1/C 8 1 8", (SECOND_PORT_USED, 4)),
    ("N 1 1 1/T 1 1 0/L 6 0/G 6 6/A 2/D 8/B 2/R 1/C 8 1 8", (SECOND_PORT_USED, 6)),
    ("N 1 1 1/T 1 1 0/L 6 0/G 6 6/A 2/D 6/B 2/R 1/C 8 1 8", (SECOND_PORT_USED, 8)),
    ("N 1 1 1/T 1 1 0/L 6 0/G 6 6/A 2/D 6/B 2/R 0/C 8 1 8", (SECOND_PORT_USED, 9)),
    ("N 1 2 0/T 1 1 0/L 4 0/L 10 0/A 2/D 8/B 2/R 0/C 0 1 8", (SECOND_PORT_USED, 4)),
    ("N 1 0 2/T 1 1 0/G 2 2/G 8 6/A 2/D 4/B 2/R 0/C 0 1 4", (SECOND_PORT_USED, 4)),
    ("N 1 0 0/T 1 2 0/A 2/D 4/D 8/B 2/R 0/C 0 1 4", (SECOND_PORT_USED, 5)),
    // All tests of the sheet come before: loops of addresses and REs, ties, limits, lines.
    ("N 1 1 0/T 1 1 0/L 8 0/A 8/D 8/B 2/R 1/C 8 1 8", (MEMORY_LOOP, 4)),
    ("N 1 1 0/T 1 1 0/L 8 0/A 2/D 8/B 8/R 1/C 8 1 8", (MEMORY_LOOP, 6)),
    ("N 1 1 0/T 1 1 0/L 8 0/A 2/D 8/B 2/R 8/C 8 1 8", (MEMORY_LOOP, 7)),
    ("N 1 1 0/T 1 1 0/L 8 0/A 2/D 8/B 2/R 1/C 8 8 8", (MEMORY_LOOP, 8)),
    ("N 2 0 0/T 2 1 0/A 2/A 3/D 8/B 2/B 4/R 1/C 8 1 8", (TIED_ADDRESS, 4)),
    ("N 2 0 0/T 2 1 0/A 2/A 4/D 8/B 2/B 2/R 1/C 8 1 8", (TIED_ADDRESS, 7)),
    ("N 1 1 0/T 1 1 0/L 8 0/A 2/D 8/B 2/R 1/C 8 1 10", (CODE, 8)),
    ("N 1 1 0/T 1 1 0/L 8 2/A 2/D 8/B 2/R 1/C 8 1 8", (CODE, 3)),
    ("N 1 1 0/T 1 1 2/L 8 0/A 2/D 8/B 2/R 1/C 8 1 8", (SIZE, 2)),
    ("N 1 1 0/T 1 1/L 8 0/A 2/D 8/B 2/R 0/C 0 1 2", (SIZE, 2)),
    ("N 1 1 0/T 1 1 0/L 8 0/A 2/D 8/B 2/R 1", (OUT_OF_ORDER, 8)),
    ("N 1 1 0/T 1 1 0/L 8 0/A 2/D 8/B 2/R 1/C 8 1", (MISPRINT, 8)),
];

/// A sheet that is converted, with buffers of several lengths.
fn check_converted(tally: &mut Tally, name: &str, sheet: &[u8], expected: &[u8]) {
    let need = expected.len();
    for room in [need, need + 1, need + LINE_BYTES, usize::MAX] {
        let found = one_port(sheet, room);
        tally.check((name, room), found == Ok(expected.to_vec()));
    }
    for room in [0, 1, need - LINE_BYTES, need - 1] {
        let found = verdict(one_port(sheet, room));
        tally.equal((name, room), found, (NO_ROOM, 0));
    }
}

/// A refusal comes before 9, whatever the buffer.
fn check_refused(tally: &mut Tally, name: &str, sheet: &[u8], expected: Verdict) {
    for room in [0, 1, sheet.len(), usize::MAX] {
        let found = verdict(one_port(sheet, room));
        tally.equal((name, room), found, expected);
    }
}

pub fn by_hand(tally: &mut Tally) {
    check_converted(tally, "every kind of line", &UNUSED, &UNUSED_AS_M);
    check_converted(tally, "again", &UNUSED_AS_M, &UNUSED_AS_M);
    for [two, one] in CONVERTED {
        check_converted(tally, two, &expand(two), &expand(one));
    }
    for short in ONE_PORT {
        check_converted(tally, short, &expand(short), &expand(short));
    }
    check_converted(tally, "largest M", &largest_sheet(), &largest_sheet());
    for (short, expected) in REFUSED {
        check_refused(tally, short, &expand(short), expected);
    }
    let largest = largest_two_port_sheet();
    // Lines of the largest M sheet that V = 600 with 2n = 64 leaves room for.
    let need = largest.len() - 13 * LINE_BYTES;
    tally.equal(
        "largest T",
        one_port(&largest, need).map(|it| it.len()),
        Ok(need),
    );
    tally.equal(
        "largest T",
        verdict(one_port(&largest, need - 1)),
        (NO_ROOM, 0),
    );
    for sheet in [&b""[..], &UNUSED[1..], &[b'\n'; 20_096]] {
        check_refused(tally, "ragged", sheet, (RAGGED, 0));
    }
    check_refused(
        tally,
        "a line too many",
        &[&UNUSED[..], &UNUSED[..32]].concat(),
        (OUT_OF_ORDER, 14),
    );
}

/// The codes of UNUSED by line and field, with the refusal where they name a second read bit: an address
/// and an RE close a loop.
const CODE_FIELDS: [(u32, usize, u32); 15] = [
    (3, 0, SECOND_PORT_USED),
    (4, 0, SECOND_PORT_USED),
    (4, 1, SECOND_PORT_USED),
    (5, 0, SECOND_PORT_USED),
    (5, 1, SECOND_PORT_USED),
    (6, 0, MEMORY_LOOP),
    (7, 0, MEMORY_LOOP),
    (8, 0, SECOND_PORT_USED),
    (9, 0, SECOND_PORT_USED),
    (10, 0, MEMORY_LOOP),
    (11, 0, MEMORY_LOOP),
    (12, 0, MEMORY_LOOP),
    (13, 0, SECOND_PORT_USED),
    (13, 1, MEMORY_LOOP),
    (13, 2, SECOND_PORT_USED),
];

fn put(sheet: &mut [u8], line: u32, field: usize, code: u32) {
    let at = (line as usize - 1) * LINE_BYTES + 1 + field * 10;
    sheet[at..at + 10].copy_from_slice(format!("{code:>10}").as_bytes());
}

/// Each second read bit, plain and inverted, in each place for a code, and two in two places: a loop
/// comes before 18, else the first line decides.
pub fn every_use(tally: &mut Tally) {
    for (line, field, number) in CODE_FIELDS {
        for code in [10, 11, 12, 13] {
            let mut sheet = UNUSED;
            put(&mut sheet, line, field, code);
            let found = verdict(one_port(&sheet, 320));
            tally.equal((line, field, code), found, (number, line));
        }
        // The read bits beside them are no use, and the code of the gate behind them is none where it
        // may stand.
        for code in [8, 9, 14, 15] {
            let mut sheet = UNUSED;
            put(&mut sheet, line, field, code);
            let own_gate = line == 4 && code >= 14;
            let expected = match number {
                _ if own_gate => (CODE, line),
                // Gate 7 depends on read bit 4.
                MEMORY_LOOP => (MEMORY_LOOP, line),
                _ => (0, 0),
            };
            let found = verdict(one_port(&sheet, 320));
            tally.equal((line, field, code), found, expected);
        }
    }
    for (index, (line, field, number)) in CODE_FIELDS.iter().enumerate() {
        for (other_line, other_field, other_number) in &CODE_FIELDS[index + 1..] {
            let mut sheet = UNUSED;
            put(&mut sheet, *line, *field, 10);
            put(&mut sheet, *other_line, *other_field, 13);
            let expected = match (*number, *other_number) {
                (SECOND_PORT_USED, MEMORY_LOOP) => (MEMORY_LOOP, *other_line),
                (first, _) => (first, *line),
            };
            let found = verdict(one_port(&sheet, 320));
            tally.equal((line, field, other_line, other_field), found, expected);
        }
    }
}

/// The conversion of an accepted T sheet by its lines alone, without a record.
fn by_lines(sheet: &[u8]) -> Result<Vec<u8>, Verdict> {
    let field = |line: &[u8], index: usize| -> u32 {
        let bytes = &line[1 + 10 * index..11 + 10 * index];
        let text = std::str::from_utf8(bytes).expect("ASCII");
        text.trim_start().parse().expect("a number")
    };
    let lines: Vec<&[u8]> = sheet.chunks(LINE_BYTES).collect();
    let n = field(lines[1], 1);
    let last_first = field(lines[0], 0) + field(lines[0], 1) + n;
    let mut written = Vec::new();
    for (line, place) in lines.iter().zip(1..) {
        let mut new = line.to_vec();
        let codes = match line[0] {
            b'T' => {
                new[0] = b'M';
                0
            }
            b'N' => 0,
            b'G' => 2,
            b'C' => 3,
            _ => 1,
        };
        for index in 0..codes {
            let code = field(line, index);
            let named = code / 2 > last_first && code / 2 <= last_first + n;
            if named || (line[0] == b'R' && code != 0) {
                return Err((SECOND_PORT_USED, place));
            }
            if code / 2 > last_first {
                put(&mut new, 1, index, code - 2 * n);
            }
        }
        if line[0] != b'B' && line[0] != b'R' {
            written.extend(new);
        }
    }
    Ok(written)
}

/// The same netlist with a second port that is not used: its read bits give way to the first port's.
pub fn unused(mut netlist: Netlist) -> Netlist {
    let second = netlist.read_bits(SECOND_PORT);
    let shift = 2 * netlist.data_width;
    let replace = |code: &mut u32| {
        if second.contains(&(*code / 2)) {
            *code -= shift;
        }
    };
    netlist
        .latches
        .iter_mut()
        .for_each(|it| replace(&mut it.next));
    for gate in &mut netlist.gates {
        replace(&mut gate.left);
        replace(&mut gate.right);
    }
    netlist.write_data.iter_mut().for_each(replace);
    replace(&mut netlist.write_enable);
    replace(&mut netlist.property);
    netlist.second_read_enable = 0;
    netlist
}

/// A random T netlist whose second port is not used.
fn random_unused(random: &mut Random, tiny: bool) -> Netlist {
    unused(match tiny {
        true => tiny_two_ports(random),
        false => wide_two_ports(random),
    })
}

/// Random sheets against the conversion by lines, with the exact room.
pub fn random_sheets(tally: &mut Tally) {
    let mut random = Random::new(60);
    let [mut converted, mut refused] = [0; 2];
    for round in 0..1200 {
        let mut netlist = match round % 2 {
            0 => wide_two_ports(&mut random),
            _ => tiny_two_ports(&mut random),
        };
        if random.percent(60) {
            netlist = unused(netlist);
        }
        if random.percent(20) {
            netlist.second_read_enable = random.pick(&[0, 1]);
        }
        let sheet = write_sheet(&netlist);
        let expected = by_lines(&sheet);
        let need = expected.as_ref().map_or(0, Vec::len);
        let found = one_port(&sheet, need);
        tally.equal(
            (round, "by lines"),
            verdict(found.clone()),
            expected.clone().err().unwrap_or((0, 0)),
        );
        match found {
            Err(_) => refused += 1,
            Ok(bytes) => {
                converted += 1;
                tally.check((round, "bytes"), Ok(&bytes) == expected.as_ref());
                tally.equal(
                    (round, "short"),
                    verdict(one_port(&sheet, need - 1)),
                    (NO_ROOM, 0),
                );
                let again = one_port(&bytes, need);
                tally.check((round, "again"), again.as_ref() == Ok(&bytes));
                let read = read_sheet(&bytes, 600, 600);
                tally.check((round, "record"), read == without_second_port(&netlist));
                let wires = read.map(|it| it.wire_count() + it.data_width);
                tally.equal((round, "V"), wires, Ok(netlist.wire_count()));
            }
        }
        // An M sheet of any shape passes.
        let sheet = write_sheet(&tiny_netlist(&mut random));
        let passed = one_port(&sheet, sheet.len());
        tally.check((round, "M"), passed == Ok(sheet));
    }
    tally.check("enough converted", converted >= 300);
    tally.check("enough refused", refused >= 300);
    tally.remark = format!(" ({converted} converted, {refused} refused)");
}

/// For each wire of the M netlist, the one of the T netlist.
fn shared_wires(two: &Netlist) -> Vec<u32> {
    let second = two.read_bits(SECOND_PORT);
    (0..=two.wire_count())
        .filter(|wire| !second.contains(wire))
        .collect()
}

/// Whether both chips, stepped side by side, agree on the shared wires, on the property and at the end
/// on the memory. The M chip is not fed the second port's word.
fn runs_agree(two: &Netlist, one: &Netlist, feeds: &[Feed]) -> bool {
    let shared = shared_wires(two);
    let (mut of_two, mut of_one) = (Circuit::new(two), Circuit::new(one));
    let mut one_feeds = Vec::new();
    for feed in feeds {
        let one_feed = Feed::new(feed.inputs.clone(), feed.idle_word);
        let (values, one_values) = (of_two.step(feed), of_one.step(&one_feed));
        let on_shared: Vec<bool> = shared.iter().map(|wire| values[*wire as usize]).collect();
        let same_property = value(&values, two.property) == value(&one_values, one.property);
        if on_shared != one_values || !same_property {
            return false;
        }
        one_feeds.push(one_feed);
    }
    let (run, one_run) = (Run::new(two, feeds), Run::new(one, &one_feeds));
    run.first_break == one_run.first_break && run.words == one_run.words
}

/// Random runs of both, each with two words of the second port: neither has an effect.
pub fn runs(tally: &mut Tally) {
    let mut random = Random::new(61);
    let [mut broken, mut written] = [0; 2];
    for round in 0..1500 {
        let two = random_unused(&mut random, round % 3 != 0);
        let one = without_second_port(&two).expect("an unused second port");
        let depth = random.pick(&[0, 1, 3, 8, 20]);
        let mut feeds = random_feeds(&mut random, &two, depth);
        tally.check((round, "run"), runs_agree(&two, &one, &feeds));
        feeds.iter_mut().for_each(|feed| feed.second_idle_word ^= 1);
        tally.check((round, "another word"), runs_agree(&two, &one, &feeds));
        let run = Run::new(&two, &feeds);
        broken += usize::from(run.first_break.is_some());
        written += usize::from(run.words.iter().any(|word| *word != two.start_word));
    }
    tally.check("enough broken", broken >= 300 && broken <= 1400);
    tally.check("enough written", written >= 300);
    tally.remark = format!(" ({broken} break the property, {written} change the memory)");
}

/// Wrong conversions; runs must show each of them.
#[rustfmt::skip]
const WRONG: [(&str, fn(&Netlist, &mut Netlist)); 7] = [
    ("codes kept", |two, one| {
        one.latches.clone_from(&two.latches);
        one.gates.clone_from(&two.gates);
        one.property = two.property;
    }),
    ("property kept", |two, one| one.property = two.property),
    ("shifted by n", |two, one| if one.property != two.property { one.property += one.data_width }),
    ("reset dropped", |_, one| one.latches.iter_mut().for_each(|it| it.reset = 0)),
    ("start word dropped", |_, one| one.start_word = 0),
    ("second address", |two, one| one.address = two.second_address),
    ("second RE", |two, one| one.read_enable = two.second_read_enable),
];

pub fn wrong_conversions(tally: &mut Tally) {
    let mut random = Random::new(62);
    let mut caught = [0; WRONG.len()];
    for _ in 0..400 {
        let two = random_unused(&mut random, true);
        let one = without_second_port(&two).expect("an unused second port");
        let feeds = random_feeds(&mut random, &two, 6);
        for (count, (_, change)) in caught.iter_mut().zip(WRONG) {
            let mut wrong = one.clone();
            change(&two, &mut wrong);
            let seen = wrong.check().is_err() || !runs_agree(&two, &wrong, &feeds);
            *count += usize::from(seen);
        }
    }
    for (count, (name, _)) in caught.iter().zip(WRONG) {
        tally.check((name, count), *count >= 10);
    }
    tally.remark = format!(" (of 400 cases: {caught:?})");
}

/// All satisfying assignments of the formula to a depth.
fn models(netlist: &Netlist, depth: u32) -> Vec<Vec<bool>> {
    let formula = Formula::new(netlist, depth, Fault::None);
    let mut solver = Solver::new(formula.variable_count() as usize, &formula.numbers());
    let mut found = Vec::new();
    solver.models(&mut |model| found.push(model.to_vec()));
    found
}

/// The assignments of the T formula are those of the M formula on the variables that it has: shared wires
/// and the first port's pairs. The others are the second port's.
pub fn assignments(tally: &mut Tally) {
    let mut random = Random::new(63);
    let [mut satisfiable, mut of_m, mut of_t] = [0; 3];
    for round in 0..600 {
        let two = random_unused(&mut random, true);
        let one = without_second_port(&two).expect("an unused second port");
        let depth = random.below(3);
        let variables = renumbering(&two, &one, &shared_wires(&two), depth);
        let on_shared = |model: &Vec<bool>| -> Vec<bool> {
            variables.iter().map(|it| model[*it as usize]).collect()
        };
        let (one_models, two_models) = (models(&one, depth), models(&two, depth));
        let of_one: HashSet<Vec<bool>> = one_models.iter().cloned().collect();
        let of_two: HashSet<Vec<bool>> = two_models.iter().map(on_shared).collect();
        tally.check((round, depth, &two), of_one == of_two);
        satisfiable += usize::from(!of_one.is_empty());
        of_m += one_models.len();
        of_t += two_models.len();
    }
    tally.check("enough satisfiable", satisfiable >= 200);
    tally.check("both kinds", satisfiable <= 550);
    tally.remark =
        format!(" ({satisfiable} of 600 satisfiable, {of_m} assignments of M, {of_t} of T)");
}

/// The record's call: tests of records come first, unused entries do not matter.
pub fn records(tally: &mut Tally) {
    let two = read_sheet(&UNUSED, 600, 600).expect("an accepted sheet");
    let one = read_sheet(&UNUSED_AS_M, 600, 600);
    tally.check("record", without_second_port(&two) == one);
    let mut other = two.clone();
    other.address[2] = 10;
    other.write_data[2] = 10;
    other.second_address[2] = 10;
    other.latches.push(two.latches[0]);
    other.gates.push(two.gates[0]);
    tally.check("unused entries", without_second_port(&other) == one);
    for short in ONE_PORT {
        let record = accepted(short);
        tally.check(short, without_second_port(&record) == Ok(record.clone()));
    }
    let mut short_list = two.clone();
    short_list.gates.pop();
    tally.equal(
        "short list",
        verdict(without_second_port(&short_list)),
        (OUT_OF_ORDER, 0),
    );
    let mut both = two;
    both.latches[0].next = 10;
    tally.equal(
        "a use",
        verdict(without_second_port(&both)),
        (SECOND_PORT_USED, 3),
    );
    both.property = 18;
    tally.equal(
        "a use and a code",
        verdict(without_second_port(&both)),
        (CODE, 13),
    );
}
