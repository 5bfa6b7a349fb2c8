//! K14: files in binary AIGER, by hand, against the record's values and against the text's.

use super::aiger::Text;
use super::aiger_binary::{decode, BinaryFile, FileValues};
use super::aiger_values::{all_values, literal_value, random_given, VariableValues};
use super::check_examples::{accepted, of_sizes, FULL_RUN, RICH};
use super::check_ports::{two_port_record_rows, TWO_RICH};
use super::check_position::change_unused;
use super::check_refusals::{verdict, Verdict, ACCEPTED, RECORDS};
use super::circuit::{evaluate, value};
use super::export::{encode_difference, export};
use super::netlist::{Gate, Netlist};
use super::random::{damaged_record, tiny_two_ports, wide_netlist, Random, SHAPES};
use super::random_aiger::{draft_of, text_netlist, Numbering, NUMBERINGS};
use super::refusal::*;
use super::Tally;

/// Differences and their bytes; those that no sheet reaches included.
const DIFFERENCES: [(u32, &[u8]); 20] = [
    (0, &[0x00]),
    (1, &[0x01]),
    (2, &[0x02]),
    (126, &[0x7E]),
    (127, &[0x7F]),
    (128, &[0x80, 0x01]),
    (129, &[0x81, 0x01]),
    (255, &[0xFF, 0x01]),
    (256, &[0x80, 0x02]),
    (258, &[0x82, 0x02]),
    (1199, &[0xAF, 0x09]),
    (1200, &[0xB0, 0x09]),
    (16_382, &[0xFE, 0x7F]),
    (16_383, &[0xFF, 0x7F]),
    (16_384, &[0x80, 0x80, 0x01]),
    (16_387, &[0x83, 0x80, 0x01]),
    (2_097_151, &[0xFF, 0xFF, 0x7F]),
    (2_097_152, &[0x80, 0x80, 0x80, 0x01]),
    (268_435_455, &[0xFF, 0xFF, 0xFF, 0x7F]),
    (268_435_463, &[0x87, 0x80, 0x80, 0x80, 0x01]),
];

/// How many bytes a difference has: one for every seven bits begun.
fn byte_count(difference: u32) -> usize {
    let bits = (0..32).rev().find(|bit| difference >> bit & 1 == 1);
    bits.map_or(1, |highest| highest / 7 + 1)
}

/// A file with no outputs and one gate, which has this literal.
fn one_gate(own: u32, differences: &[u8]) -> Vec<u8> {
    let header = format!("aig {} {} 0 0 1\n", own / 2, own / 2 - 1);
    [header.as_bytes(), differences].concat()
}

/// Files and what they say: inputs, next states, outputs, gates.
type Said = (u64, &'static [u64], &'static [u64], &'static [[u64; 2]]);

#[rustfmt::skip]
const FILES: [(&[u8], Said); 13] = [
    (b"aig 0 0 0 0 0\n", (0, &[], &[], &[])),
    (b"aig 0 0 0 1 0\n0\n", (0, &[], &[0], &[])),
    (b"aig 0 0 0 1 0\n1\n", (0, &[], &[1], &[])),
    (b"aig 1 1 0 1 0\n3\n", (1, &[], &[3], &[])),
    // A latch that turns in each step, with both its outputs.
    (b"aig 1 0 1 2 0\n3\n2\n3\n", (0, &[3], &[2, 3], &[])),
    // AND and OR of two inputs.
    (b"aig 3 2 0 1 1\n6\n\x02\x02", (2, &[], &[6], &[[4, 2]])),
    (b"aig 3 2 0 1 1\n7\n\x01\x02", (2, &[], &[7], &[[5, 3]])),
    // Both signs of a variable, one literal twice, constants.
    (b"aig 2 1 0 0 1\n\x01\x01", (1, &[], &[], &[[3, 2]])),
    (b"aig 2 1 0 0 1\n\x02\x00", (1, &[], &[], &[[2, 2]])),
    (b"aig 1 0 0 0 1\n\x02\x00", (0, &[], &[], &[[0, 0]])),
    (b"aig 1 0 0 0 1\n\x01\x01", (0, &[], &[], &[[1, 0]])),
    // Differences that are a line feed and a space, or digits.
    (b"aig 40 39 0 0 1\n\n ", (39, &[], &[], &[[70, 38]])),
    (b"aig 100 99 0 0 1\n00", (99, &[], &[], &[[152, 104]])),
];

/// Texts behind a file with two inputs, one latch and one output, and whether they are well formed.
const TAILS: [(&[u8], bool); 22] = [
    (b"", true),
    (b"i0 x\n", true),
    (b"i0 x\ni1 long name\nl0 q\no0 out\n", true),
    (b"c\n", true),
    (b"c\nanything\xFF\n\n", true),
    (b"c\nno line feed", true),
    (b"o0 out\nc\nanything", true),
    (b"\n", false),
    (b" ", false),
    (b"0\n", false),
    (b"c", false),
    (b"cc\n", false),
    (b"i0 x", false),
    (b"i0\n", false),
    (b"i0 \n", false),
    (b"i x\n", false),
    (b"i2 x\n", false),
    (b"l1 x\n", false),
    (b"o1 x\n", false),
    (b"i00 x\n", false),
    (b"a0 x\n", false),
    (b"c\n\x00", true),
];

/// Files that are not well formed.
const MALFORMED: [&[u8]; 47] = [
    b"",
    b"aig",
    b"aig 0 0 0 0",
    b"aig 0 0 0 0 0",
    b"aig 0 0 0 0\n",
    b"aig 0 0 0 0 0 0\n",
    b"aag 0 0 0 0 0\n",
    b"AIG 0 0 0 0 0\n",
    b" aig 0 0 0 0 0\n",
    b"aig  0 0 0 0 0\n",
    b"aig 0 0 0 0 0 \n",
    b"aig 0 0 0 0 0\r\n",
    b"aig 0 0 0 0 -0\n",
    b"aig 0 0 0 0 +0\n",
    b"aig 0 0 0 0 00\n",
    b"aig 00 0 0 0 0\n",
    b"aig 0 0 0 0 \n",
    b"aig 0 0 0 x 0\n",
    // M is not I + L + A.
    b"aig 1 0 0 0 0\n",
    b"aig 0 1 0 0 0\n",
    b"aig 1 1 1 0 0\n2\n",
    b"aig 4294967296 4294967296 0 0 0\n",
    b"aig 4294967295 1 4294967295 4294967295 4294967295\n",
    // Lines that are missing, cut, too long or too many.
    b"aig 1 0 1 0 0\n",
    b"aig 1 0 1 0 0\n2",
    b"aig 1 0 1 0 0\n4\n",
    b"aig 1 0 1 0 0\n2 0\n",
    b"aig 1 0 1 0 0\n2 3\n",
    b"aig 1 0 1 0 0\n2\n3\n",
    b"aig 1 0 1 0 0\n02\n",
    b"aig 1 0 1 0 0\n\n",
    b"aig 0 0 0 1 0\n2\n",
    b"aig 0 0 0 2 0\n0\n",
    b"aig 0 0 0 1 0\n0\n0\n",
    // ASCII AIGER's lines of inputs and latches.
    b"aig 1 1 0 0 0\n2\n",
    b"aig 2 1 1 0 0\n2\n4 2\n",
    // Gates: none, one difference, a difference of 0 first, differences that go below 0.
    b"aig 3 2 0 0 1\n",
    b"aig 3 2 0 0 1\n\x02",
    b"aig 3 2 0 0 1\n\x00\x02",
    b"aig 3 2 0 0 1\n\x07\x00",
    b"aig 3 2 0 0 1\n\x06\x01",
    b"aig 3 2 0 0 1\n\x02\x05",
    // Bytes behind the gates, and differences with a byte too many or without their last byte.
    b"aig 3 2 0 0 1\n\x02\x02\x02",
    b"aig 3 2 0 0 1\n\x82\x00\x02",
    b"aig 3 2 0 0 1\n\x02\x80\x00",
    b"aig 3 2 0 0 1\n\x02\x80",
    b"aig 3 2 0 0 1\n\x02\x82\x80\x80\x80\x80\x80\x00",
];

/// The decoder and the bytes of differences.
pub fn decoder(tally: &mut Tally) {
    for (difference, bytes) in DIFFERENCES {
        tally.equal(difference, encode_difference(difference), bytes.to_vec());
        tally.equal(difference, byte_count(difference), bytes.len());
        // As a gate's first difference and as its second.
        let own = (difference + 5) & !1;
        let first = decode(&one_gate(own, &[bytes, &[0]].concat()));
        let operand = u64::from(own - difference);
        let expected = Some([operand; 2]).filter(|_| difference > 0);
        tally.equal((difference, "first"), first.map(|it| it.gates[0]), expected);
        let second = decode(&one_gate(own, &[&[1], bytes].concat()));
        let [larger, smaller] = [u64::from(own - 1), u64::from(own - 1 - difference)];
        let found = second.map(|it| it.gates);
        tally.equal((difference, "second"), found, Some(vec![[larger, smaller]]));
    }
    for (file, (inputs, next_states, outputs, gates)) in FILES {
        let expected = BinaryFile {
            inputs,
            next_states: next_states.to_vec(),
            outputs: outputs.to_vec(),
            gates: gates.to_vec(),
            tail: Vec::new(),
        };
        tally.equal(file, decode(file), Some(expected));
    }
    for (tail, expected) in TAILS {
        let file = [&b"aig 3 2 1 1 0\n6\n2\n"[..], tail].concat();
        let found = decode(&file).map(|it| it.tail);
        let expected = expected.then(|| tail.to_vec());
        tally.equal(String::from_utf8_lossy(tail), found, expected);
    }
    for file in MALFORMED {
        tally.equal(String::from_utf8_lossy(file), decode(file), None);
    }
    let huge = decode(b"aig 4294967295 4294967295 0 1 0\n8589934591\n").map(|it| it.outputs);
    tally.equal("largest literal", huge, Some(vec![8_589_934_591]));
    let beyond = decode(b"aig 4294967295 4294967295 0 1 0\n8589934592\n");
    tally.equal("beyond the largest literal", beyond, None);
    evaluation(tally);
}

/// A sum bit and a carry of two inputs, and a latch that takes the sum: gates 4 to 6 are carry, neither
/// and neither of both.
fn evaluation(tally: &mut Tally) {
    let file = decode(b"aig 6 2 1 3 3\n12\n12\n8\n7\n\x04\x02\x05\x02\x01\x02").expect("a file");
    tally.equal("gates", &file.gates, &vec![[4, 2], [5, 3], [11, 9]]);
    for (inputs, latch, sum, carry) in [
        ([false, false], false, false, false),
        ([true, false], true, true, false),
        ([false, true], false, true, false),
        ([true, true], true, false, true),
    ] {
        let expected = FileValues {
            gates: vec![carry, inputs == [false, false], sum],
            next_states: vec![sum],
            outputs: vec![sum, carry, !latch],
        };
        tally.equal(inputs, file.evaluate(&inputs, &[latch]), expected);
    }
}

/// Sheets in short form, and their files: the lines, `/` for a line feed, and the differences.
#[rustfmt::skip]
const EXPORTED: [(&str, &str, &[u8]); 26] = [
    (FULL_RUN, "aig 2 2 0 5 0/0/2/1/1/5/", &[]),
    ("N 0 0 0/M 1 1 0/A 0/D 0/C 0 0 0", "aig 1 1 0 5 0/0/0/0/0/0/", &[]),
    ("N 0 0 0/M 1 1/A 1/D 2/C 3 1 2", "aig 1 1 0 5 0/1/2/3/1/2/", &[]),
    // RICH with reset 0: read bits 3 and 4 become 2 and 3, latch 2 becomes 4.
    (
        "N 1 1 1/M 2 2 2/L 10 0/G 2 7/A 4/A 3/D 10/D 8/C 11 5 9",
        "aig 5 3 1 7 1/10/8/3/10/6/11/9/7/", &[5, 3],
    ),
    // Start word and its absence are not written.
    (
        "N 1 1 1/M 2 2/L 10 0/G 2 7/A 4/A 3/D 10/D 8/C 11 5 9",
        "aig 5 3 1 7 1/10/8/3/10/6/11/9/7/", &[5, 3],
    ),
    // Latches 1 and 2 become 3 and 4, read bits 3 and 4 become 1 and 2.
    (
        "N 0 2 0/M 1 2 3/L 4 0/L 7 0/A 3/D 5/D 8/C 6 2 9",
        "aig 4 2 2 6 0/8/3/7/9/4/2/6/5/", &[],
    ),
    // Latch 2 and read bit 3 change places: the latch is the larger operand in the file. Gate 4.
    ("N 1 1 1/M 1 1 0/L 8 0/G 4 6/A 2/D 8/C 8 1 8", "aig 4 2 1 5 1/8/2/8/8/1/8/", &[2, 2]),
    ("N 1 1 1/M 1 1 0/L 8 0/G 6 4/A 2/D 8/C 8 1 8", "aig 4 2 1 5 1/8/2/8/8/1/8/", &[2, 2]),
    ("N 1 1 1/M 1 1 0/L 8 0/G 4 7/A 2/D 8/C 8 1 8", "aig 4 2 1 5 1/8/2/8/8/1/8/", &[2, 1]),
    ("N 1 1 1/M 1 1 0/L 8 0/G 5 7/A 2/D 8/C 8 1 8", "aig 4 2 1 5 1/8/2/8/8/1/8/", &[1, 2]),
    // Both signs of one wire, equal operands, constants.
    ("N 1 1 1/M 1 1 0/L 8 0/G 4 5/A 2/D 8/C 8 1 8", "aig 4 2 1 5 1/8/2/8/8/1/8/", &[1, 1]),
    ("N 1 1 1/M 1 1 0/L 8 0/G 5 4/A 2/D 8/C 8 1 8", "aig 4 2 1 5 1/8/2/8/8/1/8/", &[1, 1]),
    ("N 1 1 1/M 1 1 0/L 8 0/G 4 4/A 2/D 8/C 8 1 8", "aig 4 2 1 5 1/8/2/8/8/1/8/", &[2, 0]),
    ("N 1 1 1/M 1 1 0/L 8 0/G 0 0/A 2/D 8/C 8 1 8", "aig 4 2 1 5 1/8/2/8/8/1/8/", &[8, 0]),
    ("N 1 1 1/M 1 1 0/L 8 0/G 0 1/A 2/D 8/C 8 1 8", "aig 4 2 1 5 1/8/2/8/8/1/8/", &[7, 1]),
    ("N 1 1 1/M 1 1 0/L 8 0/G 1 1/A 2/D 8/C 8 1 8", "aig 4 2 1 5 1/8/2/8/8/1/8/", &[7, 0]),
    ("N 1 1 1/M 1 1 0/L 8 0/G 0 3/A 2/D 8/C 8 1 8", "aig 4 2 1 5 1/8/2/8/8/1/8/", &[5, 3]),
    // Gates of gates keep their numbers; next codes and outputs of gates too.
    (
        "N 1 1 3/M 1 1 0/L 13 0/G 2 4/G 8 9/G 11 6/A 8/D 12/C 10 9 13",
        "aig 6 2 1 5 3/13/8/12/10/9/13/", &[2, 4, 1, 1, 1, 7],
    ),
    // The gate is wire 64: a first difference of 127 and of 128.
    ("N 62 0 1/M 1 1 0/G 1 0/A 0/D 0/C 0 0 0", "aig 64 63 0 5 1/0/0/0/0/0/", &[0x7F, 1]),
    ("N 62 0 1/M 1 1 0/G 0 0/A 0/D 0/C 0 0 0", "aig 64 63 0 5 1/0/0/0/0/0/", &[0x80, 1, 0]),
    ("N 62 0 1/M 1 1 0/G 126 0/A 0/D 0/C 0 0 0", "aig 64 63 0 5 1/0/0/0/0/0/", &[2, 0x7E]),
    ("N 62 0 1/M 1 1 0/G 127 0/A 0/D 0/C 0 0 0", "aig 64 63 0 5 1/0/0/0/0/0/", &[1, 0x7F]),
    // The gate is wire 65: a second difference of 127, 128 and 129.
    ("N 63 0 1/M 1 1 0/G 1 128/A 0/D 0/C 0 0 0", "aig 65 64 0 5 1/0/0/0/0/0/", &[2, 0x7F]),
    ("N 63 0 1/M 1 1 0/G 0 128/A 0/D 0/C 0 0 0", "aig 65 64 0 5 1/0/0/0/0/0/", &[2, 0x80, 1]),
    ("N 63 0 1/M 1 1 0/G 129 0/A 0/D 0/C 0 0 0", "aig 65 64 0 5 1/0/0/0/0/0/", &[1, 0x81, 1]),
    // The largest wire: second differences of 1198.
    ("N 598 0 1/M 1 1 0/G 1 1199/A 0/D 0/C 0 0 0", "aig 600 599 0 5 1/0/0/0/0/0/", &[1, 0xAE, 9]),
];

fn check_file(tally: &mut Tally, name: &str, record: &Netlist, file: &[u8]) {
    let need = file.len();
    for room in [need, need + 1, usize::MAX] {
        let found = export(record, room);
        tally.equal((name, room), found, Ok(file.to_vec()));
    }
    for room in [0, 1, need - 1] {
        tally.equal((name, room), verdict(export(record, room)), (NO_ROOM, 0));
    }
}

pub fn by_hand(tally: &mut Tally) {
    let mut random = Random::new(70);
    for (short, lines, differences) in EXPORTED {
        let file = [lines.replace('/', "\n").as_bytes(), differences].concat();
        let mut record = accepted(short);
        check_file(tally, short, &record, &file);
        change_unused(&mut random, &mut record);
        check_file(tally, "unused entries", &record, &file);
    }
    // The largest first difference, 1200, and the largest second one, 1199.
    let lines = &b"aig 600 599 0 5 1\n0\n0\n0\n0\n0\n"[..];
    let mut record = of_sizes([598, 0, 1], [1, 1]);
    check_file(tally, "1200", &record, &[lines, &[0xB0, 9, 0]].concat());
    record.gates[0] = Gate {
        left: 0,
        right: 1199,
    };
    check_file(tally, "1199", &record, &[lines, &[1, 0xAF, 9]].concat());
    refusals(tally);
}

/// Three latches: lines 3 to 5.
const LATCHES: &str = "N 1 3 0/M 1 1 0/L 2 0/L 4 0/L 6 0/A 2/D 10/C 1 1 10";

/// Resets of `LATCHES`.
const RESETS: [([u32; 3], Verdict); 10] = [
    ([0, 0, 0], (NO_ROOM, 0)),
    ([1, 0, 0], (RESET_TO_1, 3)),
    ([0, 1, 0], (RESET_TO_1, 4)),
    ([0, 0, 1], (RESET_TO_1, 5)),
    ([1, 1, 0], (RESET_TO_1, 3)),
    ([0, 1, 1], (RESET_TO_1, 4)),
    ([1, 1, 1], (RESET_TO_1, 3)),
    // Another reset is 5, at the first such line.
    ([1, 0, 2], (CODE, 5)),
    ([2, 1, 0], (CODE, 3)),
    ([0, u32::MAX, 0], (CODE, 4)),
];

/// Every refusal with a buffer of no length, and, but for 9, with any.
fn refusals(tally: &mut Tally) {
    for (resets, expected) in RESETS {
        let mut record = accepted(LATCHES);
        for (latch, reset) in record.latches.iter_mut().zip(resets) {
            latch.reset = reset;
        }
        tally.equal(resets, verdict(export(&record, 0)), expected);
        if expected.0 != NO_ROOM {
            tally.equal(resets, verdict(export(&record, usize::MAX)), expected);
        }
        // A latch behind the size has no effect.
        record.latches.push(record.latches[0]);
        tally.equal(resets, verdict(export(&record, 0)), expected);
    }
    let unknown = "N 1 3 0/M 1 1/L 2 0/L 4 0/L 6 1/A 2/D 10/C 1 1 10";
    tally.equal(
        unknown,
        verdict(export(&accepted(unknown), 0)),
        (RESET_TO_1, 5),
    );
    // The only latch of RICH has reset 1, which comes behind the record's tests.
    for (name, change, expected) in RECORDS {
        let mut record = accepted(RICH);
        change(&mut record);
        let expected = match expected {
            ACCEPTED if record.latch_count == 0 || record.latches[0].reset == 0 => (NO_ROOM, 0),
            ACCEPTED => (RESET_TO_1, 3),
            refused => refused,
        };
        tally.equal(name, verdict(export(&record, 0)), expected);
    }
    // A T sheet's record: its own tests, then 3 at 2; the latch of TWO_RICH has reset 1.
    tally.equal(
        TWO_RICH,
        verdict(export(&accepted(TWO_RICH), 0)),
        (OUT_OF_ORDER, 2),
    );
    for (name, record, expected) in two_port_record_rows() {
        let expected = match expected {
            ACCEPTED if record.two_ports == 1 => (OUT_OF_ORDER, 2),
            ACCEPTED => continue,
            refused => refused,
        };
        tally.equal((name, "T"), verdict(export(&record, 0)), expected);
    }
}

/// The file that the report gives for a text whose variables are numbered in its order: lines as they
/// are, without the literals that are defined, and the differences of the gates.
fn binary_of(text: &Text) -> Vec<u8> {
    let counts = [
        text.largest_variable as usize,
        text.inputs.len(),
        text.latches.len(),
        text.outputs.len(),
        text.gates.len(),
    ];
    let mut lines = format!("aig {}", counts.map(|it| it.to_string()).join(" "));
    let next_states = text.latches.iter().map(|latch| latch[1]);
    for literal in next_states.chain(text.outputs.iter().copied()) {
        lines += &format!("\n{literal}");
    }
    let mut bytes = (lines + "\n").into_bytes();
    for [own, left, right] in &text.gates {
        for difference in [own - left.max(right), left.abs_diff(*right)] {
            let count = byte_count(difference);
            bytes.extend((0..count).map(|at| {
                let more = if at + 1 < count { 0x80 } else { 0 };
                (difference >> (7 * at)) as u8 & 0x7F | more
            }));
        }
    }
    bytes
}

/// Whether each gate, next state and output of a file has the value that it has in the record, for given
/// inputs, latches and read bits.
fn has_values_of_record(
    file: &BinaryFile,
    netlist: &Netlist,
    inputs: &[bool],
    latches: &[bool],
    read_word: u32,
) -> bool {
    let read_bits = (0..netlist.data_width).map(|bit| read_word >> bit & 1 == 1);
    let file_inputs: Vec<bool> = inputs.iter().copied().chain(read_bits).collect();
    let found = file.evaluate(&file_inputs, latches);

    let values = evaluate(netlist, inputs, latches, read_word);
    let of_codes =
        |codes: &[u32]| -> Vec<bool> { codes.iter().map(|code| value(&values, *code)).collect() };
    let next_codes: Vec<u32> = netlist.latches.iter().map(|latch| latch.next).collect();
    let controls = [netlist.write_enable, netlist.read_enable, netlist.property];
    let outputs = [
        netlist.address_codes(),
        netlist.write_data_codes(),
        &controls,
    ]
    .concat();
    let expected = FileValues {
        gates: values[netlist.first_gate() as usize..].to_vec(),
        next_states: of_codes(&next_codes),
        outputs: of_codes(&outputs),
    };
    found == expected
}

/// The same for random values.
fn agrees_with_record(random: &mut Random, file: &BinaryFile, netlist: &Netlist) -> bool {
    let inputs: Vec<bool> = (0..netlist.inputs).map(|_| random.percent(50)).collect();
    let latches: Vec<bool> = (0..netlist.latch_count)
        .map(|_| random.percent(50))
        .collect();
    let read_word = random.next() as u32;
    has_values_of_record(file, netlist, &inputs, &latches, read_word)
}

/// The same for a text, whatever its numbering: the k-th gate, next state and output of the file has the
/// value of the text's k-th.
fn agrees_with_text(file: &BinaryFile, text: &Text, given: &VariableValues) -> bool {
    let values = all_values(text, given);
    let value_of = |literal: u32| literal_value(&values, literal);
    let inputs: Vec<bool> = text.inputs.iter().map(|it| value_of(*it)).collect();
    let latches: Vec<bool> = text.latches.iter().map(|it| value_of(it[0])).collect();
    let expected = FileValues {
        gates: text.gates.iter().map(|gate| value_of(gate[0])).collect(),
        next_states: text
            .latches
            .iter()
            .map(|latch| value_of(latch[1]))
            .collect(),
        outputs: text.outputs.iter().map(|it| value_of(*it)).collect(),
    };
    file.evaluate(&inputs, &latches) == expected
}

/// Files of random records: their bytes against those of the text in file order, and their values.
pub fn random_records(tally: &mut Tally) {
    let mut random = Random::new(71);
    let mut shapes = [0; SHAPES.len()];
    let [mut long, mut exchanged, mut gates] = [0; 3];
    for round in 0..600 {
        let netlist = text_netlist(&mut random);
        let text = draft_of(&mut random, &netlist, Numbering::InOrder).text;
        let bytes = binary_of(&text);
        let found = export(&netlist, bytes.len());
        tally.check((round, "bytes"), found.as_ref() == Ok(&bytes));
        let short = export(&netlist, bytes.len() - 1);
        tally.equal((round, "short"), verdict(short), (NO_ROOM, 0));
        let file = found.ok().and_then(|bytes| decode(&bytes));
        let file = match file {
            Some(file) if file.tail.is_empty() => file,
            _ => {
                tally.check((round, "decoded"), false);
                continue;
            }
        };
        for _ in 0..8 {
            let agrees = agrees_with_record(&mut random, &file, &netlist);
            tally.check((round, "values"), agrees);
        }
        for (gate, [own, ..]) in file.gates.iter().zip(&text.gates) {
            gates += 1;
            long += usize::from(u64::from(*own) - gate[0] > 127 || gate[0] - gate[1] > 127);
        }
        // Gates whose larger operand is the smaller one in the file, a latch above a read bit.
        let operands = netlist.gates.iter().zip(&text.gates);
        let changed = |(gate, text): &(&Gate, &[u32; 3])| {
            gate.left != gate.right && (gate.left > gate.right) != (text[1] > text[2])
        };
        exchanged += operands.filter(changed).count();
        for (count, (_, has_shape)) in shapes.iter_mut().zip(SHAPES) {
            *count += usize::from(has_shape(&netlist));
        }
        // A part of a file is none.
        let cuts = (0..bytes.len()).filter(|_| bytes.len() < 300);
        let none = cuts.map(|end| decode(&bytes[..end])).all(|it| it.is_none());
        tally.check((round, "cut"), none);
    }
    for (count, (name, _)) in shapes.iter().zip(SHAPES) {
        tally.check((name, count), *count >= 10);
    }
    tally.check(("long differences", long), long >= 1000);
    tally.check(("operands that change places", exchanged), exchanged >= 100);
    tally.remark = format!(
        " ({gates} gates, {long} with a difference of two bytes, {exchanged} whose operands change places)"
    );
}

/// All values of records with few inputs, latches and read bits.
pub fn all_record_values(tally: &mut Tally) {
    let mut random = Random::new(72);
    let mut evaluated = 0;
    for round in 0..300 {
        let netlist = text_netlist(&mut random);
        let (i, l, n) = (netlist.inputs, netlist.latch_count, netlist.data_width);
        if i + l + n > 9 {
            continue;
        }
        let file = export(&netlist, usize::MAX).ok();
        let file = file.and_then(|bytes| decode(&bytes)).expect("a file");
        let bits = |all: u32, first: u32, count: u32| -> Vec<bool> {
            (first..first + count)
                .map(|bit| all >> bit & 1 == 1)
                .collect()
        };
        let agrees = (0..1 << (i + l + n)).all(|all| {
            let (inputs, latches) = (bits(all, 0, i), bits(all, i, l));
            has_values_of_record(&file, &netlist, &inputs, &latches, all >> (i + l))
        });
        tally.check((round, "all values"), agrees);
        evaluated += 1usize << (i + l + n);
    }
    tally.check("enough", evaluated >= 3000);
    tally.remark = format!(" ({evaluated} values)");
}

/// Texts in every numbering, imported and exported: the file's values are the text's.
pub fn texts(tally: &mut Tally) {
    let mut random = Random::new(73);
    for round in 0..250 {
        let netlist = text_netlist(&mut random);
        let mut files = Vec::new();
        for numbering in NUMBERINGS {
            let draft = draft_of(&mut random, &netlist, numbering);
            let imported = draft.call().import();
            let exported = imported.and_then(|record| export(&record, usize::MAX));
            let bytes = exported.unwrap_or_default();
            let file = match decode(&bytes) {
                Some(file) => file,
                None => {
                    tally.check((round, numbering, "decoded"), false);
                    continue;
                }
            };
            for _ in 0..8 {
                let given = random_given(&mut random, &draft.text);
                let agrees = agrees_with_text(&file, &draft.text, &given);
                tally.check((round, numbering, "values"), agrees);
            }
            files.push(bytes);
        }
        // Numbering has no effect on the file.
        tally.check(
            (round, "files"),
            files.len() == 3 && files.iter().all(|it| *it == files[0]),
        );
    }
}

/// Refusals of random and of damaged records.
pub fn random_refusals(tally: &mut Tally) {
    let mut random = Random::new(74);
    let [mut set, mut refused, mut exported] = [0; 3];
    for round in 0..1500 {
        let record = match round % 3 {
            0 => tiny_two_ports(&mut random),
            _ => wide_netlist(&mut random),
        };
        let record = damaged_record(&mut random, &record);
        let first_set = record.latches.iter().position(|latch| latch.reset == 1);
        let expected = match (record.check(), first_set) {
            (Err(refusal), _) => (refusal.number, refusal.place),
            _ if record.has_two_ports() => (OUT_OF_ORDER, 2),
            (_, Some(index)) => (RESET_TO_1, 3 + index as u32),
            _ => ACCEPTED,
        };
        tally.equal(round, verdict(export(&record, usize::MAX)), expected);
        set += usize::from(expected.0 == RESET_TO_1);
        refused += usize::from(record.check().is_err());
        exported += usize::from(expected == ACCEPTED);
    }
    tally.check(
        "enough of each",
        set >= 100 && refused >= 100 && exported >= 100,
    );
    tally.remark = format!(" ({exported} exported, 19: {set}, refused before: {refused})");
}

/// The files of wrong records part from the right one's values: the comparison can fail.
pub fn wrong_files(tally: &mut Tally) {
    let mut random = Random::new(75);
    let [mut rounds, mut found] = [0; 2];
    while rounds < 200 {
        let netlist = text_netlist(&mut random);
        let mut wrong = netlist.clone();
        match random.below(6) {
            0 => wrong.write_enable ^= 1,
            1 => std::mem::swap(&mut wrong.write_enable, &mut wrong.property),
            2 if netlist.latch_count > 1 => wrong.latches.swap(0, 1),
            3 if netlist.gate_count > 1 => wrong.gates.swap(0, 1),
            4 if netlist.data_width > 1 => wrong.write_data.swap(0, 1),
            // Latch and read bit exchanged, as if they were not renumbered.
            5 if netlist.latch_count == 1 && netlist.data_width == 1 => {
                let latch = netlist.first_latch();
                for gate in &mut wrong.gates {
                    for code in [&mut gate.left, &mut gate.right] {
                        if [latch, latch + 1].contains(&(*code / 2)) {
                            *code = 2 * (2 * latch + 1 - *code / 2) + *code % 2;
                        }
                    }
                }
            }
            _ => continue,
        }
        if wrong == netlist || wrong.check().is_err() {
            continue;
        }
        rounds += 1;
        let bytes = export(&wrong, usize::MAX).unwrap_or_default();
        let file = decode(&bytes).expect("a file");
        let parts = (0..40).any(|_| !agrees_with_record(&mut random, &file, &netlist));
        found += usize::from(parts);
    }
    // Two codes may differ and yet have the same value always.
    tally.check(("found", found), found >= 140);
    tally.remark = format!(" ({found} of {rounds} wrong records found)");
}
