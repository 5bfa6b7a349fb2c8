//! Texts of K1: verdicts and netlists written down by hand, and random texts against what they say
//! and against the sheets that one would retype from them.

use super::aiger::{read_text, Text};
use super::aiger_values::{differences, random_given, read_words};
use super::check_examples::{accepted, bytes_of, of_sizes, FULL_RUN};
use super::check_refusals::{verdict, Verdict, ACCEPTED};
use super::netlist::Netlist;
use super::random::{Random, SHAPES};
use super::random_aiger::{
    add_tail, any_text_netlist, damaged_call, draft_of, every_byte, every_line, random_draft, Call,
    BYTE_FAULTS, DRAFT_FAULTS, NUMBERINGS, TEXT_SHAPES,
};
use super::refusal::*;
use super::sheet::{expand, read_sheet};
use super::Tally;

/// A name, a call, and the netlist or the refusal that it must answer with.
pub type TextRow = (String, Call, Result<Netlist, Verdict>);

/// The sheet that a text stands for, in short form, or the verdict on the text.
type Expected = Result<&'static str, Verdict>;

fn row(short: &str, memory: [u32; 3], rooms: [usize; 2], expected: Expected) -> TextRow {
    let call = Call {
        text: bytes_of(short),
        memory,
        unknown_start: 0,
        second_port: 0,
        rooms,
    };
    let name = format!("{} {memory:?} {rooms:?}", short.escape_debug());
    (name, call, expected.map(accepted))
}

/// Room enough for every text.
const ROOMY: [usize; 2] = [600, 600];

/// The smallest memory: m = n = 1, start word 0.
const SMALL: [u32; 3] = [1, 1, 0];

/// The text of the full run: an input, a read bit, five outputs.
const BARE: &str = "aag 2 2 0 5 0/2/4/0/2/1/1/5/";

/// Whole texts with m = n = 1 and start word 0.
#[rustfmt::skip]
const TEXTS: [(&str, Expected); 81] = [
    (BARE, Ok(FULL_RUN)),
    // Variables get their wires in the order of the text, the read bits behind the latches.
    ("aag 2 2 0 5 0/4/2/0/4/1/1/3/", Ok(FULL_RUN)),
    ("aag 3 2 1 5 0/2/4/6 7/6/2/1/6/5/", Ok("N 1 1 0/M 1 1 0/L 5 0/A 4/D 2/C 1 4 7")),
    ("aag 9 2 1 5 0/18/4/2 3/2/18/1/2/5/", Ok("N 1 1 0/M 1 1 0/L 5 0/A 4/D 2/C 1 4 7")),
    // Gates and operands keep their order, whatever their numbers.
    ("aag 4 2 0 5 2/2/4/2/6/8/1/9/8 4 2/6 2 9/", Ok("N 1 0 2/M 1 1 0/G 4 2/G 2 7/A 2/D 8/C 6 1 7")),
    ("aag 3 2 0 5 1/2/4/2/6/1/1/7/6 4 5/", Ok("N 1 0 1/M 1 1 0/G 4 5/A 2/D 6/C 1 1 7")),
    ("aag 3 2 0 5 1/2/4/2/6/1/1/7/6 2 2/", Ok("N 1 0 1/M 1 1 0/G 2 2/A 2/D 6/C 1 1 7")),
    // Next codes and outputs may name later lines.
    ("aag 5 2 2 5 1/2/4/6 8/8 11/6/10/11/9/10/10 5 0/",
        Ok("N 1 2 1/M 1 1 0/L 6 0/L 11 0/G 9 0/A 4/D 10/C 11 7 10")),
    // Constants everywhere, and no input but the read bit.
    ("aag 3 1 1 5 1/2/4 1/0/1/0/0/1/6 0 1/", Ok("N 0 1 1/M 1 1 0/L 1 0/G 0 1/A 0/D 1/C 0 0 1")),
    ("aag 1 1 0 5 0/2/0/3/3/1/3/", Ok("N 0 0 0/M 1 1 0/A 0/D 3/C 3 1 3")),
    // Whatever stands behind the last line due.
    ("aag 2 2 0 5 0/2/4/0/2/1/1/5/i0 a/o4 good/c/any text", Ok(FULL_RUN)),
    ("aag 2 2 0 5 0/2/4/0/2/1/1/5/2 2 2", Ok(FULL_RUN)),
    ("aag 2 2 0 5 0/2/4/0/2/1/1/5//", Ok(FULL_RUN)),
    ("aag 2 2 0 5 0/2/4/0/2/1/1/5/ ", Ok(FULL_RUN)),
    ("aag 2 2 0 5 0/2/4/0/2/1/1/5/\r", Ok(FULL_RUN)),
    ("aag 2 2 0 5 0/2/4/0/2/1/1/5/\0", Ok(FULL_RUN)),
    ("aag 2 2 0 5 0/2/4/0/2/1/1/5/aag 2 2 0 5 0/2/4/0/2/1/1/5/", Ok(FULL_RUN)),
    // M may be larger than needed, and 2M + 1 larger than 32 bits hold.
    ("aag 3 2 0 5 0/2/4/0/2/1/1/5/", Ok(FULL_RUN)),
    ("aag 4294967295 2 0 5 0/2/4/0/2/1/1/5/", Ok(FULL_RUN)),
    ("aag 2147483647 2 0 5 0/2/4294967294/0/2/1/1/4294967295/", Ok(FULL_RUN)),
    ("aag 2147483648 2 0 5 0/2/4294967294/0/2/1/1/4294967295/", Ok(FULL_RUN)),
    ("aag 2147483649 2 0 5 0/2/4/0/2/1/1/5/", Ok(FULL_RUN)),
    ("aag 4294967295 2 0 5 0/2/4294967294/0/2/1/1/4294967295/", Ok(FULL_RUN)),
    ("aag 2147483646 2 0 5 0/2/4294967294/0/2/1/1/4294967295/", Err((11, 3))),
    ("aag 2147483646 2 0 5 0/2/4294967292/0/2/1/1/4294967294/", Err((11, 8))),
    ("aag 2147483646 2 0 5 0/2/4294967292/0/2/1/1/4294967293/", Ok(FULL_RUN)),
    ("aag 4294967295 2 0 5 0/2/4294967296/0/2/1/1/1/", Err((11, 3))),
    ("aag 4294967295 2 0 5 0/2/4/0/2/1/1/4294967295/", Err((13, 8))),
    // A text that ends early, between lines and within one.
    ("", Err((11, 1))),
    ("/", Err((11, 1))),
    ("aag", Err((11, 1))),
    ("aag 2 2 0 5 0", Err((11, 1))),
    ("aag 0 0 0 0 0", Err((11, 1))),
    ("aag 2 2 0 5 0/", Err((11, 2))),
    ("aag 2 2 0 5 0/2", Err((11, 2))),
    ("aag 2 2 0 5 0/2/", Err((11, 3))),
    ("aag 2 2 0 5 0/2/4/0/2/1/1/", Err((11, 8))),
    ("aag 2 2 0 5 0/2/4/0/2/1/1/5", Err((11, 8))),
    ("aag 3 2 0 5 1/2/4/2/6/1/1/7/6 4 5", Err((11, 9))),
    ("aag 3 2 0 5 1/2/4/2/6/1/1/7/", Err((11, 9))),
    // Lines dropped and doubled are noticed where the lines no longer fit.
    ("aag 3 2 1 5 0/2/6 7/6/2/1/6/5/", Err((11, 3))),
    ("aag 3 2 1 5 0/2/4/6/2/1/6/5/", Err((11, 4))),
    ("aag 3 2 1 5 0/2/4/4/6 7/6/2/1/6/5/", Err((11, 4))),
    ("aag 3 2 0 5 1/2/4/2/6/1/1/6 4 5/", Err((11, 8))),
    ("aag 3 2 0 5 1/2/4/2/6/1/1/7/7/6 4 5/", Err((11, 9))),
    // Counts far beyond the text: the first line that is missing or not of the kind due.
    ("aag 4294967295 4294967295 4294967295 4294967295 4294967295/", Err((11, 2))),
    ("aag 4294967295 4294967295 0 0 0/2/4/", Err((11, 4))),
    ("aag 4294967295 0 4294967295 0 0/2 0/", Err((11, 3))),
    ("aag 4294967295 0 0 4294967295 0/0/0/0/", Err((11, 5))),
    ("aag 4294967295 0 0 0 4294967295/2 0 0/", Err((11, 3))),
    ("aag 2 2 0 5 4294967295/2/4/0/2/1/1/5/", Err((11, 9))),
    ("aag 2 2 0 5 4294967289/2/4/0/2/1/1/5/", Err((11, 9))),
    ("aag 2 2 4294967295 5 0/2/4/0/2/1/1/5/", Err((11, 4))),
    // M smaller than I + L + A passes the header; a later line cannot.
    ("aag 1 2 0 5 0/2/4/0/2/1/1/1/", Err((11, 3))),
    ("aag 1 2 0 5 0/2/2/0/2/1/1/1/", Err((11, 3))),
    ("aag 1 2 0 5 0/2/", Err((11, 3))),
    ("aag 0 2 0 5 0/2/4/0/2/1/1/1/", Err((11, 2))),
    ("aag 0 0 0 5 0/0/1/1/2/0/", Err((11, 5))),
    ("aag 0 0 0 5 0/0/1/1/1/0/", Err((12, 0))),
    // Gates: defined again, operands of later lines or of their own.
    ("aag 4 2 0 5 2/2/4/2/6/8/1/9/8 4 2/8 2 9/", Err((11, 10))),
    ("aag 4 2 0 5 2/2/4/2/6/8/1/9/8 4 6/6 2 9/", Err((13, 9))),
    ("aag 4 2 0 5 2/2/4/2/6/8/1/9/6 2 9/8 4 2/", Err((13, 9))),
    ("aag 4 2 0 5 2/2/4/2/6/8/1/9/8 4 2/6 2 7/", Err((13, 10))),
    ("aag 4 2 0 5 2/2/4/2/6/8/1/9/8 8 2/6 7 2/", Err((13, 9))),
    // A variable never defined: the first line of the text, be it a latch's, an output's, a gate's.
    ("aag 5 2 1 5 1/2/4/6 10/6/2/1/1/8/8 2 10/", Err((13, 4))),
    ("aag 5 2 1 5 1/2/4/6 7/6/2/1/1/11/8 2 10/", Err((13, 9))),
    ("aag 5 2 1 5 1/2/4/6 7/6/2/1/1/8/8 2 10/", Err((13, 10))),
    // An address bit or RE that depends on a read bit has its place in the sheet.
    ("aag 2 2 0 5 0/2/4/4/2/1/1/5/", Err((6, 3))),
    ("aag 2 2 0 5 0/2/4/5/2/1/1/5/", Err((6, 3))),
    ("aag 2 2 0 5 0/2/4/2/2/1/4/5/", Err((6, 5))),
    ("aag 2 2 0 5 0/2/4/4/2/1/4/5/", Err((6, 3))),
    ("aag 2 2 0 5 0/2/4/2/4/4/2/4/", Ok("N 1 0 0/M 1 1 0/A 2/D 4/C 4 2 4")),
    ("aag 3 2 0 5 1/2/4/6/2/1/1/5/6 4 0/", Err((6, 4))),
    ("aag 4 2 0 5 2/2/4/2/2/1/9/5/6 4 0/8 6 6/", Err((6, 7))),
    ("aag 4 2 1 5 1/2/4/6 0/8/2/1/1/5/8 2 5/", Err((6, 5))),
    ("aag 2 1 1 5 0/2/4 2/4/2/1/4/3/", Ok("N 0 1 0/M 1 1 0/L 4 0/A 2/D 4/C 1 2 5")),
    // 11 anywhere comes before 12 and 13, 13 before 6.
    ("aag 3 1 0 5 0/7/0/2/1/1/5/", Err((11, 2))),
    ("aag 3 2 0 4 0/2/4/6/2/1/08/", Err((11, 7))),
    ("aag 3 2 0 5 0/2/4/6/2/1/1/8/", Err((11, 8))),
    ("aag 3 2 0 6 0/2/4/6/2/1/1/5/5/", Err((12, 0))),
    ("aag 3 2 0 5 0/2/4/4/2/1/1/6/", Err((13, 8))),
];

/// Headers that are refused at line 1, before the lines of `BARE`.
const HEADERS: [&str; 42] = [
    "",
    "aag",
    "aag ",
    "aag 2 2 0 5",
    "aag 2 2 0 5 ",
    "aag 2 2 0 5 0 ",
    " aag 2 2 0 5 0",
    "aag  2 2 0 5 0",
    "aag 2  2 0 5 0",
    "aag 2 2 0 5  0",
    "aag\t2 2 0 5 0",
    "aag 2\t2 0 5 0",
    "aag 2 2 0 5 0\t",
    "aag 2 2 0 5 0\r",
    "aag 2 2 0 5 0\0",
    "\u{FEFF}aag 2 2 0 5 0",
    "aig 2 2 0 5 0",
    "AAG 2 2 0 5 0",
    "aagg 2 2 0 5 0",
    "aa 2 2 0 5 0",
    "aag2 2 0 5 0",
    "aag2 2 2 0 5 0",
    "2 2 0 5 0",
    "c aag 2 2 0 5 0",
    // Numbers as in the sheet, without padding.
    "aag 02 2 0 5 0",
    "aag 2 2 00 5 0",
    "aag 2 2 0 5 00",
    "aag +2 2 0 5 0",
    "aag 2 +2 0 5 0",
    "aag 2 2 -0 5 0",
    "aag 2 2 0x0 5 0",
    "aag 2.0 2 0 5 0",
    "aag 2,2,0,5,0",
    "aag 4294967296 2 0 5 0",
    "aag 4294967298 2 0 5 0",
    "aag 18446744073709551618 2 0 5 0",
    "aag 2 4294967298 0 5 0",
    "aag 2 2 0 5 4294967296",
    // AIGER 1.9.
    "aag 2 2 0 5 0 0",
    "aag 2 2 0 5 0 0 0",
    "aag 2 2 0 5 0 0 0 0",
    "aag 2 2 0 5 0 0 0 0 0",
];

/// A text with every kind of line, m = n = 2 and start word 2. Inputs are lines 2 to 4, the latch
/// is 5, the address 6 and 7, write data 8 and 9, WE 10, RE 11, P 12, the gate 13. Variables 2 and
/// 3 are the read bits and variable 6 is not defined.
const RICH_TEXT: &str = "aag 6 3 1 7 1/2/4/6/8 10/8/3/10/6/11/9/7/10 2 5/";

/// Its sheet. Wires: input 1, latch 2, read bits 3 and 4, gate 5.
const RICH_SHEET: &str = "N 1 1 1/M 2 2 2/L 10 0/G 2 7/A 4/A 3/D 10/D 8/C 11 5 9";

const RICH_MEMORY: [u32; 3] = [2, 2, 2];

/// A line of `RICH_TEXT`, what stands there instead, and the line of the sheet that becomes
/// another, or the verdict.
type LineRow = (usize, &'static str, Result<(usize, &'static str), Verdict>);

#[rustfmt::skip]
const RICH_LINES: [LineRow; 113] = [
    // Inputs: one even literal above 1 and not above 2M + 1, not defined before.
    (2, "0", Err((11, 2))),
    (2, "1", Err((11, 2))),
    (2, "3", Err((11, 2))),
    (2, "13", Err((11, 2))),
    (2, "14", Err((11, 2))),
    (2, "4", Err((11, 3))),
    (3, "2", Err((11, 3))),
    (4, "2", Err((11, 4))),
    (2, "8", Err((11, 5))),
    (2, "10", Err((11, 13))),
    (2, "12", Err((13, 7))),
    (2, "", Err((11, 2))),
    (2, " ", Err((11, 2))),
    (2, " 2", Err((11, 2))),
    (2, "2 ", Err((11, 2))),
    (2, "2 4", Err((11, 2))),
    (2, "2\r", Err((11, 2))),
    (2, "2\t", Err((11, 2))),
    (2, "\t2", Err((11, 2))),
    (2, "02", Err((11, 2))),
    (2, "+2", Err((11, 2))),
    (2, "-2", Err((11, 2))),
    (2, "2x", Err((11, 2))),
    (2, "0x2", Err((11, 2))),
    (2, "i", Err((11, 2))),
    (2, "\u{662}", Err((11, 2))),
    (2, "4294967298", Err((11, 2))),
    (2, "18446744073709551618", Err((11, 2))),
    // Latches: two numbers, the first as an input's, the second any up to 2M + 1.
    (5, "8 0", Ok((3, "L 0 0"))),
    (5, "8 1", Ok((3, "L 1 0"))),
    (5, "8 8", Ok((3, "L 4 0"))),
    (5, "8 9", Ok((3, "L 5 0"))),
    (5, "8 7", Ok((3, "L 9 0"))),
    (5, "8 11", Ok((3, "L 11 0"))),
    (5, "8 12", Err((13, 5))),
    (5, "8 13", Err((13, 5))),
    (5, "8 14", Err((11, 5))),
    (5, "8 15", Err((11, 5))),
    (5, "8 4294967295", Err((11, 5))),
    (5, "8 4294967296", Err((11, 5))),
    (5, "8", Err((11, 5))),
    (5, "8 ", Err((11, 5))),
    (5, "8 10 0", Err((11, 5))),
    (5, "8 10 1", Err((11, 5))),
    (5, "8 10 8", Err((11, 5))),
    (5, "0 10", Err((11, 5))),
    (5, "1 10", Err((11, 5))),
    (5, "9 10", Err((11, 5))),
    (5, "6 10", Err((11, 5))),
    (5, "14 10", Err((11, 5))),
    (5, "10 10", Err((11, 13))),
    (5, "12 10", Err((13, 6))),
    (5, "8  10", Err((11, 5))),
    (5, "8 10 ", Err((11, 5))),
    (5, " 8 10", Err((11, 5))),
    (5, "8\t10", Err((11, 5))),
    (5, "8 010", Err((11, 5))),
    (5, "8 +10", Err((11, 5))),
    (5, "8 10\r", Err((11, 5))),
    // Outputs: one number up to 2M + 1. The sheet's places: A 5 and 6, C 9.
    (6, "0", Ok((5, "A 0"))),
    (6, "1", Ok((5, "A 1"))),
    (6, "2", Err((17, 6))),
    (6, "3", Err((17, 6))),
    (6, "4", Err((6, 5))),
    (6, "7", Err((6, 5))),
    (6, "10", Err((6, 5))),
    (6, "11", Err((6, 5))),
    (6, "12", Err((13, 6))),
    (6, "13", Err((13, 6))),
    (6, "14", Err((11, 6))),
    (6, "8 8", Err((11, 6))),
    (6, "08", Err((11, 6))),
    (6, "", Err((11, 6))),
    (7, "6", Err((6, 6))),
    (7, "8", Err((17, 6))),
    (7, "9", Err((17, 6))),
    (7, "0", Ok((6, "A 0"))),
    (7, "1", Ok((6, "A 1"))),
    (7, "2", Ok((6, "A 2"))),
    (8, "4", Ok((7, "D 6"))),
    (8, "13", Err((13, 8))),
    (9, "12", Err((13, 9))),
    (10, "5", Ok((9, "C 7 5 9"))),
    (10, "12", Err((13, 10))),
    (11, "2", Ok((9, "C 11 2 9"))),
    (11, "4", Err((6, 9))),
    (11, "11", Err((6, 9))),
    (11, "12", Err((13, 11))),
    (12, "0", Ok((9, "C 11 5 0"))),
    (12, "13", Err((13, 12))),
    (12, "14", Err((11, 12))),
    (12, "7 ", Err((11, 12))),
    // Gates: three numbers, operands defined before their line.
    (13, "10 0 1", Ok((4, "G 0 1"))),
    (13, "10 8 9", Ok((4, "G 4 5"))),
    (13, "10 5 2", Ok((4, "G 7 2"))),
    (13, "10 2 10", Err((13, 13))),
    (13, "10 11 2", Err((13, 13))),
    (13, "10 12 2", Err((13, 13))),
    (13, "10 2 13", Err((13, 13))),
    (13, "10 2 14", Err((11, 13))),
    (13, "10 14 2", Err((11, 13))),
    (13, "12 2 5", Err((13, 5))),
    (13, "11 2 5", Err((11, 13))),
    (13, "0 2 5", Err((11, 13))),
    (13, "1 2 5", Err((11, 13))),
    (13, "2 2 5", Err((11, 13))),
    (13, "8 2 5", Err((11, 13))),
    (13, "14 2 5", Err((11, 13))),
    (13, "10 2", Err((11, 13))),
    (13, "10 2 5 0", Err((11, 13))),
    (13, "10  2 5", Err((11, 13))),
    (13, "10 2 5 ", Err((11, 13))),
    (13, "10 2 5\r", Err((11, 13))),
];

/// Texts with m, n and start word.
#[rustfmt::skip]
const MEMORIES: [(&str, [u32; 3], Expected); 39] = [
    // 12: at least n inputs, exactly m + n + 3 outputs, counted without wrapping.
    (BARE, [1, 0, 0], Err((12, 0))),
    (BARE, [1, 2, 0], Err((12, 0))),
    (BARE, [0, 1, 0], Err((12, 0))),
    (BARE, [2, 1, 0], Err((12, 0))),
    (BARE, [1, u32::MAX, 0], Err((12, 0))),
    (BARE, [u32::MAX, 1, 0], Err((12, 0))),
    (BARE, [u32::MAX, u32::MAX, 0], Err((12, 0))),
    ("aag 2 2 0 6 0/2/4/0/2/2/1/1/5/", [1, 2, 0], Ok("N 0 0 0/M 1 2 0/A 0/D 2/D 2/C 1 1 5")),
    ("aag 2 2 0 7 0/2/4/0/2/2/2/1/1/5/", [1, 3, 0], Err((12, 0))),
    ("aag 3 3 0 5 0/2/4/6/0/2/1/1/5/", [u32::MAX, 3, 0], Err((12, 0))),
    ("aag 1 1 0 0 0/2/", [u32::MAX - 3, 1, 0], Err((12, 0))),
    // 4 comes after 12: m and n of 0 with outputs that fit.
    (BARE, [2, 0, 0], Err((4, 2))),
    (BARE, [0, 2, 0], Err((4, 2))),
    ("aag 1 1 0 4 0/2/0/1/1/1/", [0, 1, 0], Err((4, 2))),
    ("aag 0 0 0 4 0/0/1/1/1/", [1, 0, 0], Err((4, 2))),
    ("aag 0 0 0 3 0/1/1/1/", [0, 0, 0], Err((4, 2))),
    // Start words.
    (BARE, [1, 1, 1], Ok("N 1 0 0/M 1 1 1/A 0/D 2/C 1 1 5")),
    (BARE, [1, 1, 2], Err((4, 2))),
    (BARE, [1, 1, u32::MAX], Err((4, 2))),
    // The last n inputs are the read bits: variable 1 is one with n = 2, not with n = 1.
    ("aag 2 2 0 6 0/2/4/2/1/2/1/1/5/", [2, 1, 0], Ok("N 1 0 0/M 2 1 0/A 2/A 1/D 2/C 1 1 5")),
    ("aag 2 2 0 6 0/2/4/2/1/2/1/1/5/", [1, 2, 0], Err((6, 3))),
    // 17: the first address bit whose wire an earlier one has, inverted or not, before 6 and behind 4.
    // Constants may repeat.
    ("aag 2 2 0 6 0/2/4/2/2/2/1/1/5/", [2, 1, 0], Err((17, 4))),
    ("aag 2 2 0 6 0/2/4/2/3/2/1/1/5/", [2, 1, 0], Err((17, 4))),
    ("aag 2 2 0 6 0/2/4/2/2/2/1/1/5/", [2, 1, 2], Err((4, 2))),
    ("aag 2 2 0 6 0/2/4/2/2/6/1/1/5/", [2, 1, 0], Err((11, 6))),
    ("aag 3 2 0 6 0/2/4/2/2/6/1/1/5/", [2, 1, 0], Err((13, 6))),
    ("aag 2 2 0 6 0/2/4/4/5/2/1/1/5/", [2, 1, 0], Err((17, 4))),
    ("aag 2 2 0 6 0/2/4/2/3/2/1/4/5/", [2, 1, 0], Err((17, 4))),
    ("aag 2 2 0 6 0/2/4/1/1/2/1/1/5/", [2, 1, 0], Ok("N 1 0 0/M 2 1 0/A 1/A 1/D 2/C 1 1 5")),
    ("aag 3 3 0 8 0/2/4/6/2/4/3/5/2/1/1/5/", [4, 1, 0], Err((17, 5))),
    ("aag 3 3 0 8 0/2/4/6/0/2/1/3/2/1/1/5/", [4, 1, 0], Err((17, 6))),
    ("aag 3 3 0 8 0/2/4/6/2/6/7/3/2/1/1/5/", [4, 1, 0], Err((17, 5))),
    ("aag 4 3 0 7 1/2/4/6/8/2/8/2/1/1/5/8 2 2/", [3, 1, 0], Err((17, 6))),
    ("aag 4 3 0 7 1/2/4/6/8/2/4/2/1/1/5/8 2 2/", [3, 1, 0],
        Ok("N 2 0 1/M 3 1 0/G 2 2/A 8/A 2/A 4/D 2/C 1 1 5")),
    ("aag 2 2 0 6 0/2/4/2/2/2/1/1/5/", [1, 2, 0], Err((6, 3))),
    ("aag 2 2 0 6 0/2/4/2/4/2/1/4/5/", [2, 1, 0], Err((6, 4))),
    // 13 before 4, 4 before 6, 12 before both.
    ("aag 3 2 0 5 0/2/4/4/2/1/1/6/", [1, 1, 2], Err((13, 8))),
    ("aag 2 2 0 5 0/2/4/4/2/1/1/5/", [1, 1, 2], Err((4, 2))),
    ("aag 3 2 0 5 0/2/4/4/2/1/1/6/", [1, 3, 2], Err((12, 0))),
];

/// Texts with m, n and start word, the flag of the start, and the sheet or the verdict.
#[rustfmt::skip]
const STARTS: [(&str, [u32; 3], u32, Expected); 18] = [
    (BARE, [1, 1, 0], 1, Ok(UNKNOWN_FULL_RUN)),
    // The start word is then not looked at, nor is it in the record.
    (BARE, [1, 1, 1], 1, Ok(UNKNOWN_FULL_RUN)),
    (BARE, [1, 1, 2], 1, Ok(UNKNOWN_FULL_RUN)),
    (BARE, [1, 1, u32::MAX], 1, Ok(UNKNOWN_FULL_RUN)),
    (RICH_TEXT, [2, 2, 0], 1, Ok(UNKNOWN_RICH)),
    (RICH_TEXT, [2, 2, 4], 1, Ok(UNKNOWN_RICH)),
    (RICH_TEXT, [2, 2, 4], 0, Err((4, 2))),
    // Above 1 it is a size.
    (BARE, [1, 1, 0], 2, Err((4, 2))),
    (BARE, [1, 1, 0], u32::MAX, Err((4, 2))),
    (BARE, [1, 1, 2], 3, Err((4, 2))),
    // m and n keep their limits, and every test its place in the order.
    (BARE, [2, 0, 0], 1, Err((4, 2))),
    (BARE, [0, 2, 0], 1, Err((4, 2))),
    (BARE, [1, 2, 0], 1, Err((12, 0))),
    (BARE, [1, 2, 0], 2, Err((12, 0))),
    ("aag 3 2 0 5 0/2/4/4/2/1/1/6/", [1, 1, 0], 2, Err((13, 8))),
    ("aag 2 2 0 5 0/2/4/4/2/1/1/5/", [1, 1, 0], 2, Err((4, 2))),
    ("aag 2 2 0 5 0/2/4/4/2/1/1/5/", [1, 1, 9], 1, Err((6, 3))),
    ("aag 2 2 0 6 0/2/4/2/2/2/1/1/5/", [2, 1, 9], 1, Err((17, 4))),
];

/// The sheets of `BARE` and `RICH_TEXT` with an unknown start.
const UNKNOWN_FULL_RUN: &str = "N 1 0 0/M 1 1/A 0/D 2/C 1 1 5";
const UNKNOWN_RICH: &str = "N 1 1 1/M 2 2/L 10 0/G 2 7/A 4/A 3/D 10/D 8/C 11 5 9";

/// Lengths of the lent lists. `RICH_TEXT` needs one record in each.
#[rustfmt::skip]
const ROOMS: [(&str, [u32; 3], [usize; 2], Expected); 12] = [
    (RICH_TEXT, RICH_MEMORY, [1, 1], Ok(RICH_SHEET)),
    (RICH_TEXT, RICH_MEMORY, [2, 600], Ok(RICH_SHEET)),
    (RICH_TEXT, RICH_MEMORY, [usize::MAX, usize::MAX], Ok(RICH_SHEET)),
    (RICH_TEXT, RICH_MEMORY, [0, 1], Err((9, 0))),
    (RICH_TEXT, RICH_MEMORY, [1, 0], Err((9, 0))),
    (RICH_TEXT, RICH_MEMORY, [0, 0], Err((9, 0))),
    (BARE, SMALL, [0, 0], Ok(FULL_RUN)),
    // Short lists come last.
    ("aag 4 2 1 5 1/2/4/6 0/8/2/1/1/5/8 2 5/", SMALL, [0, 0], Err((6, 5))),
    (RICH_TEXT, [2, 2, 4], [0, 0], Err((4, 2))),
    ("aag 5 2 1 5 1/2/4/6 10/6/2/1/1/8/8 2 2/", SMALL, [0, 0], Err((13, 4))),
    (RICH_TEXT, SMALL, [0, 0], Err((12, 0))),
    ("aag 5 2 1 5 1/2/4/6 7/6/2/1/1/8/8 2 2", SMALL, [0, 0], Err((11, 10))),
];

/// The text's inputs, latches and gates, m, n and start word, with m + n + 3 outputs and all codes
/// 0: the sizes' verdicts. The record's I is n less than the text's inputs.
const SIZES: [([u32; 3], [u32; 3], Verdict); 36] = [
    ([600, 0, 0], [1, 1, 0], ACCEPTED),
    ([601, 0, 0], [1, 1, 0], (4, 2)),
    ([602, 0, 0], [1, 1, 0], (4, 1)),
    ([600, 0, 0], [1, 32, 0], ACCEPTED),
    ([601, 0, 0], [1, 32, 0], (4, 2)),
    ([632, 0, 0], [1, 32, 0], (4, 2)),
    ([633, 0, 0], [1, 32, 0], (4, 1)),
    ([1, 599, 0], [1, 1, 0], ACCEPTED),
    ([1, 600, 0], [1, 1, 0], (4, 2)),
    ([1, 601, 0], [1, 1, 0], (4, 1)),
    ([1, 0, 599], [1, 1, 0], ACCEPTED),
    ([1, 0, 600], [1, 1, 0], (4, 2)),
    ([1, 0, 601], [1, 1, 0], (4, 1)),
    ([200, 200, 200], [1, 1, 0], ACCEPTED),
    ([201, 200, 200], [1, 1, 0], (4, 2)),
    ([601, 600, 600], [1, 1, 0], (4, 2)),
    ([602, 601, 601], [1, 1, 0], (4, 1)),
    // m, n and start word; line 1 before line 2.
    ([1, 0, 0], [0, 1, 0], (4, 2)),
    ([1, 0, 0], [12, 1, 0], ACCEPTED),
    ([1, 0, 0], [13, 1, 0], (4, 2)),
    ([602, 0, 0], [13, 1, 0], (4, 1)),
    ([0, 0, 0], [1, 0, 0], (4, 2)),
    ([600, 0, 0], [1, 0, 0], (4, 2)),
    ([601, 0, 0], [1, 0, 0], (4, 1)),
    ([32, 0, 0], [1, 32, 0], ACCEPTED),
    ([33, 0, 0], [1, 33, 0], (4, 2)),
    ([633, 0, 0], [1, 33, 0], (4, 2)),
    ([634, 0, 0], [1, 33, 0], (4, 1)),
    ([2, 0, 0], [1, 2, 3], ACCEPTED),
    ([2, 0, 0], [1, 2, 4], (4, 2)),
    ([31, 0, 0], [1, 31, 2_147_483_647], ACCEPTED),
    ([31, 0, 0], [1, 31, 2_147_483_648], (4, 2)),
    ([32, 0, 0], [1, 32, u32::MAX], ACCEPTED),
    // V = 600 with every kind.
    ([32, 300, 268], [12, 32, 0], ACCEPTED),
    ([33, 300, 268], [12, 32, 0], (4, 2)),
    // Far beyond.
    ([5000, 5000, 5000], [1, 1, 0], (4, 1)),
];

/// A text of given counts in which every code is 0, with variables as tools number them; `/` for line feeds.
pub fn plain_text(counts: [u32; 3], outputs: u32) -> String {
    let [inputs, latches, gates] = counts;
    let all = inputs + latches + gates;
    let mut text = format!("aag {all} {inputs} {latches} {outputs} {gates}/");
    for variable in 1..=inputs {
        text += &format!("{}/", 2 * variable);
    }
    for variable in inputs + 1..=inputs + latches {
        text += &format!("{} 0/", 2 * variable);
    }
    text += &"0/".repeat(outputs as usize);
    for variable in inputs + latches + 1..=all {
        text += &format!("{} 0 0/", 2 * variable);
    }
    text
}

fn size_rows() -> Vec<TextRow> {
    let mut rows = Vec::new();
    for (counts, memory, expected) in SIZES {
        let [m, n, start_word] = memory;
        let call = Call {
            text: bytes_of(&plain_text(counts, m + n + 3)),
            memory,
            unknown_start: 0,
            second_port: 0,
            rooms: ROOMY,
        };
        let expected = match expected {
            ACCEPTED => Ok(Netlist {
                start_word,
                ..of_sizes([counts[0] - n, counts[1], counts[2]], [m, n])
            }),
            refused => Err(refused),
        };
        rows.push((format!("{counts:?} {memory:?}"), call, expected));
    }
    rows
}

/// Texts of about a million bytes.
fn long_rows() -> Vec<TextRow> {
    let many = 1_000_000;
    let after = |header: &str, rest: String| header.to_string() + &rest;
    let inputs = plain_text([130_000, 0, 0], 5);
    let again = inputs.replacen("/260000/", "/2/", 1);
    let gates = plain_text([1, 0, 80_000], 5);
    let texts = [
        ("no line feed", "a".repeat(many), SMALL, (11, 1)),
        ("line feeds", "/".repeat(many), SMALL, (11, 1)),
        (
            "spaces",
            after("aag", " ".repeat(many) + "/"),
            SMALL,
            (11, 1),
        ),
        (
            "words",
            after("aag", " 0".repeat(many / 2) + "/"),
            SMALL,
            (11, 1),
        ),
        (
            "digits",
            after("aag 2 2 0 5 0/", "2".repeat(many) + "/"),
            SMALL,
            (11, 2),
        ),
        (
            "zeros",
            after("aag 2 2 0 5 0/", "0".repeat(many) + "2/"),
            SMALL,
            (11, 2),
        ),
        ("inputs", inputs, SMALL, (4, 1)),
        ("the last input is the first", again, SMALL, (11, 130_001)),
        ("gates", gates.clone(), SMALL, (4, 1)),
        (
            "a line short",
            gates.replacen(" 80000/", " 80001/", 1),
            SMALL,
            (11, 80_008),
        ),
        (
            "an operand of the last",
            gates.replacen("/4 0 0/", "/4 0 160003/", 1),
            SMALL,
            (13, 8),
        ),
        ("outputs", plain_text([1, 0, 0], 400_000), SMALL, (12, 0)),
        (
            "wide address",
            plain_text([1, 0, 0], 400_000),
            [399_996, 1, 0],
            (4, 2),
        ),
    ];
    let mut rows = Vec::new();
    for (name, short, memory, expected) in texts {
        let (_, call, _) = row(&short, memory, ROOMY, Err(expected));
        rows.push((name.to_string(), call, Err(expected)));
    }
    let (_, call, expected) = row(
        &after(BARE, "/c".repeat(many / 2)),
        SMALL,
        ROOMY,
        Ok(FULL_RUN),
    );
    rows.push(("comments".to_string(), call, expected));
    rows
}

/// `RICH_TEXT` with another line, and the sheet that it then stands for.
fn line_rows() -> Vec<TextRow> {
    let replaced = |short: &str, line: usize, by: &str| {
        let mut lines: Vec<&str> = short.split('/').collect();
        lines[line - 1] = by;
        lines.join("/")
    };
    let mut rows = Vec::new();
    for (line, by, expected) in RICH_LINES {
        let call = Call {
            text: bytes_of(&replaced(RICH_TEXT, line, by)),
            memory: RICH_MEMORY,
            unknown_start: 0,
            second_port: 0,
            rooms: ROOMY,
        };
        let expected = expected.map(|(line, by)| accepted(&replaced(RICH_SHEET, line, by)));
        rows.push((
            format!("line {line}: {}", by.escape_debug()),
            call,
            expected,
        ));
    }
    rows
}

/// The full run's chip with a second port, which reads too: an input, two read bits, seven outputs.
const TWO_PORTS: &str = "aag 3 3 0 7 0/2/4/6/0/2/2/1/1/1/5/";

/// Its sheet: the first port's read bit is wire 2, the second's wire 3.
const TWO_PORT_SHEET: &str = "N 1 0 0/T 1 1 0/A 0/D 2/B 2/R 1/C 1 1 5";

/// Texts for two ports: m, n and start word, the flag of the start, the ports beside the first.
#[rustfmt::skip]
const PORTS: [(&str, [u32; 3], [u32; 2], Expected); 29] = [
    (TWO_PORTS, [1, 1, 0], [0, 1], Ok(TWO_PORT_SHEET)),
    (TWO_PORTS, [1, 1, 1], [0, 1], Ok("N 1 0 0/T 1 1 1/A 0/D 2/B 2/R 1/C 1 1 5")),
    // The last 2n inputs are the read bits, the first port's first; latches are before them among the wires.
    ("aag 7 5 1 10 1/2/4/6/8/10/12 14/2/4/6/8/10/0/3/5/7/9/14 4 11/", [1, 2, 3], [0, 1], Err((12, 0))),
    ("aag 7 5 1 8 1/2/4/6/8/10/12 14/12/6/10/3/13/4/2/15/14 4 11/", [1, 2, 3], [0, 1],
        Ok("N 1 1 1/T 1 2 3/L 14 0/G 6 13/A 4/D 8/D 12/B 3/R 5/C 6 2 15")),
    ("aag 7 5 1 8 1/10/8/6/4/2/14 12/14/6/2/11/15/8/10/13/12 8 3/", [1, 2, 3], [0, 1],
        Ok("N 1 1 1/T 1 2 3/L 14 0/G 6 13/A 4/D 8/D 12/B 3/R 5/C 6 2 15")),
    // Of m = 2: A, A, D, B, B, R, WE, RE, P.
    ("aag 4 4 0 9 0/2/4/6/8/2/4/7/5/3/0/6/1/9/", [2, 1, 0], [0, 1],
        Ok("N 2 0 0/T 2 1 0/A 2/A 4/D 7/B 5/B 3/R 0/C 6 1 9")),
    // No input but the read bits.
    ("aag 2 2 0 7 0/2/4/0/1/1/0/2/0/4/", [1, 1, 0], [0, 1], Ok("N 0 0 0/T 1 1 0/A 0/D 1/B 1/R 0/C 2 0 4")),
    // 12: at least 2n inputs, exactly 2m + n + 4 outputs.
    (TWO_PORTS, [1, 1, 0], [0, 0], Err((12, 0))),
    (TWO_PORTS, [1, 1, 0], [0, 2], Err((12, 0))),
    (TWO_PORTS, [1, 1, 0], [0, u32::MAX], Err((12, 0))),
    (BARE, [1, 1, 0], [0, 1], Err((12, 0))),
    (TWO_PORTS, [0, 3, 0], [0, 1], Err((12, 0))),
    (TWO_PORTS, [1, 2, 0], [0, 1], Err((12, 0))),
    ("aag 1 1 0 7 0/2/0/0/0/0/0/0/0/", [1, 1, 0], [0, 1], Err((12, 0))),
    ("aag 3 3 0 8 0/2/4/6/0/2/2/1/1/1/5/0/", [1, 1, 0], [0, 1], Err((12, 0))),
    ("aag 3 3 0 6 0/2/4/6/0/2/2/1/1/1/", [1, 1, 0], [0, 1], Err((12, 0))),
    // A number of ports above 2 is a size, where the counts fit it; so is a second port beside an unknown start.
    ("aag 3 3 0 9 0/2/4/6/0/0/0/0/0/0/0/0/0/", [1, 1, 0], [0, 2], Err((4, 2))),
    ("aag 0 0 0 3 0/0/0/0/", [u32::MAX, 0, 0], [0, 0], Err((12, 0))),
    ("aag 0 0 0 5 0/0/0/0/0/0/", [0, 0, 0], [0, 2], Err((4, 2))),
    (TWO_PORTS, [1, 1, 0], [1, 1], Err((4, 2))),
    (TWO_PORTS, [1, 1, 0], [u32::MAX, 1], Err((4, 2))),
    (TWO_PORTS, [1, 1, 2], [0, 1], Err((4, 2))),
    ("aag 0 0 0 4 0/0/0/0/0/", [0, 0, 0], [0, 1], Err((4, 2))),
    // 13 of the codes of the second port.
    ("aag 4 3 0 7 0/2/4/6/0/2/8/1/1/1/5/", [1, 1, 0], [0, 1], Err((13, 7))),
    ("aag 4 3 0 7 0/2/4/6/0/2/2/9/1/1/5/", [1, 1, 0], [0, 1], Err((13, 8))),
    // 17 and 6 with the places of a T sheet: A 3 and 4, D 5, B 6 and 7, R 8, C 9.
    ("aag 4 4 0 9 0/2/4/6/8/2/4/7/5/4/0/6/1/9/", [2, 1, 0], [0, 1], Err((17, 7))),
    ("aag 4 4 0 9 0/2/4/6/8/2/4/7/6/3/0/6/1/9/", [2, 1, 0], [0, 1], Err((6, 6))),
    ("aag 4 4 0 9 0/2/4/6/8/2/4/7/5/3/8/6/1/9/", [2, 1, 0], [0, 1], Err((6, 8))),
    ("aag 4 4 0 9 0/2/4/6/8/2/4/7/5/3/0/6/8/9/", [2, 1, 0], [0, 1], Err((6, 9))),
];

/// All tables above.
pub fn text_rows() -> Vec<TextRow> {
    let mut rows = Vec::new();
    for (short, expected) in TEXTS {
        rows.push(row(short, SMALL, ROOMY, expected));
    }
    for header in HEADERS {
        let short = format!("{header}/2/4/0/2/1/1/5/");
        rows.push(row(&short, SMALL, ROOMY, Err((11, 1))));
    }
    for (short, memory, expected) in MEMORIES {
        rows.push(row(short, memory, ROOMY, expected));
    }
    for (short, memory, unknown_start, expected) in STARTS {
        let (name, call, expected) = row(short, memory, ROOMY, expected);
        let call = Call {
            unknown_start,
            ..call
        };
        rows.push((format!("{name}, flag {unknown_start}"), call, expected));
    }
    for (short, memory, [unknown_start, second_port], expected) in PORTS {
        let (name, call, expected) = row(short, memory, ROOMY, expected);
        let call = Call {
            unknown_start,
            second_port,
            ..call
        };
        let flags = format!("flags {unknown_start} {second_port}");
        rows.push((format!("{name}, {flags}"), call, expected));
    }
    for (short, memory, rooms, expected) in ROOMS {
        rows.push(row(short, memory, rooms, expected));
    }
    [rows, line_rows(), size_rows(), long_rows()].concat()
}

/// An answer in the form of a row's expectation.
fn answer(call: &Call) -> Result<Netlist, Verdict> {
    call.import()
        .map_err(|refusal| (refusal.number, refusal.place))
}

pub fn by_hand(tally: &mut Tally) {
    for (name, call, expected) in text_rows() {
        tally.equal(name, answer(&call), expected);
    }
}

/// A call in lines: each fault changes a line, or a number, of its own.
struct Faulty {
    lines: Vec<String>,
    memory: [u32; 3],
    rooms: [usize; 2],
}

/// A fault and its verdict.
type FaultRow = (&'static str, fn(&mut Faulty), Verdict);

/// Inputs are lines 2 to 4, latches 5 and 6, address 7 to 9, write data 10 and 11, WE, RE and P 12 to
/// 14, gates 15 and 16; variables 8 and 9 are not defined. In the sheet the address has lines 7 to 9,
/// and WE, RE and P have line 12.
const FAULTY: &str = "aag 9 3 2 8 2/2/4/6/8 14/10 3/8/3/10/12/6/13/9/7/12 2 5/14 12 10/";

const FAULTY_MEMORY: [u32; 3] = [3, 2, 2];

/// In the order of the tests: the first of several faults gives the verdict.
#[rustfmt::skip]
const FAULTS: [FaultRow; 16] = [
    ("header", |it| it.lines[0] += " ", (11, 1)),
    ("second definition", |it| it.lines[2] = "2".to_string(), (11, 3)),
    ("next code above 2M + 1", |it| it.lines[4] = "8 20".to_string(), (11, 5)),
    ("leading zero", |it| it.lines[13] = "07".to_string(), (11, 14)),
    ("last gate line", |it| it.lines[15] += "\r", (11, 16)),
    ("m", |it| it.memory[0] = 1, (12, 0)),
    ("n", |it| it.memory[1] = 4, (12, 0)),
    ("undefined next code", |it| it.lines[5] = "10 16".to_string(), (13, 6)),
    ("undefined output", |it| it.lines[9] = "19".to_string(), (13, 10)),
    ("later operand", |it| it.lines[14] = "12 2 14".to_string(), (13, 15)),
    ("start word", |it| it.memory[2] = 4, (4, 2)),
    ("address bit 2 tied", |it| it.lines[8] = "9".to_string(), (17, 9)),
    ("loop in address bit 1", |it| it.lines[7] = "4".to_string(), (6, 8)),
    ("loop in RE", |it| it.lines[12] = "6".to_string(), (6, 12)),
    ("latch room", |it| it.rooms[0] = 1, (9, 0)),
    ("gate room", |it| it.rooms[1] = 1, (9, 0)),
];

/// All sets of faults, so every pair of them as well.
pub fn fault_set_rows() -> Vec<(String, Call, Verdict)> {
    let mut rows = Vec::new();
    for set in 0..1 << FAULTS.len() {
        let mut faulty = Faulty {
            lines: FAULTY.split('/').map(str::to_string).collect(),
            memory: FAULTY_MEMORY,
            rooms: [2, 2],
        };
        let chosen = FAULTS.iter().enumerate();
        let chosen: Vec<_> = chosen.filter(|(bit, _)| (set >> bit) & 1 == 1).collect();
        for (_, (_, change, _)) in &chosen {
            change(&mut faulty);
        }
        let call = Call {
            text: bytes_of(&faulty.lines.join("/")),
            memory: faulty.memory,
            unknown_start: 0,
            second_port: 0,
            rooms: faulty.rooms,
        };
        let expected = chosen.first().map_or(ACCEPTED, |(_, fault)| fault.2);
        let names: Vec<&str> = chosen.iter().map(|(_, fault)| fault.0).collect();
        rows.push((names.join(", "), call, expected));
    }
    rows
}

pub fn several_faults(tally: &mut Tally) {
    for (names, call, expected) in fault_set_rows() {
        tally.equal(names, verdict(call.import()), expected);
    }
}

/// The sheet that one would retype from a text, in short form: the lines N and M, and the rest. A
/// literal's code is found by looking for the line that defines its variable.
fn retyped(
    text: &Text,
    [m, n, word]: [u32; 3],
    unknown_start: bool,
    second_port: u32,
) -> (String, String) {
    let two_ports = second_port > 0;
    let inputs = text.inputs.len() - n as usize * (1 + second_port as usize);
    let (latches, gates) = (text.latches.len(), text.gates.len());
    let wire = |variable: u32| {
        let is_defined_by = |literal: u32| literal == 2 * variable;
        let input = text.inputs.iter().position(|it| is_defined_by(*it));
        let latch = text.latches.iter().position(|it| is_defined_by(it[0]));
        let gate = text.gates.iter().position(|it| is_defined_by(it[0]));
        match (input, latch, gate) {
            (Some(at), _, _) if at < inputs => 1 + at,
            (Some(at), _, _) => 1 + at + latches,
            (_, Some(at), _) => 1 + inputs + at,
            (_, _, Some(at)) => 1 + text.inputs.len() + latches + at,
            _ => 0,
        }
    };
    let code = |literal: u32| 2 * wire(literal / 2) as u32 + literal % 2;
    let start = if unknown_start {
        String::new()
    } else {
        format!(" {word}")
    };
    let letter = if two_ports { 'T' } else { 'M' };
    let head = format!("N {inputs} {latches} {gates}/{letter} {m} {n}{start}");
    let mut body = String::new();
    for [_, next] in &text.latches {
        body += &format!("/L {} 0", code(*next));
    }
    for [_, left, right] in &text.gates {
        body += &format!("/G {} {}", code(*left), code(*right));
    }
    let address = vec!["/A "; m as usize];
    let write_data = vec!["/D "; n as usize];
    let second = match two_ports {
        true => [vec!["/B "; m as usize], vec!["/R "]].concat(),
        false => vec![],
    };
    let starts = [address, write_data, second, vec!["/C ", " ", " "]].concat();
    for (start, output) in starts.iter().zip(&text.outputs) {
        body += &format!("{start}{}", code(*output));
    }
    (head, body)
}

/// Whether a refusal with 11 is that of the text up to its line, and the lines before it are only
/// too few.
fn is_malformed_at(bytes: &[u8], refusal: Refusal) -> bool {
    let ends: Vec<usize> = (0..bytes.len()).filter(|at| bytes[*at] == b'\n').collect();
    let place = refusal.place as usize;
    let first_lines = |count: usize| match count {
        0 => &bytes[..0],
        _ => &bytes[..=ends[count - 1]],
    };
    let with_line = if place <= ends.len() {
        first_lines(place)
    } else {
        bytes
    };
    refusal.number == NOT_WELL_FORMED
        && (1..=ends.len() + 1).contains(&place)
        && read_text(with_line) == Err(refusal)
        && read_text(first_lines(place - 1)) == Err(refusal)
}

/// The first line with a code that names nothing, found by looking through the lines again for each
/// code.
fn first_undefined_line(text: &Text) -> Option<u32> {
    // For each line behind the header the literal that it defines, and the codes that it names.
    let mut lines: Vec<(u32, Vec<u32>)> = Vec::new();
    lines.extend(text.inputs.iter().map(|input| (*input, vec![])));
    lines.extend(text.latches.iter().map(|it| (it[0], vec![it[1]])));
    lines.extend(text.outputs.iter().map(|output| (0, vec![*output])));
    let first_gate = lines.len();
    lines.extend(text.gates.iter().map(|it| (it[0], vec![it[1], it[2]])));
    let is_undefined = |at: usize, code: u32| {
        let known = if at < first_gate {
            &lines
        } else {
            &lines[..at]
        };
        code > 1 && !known.iter().any(|(defined, _)| *defined == code - code % 2)
    };
    let is_at_fault = |at: &usize| lines[*at].1.iter().any(|code| is_undefined(*at, *code));
    (0..lines.len()).find(is_at_fault).map(|at| at as u32 + 2)
}

/// What is wrong with the answer to a call, whatever its text; none if nothing is.
fn wrong_answer(random: &mut Random, call: &Call) -> Option<&'static str> {
    let found = call.import();
    let refused = |number, place| Err(Refusal { number, place });
    let text = match read_text(&call.text) {
        Ok(text) => text,
        Err(refusal) if found == Err(refusal) && is_malformed_at(&call.text, refusal) => {
            return None;
        }
        Err(_) => return Some("the line that is not well-formed"),
    };
    // A well-formed text is the only one of its numbers, but for what follows.
    let written = text.write();
    if !call.text.starts_with(&written) || read_words(&call.text) != text {
        return Some("the numbers of a well-formed text");
    }
    let [m, n, _] = call.memory.map(u128::from);
    let second = u128::from(call.second_port);
    let due = [n + second * n, m + n + second * (m + 1) + 3];
    if (text.inputs.len() as u128) < due[0] || text.outputs.len() as u128 != due[1] {
        return (found != refused(WRONG_COUNTS, 0)).then_some("12");
    }
    if let Some(line) = first_undefined_line(&text) {
        return (found != refused(UNDEFINED, line)).then_some("13");
    }
    let (head, body) = retyped(
        &text,
        call.memory,
        call.unknown_start == 1,
        call.second_port,
    );
    let sizes = read_sheet(&expand(&head), 0, 0);
    if call.unknown_start > 1 || call.second_port > 1 {
        // No sheet says this: line 1 comes before it, and it is a fault of line 2.
        let line = match sizes {
            Err(Refusal {
                number: SIZE,
                place: 1,
            }) => 1,
            _ => 2,
        };
        return (found != refused(SIZE, line)).then_some("flag of the start or the ports");
    }
    let sheet = match sizes {
        Err(Refusal { number: SIZE, .. }) => sizes,
        _ => read_sheet(&expand(&(head + &body)), call.rooms[0], call.rooms[1]),
    };
    if found != sheet {
        return Some("the retyped sheet");
    }
    let netlist = found.ok()?;
    let parts = (0..8).any(|_| {
        let given = random_given(random, &text);
        !differences(&text, &netlist, &given).is_empty()
    });
    parts.then_some("values")
}

/// Random accepted texts in every numbering: the netlist that was written, its values, whatever
/// follows the text, and the last line feed. The room lent is just enough.
pub fn random_texts(tally: &mut Tally) {
    let mut random = Random::new(10);
    let mut shapes = [0; SHAPES.len()];
    let mut text_shapes = [0; TEXT_SHAPES.len()];
    for round in 0..250 {
        let netlist = any_text_netlist(&mut random);
        for numbering in NUMBERINGS {
            let draft = draft_of(&mut random, &netlist, numbering);
            let mut call = draft.call();
            let name = (round, numbering);
            tally.equal((name, "netlist"), call.import(), Ok(netlist.clone()));
            tally.equal((name, "answer"), wrong_answer(&mut random, &call), None);
            let lines = call.text.iter().filter(|byte| **byte == b'\n').count();
            add_tail(&mut random, &mut call);
            tally.equal((name, "tail"), call.import(), Ok(netlist.clone()));
            call.text = draft.text.write();
            call.text.pop();
            let cut = verdict(call.import());
            tally.equal((name, "cut"), cut, (11, lines as u32));
            for (count, (_, has_shape)) in text_shapes.iter_mut().zip(TEXT_SHAPES) {
                *count += usize::from(has_shape(&draft.text));
            }
        }
        for (count, (_, has_shape)) in shapes.iter_mut().zip(SHAPES) {
            *count += usize::from(has_shape(&netlist));
        }
    }
    for (count, (name, _)) in shapes.iter().zip(SHAPES) {
        tally.check((name, count), *count >= 10);
    }
    for (count, (name, _)) in text_shapes.iter().zip(TEXT_SHAPES) {
        tally.check((name, count), *count >= 20);
    }
}

/// Wrong netlists part from their text: the comparison of values can fail.
pub fn values_part(tally: &mut Tally) {
    let mut random = Random::new(11);
    let mut found = 0;
    let mut rounds = 0;
    while rounds < 200 {
        let (netlist, draft) = random_draft(&mut random);
        let mut wrong = netlist.clone();
        match random.below(7) {
            0 => wrong.write_enable ^= 1,
            1 => wrong.property ^= 1,
            2 if netlist.latch_count > 1 => wrong.latches.swap(0, 1),
            3 if netlist.gate_count > 1 => wrong.gates.swap(0, 1),
            4 if netlist.data_width > 1 => wrong.write_data.swap(0, 1),
            5 if netlist.has_two_ports() => wrong.second_read_enable ^= 1,
            6 if netlist.has_two_ports() => wrong.second_address.swap(0, 1),
            _ => continue,
        }
        if wrong == netlist || wrong.check().is_err() {
            continue;
        }
        rounds += 1;
        let parts = (0..40).any(|_| {
            let given = random_given(&mut random, &draft.text);
            !differences(&draft.text, &wrong, &given).is_empty()
        });
        found += usize::from(parts);
    }
    // Two codes may differ and yet have the same value always.
    tally.check(("found", found), found >= 150);
    tally.remark = format!(" ({found} of {rounds} wrong netlists found)");
}

/// Each fault on random texts is refused as it says, and beside a fault of the bytes the first of
/// both is: the faults of bytes are all 11.
pub fn predicted_faults(tally: &mut Tally) {
    let mut random = Random::new(12);
    let mut counts = vec![0; DRAFT_FAULTS.len() + BYTE_FAULTS.len()];
    for round in 0..40 {
        for (index, (name, fault)) in DRAFT_FAULTS.iter().enumerate() {
            let (_, mut draft) = random_draft(&mut random);
            let refusal = match fault(&mut random, &mut draft) {
                Some(refusal) => refusal,
                None => continue,
            };
            counts[index] += 1;
            let call = draft.call();
            tally.equal((round, name), call.import(), Err(refusal));
            tally.equal((round, name), wrong_answer(&mut random, &call), None);

            let (other, byte_fault) = random.pick(&BYTE_FAULTS);
            let mut both = call.clone();
            if let Some(malformed) = byte_fault(&mut random, &draft, &mut both) {
                let first = match refusal.number {
                    NOT_WELL_FORMED if refusal.place < malformed.place => refusal,
                    _ => malformed,
                };
                tally.equal((round, name, other), both.import(), Err(first));
            }
        }
        for (index, (name, fault)) in BYTE_FAULTS.iter().enumerate() {
            let (_, draft) = random_draft(&mut random);
            let mut call = draft.call();
            if let Some(refusal) = fault(&mut random, &draft, &mut call) {
                counts[DRAFT_FAULTS.len() + index] += 1;
                tally.equal((round, name), call.import(), Err(refusal));
                tally.equal((round, name), wrong_answer(&mut random, &call), None);
            }
        }
    }
    let names = DRAFT_FAULTS.iter().map(|fault| fault.0);
    let names = names.chain(BYTE_FAULTS.iter().map(|fault| fault.0));
    for (name, count) in names.zip(counts) {
        tally.check((name, count), count >= 10);
    }
}

/// Accepted calls with small texts that have every kind of line between them.
pub fn small_calls() -> Vec<Call> {
    let texts = [
        (BARE, SMALL, 0),
        (RICH_TEXT, RICH_MEMORY, 0),
        (FAULTY, FAULTY_MEMORY, 0),
        ("aag 5 2 2 5 1/2/4/6 8/8 11/6/10/11/9/10/10 5 0/", SMALL, 0),
        ("aag 4 2 0 5 2/2/4/2/6/8/1/9/8 4 2/6 2 9/c", SMALL, 0),
        (TWO_PORTS, SMALL, 1),
    ];
    let call = |(short, memory, second_port)| Call {
        text: bytes_of(short),
        memory,
        unknown_start: 0,
        second_port,
        rooms: ROOMY,
    };
    texts.map(call).to_vec()
}

/// The call with its text damaged at every byte and in every line.
pub fn every_damage(call: &Call) -> Vec<Call> {
    let texts = [every_byte(&call.text), every_line(&call.text)].concat();
    let damaged = |text| Call {
        text,
        ..call.clone()
    };
    texts.into_iter().map(damaged).collect()
}

/// Small texts damaged at every byte and in every line, and random ones with one fault or two.
pub fn damaged_texts(tally: &mut Tally) {
    let mut random = Random::new(13);
    let mut counts = [0; 18];
    let mut examine = |tally: &mut Tally, name: &str, call: &Call| {
        counts[verdict(call.import()).0 as usize] += 1;
        let wrong = wrong_answer(&mut random, call);
        tally.check_with(name, wrong.is_none(), || {
            format!(" {wrong:?} {} {:?}", call.text.escape_ascii(), call.memory)
        });
    };
    for small in small_calls() {
        for call in every_damage(&small) {
            examine(tally, "small", &call);
        }
    }
    let mut others = Random::new(14);
    for _ in 0..6000 {
        let call = damaged_call(&mut others);
        examine(tally, "random", &call);
    }
    for number in [0, 4, 6, 9, 11, 12, 13, 17] {
        tally.check(("occurrences of", number), counts[number] >= 20);
    }
    tally.equal(
        "no other number",
        counts.iter().filter(|it| **it > 0).count(),
        8,
    );
    tally.remark = format!(
        " (accepted {}, 4: {}, 6: {}, 9: {}, 11: {}, 12: {}, 13: {}, 17: {})",
        counts[0], counts[4], counts[6], counts[9], counts[11], counts[12], counts[13], counts[17]
    );
}
