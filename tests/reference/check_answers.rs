//! Answers of K2 and calls with them, with their outcomes written down by hand; unknown starts by K7.

use super::answer::{read_answer, replay, Answer, Claim};
use super::answer_calls::{marks, Call, Outcome};
use super::check_examples::{accepted, bytes_of, input, FULL_RUN};
use super::check_refusals::{input_rows, ACCEPTED};
use super::formula::refusal_text;
use super::netlist::{Netlist, MAX_DEPTH};
use super::refusal::*;
use super::Tally;

/// Well-formed answers and their numbers without the last 0. `/` stands for a line feed.
const SATISFIABLE: [(&str, &[i32]); 22] = [
    ("s SATISFIABLE/v 0/", &[]),
    ("s SATISFIABLE/v 1 0/", &[1]),
    ("s SATISFIABLE/v -1 0/", &[-1]),
    ("s SATISFIABLE/v 1/v 0/", &[1]),
    ("s SATISFIABLE/v 1 -2/v 3 0/", &[1, -2, 3]),
    ("s SATISFIABLE/v 1/v -2/v 3/v 0/", &[1, -2, 3]),
    // In any order, repeated, with both signs, and up to the limits of a clause number.
    ("s SATISFIABLE/v 30 -1 9 0/", &[30, -1, 9]),
    ("s SATISFIABLE/v 1 1/v 1 0/", &[1, 1, 1]),
    ("s SATISFIABLE/v 1 -1 0/", &[1, -1]),
    ("s SATISFIABLE/v 2147483647 0/", &[2147483647]),
    ("s SATISFIABLE/v -2147483647 0/", &[-2147483647]),
    ("s SATISFIABLE/v 10 100 -1000 0/", &[10, 100, -1000]),
    // Comments are all lines whose first byte is `c`, wherever they stand and whatever they say.
    ("c/s SATISFIABLE/v 0/", &[]),
    ("c/c/s SATISFIABLE/v 0/c/", &[]),
    ("c kissat/s SATISFIABLE/v 5 0/", &[5]),
    ("cs UNSATISFIABLE/s SATISFIABLE/v 5 0/", &[5]),
    ("c s SATISFIABLE/s SATISFIABLE/v 5 0/", &[5]),
    ("s SATISFIABLE/c v 7/v 5/cv 0/v 6/c/v 0/", &[5, 6]),
    ("s SATISFIABLE/v 5 0/c v 1 0/", &[5]),
    ("s SATISFIABLE/v 5 0/c s UNSATISFIABLE/comment/", &[5]),
    ("c \0\u{80}\r\t/s SATISFIABLE/v 5 0/", &[5]),
    ("c1 2 0/s SATISFIABLE/c 0/v 5 0/", &[5]),
];

const UNSATISFIABLE: [&str; 6] = [
    "s UNSATISFIABLE/",
    "c/s UNSATISFIABLE/",
    "s UNSATISFIABLE/c/",
    "c s SATISFIABLE/s UNSATISFIABLE/c v 1 0/",
    "cv 1 0/s UNSATISFIABLE/cs SATISFIABLE/c/",
    "s UNSATISFIABLE/c\r/",
];

const MALFORMED: [&str; 101] = [
    // No `s` line, or more than one.
    "",
    "/",
    "c/",
    "c s SATISFIABLE/",
    "v 0/",
    "v 1 0/",
    "c/v 1 0/c/",
    "s SATISFIABLE/s SATISFIABLE/v 0/",
    "s SATISFIABLE/v 0/s SATISFIABLE/",
    "s SATISFIABLE/v 1/s SATISFIABLE/v 0/",
    "s SATISFIABLE/s UNSATISFIABLE/",
    "s UNSATISFIABLE/s SATISFIABLE/v 0/",
    "s UNSATISFIABLE/s UNSATISFIABLE/",
    "s SATISFIABLE/v 0/s UNSATISFIABLE/",
    // What the `s` line says.
    "s/v 0/",
    "s /v 0/",
    "sSATISFIABLE/v 0/",
    "s  SATISFIABLE/v 0/",
    "s\tSATISFIABLE/v 0/",
    "s SATISFIABLE /v 0/",
    "s SATISFIABLE\r/v 0/",
    "s SATISFIABLE\0/v 0/",
    "s SATISFIABLE v 0/",
    "s SATISFIABLE 0/v 0/",
    "s SATISFIABL/v 0/",
    "s SATISFIABLEE/v 0/",
    "s satisfiable/v 0/",
    "S SATISFIABLE/v 0/",
    " s SATISFIABLE/v 0/",
    "SATISFIABLE/v 0/",
    "s UNKNOWN/",
    "s UNSATISFIABLE /",
    "s UNSATISFIABLE\r/",
    "s UN SATISFIABLE/",
    "s NSATISFIABLE/",
    "s OPTIMUM FOUND/v 0/",
    // `v` lines only behind `s SATISFIABLE`, and there at least the 0.
    "s SATISFIABLE/",
    "s SATISFIABLE/c/",
    "s SATISFIABLE/c v 0/",
    "v 0/s SATISFIABLE/",
    "v 1/s SATISFIABLE/v 0/",
    "v 1 0/s UNSATISFIABLE/",
    "s UNSATISFIABLE/v 0/",
    "s UNSATISFIABLE/v 1 0/",
    "s UNSATISFIABLE/c/v 1/",
    // The last of all numbers and only it is 0.
    "s SATISFIABLE/v 1/",
    "s SATISFIABLE/v 1/v 2/",
    "s SATISFIABLE/v 0 0/",
    "s SATISFIABLE/v 0/v 0/",
    "s SATISFIABLE/v 0 1/",
    "s SATISFIABLE/v 0 1 0/",
    "s SATISFIABLE/v 1 0/v 2 0/",
    "s SATISFIABLE/v 1 0/v 2/",
    "s SATISFIABLE/v 1 0/c/v 0/",
    // A single space before each of one or more numbers.
    "s SATISFIABLE/v/v 0/",
    "s SATISFIABLE/v /v 0/",
    "s SATISFIABLE/v 1/v/v 0/",
    "s SATISFIABLE/v 0/v/",
    "s SATISFIABLE/v0/",
    "s SATISFIABLE/v1 0/",
    "s SATISFIABLE/v  0/",
    "s SATISFIABLE/v  1 0/",
    "s SATISFIABLE/v 1  0/",
    "s SATISFIABLE/v 1 0 /",
    "s SATISFIABLE/v 1 /v 0/",
    "s SATISFIABLE/v\t1 0/",
    "s SATISFIABLE/v 1\t0/",
    "s SATISFIABLE/v 1,0/",
    "s SATISFIABLE/v 1 0\r/",
    "s SATISFIABLE/v 1\r/v 0/",
    " v 1 0/",
    "s SATISFIABLE/ v 1 0/",
    "s SATISFIABLE/V 1 0/",
    "s SATISFIABLE/vv 1 0/",
    "s SATISFIABLE/1 0/",
    // Lines of no kind, the empty one included; lines without a line feed.
    "s SATISFIABLE//v 0/",
    "s SATISFIABLE/v 0//",
    "/s SATISFIABLE/v 0/",
    "s UNSATISFIABLE//",
    " /s UNSATISFIABLE/",
    "o 1/s SATISFIABLE/v 0/",
    "p cnf 1 1/s SATISFIABLE/v 0/",
    "C/s SATISFIABLE/v 0/",
    " c/s SATISFIABLE/v 0/",
    "s SATISFIABLE/v 0/%/",
    "\u{feff}s SATISFIABLE/v 0/",
    "s UNSATISFIABLE/t 1/",
    "s SATISFIABLE/v 0",
    "s SATISFIABLE/v 0/c",
    "s SATISFIABLE/v 0/\0",
    "s UNSATISFIABLE",
    "s UNSATISFIABLE/c",
    "c",
    "c/s UNSATISFIABLE/c end",
    // Comments do not reach over a line feed.
    "c one/two/s UNSATISFIABLE/",
    "s SATISFIABLE/v 1 c 0/",
    "s SATISFIABLE/v 1 0 c/",
    "s SATISFIABLE c/v 0/",
    "s SATISFIABLE/v c/v 0/",
    "s SATISFIABLE/v 1 0/d 1 0/",
    "SAT/1 0/",
];

/// Words that are neither 0 nor a clause number without plus or leading zeros.
const NO_NUMBERS: [&str; 40] = [
    "-",
    "+",
    "--1",
    "+1",
    "+0",
    "-0",
    "-+1",
    "+-1",
    "00",
    "000",
    "01",
    "-01",
    "0-1",
    "0000000001",
    "02147483647",
    "1-",
    "1-2",
    "1+",
    "1.",
    "1.0",
    ".1",
    "1e3",
    "0x1",
    "x",
    "1x",
    "a1",
    "1\0",
    "\u{a0}1",
    "\u{661}",
    "2147483648",
    "-2147483648",
    "2147483650",
    "-2147483649",
    "9999999999",
    "4294967295",
    "4294967297",
    "-4294967297",
    "18446744073709551616",
    "18446744073709551617",
    "340282366920938463463374607431768211457",
];

/// Every text above, with what it says.
pub fn form_rows() -> Vec<(Vec<u8>, Option<Answer>)> {
    let mut rows = Vec::new();
    for (short, numbers) in SATISFIABLE {
        rows.push((bytes_of(short), Some(Answer::Satisfiable(numbers.to_vec()))));
    }
    for short in UNSATISFIABLE {
        rows.push((bytes_of(short), Some(Answer::Unsatisfiable)));
    }
    for short in MALFORMED {
        rows.push((bytes_of(short), None));
    }
    for word in NO_NUMBERS {
        for short in [
            format!("s SATISFIABLE/v {word} 0/"),
            format!("s SATISFIABLE/v 1 {word}/v 0/"),
            format!("s SATISFIABLE/v 1 {word}/"),
        ] {
            rows.push((bytes_of(&short), None));
        }
    }
    rows.push((
        b"c\xff\xfe\0\xc3(\ns UNSATISFIABLE\n".to_vec(),
        Some(Answer::Unsatisfiable),
    ));
    rows
}

pub fn forms(tally: &mut Tally) {
    for (text, expected) in form_rows() {
        let name = text.escape_ascii().to_string();
        tally.equal(&name, read_answer(&text), expected.clone());
        tally.equal((&name, "scanned"), scan(&text), expected);
    }
}

/// Where a reader that sees one byte at a time stands.
enum State {
    LineStart,
    Comment,
    /// The bytes of an `s` line so far.
    Status(Vec<u8>),
    /// Behind the letter of a `v` line, before its first space.
    Letter,
    Number {
        negative: bool,
        digits: u32,
        magnitude: u64,
    },
}

/// A second reading of the text, byte by byte.
pub fn scan(text: &[u8]) -> Option<Answer> {
    let start_of_number = || State::Number {
        negative: false,
        digits: 0,
        magnitude: 0,
    };
    let mut satisfiable = None;
    let mut numbers: Vec<i32> = Vec::new();
    let mut state = State::LineStart;
    for byte in text {
        state = match (state, *byte) {
            (State::LineStart, b'c') => State::Comment,
            (State::LineStart, b's') if satisfiable.is_none() => State::Status(Vec::new()),
            (State::LineStart, b'v') if satisfiable == Some(true) => State::Letter,
            (State::Comment, b'\n') => State::LineStart,
            (State::Comment, _) => State::Comment,
            (State::Status(said), b'\n') => {
                satisfiable = Some(match said.as_slice() {
                    b" SATISFIABLE" => true,
                    b" UNSATISFIABLE" => false,
                    _ => return None,
                });
                State::LineStart
            }
            (State::Status(mut said), other) => {
                said.push(other);
                State::Status(said)
            }
            (State::Letter, b' ') => start_of_number(),
            (
                State::Number {
                    negative: false,
                    digits: 0,
                    magnitude,
                },
                b'-',
            ) => State::Number {
                negative: true,
                digits: 0,
                magnitude,
            },
            (
                State::Number {
                    negative,
                    digits,
                    magnitude,
                },
                b'0'..=b'9',
            ) => {
                let leading_zero = digits > 0 && magnitude == 0;
                let magnitude = 10 * magnitude + u64::from(*byte - b'0');
                if leading_zero || magnitude >= 1 << 31 {
                    return None;
                }
                State::Number {
                    negative,
                    digits: digits + 1,
                    magnitude,
                }
            }
            (
                State::Number {
                    negative,
                    digits,
                    magnitude,
                },
                b' ' | b'\n',
            ) => {
                let ended = numbers.last() == Some(&0);
                if digits == 0 || ended || (negative && magnitude == 0) {
                    return None;
                }
                let number = magnitude as i32;
                numbers.push(if negative { -number } else { number });
                match byte {
                    b' ' => start_of_number(),
                    _ => State::LineStart,
                }
            }
            _ => return None,
        };
    }
    match (state, satisfiable?, numbers.pop()) {
        (State::LineStart, false, None) => Some(Answer::Unsatisfiable),
        (State::LineStart, true, Some(0)) => Some(Answer::Satisfiable(numbers)),
        _ => None,
    }
}

/// Wires: input 1, read bits 2 and 3. It reads where the input is true and writes where it is
/// false, always at address 0; the property is read bit 0. Variables of the frames: 2 to 4, 5 to
/// 7, 13 to 15, the inputs being 2, 5 and 13.
pub const IDLE: &str = "N 1 0 0/M 1 2 1/A 0/D 7/D 4/C 3 2 4";

/// Wires: latch 1, which is false in even frames, and the read bit, which is the property; it reads
/// where the latch is true. Variables of the frames: 2 and 3, 4 and 5, 11 and 12.
pub const LATCHED: &str = "N 0 1 0/M 1 1 0/L 3 0/A 0/D 0/C 0 2 4";

/// No input, and it reads the start word in every frame: no number is needed.
pub const BARE: &str = "N 0 0 0/M 1 1 0/A 0/D 0/C 0 1 2";

/// An unknown start. Wires: inputs 1 to 4, which are address, WE, RE and write data, and the read bit,
/// which is the property. Variables of the frames: 2 to 6, 7 to 11, 17 to 21, the read bits being 6, 11
/// and 21.
pub const UNKNOWN: &str = "N 4 0 0/M 1 1/A 2/D 8/C 4 6 10";

/// The same with two data bits: read bits 5 and 6, of which the second is the property, and both are
/// written inverted. Variables of the frames: 2 to 7 and 8 to 13, the read bits being 6, 7 and 12, 13.
pub const UNKNOWN_WIDE: &str = "N 4 0 0/M 1 2/A 2/D 11/D 13/C 4 6 12";

/// Depth, sheet, the numbers of the answer, and what is printed (`/` for a line feed) or the
/// refusal's number.
type Replay = (u32, &'static str, &'static str, Result<&'static str, u32>);

const REPLAYS: [Replay; 101] = [
    // The full run: variables 2 and 3 in frame 0, 4 and 5 in frame 1, 11 and 12 in frame 2.
    (1, FULL_RUN, "2 4 0", Ok("1/10/11/")),
    (1, FULL_RUN, "2 -4 0", Ok("1/10/01/")),
    (1, FULL_RUN, "-4 2 0", Ok("1/10/01/")),
    (1, FULL_RUN, "2 2 -4 2 -4 0", Ok("1/10/01/")),
    (1, FULL_RUN, "-2 4 0", Err(15)),
    (1, FULL_RUN, "-2 -4 0", Err(15)),
    (0, FULL_RUN, "2 0", Err(15)),
    (0, FULL_RUN, "-2 0", Err(15)),
    (2, FULL_RUN, "2 4 11 0", Ok("1/10/11/11/")),
    (2, FULL_RUN, "-2 4 -11 0", Ok("2/00/10/01/")),
    (2, FULL_RUN, "-2 -4 11 0", Err(15)),
    // A solver's whole answer, right, and wrong in all that is not taken from it.
    (1, FULL_RUN, "1 2 -3 -4 5 6 7 8 -9 10 0", Ok("1/10/01/")),
    (1, FULL_RUN, "-1 2 3 -4 -5 -6 -7 -8 9 -10 0", Ok("1/10/01/")),
    (1, FULL_RUN, "2 -4 -5 0", Ok("1/10/01/")),
    (1, FULL_RUN, "-2 -4 5 0", Err(15)),
    (1, FULL_RUN, "-2 4 3 5 0", Err(15)),
    // Variables past the file's, and both signs where nothing is taken.
    (
        1,
        FULL_RUN,
        "2 -4 11 -11 2147483647 -2147483647 0",
        Ok("1/10/01/"),
    ),
    (
        1,
        FULL_RUN,
        "1 -1 2 3 -3 -4 5 -5 6 -6 10 -10 0",
        Ok("1/10/01/"),
    ),
    (0, FULL_RUN, "2 4 -4 0", Err(15)),
    (0, FULL_RUN, "2 3 -3 4 0", Err(15)),
    // An input missing or with both signs, behind the frame that breaks too.
    (1, FULL_RUN, "0", Err(14)),
    (1, FULL_RUN, "2 0", Err(14)),
    (1, FULL_RUN, "4 0", Err(14)),
    (1, FULL_RUN, "2 -2 4 0", Err(14)),
    (1, FULL_RUN, "-2 4 2 0", Err(14)),
    (1, FULL_RUN, "2 4 -4 0", Err(14)),
    (1, FULL_RUN, "2 3 5 0", Err(14)),
    (0, FULL_RUN, "4 0", Err(14)),
    (2, FULL_RUN, "2 4 0", Err(14)),
    (2, FULL_RUN, "2 4 11 -11 0", Err(14)),
    (2, FULL_RUN, "-2 -4 0", Err(14)),
    // Idle read bits: needed in frame 0 where the chip does not read, and there alone.
    (2, IDLE, "-2 3 4 -5 13 0", Ok("2/011/011/101/")),
    (2, IDLE, "-2 3 -4 -5 13 0", Err(15)),
    (2, IDLE, "-2 -3 4 5 13 0", Ok("0/001/100/100/")),
    (2, IDLE, "-2 -3 -4 -5 -13 0", Ok("0/000/000/000/")),
    (2, IDLE, "2 -5 13 0", Err(15)),
    (2, IDLE, "2 -5 -6 7 13 0", Err(15)),
    (2, IDLE, "2 3 -3 4 -4 -5 13 0", Err(15)),
    (2, IDLE, "2 -3 -5 13 0", Err(15)),
    (2, IDLE, "-2 3 4 -5 -6 -7 13 14 15 0", Ok("2/011/011/101/")),
    (
        2,
        IDLE,
        "-2 3 4 -5 6 -6 -7 13 14 -14 15 -15 0",
        Ok("2/011/011/101/"),
    ),
    (2, IDLE, "-2 3 4 -5 -13 -14 0", Err(15)),
    (2, IDLE, "-2 4 -5 13 0", Err(14)),
    (2, IDLE, "-2 3 -5 13 0", Err(14)),
    (2, IDLE, "-2 -5 13 0", Err(14)),
    (2, IDLE, "-2 -5 6 7 13 0", Err(14)),
    (2, IDLE, "-2 3 -3 4 -5 13 0", Err(14)),
    (2, IDLE, "-2 3 4 -4 -5 13 0", Err(14)),
    (2, IDLE, "-2 3 4 -5 0", Err(14)),
    (2, IDLE, "-2 3 4 13 0", Err(14)),
    (2, IDLE, "3 4 -5 13 0", Err(14)),
    // Whether the chip reads is the chip's, not the answer's.
    (1, LATCHED, "3 0", Ok("1/01/10/")),
    (1, LATCHED, "-3 0", Ok("0/00/10/")),
    (1, LATCHED, "2 3 -4 5 0", Ok("1/01/10/")),
    (1, LATCHED, "3 5 -5 0", Ok("1/01/10/")),
    (1, LATCHED, "0", Err(14)),
    (1, LATCHED, "2 0", Err(14)),
    (1, LATCHED, "2 5 0", Err(14)),
    (1, LATCHED, "3 -3 0", Err(14)),
    (2, LATCHED, "3 0", Ok("1/01/10/00/")),
    (2, LATCHED, "3 11 0", Ok("1/01/10/00/")),
    (2, LATCHED, "3 12 0", Ok("1/01/10/00/")),
    (2, LATCHED, "-12 12 3 0", Ok("1/01/10/00/")),
    (2, LATCHED, "12 0", Err(14)),
    // Nothing is needed.
    (0, BARE, "0", Ok("0/0/")),
    (1, BARE, "0", Ok("0/0/0/")),
    (1, BARE, "1 -2 2 3 0", Ok("0/0/0/")),
    // Unknown start: the word read first is the answer's, and needed.
    (0, UNKNOWN, "-2 -3 4 -5 -6 0", Ok("0/00100/")),
    (0, UNKNOWN, "2 -3 4 5 -6 0", Ok("0/10110/")),
    (0, UNKNOWN, "-2 -3 4 -5 6 0", Err(15)),
    (0, UNKNOWN, "-2 -3 4 -5 0", Err(14)),
    (0, UNKNOWN, "-2 -3 4 -5 6 -6 0", Err(14)),
    // Idle in frame 0: the idle word, needed as ever.
    (0, UNKNOWN, "-2 -3 -4 -5 -6 0", Ok("0/00000/")),
    (0, UNKNOWN, "-2 -3 -4 -5 6 0", Err(15)),
    (0, UNKNOWN, "-2 -3 -4 -5 0", Err(14)),
    // Read and written in one frame: the read comes first.
    (0, UNKNOWN, "2 3 4 5 -6 0", Ok("0/11110/")),
    (0, UNKNOWN, "2 3 4 5 0", Err(14)),
    (
        1,
        UNKNOWN,
        "2 3 4 -5 6 7 -8 9 -10 11 0",
        Ok("1/11101/10100/"),
    ),
    (1, UNKNOWN, "2 3 4 -5 6 7 -8 9 -10 0", Ok("1/11101/10100/")),
    // Read again: the same word, whatever the answer says there.
    (1, UNKNOWN, "-2 -3 4 -5 6 -7 -8 9 -10 -11 0", Err(15)),
    (1, UNKNOWN, "-2 -3 4 -5 6 -7 -8 9 -10 0", Err(15)),
    (1, UNKNOWN, "-2 -3 4 -5 6 -7 -8 9 -10 11 -11 0", Err(15)),
    (
        1,
        UNKNOWN,
        "-2 -3 4 -5 -6 -7 -8 9 -10 11 0",
        Ok("0/00100/00100/"),
    ),
    // Another address is another word, and needed.
    (
        1,
        UNKNOWN,
        "-2 -3 4 -5 6 7 -8 9 -10 -11 0",
        Ok("1/00101/10100/"),
    ),
    (1, UNKNOWN, "-2 -3 4 -5 6 7 -8 9 -10 11 0", Err(15)),
    (1, UNKNOWN, "-2 -3 4 -5 6 7 -8 9 -10 0", Err(14)),
    (1, UNKNOWN, "-2 -3 4 -5 6 7 -8 9 -10 11 -11 0", Err(14)),
    // Written before it is read: the write's word, and nothing is needed.
    (1, UNKNOWN, "2 3 -4 5 6 7 -8 9 -10 0", Err(15)),
    (1, UNKNOWN, "2 3 -4 5 6 7 -8 9 -10 -11 0", Err(15)),
    (
        1,
        UNKNOWN,
        "2 3 -4 -5 6 7 -8 9 -10 11 0",
        Ok("1/11001/10100/"),
    ),
    (1, UNKNOWN, "2 3 -4 -5 7 -8 9 -10 11 0", Err(14)),
    // An idle frame reads no word: its address is read first later, and there it is needed.
    (
        2,
        UNKNOWN,
        "-2 -3 4 -5 6 7 -8 -9 -10 17 -18 19 -20 -21 0",
        Ok("2/00101/10001/10100/"),
    ),
    (
        2,
        UNKNOWN,
        "-2 -3 4 -5 6 7 -8 -9 -10 -11 17 -18 19 -20 0",
        Err(14),
    ),
    (
        2,
        UNKNOWN,
        "-2 -3 4 -5 6 7 -8 -9 -10 -17 -18 19 -20 -21 0",
        Err(15),
    ),
    // A word that an idle frame 0 shows is in no address.
    (
        1,
        UNKNOWN,
        "-2 -3 -4 -5 6 -7 -8 9 -10 -11 0",
        Ok("1/00001/00100/"),
    ),
    (1, UNKNOWN, "-2 -3 -4 -5 6 -7 -8 9 -10 0", Err(14)),
    // All bits of a word are needed, each with its weight.
    (0, UNKNOWN_WIDE, "-2 -3 4 -5 6 -7 0", Ok("0/001010/")),
    (0, UNKNOWN_WIDE, "-2 -3 4 -5 6 7 0", Err(15)),
    (0, UNKNOWN_WIDE, "-2 -3 4 -5 -7 0", Err(14)),
    (0, UNKNOWN_WIDE, "-2 -3 4 -5 6 0", Err(14)),
    (
        1,
        UNKNOWN_WIDE,
        "-2 3 4 -5 -6 7 -8 -9 10 -11 0",
        Ok("1/011001/001010/"),
    ),
];

/// A name, standard input, the content of `answer`, and what the program prints.
pub type ReplayRow = (String, Vec<u8>, Vec<u8>, Vec<u8>);

pub fn satisfiable(numbers: &str) -> Vec<u8> {
    format!("s SATISFIABLE\nv {numbers}\n").into_bytes()
}

fn refused(number: u32, place: u32) -> Vec<u8> {
    refusal_text(Refusal { number, place })
}

/// The table's rows, an answer of each kind for every input of `frames` that has a verdict, the
/// longest run, and long answers.
pub fn replay_rows() -> Vec<ReplayRow> {
    let mut rows = Vec::new();
    for (depth, sheet, numbers, expected) in REPLAYS {
        let name = format!("{sheet} {depth}: {numbers}");
        let printed = expected.map_or_else(|number| refused(number, 0), bytes_of);
        rows.push((name, input(depth, sheet), satisfiable(numbers), printed));
    }
    for (short, printed) in [
        ("s UNSATISFIABLE/", b"claimed unsatisfiable\n".to_vec()),
        ("c/s UNSATISFIABLE/c/", b"claimed unsatisfiable\n".to_vec()),
        ("s UNSATISFIABLE/v 2 4 0/", refused(14, 0)),
        ("", refused(14, 0)),
        ("s SATISFIABLE/", refused(14, 0)),
        ("s SATISFIABLE/v 2 4 0", refused(14, 0)),
        ("c/s SATISFIABLE/c/v 2/c/v -4/v 0/c/", bytes_of("1/10/01/")),
    ] {
        rows.push((
            short.to_string(),
            input(1, FULL_RUN),
            bytes_of(short),
            printed,
        ));
    }
    let answers = ["", "s UNSATISFIABLE/", "s SATISFIABLE/v 2 4 0/"];
    for (name, input, verdict) in input_rows() {
        for short in answers {
            let printed = match (verdict, short) {
                (ACCEPTED, "") => refused(14, 0),
                (ACCEPTED, "s UNSATISFIABLE/") => b"claimed unsatisfiable\n".to_vec(),
                (ACCEPTED, _) => continue,
                ((number, place), _) => refused(number, place),
            };
            let name = format!("{name}, {short}");
            rows.push((name, input.clone(), bytes_of(short), printed));
        }
    }
    let long = ["0\n", &"0\n".repeat(256)].concat().into_bytes();
    let name = "256 frames".to_string();
    rows.push((name, input(MAX_DEPTH, BARE), satisfiable("0"), long));
    rows.extend(long_rows());
    rows
}

/// Answers far longer than a formula's: no length is too long.
fn long_rows() -> Vec<ReplayRow> {
    let comment = format!("c{}/", " v 0".repeat(100_000));
    let comments = "c/".repeat(100_000);
    let numbers = " 2 -4 2147483647".repeat(50_000);
    let lines = "v 2 -4 -2147483647/".repeat(50_000);
    [
        (
            "a long comment",
            format!("{comment}s SATISFIABLE/v 2 -4 0/"),
        ),
        (
            "many comments",
            format!("{comments}s SATISFIABLE/v 2 -4 0/{comments}"),
        ),
        (
            "a long line",
            format!("s SATISFIABLE/v{numbers} 0/{comment}"),
        ),
        ("many lines", format!("s SATISFIABLE/{lines}v 0/")),
    ]
    .map(|(name, short)| {
        let printed = bytes_of("1/10/01/");
        (
            name.to_string(),
            input(1, FULL_RUN),
            bytes_of(&short),
            printed,
        )
    })
    .to_vec()
}

/// By the table's rows too, what the library leaves in the memory: the words are known by hand.
const MEMORIES: [(u32, &str, &str, &[u32]); 26] = [
    (1, FULL_RUN, "2 4 0", &[1, 0]),
    (1, FULL_RUN, "2 -4 0", &[0, 0]),
    (1, FULL_RUN, "-2 4 0", &[1, 0]),
    (2, FULL_RUN, "2 4 -11 0", &[0, 0]),
    (2, FULL_RUN, "2 4 0", &[0, 0]),
    (2, IDLE, "2 -5 13 0", &[3, 1]),
    (2, IDLE, "-2 3 4 -5 13 0", &[2, 1]),
    (2, IDLE, "-2 3 -4 -5 13 0", &[3, 1]),
    (2, IDLE, "-2 -3 4 5 13 0", &[0, 1]),
    (2, IDLE, "-2 -3 -4 -5 -13 0", &[1, 1]),
    (2, IDLE, "-2 3 4 -5 0", &[0, 0]),
    (2, IDLE, "0 0", &[0, 0]),
    (1, BARE, "0", &[0, 0]),
    // Unknown start: what was read or written, and 0 where nothing was.
    (0, UNKNOWN, "-2 -3 4 -5 6 0", &[1, 0]),
    (0, UNKNOWN, "2 -3 4 -5 6 0", &[0, 1]),
    (0, UNKNOWN, "2 -3 4 5 -6 0", &[0, 0]),
    (0, UNKNOWN, "-2 -3 -4 -5 6 0", &[0, 0]),
    (0, UNKNOWN, "2 3 4 -5 6 0", &[0, 0]),
    (0, UNKNOWN, "2 3 4 5 -6 0", &[0, 1]),
    (0, UNKNOWN, "2 3 4 5 0", &[0, 0]),
    (1, UNKNOWN, "-2 -3 4 -5 6 7 -8 9 -10 -11 0", &[1, 0]),
    (1, UNKNOWN, "-2 -3 4 -5 6 7 -8 9 -10 11 0", &[1, 1]),
    (1, UNKNOWN, "-2 -3 4 -5 6 7 -8 9 -10 0", &[0, 0]),
    (1, UNKNOWN, "2 3 -4 5 6 7 -8 9 -10 0", &[0, 1]),
    (0, UNKNOWN_WIDE, "2 -3 4 -5 -6 7 0", &[0, 2]),
    (
        1,
        UNKNOWN_WIDE,
        "-2 3 4 -5 -6 7 8 -9 10 -11 12 13 0",
        &[1, 3],
    ),
];

/// The calls of these rows, each with what the memory holds afterwards.
pub fn memory_rows() -> Vec<(Call, Vec<u32>)> {
    let mut rows = Vec::new();
    for (depth, sheet, numbers, words) in MEMORIES {
        for more in [[0, 0], [1, 0], [0, 1], [7, 9]] {
            let call = Call::new(&accepted(sheet), depth, satisfiable(numbers), more);
            let memory = [words, &call.memory[words.len()..]].concat();
            rows.push((call, memory));
        }
    }
    rows
}

pub fn replays(tally: &mut Tally) {
    for (name, input, answer, printed) in replay_rows() {
        let found = String::from_utf8(replay(&input, &answer)).expect("ASCII");
        let expected = String::from_utf8(printed).expect("ASCII");
        tally.equal(name, found, expected);
    }
    for (index, (call, memory)) in memory_rows().into_iter().enumerate() {
        let outcome = call.outcome();
        tally.equal((index, "memory"), &outcome.memory, &memory);
        let printed = replay(&call.input(), &call.answer);
        tally.equal((index, "printed"), printed, outcome.printed());
    }
}

/// A fault of the record of `IDLE`, and its verdict.
type RecordFault = (fn(&mut Netlist), (u32, u32));

const RECORD_FAULTS: [RecordFault; 8] = [
    (|_| (), ACCEPTED),
    (|record| record.inputs = 601, (SIZE, 1)),
    (|record| record.start_word = 4, (SIZE, 2)),
    (|record| record.unknown_start = 2, (SIZE, 2)),
    (|record| record.address_width = 0, (SIZE, 2)),
    (|record| record.latch_count = 1, (OUT_OF_ORDER, 0)),
    (|record| record.property = 8, (CODE, 6)),
    (|record| record.read_enable = 4, (MEMORY_LOOP, 6)),
];

/// Answers for `IDLE` at depth 2: what is said of them, and the memory's two words afterwards where
/// they are written.
type Said = (&'static str, Result<Claim, u32>, Option<[u32; 2]>);

const SAID: [Said; 6] = [
    ("s UNSATISFIABLE/", Ok(Claim::Unsatisfiable), None),
    ("s UNSATISFIABLE", Err(BAD_ANSWER), Some([0, 0])),
    (
        "s SATISFIABLE/v -2 3 4 -5 13/",
        Err(BAD_ANSWER),
        Some([0, 0]),
    ),
    (
        "s SATISFIABLE/v -2 3 -5 13 0/",
        Err(BAD_ANSWER),
        Some([0, 0]),
    ),
    (
        "s SATISFIABLE/v -2 3 -4 -5 13 0/",
        Err(NOTHING_BREAKS),
        Some([3, 1]),
    ),
    (
        "s SATISFIABLE/v -2 3 4 -5 13 0/",
        Ok(Claim::Breaks(2)),
        Some([2, 1]),
    ),
];

/// Each record with each depth, length of memory, length of trace and answer: the first test that
/// fails decides. `IDLE` at depth 2 needs two words and 12 bytes.
pub fn fault_set_rows() -> Vec<(String, Call, Outcome)> {
    let mut rows = Vec::new();
    for (index, (damage, record_verdict)) in RECORD_FAULTS.into_iter().enumerate() {
        for (depth, words, bytes) in call_sizes() {
            for (short, said, left) in SAID {
                let mut netlist = accepted(IDLE);
                damage(&mut netlist);
                let (memory, trace) = marks(words, bytes);
                let call = Call {
                    netlist,
                    depth,
                    answer: bytes_of(short),
                    memory,
                    trace,
                };
                let refused = |number, place| Err(Refusal { number, place });
                let mut outcome = if record_verdict != ACCEPTED {
                    call.untouched(refused(record_verdict.0, record_verdict.1))
                } else if depth > MAX_DEPTH {
                    call.untouched(refused(DEPTH, 0))
                } else if words < 2 || bytes < 12 {
                    call.untouched(refused(NO_ROOM, 0))
                } else {
                    let mut outcome = call.untouched(said.or_else(|number| refused(number, 0)));
                    if let Some(left) = left {
                        outcome.memory[..2].copy_from_slice(&left);
                    }
                    outcome
                };
                if let Ok(Claim::Breaks(_)) = outcome.result {
                    outcome.trace[..12].copy_from_slice(b"011\n011\n101\n");
                }
                let name = format!("record {index}, {depth}, {words}, {bytes}, {short}");
                rows.push((name, call, outcome));
            }
        }
    }
    rows
}

/// Depth, words and bytes.
fn call_sizes() -> Vec<(u32, usize, usize)> {
    let mut sizes = Vec::new();
    for depth in [2, 256, u32::MAX] {
        for words in [0, 1, 2, 3, 9] {
            sizes.extend([0, 1, 11, 12, 13, 40].map(|bytes| (depth, words, bytes)));
        }
    }
    sizes
}

pub fn fault_sets(tally: &mut Tally) {
    for (name, call, expected) in fault_set_rows() {
        tally.equal(name, call.outcome(), expected);
    }
}
