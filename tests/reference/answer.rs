//! K2: a solver's answer in the SAT Competition output form, and the run of the chip that it feeds; the
//! words of an unknown start as K7 has them, and the idle words of two ports (K10).

use std::collections::HashSet;

use super::circuit::{feed_of_words, Circuit, Feed, Run, Values};
use super::formula::{frame_base, refusal_text};
use super::netlist::{Netlist, FIRST_PORT, MAX_ADDRESS_WIDTH, MAX_DEPTH};
use super::refusal::{require, Refusal, BAD_ANSWER, DEPTH, NOTHING_BREAKS, NO_ROOM};
use super::sheet::{read_depth, read_sheet};

/// A well-formed answer.
#[derive(Clone, Debug, PartialEq, Eq)]
pub enum Answer {
    Unsatisfiable,
    /// The numbers of the `v` lines in their order, without the 0 that ends them.
    Satisfiable(Vec<i32>),
}

/// Reads an answer; none for malformed text.
pub fn read_answer(text: &[u8]) -> Option<Answer> {
    let lines = text.strip_suffix(b"\n")?.split(|byte| *byte == b'\n');
    let mut lines = lines.filter(|line| !line.starts_with(b"c"));
    // No line but a comment may stand before the `s` line, and none but `v` lines behind it.
    match lines.next()? {
        b"s UNSATISFIABLE" => lines.next().is_none().then_some(Answer::Unsatisfiable),
        b"s SATISFIABLE" => {
            let numbers: Option<Vec<Vec<i32>>> = lines.map(read_values).collect();
            let numbers = numbers?.concat();
            let (end, literals) = numbers.split_last()?;
            let well_formed = *end == 0 && !literals.contains(&0);
            well_formed.then(|| Answer::Satisfiable(literals.to_vec()))
        }
        _ => None,
    }
}

/// The numbers of a `v` line: at least one, a single space before each.
fn read_values(line: &[u8]) -> Option<Vec<i32>> {
    let words = line.strip_prefix(b"v ")?.split(|byte| *byte == b' ');
    words.map(read_value).collect()
}

/// 0, or a clause number without plus or leading zeros.
fn read_value(word: &[u8]) -> Option<i32> {
    if word == b"0" {
        return Some(0);
    }
    let digits = word.strip_prefix(b"-").unwrap_or(word);
    // `parse` alone would take a plus sign.
    if digits.starts_with(b"0") || !digits.iter().all(u8::is_ascii_digit) {
        return None;
    }
    let magnitude: i32 = std::str::from_utf8(digits).ok()?.parse().ok()?;
    Some(if digits == word {
        magnitude
    } else {
        -magnitude
    })
}

/// What an answer feeds the chip, stepped to learn where it takes a word from the answer; none where
/// an input or a needed read bit is missing or has both signs. All other numbers are never looked at.
fn feeds_of_answer(netlist: &Netlist, depth: u32, literals: &[i32]) -> Option<Vec<Feed>> {
    let given: HashSet<i64> = literals.iter().map(|literal| i64::from(*literal)).collect();
    let mut circuit = Circuit::new(netlist);
    let mut feeds = Vec::new();
    for frame in 0..=depth {
        let bit = |wire: u32| {
            let variable = frame_base(netlist, frame) + i64::from(wire);
            let positive = given.contains(&variable);
            (positive != given.contains(&-variable)).then_some(positive)
        };
        let bits = |wires: std::ops::Range<u32>| wires.map(bit).collect::<Option<Vec<bool>>>();
        let inputs = bits(1..netlist.first_latch())?;
        let mut idle_words = Vec::new();
        for port in netlist.ports() {
            let mut idle_word = 0;
            if circuit.port_takes_fed_word(port, &inputs) {
                let read_bits = bits(netlist.read_bits(port))?;
                for (weight, bit) in read_bits.into_iter().enumerate() {
                    idle_word |= u32::from(bit) << weight;
                }
            }
            idle_words.push(idle_word);
        }
        let word_of = |port: u32| idle_words[(port - FIRST_PORT) as usize];
        let feed = feed_of_words(netlist, inputs, word_of);
        circuit.step(&feed);
        feeds.push(feed);
    }
    Some(feeds)
}

/// What a call that is not refused says.
#[derive(Clone, Copy, Debug, PartialEq, Eq)]
pub enum Claim {
    Unsatisfiable,
    /// The first frame that breaks the property.
    Breaks(u32),
}

/// Bytes of the lines of all frames.
pub fn trace_size(netlist: &Netlist, depth: u32) -> usize {
    (depth as usize + 1) * (netlist.wire_count() as usize + 1)
}

/// For each frame a line of V digits, wire 1 first.
pub fn trace_text(frames: &[Values]) -> Vec<u8> {
    let mut text = Vec::new();
    for values in frames {
        text.extend(values[1..].iter().map(|bit| b'0' + u8::from(*bit)));
        text.push(b'\n');
    }
    text
}

/// The call with a lent memory and a lent trace: the record's tests, 7, 9 for the memory, 9 for
/// the trace, 14, 15. The memory is written at 14 and 15 too, the trace on success alone.
pub fn replay_call(
    netlist: &Netlist,
    depth: u32,
    answer: &[u8],
    memory: &mut [u32],
    trace: &mut [u8],
) -> Result<Claim, Refusal> {
    netlist.check()?;
    require(depth <= MAX_DEPTH, DEPTH, 0)?;
    let words = 1 << netlist.address_width;
    require(memory.len() >= words, NO_ROOM, 0)?;
    let digits = trace_size(netlist, depth);
    require(trace.len() >= digits, NO_ROOM, 0)?;

    let memory = &mut memory[..words];
    let feeds = match read_answer(answer) {
        Some(Answer::Unsatisfiable) => return Ok(Claim::Unsatisfiable),
        Some(Answer::Satisfiable(literals)) => feeds_of_answer(netlist, depth, &literals),
        None => None,
    };
    let run = match feeds {
        Some(feeds) => Run::new(netlist, &feeds),
        None => {
            memory.fill(0);
            return Err(Refusal {
                number: BAD_ANSWER,
                place: 0,
            });
        }
    };
    memory.copy_from_slice(&run.words);
    let first_break = run.first_break.ok_or(Refusal {
        number: NOTHING_BREAKS,
        place: 0,
    })?;
    trace[..digits].copy_from_slice(&trace_text(&run.frames));
    Ok(Claim::Breaks(first_break as u32))
}

/// What the program prints for this standard input and this content of the file `answer`, which is
/// empty where the file can't be opened.
pub fn replay(input: &[u8], answer: &[u8]) -> Vec<u8> {
    replay_text(input, answer).unwrap_or_else(refusal_text)
}

fn replay_text(input: &[u8], answer: &[u8]) -> Result<Vec<u8>, Refusal> {
    let (depth, sheet) = read_depth(input)?;
    // The program has room for every accepted sheet and its run, so 9 does not occur.
    let netlist = read_sheet(sheet, usize::MAX, usize::MAX)?;
    let mut memory = vec![0; 1 << MAX_ADDRESS_WIDTH];
    let mut trace = vec![0; trace_size(&netlist, depth)];
    match replay_call(&netlist, depth, answer, &mut memory, &mut trace)? {
        Claim::Unsatisfiable => Ok(b"claimed unsatisfiable\n".to_vec()),
        Claim::Breaks(frame) => Ok([format!("{frame}\n").into_bytes(), trace].concat()),
    }
}
