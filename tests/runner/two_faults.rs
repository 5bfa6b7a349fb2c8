//! Two faults in one input: which of them is reported, and its place.

use super::process::Program;
use super::reference::check_examples::{input, RICH};
use super::reference::check_ports::TWO_RICH;
use super::reference::check_refusals::Verdict;
use super::reference::formula::refusal_text;
use super::reference::refusal::*;
use super::reference::sheet::{expand, DEPTH_LINE_BYTES, FIELD_BYTES, LINE_BYTES};
use super::reference::Tally;

/// How a fault changes the input, which is a depth line and a small sheet.
enum Edit {
    /// These bytes stand at this offset.
    Bytes(usize, Vec<u8>),
    /// So many bytes are left out at the end.
    Cut(usize),
    /// These bytes follow at the end.
    Append(Vec<u8>),
}

struct Fault {
    name: String,
    edit: Edit,
    expected: Verdict,
}

/// When the tests come to a refusal (RULES P4 and T53): the depth's form, its value, the file's length, then line
/// by line 2, 3, and 4 or 5, where a missing line counts as the line behind the last; then 17, then 6.
fn order((number, place): Verdict) -> (u32, u32, u32) {
    let stage = match (number, place) {
        (MISPRINT, 0) => 0,
        (DEPTH, _) => 1,
        (RAGGED, _) => 2,
        (TIED_ADDRESS, _) => 4,
        (MEMORY_LOOP, _) => 5,
        _ => 3,
    };
    (stage, place, number)
}

fn fault(name: impl Into<String>, edit: Edit, expected: Verdict) -> Fault {
    let name = name.into();
    Fault {
        name,
        edit,
        expected,
    }
}

/// Bytes of a line replaced, from a column on; column 0 is the letter.
fn in_line(place: u32, column: usize, text: &str, expected: Verdict) -> Fault {
    let offset = DEPTH_LINE_BYTES + (place as usize - 1) * LINE_BYTES + column;
    let name = format!("{text:?} in line {place} column {column}");
    fault(name, Edit::Bytes(offset, text.into()), expected)
}

/// A field of a line replaced.
fn field(place: u32, index: usize, text: &str, expected: Verdict) -> Fault {
    let text = format!("{text:>FIELD_BYTES$}");
    in_line(place, 1 + index * FIELD_BYTES, &text, expected)
}

/// Whole lines replaced, from a place on: whether two address bits are tied, neither line says alone.
fn whole_lines(place: u32, lines: &str, expected: Verdict) -> Fault {
    let offset = DEPTH_LINE_BYTES + (place as usize - 1) * LINE_BYTES;
    fault(lines, Edit::Bytes(offset, expand(lines)), expected)
}

/// Faults of the depth, of the file and of each line, for a sheet of so many lines with its last one, and for each line a letter that has
/// the same filled fields.
fn faults_of(lines: usize, last_line: &str, others: &[&str]) -> Vec<Fault> {
    let in_depth = |at, text: &str, expected| {
        fault(
            format!("{text:?} in the depth"),
            Edit::Bytes(at, text.into()),
            expected,
        )
    };
    let cut = |name: &str, count, expected| fault(name, Edit::Cut(count), expected);
    let append = |name: &str, bytes, expected| fault(name, Edit::Append(bytes), expected);
    let last_line = expand(last_line);
    let behind = lines as u32 + 1;
    let mut all = vec![
        in_depth(8, "-1", (MISPRINT, 0)),
        in_depth(10, " ", (MISPRINT, 0)),
        in_depth(7, "256", (DEPTH, 0)),
        cut("a byte short", 1, (RAGGED, 0)),
        cut("no sheet", lines * LINE_BYTES, (RAGGED, 0)),
        append("a byte long", b"\n".to_vec(), (RAGGED, 0)),
        append("628 lines", last_line.repeat(628 - lines), (RAGGED, 0)),
        cut(
            "last line missing",
            LINE_BYTES,
            (OUT_OF_ORDER, lines as u32),
        ),
        append("a line too many", last_line.clone(), (OUT_OF_ORDER, behind)),
        append(
            "627 lines",
            last_line.repeat(627 - lines),
            (OUT_OF_ORDER, behind),
        ),
        append(
            "a misprint too many",
            vec![b'?'; LINE_BYTES],
            (MISPRINT, behind),
        ),
        field(1, 0, "601", (SIZE, 1)),
        field(1, 1, "601", (SIZE, 1)),
        field(1, 2, "4294967295", (SIZE, 1)),
        field(2, 0, "13", (SIZE, 2)),
        field(2, 1, "0", (SIZE, 2)),
        field(2, 2, "4", (SIZE, 2)),
    ];
    // In each line: unknown letter, no number, no line feed, and another letter.
    for (place, other) in (1..).zip(others) {
        all.push(in_line(place, 0, "?", (MISPRINT, place)));
        all.push(in_line(place, 1, "x", (MISPRINT, place)));
        all.push(in_line(place, 31, "\r", (MISPRINT, place)));
        all.push(in_line(place, 0, other, (OUT_OF_ORDER, place)));
    }
    all
}

/// Of `RICH`, which has nine lines: V = 5, the gate is wire 5, wires 3 and 4 are the read bits.
fn one_port_faults() -> Vec<Fault> {
    let others = ["M", "C", "G", "L", "D", "D", "A", "A", "N"];
    let mut all = faults_of(9, "C 11 5 9", &others);
    all.extend([
        // V = 601, which is tested at the M line.
        field(1, 0, "597", (SIZE, 2)),
        field(3, 0, "12", (CODE, 3)),
        field(3, 1, "2", (CODE, 3)),
        field(4, 0, "10", (CODE, 4)),
        field(4, 1, "10", (CODE, 4)),
        field(5, 0, "12", (CODE, 5)),
        field(6, 0, "12", (CODE, 6)),
        field(7, 0, "12", (CODE, 7)),
        field(8, 0, "12", (CODE, 8)),
        field(9, 0, "12", (CODE, 9)),
        field(9, 1, "12", (CODE, 9)),
        field(9, 2, "12", (CODE, 9)),
        field(5, 0, "6", (MEMORY_LOOP, 5)),
        field(6, 0, "9", (MEMORY_LOOP, 6)),
        field(9, 1, "6", (MEMORY_LOOP, 9)),
        whole_lines(5, "A 4/A 4", (TIED_ADDRESS, 6)),
        whole_lines(5, "A 3/A 2", (TIED_ADDRESS, 6)),
        whole_lines(5, "A 6/A 7", (TIED_ADDRESS, 6)),
    ]);
    all
}

/// Of `TWO_RICH`, which has twelve lines: V = 7, the gate is wire 7, wires 3 and 4 are the first port's read bits, 5 and 6 the second's.
fn two_port_faults() -> Vec<Fault> {
    let others = ["T", "C", "G", "L", "B", "D", "B", "R", "R", "A", "D", "N"];
    let mut all = faults_of(12, "C 15 5 11", &others);
    all.extend([
        // V = 601, and the start word left out, which is a misprint under another letter than M and T.
        field(1, 0, "595", (SIZE, 2)),
        whole_lines(2, "T 2 2", (SIZE, 2)),
        field(3, 0, "16", (CODE, 3)),
        field(4, 1, "14", (CODE, 4)),
        field(5, 0, "16", (CODE, 5)),
        field(8, 0, "16", (CODE, 8)),
        field(9, 0, "16", (CODE, 9)),
        field(10, 0, "4294967295", (CODE, 10)),
        field(11, 0, "16", (CODE, 11)),
        field(12, 1, "16", (CODE, 12)),
        // A read bit of either port, in either address and either RE: A, B, R, then C.
        field(5, 0, "6", (MEMORY_LOOP, 5)),
        field(6, 0, "13", (MEMORY_LOOP, 6)),
        field(9, 0, "9", (MEMORY_LOOP, 9)),
        field(10, 0, "10", (MEMORY_LOOP, 10)),
        field(11, 0, "12", (MEMORY_LOOP, 11)),
        field(12, 1, "7", (MEMORY_LOOP, 12)),
        // Within each port.
        whole_lines(5, "A 4/A 5", (TIED_ADDRESS, 6)),
        whole_lines(9, "B 2/B 3", (TIED_ADDRESS, 10)),
        whole_lines(9, "B 12/B 12", (TIED_ADDRESS, 10)),
    ]);
    all
}

/// Whether each fault is still there beside the other, so that the order of tests alone decides.
fn independent(one: &Edit, other: &Edit, length: usize) -> bool {
    match (one, other) {
        (Edit::Bytes(at, bytes), Edit::Bytes(from, others)) => {
            at + bytes.len() <= *from || from + others.len() <= *at
        }
        (Edit::Bytes(at, bytes), Edit::Cut(count)) | (Edit::Cut(count), Edit::Bytes(at, bytes)) => {
            at + bytes.len() <= length - count
        }
        (Edit::Bytes(..), Edit::Append(_)) | (Edit::Append(_), Edit::Bytes(..)) => true,
        _ => false,
    }
}

fn apply(bytes: &mut Vec<u8>, edit: &Edit) {
    match edit {
        Edit::Bytes(at, replacement) => {
            // A cut before it may have taken some of the place away.
            let end = bytes.len().min(at + replacement.len());
            if *at < end {
                bytes[*at..end].copy_from_slice(&replacement[..end - at]);
            }
        }
        Edit::Cut(count) => bytes.truncate(bytes.len() - count),
        Edit::Append(more) => bytes.extend(more),
    }
}

pub fn two_faults(program: &Program, tally: &mut Tally) {
    let one = all_pairs(program, tally, &input(1, RICH), &one_port_faults());
    let two = all_pairs(program, tally, &input(1, TWO_RICH), &two_port_faults());
    tally.remark = format!(
        " ({} and {} faults, {} and {} pairs in which only the order of tests decides)",
        one[0], two[0], one[1], two[1]
    );
}

/// How many faults there are, and in how many pairs of them only the order of tests decides.
fn all_pairs(program: &Program, tally: &mut Tally, sound: &[u8], all: &[Fault]) -> [usize; 2] {
    let mut decided = 0;
    for (index, one) in all.iter().enumerate() {
        let mut bytes = sound.to_vec();
        apply(&mut bytes, &one.edit);
        let text = program.agrees(tally, &one.name, &bytes);
        tally.check_with(&one.name, text == text_of(one.expected), || {
            format!(": expected {:?}", one.expected)
        });
        for other in &all[index + 1..] {
            let mut bytes = sound.to_vec();
            apply(&mut bytes, &one.edit);
            apply(&mut bytes, &other.edit);
            let name = format!("{} and {}", one.name, other.name);
            let text = program.agrees(tally, &name, &bytes);
            if independent(&one.edit, &other.edit, sound.len()) {
                let first = if order(one.expected) <= order(other.expected) {
                    one
                } else {
                    other
                };
                tally.check_with(name, text == text_of(first.expected), || {
                    format!(": expected {}", first.name)
                });
                decided += 1;
            }
        }
    }
    [all.len(), decided]
}

fn text_of((number, place): Verdict) -> Vec<u8> {
    refusal_text(Refusal { number, place })
}
