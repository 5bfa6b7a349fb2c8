//! Every refusal with its place at its boundaries, as tables (RULES T1 to T9, T34 to T37, T39 to
//! T41, T53, T54 and P4; the empty start field of K7, and K8).

use super::check_examples::{accepted, input, of_sizes, FULL_RUN, RICH, UNKNOWN_RICH};
use super::formula::{frames, group_call, heading, refusal_text, Group};
use super::netlist::{Gate, Latch, Netlist};
use super::refusal::*;
use super::sheet::{expand, read_sheet, write_depth, write_sheet, FIELDS, FIELD_BYTES, LINE_BYTES};
use super::Tally;

/// Number and place, with (0, 0) where nothing is refused.
pub type Verdict = (u32, u32);

/// A name, the bytes of a sheet or of an input of `frames`, and the verdict on them.
pub type Row = (String, Vec<u8>, Verdict);

pub const ACCEPTED: Verdict = (0, 0);

pub fn verdict<T>(result: Result<T, Refusal>) -> Verdict {
    match result {
        Ok(_) => ACCEPTED,
        Err(Refusal { number, place }) => (number, place),
    }
}

/// The verdict on a sheet's bytes where the lent lists are long enough for every sheet.
fn judge(sheet: &[u8]) -> Verdict {
    verdict(read_sheet(sheet, 600, 600))
}

/// What a field holds, by RULES S2 and S3.
const FIELD_FORMS: [(&[u8; FIELD_BYTES], Option<u32>); 22] = [
    (b"         0", Some(0)),
    (b"         1", Some(1)),
    (b"       256", Some(256)),
    (b"       601", Some(601)),
    (b"4294967295", Some(u32::MAX)),
    (b"4294967296", None),
    (b"9999999999", None),
    (b"          ", None),
    (b"1         ", None),
    (b"        1 ", None),
    (b"       1 1", None),
    (b"        01", None),
    (b"        00", None),
    (b"0000000001", None),
    (b"        +1", None),
    (b"        -1", None),
    (b"       0x1", None),
    (b"       1.0", None),
    (b"\t        1", None),
    (b"\0        1", None),
    (b"\xA0        1", None),
    (b"        1\n", None),
];

fn check_sheets(tally: &mut Tally, rows: Vec<Row>) {
    for (name, sheet, expected) in rows {
        tally.equal(name, judge(&sheet), expected);
    }
}

pub fn fields_and_letters(tally: &mut Tally) {
    check_sheets(tally, field_and_letter_rows());
}

/// Every form of a field, of filled and empty fields, and of a letter.
pub fn field_and_letter_rows() -> Vec<Row> {
    [number_forms(), filled_and_empty_fields(), letters()].concat()
}

/// The forms in the first field of an N line.
fn number_forms() -> Vec<Row> {
    let row = |(field, number): (&[u8; FIELD_BYTES], Option<u32>)| {
        let mut sheet = expand("N 1 0 0/M 1 1 0/A 0/D 1/C 1 1 0");
        sheet[1..1 + FIELD_BYTES].copy_from_slice(field);
        let expected = match number {
            None => (MISPRINT, 1),
            Some(count) if count > 600 => (SIZE, 1),
            Some(_) => ACCEPTED,
        };
        (format!("field {}", field.escape_ascii()), sheet, expected)
    };
    FIELD_FORMS.into_iter().map(row).collect()
}

/// The same forms as depth.
fn depth_forms() -> Vec<Row> {
    let row = |(field, number): (&[u8; FIELD_BYTES], Option<u32>)| {
        let bytes = [field.as_slice(), b"\n", &expand(FULL_RUN)].concat();
        let expected = match number {
            None => (MISPRINT, 0),
            Some(depth) if depth > 255 => (DEPTH, 0),
            Some(_) => ACCEPTED,
        };
        (format!("depth {}", field.escape_ascii()), bytes, expected)
    };
    FIELD_FORMS.into_iter().map(row).collect()
}

/// In every line of every kind: filled fields emptied, empty fields filled, line feed replaced. Only the
/// start field may be emptied.
fn filled_and_empty_fields() -> Vec<Row> {
    let sheet = expand(RICH);
    let mut rows = Vec::new();
    for line in 0..sheet.len() / LINE_BYTES {
        let start = line * LINE_BYTES;
        let misprint = (MISPRINT, line as u32 + 1);
        for index in 0..FIELDS {
            let mut changed = sheet.clone();
            let column = start + 1 + index * FIELD_BYTES;
            let field = &mut changed[column..column + FIELD_BYTES];
            let is_empty = field.iter().all(|byte| *byte == b' ');
            field.fill(b' ');
            field[FIELD_BYTES - 1] = if is_empty { b'0' } else { b' ' };
            let expected = match (line, index) {
                (1, 2) => ACCEPTED,
                _ => misprint,
            };
            rows.push((format!("line {line} field {index}"), changed, expected));
        }
        for byte in [b' ', b'\r', b'0', 0] {
            let mut changed = sheet.clone();
            changed[start + LINE_BYTES - 1] = byte;
            rows.push((format!("line {line} end {byte}"), changed, misprint));
        }
    }
    rows
}

/// Every byte as the letter of line 1, whose three fields are filled: M, C and T want that too and
/// are only out of order; the other letters do not.
fn letters() -> Vec<Row> {
    let row = |letter: u8| {
        let mut sheet = expand(FULL_RUN);
        sheet[0] = letter;
        let expected = match letter {
            b'N' => ACCEPTED,
            b'M' | b'C' | b'T' => (OUT_OF_ORDER, 1),
            _ => (MISPRINT, 1),
        };
        (format!("letter {letter}"), sheet, expected)
    };
    (0..=u8::MAX).map(row).collect()
}

/// Whole sheets as short forms.
#[rustfmt::skip]
const SHEETS: [(&str, Verdict); 91] = [
    (FULL_RUN, ACCEPTED),
    (RICH, ACCEPTED),
    // A line missing at the end: one past the last.
    ("N 1 0 0", (OUT_OF_ORDER, 2)),
    ("N 600 600 600", (OUT_OF_ORDER, 2)),
    ("N 1 0 0/M 1 1 0", (OUT_OF_ORDER, 3)),
    ("N 1 0 0/M 1 1 0/A 0", (OUT_OF_ORDER, 4)),
    ("N 1 0 0/M 1 1 0/A 0/D 2", (OUT_OF_ORDER, 5)),
    // A line missing before others: the line in its place is not the line due.
    ("M 1 1 0/A 0/D 2/C 1 1 5", (OUT_OF_ORDER, 1)),
    ("N 1 0 0/A 0/D 2/C 1 1 5", (OUT_OF_ORDER, 2)),
    ("N 1 0 0/M 1 1 0/D 2/C 1 1 5", (OUT_OF_ORDER, 3)),
    ("N 1 0 0/M 1 1 0/A 0/C 1 1 5", (OUT_OF_ORDER, 4)),
    ("N 1 0 0/M 2 1 0/A 0/D 2/C 1 1 5", (OUT_OF_ORDER, 4)),
    // Too many lines, in the middle and at the end; a misprint comes before that, a code after.
    ("N 1 0 0/N 1 0 0/M 1 1 0/A 0/D 2/C 1 1 5", (OUT_OF_ORDER, 2)),
    ("N 1 0 0/M 1 1 0/L 0 0/A 0/D 2/C 1 1 5", (OUT_OF_ORDER, 3)),
    ("N 1 0 0/M 1 1 0/A 0/A 0/D 2/C 1 1 5", (OUT_OF_ORDER, 4)),
    ("N 1 0 0/M 1 1 0/A 0/D 2/C 1 1 5/C 1 1 5", (OUT_OF_ORDER, 6)),
    ("N 1 0 0/M 1 1 0/A 0/D 2/C 1 1 5/C 99 1 5", (OUT_OF_ORDER, 6)),
    ("N 1 0 0/M 1 1 0/A 0/D 2/C 1 1 5/? ? ? ?", (MISPRINT, 6)),
    // Fields are judged by the letter on the line, not by the letter due.
    ("N 1 1 1/M 2 2 2/L 10 1/A 4/A 4/A 3/D 10/D 8/C 11 5 9", (OUT_OF_ORDER, 4)),
    ("N 1 1 1/M 2 2 2/L 10 1/A 2 7/A 4/A 3/D 10/D 8/C 11 5 9", (MISPRINT, 4)),
    ("N 1 0 0/C 1 1/A 0/D 2/C 1 1 5", (MISPRINT, 2)),
    // Letters of a second port, and letters are upper case.
    ("N 1 0 0/T 1 1 0", (OUT_OF_ORDER, 3)),
    ("N 1 0 0/M 1 1 0/B 0", (OUT_OF_ORDER, 3)),
    ("N 1 0 0/M 1 1 0/R 0", (OUT_OF_ORDER, 3)),
    ("N 1 0 0/m 1 1 0", (MISPRINT, 2)),
    // Line by line: an earlier line's refusal comes first, whatever its number.
    ("N 601 0 0/M 1 1", (SIZE, 1)),
    ("N 1 0 0/M 0 1 0/?", (SIZE, 2)),
    ("N 1 0 0/M 1 1 0/A 6", (CODE, 3)),
    ("N 1 0 0/M 1 1 0/A 6/?", (CODE, 3)),
    ("N 1 0 0/M 1 1 0/A 6/A 0", (CODE, 3)),
    // Sizes of the N line. 600 passes that line, but n is at least 1 and V at most 600.
    ("N 601 0 0/M 1 1 0", (SIZE, 1)),
    ("N 0 601 0/M 1 1 0", (SIZE, 1)),
    ("N 0 0 601/M 1 1 0", (SIZE, 1)),
    ("N 0 0 4294967295/M 1 1 0", (SIZE, 1)),
    ("N 600 0 0/M 1 1 0/A 0/D 2/C 1 1 5", (SIZE, 2)),
    ("N 0 600 0/M 1 1 0", (SIZE, 2)),
    ("N 0 0 600/M 1 1 0", (SIZE, 2)),
    ("N 600 600 600/M 1 1 0", (SIZE, 2)),
    ("N 600 600 600/M 1 1", (SIZE, 2)),
    ("N 600 600 600/M 1", (MISPRINT, 2)),
    ("N 600 600 600/C 1 1 0", (OUT_OF_ORDER, 2)),
    ("N 599 0 0/M 1 1 0/A 0/D 2/C 1 1 5", ACCEPTED),
    ("N 599 0 0/M 1 2 0/A 0/D 2/D 2/C 1 1 5", (SIZE, 2)),
    ("N 200 200 200/M 1 1 0", (SIZE, 2)),
    // Without inputs, latches and gates; V = 1, so the largest code is 3.
    ("N 0 0 0/M 1 1 0/A 0/D 3/C 3 1 3", ACCEPTED),
    ("N 0 0 0/M 1 1 0/A 0/D 4/C 3 1 3", (CODE, 4)),
    // Dependence on a read bit (code 4 or 5 here) at the first A line concerned, else at C.
    ("N 1 0 0/M 1 1 0/A 4/D 2/C 1 1 5", (MEMORY_LOOP, 3)),
    ("N 1 0 0/M 1 1 0/A 5/D 2/C 1 1 5", (MEMORY_LOOP, 3)),
    ("N 1 0 0/M 1 1 0/A 4/D 2/C 1 4 5", (MEMORY_LOOP, 3)),
    ("N 1 0 0/M 1 1 0/A 2/D 2/C 1 5 5", (MEMORY_LOOP, 5)),
    ("N 1 0 0/M 2 1 0/A 2/A 4/D 2/C 1 4 5", (MEMORY_LOOP, 4)),
    ("N 1 0 0/M 2 1 0/A 4/A 2/D 2/C 1 1 5", (MEMORY_LOOP, 3)),
    ("N 1 0 0/M 1 1 0/A 2/D 4/C 4 2 4", ACCEPTED),
    // It comes after every code and after missing and surplus lines.
    ("N 1 0 0/M 1 1 0/A 4/D 2/C 1 1 6", (CODE, 5)),
    ("N 1 0 0/M 1 1 0/A 4/D 2", (OUT_OF_ORDER, 5)),
    ("N 1 0 0/M 1 1 0/A 4/D 2/C 1 1 5/A 0", (OUT_OF_ORDER, 6)),
    // By wiring through gates, whatever they compute; not through latches.
    ("N 1 0 1/M 1 1 0/G 4 0/A 6/D 2/C 1 1 5", (MEMORY_LOOP, 4)),
    ("N 1 0 1/M 1 1 0/G 4 5/A 7/D 2/C 1 1 5", (MEMORY_LOOP, 4)),
    ("N 1 0 2/M 1 1 0/G 4 0/G 2 7/A 8/D 2/C 1 1 5", (MEMORY_LOOP, 5)),
    ("N 1 0 2/M 1 1 0/G 4 0/G 2 3/A 8/D 6/C 1 8 5", ACCEPTED),
    ("N 1 0 2/M 1 1 0/G 4 0/G 6 6/A 2/D 2/C 1 9 5", (MEMORY_LOOP, 7)),
    ("N 0 1 0/M 1 1 0/L 4 0/A 2/D 4/C 1 2 5", ACCEPTED),
    // Two address bits of one wire, inverted or not: at the first line whose wire an earlier one has.
    ("N 1 0 0/M 2 1 0/A 2/A 2/D 2/C 1 1 5", (TIED_ADDRESS, 4)),
    ("N 1 0 0/M 2 1 0/A 2/A 3/D 2/C 1 1 5", (TIED_ADDRESS, 4)),
    ("N 1 0 0/M 2 1 0/A 3/A 2/D 2/C 1 1 5", (TIED_ADDRESS, 4)),
    ("N 2 0 0/M 4 1 0/A 2/A 4/A 4/A 2/D 2/C 1 1 5", (TIED_ADDRESS, 5)),
    ("N 2 0 0/M 4 1 0/A 2/A 4/A 3/A 5/D 2/C 1 1 5", (TIED_ADDRESS, 5)),
    ("N 2 0 0/M 4 1 0/A 0/A 4/A 1/A 5/D 2/C 1 1 5", (TIED_ADDRESS, 6)),
    ("N 1 1 1/M 3 1 0/L 2 0/G 2 4/A 8/A 2/A 9/D 2/C 1 1 5", (TIED_ADDRESS, 7)),
    ("N 1 1 1/M 3 1 0/L 2 0/G 2 4/A 8/A 2/A 4/D 2/C 1 1 5", ACCEPTED),
    // By wire alone: two wires that always have the same value are no tie.
    ("N 1 0 1/M 2 1 0/G 2 2/A 2/A 6/D 2/C 1 1 5", ACCEPTED),
    // Constants may repeat.
    ("N 0 0 0/M 4 1 0/A 0/A 0/A 1/A 1/D 2/C 1 1 3", ACCEPTED),
    // It comes before 6 and after all else.
    ("N 1 0 0/M 2 1 0/A 4/A 4/D 2/C 1 1 5", (TIED_ADDRESS, 4)),
    ("N 1 0 0/M 3 1 0/A 4/A 2/A 3/D 2/C 1 1 5", (TIED_ADDRESS, 5)),
    ("N 1 0 0/M 2 1 0/A 2/A 2/D 2/C 1 4 5", (TIED_ADDRESS, 4)),
    ("N 1 0 0/M 2 1 0/A 2/A 2/D 6/C 1 1 5", (CODE, 5)),
    ("N 1 0 0/M 2 1 0/A 2/A 2/D 2", (OUT_OF_ORDER, 6)),
    ("N 1 0 0/M 2 1 0/A 2/A 2/D 2/C 1 1 5/A 0", (OUT_OF_ORDER, 7)),
    // An empty start field. Every other field of N, M and C stays filled, and m and n keep their limits.
    ("N 1 0 0/M 1 1/A 0/D 2/C 1 1 5", ACCEPTED),
    ("N 1 0/M 1 1 0/A 0/D 2/C 1 1 5", (MISPRINT, 1)),
    ("N 1 0 0/M 1  0/A 0/D 2/C 1 1 5", (MISPRINT, 2)),
    ("N 1 0 0/M  1 0/A 0/D 2/C 1 1 5", (MISPRINT, 2)),
    ("N 1 0 0/M 1/A 0/D 2/C 1 1 5", (MISPRINT, 2)),
    ("N 1 0 0/M/A 0/D 2/C 1 1 5", (MISPRINT, 2)),
    ("N 1 0 0/M 1 1/A 0/D 2/C 1 1", (MISPRINT, 5)),
    ("N 1 0 0/M 1 1/A 4/D 2/C 1 1 5", (MEMORY_LOOP, 3)),
    ("N 1 0 0/M 2 1/A 2/A 2/D 2/C 1 1 5", (TIED_ADDRESS, 4)),
    ("N 1 0 0/M 1 1", (OUT_OF_ORDER, 3)),
    ("N 599 0 0/M 1 1/A 0/D 2/C 1 1 5", ACCEPTED),
    ("N 599 0 0/M 1 2/A 0/D 2/D 2/C 1 1 5", (SIZE, 2)),
    ("M 1 1/A 0/D 2/C 1 1 5", (OUT_OF_ORDER, 1)),
];

/// RICH with the line at a place replaced: V = 5, so codes go to 11, gate operands to 9.
const RICH_LINES: [(usize, &str, Verdict); 30] = [
    (3, "L 11 0", ACCEPTED),
    (3, "L 12 0", (CODE, 3)),
    (3, "L 4294967295 0", (CODE, 3)),
    (3, "L 10 2", (CODE, 3)),
    (3, "L 10 4294967295", (CODE, 3)),
    (4, "G 9 9", ACCEPTED),
    (4, "G 10 0", (CODE, 4)),
    (4, "G 0 10", (CODE, 4)),
    (4, "G 11 0", (CODE, 4)),
    (4, "G 0 12", (CODE, 4)),
    (5, "A 0", ACCEPTED),
    (5, "A 1", ACCEPTED),
    (5, "A 11", (MEMORY_LOOP, 5)),
    (5, "A 12", (CODE, 5)),
    (6, "A 2", ACCEPTED),
    (6, "A 4", (TIED_ADDRESS, 6)),
    (6, "A 5", (TIED_ADDRESS, 6)),
    (6, "A 6", (MEMORY_LOOP, 6)),
    (6, "A 9", (MEMORY_LOOP, 6)),
    (6, "A 12", (CODE, 6)),
    (7, "D 11", ACCEPTED),
    (7, "D 12", (CODE, 7)),
    (8, "D 4294967295", (CODE, 8)),
    (9, "C 11 5 11", ACCEPTED),
    (9, "C 12 5 11", (CODE, 9)),
    (9, "C 11 12 11", (CODE, 9)),
    (9, "C 11 5 12", (CODE, 9)),
    (9, "C 11 6 11", (MEMORY_LOOP, 9)),
    (9, "C 11 10 11", (MEMORY_LOOP, 9)),
    (9, "C 6 5 6", ACCEPTED),
];

/// m, n, start word, and the verdict on a sheet of constants with this M line.
const MEMORIES: [(u32, u32, &str, Verdict); 25] = [
    (0, 1, "0", (SIZE, 2)),
    (1, 1, "0", ACCEPTED),
    (12, 1, "0", ACCEPTED),
    (13, 1, "0", (SIZE, 2)),
    (u32::MAX, 1, "0", (SIZE, 2)),
    (1, 0, "0", (SIZE, 2)),
    (1, 32, "0", ACCEPTED),
    (1, 33, "0", (SIZE, 2)),
    (1, u32::MAX, "0", (SIZE, 2)),
    (1, 1, "1", ACCEPTED),
    (1, 1, "2", (SIZE, 2)),
    (1, 2, "3", ACCEPTED),
    (1, 2, "4", (SIZE, 2)),
    (1, 31, "2147483647", ACCEPTED),
    (1, 31, "2147483648", (SIZE, 2)),
    (1, 32, "4294967295", ACCEPTED),
    (1, 32, "4294967296", (MISPRINT, 2)),
    (0, 33, "4294967295", (SIZE, 2)),
    (0, 33, "4294967296", (MISPRINT, 2)),
    (1, 1, "", ACCEPTED),
    (12, 32, "", ACCEPTED),
    (0, 1, "", (SIZE, 2)),
    (13, 1, "", (SIZE, 2)),
    (1, 0, "", (SIZE, 2)),
    (1, 33, "", (SIZE, 2)),
];

/// Lengths of the lent latch and gate lists. RICH needs one record in each.
#[rustfmt::skip]
pub const ROOMS: [(&str, usize, usize, Verdict); 9] = [
    (RICH, 1, 1, ACCEPTED),
    (RICH, 2, 600, ACCEPTED),
    (RICH, 0, 1, (NO_ROOM, 0)),
    (RICH, 1, 0, (NO_ROOM, 0)),
    (RICH, 0, 0, (NO_ROOM, 0)),
    (FULL_RUN, 0, 0, ACCEPTED),
    ("N 1 1 1/M 1 1 0/L 0 0/G 0 0/A 6/D 0/C 1 1 5", 0, 0, (MEMORY_LOOP, 5)),
    ("N 1 1 1/M 1 1 0/L 0 0/G 0 0/A 4/D 0", 0, 0, (OUT_OF_ORDER, 7)),
    ("N 1 1 1/M 1 1 0/L 0 0/G 0 0/A 4/D 0/C 1 1 5", 0, 0, (NO_ROOM, 0)),
];

/// The tables above, but for `ROOMS`.
pub fn short_sheet_rows() -> Vec<Row> {
    let mut rows = Vec::new();
    let mut add = |short: String, expected| rows.push((short.clone(), expand(&short), expected));
    for (short, expected) in SHEETS {
        add(short.to_string(), expected);
    }
    for (place, line, expected) in RICH_LINES {
        let mut lines: Vec<&str> = RICH.split('/').collect();
        lines[place - 1] = line;
        add(lines.join("/"), expected);
    }
    for (m, n, start, expected) in MEMORIES {
        let addresses = "/A 0".repeat(m.min(13) as usize);
        let data = "/D 0".repeat(n.min(33) as usize);
        let short = format!("N 0 0 0/M {m} {n} {start}{addresses}{data}/C 0 0 0");
        add(short, expected);
    }
    rows
}

pub fn sheets(tally: &mut Tally) {
    check_sheets(tally, short_sheet_rows());
    for (short, latch_room, gate_room, expected) in ROOMS {
        let result = read_sheet(&expand(short), latch_room, gate_room);
        tally.equal((short, latch_room, gate_room), verdict(result), expected);
    }
}

/// The largest M sheet: 615 lines, 19,680 bytes.
pub fn largest_sheet() -> Vec<u8> {
    write_sheet(&of_sizes([0, 300, 268], [12, 32]))
}

/// Refusal 1 and the largest sheet.
pub fn length_rows() -> Vec<Row> {
    let small = expand(FULL_RUN);
    let last_line = small[small.len() - LINE_BYTES..].to_vec();
    let largest = largest_sheet();
    let short = small[..small.len() - 1].to_vec();
    let rows = [
        ("empty", Vec::new(), (RAGGED, 0)),
        ("one byte", b"N".to_vec(), (RAGGED, 0)),
        ("a byte short", short, (RAGGED, 0)),
        ("a byte long", [&small, &b"\n"[..]].concat(), (RAGGED, 0)),
        ("ragged misprint", vec![b'?'; 33], (RAGGED, 0)),
        ("misprint", vec![b'?'; 32], (MISPRINT, 1)),
        ("largest", largest.clone(), ACCEPTED),
        (
            "a line short",
            largest[..614 * LINE_BYTES].to_vec(),
            (OUT_OF_ORDER, 615),
        ),
        ("a byte over", [&largest, &b"\n"[..]].concat(), (RAGGED, 0)),
        (
            "a line over",
            [&largest[..], &last_line].concat(),
            (OUT_OF_ORDER, 616),
        ),
        (
            "615 lines, 5 due",
            [small, last_line.repeat(610)].concat(),
            (OUT_OF_ORDER, 6),
        ),
    ];
    rows.map(|(name, sheet, expected)| (name.to_string(), sheet, expected))
        .to_vec()
}

pub fn sheet_lengths(tally: &mut Tally) {
    tally.equal("largest sheet", largest_sheet().len(), 19_680);
    check_sheets(tally, length_rows());
}

/// A change of the record of RICH: V = 5; lines L 3, G 4, A 5 and 6, D 7 and 8, C 9.
pub type RecordRow = (&'static str, fn(&mut Netlist), Verdict);

#[rustfmt::skip]
pub const RECORDS: [RecordRow; 60] = [
    ("unchanged", |_| {}, ACCEPTED),
    // 4: at 1 for I, L, A; at 2 for m, n, start word and V; lists are not looked at yet.
    ("I = 601", |it| it.inputs = 601, (SIZE, 1)),
    ("I = 2^32 - 1", |it| it.inputs = u32::MAX, (SIZE, 1)),
    ("L = 601", |it| it.latch_count = 601, (SIZE, 1)),
    ("L = 2^32 - 1", |it| it.latch_count = u32::MAX, (SIZE, 1)),
    ("A = 601", |it| it.gate_count = 601, (SIZE, 1)),
    ("A = 2^32 - 1", |it| it.gate_count = u32::MAX, (SIZE, 1)),
    ("I and m", |it| (it.inputs, it.address_width) = (601, 13), (SIZE, 1)),
    ("m = 0", |it| it.address_width = 0, (SIZE, 2)),
    ("m = 13", |it| it.address_width = 13, (SIZE, 2)),
    ("m = 2^32 - 1", |it| it.address_width = u32::MAX, (SIZE, 2)),
    ("n = 0", |it| (it.data_width, it.start_word) = (0, 0), (SIZE, 2)),
    ("n = 33", |it| it.data_width = 33, (SIZE, 2)),
    ("n = 2^32 - 1", |it| it.data_width = u32::MAX, (SIZE, 2)),
    ("start word 3", |it| it.start_word = 3, ACCEPTED),
    ("start word 4", |it| it.start_word = 4, (SIZE, 2)),
    // The flag of the start: 0 or 1; where it is 1, the start word is not tested.
    ("unknown start", |it| it.unknown_start = 1, ACCEPTED),
    ("unknown start, word 4", |it| (it.unknown_start, it.start_word) = (1, 4), ACCEPTED),
    ("unknown start, word 2^32 - 1", |it| (it.unknown_start, it.start_word) = (1, u32::MAX), ACCEPTED),
    ("flag 2", |it| it.unknown_start = 2, (SIZE, 2)),
    ("flag 2^32 - 1", |it| it.unknown_start = u32::MAX, (SIZE, 2)),
    ("flag 2, word 0", |it| (it.unknown_start, it.start_word) = (2, 0), (SIZE, 2)),
    ("flag 2, I = 601", |it| (it.unknown_start, it.inputs) = (2, 601), (SIZE, 1)),
    ("flag 2, no list", |it| (it.unknown_start, it.latches) = (2, vec![]), (SIZE, 2)),
    ("unknown start, n = 0", |it| (it.unknown_start, it.data_width) = (1, 0), (SIZE, 2)),
    ("unknown start, n = 33", |it| (it.unknown_start, it.data_width) = (1, 33), (SIZE, 2)),
    ("unknown start, V = 601", |it| (it.unknown_start, it.inputs) = (1, 597), (SIZE, 2)),
    ("I = 600", |it| it.inputs = 600, (SIZE, 2)),
    ("V = 601", |it| it.inputs = 597, (SIZE, 2)),
    ("L = 601, no list", |it| (it.latch_count, it.latches) = (601, vec![]), (SIZE, 1)),
    ("V over, no list", |it| (it.gate_count, it.gates) = (597, vec![]), (SIZE, 2)),
    // 3: a list shorter than its size, before every 5; longer lists are fine.
    ("no latches", |it| it.latches.clear(), (OUT_OF_ORDER, 0)),
    ("no gates", |it| it.gates.clear(), (OUT_OF_ORDER, 0)),
    ("L = 2", |it| it.latch_count = 2, (OUT_OF_ORDER, 0)),
    ("A = 2 and a bad code", |it| (it.gate_count, it.address[0]) = (2, 99), (OUT_OF_ORDER, 0)),
    ("longer latch list", |it| it.latches.push(Latch { next: 99, reset: 9 }), ACCEPTED),
    ("longer gate list", |it| it.gates.push(Gate { left: 99, right: 99 }), ACCEPTED),
    // Entries past the sizes are ignored, by 5 and by 6.
    ("entry past m", |it| it.address[2] = u32::MAX, ACCEPTED),
    ("read bit past m", |it| it.address[11] = 6, ACCEPTED),
    ("wire of bit 0 past m", |it| it.address[2] = 4, ACCEPTED),
    ("entry past n", |it| it.write_data[2] = u32::MAX, ACCEPTED),
    // 5 in line order, then 6.
    ("next", |it| it.latches[0].next = 12, (CODE, 3)),
    ("reset", |it| it.latches[0].reset = 2, (CODE, 3)),
    ("left operand", |it| it.gates[0].left = 10, (CODE, 4)),
    ("right operand", |it| it.gates[0].right = 10, (CODE, 4)),
    ("address bit 1", |it| it.address[1] = 12, (CODE, 6)),
    ("write data bit 1", |it| it.write_data[1] = u32::MAX, (CODE, 8)),
    ("WE", |it| it.write_enable = 12, (CODE, 9)),
    ("RE", |it| it.read_enable = 12, (CODE, 9)),
    ("P", |it| it.property = 12, (CODE, 9)),
    ("P and a loop", |it| (it.property, it.address[0]) = (12, 6), (CODE, 9)),
    // 17 behind every 5 and before 6.
    ("tied", |it| it.address[1] = 4, (TIED_ADDRESS, 6)),
    ("tied, inverted", |it| it.address[0] = 2, (TIED_ADDRESS, 6)),
    ("two constants", |it| (it.address[0], it.address[1]) = (1, 1), ACCEPTED),
    ("tied read bits", |it| (it.address[0], it.address[1]) = (6, 7), (TIED_ADDRESS, 6)),
    ("tied, loop in RE", |it| (it.address[1], it.read_enable) = (4, 6), (TIED_ADDRESS, 6)),
    ("tied, P", |it| (it.address[1], it.property) = (4, 12), (CODE, 9)),
    ("loop in address bit 0", |it| it.address[0] = 10, (MEMORY_LOOP, 5)),
    ("loops in bit 1 and RE", |it| (it.address[1], it.read_enable) = (6, 6), (MEMORY_LOOP, 6)),
    ("loop in RE", |it| it.read_enable = 11, (MEMORY_LOOP, 9)),
];

/// Records, tested alone and as the first test of the group and heading calls.
pub fn records(tally: &mut Tally) {
    for (name, change, expected) in RECORDS {
        let mut record = accepted(RICH);
        change(&mut record);
        tally.equal(name, verdict(record.check()), expected);
        if expected != ACCEPTED {
            let call = group_call(&record, 256, Group::Wires(300), 0);
            tally.equal((name, "group call"), verdict(call), expected);
            tally.equal((name, "heading"), verdict(heading(&record, 256)), expected);
        }
    }
}

/// Depth, group, and the exact need or the refusal, for FULL_RUN: V = 2, m = n = 1, L = A = 0.
pub const GROUP_CALLS: [(u32, Group, Result<usize, u32>); 33] = [
    (0, Group::Wires(0), Ok(2)),
    (1, Group::Wires(1), Ok(0)),
    (255, Group::Wires(255), Ok(0)),
    (0, Group::Closing(0), Ok(2)),
    (1, Group::Closing(1), Ok(6)),
    (255, Group::Closing(255), Ok(260)),
    // N is RE, a constant, only where j = i - 1.
    (1, Group::Pair(0, 1), Ok(31)),
    (255, Group::Pair(254, 255), Ok(31)),
    (255, Group::Pair(253, 255), Ok(39)),
    (2, Group::Pair(0, 2), Ok(39)),
    (0, Group::Property, Ok(2)),
    (255, Group::Property, Ok(257)),
    // 7 comes before 8 and 9.
    (256, Group::Wires(0), Err(DEPTH)),
    (256, Group::Wires(300), Err(DEPTH)),
    (256, Group::Pair(1, 1), Err(DEPTH)),
    (256, Group::Closing(256), Err(DEPTH)),
    (256, Group::Property, Err(DEPTH)),
    (u32::MAX, Group::Property, Err(DEPTH)),
    (u32::MAX, Group::Pair(0, u32::MAX), Err(DEPTH)),
    // 8: frame over k, or j not below i.
    (0, Group::Wires(1), Err(NO_SUCH_GROUP)),
    (255, Group::Wires(256), Err(NO_SUCH_GROUP)),
    (255, Group::Wires(u32::MAX), Err(NO_SUCH_GROUP)),
    (0, Group::Closing(1), Err(NO_SUCH_GROUP)),
    (255, Group::Closing(u32::MAX), Err(NO_SUCH_GROUP)),
    (0, Group::Pair(0, 0), Err(NO_SUCH_GROUP)),
    (255, Group::Pair(0, 0), Err(NO_SUCH_GROUP)),
    (0, Group::Pair(0, 1), Err(NO_SUCH_GROUP)),
    (1, Group::Pair(1, 1), Err(NO_SUCH_GROUP)),
    (2, Group::Pair(2, 1), Err(NO_SUCH_GROUP)),
    (255, Group::Pair(255, 255), Err(NO_SUCH_GROUP)),
    (255, Group::Pair(0, 256), Err(NO_SUCH_GROUP)),
    (255, Group::Pair(u32::MAX, 255), Err(NO_SUCH_GROUP)),
    (255, Group::Pair(u32::MAX, u32::MAX), Err(NO_SUCH_GROUP)),
];

/// Sheet, depth, group, and the exact need, for sheets with other constants. RICH has none but the
/// start bits.
#[rustfmt::skip]
pub const NEEDS: [(&str, u32, Group, usize); 68] = [
    // P = 0: the clause has a true literal. P = 1: it is left empty, and -1 stands for it.
    ("N 1 0 0/M 1 1 0/A 0/D 2/C 1 1 0", 0, Group::Property, 0),
    ("N 1 0 0/M 1 1 0/A 0/D 2/C 1 1 0", 255, Group::Property, 0),
    ("N 1 0 0/M 1 1 0/A 0/D 2/C 1 1 1", 0, Group::Property, 2),
    ("N 1 0 0/M 1 1 0/A 0/D 2/C 1 1 1", 255, Group::Property, 2),
    (RICH, 0, Group::Property, 2),
    (RICH, 255, Group::Property, 257),
    // RE: false, true, the input. n = 2.
    ("N 1 0 0/M 1 2 2/A 2/D 2/D 2/C 2 0 2", 2, Group::Closing(0), 0),
    ("N 1 0 0/M 1 2 2/A 2/D 2/D 2/C 2 0 2", 2, Group::Closing(1), 18),
    ("N 1 0 0/M 1 2 2/A 2/D 2/D 2/C 2 0 2", 2, Group::Closing(2), 18),
    ("N 1 0 0/M 1 2 2/A 2/D 2/D 2/C 2 1 2", 2, Group::Closing(0), 4),
    ("N 1 0 0/M 1 2 2/A 2/D 2/D 2/C 2 1 2", 2, Group::Closing(1), 9),
    ("N 1 0 0/M 1 2 2/A 2/D 2/D 2/C 2 1 2", 2, Group::Closing(2), 10),
    ("N 1 0 0/M 1 2 2/A 2/D 2/D 2/C 2 2 2", 2, Group::Closing(0), 9),
    ("N 1 0 0/M 1 2 2/A 2/D 2/D 2/C 2 2 2", 2, Group::Closing(1), 26),
    ("N 1 0 0/M 1 2 2/A 2/D 2/D 2/C 2 2 2", 2, Group::Closing(2), 27),
    (RICH, 2, Group::Closing(0), 9),
    (RICH, 2, Group::Closing(1), 26),
    // Pairs, by RE: the gates of PS and S have 10, 12 or 20 numbers where N is RE, else 20.
    ("N 1 0 0/M 1 1 0/A 2/D 2/C 2 0 2", 2, Group::Pair(1, 2), 47),
    ("N 1 0 0/M 1 1 0/A 2/D 2/C 2 0 2", 2, Group::Pair(0, 2), 57),
    ("N 1 0 0/M 1 1 0/A 2/D 2/C 2 1 2", 2, Group::Pair(1, 2), 49),
    ("N 1 0 0/M 1 1 0/A 2/D 2/C 2 1 2", 2, Group::Pair(0, 2), 57),
    ("N 1 0 0/M 1 1 0/A 2/D 2/C 2 3 2", 2, Group::Pair(1, 2), 57),
    ("N 1 0 0/M 1 1 0/A 2/D 2/C 2 3 2", 2, Group::Pair(0, 2), 57),
    // Pairs, by WE, write data and address.
    ("N 1 0 0/M 1 1 0/A 2/D 2/C 0 2 2", 2, Group::Pair(0, 2), 52),
    ("N 1 0 0/M 1 1 0/A 2/D 2/C 1 2 2", 2, Group::Pair(0, 2), 53),
    ("N 1 0 0/M 1 1 0/A 2/D 0/C 2 2 2", 2, Group::Pair(0, 2), 52),
    ("N 1 0 0/M 1 1 0/A 2/D 1/C 2 2 2", 2, Group::Pair(0, 2), 52),
    ("N 1 0 0/M 1 1 0/A 0/D 2/C 2 2 2", 2, Group::Pair(0, 2), 43),
    ("N 1 0 0/M 1 1 0/A 1/D 2/C 2 2 2", 2, Group::Pair(0, 2), 43),
    ("N 1 0 0/M 2 1 0/A 1/A 2/D 2/C 2 2 2", 2, Group::Pair(0, 2), 60),
    (RICH, 2, Group::Pair(1, 2), 82),
    (RICH, 2, Group::Pair(0, 2), 82),
    // One latch, by its next code. Resets are no literals.
    ("N 0 1 0/M 1 1 0/L 0 0/A 2/D 2/C 2 2 2", 1, Group::Wires(0), 4),
    ("N 0 1 0/M 1 1 0/L 0 1/A 2/D 2/C 2 2 2", 1, Group::Wires(1), 2),
    ("N 0 1 0/M 1 1 0/L 1 0/A 2/D 2/C 2 2 2", 1, Group::Wires(1), 2),
    ("N 0 1 0/M 1 1 0/L 3 0/A 2/D 2/C 2 2 2", 1, Group::Wires(1), 6),
    // One gate, by its operands. A wire and its inverse are no constant.
    ("N 1 0 1/M 1 1 0/G 0 0/A 2/D 2/C 2 2 2", 1, Group::Wires(1), 4),
    ("N 1 0 1/M 1 1 0/G 0 1/A 2/D 2/C 2 2 2", 1, Group::Wires(1), 2),
    ("N 1 0 1/M 1 1 0/G 1 0/A 2/D 2/C 2 2 2", 1, Group::Wires(1), 2),
    ("N 1 0 1/M 1 1 0/G 1 1/A 2/D 2/C 2 2 2", 1, Group::Wires(1), 2),
    ("N 1 0 1/M 1 1 0/G 2 0/A 2/D 2/C 2 2 2", 1, Group::Wires(1), 5),
    ("N 1 0 1/M 1 1 0/G 0 3/A 2/D 2/C 2 2 2", 1, Group::Wires(1), 5),
    ("N 1 0 1/M 1 1 0/G 2 1/A 2/D 2/C 2 2 2", 1, Group::Wires(1), 6),
    ("N 1 0 1/M 1 1 0/G 1 3/A 2/D 2/C 2 2 2", 1, Group::Wires(1), 6),
    ("N 1 0 1/M 1 1 0/G 2 3/A 2/D 2/C 2 2 2", 1, Group::Wires(1), 10),
    ("N 1 0 1/M 1 1 0/G 2 2/A 2/D 2/C 2 2 2", 1, Group::Wires(0), 12),
    // Unknown start, n = 2: no clause with a start bit. RE: false, true, the input.
    ("N 1 0 0/M 1 2/A 2/D 2/D 2/C 2 0 2", 2, Group::Closing(0), 0),
    ("N 1 0 0/M 1 2/A 2/D 2/D 2/C 2 0 2", 2, Group::Closing(1), 12),
    ("N 1 0 0/M 1 2/A 2/D 2/D 2/C 2 0 2", 2, Group::Closing(2), 12),
    ("N 1 0 0/M 1 2/A 2/D 2/D 2/C 2 1 2", 2, Group::Closing(0), 0),
    ("N 1 0 0/M 1 2/A 2/D 2/D 2/C 2 1 2", 2, Group::Closing(1), 3),
    ("N 1 0 0/M 1 2/A 2/D 2/D 2/C 2 1 2", 2, Group::Closing(2), 4),
    ("N 1 0 0/M 1 2/A 2/D 2/D 2/C 2 2 2", 2, Group::Closing(0), 3),
    ("N 1 0 0/M 1 2/A 2/D 2/D 2/C 2 2 2", 2, Group::Closing(1), 20),
    ("N 1 0 0/M 1 2/A 2/D 2/D 2/C 2 2 2", 2, Group::Closing(2), 21),
    // Pairs, 17 + 40 + 32 numbers with two data bits where nothing is a constant. Zj is RE where j = 0:
    // false takes the clauses of the start away, true a number from each. N is RE where j = i - 1.
    ("N 1 0 0/M 1 2/A 2/D 2/D 2/C 2 2 2", 2, Group::Pair(0, 1), 89),
    ("N 1 0 0/M 1 2/A 2/D 2/D 2/C 2 2 2", 2, Group::Pair(1, 2), 89),
    ("N 1 0 0/M 1 2/A 2/D 2/D 2/C 2 2 2", 2, Group::Pair(0, 2), 89),
    ("N 1 0 0/M 1 2/A 2/D 2/D 2/C 2 1 2", 2, Group::Pair(0, 1), 77),
    ("N 1 0 0/M 1 2/A 2/D 2/D 2/C 2 1 2", 2, Group::Pair(1, 2), 81),
    ("N 1 0 0/M 1 2/A 2/D 2/D 2/C 2 1 2", 2, Group::Pair(0, 2), 85),
    ("N 1 0 0/M 1 2/A 2/D 2/D 2/C 2 0 2", 2, Group::Pair(0, 1), 55),
    ("N 1 0 0/M 1 2/A 2/D 2/D 2/C 2 0 2", 2, Group::Pair(1, 2), 79),
    ("N 1 0 0/M 1 2/A 2/D 2/D 2/C 2 0 2", 2, Group::Pair(0, 2), 65),
    // Constant write data and address take no more away than with a start word.
    ("N 1 0 0/M 1 1/A 2/D 1/C 2 2 2", 2, Group::Pair(0, 2), 64),
    ("N 1 0 0/M 1 1/A 0/D 2/C 2 2 2", 2, Group::Pair(0, 2), 55),
    ("N 1 0 0/M 1 1/A 2/D 2/C 0 2 2", 2, Group::Pair(0, 2), 64),
    (UNKNOWN_RICH, 2, Group::Pair(0, 2), 106),
];

/// The exact needs of `NEEDS`, and one less.
pub fn needs(tally: &mut Tally) {
    for (short, depth, group, need) in NEEDS {
        let netlist = accepted(short);
        let call = |room| group_call(&netlist, depth, group, room).map(|it| it.len());
        tally.equal((short, group, need), call(need), Ok(need));
        if need > 0 {
            tally.equal(
                (short, group, need - 1),
                verdict(call(need - 1)),
                (NO_ROOM, 0),
            );
        }
    }
}

/// 10 is met by no accepted record; `largest_sizes` shows the bound that keeps it away.
pub fn group_calls(tally: &mut Tally) {
    let netlist = accepted(FULL_RUN);
    let call = |depth, group, room| group_call(&netlist, depth, group, room).map(|it| it.len());
    for (depth, group, expected) in GROUP_CALLS {
        match expected {
            Ok(need) => {
                tally.equal((depth, group, need), call(depth, group, need), Ok(need));
                tally.equal(
                    (depth, group, "more"),
                    call(depth, group, need + 9),
                    Ok(need),
                );
                if need > 0 {
                    let short = verdict(call(depth, group, need - 1));
                    tally.equal((depth, group, need - 1), short, (NO_ROOM, 0));
                    let none = verdict(call(depth, group, 0));
                    tally.equal((depth, group, 0), none, (NO_ROOM, 0));
                }
            }
            Err(number) => {
                for room in [0, usize::MAX] {
                    let found = verdict(call(depth, group, room));
                    tally.equal((depth, group, room), found, (number, 0));
                }
            }
        }
    }
    for (depth, expected) in [(0, ACCEPTED), (255, ACCEPTED), (256, (DEPTH, 0))] {
        tally.equal(
            ("heading", depth),
            verdict(heading(&netlist, depth)),
            expected,
        );
    }
}

fn refused((number, place): Verdict) -> Vec<u8> {
    refusal_text(Refusal { number, place })
}

/// Inputs of `frames`: depth first, form before value, then the sheet with its own places.
pub fn input_rows() -> Vec<Row> {
    let depth_line = write_depth(1);
    let no_line_feed = |depth| {
        let mut bytes = input(depth, FULL_RUN);
        bytes[10] = b' ';
        bytes
    };
    let largest = largest_sheet();
    let with = |sheet: &[u8]| [depth_line.as_slice(), sheet].concat();
    let rows = [
        ("empty", Vec::new(), (MISPRINT, 0)),
        ("ten bytes", depth_line[..10].to_vec(), (MISPRINT, 0)),
        ("depth without line feed", no_line_feed(1), (MISPRINT, 0)),
        (
            "depth 256 without line feed",
            no_line_feed(256),
            (MISPRINT, 0),
        ),
        (
            "bad depth, bad sheet",
            b"         x\n?".to_vec(),
            (MISPRINT, 0),
        ),
        ("depth 256", input(256, FULL_RUN), (DEPTH, 0)),
        ("depth 2^32 - 1", input(u32::MAX, FULL_RUN), (DEPTH, 0)),
        ("depth 256, no sheet", write_depth(256), (DEPTH, 0)),
        ("depth 256, misprint", input(256, "?"), (DEPTH, 0)),
        ("no sheet", depth_line.clone(), (RAGGED, 0)),
        ("ragged sheet", with(b"N"), (RAGGED, 0)),
        (
            "a line over",
            with(&[&largest[..], &[b'?'; 32]].concat()),
            (MISPRINT, 616),
        ),
        ("misprint", input(255, "N 1 0 0/?"), (MISPRINT, 2)),
        ("missing line", input(255, "N 1 0 0"), (OUT_OF_ORDER, 2)),
        ("size", input(0, "N 601 0 0"), (SIZE, 1)),
        ("code", input(0, "N 1 0 0/M 1 1 0/A 6"), (CODE, 3)),
        (
            "loop",
            input(0, "N 1 0 0/M 1 1 0/A 4/D 2/C 1 1 5"),
            (MEMORY_LOOP, 3),
        ),
        (
            "tied",
            input(0, "N 1 0 0/M 2 1 0/A 2/A 3/D 2/C 1 1 5"),
            (TIED_ADDRESS, 4),
        ),
        (
            "unknown start",
            input(0, "N 1 0 0/M 1 1/A 0/D 2/C 1 1 5"),
            ACCEPTED,
        ),
        ("largest sheet", with(&largest), ACCEPTED),
        ("depth 255", input(255, FULL_RUN), ACCEPTED),
    ];
    let named = rows.map(|(name, bytes, expected)| (name.to_string(), bytes, expected));
    [named.to_vec(), depth_forms()].concat()
}

/// Whether a text of `frames` is what the verdict on its input says, as far as it says it.
pub fn text_fits(text: &[u8], expected: Verdict) -> bool {
    match expected {
        ACCEPTED => text.starts_with(b"p cnf "),
        _ => text == refused(expected),
    }
}

pub fn frames_refusals(tally: &mut Tally) {
    for (name, bytes, expected) in input_rows() {
        tally.check(name, text_fits(&frames(&bytes), expected));
    }
    let text = b"refused         6         3\n";
    tally.equal("28 bytes", refused((MEMORY_LOOP, 3)), text.to_vec());
}
