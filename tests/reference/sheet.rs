//! Sheets: reading, the depth line before a sheet, and writing.
//! RULES S1 to S5, S7 to S10, T34 to T37, T53, P1 and P4; the empty start field of K7, 17 of K8, K9,
//! and the T sheets of K10.

use super::netlist::{Gate, Kind, Latch, Netlist, MAX_DEPTH};
use super::refusal::{require, Refusal, DEPTH, MISPRINT, NO_ROOM, OUT_OF_ORDER, RAGGED};

pub const LINE_BYTES: usize = 32;
/// The limit of refusal 1: as many lines as any sheet has, 627 of a T sheet; an M sheet has 615 at most.
pub const MAX_SHEET_BYTES: usize = 20_064;
pub const FIELD_BYTES: usize = 10;
pub const FIELDS: usize = 3;
/// Ten columns and a line feed.
pub const DEPTH_LINE_BYTES: usize = FIELD_BYTES + 1;

/// What a letter wants of a field.
#[derive(Clone, Copy, Debug, PartialEq, Eq)]
enum Want {
    Number,
    Empty,
    /// The start word, which may be left out (K7; K10 refuses that later, by its own number).
    Either,
}

use Want::{Either, Empty, Number};

type LetterRow = (u8, Kind, [Want; FIELDS]);

const LETTERS: [LetterRow; 10] = [
    (b'N', Kind::Sizes, [Number, Number, Number]),
    (b'M', Kind::Memory, [Number, Number, Either]),
    (b'T', Kind::TwoPortMemory, [Number, Number, Either]),
    (b'L', Kind::Latch, [Number, Number, Empty]),
    (b'G', Kind::Gate, [Number, Number, Empty]),
    (b'A', Kind::Address, [Number, Empty, Empty]),
    (b'D', Kind::WriteData, [Number, Empty, Empty]),
    (b'B', Kind::SecondAddress, [Number, Empty, Empty]),
    (b'R', Kind::SecondReadEnable, [Number, Empty, Empty]),
    (b'C', Kind::Control, [Number, Number, Number]),
];

/// The number in a field; none for an empty field and for everything that is not a number.
fn read_number(field: &[u8]) -> Option<u32> {
    let spaces = field.iter().take_while(|byte| **byte == b' ').count();
    let digits = &field[spaces..];
    let leading_zero = digits.len() > 1 && digits[0] == b'0';
    if digits.is_empty() || leading_zero || !digits.iter().all(u8::is_ascii_digit) {
        return None;
    }
    let value = digits
        .iter()
        .fold(0u64, |sum, digit| sum * 10 + u64::from(digit - b'0'));
    u32::try_from(value).ok()
}

/// The kind and the fields of a line, none for an empty field; none at all for a misprint.
/// The fields are judged by the letter on the line, whichever line is due.
pub fn read_line(line: &[u8]) -> Option<(Kind, [Option<u32>; FIELDS])> {
    let (_, kind, wants) = *LETTERS.iter().find(|row| row.0 == line[0])?;
    let (fields, end) = line[1..].split_at(FIELDS * FIELD_BYTES);
    let mut numbers = [None; FIELDS];
    for (index, field) in fields.chunks(FIELD_BYTES).enumerate() {
        let is_empty = field.iter().all(|byte| *byte == b' ');
        numbers[index] = match (wants[index], is_empty) {
            (Number, true) | (Empty, false) => return None,
            (Empty | Either, true) => None,
            (Number | Either, false) => Some(read_number(field)?),
        };
    }
    (end == b"\n").then_some((kind, numbers))
}

/// Where the start field is empty, the record's start word is 0.
fn store(netlist: &mut Netlist, kind: Kind, index: usize, fields: [Option<u32>; FIELDS]) {
    let [first, second, third] = fields.map(Option::unwrap_or_default);
    match kind {
        Kind::Sizes => {
            netlist.inputs = first;
            netlist.latch_count = second;
            netlist.gate_count = third;
        }
        Kind::Memory | Kind::TwoPortMemory => {
            netlist.two_ports = u32::from(kind == Kind::TwoPortMemory);
            netlist.address_width = first;
            netlist.data_width = second;
            netlist.start_word = third;
            netlist.unknown_start = u32::from(fields[2].is_none());
        }
        Kind::Latch => netlist.latches.push(Latch {
            next: first,
            reset: second,
        }),
        Kind::Gate => netlist.gates.push(Gate {
            left: first,
            right: second,
        }),
        Kind::Address => netlist.address[index] = first,
        Kind::WriteData => netlist.write_data[index] = first,
        Kind::SecondAddress => netlist.second_address[index] = first,
        Kind::SecondReadEnable => netlist.second_read_enable = first,
        Kind::Control => {
            netlist.write_enable = first;
            netlist.read_enable = second;
            netlist.property = third;
        }
    }
}

/// Whether a line of one kind may stand where another is due. Until line 2 is read, the netlist has one
/// port and M is due there: T may stand instead.
fn may_stand(kind: Kind, due: Kind) -> bool {
    kind == due || (kind, due) == (Kind::TwoPortMemory, Kind::Memory)
}

/// One line's tests: 2, 3, then 4 or 5. The line is stored before its limits are tested.
fn take_line(netlist: &mut Netlist, line: &[u8], place: u32) -> Result<(), Refusal> {
    let misprint = Refusal {
        number: MISPRINT,
        place,
    };
    let (kind, fields) = read_line(line).ok_or(misprint)?;
    let due = netlist.line_at(place);
    let index = match due {
        Some((kind_due, index)) if may_stand(kind, kind_due) => index,
        _ => return require(false, OUT_OF_ORDER, place),
    };
    store(netlist, kind, index, fields);
    netlist.check_line(place)
}

/// Reads a sheet for a caller that lends a latch list and a gate list of these lengths.
/// On success the netlist's lists are the records that the lent lists would begin with.
pub fn read_sheet(file: &[u8], latch_room: usize, gate_room: usize) -> Result<Netlist, Refusal> {
    let whole_lines = !file.is_empty() && file.len() % LINE_BYTES == 0;
    let within = file.len() <= MAX_SHEET_BYTES;
    require(whole_lines && within, RAGGED, 0)?;

    let mut netlist = Netlist::default();
    let mut lines = 0;
    for line in file.chunks(LINE_BYTES) {
        lines += 1;
        take_line(&mut netlist, line, lines)?;
    }
    // Before line 2 is read the widths are 0 and the count is still above 1: M or T is then missing.
    require(lines == netlist.line_count(), OUT_OF_ORDER, lines + 1)?;
    netlist.check_ties()?;
    netlist.check_loop()?;
    let room = latch_room >= netlist.latches.len() && gate_room >= netlist.gates.len();
    require(room, NO_ROOM, 0)?;
    Ok(netlist)
}

/// Splits the input of `frames` into depth and sheet: form first (2), then value (7), place 0.
pub fn read_depth(input: &[u8]) -> Result<(u32, &[u8]), Refusal> {
    require(input.len() >= DEPTH_LINE_BYTES, MISPRINT, 0)?;
    let (line, sheet) = input.split_at(DEPTH_LINE_BYTES);
    let number = read_number(&line[..FIELD_BYTES]).filter(|_| line[FIELD_BYTES] == b'\n');
    let depth = number.ok_or(Refusal {
        number: MISPRINT,
        place: 0,
    })?;
    require(depth <= MAX_DEPTH, DEPTH, 0)?;
    Ok((depth, sheet))
}

/// A number as a field of ten columns.
pub fn write_field(number: u32) -> String {
    format!("{number:>FIELD_BYTES$}")
}

pub fn write_depth(depth: u32) -> Vec<u8> {
    format!("{}\n", write_field(depth)).into_bytes()
}

fn fields_of(netlist: &Netlist, kind: Kind, index: usize) -> Vec<u32> {
    match kind {
        Kind::Sizes => vec![netlist.inputs, netlist.latch_count, netlist.gate_count],
        Kind::Memory | Kind::TwoPortMemory => {
            let mut fields = vec![netlist.address_width, netlist.data_width];
            fields.extend((!netlist.has_unknown_start()).then_some(netlist.start_word));
            fields
        }
        Kind::Latch => vec![netlist.latches[index].next, netlist.latches[index].reset],
        Kind::Gate => vec![netlist.gates[index].left, netlist.gates[index].right],
        Kind::Address => vec![netlist.address[index]],
        Kind::WriteData => vec![netlist.write_data[index]],
        Kind::SecondAddress => vec![netlist.second_address[index]],
        Kind::SecondReadEnable => vec![netlist.second_read_enable],
        Kind::Control => vec![netlist.write_enable, netlist.read_enable, netlist.property],
    }
}

/// The sheet of a netlist whose lists are at least as long as its sizes; codes may be any.
pub fn write_sheet(netlist: &Netlist) -> Vec<u8> {
    let mut short_lines = Vec::new();
    for (kind, index) in (1..).map_while(|place| netlist.line_at(place)) {
        let letter = LETTERS
            .iter()
            .find(|row| row.1 == kind)
            .expect("a letter of each kind")
            .0;
        let fields = fields_of(netlist, kind, index);
        let words: Vec<String> = fields.iter().map(u32::to_string).collect();
        short_lines.push(format!("{} {}", letter as char, words.join(" ")));
    }
    expand(&short_lines.join("/"))
}

/// K9, for a lent buffer of `room` bytes: the record's tests, then 9. The result is what is written;
/// its length is the count.
pub fn write_back(netlist: &Netlist, room: usize) -> Result<Vec<u8>, Refusal> {
    netlist.check()?;
    let need = netlist.line_count() as usize * LINE_BYTES;
    require(room >= need, NO_ROOM, 0)?;
    Ok(write_sheet(netlist))
}

/// Spreads a short form to lines of 32 bytes: lines parted by `/`, a letter and up to three
/// fields parted by single spaces; fields left out are empty. Fields may be any text of at most
/// ten bytes, so that misprints can be written down as well.
pub fn expand(short: &str) -> Vec<u8> {
    let mut sheet = Vec::new();
    for line in short.split('/') {
        let mut words = line.split(' ');
        sheet.extend(words.next().unwrap_or_default().bytes());
        for _ in 0..FIELDS {
            let text = words.next().unwrap_or_default();
            sheet.extend(format!("{text:>FIELD_BYTES$}").bytes());
        }
        sheet.push(b'\n');
    }
    sheet
}
