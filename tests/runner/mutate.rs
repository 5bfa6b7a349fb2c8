//! Hostile inputs from sound ones, by structure (lines, fields, numbers at limits) and by bytes.

use super::reference::netlist::{Gate, Netlist, SECOND_PORT};
use super::reference::random::{
    damaged_record, damaged_sheet, tiny_netlist, tiny_two_ports, wide_netlist, wide_two_ports,
    Random,
};
use super::reference::random_answers::{random_draft, two_port_draft, Draft};
use super::reference::sheet::{write_sheet, FIELDS, FIELD_BYTES, LINE_BYTES, MAX_SHEET_BYTES};

/// With one port or two, and mostly small, since small sheets are judged quickly and have every kind of line as well.
pub fn netlist(random: &mut Random) -> Netlist {
    if random.percent(10) {
        wide(random)
    } else if random.percent(50) {
        tiny_netlist(random)
    } else {
        tiny_two_ports(random)
    }
}

/// The same netlist, whose second port nothing uses: its read bits give way to the first port's.
pub fn unused(mut two: Netlist) -> Netlist {
    let second = two.read_bits(SECOND_PORT);
    let shift = 2 * two.data_width;
    let kept = |code: u32| if second.contains(&(code / 2)) { code - shift } else { code };
    for latch in &mut two.latches {
        latch.next = kept(latch.next);
    }
    for gate in &mut two.gates {
        *gate = Gate { left: kept(gate.left), right: kept(gate.right) };
    }
    for code in &mut two.write_data {
        *code = kept(*code);
    }
    two.write_enable = kept(two.write_enable);
    two.property = kept(two.property);
    two.second_read_enable = 0;
    two
}

/// Of any shape within the limits, with one port or two.
pub fn wide(random: &mut Random) -> Netlist {
    if random.percent(50) {
        wide_netlist(random)
    } else {
        wide_two_ports(random)
    }
}

/// A run of a chip with one port or two, and an answer that feeds it.
pub fn draft(random: &mut Random) -> Draft {
    if random.percent(50) {
        random_draft(random)
    } else {
        two_port_draft(random)
    }
}

/// Numbers on both sides of the limits of sizes, widths and resets.
pub const LIMITS: [u32; 15] = [
    0,
    1,
    2,
    3,
    11,
    12,
    13,
    31,
    32,
    33,
    599,
    600,
    601,
    i32::MAX as u32,
    u32::MAX,
];

/// A sheet after several changes, or none; or bytes that never were a sheet.
pub fn sheet(random: &mut Random) -> Vec<u8> {
    let netlist = netlist(random);
    let mut bytes = write_sheet(&netlist);
    match random.below(20) {
        0 | 1 => {}
        2 => bytes = noise(random),
        3 => bytes = lines_of_letters(random),
        4 => bytes = spliced(&bytes, &write_sheet(&self::netlist(random)), random),
        5..=8 => bytes = damaged_sheet(random, &bytes),
        9..=12 => bytes = write_sheet(&damaged_record(random, &netlist)),
        13 | 14 => change_sizes(random, &mut bytes),
        _ => change_bytes(random, &mut bytes),
    }
    if random.percent(10) {
        change_bytes(random, &mut bytes);
    }
    bytes
}

/// One number of line 1 or 2 replaced, or left out.
fn change_sizes(random: &mut Random, sheet: &mut [u8]) {
    let at = random.index(2) * LINE_BYTES + 1 + random.index(FIELDS) * FIELD_BYTES;
    let number = random.pick(&LIMITS).to_string();
    let text = if random.percent(15) {
        String::new()
    } else {
        number
    };
    let text = format!("{text:>FIELD_BYTES$}");
    sheet[at..at + FIELD_BYTES].copy_from_slice(text.as_bytes());
}

fn noise(random: &mut Random) -> Vec<u8> {
    let length = random.pick(&[0, 1, 31, 32, 33, 64, 320]);
    (0..length).map(|_| random.below(256) as u8).collect()
}

/// Well-formed lines in any order with any numbers.
fn lines_of_letters(random: &mut Random) -> Vec<u8> {
    let mut bytes = Vec::new();
    for _ in 0..random.between(1, 12) {
        let (letter, filled) = random.pick(&[
            (b'N', 3),
            (b'M', 3),
            (b'M', 2),
            (b'T', 3),
            (b'T', 2),
            (b'L', 2),
            (b'G', 2),
            (b'A', 1),
            (b'D', 1),
            (b'B', 1),
            (b'R', 1),
            (b'C', 3),
        ]);
        bytes.push(letter);
        for field in 0..3 {
            let number = random.below(4).to_string();
            let text = if field < filled {
                number
            } else {
                String::new()
            };
            bytes.extend(format!("{text:>FIELD_BYTES$}").bytes());
        }
        bytes.push(b'\n');
    }
    bytes
}

/// The first lines of one sheet and the last of another.
fn spliced(one: &[u8], other: &[u8], random: &mut Random) -> Vec<u8> {
    let first = random.index(one.len() / LINE_BYTES + 1) * LINE_BYTES;
    let second = random.index(other.len() / LINE_BYTES + 1) * LINE_BYTES;
    [&one[..first], &other[second..]].concat()
}

/// Bytes that are near to sound ones: digits, letters, blanks of other kinds, ends of ranges.
const BYTES: &[u8] = b" 0123456789NMTLGADBRCnmtlgadbrc\n\r\t\0\x0b\x0c-+./:x\x7f\x80\xa0\xff";

/// One to four changes of single bytes and of stretches of bytes.
pub fn change_bytes(random: &mut Random, bytes: &mut Vec<u8>) {
    for _ in 0..random.between(1, 4) {
        let length = bytes.len();
        let at = random.index(length + 1);
        let end = length.min(at + random.pick(&[1, 2, 9, 10, 11, 31, 32, 33, 64]));
        match random.below(9) {
            0 if at < length => bytes[at] ^= 1 << random.below(8),
            1 if at < length => bytes[at] = random.below(256) as u8,
            2 | 3 if at < length => bytes[at] = random.pick(BYTES),
            4 => bytes.insert(at, random.pick(BYTES)),
            5 => drop(bytes.drain(at..end)),
            6 => {
                let copied = bytes[at..end].to_vec();
                let to = random.index(length + 1);
                drop(bytes.splice(to..to, copied));
            }
            7 => bytes[at..end].reverse(),
            8 if random.percent(20) => bytes.truncate(at),
            8 if random.percent(5) => bytes.resize(
                random.pick(&[MAX_SHEET_BYTES, MAX_SHEET_BYTES + LINE_BYTES]),
                b' ',
            ),
            _ => {}
        }
    }
}
