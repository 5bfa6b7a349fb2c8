//! `read` and `next_line` through the static library: the record and the lists, what is left untouched, refusals 1
//! to 6, 9 and 17; a line, a misprint or no line, and the number behind it.

use std::collections::BTreeMap;

use super::calls::differ;
use super::rows::sheet_rows;
use super::exports::{next_line, read, Answer, Line};
use super::mutate;
use super::reference::check_examples::accepted;
use super::reference::check_ports::{two_port_sheet_rows, two_rich, CONSTANT_READS, TWO_RICH};
use super::reference::check_refusals::{
    field_and_letter_rows, short_sheet_rows, verdict, Verdict, ACCEPTED, ROOMS,
};
use super::reference::netlist::{Kind, Latch, Netlist};
use super::reference::random::{damaged_record, damaged_sheet, tiny_two_ports, Random};
use super::reference::refusal::{Refusal, MEMORY_LOOP, MISPRINT, NO_ROOM, OUT_OF_ORDER, RAGGED, SIZE, TIED_ADDRESS};
use super::reference::sheet::{expand, read_line, read_sheet, write_sheet, LINE_BYTES};
use super::reference::Tally;
use super::{Counts, Library};

impl Library {
    /// One check: `read` answers and writes what the second implementation does.
    pub fn read_agrees(&self, tally: &mut Tally, file: &[u8], latch_room: usize, gate_room: usize) {
        let found = read(file, latch_room, gate_room);
        Counts::add(&self.reads, &found);
        let expected = Ok(read_sheet(file, latch_room, gate_room));
        tally.check_with((latch_room, gate_room), found == expected, || {
            differ(file.escape_ascii().to_string(), &found, &expected)
        });
    }
}

/// What is answered of the line behind the first `line` lines, and how many are read then.
fn line_behind(file: &[u8], line: u32) -> (Result<Option<Line>, Refusal>, u32) {
    let start = line as usize * LINE_BYTES;
    let bytes = match file.get(start..start + LINE_BYTES) {
        Some(bytes) if line < 627 => bytes,
        _ => return (Ok(None), line),
    };
    let misprint = Refusal {
        number: MISPRINT,
        place: line + 1,
    };
    let read = read_line(bytes).map(|(kind, fields)| {
        let has_start = [Kind::Memory, Kind::TwoPortMemory].contains(&kind);
        let empty = has_start && fields[2].is_none();
        (bytes[0], fields.map(Option::unwrap_or_default), u32::from(empty))
    });
    (read.map(Some).ok_or(misprint), line + 1)
}

impl Library {
    /// One check: `next_line` answers what the second implementation does.
    pub fn line_agrees(&self, tally: &mut Tally, file: &[u8], line: u32) {
        let (found, behind) = next_line(file, line);
        Counts::add(&self.lines, &found);
        let (expected, expected_behind) = line_behind(file, line);
        let expected = (Ok(expected), expected_behind);
        tally.check_with(line, (&found, behind) == (&expected.0, expected.1), || {
            let file = file.escape_ascii().to_string();
            differ(file, (found, behind), expected)
        });
    }
}

/// Answers that were written down: the end of a file, a line cut short, a misprint with its place, line 628, and the letters of a second port.
fn stated_lines(tally: &mut Tally) {
    let two = expand("N 1 0 0/M 1 1 0");
    let unknown = expand("M 1 1/L 2 0/M 1");
    let second = expand("T 4 5 6/T 1 1/B 7/R 8/B 7 0/R/t 1 1 0/T 1");
    let misprinted = expand("N 1 0 0/X 1 1 0/A 0");
    let long = vec![expand("C 1 2 3"); 700].concat();
    let none = |line| (Ok(Ok(None)), line);
    let read = |letter, numbers, line| (Ok(Ok(Some((letter, numbers, 0)))), line);
    let left_out = |letter, line| (Ok(Ok(Some((letter, [1, 1, 0], 1)))), line);
    let misprint = |place| (Ok(Err(Refusal { number: 2, place })), place);
    let rows: [(&str, &[u8], u32, (Answer<Option<Line>>, u32)); 27] = [
        ("no file", &[], 0, none(0)),
        ("the first line", &two, 0, read(b'N', [1, 0, 0], 1)),
        ("the last line", &two, 1, read(b'M', [1, 1, 0], 2)),
        ("an empty start field", &unknown, 0, left_out(b'M', 1)),
        ("a field that is always empty", &unknown, 1, read(b'L', [2, 0, 0], 2)),
        ("n left out", &unknown, 2, misprint(3)),
        ("a missing line", &two, 2, none(2)),
        ("a line further behind", &two, 3, none(3)),
        ("31 bytes", &two[..31], 0, none(0)),
        ("31 bytes behind a line", &two[..63], 1, none(1)),
        ("32 bytes behind 31", &two[31..63], 0, misprint(1)),
        ("a misprinted line", &misprinted, 1, misprint(2)),
        ("the line behind it", &misprinted, 2, read(b'A', [0, 0, 0], 3)),
        ("the line of two ports", &second, 0, read(b'T', [4, 5, 6], 1)),
        ("its start word left empty", &second, 1, left_out(b'T', 2)),
        ("a second address bit", &second, 2, read(b'B', [7, 0, 0], 3)),
        ("the second read enable", &second, 3, read(b'R', [8, 0, 0], 4)),
        ("a field too many", &second, 4, misprint(5)),
        ("an empty field", &second, 5, misprint(6)),
        ("a small letter", &second, 6, misprint(7)),
        ("n left out of two ports", &second, 7, misprint(8)),
        ("line 616 of 700", &long, 615, read(b'C', [1, 2, 3], 616)),
        ("line 627 of 700", &long, 626, read(b'C', [1, 2, 3], 627)),
        ("line 628 of 700", &long, 627, none(627)),
        ("line 629 of 700", &long, 628, none(628)),
        ("line 2^27", &long, 1 << 27, none(1 << 27)),
        ("the greatest number", &long, u32::MAX, none(u32::MAX)),
    ];
    for (name, file, line, expected) in rows {
        tally.equal(name, next_line(file, line), expected);
    }
    // From the first line on to where there is none.
    let (mut line, mut count) = (0, 0);
    while let (Ok(Ok(Some(_))), behind) = next_line(&long, line) {
        (line, count) = (behind, count + 1);
    }
    tally.equal("lines of a file of 700", (count, next_line(&long, line)), (627, none(627)));
}

/// Every line of the tables' sheets and of random ones, damaged and sound, and lines behind the last.
pub fn lines(library: &Library, tally: &mut Tally) {
    stated_lines(tally);
    let mut random = Random::new(603);
    let rows = [field_and_letter_rows(), short_sheet_rows(), two_port_sheet_rows()].concat();
    let mut files: Vec<Vec<u8>> = rows.into_iter().map(|(_, sheet, _)| sheet).collect();
    files.extend((0..500).map(|_| mutate::sheet(&mut random)));
    files.extend((0..2).map(|_| write_sheet(&mutate::wide(&mut random))));
    for file in files {
        for line in 0..=(file.len() / LINE_BYTES + 1) as u32 {
            library.line_agrees(tally, &file, line);
        }
        for line in [614, 615, 626, 627, 628, i32::MAX as u32, 1 << 27, u32::MAX] {
            library.line_agrees(tally, &file, line);
        }
    }
    let longest = vec![expand("C 1 2 3"); 700].concat();
    for line in [0, 614, 615, 625, 626, 627, 628, 699, 700] {
        library.line_agrees(tally, &longest, line);
    }
}

/// Lengths of the lent lists, for sheets with a second port: `TWO_RICH` needs one record in each, and 9 comes last.
#[rustfmt::skip]
const TWO_PORT_ROOMS: [(&str, usize, usize, Verdict); 8] = [
    (TWO_RICH, 1, 1, ACCEPTED),
    (TWO_RICH, 600, 1, ACCEPTED),
    (TWO_RICH, 0, 1, (NO_ROOM, 0)),
    (TWO_RICH, 1, 0, (NO_ROOM, 0)),
    (CONSTANT_READS, 0, 0, ACCEPTED),
    ("N 0 1 0/T 1 1 0/L 0 0/A 0/D 0/B 4/R 1/C 0 0 0", 0, 0, (MEMORY_LOOP, 6)),
    ("N 0 1 0/T 2 1 0/L 0 0/A 0/A 0/D 0/B 2/B 3/R 1/C 0 0 0", 0, 0, (TIED_ADDRESS, 8)),
    ("N 0 1 0/T 1 1 0/L 0 0/A 0/D 0/B 0/R 1", 0, 0, (OUT_OF_ORDER, 8)),
];

/// K10's verdicts on sheets that were an M sheet's or are cut down to one, once more by themselves, so that a change of a table shows here:
/// N and line 2, the lines between them and the C line, the verdict.
#[rustfmt::skip]
const PORT_VERDICTS: [(&str, Verdict); 14] = [
    ("N 1 0 0/T 1 1 0/A 0/D 2/B 0/R 1/C 1 1 5", ACCEPTED),
    ("N 1 0 0/T 1 1/A 0/D 2/B 0/R 1/C 1 1 5", (SIZE, 2)),
    ("N 1 0 0/M 1 1 0/A 0/D 2/B 0/C 1 1 5", (OUT_OF_ORDER, 5)),
    ("N 1 0 0/M 1 1 0/A 0/D 2/R 0/C 1 1 5", (OUT_OF_ORDER, 5)),
    ("N 1 0 0/M 1 1 0/B 0/D 2/C 1 1 5", (OUT_OF_ORDER, 3)),
    ("N 1 0 0/T 1 1 0/A 0/D 2/C 1 1 5", (OUT_OF_ORDER, 5)),
    ("N 1 0 0/T 1 1 0/A 0/D 2/B 0/C 1 1 5", (OUT_OF_ORDER, 6)),
    // Line by line: A, B, R, C; the first port's read bit is code 4, the second's code 6.
    ("N 1 0 0/T 1 1 0/A 6/D 2/B 4/R 6/C 1 4 5", (MEMORY_LOOP, 3)),
    ("N 1 0 0/T 1 1 0/A 2/D 2/B 4/R 6/C 1 6 5", (MEMORY_LOOP, 5)),
    ("N 1 0 0/T 1 1 0/A 2/D 2/B 2/R 4/C 1 6 5", (MEMORY_LOOP, 6)),
    ("N 1 0 0/T 1 1 0/A 2/D 2/B 2/R 2/C 1 6 5", (MEMORY_LOOP, 7)),
    // Ties within a port, before any loop.
    ("N 1 0 0/T 2 1 0/A 4/A 0/D 2/B 2/B 3/R 4/C 1 4 5", (TIED_ADDRESS, 7)),
    ("N 1 0 0/T 2 1 0/A 2/A 3/D 2/B 2/B 3/R 4/C 1 4 5", (TIED_ADDRESS, 4)),
    ("N 1 0 0/T 2 1 0/A 2/A 0/D 2/B 0/B 3/R 2/C 1 2 5", ACCEPTED),
];

/// The longest sheets: 615 lines with one port, 627 and 20,064 bytes with two. Lines and port, what is added, and the verdict.
fn longest(tally: &mut Tally, library: &Library) {
    let of = |two_ports: u32| {
        let sizes = Netlist { latch_count: 598 + 1 - two_ports, address_width: 12, data_width: 1, two_ports, ..Netlist::default() };
        let latches = vec![Latch { next: 0, reset: 0 }; sizes.latch_count as usize];
        write_sheet(&Netlist { latches, ..sizes })
    };
    let (one, two) = (of(0), of(1));
    tally.equal("bytes of the longest sheets", (one.len(), two.len()), (19_680, 20_064));
    let line = expand("C 0 0 0");
    let rows = [
        (one.clone(), ACCEPTED),
        (two.clone(), ACCEPTED),
        // A line too many is one while the file is no longer than a sheet may be.
        ([&one[..], &line].concat(), (OUT_OF_ORDER, 616)),
        ([&one[..], &[b'?'; LINE_BYTES]].concat(), (MISPRINT, 616)),
        ([&one[..], &line.repeat(12)].concat(), (OUT_OF_ORDER, 616)),
        ([&one[..], &line.repeat(13)].concat(), (RAGGED, 0)),
        ([&two[..], &line].concat(), (RAGGED, 0)),
        ([&two[..], b"\n"].concat(), (RAGGED, 0)),
        (two[..two.len() - LINE_BYTES].to_vec(), (OUT_OF_ORDER, 627)),
    ];
    for (sheet, expected) in rows {
        tally.equal(sheet.len(), read(&sheet, 600, 600).map(verdict), Ok(expected));
        library.read_agrees(tally, &sheet, 600, 600);
    }
}

/// The second implementation's tables, with the verdicts that were written down.
pub fn tables(library: &Library, tally: &mut Tally) {
    for (name, sheet, expected) in sheet_rows() {
        library.read_agrees(tally, &sheet, 600, 600);
        tally.equal(name, read(&sheet, 600, 600).map(verdict), Ok(expected));
    }
    for (short, expected) in PORT_VERDICTS {
        tally.equal(short, read(&expand(short), 600, 600).map(verdict), Ok(expected));
    }
    longest(tally, library);
    for (short, expected) in [(TWO_RICH, two_rich()), (CONSTANT_READS, accepted(CONSTANT_READS))] {
        tally.equal(short, read(&expand(short), 600, 600), Ok(Ok(expected)));
    }
    for (short, latch_room, gate_room, expected) in [&ROOMS[..], &TWO_PORT_ROOMS[..]].concat() {
        let sheet = expand(short);
        library.read_agrees(tally, &sheet, latch_room, gate_room);
        tally.equal(
            (short, latch_room, gate_room),
            read(&sheet, latch_room, gate_room).map(verdict),
            Ok(expected),
        );
    }
    let sheet = vec![b'\n'; 1 << 20];
    library.read_agrees(tally, &sheet, 0, 0);
}

/// Random sheets with lists of exact, short and long length.
pub fn rooms(library: &Library, tally: &mut Tally) {
    let mut random = Random::new(601);
    for _ in 0..600 {
        let netlist = mutate::wide(&mut random);
        let sheet = write_sheet(&netlist);
        let (latches, gates) = (netlist.latches.len(), netlist.gates.len());
        let longer = [
            (latches, gates),
            (latches + 1, gates),
            (latches, gates + 1),
            (latches + 700, gates + 700),
        ];
        for (latch_room, gate_room) in longer {
            let found = read(&sheet, latch_room, gate_room);
            tally.check_with("long enough", found == Ok(Ok(netlist.clone())), || {
                format!(": {netlist:?}")
            });
            library.read_agrees(tally, &sheet, latch_room, gate_room);
        }
        let shorter = [
            (latches.wrapping_sub(1), gates),
            (latches, gates.wrapping_sub(1)),
            (0, gates),
            (latches, 0),
            (0, 0),
        ];
        for (latch_room, gate_room) in shorter {
            if latch_room > latches
                || gate_room > gates
                || (latch_room, gate_room) == (latches, gates)
            {
                continue;
            }
            let no_room = Refusal {
                number: NO_ROOM,
                place: 0,
            };
            tally.equal(
                "too short",
                read(&sheet, latch_room, gate_room).map(verdict),
                Ok((no_room.number, no_room.place)),
            );
            library.read_agrees(tally, &sheet, latch_room, gate_room);
        }
    }
}

/// What a sheet is refused for is not hidden by lists that are too short.
pub fn damaged(library: &Library, tally: &mut Tally) {
    let mut random = Random::new(602);
    let mut refused = 0;
    for _ in 0..4_000 {
        let netlist = mutate::wide(&mut random);
        let sheet = damaged_sheet(&mut random, &write_sheet(&netlist));
        for room in [600, 0] {
            library.read_agrees(tally, &sheet, room, room);
        }
        refused += usize::from(verdict(read_sheet(&sheet, 600, 600)) != ACCEPTED);
    }
    tally.check(("refused", refused), refused >= 1_000);
}

/// Records of two ports with a changed code: how often a tie or a loop was refused at the line of each letter.
pub fn ties_and_loops(library: &Library, tally: &mut Tally) {
    let mut random = Random::new(604);
    let mut counts: BTreeMap<(u32, char), usize> = BTreeMap::new();
    for _ in 0..6_000 {
        let netlist = tiny_two_ports(&mut random);
        let sheet = write_sheet(&damaged_record(&mut random, &netlist));
        library.read_agrees(tally, &sheet, 600, 600);
        let found = read(&sheet, 600, 600);
        if let Ok(Err(Refusal { number: number @ (TIED_ADDRESS | MEMORY_LOOP), place })) = found {
            let letter = sheet[(place as usize - 1) * LINE_BYTES];
            *counts.entry((number, letter.into())).or_default() += 1;
        }
    }
    let lines = [
        (TIED_ADDRESS, 'A'),
        (TIED_ADDRESS, 'B'),
        (MEMORY_LOOP, 'A'),
        (MEMORY_LOOP, 'B'),
        (MEMORY_LOOP, 'R'),
        (MEMORY_LOOP, 'C'),
    ];
    for line in lines {
        let count = counts.remove(&line).unwrap_or(0);
        tally.check((line, count), count >= 20);
    }
    tally.check(("at other lines", &counts), counts.is_empty());
}
