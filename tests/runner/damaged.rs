//! Damaged inputs of `frames`: each refusal number 1 to 7, and 17, at its boundaries.

use super::process::Program;
use super::reference::check_examples::{accepted, input, of_sizes, FULL_RUN, RICH};
use super::reference::check_ports::{
    largest_two_port_sheet, two_of_sizes, CONSTANT_READS, TWO_RICH,
};
use super::reference::check_refusals::{input_rows, largest_sheet, text_fits};
use super::reference::netlist::{Kind, Netlist};
use super::reference::random::{
    tiny_netlist, tiny_two_ports, wide_netlist, wide_two_ports, Random,
};
use super::reference::sheet::{
    expand, write_depth, write_sheet, DEPTH_LINE_BYTES, FIELD_BYTES, LINE_BYTES, MAX_SHEET_BYTES,
};
use super::reference::Tally;
use super::rows::sheet_rows;

/// The second implementation's tables: the verdict that was written down, and its whole text.
pub fn tables(program: &Program, tally: &mut Tally) {
    let sheet_inputs = sheet_rows()
        .into_iter()
        .map(|(name, sheet, expected)| (name, [write_depth(1), sheet].concat(), expected));
    for (name, bytes, expected) in sheet_inputs.chain(input_rows()) {
        let text = program.agrees(tally, &name, &bytes);
        tally.check(name, text_fits(&text, expected));
    }
}

/// Inputs of every length up to a line more than a small sheet's, and of lengths around the longest
/// sheet's of each kind and far above it.
pub fn lengths(program: &Program, tally: &mut Tally) {
    for short in [FULL_RUN, CONSTANT_READS] {
        let small = [input(1, short), expand("C 1 1 5")].concat();
        for length in 0..=small.len() {
            program.agrees(tally, &format!("{length} bytes"), &small[..length]);
        }
    }
    for largest in [largest_sheet(), largest_two_port_sheet()] {
        lengths_around(program, tally, &[write_depth(0), largest].concat());
    }
    // Lines too many for a small sheet, up to and above the longest file: 3 there, 1 above.
    for lines in [6, 615, 616, 626, 627, 628, 1_000] {
        let mut bytes = input(1, FULL_RUN);
        bytes.extend(expand("C 1 1 5").repeat(lines - 5));
        program.agrees(tally, &format!("{lines} lines, 5 due"), &bytes);
    }
    let misprint = [input(1, FULL_RUN), vec![b'?'; 1 << 20]].concat();
    program.agrees(tally, "a megabyte behind the sheet", &misprint);
}

/// A largest sheet cut, and with something behind it.
fn lengths_around(program: &Program, tally: &mut Tally, largest: &[u8]) {
    let own = largest.len();
    let limit = DEPTH_LINE_BYTES + MAX_SHEET_BYTES;
    let around = [
        own - LINE_BYTES - 1,
        own - LINE_BYTES,
        own - 1,
        own,
        own + 1,
        own + LINE_BYTES,
    ]
    .into_iter()
    .chain(limit - LINE_BYTES - 1..=limit + 2 * LINE_BYTES)
    .chain([32_768, 65_536, 65_537, 1 << 20]);
    for length in around {
        // Behind a whole sheet: its last line again, line feeds, and bytes of no meaning.
        let last_line = largest[largest.len() - LINE_BYTES..].to_vec();
        for tail in [last_line, vec![b'\n'], vec![0, 255]] {
            let repeated = tail
                .iter()
                .cycle()
                .take(length.saturating_sub(largest.len()));
            let mut bytes = largest.to_vec();
            bytes.extend(repeated);
            bytes.truncate(length);
            program.agrees(tally, &format!("{length} bytes"), &bytes);
        }
    }
}

/// The depth line: every byte in its last column and in its first and last digit's, and values.
pub fn depth_lines(program: &Program, tally: &mut Tally) {
    for (at, byte) in [0, 9, 10]
        .into_iter()
        .flat_map(|at| (0..=255).map(move |byte| (at, byte)))
    {
        let mut bytes = input(0, FULL_RUN);
        bytes[at] = byte;
        program.agrees(tally, &format!("depth line, byte {at} is {byte}"), &bytes);
    }
    let values =
        "0 1 9 10 99 100 199 200 249 250 254 255 256 257 260 299 300 511 512 999 1000 65535 \
                  65536 65791 2147483647 2147483648 4294967295 4294967296 4294967297 4294967551 \
                  4294967552 9999999999 00 0255 0000000000";
    for value in values.split(' ').chain([""]) {
        for sheet in [expand(FULL_RUN), expand("?"), vec![]] {
            let bytes = [format!("{value:>FIELD_BYTES$}\n").into_bytes(), sheet].concat();
            program.agrees(tally, &format!("depth {value}"), &bytes);
        }
    }
}

/// Sizes at their limits and one beyond, alone and by their sum, with the sheet that they ask for.
pub fn sizes(program: &Program, tally: &mut Tally) {
    let mut rows = Vec::new();
    for most in [0, 1, 567, 568, 598, 599, 600, 601] {
        rows.extend([[most, 0, 0], [0, most, 0], [0, 0, most]]);
        rows.extend([
            [most / 3, most / 3, most - most / 3 * 2],
            [1, most, 1],
            [most, most, most],
        ]);
    }
    for counts in rows {
        for widths in [[1, 1], [12, 1], [1, 2], [1, 32], [12, 32]] {
            for netlist in [of_sizes(counts, widths), two_of_sizes(counts, widths)] {
                let name = format!("sizes {counts:?} {widths:?} {} ports", netlist.port_count());
                let bytes = [write_depth(0), write_sheet(&netlist)].concat();
                program.agrees(tally, &name, &bytes);
            }
        }
    }
    for m in [0, 1, 2, 11, 12, 13, 14] {
        for n in [0, 1, 2, 31, 32, 33, 34] {
            let lines = "/A 0".repeat(m) + &"/D 0".repeat(n);
            let second = "/B 0".repeat(m) + "/R 0";
            for (letter, behind) in [("M", ""), ("T", second.as_str())] {
                let short = format!("N 0 0 0/{letter} {m} {n} 0{lines}{behind}/C 0 0 0");
                program.agrees(
                    tally,
                    &format!("widths {letter} {m} {n}"),
                    &input(1, &short),
                );
            }
        }
    }
    for n in 1..=32usize {
        let words = 1u64 << n;
        for start in [
            0,
            1,
            words / 2,
            words - 1,
            words,
            words + 1,
            u64::from(u32::MAX),
        ] {
            for (letter, behind) in [("M", ""), ("T", "/B 0/R 0")] {
                let data = "/D 0".repeat(n);
                let short = format!("N 0 0 0/{letter} 1 {n} {start}/A 0{data}{behind}/C 0 0 0");
                let name = format!("start word {start} of {n} bits, {letter}");
                program.agrees(tally, &name, &input(0, &short));
            }
        }
    }
}

/// Every field of every line at every limit that a code, an operand or a reset has, and of the sizes.
pub fn fields(program: &Program, tally: &mut Tally) {
    let mut random = Random::new(201);
    let mut netlists = vec![
        accepted(RICH),
        accepted(FULL_RUN),
        accepted(TWO_RICH),
        accepted(CONSTANT_READS),
        wide_netlist(&mut random),
        wide_two_ports(&mut random),
    ];
    netlists.extend((0..9).map(|_| tiny_netlist(&mut random)));
    netlists.extend((0..9).map(|_| tiny_two_ports(&mut random)));
    for (round, netlist) in netlists.iter().enumerate() {
        let sheet = write_sheet(netlist);
        // All lines of a small sheet; the last ones of a large one.
        let lines = netlist.line_count();
        for place in [1, 2]
            .into_iter()
            .chain(lines.saturating_sub(12).max(3)..=lines)
        {
            for field in 0..3 {
                for value in limits(netlist, place) {
                    let at = (place as usize - 1) * LINE_BYTES + 1 + field * FIELD_BYTES;
                    let mut bytes = [write_depth(1), sheet.clone()].concat();
                    let text = format!("{value:>FIELD_BYTES$}");
                    bytes[DEPTH_LINE_BYTES + at..][..FIELD_BYTES].copy_from_slice(text.as_bytes());
                    program.agrees(
                        tally,
                        &format!("sheet {round} line {place} field {field} {value}"),
                        &bytes,
                    );
                }
            }
        }
    }
}

/// The values on both sides of every limit that may apply to a line, and those that no field takes.
fn limits(netlist: &Netlist, place: u32) -> Vec<u64> {
    let limit = match netlist.line_at(place) {
        Some((Kind::Sizes | Kind::Memory | Kind::TwoPortMemory, _)) => {
            return vec![0, 1, 12, 13, 32, 33, 600, 601, u64::from(u32::MAX), 1 << 32]
        }
        Some((Kind::Gate, index)) => 2 * (netlist.first_gate() + index as u32),
        _ => 2 * netlist.wire_count() + 2,
    };
    let edges = [
        2,
        limit,
        2 * netlist.first_read_bit(),
        2 * netlist.first_gate(),
    ];
    let mut values: Vec<u64> = edges
        .iter()
        .flat_map(|edge| [*edge - 1, *edge])
        .map(u64::from)
        .collect();
    values.extend([u64::from(u32::MAX), 1 << 32]);
    values.sort_unstable();
    values.dedup();
    values
}
