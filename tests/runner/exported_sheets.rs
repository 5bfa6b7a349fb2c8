//! The program `export_aig`: it prints the binary AIGER file or the refusal that the second implementation makes of a sheet.

use std::process::Stdio;

use super::rows::sheet_rows;
use super::mutate::sheet;
use super::process::{collect, shown, start, Program};
use super::reference::check_examples::{FULL_RUN, RICH};
use super::reference::check_ports::{largest_two_port_sheet, TWO_RICH};
use super::reference::check_refusals::{largest_sheet, text_fits, ACCEPTED};
use super::reference::export::export;
use super::reference::formula::refusal_text;
use super::reference::random::Random;
use super::reference::random_aiger::text_netlist;
use super::reference::sheet::{expand, read_sheet, write_sheet};
use super::reference::Tally;

/// What the program may print: 0 stands for a file.
pub const OF_EXPORT: [usize; 9] = [0, 1, 2, 3, 4, 5, 6, 17, 19];

/// What the second implementation prints for a sheet.
pub fn printed(sheet: &[u8]) -> Vec<u8> {
    let netlist = read_sheet(sheet, usize::MAX, usize::MAX);
    let file = netlist.and_then(|netlist| export(&netlist, usize::MAX));
    file.unwrap_or_else(refusal_text)
}

/// Sheets by hand, in short form, and what is printed: lines with `/` for a line feed and differences, or a refusal.
#[rustfmt::skip]
const BY_HAND: [(&str, &str, &[u8]); 5] = [
    (FULL_RUN, "aig 2 2 0 5 0/0/2/1/1/5/", &[]),
    ("N 1 1 1/M 1 1/L 8 0/G 4 6/A 2/D 8/C 9 5 7", "aig 4 2 1 5 1/8/2/8/9/7/5/", &[2, 2]),
    ("N 62 0 1/M 1 1 0/G 0 0/A 0/D 0/C 0 0 128", "aig 64 63 0 5 1/0/0/0/0/128/", &[0x80, 1, 0]),
    (RICH, "refused        19         3/", &[]),
    (TWO_RICH, "refused         3         2/", &[]),
];

/// The second implementation's tables of sheets: those that are refused are refused alike.
pub fn tables(program: &Program, tally: &mut Tally) {
    for (short, lines, differences) in BY_HAND {
        let due = [lines.replace('/', "\n").as_bytes(), differences].concat();
        let found = program.agrees(tally, short, &expand(short));
        tally.check(short, found == due);
    }
    for (name, bytes, expected) in sheet_rows() {
        let found = program.agrees(tally, &name, &bytes);
        tally.check(name, expected == ACCEPTED || text_fits(&found, expected));
    }
}

/// Sheets of lengths around the longest of each kind.
pub fn lengths(program: &Program, tally: &mut Tally) {
    let small = [expand(FULL_RUN), expand("C 1 1 5")].concat();
    for length in 0..=small.len() {
        program.agrees(tally, &format!("{length} bytes"), &small[..length]);
    }
    for largest in [largest_sheet(), largest_two_port_sheet()] {
        let longer = [largest.clone(), vec![b'C'; 100_000]].concat();
        for length in [largest.len() - 1, largest.len(), largest.len() + 1, largest.len() + 32, longer.len()] {
            program.agrees(tally, &format!("{length} bytes"), &longer[..length]);
        }
    }
}

/// Sheets that can be exported, of every shape, and hostile ones.
pub fn sheets(program: &Program, tally: &mut Tally, seed: u64, count: usize) {
    let mut random = Random::new(seed);
    for round in 0..count {
        let bytes = if random.percent(30) {
            write_sheet(&text_netlist(&mut random))
        } else {
            sheet(&mut random)
        };
        program.agrees(tally, &format!("seed {seed} sheet {round}"), &bytes);
    }
}

/// Standard input that cannot be read, and output that cannot be written.
pub fn streams(program: &Program, tally: &mut Tally) {
    for (name, script) in [
        ("closed", "exec \"$0\" <&-"),
        ("a directory", "exec \"$0\" </"),
        ("empty", "exec \"$0\" </dev/null"),
    ] {
        let ran = collect(start(&mut program.under_shell(script)));
        let holds = ran.status.success() && ran.output == printed(b"");
        tally.check_with(name, holds, || shown(&ran.output));
    }
    let mut full = program.under_shell("exec \"$0\" >/dev/full");
    let mut child = start(full.stdin(Stdio::piped()));
    drop(child.stdin.take());
    let ran = collect(child);
    let said = b"export_aig: writing failed, the output is not whole\n";
    tally.check_with("a full device", ran.errors == said, || shown(&ran.errors));
}
