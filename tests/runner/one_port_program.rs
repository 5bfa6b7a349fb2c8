//! The program `one_port`: it prints the sheet or the refusal that the second implementation makes of a file.

use super::rows::sheet_rows;
use super::faults;
use super::memory::VALGRIND;
use super::mutate::{sheet, unused};
use super::process::Program;
use super::reference::check_ports::largest_two_port_sheet;
use super::reference::formula::refusal_text;
use super::reference::one_port::one_port;
use super::reference::random::{tiny_netlist, tiny_two_ports, wide_two_ports, Random};
use super::reference::sheet::{write_sheet, MAX_SHEET_BYTES};
use super::reference::Tally;

/// What the program may print: 0 stands for a sheet.
pub const OF_ONE_PORT: [usize; 9] = [0, 1, 2, 3, 4, 5, 6, 17, 18];

/// What the second implementation prints for a file.
pub fn printed(file: &[u8]) -> Vec<u8> {
    one_port(file, usize::MAX).unwrap_or_else(refusal_text)
}

/// The second implementation's tables, and files that are longer than any sheet.
pub fn tables(program: &Program, tally: &mut Tally) {
    for (name, file, _) in sheet_rows() {
        program.agrees(tally, &name, &file);
    }
    for bytes in [MAX_SHEET_BYTES - 1, MAX_SHEET_BYTES, MAX_SHEET_BYTES + 1, MAX_SHEET_BYTES + 32, 1_000_000] {
        program.agrees(tally, &format!("{bytes} line feeds"), &vec![b'\n'; bytes]);
    }
}

/// Sheets of both kinds, with a second port that reads or not, and hostile ones.
pub fn sheets(program: &Program, tally: &mut Tally, seed: u64, count: usize) {
    let mut random = Random::new(seed);
    for round in 0..count {
        let file = match random.below(6) {
            0 => write_sheet(&tiny_netlist(&mut random)),
            1 => write_sheet(&unused(tiny_two_ports(&mut random))),
            2 => write_sheet(&unused(wide_two_ports(&mut random))),
            _ => sheet(&mut random),
        };
        program.agrees(tally, &format!("seed {seed} sheet {round}"), &file);
    }
}

/// A sample under valgrind.
pub fn memory(program: &Program, tally: &mut Tally) {
    let mut random = Random::new(307);
    let program = program.under(&VALGRIND);
    let largest = largest_two_port_sheet();
    let too_long = [largest.clone(), vec![b'?'; 1 << 16]].concat();
    for (name, file) in [("empty", vec![]), ("the largest", largest), ("too long", too_long)] {
        program.agrees(tally, name, &file);
    }
    for round in 0..9 {
        let file = match round % 3 {
            0 => write_sheet(&unused(wide_two_ports(&mut random))),
            _ => sheet(&mut random),
        };
        program.agrees(tally, &format!("sheet {round}"), &file);
    }
}

/// Standard input in pieces, one that cannot be read, and an output that cannot be written.
pub fn streams(program: &Program, tally: &mut Tally) {
    faults::pieces(program, tally);
    faults::unreadable_input(program, tally);
    faults::no_output(program, tally);
}
