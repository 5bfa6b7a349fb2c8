//! Writes the sheet of each example, and the names of its wires, below the folder given.
//! Build: rustc -O --edition 2021 main.rs

mod cartons;
mod chip;
mod echo;
mod fifth_revision;
mod fourth_revision;
// The second implementation's record and sheet, shared and not copied.
#[allow(dead_code)]
#[path = "../../tests/reference/netlist.rs"]
mod netlist;
#[allow(dead_code)]
#[path = "../../tests/reference/refusal.rs"]
mod refusal;
mod seventh_revision;
#[allow(dead_code)]
#[path = "../../tests/reference/sheet.rs"]
mod sheet;
mod sixth_revision;

use std::fs;
use std::path::PathBuf;

use sixth_revision::Memory;

fn main() {
    let folder = match std::env::args_os().nth(1) {
        Some(folder) => PathBuf::from(folder),
        None => {
            eprintln!("argument: the folder of the examples");
            std::process::exit(2);
        }
    };
    let chips = [
        ("echo/chip", echo::chip()),
        ("fourth-revision/faulty", fourth_revision::chip(false)),
        ("fourth-revision/repaired", fourth_revision::chip(true)),
        ("fifth-revision/faulty", fifth_revision::chip(false)),
        ("fifth-revision/repaired", fifth_revision::chip(true)),
        ("sixth-revision/unknown", sixth_revision::chip(Memory::Unknown)),
        ("sixth-revision/cleared", sixth_revision::chip(Memory::Cleared)),
        ("sixth-revision/repaired", sixth_revision::chip(Memory::Flagged)),
        ("seventh-revision/faulty", seventh_revision::chip(false)),
        ("seventh-revision/repaired", seventh_revision::chip(true)),
    ];
    for (name, chip) in chips {
        let path = folder.join(name);
        fs::create_dir_all(path.parent().expect("a folder for each example"))
            .expect("a writable folder");
        fs::write(path.with_extension("sheet"), chip.sheet()).expect("a writable sheet");
        fs::write(path.with_extension("names"), chip.names()).expect("writable names");
    }
}
