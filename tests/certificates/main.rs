//! Certificates end to end, each answer of the library compared with second checkers. To a depth: a formula, a solver's refutation of it, elaborated
//! to lemmas and hints. For every depth: the clauses of a set of states, with a refutation of the steps that leave it. Of both also damaged ones,
//! other chips' and lies.
//! Arguments: the folder of the examples, and one for files; a number behind them makes the random tests so many times as long. Needs CaDiCaL. The
//! last line is `N passed, M failed`.
//! Build: rustc -O --edition 2021 -L FOLDER -l static=marrubigai main.rs

mod bounded;
#[allow(dead_code)]
#[path = "../runner/certificates.rs"]
mod certificates;
#[allow(dead_code)]
#[path = "../../examples/build/chip.rs"]
mod chip;
mod chips;
mod elaborate;
mod every_state;
mod forever;
mod honest;
#[path = "../runner/invariant.rs"]
mod invariant;
#[allow(dead_code)]
#[path = "../runner/reachable.rs"]
mod reachable;
#[path = "../runner/reference.rs"]
mod reference;
#[path = "../runner/refutation.rs"]
mod refutation;
mod solver;

use std::path::Path;

use bounded::Twins;
use reference::tally::Report;
// as the builder of chips names them
use reference::{netlist, sheet};

/// The examples, and which sheet of each has the fault: two with one port and a given start, one that begins unknown, one with two ports.
const EXAMPLES: [(&str, &str); 4] = [("fourth", "faulty"), ("fifth", "faulty"), ("sixth", "unknown"), ("seventh", "faulty")];

fn main() {
    let arguments: Vec<String> = std::env::args().skip(1).collect();
    let (examples, scratch, times) = match arguments.as_slice() {
        [examples, scratch] => (examples, scratch, 1),
        [examples, scratch, times] => (examples, scratch, times.parse().expect("how many times as long")),
        _ => {
            eprintln!("arguments: the folder of the examples, and one for files; how many times as long");
            std::process::exit(2);
        }
    };
    let folder = Path::new(scratch);
    std::fs::create_dir_all(folder).expect("a folder for files");
    let revisions = EXAMPLES.map(|(revision, fault)| {
        let sheet = |name: &str| std::fs::read(Path::new(examples).join(format!("{revision}-revision/{name}.sheet"))).expect("a sheet");
        Twins { name: format!("{revision} revision"), right: sheet("repaired"), faulty: sheet(fault) }
    });
    let small = chips::CHIPS.map(|(name, chip)| Twins { name: name.to_string(), right: chip(true).sheet(), faulty: chip(false).sheet() });

    let mut report = Report::default();
    let (mut of_revisions, mut of_chips) = (Vec::new(), Vec::new());
    report.family("examples certified to a depth", |tally| of_revisions = bounded::certified(tally, &revisions, &[0, 1, 5, 12], folder));
    report.family("chips certified to a depth", |tally| of_chips = bounded::certified(tally, &small, &[0, 1, 2, 3, 6], folder));
    report.family("certificates of other examples and depths", |tally| bounded::of_others(tally, &of_revisions));
    report.family("certificates of other chips and depths", |tally| bounded::of_others(tally, &of_chips));
    report.family("certificates damaged at every byte", |tally| bounded::damaged(tally, &of_chips, 300));
    report.family("solvers that lie", |tally| bounded::liars(tally, &small, folder));
    report.family("for ever, by hand", forever::by_hand);
    report.family("for ever, chips and their twins", |tally| forever::chips(tally, &small, folder));
    report.family("for ever, damaged at every byte", |tally| forever::every_byte(tally, &small, 600, folder));
    report.family("for ever, laws in every step", |tally| every_state::laws(tally, 600 * times));
    report.family("for ever, random chips and invariants", |tally| every_state::random_chips(tally, 10_000 * times));
    report.finish()
}
