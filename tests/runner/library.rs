//! Tests of the exported functions of the static library against the second implementation, with fixed
//! seeds. `library` runs all of them, `library fuzz COUNT [SEED]` as many hostile calls as asked for, and a
//! tenth as many hostile certificates; `library sample` few of each kind, to be run under valgrind. The last
//! line is `N passed, M failed`.
//! Build: rustc -O --edition 2021 -L FOLDER -l static=marrubigai library.rs

mod calls;
mod certificate_calls;
#[allow(dead_code)]
mod certificates;
#[allow(dead_code)]
#[path = "../certificates/elaborate.rs"]
mod elaborate;
mod exported_files;
mod exports;
mod fuzz_exports;
#[path = "../certificates/honest.rs"]
mod honest;
mod imports;
mod invariant;
mod largest;
mod literals;
mod mutate;
mod one_ports;
mod positions;
mod prints;
#[allow(dead_code)]
mod reachable;
mod reads;
mod reference;
mod refutation;
mod replay_calls;
mod rows;
mod sources;
mod written_sheets;

use std::cell::RefCell;

use exports::Answer;
use reference::tally::{Report, Tally};

/// How often a function answered each refusal number; entry 0 counts successes.
#[derive(Default)]
pub struct Counts([usize; 20]);

impl Counts {
    fn add<T>(counts: &RefCell<Counts>, answer: &Answer<T>) {
        let number = match answer {
            Ok(Err(refusal)) => refusal.number,
            _ => 0,
        };
        Counts::count(counts, number);
    }

    fn count(counts: &RefCell<Counts>, number: u32) {
        if let Some(count) = counts.borrow_mut().0.get_mut(number as usize) {
            *count += 1;
        }
    }
}

#[derive(Default)]
pub struct Library {
    reads: RefCell<Counts>,
    sheets: RefCell<Counts>,
    one_ports: RefCell<Counts>,
    exports: RefCell<Counts>,
    lines: RefCell<Counts>,
    imports: RefCell<Counts>,
    calls: RefCell<Counts>,
    headings: RefCell<Counts>,
    moves: RefCell<Counts>,
    groups_at: RefCell<Counts>,
    literals: RefCell<Counts>,
    sources: RefCell<Counts>,
    headers: RefCell<Counts>,
    clauses: RefCell<Counts>,
    refusals: RefCell<Counts>,
    numbers: RefCell<Counts>,
    replays: RefCell<Counts>,
    /// Of the replays, those that say what the solver claimed.
    claims: RefCell<Counts>,
    certificates: RefCell<Counts>,
    forevers: RefCell<Counts>,
    /// Of the certificates, and of those for every depth, the good ones.
    certified: RefCell<Counts>,
    forever_certified: RefCell<Counts>,
}

/// A name, its checks, and whether they are part of a sample.
type Family = (&'static str, fn(&Library, &mut Tally), bool);

const FAMILIES: [Family; 56] = [
    ("facts of the full run", calls::stated, true),
    ("table of group calls", calls::table_of_calls, true),
    ("table of records", calls::table_of_records, true),
    ("rooms of groups", calls::rooms, false),
    ("lengths of lists", calls::list_lengths, false),
    ("joined groups", calls::formulas, false),
    ("the largest variable in every group", calls::bounds, false),
    ("the order of the groups, and the version", calls::orders, true),
    ("tables of running records", positions::tables, true),
    ("running records through all frames", positions::walks, false),
    ("hostile running records", positions::hostile, false),
    ("tables of literals", literals::tables, true),
    ("groups put together from literals", literals::groups, false),
    ("tables of sources", sources::tables, true),
    ("sources of random records", sources::random, false),
    ("sources in the groups", sources::groups, false),
    ("tables of sheets", reads::tables, true),
    ("rooms of lists", reads::rooms, false),
    ("damaged sheets", reads::damaged, false),
    ("ties and loops by line", reads::ties_and_loops, false),
    ("lines of sheets", reads::lines, true),
    ("tables of written sheets", written_sheets::tables, true),
    ("sheets written and read back", written_sheets::round_trips, false),
    ("sheets read and written back", written_sheets::damaged_sheets, false),
    ("rooms of sheets", written_sheets::rooms, false),
    ("sheets for one port, by hand", one_ports::by_hand, true),
    ("sheets for one port, tables", one_ports::tables, true),
    ("sheets for one port, random, and every use of the second", one_ports::random_sheets, false),
    ("sheets for one port, unchanged", one_ports::unchanged, false),
    ("sheets for one port, rooms", one_ports::rooms, false),
    ("sheets for one port, runs of both stepped", one_ports::runs, false),
    ("sheets for one port, clauses of both solved", one_ports::clauses, false),
    ("tables of exported files", exported_files::tables, true),
    ("random records exported", exported_files::random_records, false),
    ("texts imported and exported", exported_files::texts, false),
    ("tables of imports", imports::tables, false),
    ("imports, sets of faults", imports::fault_sets, false),
    ("imports, predicted faults", imports::predicted_faults, false),
    ("imports, rooms of lists", imports::rooms, false),
    ("imports, m, n and start word", imports::memories, false),
    ("imports, counts far beyond the text", imports::counts, false),
    ("imports, damaged texts", imports::damaged, false),
    ("imports, ends of texts", imports::ends, true),
    ("texts at their limits", prints::limits, true),
    ("numbers from the right", prints::filled, false),
    ("random texts", prints::random, false),
    ("joined texts", prints::joined, false),
    ("replays by hand", replay_calls::by_hand, true),
    ("replays of two ports by hand", replay_calls::two_ports_by_hand, true),
    ("replays with sets of faults", replay_calls::fault_sets, false),
    ("replays of random answers", replay_calls::random_answers, false),
    ("replays of damaged answers", replay_calls::damaged, false),
    ("rooms and lists of replays", replay_calls::rooms, false),
    ("the largest replay", replay_calls::largest, false),
    ("hostile calls", |library, tally| fuzz_exports::calls(library, tally, 701, 200_000), false),
    ("hostile certificates", |library, tally| certificate_calls::hostile(library, tally, 704, 60_000), false),
];

/// Each function, and the numbers that the tests must have made it answer: all that it has.
fn every_number(library: &Library, tally: &mut Tally) {
    let rows: [(&str, &RefCell<Counts>, &[usize]); 22] = [
        ("read", &library.reads, &[1, 2, 3, 4, 5, 6, 9, 17]),
        ("write_sheet", &library.sheets, &[3, 4, 5, 6, 9, 17]),
        ("one_port", &library.one_ports, &[1, 2, 3, 4, 5, 6, 9, 17, 18]),
        ("export", &library.exports, &[3, 4, 5, 6, 9, 17, 19]),
        ("next_line", &library.lines, &[2]),
        ("import", &library.imports, &[4, 6, 9, 11, 12, 13, 17]),
        ("write_group", &library.calls, &[3, 4, 5, 6, 7, 8, 9, 17]),
        ("heading", &library.headings, &[3, 4, 5, 6, 7, 17]),
        ("move", &library.moves, &[3, 4, 5, 6, 7, 8, 16, 17]),
        (
            "write_group_at",
            &library.groups_at,
            &[3, 4, 5, 6, 7, 8, 9, 16, 17],
        ),
        ("literal_at", &library.literals, &[4, 5, 7, 8, 16]),
        ("source_literal", &library.sources, &[4, 5, 7, 8]),
        ("put_header", &library.headers, &[9]),
        ("put_clauses", &library.clauses, &[9]),
        ("put_refusal", &library.refusals, &[9]),
        ("put_number", &library.numbers, &[9]),
        ("replay", &library.replays, &[3, 4, 5, 6, 7, 9, 14, 15, 17]),
        ("replay, claimed unsatisfiable", &library.claims, &[]),
        ("certify", &library.certificates, &[1, 2, 3, 4, 5, 6, 7, 9, 17]),
        ("certify, certified", &library.certified, &[]),
        ("certify_forever", &library.forevers, &[1, 2, 3, 4, 5, 6, 9, 17]),
        ("certify_forever, certified", &library.forever_certified, &[]),
    ];
    let mut remarks = Vec::new();
    for (name, counts, numbers) in rows {
        let counts = counts.borrow().0;
        for (number, count) in counts.iter().enumerate() {
            let due = number == 0 || numbers.contains(&number);
            tally.check((name, number, count), (*count > 0) == due);
        }
        let shown: Vec<String> = numbers
            .iter()
            .map(|number| format!("{number}: {}", counts[*number]))
            .collect();
        remarks.push(format!(
            "{name} {}, success: {}",
            shown.join(", "),
            counts[0]
        ));
    }
    tally.remark = format!(" ({})", remarks.join("; "));
}

fn main() {
    let words: Vec<String> = std::env::args().skip(1).collect();
    let words: Vec<&str> = words.iter().map(String::as_str).collect();
    let library = Library::default();
    let mut report = Report::default();
    let families = |report: &mut Report, wanted: fn(bool) -> bool| {
        for (name, family, _) in FAMILIES.into_iter().filter(|(_, _, sampled)| wanted(*sampled)) {
            report.family(name, |tally| family(&library, tally));
        }
    };
    match words[..] {
        [] => {
            families(&mut report, |_| true);
            report.family("refusal numbers", |tally| every_number(&library, tally));
        }
        ["fuzz", count, ref seed @ ..] if seed.len() <= 1 => {
            let seed = seed
                .first()
                .map_or(702, |seed| seed.parse().expect("a seed"));
            let count = count.parse().expect("how many calls");
            report.family("hostile calls", |tally| {
                fuzz_exports::calls(&library, tally, seed, count)
            });
            report.family("hostile certificates", |tally| {
                certificate_calls::hostile(&library, tally, seed, count / 10)
            });
        }
        ["sample"] => {
            families(&mut report, |sampled| sampled);
            report.family("hostile calls", |tally| {
                fuzz_exports::calls(&library, tally, 703, 1_000)
            });
            report.family("hostile certificates, in memory that holds nothing", |tally| {
                certificate_calls::bare(tally, 705, 800)
            });
        }
        _ => panic!("usage: nothing, or fuzz COUNT [SEED], or sample"),
    }
    report.finish()
}
