//! Tests of the programs `frames`, `replay`, `import_aag`, `one_port` and `export_aig` against the second implementation, with fixed seeds.
//! `main FRAMES REPLAY IMPORT ONE_PORT EXPORT frames PAGE` runs those of `frames`, with the examples of the page; `replay`, `import_aag`, `one_port`
//! or `export_aig` in place of `frames PAGE` those of the others; `fuzz COUNT [SEED]` as many hostile inputs as asked for. The last line is
//! `N passed, M failed`.
//! Started in the repository's folder.
//! Build: rustc -O --edition 2021 main.rs

mod accepted;
mod answer_files;
mod damaged;
mod exported_sheets;
mod faults;
mod fuzz;
mod largest;
mod memory;
mod mutate;
mod one_port_program;
mod page;
mod process;
mod reference;
mod replays;
mod rows;
mod texts;
mod two_faults;

use std::fs;
use std::path::{Path, PathBuf};

use process::{Program, CLAIMED};
use reference::formula::frames;
use reference::tally::{Report, Tally};
use replays::Replay;

type Family = (&'static str, fn(&Program, &mut Tally));
type ReplayFamily = (&'static str, fn(&Replay, &mut Tally));

const FAMILIES: [Family; 19] = [
    ("full runs, by hand", accepted::full_runs),
    ("every depth", accepted::every_depth),
    ("random M sheets", accepted::random_sheets),
    ("random T sheets", accepted::random_two_ports),
    ("largest sheets at depth 255", accepted::largest),
    ("the largest variable, the most clauses and bytes", accepted::bounds),
    ("tables of refusals", damaged::tables),
    ("lengths of inputs", damaged::lengths),
    ("depth lines", damaged::depth_lines),
    ("sizes at their limits", damaged::sizes),
    ("fields at their limits", damaged::fields),
    ("two faults", two_faults::two_faults),
    ("hostile inputs", |program, tally| {
        fuzz::inputs(program, tally, 301, 20_000)
    }),
    ("input in pieces", faults::pieces),
    ("input that cannot be read", faults::unreadable_input),
    ("output that cannot be written", faults::no_output),
    ("output closed by its reader", faults::closed_pipe),
    ("output full for a moment, slow reader", |program, tally| {
        faults::passing_failure(program, tally);
        faults::repeated_failure(program, tally);
        faults::slow_reader(program, tally);
    }),
    ("a sample under valgrind", |program, tally| {
        memory::sample(program, tally, 24)
    }),
];

const REPLAY_FAMILIES: [ReplayFamily; 15] = [
    ("answers and runs, by hand", replays::by_hand),
    ("first frames, by hand", replays::first_frames),
    ("forms of answers, by hand", replays::forms),
    ("solvers that are wrong, by hand", replays::liars),
    ("random answers, sound and faulty", replays::random_answers),
    ("answers damaged at every byte", replays::damaged),
    ("the largest chips at depth 255", replays::largest),
    ("answers of CaDiCaL and MiniSat", replays::solvers),
    ("answers that cannot be read", answer_files::unreadable),
    ("answers in pieces", answer_files::pieces),
    ("long answers", answer_files::long),
    ("lengths of inputs, depth lines", |replay, tally| {
        fs::write(replay.file(), "s UNSATISFIABLE\n").expect("the answer");
        damaged::lengths(&replay.program, tally);
        damaged::depth_lines(&replay.program, tally);
    }),
    ("streams", |replay, tally| {
        fs::write(replay.file(), "s UNSATISFIABLE\n").expect("the answer");
        faults::pieces(&replay.program, tally);
        faults::unreadable_input(&replay.program, tally);
        faults::no_output(&replay.program, tally);
    }),
    ("hostile inputs and answers", |replay, tally| {
        fuzz::answers(replay, tally, 303, 4_000)
    }),
    ("a sample under valgrind", |replay, tally| {
        memory::answers(replay, tally, 12)
    }),
];

/// The runner must have made a program print everything that it has, and nothing else.
fn every_number(program: &Program, tally: &mut Tally, due: &[usize]) {
    let counts = program.counts();
    for (number, count) in counts.iter().enumerate() {
        tally.check(
            ("outcome", number, "printed", count),
            (*count > 0) == due.contains(&number),
        );
    }
    let shown: Vec<String> = due
        .iter()
        .map(|number| format!("{number}: {}", counts[*number]))
        .collect();
    tally.remark = format!(" ({})", shown.join(", "));
}

/// What a program may print: 0 stands for a formula or a run.
const OF_FRAMES: [usize; 9] = [0, 1, 2, 3, 4, 5, 6, 7, 17];
const OF_REPLAY: [usize; 12] = [0, 1, 2, 3, 4, 5, 6, 7, 14, 15, 17, CLAIMED];

fn of_frames(program: &Program, page: &Path, folder: &Path) -> Report {
    let mut report = Report::default();
    for (name, family) in FAMILIES {
        report.family(name, |tally| family(program, tally));
    }
    report.family("output file at its limit", |tally| {
        faults::file_limit(program, tally, folder)
    });
    report.family("examples of the page", |tally| {
        page::examples(program, tally, page, folder)
    });
    report.family("refusal numbers", |tally| {
        every_number(program, tally, &OF_FRAMES)
    });
    report
}

fn of_replay(replay: &Replay) -> Report {
    let mut report = Report::default();
    for (name, family) in REPLAY_FAMILIES {
        report.family(name, |tally| family(replay, tally));
    }
    report.family("refusal numbers", |tally| {
        every_number(&replay.program, tally, &OF_REPLAY)
    });
    report
}

fn of_import(import: &Program) -> Report {
    let mut report = Report::default();
    report.family("tables of imports", |tally| texts::tables(import, tally));
    report.family("random texts", |tally| {
        texts::texts(import, tally, 305, 2_000)
    });
    report.family("refusal numbers", |tally| {
        every_number(import, tally, &texts::OF_IMPORT)
    });
    report
}

fn of_one_port(one_port: &Program) -> Report {
    let mut report = Report::default();
    report.family("tables of sheets", |tally| one_port_program::tables(one_port, tally));
    report.family("random and hostile sheets", |tally| {
        one_port_program::sheets(one_port, tally, 306, 3_000)
    });
    report.family("streams", |tally| one_port_program::streams(one_port, tally));
    report.family("a sample under valgrind", |tally| {
        one_port_program::memory(one_port, tally)
    });
    report.family("refusal numbers", |tally| {
        every_number(one_port, tally, &one_port_program::OF_ONE_PORT)
    });
    report
}

fn of_export(export: &Program) -> Report {
    let mut report = Report::default();
    report.family("tables of sheets", |tally| exported_sheets::tables(export, tally));
    report.family("lengths of sheets", |tally| exported_sheets::lengths(export, tally));
    report.family("random and hostile sheets", |tally| {
        exported_sheets::sheets(export, tally, 306, 8_000)
    });
    report.family("streams", |tally| exported_sheets::streams(export, tally));
    report.family("a sample under valgrind", |tally| {
        let export = export.under(&memory::VALGRIND);
        exported_sheets::sheets(&export, tally, 307, 24)
    });
    report.family("refusal numbers", |tally| {
        every_number(export, tally, &exported_sheets::OF_EXPORT)
    });
    report
}

fn hostile(
    program: &Program,
    replay: &Replay,
    import: &Program,
    one_port: &Program,
    export: &Program,
    count: usize,
    seed: Option<&&str>,
) -> Report {
    let seed = seed.map_or(302, |seed| seed.parse().expect("a seed"));
    let mut report = Report::default();
    report.family("hostile inputs", |tally| {
        fuzz::inputs(program, tally, seed, count)
    });
    report.family("replay: hostile inputs and answers", |tally| {
        fuzz::answers(replay, tally, seed, count)
    });
    report.family("import_aag: hostile texts", |tally| {
        texts::texts(import, tally, seed, count)
    });
    report.family("one_port: hostile sheets", |tally| {
        one_port_program::sheets(one_port, tally, seed, count)
    });
    report.family("export_aig: hostile sheets", |tally| {
        exported_sheets::sheets(export, tally, seed, count)
    });
    report
}

fn main() {
    let words: Vec<String> = std::env::args().skip(1).collect();
    let words: Vec<&str> = words.iter().map(String::as_str).collect();
    let (paths, rest) = words.split_at(words.len().min(5));
    let folder = std::env::temp_dir().join(format!("runner-{}", std::process::id()));
    fs::create_dir(&folder).expect("a folder for answers and outputs");
    let program = Program::new(absolute(paths[0]), Path::new("."), frames);
    let replay = Replay::new(absolute(paths[1]), absolute(paths[0]), &folder);
    let import = Program::new(absolute(paths[2]), Path::new("."), |_| Vec::new());
    let one_port = Program::new(absolute(paths[3]), Path::new("."), one_port_program::printed);
    let export = Program::new(absolute(paths[4]), Path::new("."), exported_sheets::printed);
    let report = match rest {
        ["frames", page] => of_frames(&program, Path::new(page), &folder),
        ["replay"] => of_replay(&replay),
        ["import_aag"] => of_import(&import),
        ["one_port"] => of_one_port(&one_port),
        ["export_aig"] => of_export(&export),
        ["fuzz", count, seed @ ..] if seed.len() <= 1 => hostile(
            &program,
            &replay,
            &import,
            &one_port,
            &export,
            count.parse().expect("how many inputs"),
            seed.first(),
        ),
        _ => panic!("usage: FRAMES REPLAY IMPORT ONE_PORT EXPORT, then frames PAGE, replay, import_aag, one_port, export_aig or fuzz COUNT [SEED]"),
    };
    fs::remove_dir_all(&folder).expect("removing the folder");
    report.finish()
}

/// The programs are also started from other folders.
fn absolute(path: &str) -> PathBuf {
    fs::canonicalize(path).unwrap_or_else(|error| panic!("{path}: {error}"))
}
