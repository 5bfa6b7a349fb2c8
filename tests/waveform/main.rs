//! The waveform that the command writes, by a real reader: converted by GTKWave's vcd2fst and back by fst2vcd, every signal has in every frame the value
//! that `replay` prints, which is fed the wires of the same run's waveform without names; and with one value changed that is noticed. The last line is
//! `N passed, M failed`.
//! Arguments: the command, the program `replay`, a folder for scratch files. Started in the repository's folder.
//! Build: rustc -O --edition 2021 main.rs

mod cases;
#[path = "../runner/reference.rs"]
mod reference;
mod vcd;

use std::env;
use std::fs;
use std::path::{Path, PathBuf};
use std::process::Command;

use cases::{examples, odd_names, random_cases, Case};
use reference::tally::{Report, Tally};
use vcd::{read, Signals};

/// How many lines of a waveform are changed and then converted; all are changed without.
const CONVERTED: usize = 40;

struct Files {
    command: PathBuf,
    replay: PathBuf,
    folder: PathBuf,
}

impl Files {
    fn path(&self, name: &str) -> PathBuf {
        self.folder.join(name)
    }

    fn write(&self, name: &str, bytes: &[u8]) -> PathBuf {
        let path = self.path(name);
        fs::write(&path, bytes).expect("a folder that can be written to");
        path
    }

    /// The waveform that the command writes; none where no run breaks the property.
    fn waveform(&self, case: &Case, names: &[PathBuf]) -> Option<Vec<u8>> {
        let vcd = self.path("chip.vcd");
        let mut command = Command::new(&self.command);
        command.args(["-q", "--any", "-k"]).arg(case.depth.to_string());
        command.arg("--vcd").arg(&vcd);
        for file in names {
            command.arg("--names").arg(file);
        }
        let output = command.arg(self.path("chip.sheet")).output().expect("the command");
        match output.status.code() {
            Some(10) => Some(read_file(&vcd)),
            Some(20) => None,
            _ => panic!("{}: {output:?}", case.name),
        }
    }

    /// What `replay` prints, fed the wires of a waveform that has all of them.
    fn stepped(&self, case: &Case, wires: &Signals) -> Vec<u8> {
        let answer = case.answer(wires);
        self.write("answer", answer.as_bytes());
        let depth = case.frames(wires) - 1;
        let mut input = format!("{depth:10}\n").into_bytes();
        input.extend_from_slice(&case.sheet);
        let input = fs::File::open(self.write("input", &input)).expect("the input");
        let output = Command::new(&self.replay).stdin(input).current_dir(&self.folder).output();
        output.expect("replay").stdout
    }

    /// The waveform, and what `replay` prints of the same run; none where no run breaks the property. The solver finds the same run with names.
    fn find(&self, case: &Case) -> Option<(Vec<u8>, Vec<u8>)> {
        self.write("chip.sheet", &case.sheet);
        let bare = self.waveform(case, &[])?;
        let printed = self.stepped(case, &read(&bare).expect("a waveform"));
        if case.names.is_empty() {
            return Some((bare, printed));
        }
        let names = self.write("chip.names", case.names.as_bytes());
        Some((self.waveform(case, &[names])?, printed))
    }

    /// What GTKWave makes of a waveform: there and back.
    fn converted(&self, text: &[u8]) -> Vec<u8> {
        let from = self.write("converted.vcd", text);
        let fst = self.path("converted.fst");
        let _ = fs::remove_file(&fst);
        let there = Command::new("vcd2fst")
            .arg(from)
            .arg(&fst)
            .output()
            .expect("vcd2fst");
        assert!(there.status.success(), "vcd2fst: {there:?}");
        let back = Command::new("fst2vcd").arg(&fst).output().expect("fst2vcd");
        assert!(back.status.success(), "fst2vcd: {back:?}");
        back.stdout
    }
}

fn read_file(path: &Path) -> Vec<u8> {
    fs::read(path).unwrap_or_else(|error| panic!("{}: {error}", path.display()))
}

/// Whether a waveform has exactly these signals with these values.
fn shows(text: &[u8], expected: &Signals) -> bool {
    read(text).as_ref() == Some(expected)
}

/// One check of the waveform as written, one as converted.
fn agrees(tally: &mut Tally, files: &Files, case: &Case) -> Option<(Vec<u8>, Signals)> {
    let (text, printed) = files.find(case)?;
    let expected = case.signals(&printed);
    tally.check_with((&case.name, "as written"), shows(&text, &expected), || {
        format!(": found {:?}, expected {expected:?}", read(&text))
    });
    let back = files.converted(&text);
    tally.check_with((&case.name, "converted"), shows(&back, &expected), || {
        format!(": found {:?}, expected {expected:?}", read(&back))
    });
    Some((text, expected))
}

fn sheets(tally: &mut Tally, files: &Files, cases: &[Case], most: usize) {
    let (mut found, mut values) = (0, 0);
    for case in cases {
        if found == most {
            break;
        }
        if let Some((_, expected)) = agrees(tally, files, case) {
            found += 1;
            values += expected.values().map(Vec::len).sum::<usize>();
        }
    }
    tally.check(("runs found", found), found == most);
    tally.remark = format!(" ({found} runs, {values} values)");
}

/// A text with one of its value lines changed in one bit, or left out.
fn wrong(text: &[u8]) -> Vec<Vec<u8>> {
    let text = std::str::from_utf8(text).expect("a text");
    let lines: Vec<&str> = text.lines().collect();
    let begin = lines
        .iter()
        .position(|line| line.starts_with("$enddefinitions"));
    let begin = begin.expect("the end of the definitions");
    let mut texts = Vec::new();
    for at in begin..lines.len() {
        let line = lines[at];
        let digit = match line.as_bytes()[0] {
            b'0' | b'1' => 0,
            b'b' => 1 + at % (line.find(' ').expect("a value and its signal") - 1),
            _ => continue,
        };
        let mut other = line.as_bytes().to_vec();
        other[digit] ^= 1;
        for changed in [
            String::from_utf8(other).expect("a text") + "\n",
            String::new(),
        ] {
            let mut all = lines[..at].join("\n") + "\n" + &changed;
            all += &(lines[at + 1..].join("\n") + "\n");
            texts.push(all.into_bytes());
        }
    }
    texts
}

fn changed_values(tally: &mut Tally, files: &Files) {
    for case in examples().iter().filter(|case| !case.names.is_empty()) {
        let (text, expected) = agrees(tally, files, case).expect("a run");
        let texts = wrong(&text);
        tally.check(
            (&case.name, "values are changed", texts.len()),
            texts.len() > 10,
        );
        for (index, text) in texts.iter().enumerate() {
            tally.check((&case.name, "change", index), !shows(text, &expected));
            if index < CONVERTED {
                let back = files.converted(text);
                tally.check(
                    (&case.name, "change, converted", index),
                    !shows(&back, &expected),
                );
            }
        }
    }
}

fn main() {
    let words: Vec<PathBuf> = env::args_os().skip(1).map(PathBuf::from).collect();
    let absolute = |path: &PathBuf| {
        fs::canonicalize(path).unwrap_or_else(|error| panic!("{}: {error}", path.display()))
    };
    let files = match words.as_slice() {
        [command, replay, folder] => {
            fs::create_dir_all(folder).expect("a folder for scratch files");
            Files {
                command: absolute(command),
                replay: absolute(replay),
                folder: absolute(folder),
            }
        }
        _ => panic!("arguments: command, replay, scratch folder"),
    };
    let mut report = Report::default();
    report.family("the examples, with names and without", |tally| {
        let cases = examples();
        sheets(tally, &files, &cases, cases.len())
    });
    report.family("odd names", |tally| {
        sheets(tally, &files, &[odd_names()], 1)
    });
    report.family("random sheets", |tally| {
        sheets(tally, &files, &random_cases(), 24)
    });
    report.family("changed values", |tally| changed_values(tally, &files));
    report.finish()
}
