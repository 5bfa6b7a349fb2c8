//! The programs as processes: `frames`, and the two public solvers on DIMACS files.

use std::fs::{self, File};
use std::path::{Path, PathBuf};
use std::process::{Command, Output};

use super::reference::netlist::Netlist;
use super::reference::sheet::{write_depth, write_sheet};

/// What a solver says of a file; entry v of a model is the value of variable v.
#[derive(Clone, Debug, PartialEq, Eq)]
pub enum Answer {
    Satisfiable(Vec<bool>),
    Unsatisfiable,
    /// The file was not taken, or the answer was not understood.
    Refused(String),
}

impl Answer {
    pub fn is_satisfiable(&self) -> bool {
        matches!(self, Answer::Satisfiable(_))
    }
}

pub struct Programs {
    frames: PathBuf,
    /// A folder for the files that the programs are handed.
    scratch: PathBuf,
}

impl Programs {
    pub fn new(frames: PathBuf, scratch: PathBuf) -> Programs {
        fs::create_dir_all(&scratch).expect("a folder for scratch files");
        Programs { frames, scratch }
    }

    /// The text of `frames` for a netlist and a depth.
    pub fn frames(&self, netlist: &Netlist, depth: u32) -> Vec<u8> {
        self.frames_of_sheet(&write_sheet(netlist), depth)
    }

    pub fn frames_of_sheet(&self, sheet: &[u8], depth: u32) -> Vec<u8> {
        let input = self.write("input", &[&write_depth(depth), sheet].concat());
        let mut command = Command::new(&self.frames);
        command.stdin(File::open(input).expect("the input just written"));
        run(&mut command).stdout
    }

    /// What both solvers say of a DIMACS text, CaDiCaL first.
    pub fn solve(&self, text: &[u8]) -> [Answer; 2] {
        let file = self.write("formula.cnf", text);
        [cadical(&file), self.minisat(&file)]
    }

    fn minisat(&self, file: &Path) -> Answer {
        let result = self.scratch.join("result");
        let output = run(Command::new("minisat").arg(file).arg(&result));
        let said = String::from_utf8_lossy(&output.stderr).into_owned();
        // It has no strict option, but it warns of counts that differ from the header's.
        if said.contains("header mismatch") {
            return Answer::Refused(said);
        }
        let answer = match fs::read_to_string(&result) {
            Ok(answer) => answer,
            Err(_) => return Answer::Refused(said),
        };
        match (output.status.code(), answer.split_once('\n')) {
            (Some(10), Some(("SAT", values))) => model(values.split_whitespace()),
            (Some(20), Some(("UNSAT", ""))) => Answer::Unsatisfiable,
            _ => Answer::Refused(said + &answer),
        }
    }

    fn write(&self, name: &str, bytes: &[u8]) -> PathBuf {
        let path = self.scratch.join(name);
        fs::write(&path, bytes).expect("a writable folder for scratch files");
        path
    }
}

fn cadical(file: &Path) -> Answer {
    let output = run(Command::new("cadical").args(["--strict", "-q"]).arg(file));
    let answer = String::from_utf8_lossy(&output.stdout);
    match (output.status.code(), answer.lines().next()) {
        (Some(10), Some("s SATISFIABLE")) => {
            let values = answer.lines().filter_map(|line| line.strip_prefix("v "));
            model(values.flat_map(str::split_whitespace))
        }
        (Some(20), Some("s UNSATISFIABLE")) => Answer::Unsatisfiable,
        _ => Answer::Refused(String::from_utf8_lossy(&output.stderr).into_owned()),
    }
}

fn run(command: &mut Command) -> Output {
    let name = format!("{command:?}");
    command
        .output()
        .unwrap_or_else(|error| panic!("{name}: {error}"))
}

/// A model from a solver's literals: variables 1, 2 .. in order, then 0.
fn model<'a>(words: impl Iterator<Item = &'a str>) -> Answer {
    let mut values = vec![false];
    let mut ended = false;
    for word in words {
        match word.parse::<i32>() {
            Ok(0) if !ended => ended = true,
            Ok(literal) if !ended && literal.unsigned_abs() as usize == values.len() => {
                values.push(literal > 0);
            }
            _ => return Answer::Refused(format!("`{word}` in a model")),
        }
    }
    if ended {
        Answer::Satisfiable(values)
    } else {
        Answer::Refused("a model without its end".to_string())
    }
}
