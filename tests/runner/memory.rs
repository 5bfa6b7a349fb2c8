//! A sample of all kinds of inputs under valgrind: no use of memory that a program does not have.

use std::fs;

use super::fuzz;
use super::process::Program;
use super::reference::check_examples::{input, FULL_RUN, RICH};
use super::reference::check_ports::{largest_two_port_sheet, TWO_RICH};
use super::reference::random::Random;
use super::reference::sheet::write_depth;
use super::reference::Tally;
use super::replays::Replay;

/// Whatever valgrind finds it says on standard error, and the status tells too.
pub const VALGRIND: [&str; 3] = ["valgrind", "--quiet", "--error-exitcode=99"];

pub fn sample(program: &Program, tally: &mut Tally, count: usize) {
    let mut random = Random::new(401);
    let mut inputs = vec![
        Vec::new(),
        input(1, FULL_RUN),
        input(12, RICH),
        input(7, TWO_RICH),
        [write_depth(1), largest_two_port_sheet()].concat(),
        [
            write_depth(1),
            largest_two_port_sheet(),
            vec![b'?'; 1 << 16],
        ]
        .concat(),
    ];
    while inputs.len() < count {
        inputs.push(fuzz::input(&mut random));
    }
    let program = program.under(&VALGRIND);
    for (round, bytes) in inputs.iter().enumerate() {
        program.agrees(tally, &format!("input {round}"), bytes);
    }
}

/// The same of `replay`, with answers.
pub fn answers(replay: &Replay, tally: &mut Tally, count: usize) {
    let mut random = Random::new(402);
    let program = replay.program.under(&VALGRIND);
    for round in 0..count {
        let (bytes, answer) = fuzz::input_and_answer(&mut random);
        fs::write(replay.file(), answer).expect("a folder that can be written to");
        program.agrees(tally, &format!("answer {round}"), &bytes);
    }
}
