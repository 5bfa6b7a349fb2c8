//! The program `import_aag`: it prints the sheet or the refusal that the second implementation makes of a text. tests/import.sh has its
//! arguments and streams.

use super::mutate::change_bytes;
use super::process::{outcome, Program};
use super::reference::check_aiger::text_rows;
use super::reference::formula::refusal_text;
use super::reference::random::Random;
use super::reference::random_aiger::{add_tail, damaged_call, random_draft, Call};
use super::reference::sheet::write_sheet;
use super::reference::Tally;

/// What the program may print: 0 stands for a sheet.
pub const OF_IMPORT: [usize; 7] = [0, 4, 6, 11, 12, 13, 17];

/// The longest text that is read.
const MOST_BYTES: usize = 4_194_304;

/// The call as the program makes it: its lists have room for every netlist, it knows no flag but 0 and 1, and two ports only with a start word.
fn as_made(mut call: Call) -> Call {
    call.rooms = [600, 600];
    call.unknown_start = call.unknown_start.min(1);
    call.second_port = call.second_port.min(1 - call.unknown_start);
    call
}

/// m, n and, where it is given, the start word; and behind it how many ports there are, where they are two.
fn arguments(call: &Call) -> Vec<String> {
    let given = if call.unknown_start == 0 { 3 } else { 2 };
    let ports = match call.second_port {
        0 => None,
        second => Some(second + 1),
    };
    let numbers = call.memory[..given].iter().copied().chain(ports);
    numbers.map(|number| number.to_string()).collect()
}

fn agrees(program: &Program, tally: &mut Tally, name: &str, call: Call) {
    let call = as_made(call);
    let expected = call.import().map_or_else(refusal_text, |it| write_sheet(&it));
    let given = program.with(arguments(&call), move |_| expected.clone());
    let printed = given.agrees(tally, &format!("{name} {:?}", arguments(&call)), &call.text);
    program.count(outcome(&printed));
}

/// The second implementation's tables.
pub fn tables(program: &Program, tally: &mut Tally) {
    for (name, call, _) in text_rows() {
        if call.text.len() <= MOST_BYTES {
            agrees(program, tally, &name, call);
        }
    }
}

/// Texts of random netlists, sound ones and faulty ones.
pub fn texts(program: &Program, tally: &mut Tally, seed: u64, count: usize) {
    let mut random = Random::new(seed);
    for round in 0..count {
        let mut call = if random.percent(50) {
            damaged_call(&mut random)
        } else {
            random_draft(&mut random).1.call()
        };
        match random.below(6) {
            0 => change_bytes(&mut random, &mut call.text),
            1 => add_tail(&mut random, &mut call),
            2 => call.memory[random.index(3)] = random.pick(&[0, 1, 2, 12, 13, 33, u32::MAX]),
            _ => {}
        }
        agrees(program, tally, &format!("seed {seed} text {round}"), call);
    }
}
