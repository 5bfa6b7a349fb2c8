//! Hostile inputs through the programs, each compared with the second implementation.

use super::mutate::{change_bytes, draft, sheet};
use super::process::Program;
use super::reference::random::Random;
use super::reference::random_answers::{written, written_unsatisfiable};
use super::reference::sheet::{read_depth, read_sheet, write_depth, write_sheet, FIELD_BYTES};
use super::reference::Tally;
use super::replays::Replay;

/// The deepest formula that is asked for here: larger ones are compared elsewhere.
const DEEPEST: u32 = 40;

/// A depth line, often sound. Depths are small: texts grow with the square of the depth.
fn depth_line(random: &mut Random) -> Vec<u8> {
    let small = random.below(6).to_string();
    let limits = [
        "255",
        "256",
        "4294967295",
        "4294967296",
        "",
        "00",
        "-1",
        " 1 ",
    ];
    let text = if random.percent(96) {
        small
    } else {
        random.pick(&limits).to_string()
    };
    let mut line = format!("{text:>FIELD_BYTES$}\n").into_bytes();
    if random.percent(3) {
        change_bytes(random, &mut line);
    }
    line
}

/// An input whose text is not too long.
pub fn input(random: &mut Random) -> Vec<u8> {
    loop {
        let mut bytes = [depth_line(random), sheet(random)].concat();
        if random.percent(5) {
            change_bytes(random, &mut bytes);
        }
        let too_deep = match read_depth(&bytes) {
            Ok((depth, sheet)) => {
                depth > DEEPEST && read_sheet(sheet, usize::MAX, usize::MAX).is_ok()
            }
            Err(_) => false,
        };
        if !too_deep {
            return bytes;
        }
    }
}

pub fn inputs(program: &Program, tally: &mut Tally, seed: u64, count: usize) {
    let mut random = Random::new(seed);
    let before = program.counts();
    for round in 0..count {
        program.agrees(
            tally,
            &format!("seed {seed} input {round}"),
            &input(&mut random),
        );
    }
    let counts = program.counts();
    let new: Vec<String> = (0..8)
        .chain([17])
        .map(|number: usize| (counts[number] - before[number]).to_string())
        .collect();
    tally.remark = format!(" (formulas and numbers 1 to 7 and 17: {})", new.join(", "));
}

/// An input of `replay` and an answer: one of them or both hostile.
pub fn input_and_answer(random: &mut Random) -> (Vec<u8>, Vec<u8>) {
    let draft = draft(random);
    let mut answer = if random.percent(90) {
        written(random, &draft.numbers)
    } else {
        written_unsatisfiable(random)
    };
    if random.percent(60) {
        change_bytes(random, &mut answer);
    }
    let bytes = if random.percent(80) {
        [write_depth(draft.depth), write_sheet(&draft.netlist)].concat()
    } else {
        input(random)
    };
    (bytes, answer)
}

pub fn answers(replay: &Replay, tally: &mut Tally, seed: u64, count: usize) {
    let mut random = Random::new(seed);
    for round in 0..count {
        let (bytes, answer) = input_and_answer(&mut random);
        let name = format!("seed {seed} answer {round}");
        replay.agrees(tally, &name, &bytes, &answer);
    }
}
