//! The program `replay` with the file `answer` in its folder: answers by hand, random ones, faulty and damaged ones, and what solvers say.

use std::collections::BTreeMap;
use std::fs;
use std::path::{Path, PathBuf};
use std::process::Command;

use super::rows::sheet_rows;
use super::mutate::draft;
use super::process::{shown, Program};
use super::reference::agreement::{agrees, feeds_of_model};
use super::reference::answer::{replay, Answer};
use super::reference::answer_calls::Call;
use super::reference::check_answers::{form_rows, replay_rows, satisfiable, BARE};
use super::reference::check_examples::{accepted, bytes_of, input, of_sizes, FULL_RUN};
use super::reference::check_ports::{two_of_sizes, TWO_PORT_REPLAYS, TWO_READS};
use super::reference::check_refusals::ACCEPTED;
use super::reference::circuit::Run;
use super::reference::formula::{frame_base, refusal_text};
use super::reference::netlist::{Netlist, MAX_DEPTH};
use super::reference::random::{random_feeds, tiny_netlist, tiny_two_ports, Random};
use super::reference::random_aiger::{every_byte, every_line};
use super::reference::random_answers::{
    answer_case_of, written, Draft, FEED_FAULTS, TEXT_FAULTS, UNSEEN,
};
use super::reference::refusal::{Refusal, BAD_ANSWER, NOTHING_BREAKS};
use super::reference::sheet::{read_sheet, write_depth};
use super::reference::Tally;

pub const CLAIMED_TEXT: &[u8] = b"claimed unsatisfiable\n";

/// The program in the folder where its answer is put.
pub struct Replay {
    pub program: Program,
    /// Its neighbour, for the formulas that solvers are asked about.
    frames: PathBuf,
}

pub fn refused(number: u32) -> Vec<u8> {
    refusal_text(Refusal { number, place: 0 })
}

impl Replay {
    pub fn new(path: PathBuf, frames: PathBuf, folder: &Path) -> Replay {
        let file = folder.join("answer");
        let program = Program::new(path, folder, move |input| {
            replay(input, &fs::read(&file).unwrap_or_default())
        });
        Replay { program, frames }
    }

    pub fn file(&self) -> PathBuf {
        self.program.folder().join("answer")
    }

    /// One check: with this answer the program prints what the second implementation prints.
    pub fn agrees(&self, tally: &mut Tally, name: &str, input: &[u8], answer: &[u8]) -> Vec<u8> {
        fs::write(self.file(), answer).expect("a folder that can be written to");
        self.program.agrees(tally, name, input)
    }

    /// That, and a check that it is what follows from how the answer was made.
    pub fn prints(
        &self,
        tally: &mut Tally,
        name: &str,
        input: &[u8],
        answer: &[u8],
        expected: &[u8],
    ) {
        let printed = self.agrees(tally, name, input, answer);
        tally.check_with(name, printed == expected, || {
            format!(
                ": printed {}, expected {}, answer {}",
                shown(&printed),
                shown(expected),
                shown(answer)
            )
        });
    }

    fn call(&self, tally: &mut Tally, name: &str, call: &Call, expected: &[u8]) {
        self.prints(tally, name, &call.input(), &call.answer, expected);
    }
}

/// Answers and runs that were written down: each reading of K2's text, all inputs of `frames` that have a verdict.
pub fn by_hand(replay: &Replay, tally: &mut Tally) {
    for (name, input, answer, expected) in replay_rows() {
        replay.prints(tally, &name, &input, &answer, &expected);
    }
    for (depth, numbers, expected) in TWO_PORT_REPLAYS {
        let expected = expected.map_or_else(refused, bytes_of);
        let name = format!("two ports, depth {depth}, {numbers}");
        replay.prints(
            tally,
            &name,
            &input(depth, TWO_READS),
            &satisfiable(numbers),
            &expected,
        );
    }
    for (name, sheet, (number, place)) in sheet_rows() {
        let expected = match (number, place) {
            ACCEPTED => CLAIMED_TEXT.to_vec(),
            _ => refusal_text(Refusal { number, place }),
        };
        let bytes = [write_depth(1), sheet].concat();
        replay.prints(tally, &name, &bytes, b"s UNSATISFIABLE\n", &expected);
    }
}

/// A property that breaks exactly where the input is false, which is in one frame, whatever its number of digits.
pub fn first_frames(replay: &Replay, tally: &mut Tally) {
    let sheet = "N 1 0 0/M 1 1 0/A 0/D 0/C 0 1 2";
    let netlist = accepted(sheet);
    for first in [0, 1, 9, 10, 99, 100, 199, 254, MAX_DEPTH] {
        let input_of = |frame: u32| frame_base(&netlist, frame) + 1;
        let numbers = (0..=MAX_DEPTH).map(|frame| match frame {
            frame if frame == first => format!("-{} ", input_of(frame)),
            frame => format!("{} ", input_of(frame)),
        });
        let answer = satisfiable(&(numbers.collect::<String>() + "0"));
        let lines = (0..=MAX_DEPTH).map(|frame| if frame == first { "00\n" } else { "10\n" });
        let expected = format!("{first}\n{}", lines.collect::<String>());
        let name = format!("first in frame {first}");
        replay.prints(
            tally,
            &name,
            &input(MAX_DEPTH, sheet),
            &answer,
            expected.as_bytes(),
        );
    }
}

/// Texts with what they say, for a chip that needs no value of them and breaks its property in every frame.
pub fn forms(replay: &Replay, tally: &mut Tally) {
    for (text, said) in form_rows() {
        let expected = match said {
            None => refused(BAD_ANSWER),
            Some(Answer::Unsatisfiable) => CLAIMED_TEXT.to_vec(),
            Some(Answer::Satisfiable(_)) => b"0\n0\n0\n".to_vec(),
        };
        let name = text.escape_ascii().to_string();
        replay.prints(tally, &name, &input(1, BARE), &text, &expected);
    }
}

/// Answers of every shape that feed a known run, with wires that are not the run's, repeated, in any order, beside comments; answers with
/// one fault; and claims that there is none.
pub fn random_answers(replay: &Replay, tally: &mut Tally) {
    let mut random = Random::new(1001);
    let mut counts: BTreeMap<&str, usize> = BTreeMap::new();
    for round in 0..2_400 {
        let draft = draft(&mut random);
        let (name, call, outcome) = answer_case_of(&mut random, draft);
        *counts.entry(name).or_default() += 1;
        replay.call(
            tally,
            &format!("{name}, round {round}"),
            &call,
            &outcome.printed(),
        );
    }
    let kinds = 2 + FEED_FAULTS.len() + TEXT_FAULTS.len();
    tally.check(
        ("each kind comes", &counts),
        counts.len() == kinds && counts.values().all(|count| *count > 5),
    );
}

/// Two answers damaged at every byte and in every line.
pub fn damaged(replay: &Replay, tally: &mut Tally) {
    let rows: [(u32, &str, &[u8], &[u8]); 2] = [
        (
            1,
            FULL_RUN,
            b"c\ns SATISFIABLE\nv 2\nv -4 0\n",
            b"1\n10\n01\n",
        ),
        (
            0,
            TWO_READS,
            b"s SATISFIABLE\nv -2 -3 -4 -5 6 -7\nv -9 0\n",
            b"0\n000010101\n",
        ),
    ];
    for (depth, short, sound, printed) in rows {
        let bytes = input(depth, short);
        replay.prints(tally, "undamaged", &bytes, sound, printed);
        for (index, text) in [every_byte(sound), every_line(sound)]
            .concat()
            .iter()
            .enumerate()
        {
            replay.agrees(tally, &format!("damaged answer {index}"), &bytes, text);
        }
    }
}

/// The largest chips at the greatest depth, with a value for each variable: 675,841 with one port, 1,198,081 with two.
pub fn largest(replay: &Replay, tally: &mut Tally) {
    let mut random = Random::new(1003);
    let chips = [
        of_sizes([12, 0, 556], [12, 32]),
        two_of_sizes([12, 0, 524], [12, 32]),
    ];
    let mut bytes = Vec::new();
    for (mut netlist, variables) in chips.into_iter().zip([675_841, 1_198_081]) {
        netlist.start_word = u32::MAX;
        netlist.write_enable = 1;
        netlist.property = 2;
        let feeds = random_feeds(&mut random, &netlist, MAX_DEPTH);
        let mut draft = Draft::new(&netlist, MAX_DEPTH, Run::new(&netlist, &feeds));
        let (_, all_others) = UNSEEN[0];
        all_others(&mut random, &mut draft);
        let largest = draft.numbers.iter().map(|number| number.abs()).max();
        tally.equal("the largest variable", largest, Some(variables));
        let answer = written(&mut random, &draft.numbers);
        let call = draft.call(&mut random, answer);
        let expected = call.of_run(&draft.run).printed();
        tally.check(("a run of", expected.len()), expected.len() > 256 * 601);
        replay.call(tally, "the largest chip", &call, &expected);
        bytes.push(call.answer.len().to_string());
    }
    tally.remark = format!(" (answers of {} bytes)", bytes.join(" and "));
}

/// What a solver says, and whether it found an assignment.
fn solve(command: &mut Command) -> (Vec<u8>, bool) {
    let output = command.output().expect("a solver");
    match output.status.code() {
        Some(10) => (output.stdout, true),
        Some(20) => (output.stdout, false),
        _ => panic!("{command:?}: {output:?}"),
    }
}

/// The answer of MiniSat's result in the other form.
fn rewritten(result: &[u8]) -> Vec<u8> {
    match result.strip_prefix(b"SAT\n") {
        Some(values) => [b"s SATISFIABLE\nv ", values].concat(),
        None => b"s UNSATISFIABLE\n".to_vec(),
    }
}

/// The values of an answer's variables, entry v that of variable v.
fn model(answer: &[u8]) -> Vec<bool> {
    let text = std::str::from_utf8(answer).expect("a text");
    let lines = text.lines().filter_map(|line| line.strip_prefix("v "));
    let numbers = lines
        .flat_map(|line| line.split(' '))
        .map(|word| word.parse().expect("a number"));
    let numbers: Vec<i32> = numbers.collect();
    let mut values = vec![false; numbers.len()];
    for number in numbers {
        values[number.unsigned_abs() as usize] = number > 0;
    }
    values
}

/// The answer with values for its variables up to B(k + 1): MiniSat has none for those behind the last that stands in a clause.
fn completed(answer: Vec<u8>, variables: usize) -> Vec<u8> {
    let missing = model(&answer).len()..variables + 1;
    if missing.is_empty() {
        return answer;
    }
    let text = String::from_utf8(answer).expect("a text");
    let values = text.strip_suffix(" 0\n").expect("a last 0");
    let more: String = missing.map(|variable| format!(" -{variable}")).collect();
    format!("{values}{more} 0\n").into_bytes()
}

/// What CaDiCaL prints as it stands, with its comments and without, and MiniSat's result: 14 as it stands, and in the other form. Of an
/// answer that is satisfiable the run has every wire as the solver said.
pub fn solvers(replay: &Replay, tally: &mut Tally) {
    let mut random = Random::new(1004);
    let mut cases: Vec<(Netlist, u32)> = (0..50)
        .map(|_| (tiny_netlist(&mut random), random.below(5)))
        .collect();
    cases.extend((0..50).map(|_| (tiny_two_ports(&mut random), random.below(4))));
    for (name, depth) in [
        ("fourth-revision/faulty", 3),
        ("fifth-revision/faulty", 6),
        ("fifth-revision/repaired", 4),
    ] {
        let sheet = fs::read(format!("examples/{name}.sheet")).expect("an example");
        cases.push((read_sheet(&sheet, 600, 600).expect("a sheet"), depth));
    }
    let folder = replay.program.folder();
    let (formula, result) = (folder.join("formula.cnf"), folder.join("result"));
    let frames = Program::new(replay.frames.clone(), folder, |_| Vec::new());
    let mut found = 0;
    for (round, (netlist, depth)) in cases.iter().enumerate() {
        let call = Call::new(netlist, *depth, Vec::new(), [0, 0]);
        let bytes = call.input();
        fs::write(&formula, frames.run(&bytes).output).expect("a folder that can be written to");
        let (quiet, is_satisfiable) = solve(Command::new("cadical").arg("-q").arg(&formula));
        let (with_comments, _) = solve(Command::new("cadical").arg(&formula));
        solve(Command::new("minisat").arg(&formula).arg(&result));
        let other = fs::read(&result).expect("MiniSat's result");
        found += usize::from(is_satisfiable);
        let answers = [
            ("CaDiCaL", quiet),
            ("CaDiCaL with comments", with_comments),
            ("MiniSat", rewritten(&other)),
        ];
        for (name, answer) in answers {
            let name = format!("{name}, sheet {round}");
            let mut answer = answer;
            let expected = if is_satisfiable {
                answer = completed(answer, frame_base(netlist, *depth + 1) as usize);
                let model = model(&answer);
                let run = Run::new(netlist, &feeds_of_model(netlist, *depth, &model));
                tally.check((&name, "wires"), agrees(netlist, &model, &run));
                tally.check((&name, "a violation"), run.first_break.is_some());
                call.of_run(&run).printed()
            } else {
                CLAIMED_TEXT.to_vec()
            };
            replay.prints(tally, &name, &bytes, &answer, &expected);
        }
        let name = format!("MiniSat's own form, sheet {round}");
        replay.prints(tally, &name, &bytes, &other, &refused(BAD_ANSWER));
    }
    fs::remove_file(formula).expect("the formula");
    fs::remove_file(result).expect("MiniSat's result");
    tally.check(
        ("both answers", found),
        (10..cases.len() - 10).contains(&found),
    );
    tally.remark = format!(" ({found} of {} sheets have a run)", cases.len());
}

/// A solver that is wrong about everything but the inputs, and one that is wrong about there being a violation; by hand.
pub fn liars(replay: &Replay, tally: &mut Tally) {
    let bytes = input(1, FULL_RUN);
    // variables 2 and 4 are the input, 3 and 5 the bit read, the others the memory's
    let rows: [(&str, Vec<u8>); 4] = [
        ("1 2 -3 -4 5 6 7 8 -9 10 0", b"1\n10\n01\n".to_vec()),
        ("-1 2 3 -4 -5 -6 -7 -8 9 -10 0", b"1\n10\n01\n".to_vec()),
        ("1 -2 3 -4 5 6 7 8 -9 10 0", refused(NOTHING_BREAKS)),
        ("1 -1 2 -4 3 -3 5 -5 9 -9 0", b"1\n10\n01\n".to_vec()),
    ];
    for (numbers, expected) in rows {
        replay.prints(tally, numbers, &bytes, &satisfiable(numbers), &expected);
    }
    // a memory that is never written: whatever the answer says, nothing but the start word is read
    let constant = Netlist {
        write_enable: 0,
        ..accepted(FULL_RUN)
    };
    let call = Call::new(&constant, 2, satisfiable("2 3 4 5 11 12 0"), [0, 0]);
    replay.call(
        tally,
        "a memory never written",
        &call,
        &refused(NOTHING_BREAKS),
    );
}
