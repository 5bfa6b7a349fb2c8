//! Random answers of K2 against the runs that they feed, the assignments of the formula, and a
//! second reading of the text.

use std::collections::HashSet;

use super::agreement::{
    agrees, all_feeds, all_memories, feed_literals, feeds_of_model, first_reads, variable,
};
use super::answer::{read_answer, replay, replay_call, trace_size, Answer, Claim};
use super::answer_calls::{Call, Outcome};
use super::check_answers::{satisfiable, scan, BARE, IDLE, LATCHED, UNKNOWN};
use super::check_examples::{accepted, bytes_of, of_sizes, FULL_RUN};
use super::circuit::{value, Run, Values};
use super::formula::{Fault, Formula};
use super::netlist::{Netlist, MAX_DEPTH};
use super::random::{random_feeds, tiny_netlist, Random};
use super::random_aiger::{every_byte, every_line};
use super::random_answers::{
    answer_case, call_case, random_draft, written, written_unsatisfiable, Draft, CALL_FAULTS,
    FEED_FAULTS, TEXT_FAULTS, UNSEEN,
};
use super::refusal::NOTHING_BREAKS;
use super::solver::Solver;
use super::Tally;

/// 600 wires, 4096 words and 256 frames; it writes the inverted start word to every address that
/// its inputs name and never reads.
pub fn largest_chip(tally: &mut Tally) {
    let mut netlist = of_sizes([12, 0, 556], [12, 32]);
    netlist.start_word = u32::MAX;
    netlist.write_enable = 1;
    for (bit, code) in netlist.address.iter_mut().enumerate() {
        *code = 2 * (bit as u32 + 1);
    }
    let mut random = Random::new(20);
    let feeds = random_feeds(&mut random, &netlist, MAX_DEPTH);
    let run = Run::new(&netlist, &feeds);
    let mut draft = Draft::new(&netlist, MAX_DEPTH, run);
    let (_, all_others) = UNSEEN[0];
    all_others(&mut random, &mut draft);
    let answer = written(&mut random, &draft.numbers);
    let call = Call::new(&netlist, MAX_DEPTH, answer, [3, 3]);
    let outcome = call.outcome();
    tally.check("largest chip", outcome == call.of_run(&draft.run));
    tally.equal("largest trace", call.trace.len() - 3, 256 * 601);
    let written = outcome.memory.iter().filter(|word| **word == 0).count();
    tally.check(("words written", written), (200..=256).contains(&written));
}

/// Answers of every shape: the outcome and the printed text are those of the run that they feed.
pub fn random_answers(tally: &mut Tally) {
    let mut random = Random::new(21);
    let [mut first, mut later, mut nothing, mut idle, mut holding, mut reading] = [0; 6];
    let mut filling = 0;
    for round in 0..2000 {
        let draft = random_draft(&mut random);
        let answer = written(&mut random, &draft.numbers);
        let call = draft.call(&mut random, answer);
        let expected = call.of_run(&draft.run);
        tally.check((round, "outcome"), call.outcome() == expected);
        tally.check(
            (round, "printed"),
            replay(&call.input(), &call.answer) == expected.printed(),
        );
        let numbers = Answer::Satisfiable(draft.numbers.clone());
        tally.check((round, "scanned"), scan(&call.answer) == Some(numbers));
        match draft.run.first_break {
            Some(0) => first += 1,
            Some(_) => later += 1,
            None => nothing += 1,
        }
        let reads = |values: &Values| value(values, draft.netlist.read_enable);
        idle += usize::from(!reads(&draft.run.frames[0]));
        holding += usize::from(!draft.run.frames[1..].iter().all(reads));
        reading += usize::from(draft.run.frames.iter().any(reads));
        let settled = first_reads(&draft.netlist, &draft.run);
        filling += usize::from(settled.iter().any(Option::is_some));
    }
    for round in 0..1000 {
        let (name, call, expected) = answer_case(&mut random);
        tally.check((round, name), call.outcome() == expected);
        let printed = replay(&call.input(), &call.answer);
        tally.check((round, name, "printed"), printed == expected.printed());
    }
    for count in [first, later, nothing, idle, holding, reading, filling] {
        tally.check(("occurrences", count), count >= 100);
    }
    tally.remark = format!(
        " ({first} break in frame 0, {later} later, {nothing} never; {idle} with an idle word, \
         {holding} with a word held, {reading} with frames that read, {filling} that fill a word)"
    );
}

/// An answer that claims a run or that there is none, well-formed.
fn some_answer(random: &mut Random, draft: &Draft) -> Vec<u8> {
    if random.percent(80) {
        written(random, &draft.numbers)
    } else {
        written_unsatisfiable(random)
    }
}

/// Every change and every fault of the generators, alone.
pub fn predicted_faults(tally: &mut Tally) {
    let mut random = Random::new(22);
    let mut counts = Vec::new();
    for (name, change) in UNSEEN {
        let mut count = 0;
        for round in 0..60 {
            let mut draft = random_draft(&mut random);
            let changed = change(&mut random, &mut draft);
            count += usize::from(changed);
            let answer = written(&mut random, &draft.numbers);
            let call = draft.call(&mut random, answer);
            tally.check((round, name), call.outcome() == call.of_run(&draft.run));
        }
        counts.push((name, count));
    }
    for (name, fault) in FEED_FAULTS {
        let mut count = 0;
        for round in 0..120 {
            let mut draft = random_draft(&mut random);
            if !fault(&mut random, &mut draft) {
                continue;
            }
            count += 1;
            let answer = written(&mut random, &draft.numbers);
            let call = draft.call(&mut random, answer);
            tally.check((round, name), call.outcome() == call.bad_answer());
            tally.check((round, name, "well-formed"), scan(&call.answer).is_some());
        }
        counts.push((name, count));
    }
    for (name, fault) in TEXT_FAULTS {
        let mut count = 0;
        for round in 0..120 {
            let draft = random_draft(&mut random);
            let mut answer = some_answer(&mut random, &draft);
            if !fault(&mut random, &mut answer) {
                continue;
            }
            count += 1;
            let call = draft.call(&mut random, answer);
            let fits = call.outcome() == call.bad_answer() && scan(&call.answer).is_none();
            tally.check_with((round, name), fits, || {
                format!(" {}", call.answer.escape_ascii())
            });
        }
        counts.push((name, count));
    }
    for (name, fault) in CALL_FAULTS {
        let mut count = 0;
        for round in 0..60 {
            let draft = random_draft(&mut random);
            let answer = some_answer(&mut random, &draft);
            let mut call = draft.call(&mut random, answer);
            let refusal = match fault(&mut random, &mut call) {
                Some(refusal) => refusal,
                None => continue,
            };
            count += 1;
            let fits = call.outcome() == call.untouched(Err(refusal));
            tally.check((round, name, refusal), fits);
        }
        counts.push((name, count));
    }
    for (name, count) in counts {
        tally.check(("occurrences of", name, count), count >= 10);
    }
}

/// Two faults at once: the one that is tested first decides, and with it what the memory holds.
pub fn two_faults(tally: &mut Tally) {
    let mut random = Random::new(23);
    for round in 0..500 {
        let (name, call, expected) = call_case(&mut random);
        tally.check((round, name), call.outcome() == expected);
    }
    for _ in 0..5 {
        for (index, (name, fault)) in CALL_FAULTS.iter().enumerate() {
            for (other_name, other) in &CALL_FAULTS[index + 1..] {
                let draft = random_draft(&mut random);
                let answer = some_answer(&mut random, &draft);
                let mut call = draft.call(&mut random, answer);
                other(&mut random, &mut call);
                if let Some(refusal) = fault(&mut random, &mut call) {
                    let fits = call.outcome() == call.untouched(Err(refusal));
                    tally.check((name, other_name), fits);
                }
            }
            for (other_name, other) in TEXT_FAULTS {
                let draft = random_draft(&mut random);
                let mut answer = some_answer(&mut random, &draft);
                other(&mut random, &mut answer);
                let mut call = draft.call(&mut random, answer);
                if let Some(refusal) = fault(&mut random, &mut call) {
                    let fits = call.outcome() == call.untouched(Err(refusal));
                    tally.check((name, other_name), fits);
                }
            }
        }
        for (name, fault) in FEED_FAULTS {
            for (other_name, other) in FEED_FAULTS {
                let mut draft = random_draft(&mut random);
                let bad = fault(&mut random, &mut draft) | other(&mut random, &mut draft);
                let answer = written(&mut random, &draft.numbers);
                let call = draft.call(&mut random, answer);
                if bad {
                    tally.check((name, other_name), call.outcome() == call.bad_answer());
                }
            }
            for (other_name, other) in TEXT_FAULTS {
                let mut draft = random_draft(&mut random);
                let bad = fault(&mut random, &mut draft);
                let mut answer = written(&mut random, &draft.numbers);
                if bad | other(&mut random, &mut answer) {
                    let call = draft.call(&mut random, answer);
                    tally.check((name, other_name), call.outcome() == call.bad_answer());
                }
            }
        }
    }
}

/// All runs of a small chip from all its starts, each with the numbers that it needs.
pub struct Runs {
    netlist: Netlist,
    depth: u32,
    pub runs: Vec<(Vec<i32>, Run)>,
}

impl Runs {
    pub fn new(netlist: Netlist, depth: u32) -> Runs {
        let mut known = HashSet::new();
        let mut runs = Vec::new();
        for memory in all_memories(&netlist) {
            for feeds in all_feeds(&netlist, depth) {
                let run = Run::from_memory(&netlist, &memory, &feeds);
                let literals = feed_literals(&netlist, &run);
                if known.insert(literals.clone()) {
                    runs.push((literals, run));
                }
            }
        }
        Runs {
            netlist,
            depth,
            runs,
        }
    }

    /// What an answer must do: of all runs, the one for which each number that it needs is given and
    /// its opposite is not. No step of a chip is looked at.
    pub fn outcome(&self, call: &Call) -> Outcome {
        let numbers = match scan(&call.answer) {
            None => return call.bad_answer(),
            Some(Answer::Unsatisfiable) => return call.untouched(Ok(Claim::Unsatisfiable)),
            Some(Answer::Satisfiable(numbers)) => numbers,
        };
        let given: HashSet<i32> = numbers.into_iter().collect();
        let settled = |literal: &i32| given.contains(literal) && !given.contains(&-literal);
        let mut fed = self
            .runs
            .iter()
            .filter(|(literals, _)| literals.iter().all(settled));
        match (fed.next(), fed.next()) {
            (None, _) => call.bad_answer(),
            (Some((_, run)), None) => call.of_run(run),
            _ => panic!("an answer feeds one run"),
        }
    }

    pub fn call(&self, answer: Vec<u8>) -> Call {
        Call::new(&self.netlist, self.depth, answer, [1, 1])
    }
}

/// Answers of small chips damaged at every byte and in every line, and any subset of the numbers
/// that a small answer may have.
pub fn damaged_answers(tally: &mut Tally) {
    let mut counts = [0; 4];
    let mut examine = |tally: &mut Tally, runs: &Runs, text: Vec<u8>| {
        let call = runs.call(text);
        let (found, expected) = (call.outcome(), runs.outcome(&call));
        let kind = match expected.result {
            Ok(Claim::Unsatisfiable) => 0,
            Ok(Claim::Breaks(_)) => 1,
            Err(refusal) => refusal.number as usize - 12,
        };
        counts[kind] += 1;
        let fits = found == expected && read_answer(&call.answer) == scan(&call.answer);
        tally.check_with("damaged", fits, || {
            format!(" {}", call.answer.escape_ascii())
        });
    };
    // It reads in every frame, at the address that its input names, and never writes.
    let reading = "N 1 0 0/M 1 1/A 2/D 0/C 0 1 4";
    let small = [
        (1, FULL_RUN, "c a/s SATISFIABLE/v 2 -4 0/"),
        (1, FULL_RUN, "s SATISFIABLE/v 1 -2/v -3 4/c/v -5 0/c/"),
        (2, IDLE, "s SATISFIABLE/v -2 3 4 -5 13 0/"),
        (2, IDLE, "s SATISFIABLE/v 2 -5/v 6 -7/v 13 -14 0/"),
        (1, LATCHED, "s SATISFIABLE/v 2 3/v 4/v -5 0/"),
        (0, UNKNOWN, "s SATISFIABLE/v -2 3/v 4 -5 -6 0/"),
        (1, reading, "s SATISFIABLE/v -2 3/v 4 -5 0/"),
        (1, reading, "s SATISFIABLE/v -2 3/v -4 -5 0/"),
        (0, BARE, "s SATISFIABLE/v 0/"),
        (0, BARE, "c/s UNSATISFIABLE/c/"),
    ];
    for (depth, sheet, short) in small {
        let runs = Runs::new(accepted(sheet), depth);
        let text = bytes_of(short);
        examine(tally, &runs, text.clone());
        for damaged in [every_byte(&text), every_line(&text)].concat() {
            examine(tally, &runs, damaged);
        }
        for place in 0..=text.len() {
            for word in [
                " 0",
                " -0",
                " 5",
                "-",
                "0",
                "\n",
                "\nc ",
                "\nv ",
                "\ns SATISFIABLE",
            ] {
                let (before, behind) = text.split_at(place);
                examine(tally, &runs, [before, word.as_bytes(), behind].concat());
            }
        }
    }
    for (depth, sheet, variables) in [
        (1, FULL_RUN, &[2, 3, 4, 5][..]),
        (1, IDLE, &[2, 3, 4, 5, 6][..]),
        (1, LATCHED, &[2, 3, 4, 5][..]),
        (1, reading, &[2, 3, 4, 5][..]),
        (0, UNKNOWN, &[2, 3, 4, 5, 6][..]),
    ] {
        let runs = Runs::new(accepted(sheet), depth);
        for choice in 0..4u32.pow(variables.len() as u32) {
            let mut numbers = Vec::new();
            for (index, variable) in variables.iter().enumerate() {
                let signs = choice >> (2 * index);
                numbers.extend((signs & 1 == 1).then_some(*variable));
                numbers.extend((signs & 2 == 2).then_some(-variable));
            }
            let words: Vec<String> = numbers.iter().chain(&[0]).map(i32::to_string).collect();
            examine(tally, &runs, satisfiable(&words.join(" ")));
        }
    }
    for (name, count) in ["unsatisfiable", "breaks", "14", "15"].iter().zip(counts) {
        tally.check(("occurrences of", name, count), count >= 20);
    }
    tally.remark = format!(
        " (unsatisfiable {}, breaks {}, 14: {}, 15: {})",
        counts[0], counts[1], counts[2], counts[3]
    );
}

/// An assignment that makes all clauses true, written as an answer, replays to a break in its own
/// first broken frame, with its own wires; and an answer that replays to a break is found exactly
/// where there is such an assignment.
pub fn assignments(tally: &mut Tally) {
    let mut random = Random::new(24);
    let cases = (0..400)
        .map(|_| (tiny_netlist(&mut random), random.below(3)))
        .collect();
    assignments_of(tally, &mut random, cases, 80);
}

/// Assignments that make all clauses true, written as answers; at least so many of the cases have some, and as many none.
pub fn assignments_of(
    tally: &mut Tally,
    random: &mut Random,
    cases: Vec<(Netlist, u32)>,
    least: usize,
) {
    let [mut satisfiable, mut unsatisfiable, mut models] = [0; 3];
    for (round, (netlist, depth)) in cases.into_iter().enumerate() {
        let formula = Formula::new(&netlist, depth, Fault::None);
        let variables = formula.variable_count() as usize;
        let mut solver = Solver::new(variables, &formula.numbers());
        let mut found: Vec<Vec<bool>> = Vec::new();
        solver.models(&mut |model| {
            if found.len() < 40 {
                found.push(model.to_vec());
            }
        });
        for model in found.iter().step_by(5) {
            models += 1;
            let numbers: Vec<i32> = (1..=variables as i32)
                .map(|it| if model[it as usize] { it } else { -it })
                .collect();
            let answer = written(random, &numbers);
            let call = Call::new(&netlist, depth, answer, [0, 0]);
            let run = Run::new(&netlist, &feeds_of_model(&netlist, depth, model));
            let outcome = call.outcome();
            let fits = outcome == call.of_run(&run) && agrees(&netlist, model, &run);
            tally.check((round, "an assignment's run"), fits);
            let printed = assigned_text(&netlist, depth, model);
            tally.check((round, "an assignment"), outcome.printed() == printed);
            let needed = feed_literals(&netlist, &run);
            tally.check(
                (round, "what it needs"),
                needed.iter().all(|it| numbers.contains(it)),
            );
        }
        let breaks = Runs::new(netlist.clone(), depth)
            .runs
            .iter()
            .any(|(literals, _)| answer_breaks(&netlist, depth, literals));
        tally.equal((round, "breaks"), breaks, !found.is_empty());
        match found.len() {
            0 => unsatisfiable += 1,
            _ => satisfiable += 1,
        }
    }
    for count in [satisfiable, unsatisfiable] {
        tally.check(("occurrences", count), count >= least);
    }
    tally.remark = format!(
        " ({satisfiable} satisfiable, {unsatisfiable} unsatisfiable, {models} assignments)"
    );
}

/// What is to be printed for an assignment that makes all clauses true, by its variables alone.
fn assigned_text(netlist: &Netlist, depth: u32, model: &[bool]) -> Vec<u8> {
    let code_value = |frame: usize, code: u32| match code {
        0 | 1 => code == 1,
        _ => model[variable(netlist, frame, code as usize / 2)] == (code % 2 == 0),
    };
    let broken = (0..=depth as usize).find(|frame| !code_value(*frame, netlist.property));
    let mut text = broken.map_or(String::new(), |frame| format!("{frame}\n"));
    for frame in 0..=depth as usize {
        for wire in 1..=netlist.wire_count() {
            text.push(if code_value(frame, 2 * wire) {
                '1'
            } else {
                '0'
            });
        }
        text.push('\n');
    }
    text.into_bytes()
}

/// Whether an answer of these numbers replays to a break; it must replay.
pub fn answer_breaks(netlist: &Netlist, depth: u32, literals: &[i32]) -> bool {
    let words: Vec<String> = literals.iter().chain(&[0]).map(i32::to_string).collect();
    let answer = satisfiable(&words.join(" "));
    let mut memory = vec![0; 1 << netlist.address_width];
    let mut trace = vec![0; trace_size(netlist, depth)];
    match replay_call(netlist, depth, &answer, &mut memory, &mut trace) {
        Ok(Claim::Breaks(_)) => true,
        Err(refusal) => {
            assert_eq!(refusal.number, NOTHING_BREAKS);
            false
        }
        Ok(Claim::Unsatisfiable) => unreachable!("the answer claims an assignment"),
    }
}
