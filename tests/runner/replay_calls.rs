//! Replays through the static library: what is answered, and what the lent memory and trace hold afterwards.

use std::collections::BTreeMap;

use super::calls::{differ, record_rows};
use super::exports::replay;
use super::mutate::draft;
use super::reference::answer::{trace_size, Claim};
use super::reference::answer_calls::{marks, Call, Outcome};
use super::reference::check_answers::{fault_set_rows, memory_rows, satisfiable, IDLE, UNKNOWN};
use super::reference::check_examples::{accepted, bytes_of, of_sizes, FULL_RUN};
use super::reference::check_ports::{two_of_sizes, TWO_PORT_REPLAYS, TWO_READS};
use super::reference::check_refusals::ACCEPTED;
use super::reference::circuit::Run;
use super::reference::netlist::{Gate, Latch, MAX_DEPTH};
use super::reference::random::{random_feeds, Random};
use super::reference::random_aiger::{every_byte, every_line};
use super::reference::random_answers::{
    answer_case_of, call_case_of, written, Draft, CALL_FAULTS, FEED_FAULTS, TEXT_FAULTS, UNSEEN,
};
use super::reference::refusal::*;
use super::reference::Tally;
use super::{Counts, Library};

type Verdict = Result<Claim, Refusal>;

fn refused(number: u32) -> Verdict {
    Err(Refusal { number, place: 0 })
}

impl Library {
    /// A replay, counted.
    fn replay(&self, call: &Call) -> Result<Outcome, &'static str> {
        let found = replay(call);
        if let Ok(outcome) = &found {
            let counts = match outcome.result {
                Ok(Claim::Unsatisfiable) => &self.claims,
                _ => &self.replays,
            };
            Counts::add(counts, &Ok(outcome.result));
        }
        found
    }

    /// One check: a replay answers this, and leaves this in the memory and the trace.
    fn replay_gives(&self, tally: &mut Tally, name: &str, call: &Call, expected: &Outcome) {
        let found = self.replay(call);
        tally.check_with(name, found.as_ref() == Ok(expected), || {
            let about = (
                &call.netlist,
                call.depth,
                call.answer.escape_ascii().to_string(),
            );
            differ(about, &found, &Ok(expected.clone()))
        });
    }

    /// One check: what the second implementation says of the call.
    pub fn replay_agrees(&self, tally: &mut Tally, name: &str, call: &Call) {
        self.replay_gives(tally, name, call, &call.outcome());
    }

    /// Two checks: what follows from how the call was made, and what the second implementation says of it.
    fn replay_is(&self, tally: &mut Tally, name: &str, call: &Call, expected: &Outcome) {
        self.replay_gives(tally, name, call, expected);
        tally.check(
            (name, "the second implementation"),
            call.outcome() == *expected,
        );
    }
}

/// Depth, numbers of the answer, what is answered, and what the memory's two words are then, of the full run's sheet: the input is
/// variable 2, 4 and 11 in frames 0, 1 and 2, and it is written to address 0, which is read in the next frame.
const ROWS: [(u32, &str, Verdict, [u32; 2]); 9] = [
    (1, "2 4 0", Ok(Claim::Breaks(1)), [1, 0]),
    (1, "2 -4 0", Ok(Claim::Breaks(1)), [0, 0]),
    (2, "2 -4 11 0", Ok(Claim::Breaks(1)), [1, 0]),
    (2, "-2 4 -11 0", Ok(Claim::Breaks(2)), [0, 0]),
    (
        1,
        "-2 4 0",
        Err(Refusal {
            number: NOTHING_BREAKS,
            place: 0,
        }),
        [1, 0],
    ),
    (
        0,
        "2 0",
        Err(Refusal {
            number: NOTHING_BREAKS,
            place: 0,
        }),
        [1, 0],
    ),
    (
        1,
        "2 0",
        Err(Refusal {
            number: BAD_ANSWER,
            place: 0,
        }),
        [0, 0],
    ),
    (
        1,
        "2 4 -4 0",
        Err(Refusal {
            number: BAD_ANSWER,
            place: 0,
        }),
        [0, 0],
    ),
    (
        1,
        "2 4 0 0",
        Err(Refusal {
            number: BAD_ANSWER,
            place: 0,
        }),
        [0, 0],
    ),
];

/// The rows above, with a memory and a trace that are longer than they need to be or just as long, and with either too short.
pub fn by_hand(library: &Library, tally: &mut Tally) {
    let netlist = accepted(FULL_RUN);
    for (depth, numbers, said, words) in ROWS {
        for more in [[0, 0], [1, 0], [0, 1], [4_094, 1_000]] {
            let call = Call::new(&netlist, depth, satisfiable(numbers), more);
            let found = library.replay(&call).map(|it| (it.result, it.memory));
            let memory = [&words, &call.memory[2..]].concat();
            tally.equal((depth, numbers, more), found, Ok((said, memory)));
            library.replay_agrees(tally, numbers, &call);
        }
        // 9 comes before all that the answer could cause, and leaves everything as it was
        for answer in [
            satisfiable(numbers),
            b"s UNSATISFIABLE\n".to_vec(),
            Vec::new(),
        ] {
            let sound = Call::new(&netlist, depth, answer, [0, 0]);
            for (words, bytes) in [(1, 1_000), (0, 0), (2, sound.trace.len() - 1), (5, 0)] {
                let (memory, trace) = marks(words, bytes);
                let call = Call {
                    memory,
                    trace,
                    ..sound.clone()
                };
                let expected = call.untouched(refused(NO_ROOM));
                library.replay_is(tally, "no room", &call, &expected);
            }
        }
    }
    // the second implementation's rows, with unknown starts too
    for (index, (call, memory)) in memory_rows().into_iter().enumerate() {
        let found = library.replay(&call).map(|it| it.memory);
        tally.equal(("memory", index), found, Ok(memory));
        library.replay_agrees(tally, "memory", &call);
    }
    let call = Call::new(&netlist, 1, satisfiable("2 -4 0"), [0, 3]);
    let trace = [b"10\n01\n", &call.trace[6..]].concat();
    tally.equal(
        "the trace",
        library.replay(&call).map(|it| it.trace),
        Ok(trace),
    );
    let call = Call::new(&netlist, 1, b"s UNSATISFIABLE\n".to_vec(), [3, 3]);
    library.replay_is(
        tally,
        "claimed",
        &call,
        &call.untouched(Ok(Claim::Unsatisfiable)),
    );
}

/// Numbers of answers for `TWO_READS` at depth 1, whose start word is 1, and the memory's two words then: only the first address writes.
const TWO_PORT_WORDS: [(&str, [u32; 2]); 4] = [
    ("-2 3 -4 5 6 7 -11 -12 -13 -14 -15 16 0", [0, 1]),
    ("2 -3 -4 5 6 7 -11 12 -13 -14 -15 16 0", [1, 0]),
    ("-2 -3 -4 -5 6 -7 9 -11 -12 -13 -14 -15 -16 0", [1, 1]),
    ("-2 0", [0, 0]),
];

/// The second implementation's rows of two ports, with memory and trace longer than they need to be or just as long, and a trace of what one port would
/// need.
pub fn two_ports_by_hand(library: &Library, tally: &mut Tally) {
    let netlist = accepted(TWO_READS);
    for (depth, numbers, expected) in TWO_PORT_REPLAYS {
        for more in [[0, 0], [3, 7]] {
            let call = Call::new(&netlist, depth, satisfiable(numbers), more);
            let found = library.replay(&call);
            let result = found.as_ref().map(|it| it.result.map_err(|it| it.number));
            let printed = found.as_ref().map(Outcome::printed);
            match expected {
                Ok(text) => tally.equal((depth, numbers), printed, Ok(bytes_of(text))),
                Err(number) => tally.equal((depth, numbers), result, Ok(Err(number))),
            }
            library.replay_agrees(tally, numbers, &call);
        }
    }
    for (numbers, words) in TWO_PORT_WORDS {
        let call = Call::new(&netlist, 1, satisfiable(numbers), [2, 2]);
        tally.equal("bytes of the trace", call.trace.len(), 2 * 10 + 2);
        let found = library.replay(&call).map(|it| it.memory);
        tally.equal((numbers, "words"), found, Ok([&words, &call.memory[2..]].concat()));
        for bytes in [2 * 9, 2 * 10 - 1] {
            let mut short = call.clone();
            short.trace.truncate(bytes);
            let expected = short.untouched(refused(NO_ROOM));
            library.replay_is(tally, "a trace too short", &short, &expected);
        }
    }
}

/// Each record with each depth, length of memory, length of trace and answer of the table; and every record that is refused, before anything else.
pub fn fault_sets(library: &Library, tally: &mut Tally) {
    for (name, call, expected) in fault_set_rows() {
        library.replay_gives(tally, &name, &call, &expected);
    }
    for (name, netlist, (number, place)) in record_rows() {
        if (number, place) == ACCEPTED {
            continue;
        }
        for (depth, words, bytes) in [(0, 4, 8), (0, 4_096, 600), (256, 0, 0)] {
            let (memory, trace) = marks(words, bytes);
            let (netlist, answer) = (netlist.clone(), b"s UNSATISFIABLE\n".to_vec());
            let call = Call { netlist, depth, answer, memory, trace };
            let expected = call.untouched(Err(Refusal { number, place }));
            library.replay_gives(tally, name, &call, &expected);
        }
    }
}

/// Answers of every shape, sound or with one fault, in sound calls and in calls that have a fault or two of their own.
pub fn random_answers(library: &Library, tally: &mut Tally) {
    let mut random = Random::new(1101);
    let mut counts: BTreeMap<&str, usize> = BTreeMap::new();
    for round in 0..6_000 {
        let draft = draft(&mut random);
        let case = if round % 3 == 0 {
            call_case_of
        } else {
            answer_case_of
        };
        let (name, call, expected) = case(&mut random, draft);
        *counts.entry(name).or_default() += 1;
        library.replay_gives(tally, &format!("{name}, round {round}"), &call, &expected);
    }
    let kinds = 2 + FEED_FAULTS.len() + TEXT_FAULTS.len() + CALL_FAULTS.len();
    tally.check(
        ("each kind comes", &counts),
        counts.len() == kinds && counts.values().all(|count| *count > 5),
    );
}

/// Answers damaged at every byte and in every line, as the second implementation judges them.
pub fn damaged(library: &Library, tally: &mut Tally) {
    let rows: [(u32, &str, &[u8]); 6] = [
        (0, TWO_READS, b"s SATISFIABLE\nv -2 -3 -4 -5 6\nv -7 8 -8 -9 0\n"),
        (1, UNKNOWN, b"s SATISFIABLE\nv -2 -3 4 -5 6\nv 7 -8 9 -10 -11 0\n"),
        (1, FULL_RUN, b"c a\ns SATISFIABLE\nv 2 -4 0\n"),
        (
            1,
            FULL_RUN,
            b"s SATISFIABLE\nv 1 -2\nv -3 4\nc\nv -5 0\nc\n",
        ),
        (2, IDLE, b"s SATISFIABLE\nv 2 -5\nv 6 -7\nv 13 -14 15 0\n"),
        (1, FULL_RUN, b"c\ns UNSATISFIABLE\nc\n"),
    ];
    for (depth, sheet, text) in rows {
        for answer in [every_byte(text), every_line(text)].concat() {
            let call = Call::new(&accepted(sheet), depth, answer, [1, 1]);
            library.replay_agrees(tally, "damaged answer", &call);
        }
    }
}

/// Memory and trace of lengths around their needs, and lists that are longer than the record says.
pub fn rooms(library: &Library, tally: &mut Tally) {
    let mut random = Random::new(1103);
    for _ in 0..150 {
        let draft = draft(&mut random);
        let answer = written(&mut random, &draft.numbers);
        let sound = Call::new(&draft.netlist, draft.depth, answer, [0, 0]);
        let words = sound.memory.len();
        let bytes = trace_size(&draft.netlist, draft.depth);
        for words in [0, 1, words - 1, words, words + 1, words + 5_000] {
            for bytes in [0, bytes - 1, bytes, bytes + 1, bytes + 5_000] {
                let (memory, trace) = marks(words, bytes);
                let call = Call {
                    memory,
                    trace,
                    ..sound.clone()
                };
                let enough = words >= sound.memory.len() && bytes >= sound.trace.len();
                let expected = if enough {
                    call.of_run(&draft.run)
                } else {
                    call.untouched(refused(NO_ROOM))
                };
                library.replay_gives(tally, "room", &call, &expected);
            }
        }
        let mut longer = sound.clone();
        for _ in 0..random.between(1, 700) {
            longer.netlist.latches.push(Latch {
                next: u32::MAX,
                reset: 2,
            });
            longer.netlist.gates.push(Gate {
                left: u32::MAX,
                right: u32::MAX,
            });
        }
        longer.netlist.address[sound.netlist.address_width as usize..].fill(u32::MAX);
        longer.netlist.write_data[sound.netlist.data_width as usize..].fill(u32::MAX);
        let used = sound.netlist.address_width * (sound.netlist.port_count() - 1);
        longer.netlist.second_address[used as usize..].fill(u32::MAX);
        library.replay_gives(tally, "longer lists", &longer, &sound.of_run(&draft.run));
    }
}

/// 600 wires, 4,096 words, 256 frames, and a value for each of 675,841 variables, or of 1,198,081 with two ports.
pub fn largest(library: &Library, tally: &mut Tally) {
    let mut random = Random::new(1104);
    let chips = [of_sizes([12, 0, 556], [12, 32]), two_of_sizes([12, 0, 524], [12, 32])];
    for (mut netlist, variables) in chips.into_iter().zip([675_841, 1_198_081]) {
        netlist.start_word = u32::MAX;
        netlist.write_enable = 1;
        for bit in 0..12 {
            netlist.address[bit] = 2 * (bit as u32 + 1);
            netlist.second_address[bit] = 2 * (12 - bit as u32);
        }
        let feeds = random_feeds(&mut random, &netlist, MAX_DEPTH);
        let mut draft = Draft::new(&netlist, MAX_DEPTH, Run::new(&netlist, &feeds));
        let (_, all_others) = UNSEEN[0];
        all_others(&mut random, &mut draft);
        let largest = draft.numbers.iter().map(|number| number.abs()).max();
        tally.equal("the largest variable", largest, Some(variables));
        let answer = written(&mut random, &draft.numbers);
        for (property, said) in [(2, None), (1, Some(refused(NOTHING_BREAKS)))] {
            netlist.property = property;
            let call = Call::new(&netlist, MAX_DEPTH, answer.clone(), [3, 3]);
            let run = Run::new(&netlist, &feeds);
            let expected = call.of_run(&run);
            tally.check(
                "a run or 15",
                said.map_or(expected.result.is_ok(), |said| expected.result == said),
            );
            library.replay_is(tally, "the largest chip", &call, &expected);
        }
    }
}
