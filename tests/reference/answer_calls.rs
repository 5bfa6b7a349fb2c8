//! Calls of K2 with what is lent, and the outcomes that they must have by what is known of them.

use super::answer::{replay_call, trace_size, trace_text, Claim};
use super::circuit::{value, word, Run};
use super::formula::refusal_text;
use super::netlist::Netlist;
use super::refusal::{Refusal, BAD_ANSWER, NOTHING_BREAKS};
use super::sheet::{write_depth, write_sheet};

/// A call of `replay_call`. The program gets the depth and the netlist as standard input.
#[derive(Clone, Debug)]
pub struct Call {
    pub netlist: Netlist,
    pub depth: u32,
    pub answer: Vec<u8>,
    /// The lent memory and trace, as they are before the call.
    pub memory: Vec<u32>,
    pub trace: Vec<u8>,
}

/// What a call answers with, and what the lent memory and trace hold afterwards.
#[derive(Clone, Debug, PartialEq, Eq)]
pub struct Outcome {
    pub result: Result<Claim, Refusal>,
    pub memory: Vec<u32>,
    pub trace: Vec<u8>,
}

impl Outcome {
    /// What the program prints in this case. The marks behind the trace's lines have no line feed.
    pub fn printed(&self) -> Vec<u8> {
        match self.result {
            Err(refusal) => refusal_text(refusal),
            Ok(Claim::Unsatisfiable) => b"claimed unsatisfiable\n".to_vec(),
            Ok(Claim::Breaks(frame)) => {
                let first_line = format!("{frame}\n").into_bytes();
                let end = self.trace.iter().rposition(|byte| *byte == b'\n');
                let digits = &self.trace[..end.map_or(0, |at| at + 1)];
                [&first_line, digits].concat()
            }
        }
    }
}

/// What lent memory and trace hold before a call of `Call::new`, different at each place.
pub fn marks(words: usize, bytes: usize) -> (Vec<u32>, Vec<u8>) {
    (
        (0..words as u32).map(|at| 0xA500_0001 + at).collect(),
        (0..bytes).map(|at| b'A' + (at % 26) as u8).collect(),
    )
}

impl Call {
    /// A call for an accepted netlist and a depth within its limit; memory and trace are longer than
    /// they need to be by these numbers.
    pub fn new(netlist: &Netlist, depth: u32, answer: Vec<u8>, more: [usize; 2]) -> Call {
        let words = 1 << netlist.address_width;
        let (memory, trace) = marks(words + more[0], trace_size(netlist, depth) + more[1]);
        Call {
            netlist: netlist.clone(),
            depth,
            answer,
            memory,
            trace,
        }
    }

    /// What this implementation does.
    pub fn outcome(&self) -> Outcome {
        let (mut memory, mut trace) = (self.memory.clone(), self.trace.clone());
        let result = replay_call(
            &self.netlist,
            self.depth,
            &self.answer,
            &mut memory,
            &mut trace,
        );
        Outcome {
            result,
            memory,
            trace,
        }
    }

    /// The standard input of the program; the netlist's lists are at least as long as its sizes.
    pub fn input(&self) -> Vec<u8> {
        [write_depth(self.depth), write_sheet(&self.netlist)].concat()
    }

    /// The outcome of a call that writes nothing: every refusal but 14 and 15, and
    /// `claimed unsatisfiable`.
    pub fn untouched(&self, result: Result<Claim, Refusal>) -> Outcome {
        Outcome {
            result,
            memory: self.memory.clone(),
            trace: self.trace.clone(),
        }
    }

    /// The outcome of a malformed answer or one that feeds no run, once all before has passed.
    pub fn bad_answer(&self) -> Outcome {
        let words = 1 << self.netlist.address_width;
        let mut outcome = self.untouched(refused(BAD_ANSWER, 0));
        outcome.memory[..words].fill(0);
        outcome
    }

    /// The outcome of a well-formed answer that feeds this run, once all before has passed.
    pub fn of_run(&self, run: &Run) -> Outcome {
        let mut outcome = self.untouched(refused(NOTHING_BREAKS, 0));
        let words = words_behind(&self.netlist, run);
        outcome.memory[..words.len()].copy_from_slice(&words);
        let property = |values: &&Vec<bool>| value(values, self.netlist.property);
        let frame = run.frames.iter().take_while(property).count();
        if frame < run.frames.len() {
            let digits = trace_text(&run.frames);
            outcome.trace[..digits.len()].copy_from_slice(&digits);
            outcome.result = Ok(Claim::Breaks(frame as u32));
        }
        outcome
    }
}

fn refused(number: u32, place: u32) -> Result<Claim, Refusal> {
    Err(Refusal { number, place })
}

/// The words behind the last frame, from the start word and the writes that the wires show; where the
/// start is unknown, a word never written is what a frame read there, else 0.
fn words_behind(netlist: &Netlist, run: &Run) -> Vec<u32> {
    let of_address = |address: u32| {
        let uses = |enable: u32| {
            move |values: &&Vec<bool>| {
                value(values, enable) && word(values, netlist.address_codes()) == address
            }
        };
        let newest = run.frames.iter().rev().find(uses(netlist.write_enable));
        let start = || {
            if !netlist.has_unknown_start() {
                return netlist.start_word;
            }
            let read = run.frames.iter().find(uses(netlist.read_enable));
            read.map_or(0, |values| word(values, &netlist.read_data_codes()))
        };
        newest.map_or_else(start, |values| word(values, netlist.write_data_codes()))
    };
    (0..1 << netlist.address_width).map(of_address).collect()
}
