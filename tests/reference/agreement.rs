//! Demand 3: satisfying assignments and runs that break the property match one another
//! (RULES A2 to A4, A6, A7, A10 and A12 to A16), from every starting memory where the start is unknown,
//! with an idle word for each port (K10).

use std::collections::HashSet;

use super::circuit::{feed_of_words, value, word, Feed, Run, Values};
use super::formula::{frame_base, Fault, Formula, Group};
use super::netlist::Netlist;
use super::solver::{satisfies, Solver};

/// What comparing all satisfying assignments with all runs found.
pub struct Agreement {
    pub models: usize,
    /// Assignments whose wires are those of no run that breaks the property: demand 3's first half
    /// fails. A run with these wires is fed these inputs and this idle word.
    pub disagreeing: usize,
    /// Runs that break the property and whose wires no satisfying assignment has: the second half
    /// fails.
    pub missed: usize,
}

impl Agreement {
    pub fn holds(&self) -> bool {
        self.disagreeing == 0 && self.missed == 0
    }
}

/// The variable of a wire in a frame.
pub fn variable(netlist: &Netlist, frame: usize, wire: usize) -> usize {
    frame_base(netlist, frame as u32) as usize + wire
}

/// What an assignment feeds: input variables, and read-bit variables as idle words.
pub fn feeds_of_model(netlist: &Netlist, depth: u32, model: &[bool]) -> Vec<Feed> {
    let of_frame = |frame: usize| {
        let wire_value = |wire: u32| model[variable(netlist, frame, wire as usize)];
        let read_word = |port: u32| {
            let bits = netlist.read_bits(port).map(wire_value).enumerate();
            bits.map(|(bit, value)| u32::from(value) << bit).sum()
        };
        let inputs = (1..=netlist.inputs).map(wire_value).collect();
        feed_of_words(netlist, inputs, read_word)
    };
    (0..=depth as usize).map(of_frame).collect()
}

/// Whether an assignment has every wire of every frame as the run has it.
pub fn agrees(netlist: &Netlist, model: &[bool], run: &Run) -> bool {
    run.frames.iter().enumerate().all(|(frame, values)| {
        (1..values.len()).all(|wire| model[variable(netlist, frame, wire)] == values[wire])
    })
}

/// Every feed of frames 0 to depth. There are 2^(n + (depth + 1) I), and 2^n times as many with two
/// ports, so only for tiny sizes.
pub fn all_feeds(netlist: &Netlist, depth: u32) -> impl Iterator<Item = Vec<Feed>> {
    let (inputs, width) = (netlist.inputs, netlist.data_width);
    let idle_bits = netlist.port_count() * width;
    let two_ports = netlist.has_two_ports();
    let of_frame = move |bits: u64, idle: u64| {
        let word = |bits: u64| (bits & ((1 << width) - 1)) as u32;
        Feed {
            inputs: (0..inputs).map(|bit| (bits >> bit) & 1 == 1).collect(),
            idle_word: word(idle),
            second_idle_word: if two_ports { word(idle >> width) } else { 0 },
        }
    };
    let all = 0..1u64 << (idle_bits + inputs * (depth + 1));
    all.map(move |bits| {
        // Above frame 0 idle words are the inverted ones, so that a chip that takes them there shows.
        let idle = |frame: u32| if frame == 0 { bits } else { !bits };
        (0..=depth)
            .map(|frame| of_frame(bits >> (idle_bits + frame * inputs), idle(frame)))
            .collect()
    })
}

/// Every starting memory: one, or 2^(n 2^m) where the start is unknown, so only for tiny sizes.
pub fn all_memories(netlist: &Netlist) -> Vec<Vec<u32>> {
    let words = 1 << netlist.address_width;
    if !netlist.has_unknown_start() {
        return vec![vec![netlist.start_word; words as usize]];
    }
    let width = netlist.data_width;
    let word = |bits: u64, at: u32| (bits >> (at * width)) as u32 & ((1 << width) - 1);
    (0..1u64 << (words * width))
        .map(|bits| (0..words).map(|at| word(bits, at)).collect())
        .collect()
}

/// The wires of all frames, as a run or an assignment has them.
pub type Frames = Vec<Values>;

/// All runs to a depth that break the property, from all starting memories.
pub fn breaking_runs(netlist: &Netlist, depth: u32) -> HashSet<Frames> {
    let mut breaking = HashSet::new();
    for memory in all_memories(netlist) {
        for feeds in all_feeds(netlist, depth) {
            let run = Run::from_memory(netlist, &memory, &feeds);
            if run.first_break.is_some() {
                breaking.insert(run.frames);
            }
        }
    }
    breaking
}

/// The wires of all frames that an assignment has.
fn frames_of_model(netlist: &Netlist, depth: u32, model: &[bool]) -> Frames {
    let of_wire = |frame: usize, wire: usize| wire > 0 && model[variable(netlist, frame, wire)];
    (0..=depth as usize)
        .map(|frame| {
            (0..=netlist.wire_count() as usize)
                .map(|wire| of_wire(frame, wire))
                .collect()
        })
        .collect()
}

/// Compares all satisfying assignments with all runs, for tiny netlists.
pub fn compare(netlist: &Netlist, depth: u32, fault: Fault) -> Agreement {
    compare_with(netlist, depth, fault, &breaking_runs(netlist, depth))
}

/// The same with the runs that break already found.
pub fn compare_with(
    netlist: &Netlist,
    depth: u32,
    fault: Fault,
    breaking: &HashSet<Frames>,
) -> Agreement {
    let formula = Formula::new(netlist, depth, fault);
    let mut solver = Solver::new(formula.variable_count() as usize, &formula.numbers());
    let (mut models, mut disagreeing) = (0, 0);
    let mut satisfying = HashSet::new();
    solver.models(&mut |model| {
        let frames = frames_of_model(netlist, depth, model);
        models += 1;
        if !breaking.contains(&frames) {
            disagreeing += 1;
        }
        satisfying.insert(frames);
    });
    Agreement {
        models,
        disagreeing,
        missed: breaking.difference(&satisfying).count(),
    }
}

/// Demand 3 for one feed of a netlist of any size. Inputs, and the read bits where the fed word counts,
/// are assumed; unit propagation must then give every wire its value in the run, so no satisfying
/// assignment of this feed differs from the run. With all variables left free made false, every
/// clause but the property's must be true, and the property's exactly when the run breaks.
pub fn propagation_follows_run(netlist: &Netlist, feeds: &[Feed]) -> bool {
    let run = Run::new(netlist, feeds);
    let depth = feeds.len() as u32 - 1;
    let formula = Formula::new(netlist, depth, Fault::None);
    let mut numbers = formula.numbers();
    let property = formula.group(Group::Property);
    numbers.truncate(numbers.len() - property.len());

    let variables = formula.variable_count() as usize;
    let mut solver = Solver::new(variables, &numbers);
    let literals = feed_literals(netlist, &run);
    if !literals.into_iter().all(|literal| solver.assume(literal)) {
        return false;
    }
    let wires_follow = run.frames.iter().enumerate().all(|(frame, values)| {
        (1..values.len())
            .all(|wire| solver.value(variable(netlist, frame, wire)) == Some(values[wire]))
    });
    let completed: Vec<bool> = (0..=variables)
        .map(|index| solver.value(index) == Some(true))
        .collect();
    wires_follow
        && satisfies(&completed, &numbers)
        && satisfies(&completed, &property) == run.first_break.is_some()
}

/// The word that each address of an unknown start must begin with for this run: what its first reader
/// read, if no frame wrote before that. With it the frame of that reader. A T sheet's start is known.
pub fn first_reads(netlist: &Netlist, run: &Run) -> Vec<Option<(usize, u32)>> {
    let mut first = vec![None; 1 << netlist.address_width];
    let mut settled = vec![!netlist.has_unknown_start(); first.len()];
    for (frame, values) in run.frames.iter().enumerate() {
        let address = word(values, netlist.address_codes()) as usize;
        let reads = value(values, netlist.read_enable);
        if reads && !settled[address] {
            first[address] = Some((frame, word(values, &netlist.read_data_codes())));
        }
        settled[address] |= reads || value(values, netlist.write_enable);
    }
    first
}

/// The literals that fix a feed: all inputs, the read bits of frame 0 of each port whose RE is false
/// there, and those of the frames that settle a word of an unknown start.
pub fn feed_literals(netlist: &Netlist, run: &Run) -> Vec<i32> {
    let mut literals = Vec::new();
    let first_reads = first_reads(netlist, run);
    let settles = |frame: usize| first_reads.iter().flatten().any(|it| it.0 == frame);
    for (frame, values) in run.frames.iter().enumerate() {
        let mut wires: Vec<u32> = (1..netlist.first_latch()).collect();
        for port in netlist.ports() {
            let idle = frame == 0 && !value(values, netlist.read_enable_of(port));
            if idle || settles(frame) {
                wires.extend(netlist.read_bits(port));
            }
        }
        for wire in wires {
            let number = variable(netlist, frame, wire as usize) as i32;
            let holds = values[wire as usize];
            literals.push(if holds { number } else { -number });
        }
    }
    literals
}
