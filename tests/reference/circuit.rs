//! The chip with its whole memory, stepped frame by frame (RULES C2 to C4, C6, C7, C12 and C15 to C24),
//! with the second read port of K10.

use super::netlist::{Netlist, FIRST_PORT, SECOND_PORT};

/// What one frame is fed: I input bits and a word for each port. A port's word counts where its RE is
/// false in frame 0, and, where the start is unknown and left open, where a word is read that nothing
/// has settled yet.
#[derive(Clone, Debug, Default, PartialEq, Eq, Hash)]
pub struct Feed {
    pub inputs: Vec<bool>,
    pub idle_word: u32,
    /// The second port's, if there is one.
    pub second_idle_word: u32,
}

impl Feed {
    /// What a chip with one port is fed.
    pub fn new(inputs: Vec<bool>, idle_word: u32) -> Feed {
        Feed {
            inputs,
            idle_word,
            second_idle_word: 0,
        }
    }

    fn idle_word_of(&self, port: u32) -> u32 {
        match port {
            FIRST_PORT => self.idle_word,
            _ => self.second_idle_word,
        }
    }
}

/// A feed with a word for each port that there is.
pub fn feed_of_words(netlist: &Netlist, inputs: Vec<bool>, word: impl Fn(u32) -> u32) -> Feed {
    Feed {
        inputs,
        idle_word: word(FIRST_PORT),
        second_idle_word: if netlist.has_two_ports() {
            word(SECOND_PORT)
        } else {
            0
        },
    }
}

/// The value of every wire in one frame; entry 0 is the constant false.
pub type Values = Vec<bool>;

/// The value of a code, given the values of all wires.
pub fn value(values: &[bool], code: u32) -> bool {
    values[code as usize / 2] != (code % 2 == 1)
}

/// The word whose bit t is the value of code t.
pub fn word(values: &[bool], codes: &[u32]) -> u32 {
    let bits = codes.iter().enumerate();
    bits.map(|(bit, code)| u32::from(value(values, *code)) << bit)
        .sum()
}

/// The state between frames: the latches, the 2^m words and the read bits of the frame before. A word
/// is none while it is unknown: neither read nor written yet. Only the first address writes.
#[derive(Clone)]
pub struct Circuit<'a> {
    netlist: &'a Netlist,
    latches: Vec<bool>,
    words: Vec<Option<u32>>,
    /// By port, the first first; none before frame 0.
    held_words: Vec<Option<u32>>,
}

/// The latches, the words of the memory, and the word held at each port.
pub struct State {
    pub latches: Vec<bool>,
    pub words: Vec<u32>,
    pub held_words: Vec<u32>,
}

impl<'a> Circuit<'a> {
    /// The state before frame 0 of an accepted netlist. An unknown start is left open: the feeds
    /// settle each word when it is first read.
    pub fn new(netlist: &'a Netlist) -> Circuit<'a> {
        let start = (!netlist.has_unknown_start()).then_some(netlist.start_word);
        Circuit::with_words(netlist, vec![start; 1 << netlist.address_width])
    }

    /// The state before frame 0 with these 2^m words.
    pub fn from_memory(netlist: &'a Netlist, memory: &[u32]) -> Circuit<'a> {
        Circuit::with_words(netlist, memory.iter().copied().map(Some).collect())
    }

    fn with_words(netlist: &'a Netlist, words: Vec<Option<u32>>) -> Circuit<'a> {
        let latches = &netlist.latches[..netlist.latch_count as usize];
        Circuit {
            netlist,
            latches: latches.iter().map(|latch| latch.reset == 1).collect(),
            words,
            held_words: vec![None; netlist.port_count() as usize],
        }
    }

    /// A state between two frames, whether a run reaches it or not.
    pub fn in_state(netlist: &'a Netlist, state: &State) -> Circuit<'a> {
        let known = |words: &[u32]| words.iter().copied().map(Some).collect();
        Circuit {
            netlist,
            latches: state.latches.clone(),
            words: known(&state.words),
            held_words: known(&state.held_words),
        }
    }

    /// The state behind the last frame, where every word is known.
    pub fn state(&self) -> State {
        let known = |words: &[Option<u32>]| words.iter().map(|it| it.expect("a known word")).collect();
        State {
            latches: self.latches.clone(),
            words: known(&self.words),
            held_words: known(&self.held_words),
        }
    }

    /// Whether the next frame, fed these inputs, takes the word that its first port is fed.
    pub fn takes_fed_word(&self, inputs: &[bool]) -> bool {
        self.port_takes_fed_word(FIRST_PORT, inputs)
    }

    /// Whether the next frame, fed these inputs, takes the word that a port is fed: the port does not
    /// read and it is frame 0, or it reads a word that is still unknown.
    pub fn port_takes_fed_word(&self, port: u32, inputs: &[bool]) -> bool {
        // Addresses and REs depend on no read bit.
        self.read_word(port, &self.settle(inputs)).is_none()
    }

    /// The word that a port reads in a frame with these values, if anything before this frame settles
    /// it.
    fn read_word(&self, port: u32, values: &[bool]) -> Option<u32> {
        if self.reads(port, values) {
            self.words[self.address(port, values)]
        } else {
            self.held_words[(port - FIRST_PORT) as usize]
        }
    }

    fn reads(&self, port: u32, values: &[bool]) -> bool {
        value(values, self.netlist.read_enable_of(port))
    }

    fn address(&self, port: u32, values: &[bool]) -> usize {
        word(values, self.netlist.address_codes_of(port)) as usize
    }

    /// One frame: its values, after which the state is that before the next frame.
    pub fn step(&mut self, feed: &Feed) -> Values {
        // The first pass settles addresses and REs, which depend on no read bit.
        let settled = self.settle(&feed.inputs);
        let mut read_words = Vec::new();
        for port in self.netlist.ports() {
            let read_word = self.read_word(port, &settled);
            let read_word = read_word.unwrap_or_else(|| feed.idle_word_of(port));
            if self.reads(port, &settled) {
                let address = self.address(port, &settled);
                self.words[address] = Some(read_word);
            }
            read_words.push(read_word);
        }
        self.held_words = read_words.iter().copied().map(Some).collect();
        let values = self.evaluate(&feed.inputs, &read_words);
        if value(&values, self.netlist.write_enable) {
            let address = self.address(FIRST_PORT, &settled);
            self.words[address] = Some(word(&values, self.netlist.write_data_codes()));
        }
        let latches = &self.netlist.latches[..self.netlist.latch_count as usize];
        self.latches = latches
            .iter()
            .map(|latch| value(&values, latch.next))
            .collect();
        values
    }

    /// All wires with every read bit 0.
    fn settle(&self, inputs: &[bool]) -> Values {
        self.evaluate(inputs, &[0, 0])
    }

    fn evaluate(&self, inputs: &[bool], read_words: &[u32]) -> Values {
        evaluate_words(self.netlist, inputs, &self.latches, read_words)
    }
}

/// All wires of a netlist with one port for given inputs, latches and read bits, gates in wire order.
pub fn evaluate(netlist: &Netlist, inputs: &[bool], latches: &[bool], read_word: u32) -> Values {
    evaluate_words(netlist, inputs, latches, &[read_word])
}

/// All wires for given inputs, latches and read bits of each port, gates in wire order.
pub fn evaluate_words(
    netlist: &Netlist,
    inputs: &[bool],
    latches: &[bool],
    read_words: &[u32],
) -> Values {
    let mut values = vec![false];
    values.extend_from_slice(inputs);
    values.extend_from_slice(latches);
    for (_, read_word) in netlist.ports().zip(read_words) {
        values.extend((0..netlist.data_width).map(|bit| (read_word >> bit) & 1 == 1));
    }
    for gate in &netlist.gates[..netlist.gate_count as usize] {
        let output = value(&values, gate.left) && value(&values, gate.right);
        values.push(output);
    }
    values
}

/// A run through all frames that it is fed, also behind a frame that breaks the property.
#[derive(Clone, Debug)]
pub struct Run {
    pub frames: Vec<Values>,
    /// The first frame in which P is false.
    pub first_break: Option<usize>,
    /// The 2^m words behind the last frame; 0 for a word that is still unknown.
    pub words: Vec<u32>,
}

impl Run {
    /// A run from the start word, or from a start that the feeds settle where it is unknown.
    pub fn new(netlist: &Netlist, feeds: &[Feed]) -> Run {
        Run::of_circuit(netlist, Circuit::new(netlist), feeds)
    }

    /// A run from a whole starting memory.
    pub fn from_memory(netlist: &Netlist, memory: &[u32], feeds: &[Feed]) -> Run {
        Run::of_circuit(netlist, Circuit::from_memory(netlist, memory), feeds)
    }

    fn of_circuit(netlist: &Netlist, mut circuit: Circuit, feeds: &[Feed]) -> Run {
        let frames: Vec<Values> = feeds.iter().map(|feed| circuit.step(feed)).collect();
        let first_break = frames
            .iter()
            .position(|values| !value(values, netlist.property));
        Run {
            frames,
            first_break,
            words: circuit.words.iter().map(|it| it.unwrap_or(0)).collect(),
        }
    }

    /// This run's inputs and read words. Fed again they give the same run: where the fed word counts,
    /// the read word is the fed word.
    pub fn feeds(&self, netlist: &Netlist) -> Vec<Feed> {
        let of_frame = |values: &Values| {
            let inputs = values[1..netlist.first_latch() as usize].to_vec();
            let read_word = |port: u32| word(values, &netlist.read_data_codes_of(port));
            feed_of_words(netlist, inputs, read_word)
        };
        self.frames.iter().map(of_frame).collect()
    }
}
