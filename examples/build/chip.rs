//! A netlist builder: inputs, latches and words have names, gates come from expressions.

use std::ops::Not;

use super::netlist::{Gate, Latch, Netlist, FIRST_PORT, SECOND_PORT};
use super::sheet::{write_sheet, FIELD_BYTES, LINE_BYTES};

/// One wire or its inverse, or a constant: a code (RULES W3).
#[derive(Clone, Copy, PartialEq, Eq)]
pub struct Bit(u32);

pub const FALSE: Bit = Bit(0);
pub const TRUE: Bit = Bit(1);

impl Not for Bit {
    type Output = Bit;

    fn not(self) -> Bit {
        Bit(self.0 ^ 1)
    }
}

/// Bits, the lowest first.
pub type Word = Vec<Bit>;

/// The word of a number.
pub fn number(value: u32, width: u32) -> Word {
    (0..width).map(|bit| Bit((value >> bit) & 1)).collect()
}

/// A word with zeros above it.
pub fn widen(word: &[Bit], width: usize) -> Word {
    let mut wide = word.to_vec();
    wide.resize(width, FALSE);
    wide
}

pub struct Chip {
    netlist: Netlist,
    start_unknown: bool,
    names: Vec<(&'static str, Word)>,
    shown: Vec<&'static str>,
}

impl Chip {
    /// Names with their widths for inputs and latches (reset 0), then address width, data width and start
    /// word of a memory with one port. These wires come before all gates.
    pub fn new(
        inputs: &[(&'static str, u32)],
        latches: &[(&'static str, u32)],
        memory: [u32; 3],
    ) -> Chip {
        Chip::with_memory(inputs, latches, memory, 0)
    }

    /// The same with a second port, which reads at an address of its own.
    pub fn with_two_ports(
        inputs: &[(&'static str, u32)],
        latches: &[(&'static str, u32)],
        memory: [u32; 3],
    ) -> Chip {
        Chip::with_memory(inputs, latches, memory, 1)
    }

    fn with_memory(
        inputs: &[(&'static str, u32)],
        latches: &[(&'static str, u32)],
        memory: [u32; 3],
        two_ports: u32,
    ) -> Chip {
        let width = |words: &[(&str, u32)]| words.iter().map(|(_, width)| width).sum();
        let [address_width, data_width, start_word] = memory;
        let mut chip = Chip {
            netlist: Netlist {
                inputs: width(inputs),
                latch_count: width(latches),
                address_width,
                data_width,
                start_word,
                two_ports,
                ..Netlist::default()
            },
            start_unknown: false,
            names: Vec::new(),
            shown: Vec::new(),
        };
        let mut wires = 1..;
        for (name, width) in inputs.iter().chain(latches) {
            let bits = wires.by_ref().take(*width as usize);
            chip.names
                .push((*name, bits.map(|wire| Bit(2 * wire)).collect()));
        }
        chip.netlist.latches = vec![Latch { next: 0, reset: 0 }; chip.netlist.latch_count as usize];
        chip
    }

    /// Nothing clears the memory: whatever start word was given, each word begins as anything.
    pub fn leave_start_unknown(&mut self) {
        self.start_unknown = true;
    }

    /// The word of a name.
    pub fn word(&self, name: &str) -> Word {
        let found = self.names.iter().find(|(other, _)| *other == name);
        found
            .unwrap_or_else(|| panic!("nothing is named {name}"))
            .1
            .clone()
    }

    /// The only bit of a name.
    pub fn bit(&self, name: &str) -> Bit {
        self.word(name)[0]
    }

    /// Gives a word a name.
    pub fn name(&mut self, name: &'static str, word: &[Bit]) {
        self.names.push((name, word.to_vec()));
    }

    pub fn and(&mut self, a: Bit, b: Bit) -> Bit {
        match (a, b) {
            (FALSE, _) | (_, FALSE) => FALSE,
            (TRUE, other) | (other, TRUE) => other,
            _ => {
                let (left, right) = (a.0, b.0);
                self.netlist.gates.push(Gate { left, right });
                self.netlist.gate_count += 1;
                Bit(2 * self.netlist.wire_count())
            }
        }
    }

    pub fn or(&mut self, a: Bit, b: Bit) -> Bit {
        !self.and(!a, !b)
    }

    pub fn differ(&mut self, a: Bit, b: Bit) -> Bit {
        let (both, neither) = (self.and(a, b), self.and(!a, !b));
        self.and(!both, !neither)
    }

    pub fn all(&mut self, bits: &[Bit]) -> Bit {
        bits.iter().fold(TRUE, |all, bit| self.and(all, *bit))
    }

    /// Bit by bit: `a` where the condition holds, else `b`.
    pub fn choose(&mut self, condition: Bit, a: &[Bit], b: &[Bit]) -> Word {
        let mut chosen = Word::new();
        for (a, b) in a.iter().zip(b) {
            chosen.push(if a == b {
                *a
            } else {
                let (taken, other) = (self.and(condition, *a), self.and(!condition, *b));
                self.or(taken, other)
            });
        }
        chosen
    }

    pub fn equal(&mut self, a: &[Bit], b: &[Bit]) -> Bit {
        let same: Word = a.iter().zip(b).map(|(a, b)| !self.differ(*a, *b)).collect();
        self.all(&same)
    }

    pub fn at_least(&mut self, a: &[Bit], b: &[Bit]) -> Bit {
        // From the lowest bit on: where the bits differ they decide, else what the lower bits say.
        let mut so_far = TRUE;
        for (a, b) in a.iter().zip(b) {
            let differ = self.differ(*a, *b);
            so_far = self.choose(differ, &[*a], &[so_far])[0];
        }
        so_far
    }

    /// The sum without the last carry.
    pub fn add(&mut self, a: &[Bit], b: &[Bit]) -> Word {
        let mut carry = FALSE;
        let mut sum = Word::new();
        for (a, b) in a.iter().zip(b) {
            let differ = self.differ(*a, *b);
            sum.push(self.differ(differ, carry));
            carry = self.choose(differ, &[carry], &[*a])[0];
        }
        sum
    }

    /// What latches of a name take at the end of a frame.
    pub fn next(&mut self, name: &str, value: &[Bit]) {
        for (latch, value) in self.word(name).iter().zip(value) {
            let index = latch.0 / 2 - self.netlist.first_latch();
            self.netlist.latches[index as usize].next = value.0;
        }
    }

    /// What latches of a name take at the end of a frame in which the condition holds; else they keep what
    /// they hold.
    pub fn next_if(&mut self, condition: Bit, name: &str, value: &[Bit]) {
        let held = self.word(name);
        let next = self.choose(condition, value, &held);
        self.next(name, &next);
    }

    pub fn read_data(&self) -> Word {
        self.read_data_of(FIRST_PORT)
    }

    pub fn second_read_data(&self) -> Word {
        self.read_data_of(SECOND_PORT)
    }

    fn read_data_of(&self, port: u32) -> Word {
        let codes = self.netlist.read_data_codes_of(port).into_iter();
        codes.map(Bit).collect()
    }

    pub fn connect_memory(
        &mut self,
        address: &[Bit],
        read_enable: Bit,
        write_enable: Bit,
        write_data: &[Bit],
    ) {
        for (code, bit) in self.netlist.address.iter_mut().zip(address) {
            *code = bit.0;
        }
        for (code, bit) in self.netlist.write_data.iter_mut().zip(write_data) {
            *code = bit.0;
        }
        self.netlist.read_enable = read_enable.0;
        self.netlist.write_enable = write_enable.0;
    }

    pub fn connect_second_port(&mut self, address: &[Bit], read_enable: Bit) {
        for (code, bit) in self.netlist.second_address.iter_mut().zip(address) {
            *code = bit.0;
        }
        self.netlist.second_read_enable = read_enable.0;
    }

    pub fn property(&mut self, property: Bit) {
        self.netlist.property = property.0;
    }

    /// The names that a run is shown by, in this order.
    pub fn show(&mut self, names: &[&'static str]) {
        self.shown = names.to_vec();
    }

    /// The sheet; a netlist that `frames` would refuse is a mistake of the chip's author.
    pub fn sheet(&self) -> Vec<u8> {
        self.netlist
            .check()
            .expect("a netlist within the limits");
        let mut sheet = write_sheet(&self.netlist);
        if self.start_unknown {
            // the third field of the second line, M
            let start = LINE_BYTES + 1 + 2 * FIELD_BYTES;
            sheet[start..start + FIELD_BYTES].fill(b' ');
        }
        sheet
    }

    /// One line for each name that is shown: the name, then its codes, the lowest bit first.
    pub fn names(&self) -> String {
        let codes = |word: Word| {
            word.iter()
                .map(|bit| format!(" {}", bit.0))
                .collect::<String>()
        };
        let lines = self
            .shown
            .iter()
            .map(|name| format!("{name}{}\n", codes(self.word(name))));
        lines.collect()
    }
}
