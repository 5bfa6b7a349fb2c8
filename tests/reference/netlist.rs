//! The netlist with one memory, and the tests of a record.
//! RULES W1 to W18, C8, C9, T39 and T54; the unknown start of K7, the tied address bits of K8 and the
//! second read port of K10.

use std::ops::{Range, RangeInclusive};

use super::refusal::{require, Refusal, CODE, MEMORY_LOOP, OUT_OF_ORDER, SIZE, TIED_ADDRESS};

/// Limit of V, and of each of I, L and A.
pub const MAX_WIRES: u32 = 600;
pub const MAX_ADDRESS_WIDTH: u32 = 12;
pub const MAX_DATA_WIDTH: u32 = 32;
pub const MAX_DEPTH: u32 = 255;

#[derive(Clone, Copy, Debug, PartialEq, Eq)]
pub struct Latch {
    pub next: u32,
    pub reset: u32,
}

#[derive(Clone, Copy, Debug, PartialEq, Eq)]
pub struct Gate {
    pub left: u32,
    pub right: u32,
}

/// The record and its two lists. Every number is raw: nothing is tested before `check`.
/// The lists may be longer or shorter than the sizes say, as lent lists may be.
#[derive(Clone, Debug, Default, PartialEq, Eq)]
pub struct Netlist {
    pub inputs: u32,
    pub latch_count: u32,
    pub gate_count: u32,
    pub address_width: u32,
    pub data_width: u32,
    pub start_word: u32,
    /// 0 where the start word is given, 1 where every word begins as anything: the start word is
    /// then neither tested nor used.
    pub unknown_start: u32,
    /// 0 for the record of an M sheet, 1 for that of a T sheet, which has a second read port; another
    /// number is refused.
    pub two_ports: u32,
    pub address: [u32; MAX_ADDRESS_WIDTH as usize],
    pub write_data: [u32; MAX_DATA_WIDTH as usize],
    pub write_enable: u32,
    pub read_enable: u32,
    pub property: u32,
    /// The second port's address and RE: unused where there is one port.
    pub second_address: [u32; MAX_ADDRESS_WIDTH as usize],
    pub second_read_enable: u32,
    pub latches: Vec<Latch>,
    pub gates: Vec<Gate>,
}

/// The kinds of lines of a sheet, in the order in which they stand (RULES S5 and S13).
#[derive(Clone, Copy, Debug, PartialEq, Eq)]
pub enum Kind {
    Sizes,
    Memory,
    /// Line 2 of a T sheet.
    TwoPortMemory,
    Latch,
    Gate,
    Address,
    WriteData,
    /// Of a T sheet alone, as is the second RE.
    SecondAddress,
    SecondReadEnable,
    Control,
}

/// The ports as K10 numbers them.
pub const FIRST_PORT: u32 = 1;
pub const SECOND_PORT: u32 = 2;

impl Netlist {
    /// V. Meaningful once I, L, A and n are known to be within their limits.
    pub fn wire_count(&self) -> u32 {
        self.inputs + self.latch_count + self.port_count() * self.data_width + self.gate_count
    }

    pub fn has_two_ports(&self) -> bool {
        self.two_ports == 1
    }

    pub fn port_count(&self) -> u32 {
        if self.has_two_ports() {
            SECOND_PORT
        } else {
            FIRST_PORT
        }
    }

    /// The ports there are, first port first.
    pub fn ports(&self) -> RangeInclusive<u32> {
        FIRST_PORT..=self.port_count()
    }

    /// Meaningful once line 2 is known to be within its limits.
    pub fn has_unknown_start(&self) -> bool {
        self.unknown_start == 1
    }

    pub fn first_latch(&self) -> u32 {
        self.inputs + 1
    }

    pub fn first_read_bit(&self) -> u32 {
        self.first_latch() + self.latch_count
    }

    /// The wires of a port's read bits, bit 0 first.
    pub fn read_bits(&self, port: u32) -> Range<u32> {
        let first = self.first_read_bit() + (port - FIRST_PORT) * self.data_width;
        first..first + self.data_width
    }

    pub fn first_gate(&self) -> u32 {
        self.first_read_bit() + self.port_count() * self.data_width
    }

    pub fn address_codes(&self) -> &[u32] {
        &self.address[..self.address_width as usize]
    }

    pub fn write_data_codes(&self) -> &[u32] {
        &self.write_data[..self.data_width as usize]
    }

    /// The codes of the first port's read-data wires, bit 0 first.
    pub fn read_data_codes(&self) -> Vec<u32> {
        self.read_data_codes_of(FIRST_PORT)
    }

    /// The codes of a port's read-data wires, bit 0 first.
    pub fn read_data_codes_of(&self, port: u32) -> Vec<u32> {
        self.read_bits(port).map(|wire| 2 * wire).collect()
    }

    /// The address codes by which a port reads.
    pub fn address_codes_of(&self, port: u32) -> &[u32] {
        match port {
            FIRST_PORT => self.address_codes(),
            _ => &self.second_address[..self.address_width as usize],
        }
    }

    pub fn read_enable_of(&self, port: u32) -> u32 {
        match port {
            FIRST_PORT => self.read_enable,
            _ => self.second_read_enable,
        }
    }

    /// How many lines of each kind the sheet of this record has.
    fn line_counts(&self) -> [(Kind, u32); 10] {
        let second = u32::from(self.has_two_ports());
        [
            (Kind::Sizes, 1),
            (Kind::Memory, 1 - second),
            (Kind::TwoPortMemory, second),
            (Kind::Latch, self.latch_count),
            (Kind::Gate, self.gate_count),
            (Kind::Address, self.address_width),
            (Kind::WriteData, self.data_width),
            (Kind::SecondAddress, second * self.address_width),
            (Kind::SecondReadEnable, second),
            (Kind::Control, 1),
        ]
    }

    pub fn line_count(&self) -> u32 {
        self.line_counts().iter().map(|(_, count)| count).sum()
    }

    /// The line due at a place (1 or more), with its index within its kind; none behind the last.
    pub fn line_at(&self, place: u32) -> Option<(Kind, usize)> {
        let mut index = place - 1;
        for (kind, count) in self.line_counts() {
            if index < count {
                return Some((kind, index as usize));
            }
            index -= count;
        }
        None
    }

    fn place_of(&self, kind: Kind, index: usize) -> u32 {
        let counts = self.line_counts();
        let earlier = counts.iter().take_while(|(other, _)| *other != kind);
        1 + index as u32 + earlier.map(|(_, count)| count).sum::<u32>()
    }

    /// The tests of a record in the order of RULES T54, with K8's: 4, 3, 5, 17, 6.
    pub fn check(&self) -> Result<(), Refusal> {
        self.check_line(1)?;
        self.check_line(2)?;
        self.check_lists()?;
        for place in 3..=self.line_count() {
            self.check_line(place)?;
        }
        self.check_ties()?;
        self.check_loop()
    }

    /// Refusal 4 or 5 at one line. Lines are to be tested in order: V is added up at line 2, and
    /// only line 1's test keeps that sum from overflowing. Behind the last line nothing is tested.
    pub fn check_line(&self, place: u32) -> Result<(), Refusal> {
        let (kind, index) = match self.line_at(place) {
            Some(line) => line,
            None => return Ok(()),
        };
        let number = match kind {
            Kind::Sizes | Kind::Memory | Kind::TwoPortMemory => SIZE,
            _ => CODE,
        };
        require(self.line_in_limits(kind, index), number, place)
    }

    fn line_in_limits(&self, kind: Kind, index: usize) -> bool {
        match kind {
            Kind::Sizes => self.counts_in_limits(),
            Kind::Memory | Kind::TwoPortMemory => self.memory_in_limits(),
            Kind::Latch => self.latch_in_limits(self.latches[index]),
            Kind::Gate => self.gate_in_limits(self.gates[index], index as u32),
            Kind::Address => self.is_code(self.address[index]),
            Kind::WriteData => self.is_code(self.write_data[index]),
            Kind::SecondAddress => self.is_code(self.second_address[index]),
            Kind::SecondReadEnable => self.is_code(self.second_read_enable),
            Kind::Control => [self.write_enable, self.read_enable, self.property]
                .iter()
                .all(|code| self.is_code(*code)),
        }
    }

    fn counts_in_limits(&self) -> bool {
        [self.inputs, self.latch_count, self.gate_count]
            .iter()
            .all(|count| *count <= MAX_WIRES)
    }

    /// The numbers of the M or T line, and V, which is tested at this line (RULES T36).
    fn memory_in_limits(&self) -> bool {
        (1..=MAX_ADDRESS_WIDTH).contains(&self.address_width)
            && (1..=MAX_DATA_WIDTH).contains(&self.data_width)
            && self.start_in_limits()
            && self.wire_count() <= MAX_WIRES
            && self.two_ports <= 1
    }

    /// A T sheet's start word must be given.
    fn start_in_limits(&self) -> bool {
        match self.unknown_start {
            0 => u64::from(self.start_word) < 1u64 << self.data_width,
            flag => flag == 1 && !self.has_two_ports(),
        }
    }

    fn is_code(&self, number: u32) -> bool {
        number <= 2 * self.wire_count() + 1
    }

    fn latch_in_limits(&self, latch: Latch) -> bool {
        self.is_code(latch.next) && latch.reset <= 1
    }

    /// Both operands below twice the gate's own wire, so gates can be worked out in wire order.
    fn gate_in_limits(&self, gate: Gate, index: u32) -> bool {
        let own_code = 2 * (self.first_gate() + index);
        gate.left < own_code && gate.right < own_code
    }

    /// Refusal 3 of a record: a lent list shorter than its size.
    fn check_lists(&self) -> Result<(), Refusal> {
        let enough = self.latches.len() >= self.latch_count as usize
            && self.gates.len() >= self.gate_count as usize;
        require(enough, OUT_OF_ORDER, 0)
    }

    /// For every wire, whether a read bit reaches it by wiring through gates, whatever the gates
    /// compute and not through latches. Entry 0 stands for the constants.
    pub fn read_dependence(&self) -> Vec<bool> {
        let mut depends = vec![false; self.first_read_bit() as usize];
        depends.resize(self.first_gate() as usize, true);
        for gate in &self.gates[..self.gate_count as usize] {
            let reached = depends[gate.left as usize / 2] || depends[gate.right as usize / 2];
            depends.push(reached);
        }
        depends
    }

    /// The kind of lines that have a port's address.
    fn address_kind(port: u32) -> Kind {
        match port {
            FIRST_PORT => Kind::Address,
            _ => Kind::SecondAddress,
        }
    }

    /// Refusal 17: at the first A line whose wire an earlier A line has, else at the first B line whose
    /// wire an earlier B line has. Constants are no wires.
    pub fn check_ties(&self) -> Result<(), Refusal> {
        for port in self.ports() {
            let codes = self.address_codes_of(port);
            for (index, code) in codes.iter().enumerate() {
                let mut earlier = codes[..index].iter();
                let tied = *code > 1 && earlier.any(|other| other / 2 == code / 2);
                let place = self.place_of(Netlist::address_kind(port), index);
                require(!tied, TIED_ADDRESS, place)?;
            }
        }
        Ok(())
    }

    /// Refusal 6: at the first A or B line concerned, else at the R line, else at the C line.
    pub fn check_loop(&self) -> Result<(), Refusal> {
        let depends = self.read_dependence();
        let is_free = |code: u32| !depends[code as usize / 2];
        for port in self.ports() {
            for (index, code) in self.address_codes_of(port).iter().enumerate() {
                let place = self.place_of(Netlist::address_kind(port), index);
                require(is_free(*code), MEMORY_LOOP, place)?;
            }
        }
        if self.has_two_ports() {
            let place = self.place_of(Kind::SecondReadEnable, 0);
            require(is_free(self.second_read_enable), MEMORY_LOOP, place)?;
        }
        let place = self.place_of(Kind::Control, 0);
        require(is_free(self.read_enable), MEMORY_LOOP, place)
    }
}
