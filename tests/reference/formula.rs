//! The formula of the unrolling to depth k: numbers of variables, groups of clauses, group calls,
//! heading, and the text of `frames`. RULES V2 to V6, G1 to G15, T40 to T43, P2 and P3; the
//! closing as K3 has it, what is written of every group as K4 has it, unknown starts (K7), and the
//! groups of a second port (K10).

use std::io::Write;
use std::ops::{Neg, RangeInclusive};

use super::netlist::{Netlist, FIRST_PORT, MAX_ADDRESS_WIDTH, MAX_DEPTH, MAX_WIRES, SECOND_PORT};
use super::refusal::{require, Refusal, DEPTH, NO_ROOM, NO_SUCH_GROUP};
use super::sheet::{read_depth, read_sheet, write_field};

/// Deliberate mistakes of a generator (RULES M1 to M5, two on K3, some on K4, some on K7, the last on
/// K10). They show that the checks notice them; `None` is the formula of the rules.
#[derive(Clone, Copy, Debug, PartialEq, Eq)]
pub enum Fault {
    None,
    /// A write is seen by a read of its own frame: pairs (i, i) are added.
    OwnFrameWrite,
    /// The oldest matching write instead of the newest: Z and PS run the wrong way.
    OldestWrite,
    /// WE of frame i is used where WE of frame j belongs.
    ReaderWriteEnable,
    /// Read bits are forced to 0 when RE is false.
    IdleReadsZero,
    /// Read bits are left free when RE is false, above frame 0 too.
    IdleReadsFree,
    /// RE of frame i - 1 is used where RE of frame i belongs, in the clauses that hold the word.
    HolderReadEnable,
    /// e is taken as settled: clauses are added that make it false where the bits differ.
    EqualitySettled,
    /// Constants stand in clauses as 1 and -1, and every clause is written: K4 is left out.
    ConstantsKept,
    /// A clause with a true literal is written, with 1 for it.
    TrueClauseWritten,
    /// A true literal is dropped from its clause as a false one is.
    TrueLiteralDropped,
    /// False literals are written as -1.
    FalseLiteralKept,
    /// A clause left empty is not written.
    EmptyClauseOmitted,
    /// A clause left empty is written as its end mark alone.
    EmptyClauseBare,
    /// The first clause, (1), is left out as one with a true literal.
    FirstClauseOmitted,
    /// The start bits are written as 1 and -1 in the closing.
    StartBitsKept,
    /// A clause with both signs of a wire is not written.
    BothSignsOmitted,
    /// Each pair of a frame is counted as the one with j = i - 1.
    NewestPairCounted,
    /// Two reads of one address that reach an unknown start need not agree.
    AgreementOmitted,
    /// Only reads of neighbouring frames must agree.
    AgreementOfNeighbours,
    /// A read that reaches the start must agree with every earlier frame at its address: Zj is left
    /// out.
    AgreementWithoutEarlier,
    /// Every frame at an address must agree with an earlier read that reaches the start: Zi is left
    /// out.
    AgreementWithoutLater,
    /// An unknown start is a start word of 0.
    UnknownStartsZero,
    /// The second port compares its own address of frame j, not the one that writes.
    SecondAddressWrites,
    /// Both ports compare the second address of frame j: it is the one that writes.
    WriteBySecondAddress,
    /// The second port compares the first address of frame i.
    SecondPortReadsFirst,
    /// The second port is enabled by the first port's RE.
    FirstReadEnable,
    /// The second port's chain begins with the first port's RE: N of its newest pair, and Z of frame 0.
    FirstEnableInChain,
    /// The second port holds the first port's word.
    FirstWordHeld,
    /// Each port holds the other's word.
    HeldWordsExchanged,
    /// The second port's Z is the first port's.
    FirstUntouched,
    /// The second port's N above the newest pair is the first port's PS.
    FirstPending,
    /// The second port has no groups.
    SecondPortOmitted,
    /// The second port is numbered behind all pairs of the first port in its frame.
    SecondPortBehind,
    /// All pairs of a frame come before those of the second port, as do the closings.
    PortByPort,
    /// Each pair and closing of the second port comes before the first port's.
    PortsExchanged,
}

#[derive(Clone, Copy, Debug, PartialEq, Eq)]
pub enum Group {
    Wires(u32),
    /// The pair (j, i): the write of frame j, the read of frame i.
    Pair(u32, u32),
    Closing(u32),
    Property,
}

/// A group as it is asked for. Wires and property take no port; theirs is not looked at.
#[derive(Clone, Copy, Debug, PartialEq, Eq)]
pub struct PortGroup {
    pub port: u32,
    pub group: Group,
}

impl PortGroup {
    pub fn first(group: Group) -> PortGroup {
        PortGroup {
            port: FIRST_PORT,
            group,
        }
    }

    pub fn second(group: Group) -> PortGroup {
        PortGroup {
            port: SECOND_PORT,
            group,
        }
    }
}

#[derive(Clone, Copy, Debug, PartialEq, Eq)]
pub struct Heading {
    pub variables: i64,
    pub clauses: i64,
}

/// B(i): the wires of frame i are numbered from B(i) + 1.
pub fn frame_base(netlist: &Netlist, frame: u32) -> i64 {
    base_of_sizes(netlist.wire_count(), pair_step(netlist), frame)
}

/// B(i) by V and by the variables of one pair of every port.
fn base_of_sizes(wires: u32, step: i64, frame: u32) -> i64 {
    let i = i64::from(frame);
    1 + i * i64::from(wires) + step * i * (i - 1) / 2
}

/// The largest variable of a sheet of either kind at any depth (K12): B(k + 1) grows with V, with m, with
/// the ports and with k, so it is that of all limits together.
pub fn largest_variable() -> i64 {
    let step = i64::from(SECOND_PORT * (MAX_ADDRESS_WIDTH + 4));
    base_of_sizes(MAX_WIRES, step, MAX_DEPTH + 1)
}

/// Q of the pair (j, i) of the first port: its variables are numbered from Q + 1.
pub fn pair_base(netlist: &Netlist, j: u32, i: u32) -> i64 {
    pair_base_of(netlist, FIRST_PORT, j, i)
}

/// Q of the pair (j, i) of a port; the second port's variables come straight after the first port's.
pub fn pair_base_of(netlist: &Netlist, port: u32, j: u32, i: u32) -> i64 {
    let wires = i64::from(netlist.wire_count());
    let first = frame_base(netlist, i) + wires + i64::from(j) * pair_step(netlist);
    first + i64::from(port - FIRST_PORT) * pair_size(netlist)
}

/// By how much Q grows with j: the variables of one pair of every port.
fn pair_step(netlist: &Netlist) -> i64 {
    i64::from(netlist.port_count()) * pair_size(netlist)
}

/// Variables of one pair of one port: E, m times e, s, PS and S.
pub fn pair_size(netlist: &Netlist) -> i64 {
    i64::from(netlist.address_width) + 4
}

/// Clauses of a group, of the first port. Those of the property do not depend on the depth.
pub fn clause_count(netlist: &Netlist, group: Group) -> i64 {
    counts(netlist, 0, PortGroup::first(group))[0]
}

/// Numbers of a group with end marks, of the first port: the exact need of its slice.
pub fn number_count(netlist: &Netlist, depth: u32, group: Group) -> i64 {
    counts(netlist, depth, PortGroup::first(group))[1]
}

/// Clauses and numbers of a group of a port, by which of its codes are constants; nothing is written
/// here.
pub fn counts(netlist: &Netlist, depth: u32, asked: PortGroup) -> [i64; 2] {
    match asked.group {
        Group::Wires(frame) => wires_counts(netlist, frame),
        Group::Pair(j, i) => pair_counts(netlist, asked.port, j, i),
        Group::Closing(i) => closing_counts(netlist, asked.port, i64::from(i)),
        Group::Property => match constant(netlist.property) {
            None => [1, i64::from(depth) + 2],
            Some(true) => [1, 2],
            Some(false) => [0, 0],
        },
    }
}

/// The value of a code that is a constant.
fn constant(code: u32) -> Option<bool> {
    (code < 2).then(|| code == 1)
}

fn total(parts: impl IntoIterator<Item = [i64; 2]>) -> [i64; 2] {
    let add = |[clauses, numbers]: [i64; 2], part: [i64; 2]| [clauses + part[0], numbers + part[1]];
    parts.into_iter().fold([0, 0], add)
}

fn times(count: i64, [clauses, numbers]: [i64; 2]) -> [i64; 2] {
    [count * clauses, count * numbers]
}

/// The three clauses of a gate, by its operands.
fn gate_counts(left: Option<bool>, right: Option<bool>) -> [i64; 2] {
    match (left, right) {
        (None, None) => [3, 10],
        (None, Some(true)) | (Some(true), None) => [2, 6],
        (None, Some(false)) | (Some(false), None) => [2, 5],
        (Some(false), Some(false)) => [2, 4],
        _ => [1, 2],
    }
}

fn wires_counts(netlist: &Netlist, frame: u32) -> [i64; 2] {
    let latches = &netlist.latches[..netlist.latch_count as usize];
    let gates = &netlist.gates[..netlist.gate_count as usize];
    let of_latch = |next: u32| match (frame, constant(next)) {
        (0, _) | (_, Some(_)) => [1, 2],
        (_, None) => [2, 6],
    };
    let first = if frame == 0 { [1, 2] } else { [0, 0] };
    let latches = total(latches.iter().map(|latch| of_latch(latch.next)));
    let gates = gates
        .iter()
        .map(|gate| gate_counts(constant(gate.left), constant(gate.right)));
    total([first, latches, total(gates)])
}

/// The four clauses of an address bit, by the bits that are compared.
fn address_counts(left: Option<bool>, right: Option<bool>) -> [i64; 2] {
    match (left, right) {
        (None, None) => [4, 16],
        // One clause with E and one with e have a true literal, the others lose a false one.
        (None, Some(_)) | (Some(_), None) => [2, 6],
        // Of two equal constants only e is left; of two different ones only the negated E.
        (Some(_), Some(_)) => [1, 2],
    }
}

/// N is RE where j = i - 1, else a variable; Zj is RE where j = 0, else a variable, as Zi always is.
fn pair_counts(netlist: &Netlist, port: u32, j: u32, i: u32) -> [i64; 2] {
    let of_data_bit = |code: &u32| match constant(*code) {
        None => [2, 8],
        Some(_) => [1, 3],
    };
    let read_enable = constant(netlist.read_enable_of(port));
    let newer = read_enable.filter(|_| i.checked_sub(1) == Some(j));
    let earlier = read_enable.filter(|_| j == 0);
    let agreement = match (netlist.has_unknown_start(), earlier) {
        (false, _) | (true, Some(false)) => [0, 0],
        (true, Some(true)) => [2, 10],
        (true, None) => [2, 12],
    };
    // The writing address is the first port's.
    let compared = netlist.address_codes().iter();
    let compared = compared.zip(netlist.address_codes_of(port));
    total([
        total(compared.map(|(j, i)| address_counts(constant(*j), constant(*i)))),
        [1, i64::from(netlist.address_width) + 2],
        gate_counts(None, constant(netlist.write_enable)),
        times(2, gate_counts(None, newer)),
        total(netlist.write_data_codes().iter().map(of_data_bit)),
        times(i64::from(netlist.data_width), agreement),
    ])
}

/// Of the two clauses with a start bit one has a true literal; an unknown start has none. In frame 0 Z
/// is RE.
fn closing_counts(netlist: &Netlist, port: u32, i: i64) -> [i64; 2] {
    let [start, hold, last] = match (constant(netlist.read_enable_of(port)), i) {
        (None, 0) => [[1, 3], [0, 0], [1, 3]],
        (None, _) => [[1, 3], [2, 8], [1, i + 3]],
        (Some(true), 0) => [[1, 2], [0, 0], [0, 0]],
        (Some(true), _) => [[1, 3], [0, 0], [1, i + 2]],
        (Some(false), 0) => [[0, 0], [0, 0], [0, 0]],
        (Some(false), _) => [[1, 3], [2, 6], [0, 0]],
    };
    let n = i64::from(netlist.data_width);
    let given = if netlist.has_unknown_start() { 0 } else { n };
    total([times(given, start), times(n, hold), last])
}

/// The closed form of K3 and K7, which counts constants too: no group of either port has more clauses.
pub fn clause_bound(netlist: &Netlist, group: Group) -> i64 {
    let [latches, gates, m, n] = sizes(netlist);
    let unknown = netlist.has_unknown_start();
    match group {
        Group::Wires(0) => 1 + latches + 3 * gates,
        Group::Wires(_) => 2 * latches + 3 * gates,
        Group::Pair(..) if unknown => 4 * m + 4 * n + 10,
        Group::Pair(..) => 4 * m + 2 * n + 10,
        Group::Closing(0) if unknown => 1,
        Group::Closing(_) if unknown => 2 * n + 1,
        Group::Closing(0) => 2 * n + 1,
        Group::Closing(_) => 4 * n + 1,
        Group::Property => 1,
    }
}

/// The closed form of K3 and K7, which counts constants too: no group of either port has more numbers.
pub fn number_bound(netlist: &Netlist, depth: u32, group: Group) -> i64 {
    let [latches, gates, m, n] = sizes(netlist);
    let unknown = netlist.has_unknown_start();
    match group {
        Group::Wires(0) => 2 + 2 * latches + 10 * gates,
        Group::Wires(_) => 6 * latches + 10 * gates,
        Group::Pair(..) if unknown => 17 * m + 20 * n + 32,
        Group::Pair(..) => 17 * m + 8 * n + 32,
        Group::Closing(0) if unknown => 3,
        Group::Closing(i) if unknown => 8 * n + i64::from(i) + 3,
        Group::Closing(0) => 8 * n + 3,
        Group::Closing(i) => 16 * n + i64::from(i) + 3,
        Group::Property => i64::from(depth) + 2,
    }
}

fn sizes(netlist: &Netlist) -> [i64; 4] {
    [
        netlist.latch_count,
        netlist.gate_count,
        netlist.address_width,
        netlist.data_width,
    ]
    .map(i64::from)
}

/// What a code is in a frame: a constant or a clause number.
#[derive(Clone, Copy, Debug, PartialEq, Eq)]
enum Literal {
    True,
    False,
    Number(i32),
}

impl Literal {
    fn constant(value: bool) -> Literal {
        if value {
            Literal::True
        } else {
            Literal::False
        }
    }
}

impl Neg for Literal {
    type Output = Literal;

    fn neg(self) -> Literal {
        match self {
            Literal::True => Literal::False,
            Literal::False => Literal::True,
            Literal::Number(number) => Literal::Number(-number),
        }
    }
}

/// Clauses as numbers, each clause followed by 0.
struct Clauses {
    numbers: Vec<i32>,
    fault: Fault,
}

impl Clauses {
    fn new(fault: Fault) -> Clauses {
        Clauses {
            numbers: Vec::new(),
            fault,
        }
    }

    /// A clause with a true literal is not written, false literals are dropped, and -1 stands for
    /// a clause left empty.
    fn clause(&mut self, literals: &[Literal]) {
        let true_number = match self.fault {
            Fault::ConstantsKept | Fault::TrueClauseWritten => Some(1),
            Fault::TrueLiteralDropped => None,
            _ if literals.contains(&Literal::True) => return,
            _ => None,
        };
        let false_number = match self.fault {
            Fault::ConstantsKept | Fault::FalseLiteralKept => Some(-1),
            _ => None,
        };
        let written = |literal: &Literal| match literal {
            Literal::True => true_number,
            Literal::False => false_number,
            Literal::Number(number) => Some(*number),
        };
        let mut clause: Vec<i32> = literals.iter().filter_map(written).collect();
        match self.fault {
            Fault::BothSignsOmitted if clause.iter().any(|it| clause.contains(&-it)) => return,
            Fault::EmptyClauseOmitted if clause.is_empty() => return,
            Fault::EmptyClauseBare => {}
            _ if clause.is_empty() => clause.push(-1),
            _ => {}
        }
        self.numbers.extend(clause);
        self.numbers.push(0);
    }

    /// g = a AND b.
    fn gate(&mut self, g: Literal, a: Literal, b: Literal) {
        self.clause(&[-g, a]);
        self.clause(&[-g, b]);
        self.clause(&[g, -a, -b]);
    }

    /// condition implies a = b.
    fn equal_if(&mut self, condition: Literal, a: Literal, b: Literal) {
        self.clause(&[-condition, -a, b]);
        self.clause(&[-condition, a, -b]);
    }
}

/// The variables of one pair under the names of RULES V5.
struct PairVariables {
    /// E: all address bits are equal.
    all_equal: Literal,
    /// e of each address bit.
    equal: Vec<Literal>,
    /// s: frame j writes the word that frame i addresses.
    matches: Literal,
    /// PS: frame i reads, and no frame from j on matches.
    pending: Literal,
    /// S: frame i reads, and frame j is the newest that matches.
    selected: Literal,
}

/// The formula of an accepted netlist to a depth of at most 255.
pub struct Formula<'a> {
    netlist: &'a Netlist,
    depth: u32,
    fault: Fault,
}

impl<'a> Formula<'a> {
    pub fn new(netlist: &'a Netlist, depth: u32, fault: Fault) -> Formula<'a> {
        Formula {
            netlist,
            depth,
            fault,
        }
    }

    /// B(k + 1); the pairs (i, i) of `OwnFrameWrite` are numbered behind it.
    pub fn variable_count(&self) -> i64 {
        let own_pairs = match self.fault {
            Fault::OwnFrameWrite => i64::from(self.depth + 1),
            _ => 0,
        };
        frame_base(self.netlist, self.depth + 1) + own_pairs * pair_step(self.netlist)
    }

    /// Clauses and numbers counted for a group, of the first port, before it is written.
    pub fn counts(&self, group: Group) -> [i64; 2] {
        self.port_counts(PortGroup::first(group))
    }

    /// Clauses and numbers counted for a group of a port before it is written.
    pub fn port_counts(&self, asked: PortGroup) -> [i64; 2] {
        let group = match (self.fault, asked.group) {
            (Fault::NewestPairCounted, Group::Pair(_, i)) => Group::Pair(i - 1, i),
            (_, group) => group,
        };
        counts(self.netlist, self.depth, PortGroup { group, ..asked })
    }

    /// The clauses of the heading.
    pub fn clause_total(&self) -> i64 {
        let ports = match self.fault {
            // The groups left out are counted.
            Fault::SecondPortOmitted => self.netlist.ports(),
            _ => self.written_ports(),
        };
        let groups = self.groups_of_ports(ports).into_iter();
        groups.map(|asked| self.port_counts(asked)[0]).sum()
    }

    /// All groups of the first port in their order, with wires and property: all there are in an M
    /// sheet.
    pub fn groups(&self) -> Vec<Group> {
        let groups = self.groups_of_ports(FIRST_PORT..=FIRST_PORT);
        groups.into_iter().map(|asked| asked.group).collect()
    }

    /// All groups in the order of the whole: each pair and closing of the first port is followed by
    /// that of the second.
    pub fn port_groups(&self) -> Vec<PortGroup> {
        self.groups_of_ports(self.written_ports())
    }

    fn written_ports(&self) -> RangeInclusive<u32> {
        match self.fault {
            Fault::SecondPortOmitted => FIRST_PORT..=FIRST_PORT,
            _ => self.netlist.ports(),
        }
    }

    fn groups_of_ports(&self, ports: RangeInclusive<u32>) -> Vec<PortGroup> {
        let mut groups = Vec::new();
        for i in 0..=self.depth {
            groups.push(PortGroup::first(Group::Wires(i)));
            let pairs = (0..self.writers(i)).rev().map(|j| Group::Pair(j, i));
            let of_memory: Vec<Group> = pairs.chain([Group::Closing(i)]).collect();
            let of_port = |port: u32| {
                let groups = of_memory.iter();
                groups.map(move |group| PortGroup {
                    port,
                    group: *group,
                })
            };
            match self.fault {
                Fault::PortByPort => groups.extend(ports.clone().flat_map(of_port)),
                Fault::PortsExchanged => groups.extend(of_memory.iter().flat_map(|group| {
                    let group = *group;
                    ports
                        .clone()
                        .rev()
                        .map(move |port| PortGroup { port, group })
                })),
                _ => groups.extend(of_memory.iter().flat_map(|group| {
                    let group = *group;
                    ports.clone().map(move |port| PortGroup { port, group })
                })),
            }
        }
        groups.push(PortGroup::first(Group::Property));
        groups
    }

    /// The clauses of one group, of the first port.
    pub fn group(&self, group: Group) -> Vec<i32> {
        self.port_group(PortGroup::first(group))
    }

    /// The clauses of one group of a port.
    pub fn port_group(&self, asked: PortGroup) -> Vec<i32> {
        match asked.group {
            Group::Wires(i) => self.wires(i),
            Group::Pair(j, i) => self.pair(asked.port, j, i),
            Group::Closing(i) => self.closing(asked.port, i),
            Group::Property => self.property(),
        }
    }

    /// The clauses of all groups, joined.
    pub fn numbers(&self) -> Vec<i32> {
        let groups = self.port_groups();
        groups
            .into_iter()
            .flat_map(|asked| self.port_group(asked))
            .collect()
    }

    /// How many frames, from frame 0 on, have writes that the read of frame i sees: only j < i.
    fn writers(&self, i: u32) -> u32 {
        match self.fault {
            Fault::OwnFrameWrite => i + 1,
            _ => i,
        }
    }

    /// A code put into a frame.
    fn literal(&self, code: u32, frame: u32) -> Literal {
        let positive = match code / 2 {
            0 => Literal::False,
            wire => number(frame_base(self.netlist, frame) + i64::from(wire)),
        };
        if code % 2 == 0 {
            positive
        } else {
            -positive
        }
    }

    fn pair_variables(&self, port: u32, j: u32, i: u32) -> PairVariables {
        let base = if self.fault == Fault::SecondPortBehind {
            let before = i64::from((port - FIRST_PORT) * i + j);
            let pairs = frame_base(self.netlist, i) + i64::from(self.netlist.wire_count());
            pairs + before * pair_size(self.netlist)
        } else if j < i {
            pair_base_of(self.netlist, port, j, i)
        } else {
            let end = frame_base(self.netlist, self.depth + 1);
            let first = end + i64::from(i) * pair_step(self.netlist);
            first + i64::from(port - FIRST_PORT) * pair_size(self.netlist)
        };
        let m = i64::from(self.netlist.address_width);
        PairVariables {
            all_equal: number(base + 1),
            equal: (0..m).map(|bit| number(base + 2 + bit)).collect(),
            matches: number(base + m + 2),
            pending: number(base + m + 3),
            selected: number(base + m + 4),
        }
    }

    fn wires(&self, frame: u32) -> Vec<i32> {
        let mut clauses = Clauses::new(self.fault);
        if frame == 0 && self.fault != Fault::FirstClauseOmitted {
            clauses.clause(&[number(1)]);
        }
        self.latch_clauses(&mut clauses, frame);
        self.gate_clauses(&mut clauses, frame);
        clauses.numbers
    }

    fn latch_clauses(&self, clauses: &mut Clauses, frame: u32) {
        let latches = &self.netlist.latches[..self.netlist.latch_count as usize];
        for (wire, latch) in (self.netlist.first_latch()..).zip(latches) {
            let q = self.literal(2 * wire, frame);
            if frame == 0 {
                clauses.clause(&[if latch.reset == 0 { -q } else { q }]);
            } else {
                let next = self.literal(latch.next, frame - 1);
                clauses.clause(&[-q, next]);
                clauses.clause(&[q, -next]);
            }
        }
    }

    fn gate_clauses(&self, clauses: &mut Clauses, frame: u32) {
        let gates = &self.netlist.gates[..self.netlist.gate_count as usize];
        for (wire, gate) in (self.netlist.first_gate()..).zip(gates) {
            clauses.gate(
                self.literal(2 * wire, frame),
                self.literal(gate.left, frame),
                self.literal(gate.right, frame),
            );
        }
    }

    fn pair(&self, port: u32, j: u32, i: u32) -> Vec<i32> {
        let pair = self.pair_variables(port, j, i);
        let mut clauses = Clauses::new(self.fault);
        self.address_clauses(&mut clauses, &pair, port, j, i);
        self.select_clauses(&mut clauses, &pair, port, j, i);
        let read_data = self.netlist.read_data_codes_of(port);
        for (read, write) in read_data.iter().zip(self.netlist.write_data_codes()) {
            let (read, write) = (self.literal(*read, i), self.literal(*write, j));
            clauses.equal_if(pair.selected, read, write);
        }
        if self.netlist.has_unknown_start() {
            self.agreement_clauses(&mut clauses, &pair, j, i);
        }
        clauses.numbers
    }

    /// Where both frames read the start of one address, both read the same word. An M sheet's alone.
    fn agreement_clauses(&self, clauses: &mut Clauses, pair: &PairVariables, j: u32, i: u32) {
        let (zj, zi) = (self.untouched(FIRST_PORT, j), self.untouched(FIRST_PORT, i));
        let conditions = match self.fault {
            Fault::AgreementOmitted | Fault::UnknownStartsZero => return,
            Fault::AgreementOfNeighbours if j + 1 < i => return,
            Fault::AgreementWithoutEarlier => vec![pair.all_equal, zi],
            Fault::AgreementWithoutLater => vec![pair.all_equal, zj],
            _ => vec![pair.all_equal, zj, zi],
        };
        let unless: Vec<Literal> = conditions.iter().map(|it| -*it).collect();
        for code in self.netlist.read_data_codes() {
            let (rdi, rdj) = (self.literal(code, i), self.literal(code, j));
            clauses.clause(&[unless.as_slice(), &[-rdi, rdj]].concat());
            clauses.clause(&[unless.as_slice(), &[rdi, -rdj]].concat());
        }
    }

    /// Four clauses for each address bit, bit by bit, then the clause that ends in E. The first address
    /// of frame j is the one that writes, the port's address of frame i the one that reads.
    fn address_clauses(
        &self,
        clauses: &mut Clauses,
        pair: &PairVariables,
        port: u32,
        j: u32,
        i: u32,
    ) {
        let [writing, reading] = match self.fault {
            Fault::SecondAddressWrites => [port, port],
            Fault::WriteBySecondAddress => [self.netlist.port_count(), port],
            Fault::SecondPortReadsFirst => [FIRST_PORT, FIRST_PORT],
            _ => [FIRST_PORT, port],
        };
        let writing = self.netlist.address_codes_of(writing).iter();
        let reading = self.netlist.address_codes_of(reading);
        for ((written, read), e) in writing.zip(reading).zip(&pair.equal) {
            let (aj, ai) = (self.literal(*written, j), self.literal(*read, i));
            clauses.clause(&[-pair.all_equal, aj, -ai]);
            clauses.clause(&[-pair.all_equal, -aj, ai]);
            clauses.clause(&[*e, aj, ai]);
            clauses.clause(&[*e, -aj, -ai]);
            if self.fault == Fault::EqualitySettled {
                clauses.equal_if(*e, aj, ai);
            }
        }
        let mut last: Vec<Literal> = pair.equal.iter().map(|e| -*e).collect();
        last.push(pair.all_equal);
        clauses.clause(&last);
    }

    fn select_clauses(
        &self,
        clauses: &mut Clauses,
        pair: &PairVariables,
        port: u32,
        j: u32,
        i: u32,
    ) {
        let enable_frame = match self.fault {
            Fault::ReaderWriteEnable => i,
            _ => j,
        };
        let write_enable = self.literal(self.netlist.write_enable, enable_frame);
        let newer = self.pending_before(port, j, i);
        clauses.gate(pair.matches, pair.all_equal, write_enable);
        clauses.gate(pair.pending, -pair.matches, newer);
        clauses.gate(pair.selected, pair.matches, newer);
    }

    /// RE of a port in a frame.
    fn read_enable(&self, port: u32, i: u32) -> Literal {
        let port = match self.fault {
            Fault::FirstReadEnable => FIRST_PORT,
            _ => port,
        };
        self.literal(self.netlist.read_enable_of(port), i)
    }

    /// N of the pair (j, i): PS of the next newer pair, or RE of frame i at the newest.
    fn pending_before(&self, port: u32, j: u32, i: u32) -> Literal {
        let neighbour = match self.fault {
            Fault::OldestWrite => j.checked_sub(1),
            _ => Some(j + 1).filter(|newer| *newer < self.writers(i)),
        };
        let pending_port = match self.fault {
            Fault::FirstPending => FIRST_PORT,
            _ => port,
        };
        match neighbour {
            Some(other) => self.pair_variables(pending_port, other, i).pending,
            None => self.read_enable_in_chain(port, i),
        }
    }

    /// RE of a port where its chain begins: at the newest pair, or as Z of frame 0.
    fn read_enable_in_chain(&self, port: u32, i: u32) -> Literal {
        let port = match self.fault {
            Fault::FirstEnableInChain => FIRST_PORT,
            _ => port,
        };
        self.read_enable(port, i)
    }

    /// Z of frame i: PS of the pair (0, i), or RE when there is no pair.
    fn untouched(&self, port: u32, i: u32) -> Literal {
        let port = match self.fault {
            Fault::FirstUntouched => FIRST_PORT,
            _ => port,
        };
        match (self.writers(i), self.fault) {
            (0, _) => self.read_enable_in_chain(port, i),
            (writers, Fault::OldestWrite) => self.pair_variables(port, writers - 1, i).pending,
            _ => self.pair_variables(port, 0, i).pending,
        }
    }

    fn closing(&self, port: u32, i: u32) -> Vec<i32> {
        let mut clauses = Clauses::new(self.fault);
        let read_enable = self.read_enable(port, i);
        let untouched = self.untouched(port, i);
        for (bit, code) in self.netlist.read_data_codes_of(port).iter().enumerate() {
            let read = self.literal(*code, i);
            let given = !self.netlist.has_unknown_start();
            let start_bit = given && (self.netlist.start_word >> bit) & 1 == 1;
            let start_literal = match self.fault {
                Fault::StartBitsKept if start_bit => number(1),
                Fault::StartBitsKept => -number(1),
                _ => Literal::constant(start_bit),
            };
            if given || self.fault == Fault::UnknownStartsZero {
                clauses.equal_if(untouched, read, start_literal);
            }
            if self.fault == Fault::IdleReadsZero {
                clauses.clause(&[read_enable, -read]);
            }
        }
        self.hold_clauses(&mut clauses, port, i);
        let mut last = vec![-read_enable, untouched];
        last.extend((0..self.writers(i)).map(|j| self.pair_variables(port, j, i).selected));
        clauses.clause(&last);
        clauses.numbers
    }

    /// Above frame 0: where the port's RE is false, its read bits are those of the frame before.
    fn hold_clauses(&self, clauses: &mut Clauses, port: u32, i: u32) {
        if i == 0 || self.fault == Fault::IdleReadsFree {
            return;
        }
        let enable_frame = match self.fault {
            Fault::HolderReadEnable => i - 1,
            _ => i,
        };
        let held_port = match self.fault {
            Fault::FirstWordHeld => FIRST_PORT,
            Fault::HeldWordsExchanged => FIRST_PORT + self.netlist.port_count() - port,
            _ => port,
        };
        let idle = -self.read_enable(port, enable_frame);
        let held = self.netlist.read_data_codes_of(held_port);
        for (code, held) in self.netlist.read_data_codes_of(port).iter().zip(held) {
            clauses.equal_if(idle, self.literal(*code, i), self.literal(held, i - 1));
        }
    }

    fn property(&self) -> Vec<i32> {
        let property = self.netlist.property;
        let broken: Vec<Literal> = (0..=self.depth)
            .map(|i| -self.literal(property, i))
            .collect();
        let mut clauses = Clauses::new(self.fault);
        clauses.clause(&broken);
        clauses.numbers
    }
}

/// A variable's literal; see `largest_variable`.
fn number(variable: i64) -> Literal {
    Literal::Number(i32::try_from(variable).expect("a variable number within the bound"))
}

/// Whether there is this group of an accepted netlist: the port, the frame and the pair.
pub fn group_exists(netlist: &Netlist, depth: u32, asked: PortGroup) -> bool {
    let has_port = netlist.ports().contains(&asked.port);
    match asked.group {
        Group::Wires(i) => i <= depth,
        Group::Closing(i) => has_port && i <= depth,
        Group::Pair(j, i) => has_port && i <= depth && j < i,
        Group::Property => true,
    }
}

/// A group call for the first port with a lent slice of `room` numbers: the record's tests, then 7, 8,
/// 9. The result is what is written; its length is the count.
pub fn group_call(
    netlist: &Netlist,
    depth: u32,
    group: Group,
    room: usize,
) -> Result<Vec<i32>, Refusal> {
    port_group_call(netlist, depth, PortGroup::first(group), room)
}

/// The same for a port; one that the netlist does not have is 8.
pub fn port_group_call(
    netlist: &Netlist,
    depth: u32,
    asked: PortGroup,
    room: usize,
) -> Result<Vec<i32>, Refusal> {
    netlist.check()?;
    require(depth <= MAX_DEPTH, DEPTH, 0)?;
    require(group_exists(netlist, depth, asked), NO_SUCH_GROUP, 0)?;
    let need = counts(netlist, depth, asked)[1];
    require(room as u64 >= need as u64, NO_ROOM, 0)?;
    Ok(Formula::new(netlist, depth, Fault::None).port_group(asked))
}

/// The heading call: the record's tests, then 7.
pub fn heading(netlist: &Netlist, depth: u32) -> Result<Heading, Refusal> {
    netlist.check()?;
    require(depth <= MAX_DEPTH, DEPTH, 0)?;
    let formula = Formula::new(netlist, depth, Fault::None);
    Ok(Heading {
        variables: formula.variable_count(),
        clauses: formula.clause_total(),
    })
}

/// What `frames` prints for this standard input.
pub fn frames(input: &[u8]) -> Vec<u8> {
    formula_text(input).unwrap_or_else(refusal_text)
}

fn formula_text(input: &[u8]) -> Result<Vec<u8>, Refusal> {
    let (depth, sheet) = read_depth(input)?;
    // The program's lists have room for every accepted sheet, so 9 does not occur.
    let netlist = read_sheet(sheet, usize::MAX, usize::MAX)?;
    let Heading { variables, clauses } = heading(&netlist, depth)?;
    let mut text = header_text(variables, clauses);
    let formula = Formula::new(&netlist, depth, Fault::None);
    for asked in formula.port_groups() {
        text.extend(clauses_text(&formula.port_group(asked)));
    }
    Ok(text)
}

/// `p cnf`, variables, clauses.
pub fn header_text(variables: i64, clauses: i64) -> Vec<u8> {
    format!("p cnf {variables} {clauses}\n").into_bytes()
}

/// One clause a line, single spaces.
pub fn clauses_text(numbers: &[i32]) -> Vec<u8> {
    let mut text = Vec::new();
    for number in numbers {
        let end = if *number == 0 { '\n' } else { ' ' };
        write!(text, "{number}{end}").expect("writing into memory");
    }
    text
}

/// `refused`, number and place as fields, nothing between.
pub fn refusal_text(refusal: Refusal) -> Vec<u8> {
    let Refusal { number, place } = refusal;
    format!("refused{}{}\n", write_field(number), write_field(place)).into_bytes()
}
