//! Literals that say where a word that is read comes from (RULES L15 and T56) through the static library: by hand, against the second
//! implementation's numbering, and against the groups that the library's calls write.

use super::calls::{differ, record_rows};
use super::exports::{asked_for, parameters, Answer, Lists, Numbers};
use super::literals::{literals, written};
use super::mutate::wide;
use super::positions::{ON, START};
use super::reference::check_examples::{accepted, FULL_RUN, RICH, UNKNOWN_RICH};
use super::reference::check_ports::{CONSTANT_READS, TWO_RICH};
use super::reference::check_position::position_of;
use super::reference::formula::{group_exists, Group, PortGroup};
use super::reference::netlist::{Netlist, FIRST_PORT, MAX_DEPTH, SECOND_PORT};
use super::reference::one_write::{source_variables, Source};
use super::reference::random::Random;
use super::reference::refusal::*;
use super::reference::Tally;
use super::{Counts, Library};

/// The kinds that have a source, and those that have none.
const PAIR: u32 = 1;
const CLOSING: u32 = 2;
const SOURCELESS: [u32; 4] = [0, 3, 4, u32::MAX];

/// A depth, a group by kind, j, i and port, and its literal or the number of the refusal.
type Row = (u32, Numbers, Result<i32, u32>);

/// Of `FULL_RUN`: V = 2 and m = 1, so B is 1, 3, 10 and, in frame 255, 162,436. RE is code 1.
const OF_FULL_RUN: [Row; 35] = [
    // Z of frame 0 is RE, true here.
    (0, (CLOSING, 0, 0, 1), Ok(1)),
    (255, (CLOSING, 7, 0, 1), Ok(1)),
    // Q of the pair (0, 1) is 5.
    (1, (PAIR, 0, 1, 1), Ok(10)),
    (1, (CLOSING, 0, 1, 1), Ok(9)),
    (255, (PAIR, 0, 1, 1), Ok(10)),
    // j does not count for a closing.
    (1, (CLOSING, u32::MAX, 1, 1), Ok(9)),
    // Q of the pairs (0, 2) and (1, 2) is 12 and 17.
    (2, (PAIR, 0, 2, 1), Ok(17)),
    (2, (PAIR, 1, 2, 1), Ok(22)),
    (2, (CLOSING, 1, 2, 1), Ok(16)),
    // The last pair of all has the last variable of all.
    (255, (PAIR, 254, 255, 1), Ok(163_713)),
    (255, (PAIR, 0, 255, 1), Ok(162_443)),
    (255, (CLOSING, 0, 255, 1), Ok(162_442)),
    (256, (CLOSING, 0, 0, 1), Err(DEPTH)),
    (u32::MAX, (PAIR, 0, 1, 1), Err(DEPTH)),
    // Wires, the property and what is no kind have no source.
    (1, (0, 0, 0, 1), Err(NO_SUCH_GROUP)),
    (1, (0, 0, 1, 1), Err(NO_SUCH_GROUP)),
    (1, (3, 0, 0, 1), Err(NO_SUCH_GROUP)),
    (1, (3, 0, 1, 1), Err(NO_SUCH_GROUP)),
    (1, (4, 0, 1, 1), Err(NO_SUCH_GROUP)),
    (1, (u32::MAX, 0, 1, 1), Err(NO_SUCH_GROUP)),
    // A frame above the depth; j not below i.
    (0, (PAIR, 0, 1, 1), Err(NO_SUCH_GROUP)),
    (0, (CLOSING, 0, 1, 1), Err(NO_SUCH_GROUP)),
    (255, (CLOSING, 0, 256, 1), Err(NO_SUCH_GROUP)),
    (2, (PAIR, 1, 1, 1), Err(NO_SUCH_GROUP)),
    (2, (PAIR, 2, 1, 1), Err(NO_SUCH_GROUP)),
    (2, (PAIR, 0, 0, 1), Err(NO_SUCH_GROUP)),
    (2, (PAIR, u32::MAX, 2, 1), Err(NO_SUCH_GROUP)),
    // An M sheet has port 1 alone.
    (1, (PAIR, 0, 1, 0), Err(NO_SUCH_GROUP)),
    (1, (PAIR, 0, 1, 2), Err(NO_SUCH_GROUP)),
    (1, (CLOSING, 0, 0, 0), Err(NO_SUCH_GROUP)),
    (1, (CLOSING, 0, 1, 2), Err(NO_SUCH_GROUP)),
    (1, (CLOSING, 0, 1, 3), Err(NO_SUCH_GROUP)),
    (1, (CLOSING, 0, 1, u32::MAX), Err(NO_SUCH_GROUP)),
    // Two at once: 7, then 8.
    (256, (0, 0, 0, 0), Err(DEPTH)),
    (u32::MAX, (PAIR, u32::MAX, u32::MAX, u32::MAX), Err(DEPTH)),
];

/// Of `RICH`, and with an unknown start: V = 5 and m = 2, so B is 1, 6 and 17; Q is 11 of the pair (0, 1), 22 and 28 of (0, 2) and (1, 2). RE is
/// code 5, the inverted wire 2.
const OF_RICH: [Row; 7] = [
    (2, (CLOSING, 0, 0, 1), Ok(-3)),
    (2, (PAIR, 0, 1, 1), Ok(17)),
    (2, (CLOSING, 0, 1, 1), Ok(16)),
    (2, (PAIR, 0, 2, 1), Ok(28)),
    (2, (PAIR, 1, 2, 1), Ok(34)),
    (2, (CLOSING, 0, 2, 1), Ok(27)),
    (2, (CLOSING, 0, 2, 2), Err(NO_SUCH_GROUP)),
];

/// Of `TWO_RICH`: V = 7 and m = 2, so B is 1, 8, 27 and, in frame 255, 390,406. The pair (0, 1) of each port is 16 to 21 and 22 to 27, (0, 2) is 35 to
/// 40 and 41 to 46, (1, 2) 47 to 52 and 53 to 58. RE is code 5, that of the second port code 4: wire 2 in both.
const OF_TWO_RICH: [Row; 19] = [
    (2, (CLOSING, 0, 0, 1), Ok(-3)),
    (2, (CLOSING, 0, 0, 2), Ok(3)),
    (2, (PAIR, 0, 1, 1), Ok(21)),
    (2, (PAIR, 0, 1, 2), Ok(27)),
    (2, (CLOSING, 0, 1, 1), Ok(20)),
    (2, (CLOSING, 0, 1, 2), Ok(26)),
    (2, (PAIR, 0, 2, 1), Ok(40)),
    (2, (PAIR, 0, 2, 2), Ok(46)),
    (2, (PAIR, 1, 2, 1), Ok(52)),
    (2, (PAIR, 1, 2, 2), Ok(58)),
    (2, (CLOSING, 0, 2, 1), Ok(39)),
    (2, (CLOSING, 0, 2, 2), Ok(45)),
    (255, (PAIR, 254, 255, 2), Ok(393_473)),
    (255, (CLOSING, 0, 255, 2), Ok(390_424)),
    (2, (PAIR, 0, 1, 0), Err(NO_SUCH_GROUP)),
    (2, (PAIR, 0, 1, 3), Err(NO_SUCH_GROUP)),
    (2, (CLOSING, 0, 0, 3), Err(NO_SUCH_GROUP)),
    (2, (PAIR, 1, 1, 2), Err(NO_SUCH_GROUP)),
    (256, (CLOSING, 0, 0, 3), Err(DEPTH)),
];

/// Both RE of `CONSTANT_READS` are true.
const OF_CONSTANT_READS: [Row; 4] = [
    (1, (CLOSING, 0, 0, 1), Ok(1)),
    (1, (CLOSING, 0, 0, 2), Ok(1)),
    (1, (PAIR, 0, 1, 2), Ok(17)),
    (1, (CLOSING, 0, 1, 2), Ok(16)),
];

impl Library {
    /// What the call answers; counted.
    fn source(&self, lists: &Lists, depth: u32, of: Numbers) -> Answer<i32> {
        let found = lists.source_literal(depth, of);
        Counts::add(&self.sources, &found);
        found
    }

    pub fn source_agrees(&self, tally: &mut Tally, netlist: &Netlist, depth: u32, of: Numbers) {
        let found = self.source(&Lists::new(netlist), depth, of);
        let due = Ok(due(netlist, depth, of));
        tally.check_with((depth, of), found == due, || differ(netlist, &found, &due));
    }
}

/// RULES T56: 4, then 7, 8, then 5 of the port's RE; the rest is the second implementation's numbering of Z and S, with RE for frame 0's Z.
fn due(netlist: &Netlist, depth: u32, of: Numbers) -> Result<i32, Refusal> {
    netlist.check_line(1)?;
    netlist.check_line(2)?;
    require(depth <= MAX_DEPTH, DEPTH, 0)?;
    let asked = asked_for(of);
    let (source, frame) = match asked.group {
        Group::Pair(j, i) => (Source::Write(j), i),
        Group::Closing(i) => (Source::Start, i),
        Group::Wires(_) | Group::Property => return require(false, NO_SUCH_GROUP, 0).map(|()| 0),
    };
    require(group_exists(netlist, depth, asked), NO_SUCH_GROUP, 0)?;
    let read_enable = netlist.read_enable_of(asked.port);
    require(read_enable <= 2 * netlist.wire_count() + 1, CODE, 0)?;
    let variables = source_variables(netlist, (asked.port, frame));
    let variable = variables.into_iter().find(|it| it.0 == source);
    Ok(match (variable, read_enable) {
        (Some((_, variable)), _) => variable as i32,
        // Frame 0: wire w of it is variable w + 1.
        (None, 0) => -1,
        (None, 1) => 1,
        (None, code) if code % 2 == 0 => code as i32 / 2 + 1,
        (None, code) => -(code as i32 / 2) - 1,
    })
}

/// The rows; every RE in frame 0, up to the first code that is none; and every record of the table of records, of which only 4, and 5 of the
/// port's RE, are tested.
pub fn tables(library: &Library, tally: &mut Tally) {
    let tables = [
        (FULL_RUN, &OF_FULL_RUN[..]),
        (RICH, &OF_RICH[..]),
        (UNKNOWN_RICH, &OF_RICH[..]),
        (TWO_RICH, &OF_TWO_RICH[..]),
        (CONSTANT_READS, &OF_CONSTANT_READS[..]),
    ];
    for (short, rows) in tables {
        let netlist = accepted(short);
        let lists = Lists::new(&netlist);
        for (depth, of, expected) in rows {
            let expected = expected.map_err(|number| Refusal { number, place: 0 });
            let found = library.source(&lists, *depth, *of);
            tally.equal((short, depth, of), found, Ok(expected));
            library.source_agrees(tally, &netlist, *depth, *of);
        }
    }
    read_enables(library, tally);
    for (name, record, (number, place)) in record_rows() {
        let found = library.source(&Lists::new(&record), 2, (PAIR, 0, 1, 1));
        let size = (number == SIZE).then_some(Refusal { number, place });
        let found = found.map(|it| it.err().filter(|it| it.number == SIZE));
        tally.equal((name, "4 or not"), found, Ok(size));
        for depth in [2, 256] {
            for kind in [PAIR, CLOSING, 0, 9] {
                for (j, i, port) in [(0, 1, 1), (0, 2, 2), (0, 0, 1), (3, 3, 1), (0, 1, 3)] {
                    library.source_agrees(tally, &record, depth, (kind, j, i, port));
                }
            }
        }
    }
}

/// RE of each port by itself: 0, 1, both codes of the last wire, and the first that is none. 7 and 8 come before 5, also of wires and the property.
fn read_enables(library: &Library, tally: &mut Tally) {
    // V is 7, so the codes are 0 to 15.
    let codes = [
        (0, Ok(-1)),
        (1, Ok(1)),
        (2, Ok(2)),
        (3, Ok(-2)),
        (14, Ok(8)),
        (15, Ok(-8)),
        (16, Err(CODE)),
        (1 << 31, Err(CODE)),
        (u32::MAX, Err(CODE)),
    ];
    for (code, first) in codes {
        for port in [FIRST_PORT, SECOND_PORT] {
            let mut record = accepted(TWO_RICH);
            let enable = match port {
                FIRST_PORT => &mut record.read_enable,
                _ => &mut record.second_read_enable,
            };
            *enable = code;
            let lists = Lists::new(&record);
            let refusal = |number| Refusal { number, place: 0 };
            let of_variable = |variable: i32| first.map(|_| variable).map_err(refusal);
            let ahead = 6 * (port as i32 - 1);
            let other = FIRST_PORT + SECOND_PORT - port;
            let rows = [
                (2, (CLOSING, 0, 0, port), first.map_err(refusal)),
                (2, (CLOSING, 0, 1, port), of_variable(20 + ahead)),
                (2, (PAIR, 0, 1, port), of_variable(21 + ahead)),
                // the other port's RE is not looked at
                (2, (CLOSING, 0, 0, other), Ok(if other == 1 { -3 } else { 3 })),
                (2, (PAIR, 0, 1, other), Ok(27 - ahead)),
                (2, (PAIR, 1, 1, port), Err(refusal(NO_SUCH_GROUP))),
                (2, (CLOSING, 0, 3, port), Err(refusal(NO_SUCH_GROUP))),
                (256, (PAIR, 0, 1, port), Err(refusal(DEPTH))),
            ];
            for (depth, of, expected) in rows {
                tally.equal((code, depth, of), library.source(&lists, depth, of), Ok(expected));
            }
            for kind in SOURCELESS {
                let found = library.source(&lists, 2, (kind, 0, 1, port));
                tally.equal((code, kind), found, Ok(Err(refusal(NO_SUCH_GROUP))));
            }
        }
    }
}

/// All pairs and closings of random records of both kinds, and some of the deepest.
pub fn random(library: &Library, tally: &mut Tally) {
    let mut random = Random::new(1501);
    for round in 0..300 {
        let netlist = wide(&mut random);
        let depth = random.pick(&[0, 1, 2, 4, 9, 255]);
        for port in netlist.ports() {
            let some = [0, 1, random.below(256), random.below(256), 254, 255];
            for frame in (0..=depth).filter(|it| depth < 10 || some.contains(it)) {
                let of = |group| parameters(PortGroup { port, group });
                library.source_agrees(tally, &netlist, depth, of(Group::Closing(frame)));
                for j in (0..=frame).filter(|it| frame < 10 || some.contains(it) || *it == frame) {
                    library.source_agrees(tally, &netlist, depth, of(Group::Pair(j, frame)));
                }
            }
        }
        // The call looks at no other code, and at no list: a record that any other call would refuse.
        let mut bare = netlist.clone();
        bare.latches.clear();
        bare.gates.clear();
        bare.address.fill(u32::MAX);
        bare.property = u32::MAX;
        let of = (1 + round % 2, 0, depth.min(1), netlist.port_count());
        library.source_agrees(tally, &bare, depth, of);
    }
}

/// A record's literals as the calls answer them: of all codes in each frame, and of the sources.
struct Answered<'a> {
    netlist: &'a Netlist,
    /// By frame and code.
    codes: Vec<Vec<i32>>,
    /// Z by port and frame.
    start: Vec<Vec<i32>>,
    /// S by port, i and j.
    write: Vec<Vec<Vec<i32>>>,
}

impl Answered<'_> {
    /// The clauses of a closing (RULES G11 to G13, G25 and G33).
    fn closing(&self, port: u32, i: usize) -> Vec<Vec<i32>> {
        let own = &self.codes[i];
        let (z, read_enable) = (self.start[port as usize][i], own[self.netlist.read_enable_of(port) as usize]);
        let bits = self.netlist.read_bits(port).map(|wire| 2 * wire as usize);
        let mut clauses = Vec::new();
        if !self.netlist.has_unknown_start() {
            for (bit, code) in bits.clone().enumerate() {
                let start = if (self.netlist.start_word >> bit) & 1 == 1 { 1 } else { -1 };
                clauses.extend([vec![-z, -own[code], start], vec![-z, own[code], -start]]);
            }
        }
        if i > 0 {
            let before = &self.codes[i - 1];
            for code in bits {
                clauses.extend([
                    vec![read_enable, -own[code], before[code]],
                    vec![read_enable, own[code], -before[code]],
                ]);
            }
        }
        clauses.push([&[-read_enable, z], &self.write[port as usize][i][..]].concat());
        clauses
    }

    /// The clauses of a pair (RULES G6 to G10 and G32). E, e, s and PS stand before S as RULES V5 says.
    fn pair(&self, port: u32, j: usize, i: usize) -> Vec<Vec<i32>> {
        let (earlier, own) = (&self.codes[j], &self.codes[i]);
        let (m, of_port) = (self.netlist.address_width as i32, &self.write[port as usize][i]);
        let selected = of_port[j];
        let (enabled, none_since) = (selected - 2, selected - 1);
        let (equal, first_equal) = (selected - m - 3, selected - m - 2);
        let next = match of_port.get(j + 1) {
            Some(selected) => selected - 1,
            None => own[self.netlist.read_enable_of(port) as usize],
        };
        let mut clauses = Vec::new();
        let addresses = self.netlist.address_codes_of(FIRST_PORT).iter().zip(self.netlist.address_codes_of(port));
        for ((of_write, of_read), bit_equal) in addresses.zip(first_equal..) {
            let (a, b) = (earlier[*of_write as usize], own[*of_read as usize]);
            clauses.extend([
                vec![-equal, a, -b],
                vec![-equal, -a, b],
                vec![bit_equal, a, b],
                vec![bit_equal, -a, -b],
            ]);
        }
        clauses.push((0..m).map(|bit| -first_equal - bit).chain([equal]).collect());
        let write_enable = earlier[self.netlist.write_enable as usize];
        for (gate, a, b) in [(enabled, equal, write_enable), (none_since, -enabled, next), (selected, enabled, next)] {
            clauses.extend([vec![-gate, a], vec![-gate, b], vec![gate, -a, -b]]);
        }
        let bits = self.netlist.read_bits(port).map(|wire| 2 * wire as usize);
        for (code, data) in bits.clone().zip(self.netlist.write_data) {
            let data = earlier[data as usize];
            clauses.extend([vec![-selected, -own[code], data], vec![-selected, own[code], -data]]);
        }
        if self.netlist.has_unknown_start() {
            let start = &self.start[port as usize];
            for code in bits {
                let both = [-equal, -start[j], -start[i]];
                clauses.extend([
                    [&both[..], &[-own[code], earlier[code]]].concat(),
                    [&both[..], &[own[code], -earlier[code]]].concat(),
                ]);
            }
        }
        clauses
    }
}

/// The literals of all codes and of all sources of a depth. Each call is a check: none is refused.
fn answered<'a>(library: &Library, tally: &mut Tally, netlist: &'a Netlist, depth: u32) -> Answered<'a> {
    let lists = Lists::new(netlist);
    let (_, mut position) = lists.move_position(position_of([depth, 0, 0]), START);
    let mut codes = Vec::new();
    for _ in 0..=depth {
        codes.push(literals(library, tally, &lists, netlist, position));
        position = lists.move_position(position, ON).1;
    }
    let mut source = |port: u32, group: Group| {
        let found = library.source(&lists, depth, parameters(PortGroup { port, group }));
        tally.check_with((port, group), matches!(found, Ok(Ok(_))), || format!(": {found:?}"));
        found.map_or(0, |it| it.unwrap_or(0))
    };
    let mut answered = Answered { netlist, codes, start: vec![vec![]], write: vec![vec![]] };
    for port in netlist.ports() {
        answered.start.push((0..=depth).map(|i| source(port, Group::Closing(i))).collect());
        let of_frame = |i: u32| (0..i).map(|j| source(port, Group::Pair(j, i))).collect();
        answered.write.push((0..=depth).map(of_frame).collect());
    }
    answered
}

/// The literals stand in the groups: each closing and each pair is put together from the literals that the calls answer. So S is the gate of s and N
/// and hands the word on, and Z the one of the start bits, in each group for itself.
pub fn groups(library: &Library, tally: &mut Tally) {
    let mut random = Random::new(1502);
    let [mut never, mut always, mut unknown, mut two] = [0; 4];
    for round in 0..200 {
        let mut netlist = wide(&mut random);
        if round % 5 == 0 {
            netlist.read_enable = round / 5 % 2;
        }
        never += usize::from(netlist.read_enable == 0);
        always += usize::from(netlist.read_enable == 1);
        unknown += usize::from(netlist.has_unknown_start());
        two += usize::from(netlist.has_two_ports());
        let depth = match round {
            0..=3 => 40,
            _ => random.pick(&[0, 1, 2, 3, 5]),
        };
        let answered = answered(library, tally, &netlist, depth);
        let lists = Lists::new(&netlist);
        let mut same = |port: u32, group: Group, due: Vec<Vec<i32>>| {
            let due = written(&due);
            let found = lists.write_group(depth, parameters(PortGroup { port, group }), due.len());
            tally.check_with((round, port, group), found == Ok(Ok(due)), || format!(": {netlist:?}"));
        };
        for port in netlist.ports() {
            for i in 0..=depth {
                same(port, Group::Closing(i), answered.closing(port, i as usize));
                for j in 0..i {
                    same(port, Group::Pair(j, i), answered.pair(port, j as usize, i as usize));
                }
            }
        }
    }
    let counts = [never, always, unknown, two];
    tally.check(("enough of each", counts), counts.iter().all(|it| *it >= 20));
    tally.remark = format!(" (records: RE false {never}, true {always}; {unknown} with an unknown start, {two} with two ports)");
}
