//! Group and heading calls through the static library: answers, contents, what is left untouched, and
//! refusals 3 to 9 of records and calls.

use super::exports::{asked_for, next_group, parameters, put_clauses, put_header, version, Answer, Lists, Numbers};
use super::largest::{extremes, rows, Largest, MOST_VARIABLES};
use super::mutate::wide;
use super::reference::check_examples::{accepted, of_sizes, FULL_RUN, RICH};
use super::reference::check_ports::{
    two_of_sizes, two_port_record_rows, CONSTANT_READS, PORT_CALLS, PORT_NEEDS,
};
use super::reference::check_refusals::{Verdict, ACCEPTED, GROUP_CALLS, NEEDS, RECORDS};
use super::reference::formula::{heading, port_group_call, Fault, Formula, Group, PortGroup};
use super::reference::netlist::{Gate, Latch, Netlist, MAX_DEPTH, SECOND_PORT};
use super::reference::random::{fill, Random};
use super::reference::refusal::*;
use super::reference::Tally;
use super::{Counts, Library};

fn refusal<T>((number, place): Verdict) -> Result<T, Refusal> {
    Err(Refusal { number, place })
}

impl Library {
    /// A group call, counted.
    fn group(
        &self,
        lists: &Lists,
        depth: u32,
        of: Numbers,
        room: usize,
    ) -> Answer<Vec<i32>> {
        let found = lists.write_group(depth, of, room);
        Counts::add(&self.calls, &found);
        found
    }

    /// One check: a group call answers and writes what the second implementation does.
    pub fn group_agrees(
        &self,
        tally: &mut Tally,
        netlist: &Netlist,
        depth: u32,
        of: Numbers,
        room: usize,
    ) {
        let found = self.group(&Lists::new(netlist), depth, of, room);
        let expected = Ok(port_group_call(netlist, depth, asked_for(of), room));
        tally.check_with((depth, of, room), found == expected, || {
            differ(netlist, &found, &expected)
        });
    }

    /// A group call with no room, one number too few, exactly enough, and more: the need, 9 where there is less
    /// room, or this refusal.
    fn call_is(
        &self,
        tally: &mut Tally,
        short: &str,
        depth: u32,
        of: Numbers,
        expected: Result<usize, u32>,
    ) {
        let netlist = accepted(short);
        let need = expected.unwrap_or(57);
        for room in [0, need.saturating_sub(1), need, need + 1, need + 100] {
            let found = self.group(&Lists::new(&netlist), depth, of, room);
            let found = found.map(|it| it.map(|numbers| numbers.len()));
            let stated = match expected {
                Ok(need) if room >= need => Ok(need),
                Ok(_) => refusal((NO_ROOM, 0)),
                Err(number) => refusal((number, 0)),
            };
            tally.equal((short, depth, of, room), found, Ok(stated));
            self.group_agrees(tally, &netlist, depth, of, room);
        }
    }

    pub fn heading_agrees(&self, tally: &mut Tally, netlist: &Netlist, depth: u32) {
        let found = Lists::new(netlist).heading(depth);
        Counts::add(&self.headings, &found);
        let expected = heading(netlist, depth).map(|it| (it.variables as u32, it.clauses as u32));
        let expected = Ok(expected);
        tally.check_with(("heading", depth), found == expected, || {
            differ(netlist, &found, &expected)
        });
    }

    /// Every group of a depth with exactly the room that it needs, joined: the formula.
    fn joined_agrees(&self, tally: &mut Tally, name: &str, netlist: &Netlist, depth: u32) {
        let lists = Lists::new(netlist);
        let formula = Formula::new(netlist, depth, Fault::None);
        let same = formula.port_groups().into_iter().all(|asked| {
            let numbers = formula.port_group(asked);
            let room = numbers.len();
            self.group(&lists, depth, parameters(asked), room) == Ok(Ok(numbers))
        });
        tally.check_with((name, depth), same, || format!(": {netlist:?}"));
        self.heading_agrees(tally, netlist, depth);
    }
}

pub fn differ<T: std::fmt::Debug>(about: impl std::fmt::Debug, found: T, expected: T) -> String {
    let text = format!("\n  found {found:?}\n  expected {expected:?}");
    format!(
        "{}\n  about {about:?}",
        text.chars().take(600).collect::<String>()
    )
}

/// The facts about the sheet of the full run (RULES F7 to F9, F14 and F15): the pair takes 31 numbers and not 30, and the starred refusals.
pub fn stated(library: &Library, tally: &mut Tally) {
    let lists = Lists::new(&accepted(FULL_RUN));
    let pair = parameters(PortGroup::first(Group::Pair(0, 1)));
    let count = |depth, of, room| {
        library
            .group(&lists, depth, of, room)
            .map(|it| it.map(|numbers| numbers.len()))
    };
    tally.equal(
        "a slice of 31 takes the pair",
        count(1, pair, 31),
        Ok(Ok(31)),
    );
    tally.equal("30 gives 9", count(1, pair, 30), Ok(refusal((NO_ROOM, 0))));
    tally.equal(
        "pair (1, 1) gives 8",
        count(1, parameters(PortGroup::first(Group::Pair(1, 1))), 31),
        Ok(refusal((NO_SUCH_GROUP, 0))),
    );
    tally.equal("depth 255 is taken", count(255, pair, 31), Ok(Ok(31)));
    tally.equal("256 gives 7", count(256, pair, 31), Ok(refusal((DEPTH, 0))));
    tally.equal(
        "depth 1: 10 variables, 15 clauses",
        lists.heading(1),
        Ok(Ok((10, 15))),
    );
    let looped = Lists::new(&Netlist {
        address: [4; 12],
        ..accepted(FULL_RUN)
    });
    tally.equal(
        "address code 4 gives 6 at 3",
        looped.heading(1),
        Ok(refusal((MEMORY_LOOP, 3))),
    );
}

/// The second implementation's tables of group calls, with no room, one number too few, exactly enough,
/// and more.
pub fn table_of_calls(library: &Library, tally: &mut Tally) {
    let first = |(depth, group, expected)| (depth, PortGroup::first(group), expected);
    for (depth, asked, expected) in GROUP_CALLS.map(first) {
        library.call_is(tally, FULL_RUN, depth, parameters(asked), expected);
    }
    for (short, depth, group, need) in NEEDS {
        let of = parameters(PortGroup::first(group));
        library.call_is(tally, short, depth, of, Ok(need));
    }
    // The port as it stands in the row, also where the group has no use for it.
    for (depth, port, group, expected) in PORT_CALLS {
        let (kind, j, i, _) = parameters(PortGroup { port, group });
        library.call_is(tally, CONSTANT_READS, depth, (kind, j, i, port), expected);
    }
    for (short, depth, port, group, need) in PORT_NEEDS {
        let of = parameters(PortGroup { port, group });
        library.call_is(tally, short, depth, of, Ok(need));
    }
    // No such kind: 7 comes before it, and 9 behind it.
    for (depth, number) in [(0, NO_SUCH_GROUP), (255, NO_SUCH_GROUP), (256, DEPTH)] {
        for kind in [4, 5, 255, 256, u32::MAX] {
            for short in [FULL_RUN, CONSTANT_READS] {
                library.call_is(tally, short, depth, (kind, 0, 0, 1), Err(number));
            }
        }
    }
    // By hand: an M sheet has port 1 alone, a T sheet 1 and 2, for pairs and closings; the others have no port.
    let none = Err(NO_SUCH_GROUP);
    let rows: [(u32, [Result<usize, u32>; 4]); 7] = [
        (0, [none, none, none, none]),
        (1, [Ok(31), Ok(6), Ok(31), Ok(6)]),
        (2, [none, none, Ok(31), Ok(6)]),
        (3, [none, none, none, none]),
        (257, [none, none, none, none]),
        (1 << 31, [none, none, none, none]),
        (u32::MAX, [none, none, none, none]),
    ];
    for (port, expected) in rows {
        let groups = [(1, 0, 1, port), (2, 0, 1, port)].into_iter().cycle();
        let sheets = [FULL_RUN, FULL_RUN, CONSTANT_READS, CONSTANT_READS];
        for ((short, of), expected) in sheets.into_iter().zip(groups).zip(expected) {
            library.call_is(tally, short, 1, of, expected);
            library.call_is(tally, short, 256, of, Err(DEPTH));
        }
        for short in [FULL_RUN, CONSTANT_READS] {
            library.call_is(tally, short, 1, (0, 0, 0, port), Ok(2));
            library.call_is(tally, short, 1, (3, 0, 0, port), Ok(3));
        }
    }
    for short in [FULL_RUN, CONSTANT_READS] {
        for depth in [0, 1, 255, 256, u32::MAX] {
            library.heading_agrees(tally, &accepted(short), depth);
        }
    }
    // V = 3 and 2(m + 4) = 10: 1 + 2 * 3 + 10 variables.
    let found = Lists::new(&accepted(CONSTANT_READS)).heading(1);
    tally.equal("depth 1 of two ports", found, Ok(Ok((17, 28))));
}

/// The second implementation's tables of records: the record's tests come before all others, in both calls.
pub fn table_of_records(library: &Library, tally: &mut Tally) {
    for (name, netlist, expected) in record_rows() {
        for (depth, of, room) in [
            (1, (1, 0, 1, 1), 500),
            (1, (1, 0, 1, 2), 500),
            (256, (0, 0, 300, 0), 0),
            (1, (9, 0, 0, 0), 0),
        ] {
            library.group_agrees(tally, &netlist, depth, of, room);
            library.heading_agrees(tally, &netlist, depth);
            if expected != ACCEPTED {
                let found = library.group(&Lists::new(&netlist), depth, of, room);
                tally.equal((name, depth, of), found, Ok(refusal(expected)));
            }
        }
    }
}

/// Changed records of both kinds with the verdicts that were written down.
pub fn record_rows() -> Vec<(&'static str, Netlist, Verdict)> {
    let one_port = RECORDS.into_iter().map(|(name, change, expected)| {
        let mut netlist = accepted(RICH);
        change(&mut netlist);
        (name, netlist, expected)
    });
    one_port.chain(two_port_record_rows()).collect()
}

/// Random records: all groups of a shallow depth, with rooms around each group's need.
pub fn rooms(library: &Library, tally: &mut Tally) {
    let mut random = Random::new(501);
    for _ in 0..200 {
        let netlist = wide(&mut random);
        let depth = random.below(5);
        let formula = Formula::new(&netlist, depth, Fault::None);
        for asked in formula.port_groups() {
            let need = formula.port_group(asked).len();
            let more = need + random.index(40);
            for room in [need, need + 1, more, need.saturating_sub(1), need / 2, 0] {
                library.group_agrees(tally, &netlist, depth, parameters(asked), room);
            }
        }
    }
}

/// Lent lists shorter than their size by one and altogether, and longer with a rest that must not count.
pub fn list_lengths(library: &Library, tally: &mut Tally) {
    let mut random = Random::new(502);
    for _ in 0..200 {
        let netlist = wide(&mut random);
        let asked = PortGroup {
            port: random.between(1, netlist.port_count()),
            group: Group::Pair(0, 1),
        };
        let call = parameters(asked);
        let mut longer = netlist.clone();
        for _ in 0..random.between(1, 700) {
            longer.latches.push(Latch {
                next: u32::MAX,
                reset: 2,
            });
            longer.gates.push(Gate {
                left: u32::MAX,
                right: u32::MAX,
            });
        }
        // Entries past the widths do not count either, nor those of a second port that is not there.
        longer.address[netlist.address_width as usize..].fill(u32::MAX);
        longer.write_data[netlist.data_width as usize..].fill(u32::MAX);
        longer.second_address[netlist.address_width as usize..].fill(u32::MAX);
        if !netlist.has_two_ports() {
            longer.second_address.fill(u32::MAX);
            longer.second_read_enable = u32::MAX;
        }
        let formula = Formula::new(&netlist, 1, Fault::None);
        let pair = formula.port_group(asked);
        let found = library.group(&Lists::new(&longer), 1, call, pair.len());
        tally.check_with("longer lists", found == Ok(Ok(pair)), || {
            format!(": {netlist:?}")
        });
        library.heading_agrees(tally, &longer, 1);

        for (latches, gates) in [(1, 0), (0, 1), (1, 1), (600, 0), (0, 600)] {
            let mut shorter = netlist.clone();
            shorter
                .latches
                .truncate(netlist.latches.len().saturating_sub(latches));
            shorter
                .gates
                .truncate(netlist.gates.len().saturating_sub(gates));
            if shorter == netlist {
                continue;
            }
            for number in [shorter.property, u32::MAX] {
                // 3 comes before every 5.
                shorter.property = number;
                let found = library.group(&Lists::new(&shorter), 1, call, 500);
                tally.equal("shorter lists", found, Ok(refusal((OUT_OF_ORDER, 0))));
                library.heading_agrees(tally, &shorter, 1);
            }
        }
    }
}

/// The group behind a group is that of the second implementation's order of so many ports, 1 or 2; behind what is no group of the depth there is
/// none, and with another number of ports there is no group.
pub fn order_agrees(tally: &mut Tally, groups: &[PortGroup], depth: u32, ports: u32, of: Numbers) {
    let found = next_group(depth, ports, of);
    let asked = asked_for(of);
    let same = |due: &PortGroup| match due.group {
        Group::Wires(_) | Group::Property => due.group == asked.group,
        _ => *due == asked,
    };
    let at = groups.iter().position(same);
    let due = at.and_then(|at| groups.get(at + 1).copied());
    tally.equal(("behind", depth, ports, of), found, Ok(due));
}

/// The order of so many ports: none but that of 1 and that of 2.
pub fn order_of(depth: u32, ports: u32) -> Vec<PortGroup> {
    let netlist = match ports {
        1 => accepted(FULL_RUN),
        2 => accepted(CONSTANT_READS),
        _ => return Vec::new(),
    };
    Formula::new(&netlist, depth, Fault::None).port_groups()
}

/// Depth, ports, a group, and the one that follows it, written down from the order of the papers: each pair and closing of the first port is followed by
/// the same for the second.
const ORDERS: [(u32, u32, Numbers, Option<Numbers>); 23] = [
    (2, 1, (0, 0, 0, 0), Some((2, 0, 0, 1))),
    (2, 1, (2, 0, 0, 1), Some((0, 0, 1, 0))),
    (2, 1, (1, 1, 2, 1), Some((1, 0, 2, 1))),
    (2, 1, (1, 0, 2, 1), Some((2, 0, 2, 1))),
    (2, 1, (2, 0, 2, 1), Some((3, 0, 0, 0))),
    // one port has no second
    (2, 1, (1, 1, 2, 2), None),
    (2, 1, (2, 0, 2, 2), None),
    (2, 2, (0, 0, 0, 0), Some((2, 0, 0, 1))),
    (2, 2, (2, 0, 0, 1), Some((2, 0, 0, 2))),
    (2, 2, (2, 0, 0, 2), Some((0, 0, 1, 0))),
    (2, 2, (0, 0, 2, 0), Some((1, 1, 2, 1))),
    (2, 2, (1, 1, 2, 1), Some((1, 1, 2, 2))),
    (2, 2, (1, 1, 2, 2), Some((1, 0, 2, 1))),
    (2, 2, (1, 0, 2, 2), Some((2, 0, 2, 1))),
    (2, 2, (2, 0, 2, 1), Some((2, 0, 2, 2))),
    (2, 2, (2, 0, 2, 2), Some((3, 0, 0, 0))),
    (2, 2, (3, 0, 0, 0), None),
    (2, 2, (2, 0, 2, 0), None),
    (2, 2, (2, 0, 2, 3), None),
    (2, 2, (1, 1, 2, u32::MAX), None),
    (2, 0, (0, 0, 0, 0), None),
    (2, 3, (2, 0, 2, 3), None),
    (2, u32::MAX, (2, 0, 0, 1), None),
];

/// The walk from the wires of frame 0 on is the order of the whole; the version is the header's.
pub fn orders(_: &Library, tally: &mut Tally) {
    tally.equal("the version", version(), (0, 11));
    for (depth, ports, of, due) in ORDERS {
        let due = due.map(|of| match asked_for(of) {
            PortGroup { port: 0, group } => PortGroup::first(group),
            asked => asked,
        });
        tally.equal((depth, ports, of), next_group(depth, ports, of), Ok(due));
    }
    let mut random = Random::new(504);
    for depth in [0, 1, 2, 3, 7, 254, 255] {
        for ports in [1, 2] {
            let groups = order_of(depth, ports);
            let mut walked = vec![PortGroup::first(Group::Wires(0))];
            while let Ok(Some(next)) = next_group(depth, ports, parameters(walked[walked.len() - 1])) {
                walked.push(next);
                if walked.len() > groups.len() {
                    break;
                }
            }
            tally.equal(("the walk", depth, ports), walked == groups, true);
        }
        for ports in [0, 1, 2, 3, 4, 1 << 31, u32::MAX] {
            let groups = order_of(depth, ports);
            for _ in 0..200 {
                let mut number = || random.pick(&[0, 1, 2, 3, 4, depth, depth + 1, u32::MAX]);
                let of = (number(), number(), number(), random.pick(&[0, 1, 1, 2, 2, 3, u32::MAX]));
                order_agrees(tally, &groups, depth, ports, of);
            }
        }
    }
    // a depth that every call refuses has an order too
    let last = |i, port| next_group(u32::MAX, SECOND_PORT, (2, 0, i, port));
    tally.equal("the last frame of all", last(u32::MAX, 2), Ok(Some(PortGroup::first(Group::Property))));
    tally.equal("its first closing", last(u32::MAX, 1), Ok(Some(PortGroup::second(Group::Closing(u32::MAX)))));
    tally.equal("a frame before it", last(u32::MAX - 1, 2), Ok(Some(PortGroup::first(Group::Wires(u32::MAX)))));
}

/// The joined groups of random records and of the largest are the second implementation's formula.
pub fn formulas(library: &Library, tally: &mut Tally) {
    let mut random = Random::new(503);
    for round in 0..600 {
        let netlist = wide(&mut random);
        let depth = random.pick(&[0, 1, 1, 2, 3, 5, 12]);
        library.joined_agrees(tally, &format!("random record {round}"), &netlist, depth);
    }
    for short in [FULL_RUN, CONSTANT_READS] {
        for depth in [100, 254, 255] {
            library.joined_agrees(tally, short, &accepted(short), depth);
        }
    }
    let largest = [
        ("the record on which the speed is measured", of_sizes([60, 100, 408], [12, 32])),
        ("600 wires and two ports", two_of_sizes([60, 100, 376], [12, 32])),
    ];
    for (name, sizes) in largest {
        let empty = Netlist {
            latches: vec![],
            gates: vec![],
            ..sizes
        };
        library.joined_agrees(tally, name, &fill(&mut random, empty), MAX_DEPTH);
    }
}

/// The most numbers that a group has (RULES G36).
fn most_numbers(netlist: &Netlist, depth: u32, group: Group) -> u32 {
    let (latches, gates) = (netlist.latch_count, netlist.gate_count);
    let (m, n) = (netlist.address_width, netlist.data_width);
    let given = u32::from(!netlist.has_unknown_start());
    match group {
        Group::Wires(0) => 2 + 2 * latches + 10 * gates,
        Group::Wires(_) => 6 * latches + 10 * gates,
        Group::Pair(..) => 17 * m + 8 * n + 32 + 12 * n * (1 - given),
        Group::Closing(0) => 3 + 8 * n * given,
        Group::Closing(i) => 8 * n + i + 3 + 8 * n * given,
        Group::Property => depth + 2,
    }
}

/// Every number of every group of the largest formulas lies between the last variable and its negative, which both are written; as many clauses are
/// written as the heading counts, and so is their text.
pub fn bounds(library: &Library, tally: &mut Tally) {
    let length = |text: Answer<Vec<u8>>| text.map_or(0, |it| it.map_or(0, |bytes| bytes.len()));
    for Largest { name, netlist, variables, clauses, bytes } in rows() {
        let lists = Lists::new(&netlist);
        tally.equal((name, "heading"), lists.heading(MAX_DEPTH), Ok(Ok((variables as u32, clauses))));
        let (mut all, mut written, mut within) = ([0, 0], 0, true);
        let mut text = length(put_header(variables as u32, clauses, 28));
        for asked in Formula::new(&netlist, MAX_DEPTH, Fault::None).port_groups() {
            let room = most_numbers(&netlist, MAX_DEPTH, asked.group) as usize;
            match library.group(&lists, MAX_DEPTH, parameters(asked), room) {
                Ok(Ok(numbers)) => {
                    let found = extremes(numbers.iter().copied());
                    within &= found[0] >= -MOST_VARIABLES && found[1] <= MOST_VARIABLES;
                    all = extremes(all.into_iter().chain(found));
                    written += numbers.iter().filter(|number| **number == 0).count();
                    text += length(put_clauses(&numbers, 12 * numbers.len()));
                }
                other => tally.check((name, asked, other), false),
            }
        }
        tally.check((name, "within"), within);
        tally.equal((name, "met"), all, [-variables, variables]);
        tally.equal((name, "clauses"), written, clauses as usize);
        tally.equal((name, "bytes"), text, bytes);
    }
}
