//! Running records (K5) through the static library: moves, groups of the record's frame, what is left untouched, and the order of the
//! tests on hostile records.

use std::collections::BTreeMap;

use super::calls::{differ, record_rows};
use super::exports::{Answer, Lists};
use super::mutate::{netlist, wide, LIMITS};
use super::reference::check_examples::{accepted, FULL_RUN};
use super::reference::check_ports::{CONSTANT_READS, PORT_POSITIONS};
use super::reference::check_position::{position_of, POSITIONS};
use super::reference::check_refusals::{Verdict, ACCEPTED};
use super::reference::formula::{frame_base, group_exists, port_group_call, PortGroup};
use super::reference::netlist::{Netlist, MAX_DEPTH};
use super::reference::position::{start, FrameGroup, Position};
use super::reference::random::{damaged_record, Random};
use super::reference::refusal::*;
use super::reference::Tally;
use super::{Counts, Library};

/// The ways of a move.
pub const START: u32 = 0;
pub const ON: u32 = 1;
const BACK: u32 = 2;

/// Number and place, 0 where it is not refused, and the record handed back.
type Moved = (Verdict, Position);

/// What a move must answer. No such way is tested in 8's place, as a move past k is.
fn due_move(netlist: &Netlist, position: Position, way: u32) -> Moved {
    let verdict = |refusal: Refusal| (refusal.number, refusal.place);
    if way == START {
        // Of the record handed in only the depth counts, and a refused start answers zeros.
        return match start(netlist, position.depth) {
            Ok(position) => (ACCEPTED, position),
            Err(refusal) => (verdict(refusal), Position::default()),
        };
    }
    let mut moved = position;
    let result = match way {
        ON => moved.on(netlist),
        BACK => moved.back(netlist),
        _ => start(netlist, position.depth)
            .and_then(|_| require(false, NO_SUCH_GROUP, 0)),
    };
    (result.map_or_else(verdict, |()| ACCEPTED), moved)
}

/// A group of the record's frame as a call is asked for it: kind, j and port.
type Numbers = (u32, u32, u32);

/// The group of a kind; no such kind is tested in 8's place, as a pair of a frame with itself is.
fn group_of(position: Position, (kind, j, _): Numbers) -> FrameGroup {
    match kind {
        0 => FrameGroup::Wires,
        1 => FrameGroup::Pair(j),
        2 => FrameGroup::Closing,
        3 => FrameGroup::Property,
        _ => FrameGroup::Pair(position.frame),
    }
}

/// What the kind has no use for is as odd as can be.
fn numbers_of(group: FrameGroup, port: u32) -> Numbers {
    match group {
        FrameGroup::Wires => (0, u32::MAX, u32::MAX),
        FrameGroup::Pair(j) => (1, j, port),
        FrameGroup::Closing => (2, u32::MAX, port),
        FrameGroup::Property => (3, u32::MAX, u32::MAX),
    }
}

impl Library {
    /// What a move answers; counted.
    fn moved(&self, lists: &Lists, position: Position, way: u32) -> Moved {
        let found = lists.move_position(position, way);
        Counts::count(&self.moves, found.0 .0);
        found
    }

    /// What a group call through the record answers; counted.
    fn group_at(
        &self,
        lists: &Lists,
        position: Position,
        of: Numbers,
        room: usize,
    ) -> Answer<Vec<i32>> {
        let found = lists.write_group_at(position, of, room);
        Counts::add(&self.groups_at, &found);
        found
    }

    /// One check of a move; the number and the place that it must answer.
    fn move_agrees(
        &self,
        tally: &mut Tally,
        netlist: &Netlist,
        position: Position,
        way: u32,
    ) -> Verdict {
        let found = self.moved(&Lists::new(netlist), position, way);
        let due = due_move(netlist, position, way);
        tally.check_with((position, way), found == due, || {
            differ(netlist, found, due)
        });
        due.0
    }

    /// One check of a group call; the number and the place that it must answer.
    fn group_at_agrees(
        &self,
        tally: &mut Tally,
        netlist: &Netlist,
        position: Position,
        of: Numbers,
        room: usize,
    ) -> Verdict {
        let found = self.group_at(&Lists::new(netlist), position, of, room);
        let due = position.port_group(netlist, of.2, group_of(position, of), room);
        let verdict = due.as_ref().err().map_or(ACCEPTED, |refusal| (refusal.number, refusal.place));
        let due = Ok(due);
        tally.check_with((position, of, room), found == due, || {
            differ(netlist, &found, &due)
        });
        verdict
    }
}

/// The second implementation's tables with the verdicts that were written down, and every record that is refused.
pub fn tables(library: &Library, tally: &mut Tally) {
    let netlist = accepted(FULL_RUN);
    let lists = Lists::new(&netlist);
    for (row, [on, back, closing]) in POSITIONS {
        let position = position_of(row);
        tally.equal((row, "on"), library.moved(&lists, position, ON).0, on);
        tally.equal((row, "back"), library.moved(&lists, position, BACK).0, back);
        let number = number_of(library.group_at(&lists, position, (2, 0, 1), 600));
        tally.equal((row, "closing"), number, Ok(closing.0));
        calls_agree(library, tally, &netlist, row);
    }
    let netlist = accepted(CONSTANT_READS);
    let lists = Lists::new(&netlist);
    for (row, port, j, room, expected) in PORT_POSITIONS {
        let found = library.group_at(&lists, position_of(row), (1, j, port), room);
        let found = found.map(|it| it.map(|numbers| numbers.len()).map_err(|it| it.number));
        tally.equal((row, port, j, room), found, Ok(expected));
        calls_agree(library, tally, &netlist, row);
    }
    // By hand: V = 3 and 2(m + 4) = 10, so B is 1, 4, 17, 40 and 73.
    let mut position = position_of([4, 7, 7]);
    for (frame, base) in [1, 4, 17, 40, 73].into_iter().enumerate() {
        let way = if frame == 0 { START } else { ON };
        let found = library.moved(&lists, position, way);
        position = position_of([4, frame as u32, base]);
        tally.equal(("base of two ports", frame), found, (ACCEPTED, position));
    }
    tally.equal("back", library.moved(&lists, position, BACK), (ACCEPTED, position_of([4, 0, 1])));
    tally.equal("past the depth", library.moved(&lists, position, ON), ((NO_SUCH_GROUP, 0), position));
    // The base of the M sheet with these sizes, which is handed back.
    let wrong = position_of([4, 2, 12]);
    for way in [ON, BACK] {
        tally.equal(("wrong base", way), library.moved(&lists, wrong, way), ((WRONG_BASE, 0), wrong));
    }
    for (_, record, _) in record_rows() {
        for row in [[256, 300, 7], [1, 2, 7], [1, 0, 7], [1, 0, 1], [2, 1, 6], [2, 1, 8]] {
            for way in [START, ON, BACK, 3] {
                library.move_agrees(tally, &record, position_of(row), way);
            }
            for of in [(0, 0, 0), (1, 0, 1), (1, 0, 2), (2, 0, 1), (2, 0, 2), (2, 0, 3), (3, 0, 0), (9, 0, 1)] {
                library.group_at_agrees(tally, &record, position_of(row), of, 0);
                library.group_at_agrees(tally, &record, position_of(row), of, 600);
            }
        }
    }
}

/// The number of the refusal that a call answers, 0 where it is none.
fn number_of<T>(found: Answer<T>) -> Result<u32, &'static str> {
    found.map(|it| it.err().map_or(0, |refusal| refusal.number))
}

/// Every move of a record, and groups of its frame: every kind, every port, and rooms around what the pair needs.
fn calls_agree(library: &Library, tally: &mut Tally, netlist: &Netlist, row: [u32; 3]) {
    let position = position_of(row);
    for way in [START, ON, BACK, 3, 255, u32::MAX] {
        library.move_agrees(tally, netlist, position, way);
    }
    for kind in [0, 1, 2, 3, 4, u32::MAX] {
        for j in [0, 1, row[1], u32::MAX] {
            for port in [0, 1, 2, 3, u32::MAX] {
                for room in [0, 30, 31, 600] {
                    library.group_at_agrees(tally, netlist, position, (kind, j, port), room);
                }
            }
        }
    }
}

/// From frame 0 through all frames and back: the base is the formula's, and the groups are those by frame number.
pub fn walks(library: &Library, tally: &mut Tally) {
    let mut random = Random::new(1201);
    for round in 0..160 {
        let netlist = wide(&mut random);
        let lists = Lists::new(&netlist);
        let depth = random.pick(&[0, 1, 3, 3, 6, MAX_DEPTH]);
        let any = Position {
            depth,
            frame: random.next() as u32,
            base: random.next() as u32,
        };
        let (verdict, mut position) = library.moved(&lists, any, START);
        tally.equal((round, "start"), verdict, ACCEPTED);
        for frame in 0..=depth {
            let base = frame_base(&netlist, frame) as u32;
            let due = Position { depth, frame, base };
            tally.equal((round, frame), position, due);
            if frame < 4 || frame == depth {
                let mut groups = vec![FrameGroup::Wires, FrameGroup::Closing, FrameGroup::Property];
                groups.extend([0, frame / 2, frame.saturating_sub(1)].map(FrameGroup::Pair));
                for (group, port) in groups.into_iter().flat_map(|group| [1, 2].map(|port| (group, port))) {
                    let asked = PortGroup { port, group: position.numbered(group) };
                    let by_frame = port_group_call(&netlist, depth, asked, 6_000);
                    let found = library.group_at(&lists, position, numbers_of(group, port), 6_000);
                    tally.check((round, frame, group, port), found == Ok(by_frame));
                }
            }
            let zero = Position {
                depth,
                frame: 0,
                base: 1,
            };
            tally.equal((round, frame, "back"), library.moved(&lists, position, BACK), (ACCEPTED, zero));
            let (verdict, next) = library.moved(&lists, position, ON);
            let due = if frame < depth {
                ACCEPTED
            } else {
                (NO_SUCH_GROUP, 0)
            };
            tally.equal((round, frame, "on"), verdict, due);
            if due != ACCEPTED {
                tally.equal((round, frame, "handed back"), next, position);
            }
            position = next;
        }
    }
}

/// A depth or a frame: mostly small, so that the tests behind 7 and 8 are often reached; else of any depth, any number, or at a limit.
fn depth_or_frame(random: &mut Random) -> u32 {
    match random.below(20) {
        0..=12 => random.below(5),
        13..=15 => random.below(MAX_DEPTH + 1),
        16 | 17 => random.next() as u32 >> random.below(32),
        _ => random.pick(&[254, 255, 256, 257, 65_536, 1 << 31, u32::MAX - 1, u32::MAX]),
    }
}

/// A record with any depth, frame and base, the frame often within the depth, and the base often the right one or near it.
pub fn hostile_position(random: &mut Random, netlist: &Netlist) -> Position {
    let depth = depth_or_frame(random);
    let frame = match random.below(10) {
        0..=2 => depth,
        3..=5 => random.below(depth.min(MAX_DEPTH) + 1),
        _ => depth_or_frame(random),
    };
    let sizes_add_up = [
        netlist.inputs,
        netlist.latch_count,
        netlist.gate_count,
        netlist.data_width,
        netlist.address_width,
    ]
    .iter()
    .all(|size| *size <= 601);
    let base_of = |frame: u32| match sizes_add_up && frame <= 257 {
        true => frame_base(netlist, frame) as u32,
        false => 1,
    };
    let right = base_of(frame);
    let any = random.next() as u32 >> random.below(32);
    let base = match random.below(20) {
        0..=11 => right,
        12 => right.wrapping_add(1),
        13 => right.wrapping_sub(1),
        14 => base_of(frame.wrapping_add(1)),
        15 => base_of(frame.saturating_sub(1)),
        16 => right.wrapping_add(1 << 31),
        17 => random.pick(&LIMITS),
        _ => any,
    };
    Position { depth, frame, base }
}

/// Which tests a call fails, each taken alone: the record's, 7, 8, 16 and 9, where a group is asked for with so much room.
fn failing(netlist: &Netlist, position: Position, exists: bool, room: Option<(FrameGroup, u32, usize)>) -> Vec<u32> {
    let mut numbers = Vec::new();
    let accepted = match netlist.check() {
        Ok(()) => true,
        Err(refusal) => {
            numbers.push(refusal.number);
            false
        }
    };
    if position.depth > MAX_DEPTH {
        numbers.push(DEPTH);
    }
    if position.frame > position.depth || !exists {
        numbers.push(NO_SUCH_GROUP);
    }
    // What the base and the need are is said for accepted records and frames within their limit.
    if accepted && position.frame <= MAX_DEPTH {
        if i64::from(position.base) != frame_base(netlist, position.frame) {
            numbers.push(WRONG_BASE);
        }
        let short = |(group, port, room): (FrameGroup, u32, usize)| {
            let depth = position.depth.clamp(position.frame, MAX_DEPTH);
            let asked = PortGroup { port, group: position.numbered(group) };
            let found = port_group_call(netlist, depth, asked, room);
            found.err().map(|refusal| refusal.number) == Some(NO_ROOM)
        };
        if room.map_or(false, short) {
            numbers.push(NO_ROOM);
        }
    }
    numbers
}

/// The calls on a running record: the moves by their ways, and a group.
#[derive(Clone, Copy, Debug, PartialEq, Eq, PartialOrd, Ord)]
pub enum Call {
    Start,
    On,
    Back,
    NoMove,
    Group,
}

/// One hostile call: what it must answer, and the tests that it fails.
pub fn any(library: &Library, tally: &mut Tally, random: &mut Random) -> (Call, Verdict, Vec<u32>) {
    let mut netlist = netlist(random);
    if random.percent(20) {
        netlist = damaged_record(random, &netlist);
    }
    if random.percent(8) {
        netlist.address[1] = netlist.address[0] ^ random.below(2);
    }
    if random.percent(8) {
        netlist.second_address[1] = netlist.second_address[0] ^ random.below(2);
    }
    if random.percent(8) {
        let read_bit = 2 * netlist.inputs.saturating_add(netlist.latch_count).min(599) + 2;
        let [first, second] = [&mut netlist.read_enable, &mut netlist.second_read_enable];
        *if random.percent(50) { first } else { second } = read_bit;
    }
    if random.percent(5) {
        netlist.unknown_start = random.pick(&[0, 1, 2, u32::MAX]);
    }
    if random.percent(5) {
        netlist.two_ports = random.pick(&[0, 1, 2, u32::MAX]);
    }
    if random.percent(5) {
        netlist.gate_count = random.pick(&LIMITS);
    }
    let position = hostile_position(random, &netlist);
    if random.percent(60) {
        let way = random.pick(&[START, ON, BACK, 3, u32::MAX]);
        let at_zero = Position {
            frame: 0,
            base: 1,
            ..position
        };
        let (call, failing) = match way {
            START => (Call::Start, failing(&netlist, at_zero, true, None)),
            ON => (Call::On, failing(&netlist, position, position.frame < position.depth, None)),
            BACK => (Call::Back, failing(&netlist, position, true, None)),
            _ => (Call::NoMove, failing(&netlist, position, false, None)),
        };
        return (call, library.move_agrees(tally, &netlist, position, way), failing);
    }
    let of = (random.below(5), depth_or_frame(random), random.pick(&[0, 1, 1, 1, 2, 2, 2, 3, u32::MAX]));
    let room = random.pick(&[0, 0, 20, 60, 600, 6_000]);
    let group = group_of(position, of);
    // A port is that of an accepted record; the frame is judged apart.
    let asked = PortGroup { port: of.2, group: position.numbered(group) };
    let exists = group_exists(&netlist, position.frame, asked);
    let failing = failing(&netlist, position, exists, Some((group, of.2, room)));
    (Call::Group, library.group_at_agrees(tally, &netlist, position, of, room), failing)
}

/// The tests behind the record's, in their order.
fn tests(call: Call) -> &'static [u32] {
    match call {
        Call::Start => &[DEPTH],
        Call::On | Call::Back | Call::NoMove => &[DEPTH, NO_SUCH_GROUP, WRONG_BASE],
        Call::Group => &[DEPTH, NO_SUCH_GROUP, WRONG_BASE, NO_ROOM],
    }
}

/// Hostile calls. Of each call each answer, with a place where a line of the record's sheet is at fault, and each pair of failing tests must have
/// come often: of two the earlier is answered.
pub fn hostile(library: &Library, tally: &mut Tally) {
    let mut random = Random::new(1202);
    let mut answers: BTreeMap<(Call, u32, bool), usize> = BTreeMap::new();
    let mut orders: BTreeMap<(Call, u32, u32), usize> = BTreeMap::new();
    for _ in 0..100_000 {
        let (call, (number, place), failing) = any(library, tally, &mut random);
        *answers.entry((call, number, place > 0)).or_default() += 1;
        tally.equal("the first failing test", failing.first().copied().unwrap_or(0), number);
        for (at, first) in failing.iter().enumerate() {
            for second in &failing[at + 1..] {
                *orders.entry((call, *first, *second)).or_default() += 1;
            }
        }
    }
    let record = [OUT_OF_ORDER, SIZE, CODE, TIED_ADDRESS, MEMORY_LOOP];
    for call in [Call::Start, Call::On, Call::Back, Call::NoMove, Call::Group] {
        // No such move is 8 before it can be 16, and never accepted.
        let never = |number: u32| call == Call::NoMove && [0, WRONG_BASE].contains(&number);
        let without = tests(call).iter().copied().chain([0]).filter(|number| !never(*number));
        let due = record.into_iter().map(|number| (number, number != OUT_OF_ORDER)).chain(without.map(|number| (number, false)));
        for (number, has_place) in due {
            let count = answers.remove(&(call, number, has_place)).unwrap_or(0);
            tally.check((call, "answers", number, "at a place", has_place, count), count >= 20);
        }
        for (at, second) in tests(call).iter().enumerate() {
            // What the base and the need are is not said of a record that is refused.
            let first = record.into_iter().filter(|_| [DEPTH, NO_SUCH_GROUP].contains(second));
            for first in first.chain(tests(call)[..at].iter().copied()) {
                let count = orders.remove(&(call, first, *second)).unwrap_or(0);
                tally.check((call, "fails both", first, *second, count), count >= 20);
            }
        }
    }
    tally.check(("no other answer", &answers), answers.is_empty());
    tally.check(("no other order", &orders), orders.is_empty());
}
