//! K5, K6 and K9: the running record, printed numbers and sheets written back, by hand and against
//! what they stand for.

use super::check_examples::{accepted, of_sizes, FULL_RUN, RICH, UNKNOWN_RICH};
use super::check_refusals::{largest_sheet, verdict, Verdict, ACCEPTED, RECORDS};
use super::formula::{frame_base, group_call, Fault, Formula, Group};
use super::netlist::{Gate, Latch, Netlist};
use super::number::print_number;
use super::position::{start, FrameGroup, Position};
use super::random::{damaged_record, tiny_netlist, wide_netlist, Random};
use super::refusal::*;
use super::sheet::{expand, read_sheet, write_back, LINE_BYTES};
use super::Tally;

/// Depth, frame, base, and the verdicts on `FULL_RUN`: V = 2 and m = 1, so B is 1, 3, 10, 22 and then
/// 39, and 162,436 in frame 255. Moving on, going back and the closing, in this order.
pub const POSITIONS: [([u32; 3], [Verdict; 3]); 34] = [
    ([0, 0, 1], [(NO_SUCH_GROUP, 0), ACCEPTED, ACCEPTED]),
    ([1, 0, 1], [ACCEPTED; 3]),
    ([255, 0, 1], [ACCEPTED; 3]),
    ([1, 1, 3], [(NO_SUCH_GROUP, 0), ACCEPTED, ACCEPTED]),
    ([2, 1, 3], [ACCEPTED; 3]),
    ([2, 2, 10], [(NO_SUCH_GROUP, 0), ACCEPTED, ACCEPTED]),
    ([255, 2, 10], [ACCEPTED; 3]),
    ([255, 3, 22], [ACCEPTED; 3]),
    ([255, 4, 39], [ACCEPTED; 3]),
    (
        [255, 255, 162_436],
        [(NO_SUCH_GROUP, 0), ACCEPTED, ACCEPTED],
    ),
    // A wrong base, of another frame too.
    ([255, 0, 0], [(WRONG_BASE, 0); 3]),
    ([255, 0, 2], [(WRONG_BASE, 0); 3]),
    ([255, 0, 3], [(WRONG_BASE, 0); 3]),
    ([255, 1, 1], [(WRONG_BASE, 0); 3]),
    ([255, 1, 2], [(WRONG_BASE, 0); 3]),
    ([255, 1, 4], [(WRONG_BASE, 0); 3]),
    ([255, 2, 9], [(WRONG_BASE, 0); 3]),
    ([255, 2, 22], [(WRONG_BASE, 0); 3]),
    ([255, 1, 0x8000_0003], [(WRONG_BASE, 0); 3]),
    ([255, 1, u32::MAX], [(WRONG_BASE, 0); 3]),
    // At frame k moving on is 8, whatever the base.
    (
        [0, 0, 0],
        [(NO_SUCH_GROUP, 0), (WRONG_BASE, 0), (WRONG_BASE, 0)],
    ),
    (
        [1, 1, 10],
        [(NO_SUCH_GROUP, 0), (WRONG_BASE, 0), (WRONG_BASE, 0)],
    ),
    (
        [255, 255, 162_435],
        [(NO_SUCH_GROUP, 0), (WRONG_BASE, 0), (WRONG_BASE, 0)],
    ),
    // A frame over k, whatever the base.
    ([0, 1, 3], [(NO_SUCH_GROUP, 0); 3]),
    ([0, 1, 4], [(NO_SUCH_GROUP, 0); 3]),
    ([1, 2, 10], [(NO_SUCH_GROUP, 0); 3]),
    ([255, 256, 163_713], [(NO_SUCH_GROUP, 0); 3]),
    ([255, u32::MAX, 1], [(NO_SUCH_GROUP, 0); 3]),
    ([0, u32::MAX, u32::MAX], [(NO_SUCH_GROUP, 0); 3]),
    // A depth over 255, whatever else.
    ([256, 0, 1], [(DEPTH, 0); 3]),
    ([256, 0, 0], [(DEPTH, 0); 3]),
    ([256, 257, 1], [(DEPTH, 0); 3]),
    ([u32::MAX, u32::MAX, u32::MAX], [(DEPTH, 0); 3]),
    ([u32::MAX, 0, 1], [(DEPTH, 0); 3]),
];

/// The position of a row.
pub fn position_of([depth, frame, base]: [u32; 3]) -> Position {
    Position { depth, frame, base }
}

/// Whether a call that moves a position left it unchanged where it was refused.
fn judged_move(
    tally: &mut Tally,
    name: &str,
    before: Position,
    call: impl FnOnce(&mut Position) -> Result<(), Refusal>,
) -> (Verdict, Position) {
    let mut position = before;
    let found = verdict(call(&mut position));
    if found != ACCEPTED {
        tally.equal((name, before, "unchanged"), position, before);
    }
    (found, position)
}

pub fn positions(tally: &mut Tally) {
    let netlist = accepted(FULL_RUN);
    for (row, [on, back, closing]) in POSITIONS {
        let position = position_of(row);
        let (found, moved) = judged_move(tally, "on", position, |it| it.on(&netlist));
        tally.equal((row, "on"), found, on);
        if on == ACCEPTED {
            tally.equal((row, "depth kept"), moved.depth, row[0]);
            tally.equal((row, "frame"), moved.frame, row[1] + 1);
            // B(i + 1) - B(i) = V + (m + 4) i.
            tally.equal((row, "base"), moved.base, row[2] + 2 + 5 * row[1]);
        }
        let (found, moved) = judged_move(tally, "back", position, |it| it.back(&netlist));
        tally.equal((row, "back"), found, back);
        if back == ACCEPTED {
            tally.equal((row, "back"), moved, position_of([row[0], 0, 1]));
        }
        let found = verdict(position.group(&netlist, FrameGroup::Closing, 600));
        tally.equal((row, "closing"), found, closing);
        if closing != ACCEPTED {
            // These come before 9, and for every group alike; a pair with j not below i is 8.
            for group in [FrameGroup::Wires, FrameGroup::Closing, FrameGroup::Property] {
                let found = verdict(position.group(&netlist, group, 0));
                tally.equal((row, group), found, closing);
            }
            let found = verdict(position.group(&netlist, FrameGroup::Pair(row[1]), 0));
            let expected = match closing.0 {
                WRONG_BASE => (NO_SUCH_GROUP, 0),
                _ => closing,
            };
            tally.equal((row, "pair"), found, expected);
        }
    }
    for (depth, expected) in [
        (0, Ok(position_of([0, 0, 1]))),
        (1, Ok(position_of([1, 0, 1]))),
        (255, Ok(position_of([255, 0, 1]))),
        (256, Err((DEPTH, 0))),
        (u32::MAX, Err((DEPTH, 0))),
    ] {
        let found = start(&netlist, depth).map_err(|it| (it.number, it.place));
        tally.equal(("start", depth), found, expected);
    }
    pairs_and_room(tally, &netlist);
    records(tally);
}

/// Depth, frame, base, j, room, and the count or the verdict, for pairs of `FULL_RUN`.
fn pairs_and_room(tally: &mut Tally, netlist: &Netlist) {
    let refused = |number: u32| Err((number, 0));
    for (row, j, room, expected) in [
        ([2, 1, 3], 0, 31, Ok(31)),
        ([2, 1, 3], 0, 30, refused(NO_ROOM)),
        ([2, 2, 10], 1, 31, Ok(31)),
        ([2, 2, 10], 0, 39, Ok(39)),
        ([2, 2, 10], 0, 38, refused(NO_ROOM)),
        ([2, 2, 10], 2, 600, refused(NO_SUCH_GROUP)),
        ([2, 2, 10], u32::MAX, 600, refused(NO_SUCH_GROUP)),
        ([2, 0, 1], 0, 600, refused(NO_SUCH_GROUP)),
        // 8, then 16, then 9.
        ([2, 2, 11], 2, 0, refused(NO_SUCH_GROUP)),
        ([2, 2, 11], 1, 0, refused(WRONG_BASE)),
        ([2, 2, 11], 1, 600, refused(WRONG_BASE)),
        ([2, 3, 22], 0, 600, refused(NO_SUCH_GROUP)),
        ([256, 2, 11], 2, 0, refused(DEPTH)),
    ] {
        let found = position_of(row).group(netlist, FrameGroup::Pair(j), room);
        let found = found
            .map(|numbers| numbers.len())
            .map_err(|it| (it.number, it.place));
        tally.equal((row, j, room), found, expected);
    }
}

/// The record's tests come before all others.
fn records(tally: &mut Tally) {
    for (name, change, expected) in RECORDS {
        let mut record = accepted(RICH);
        change(&mut record);
        if expected == ACCEPTED {
            continue;
        }
        tally.equal((name, "start"), verdict(start(&record, 256)), expected);
        for row in [[256, 300, 7], [1, 2, 7], [1, 0, 7], [1, 0, 1]] {
            let position = position_of(row);
            let (found, _) = judged_move(tally, name, position, |it| it.on(&record));
            tally.equal((name, row, "on"), found, expected);
            let (found, _) = judged_move(tally, name, position, |it| it.back(&record));
            tally.equal((name, row, "back"), found, expected);
            let found = verdict(position.group(&record, FrameGroup::Pair(300), 0));
            tally.equal((name, row, "pair"), found, expected);
        }
    }
}

/// From frame to frame of random netlists: the base by the sum of the frames before, and each group
/// as by frame number.
pub fn walks(tally: &mut Tally) {
    let mut random = Random::new(30);
    for round in 0..60 {
        let netlist = if round % 3 == 0 {
            wide_netlist(&mut random)
        } else {
            tiny_netlist(&mut random)
        };
        let depth = random.pick(&[0, 1, 4, 30, 255]);
        let mut position = start(&netlist, depth).expect("an accepted netlist");
        let mut base = 1;
        for frame in 0..=depth {
            let expected = Position { depth, frame, base };
            tally.equal((round, frame), position, expected);
            if frame < 6 || frame == depth {
                for group in groups_of(frame) {
                    let by_frame = group_call(&netlist, depth, position.numbered(group), 20_000);
                    let found = position.group(&netlist, group, 20_000);
                    tally.check((round, frame, group), found == by_frame);
                }
            }
            let mut returned = position;
            let went = returned.back(&netlist);
            let zero = Position {
                depth,
                frame: 0,
                base: 1,
            };
            tally.check((round, frame, "back"), went.is_ok() && returned == zero);
            let moved = position.on(&netlist);
            tally.equal((round, frame, "on"), moved.is_ok(), frame < depth);
            // The wires of this frame, and its pairs with all earlier ones.
            base += netlist.wire_count() + frame * (netlist.address_width + 4);
        }
        tally.equal(
            (round, "variables"),
            i64::from(base),
            frame_base(&netlist, depth + 1),
        );
    }
}

fn groups_of(frame: u32) -> Vec<FrameGroup> {
    let mut groups = vec![FrameGroup::Wires];
    groups.extend((0..frame).rev().map(FrameGroup::Pair));
    groups.extend([FrameGroup::Closing, FrameGroup::Property]);
    groups
}

/// Numbers and their decimals.
pub const DECIMALS: [(i32, &str); 21] = [
    (0, "0"),
    (1, "1"),
    (-1, "-1"),
    (9, "9"),
    (10, "10"),
    (-10, "-10"),
    (99, "99"),
    (100, "100"),
    (-101, "-101"),
    (1_000, "1000"),
    (65_536, "65536"),
    (675_841, "675841"),
    (-675_841, "-675841"),
    (999_999_999, "999999999"),
    (1_000_000_000, "1000000000"),
    (-1_000_000_000, "-1000000000"),
    (2_147_483_646, "2147483646"),
    (2_147_483_647, "2147483647"),
    (-2_147_483_646, "-2147483646"),
    (-2_147_483_647, "-2147483647"),
    (-2_147_483_648, "-2147483648"),
];

pub fn numbers(tally: &mut Tally) {
    for (number, text) in DECIMALS {
        for room in 0..=15 {
            let marks: Vec<u8> = (0..room).map(|at| b'A' + at).collect();
            let mut buffer = marks.clone();
            let found = print_number(number, &mut buffer);
            if buffer.len() < text.len() {
                tally.equal((number, room), verdict(found), (NO_ROOM, 0));
                tally.equal((number, room), buffer, marks);
            } else {
                let before = &marks[..marks.len() - text.len()];
                tally.equal((number, room), found, Ok(text.len()));
                tally.equal((number, room), buffer, [before, text.as_bytes()].concat());
            }
        }
    }
}

/// Sheets that are read and written back, each with the exact length.
const SHEETS: [&str; 8] = [
    FULL_RUN,
    RICH,
    UNKNOWN_RICH,
    "N 0 0 0/M 1 1 0/A 0/D 0/C 0 0 0",
    "N 0 0 0/M 1 1/A 0/D 0/C 0 0 0",
    "N 599 0 0/M 1 1 1/A 1198/D 1201/C 1 1 5",
    "N 0 0 0/M 1 32 4294967295/A 0/D 0/D 0/D 0/D 0/D 0/D 0/D 0/D 0/D 0/D 0/D 0/D 0/D 0/D 0/D 0/D 0/D 0/\
     D 0/D 0/D 0/D 0/D 0/D 0/D 0/D 0/D 0/D 0/D 0/D 0/D 0/D 0/D 65/C 64 1 0",
    "N 1 2 0/M 2 1/L 8 1/L 0 0/A 5/A 7/D 2/C 1 1 5",
];

/// The unused part of a record and of its lists, changed.
pub fn change_unused(random: &mut Random, netlist: &mut Netlist) {
    let mut any = || random.next() as u32;
    for code in &mut netlist.address[netlist.address_width as usize..] {
        *code = any();
    }
    for code in &mut netlist.write_data[netlist.data_width as usize..] {
        *code = any();
    }
    if netlist.unknown_start == 1 {
        netlist.start_word = any();
    }
    if netlist.has_two_ports() {
        for code in &mut netlist.second_address[netlist.address_width as usize..] {
            *code = any();
        }
    } else {
        netlist.second_address = netlist.second_address.map(|_| any());
        netlist.second_read_enable = any();
    }
    netlist.latches.push(Latch {
        next: any(),
        reset: any(),
    });
    netlist.gates.push(Gate {
        left: any(),
        right: any(),
    });
}

fn check_write_back(tally: &mut Tally, name: &str, netlist: &Netlist, sheet: &[u8]) {
    let need = sheet.len();
    for room in [need, need + 1, need + 40, usize::MAX] {
        let found = write_back(netlist, room);
        tally.check((name, room), found == Ok(sheet.to_vec()));
    }
    for room in [0, 1, need - LINE_BYTES, need - 1] {
        let found = verdict(write_back(netlist, room));
        tally.equal((name, room), found, (NO_ROOM, 0));
    }
}

pub fn written_back(tally: &mut Tally) {
    let mut random = Random::new(31);
    for short in SHEETS {
        let sheet = expand(short);
        let netlist = accepted(short);
        check_write_back(tally, short, &netlist, &sheet);
        let mut other = netlist.clone();
        change_unused(&mut random, &mut other);
        check_write_back(tally, "unused entries", &other, &sheet);
    }
    let largest = of_sizes([0, 300, 268], [12, 32]);
    check_write_back(tally, "largest", &largest, &largest_sheet());
    // The record's tests come first.
    for (name, change, expected) in RECORDS {
        let mut record = accepted(RICH);
        change(&mut record);
        let room = if expected == ACCEPTED { 600 } else { 0 };
        tally.equal(name, verdict(write_back(&record, room)), expected);
    }
    for round in 0..300 {
        let netlist = wide_netlist(&mut random);
        let mut record = netlist.clone();
        change_unused(&mut random, &mut record);
        let sheet = write_back(&record, 19_680).unwrap_or_default();
        let read = read_sheet(&sheet, 600, 600);
        tally.check((round, "read"), read == Ok(netlist));
        let again = read.and_then(|read| write_back(&read, 19_680));
        tally.check((round, "written again"), again == Ok(sheet));
        let damaged = damaged_record(&mut random, &record);
        let expected = verdict(damaged.check());
        let found = write_back(&damaged, 19_680);
        tally.equal((round, "damaged"), verdict(found), expected);
    }
}

/// Whether every group of a formula taken through positions joins to the numbers of the whole.
pub fn whole_formula(tally: &mut Tally) {
    for (short, depth) in [(FULL_RUN, 3), (RICH, 3), (UNKNOWN_RICH, 3)] {
        let netlist = accepted(short);
        let mut position = start(&netlist, depth).expect("an accepted netlist");
        let mut numbers = Vec::new();
        for frame in 0..=depth {
            let mut groups = groups_of(frame);
            if frame < depth {
                groups.pop();
            }
            for group in groups {
                let need = group_call(&netlist, depth, position.numbered(group), 20_000)
                    .map_or(0, |it| it.len());
                let written = position.group(&netlist, group, need);
                numbers.extend(written.unwrap_or_default());
            }
            tally.equal((short, frame), position.on(&netlist).is_ok(), frame < depth);
        }
        let whole = Formula::new(&netlist, depth, Fault::None).numbers();
        tally.check((short, "joined"), numbers == whole);
        let property = position.group(&netlist, FrameGroup::Property, 600);
        tally.check(
            (short, "property"),
            property == group_call(&netlist, depth, Group::Property, 600),
        );
    }
}
