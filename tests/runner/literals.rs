//! Literals of a running record's frame (RULES R8 and T52) through the static library: by hand, and against the groups that its calls write.
//! No paper has this call, and so the second implementation has none.

use super::calls::{differ, record_rows};
use super::exports::{Answer, Lists};
use super::mutate::wide;
use super::positions::{hostile_position, ON, START};
use super::reference::check_examples::{accepted, FULL_RUN, RICH};
use super::reference::check_ports::TWO_RICH;
use super::reference::check_position::position_of;
use super::reference::formula::frame_base;
use super::reference::netlist::{Netlist, MAX_DEPTH};
use super::reference::position::Position;
use super::reference::random::Random;
use super::reference::refusal::*;
use super::reference::Tally;
use super::{Counts, Library};

/// Depth, frame and base of a record, a code, and its literal or the number of the refusal.
type Row = ([u32; 3], u32, Result<i32, u32>);

/// Of `FULL_RUN`: V = 2 and m = 1, so B is 1, 3, 10 and, in frame 255, 162,436.
const OF_FULL_RUN: [Row; 38] = [
    ([1, 0, 1], 0, Ok(-1)),
    ([1, 0, 1], 1, Ok(1)),
    ([1, 0, 1], 2, Ok(2)),
    ([1, 0, 1], 3, Ok(-2)),
    ([1, 0, 1], 4, Ok(3)),
    ([1, 0, 1], 5, Ok(-3)),
    ([1, 1, 3], 0, Ok(-1)),
    ([1, 1, 3], 1, Ok(1)),
    ([1, 1, 3], 2, Ok(4)),
    ([1, 1, 3], 3, Ok(-4)),
    ([1, 1, 3], 4, Ok(5)),
    ([1, 1, 3], 5, Ok(-5)),
    ([2, 2, 10], 4, Ok(12)),
    ([255, 2, 10], 5, Ok(-12)),
    ([255, 255, 162_436], 0, Ok(-1)),
    ([255, 255, 162_436], 2, Ok(162_437)),
    ([255, 255, 162_436], 5, Ok(-162_438)),
    // The first code that is none.
    ([1, 0, 1], 6, Err(CODE)),
    ([1, 1, 3], 7, Err(CODE)),
    ([255, 255, 162_436], u32::MAX, Err(CODE)),
    ([1, 0, 1], 1 << 31, Err(CODE)),
    ([256, 0, 1], 2, Err(DEPTH)),
    ([u32::MAX, 0, 1], 2, Err(DEPTH)),
    ([0, 1, 3], 2, Err(NO_SUCH_GROUP)),
    ([1, 2, 10], 2, Err(NO_SUCH_GROUP)),
    ([255, 256, 163_713], 2, Err(NO_SUCH_GROUP)),
    ([1, 0, 0], 2, Err(WRONG_BASE)),
    ([1, 1, 1], 2, Err(WRONG_BASE)),
    ([1, 1, 4], 0, Err(WRONG_BASE)),
    ([1, 1, 0x8000_0003], 2, Err(WRONG_BASE)),
    // Two at once, and all: 7, 8, 16, 5.
    ([256, 257, 164_995], 2, Err(DEPTH)),
    ([256, 0, 2], 2, Err(DEPTH)),
    ([256, 0, 1], 6, Err(DEPTH)),
    ([1, 2, 11], 2, Err(NO_SUCH_GROUP)),
    ([1, 2, 10], 6, Err(NO_SUCH_GROUP)),
    ([1, 1, 4], 6, Err(WRONG_BASE)),
    ([1, u32::MAX, u32::MAX], u32::MAX, Err(NO_SUCH_GROUP)),
    ([u32::MAX, u32::MAX, u32::MAX], u32::MAX, Err(DEPTH)),
];

/// Of `RICH`: V = 5 and m = 2, so B is 1, 6 and 17. Its P is code 9, the inverted wire 4.
const OF_RICH: [Row; 8] = [
    ([2, 0, 1], 8, Ok(5)),
    ([2, 1, 6], 8, Ok(10)),
    ([2, 2, 17], 8, Ok(21)),
    ([2, 2, 17], 9, Ok(-21)),
    ([2, 1, 6], 10, Ok(11)),
    ([2, 1, 6], 11, Ok(-11)),
    ([2, 1, 6], 12, Err(CODE)),
    ([2, 2, 16], 8, Err(WRONG_BASE)),
];

/// Of `TWO_RICH`: V = 7 and m = 2, so B is 1, 8, 27 and, in frame 255, 1 + 255 * 7 + 12 * 255 * 254 / 2. Wires 5 and 6 are the second port's read bits,
/// wire 7 is the gate.
const OF_TWO_RICH: [Row; 12] = [
    ([2, 0, 1], 10, Ok(6)),
    ([2, 0, 1], 15, Ok(-8)),
    ([2, 1, 8], 10, Ok(13)),
    ([2, 1, 8], 12, Ok(14)),
    ([2, 2, 27], 11, Ok(-32)),
    ([2, 2, 27], 14, Ok(34)),
    ([255, 255, 390_406], 14, Ok(390_413)),
    ([2, 1, 8], 16, Err(CODE)),
    ([2, 2, 27], u32::MAX, Err(CODE)),
    // The bases of the M sheet with these sizes, and with as many wires.
    ([2, 1, 6], 8, Err(WRONG_BASE)),
    ([2, 2, 17], 8, Err(WRONG_BASE)),
    ([2, 2, 21], 8, Err(WRONG_BASE)),
];

impl Library {
    /// What the call answers; counted.
    fn literal(&self, lists: &Lists, position: Position, code: u32) -> Answer<i32> {
        let found = lists.literal_at(position, code);
        Counts::add(&self.literals, &found);
        found
    }

    pub fn literal_agrees(
        &self,
        tally: &mut Tally,
        netlist: &Netlist,
        position: Position,
        code: u32,
    ) {
        let found = self.literal(&Lists::new(netlist), position, code);
        let due = Ok(due(netlist, position, code));
        tally.check_with((position, code), found == due, || {
            differ(netlist, &found, &due)
        });
    }
}

/// RULES T52: 4, then 7, 8, 16, then 5; no list and no code of the record is looked at.
fn due(netlist: &Netlist, position: Position, code: u32) -> Result<i32, Refusal> {
    netlist.check_line(1)?;
    netlist.check_line(2)?;
    require(position.depth <= MAX_DEPTH, DEPTH, 0)?;
    require(position.frame <= position.depth, NO_SUCH_GROUP, 0)?;
    let base = frame_base(netlist, position.frame);
    require(i64::from(position.base) == base, WRONG_BASE, 0)?;
    require(code <= 2 * netlist.wire_count() + 1, CODE, 0)?;
    let positive = match code / 2 {
        0 => -1,
        wire => base as i32 + wire as i32,
    };
    Ok(if code % 2 == 0 { positive } else { -positive })
}

/// The rows, and every record of the table of records: only 4 is tested of it.
pub fn tables(library: &Library, tally: &mut Tally) {
    let tables = [
        (FULL_RUN, &OF_FULL_RUN[..]),
        (RICH, &OF_RICH[..]),
        (TWO_RICH, &OF_TWO_RICH[..]),
    ];
    for (short, rows) in tables {
        let netlist = accepted(short);
        let lists = Lists::new(&netlist);
        for (row, code, expected) in rows {
            let expected = expected.map_err(|number| Refusal { number, place: 0 });
            let found = library.literal(&lists, position_of(*row), *code);
            tally.equal((short, row, code), found, Ok(expected));
            library.literal_agrees(tally, &netlist, position_of(*row), *code);
        }
    }
    for (name, record, (number, place)) in record_rows() {
        // Of frame 0, whose base is that of every record; then with all the faults behind 4.
        let found = library.literal(&Lists::new(&record), position_of([2, 0, 1]), 8);
        let expected = match number {
            SIZE => Err(Refusal { number, place }),
            _ => Ok(5),
        };
        tally.equal((name, "frame 0"), found, Ok(expected));
        for row in [
            [256, 300, 7],
            [1, 2, 7],
            [2, 1, 7],
            [2, 1, 6],
            [2, 1, 8],
            [2, 0, 1],
        ] {
            for code in [0, 8, 12, 16, u32::MAX] {
                library.literal_agrees(tally, &record, position_of(row), code);
            }
        }
    }
}

/// What is written of clauses in which 1 and -1 stand for the constants (RULES G28 and G29): no wire has variable 1.
pub fn written(clauses: &[Vec<i32>]) -> Vec<i32> {
    let mut numbers = Vec::new();
    for clause in clauses.iter().filter(|clause| !clause.contains(&1)) {
        let before = numbers.len();
        numbers.extend(clause.iter().filter(|literal| **literal != -1));
        if numbers.len() == before {
            numbers.push(-1);
        }
        numbers.push(0);
    }
    numbers
}

/// The literals of all codes in a frame. Each call is a check: none is refused.
pub fn literals(
    library: &Library,
    tally: &mut Tally,
    lists: &Lists,
    netlist: &Netlist,
    position: Position,
) -> Vec<i32> {
    (0..2 * netlist.wire_count() + 2)
        .map(|code| match library.literal(lists, position, code) {
            Ok(Ok(literal)) => literal,
            found => {
                tally.check((position, code, found), false);
                0
            }
        })
        .collect()
}

/// The wires group of a frame, from the literals of all codes in it and in the frame before (RULES G1, G3 to G5).
fn wires(netlist: &Netlist, before: Option<&[i32]>, own: &[i32]) -> Vec<i32> {
    let mut clauses = Vec::new();
    for (wire, latch) in (netlist.first_latch()..).zip(&netlist.latches) {
        let own = own[2 * wire as usize];
        match before {
            None if latch.reset == 0 => clauses.push(vec![-own]),
            None => clauses.push(vec![own]),
            Some(before) => {
                let next = before[latch.next as usize];
                clauses.extend([vec![-own, next], vec![own, -next]]);
            }
        }
    }
    for (wire, gate) in (netlist.first_gate()..).zip(&netlist.gates) {
        let own_literal = own[2 * wire as usize];
        let (left, right) = (own[gate.left as usize], own[gate.right as usize]);
        clauses.extend([
            vec![-own_literal, left],
            vec![-own_literal, right],
            vec![own_literal, -left, -right],
        ]);
    }
    let first: &[i32] = match before {
        None => &[1, 0],
        Some(_) => &[],
    };
    [first, &written(&clauses)].concat()
}

/// Groups that are made of literals of wires alone, put together from the literals that the calls answer: the wires of each frame, and
/// the property, whose clause is the literal of P's inverse in each frame.
pub fn groups(library: &Library, tally: &mut Tally) {
    let mut random = Random::new(1401);
    let mut constants = 0;
    for round in 0..200 {
        let mut netlist = wide(&mut random);
        if round % 8 == 0 {
            netlist.property = round / 8 % 2;
            constants += 1;
        }
        let lists = Lists::new(&netlist);
        let depth = match round {
            0..=2 => MAX_DEPTH,
            _ => random.pick(&[0, 1, 2, 3, 5]),
        };
        let (_, mut position) = lists.move_position(position_of([depth, 0, 0]), START);
        let mut property = Vec::new();
        let mut before: Option<Vec<i32>> = None;
        for frame in 0..=depth {
            let own = literals(library, tally, &lists, &netlist, position);
            tally.equal((round, frame, "constants"), &own[..2], &[-1, 1][..]);
            let due = wires(&netlist, before.as_deref(), &own);
            let found = lists.write_group(depth, (0, 0, frame, 0), due.len());
            tally.check_with((round, frame, "wires"), found == Ok(Ok(due)), || {
                format!(": {netlist:?}")
            });
            property.push(own[netlist.property as usize ^ 1]);
            before = Some(own);
            position = lists.move_position(position, ON).1;
        }
        let due = written(&[property]);
        let found = lists.write_group(depth, (3, 0, 0, 0), due.len());
        tally.check_with((round, "property"), found == Ok(Ok(due)), || {
            format!(": {netlist:?}")
        });
    }
    tally.check(("constant properties", constants), constants >= 20);
}

/// One hostile call: a record with any sizes, and codes on both sides of the limit.
pub fn any(library: &Library, tally: &mut Tally, random: &mut Random, netlist: &Netlist) {
    let position = hostile_position(random, netlist);
    let code = match random.below(8) {
        0 => random.pick(&[1202, 1203, 1 << 31, u32::MAX]),
        1 => random.next() as u32 >> random.below(32),
        _ => random.below(24),
    };
    library.literal_agrees(tally, netlist, position, code);
}
