//! `import` through the static library: the record and the lists, what is left untouched, the order of the tests, and refusals 11,
//! 12, 13, 4, 17, 6 and 9 with their places. 5 is met by no text.

use super::calls::differ;
use super::exports::{import, Answer, Lists};
use super::reference::check_aiger::{
    every_damage, fault_set_rows, plain_text, small_calls, text_rows,
};
use super::reference::check_examples::bytes_of;
use super::reference::check_refusals::{verdict, Verdict, ACCEPTED};
use super::reference::formula::heading;
use super::reference::netlist::Netlist;
use super::reference::random::Random;
use super::reference::random_aiger::{
    add_tail, any_text_netlist, damaged_call, draft_of, random_draft, Call, BYTE_FAULTS, DRAFT_FAULTS,
    NUMBERINGS,
};
use super::reference::refusal::{Refusal, NOT_WELL_FORMED, NO_ROOM, SIZE, WRONG_COUNTS};
use super::reference::Tally;
use super::{Counts, Library};

/// The most entries that are lent: more than any text needs.
const MOST_ROOM: usize = 1_300;

impl Library {
    /// What the call answers; counted. A room beyond what can be lent is cut down to what is always enough.
    fn imported(&self, call: &Call) -> Answer<Netlist> {
        let rooms = call.rooms.map(|room| room.min(MOST_ROOM));
        let found = import(&call.text, call.memory, call.unknown_start, call.second_port, rooms);
        Counts::add(&self.imports, &found);
        found
    }

    /// One check: `import` answers and writes what the second implementation does.
    pub fn import_agrees(&self, tally: &mut Tally, name: impl std::fmt::Debug, call: &Call) {
        let (found, expected) = (self.imported(call), Ok(call.import()));
        tally.check_with(name, found == expected, || {
            let text = call.text.escape_ascii().to_string();
            let start = (call.memory, call.unknown_start, call.second_port);
            differ((text, start, call.rooms), &found, &expected)
        });
    }

    /// One check: the number and the place that were written down.
    fn import_verdict(
        &self,
        tally: &mut Tally,
        name: impl std::fmt::Debug,
        call: &Call,
        expected: Verdict,
    ) {
        tally.equal(name, self.imported(call).map(verdict), Ok(expected));
    }
}

/// The second implementation's tables, with the netlists and the refusals that were written down.
pub fn tables(library: &Library, tally: &mut Tally) {
    for (name, call, expected) in text_rows() {
        let expected = expected.map_err(|(number, place)| Refusal { number, place });
        let found = library.imported(&call);
        tally.check_with(&name, found == Ok(expected.clone()), || {
            differ(&name, &found, &Ok(expected))
        });
        library.import_agrees(tally, &name, &call);
    }
}

/// All sets of sixteen faults: the first in the order of the tests decides.
pub fn fault_sets(library: &Library, tally: &mut Tally) {
    for (names, call, expected) in fault_set_rows() {
        library.import_verdict(tally, names, &call, expected);
    }
}

/// A fault on a random text is refused as it says; beside a fault of the bytes, which is always 11, the first line of 11 decides.
pub fn predicted_faults(library: &Library, tally: &mut Tally) {
    let mut random = Random::new(611);
    for round in 0..12 {
        for (name, fault) in DRAFT_FAULTS {
            let (_, mut draft) = random_draft(&mut random);
            let refusal = match fault(&mut random, &mut draft) {
                Some(refusal) => refusal,
                None => continue,
            };
            let mut call = draft.call();
            library.import_verdict(tally, (round, name), &call, (refusal.number, refusal.place));
            let (other, byte_fault) = random.pick(&BYTE_FAULTS);
            if let Some(malformed) = byte_fault(&mut random, &draft, &mut call) {
                let place = match refusal.number {
                    NOT_WELL_FORMED => refusal.place.min(malformed.place),
                    _ => malformed.place,
                };
                library.import_verdict(
                    tally,
                    (round, name, other),
                    &call,
                    (NOT_WELL_FORMED, place),
                );
            }
        }
    }
}

/// Random texts in every numbering, with whatever follows, and lists of exact, long and short length. What is delivered is the
/// netlist that the text was written from, and no test of records refuses it.
pub fn rooms(library: &Library, tally: &mut Tally) {
    let mut random = Random::new(612);
    for round in 0..60 {
        let netlist = any_text_netlist(&mut random);
        for numbering in NUMBERINGS {
            let mut call = draft_of(&mut random, &netlist, numbering).call();
            add_tail(&mut random, &mut call);
            let [latches, gates] = call.rooms;
            let long_enough = [
                [latches, gates],
                [latches + 1, gates],
                [latches, gates + 1],
                [latches + 700, gates + 700],
            ];
            for rooms in long_enough {
                call.rooms = rooms;
                let found = library.imported(&call);
                tally.check_with(
                    (round, numbering, rooms),
                    found == Ok(Ok(netlist.clone())),
                    || {
                        differ(
                            call.text.escape_ascii().to_string(),
                            &found,
                            &Ok(Ok(netlist.clone())),
                        )
                    },
                );
            }
            let too_short = [
                [latches.wrapping_sub(1), gates],
                [latches, gates.wrapping_sub(1)],
                [0, gates],
                [latches, 0],
                [0, 0],
            ];
            for rooms in too_short {
                let [fewer_latches, fewer_gates] = rooms;
                if fewer_latches > latches || fewer_gates > gates || rooms == [latches, gates] {
                    continue;
                }
                call.rooms = rooms;
                library.import_verdict(tally, (round, numbering, rooms), &call, (NO_ROOM, 0));
            }
        }
        let expected = heading(&netlist, 3).map(|it| (it.variables as u32, it.clauses as u32));
        tally.check((round, "accepted"), expected.is_ok());
        tally.equal(
            (round, "heading"),
            Lists::new(&netlist).heading(3),
            Ok(expected),
        );
    }
}

/// m and n on both sides of their limits, and numbers that wrap where 32 bits are added up.
const WIDTHS: [u32; 16] = [
    0,
    1,
    2,
    3,
    11,
    12,
    13,
    31,
    32,
    33,
    34,
    600,
    1 << 31,
    u32::MAX - 3,
    u32::MAX - 1,
    u32::MAX,
];

/// The verdict by rule on a text with all codes 0 and no latch or gate.
fn of_widths(
    inputs: u32,
    outputs: u32,
    [m, n, word]: [u32; 3],
    [unknown_start, second_port]: [u32; 2],
) -> Verdict {
    let [wide, high, ports] = [n, m, second_port].map(u128::from);
    let reads = wide + ports * wide;
    let due = high + wide + ports * (high + 1) + 3;
    if u128::from(outputs) != due || u128::from(inputs) < reads {
        return (WRONG_COUNTS, 0);
    }
    if u128::from(inputs) - reads > 600 {
        return (SIZE, 1);
    }
    let widths_fit = (1..=12).contains(&m) && (1..=32).contains(&n);
    let start_fits = || match unknown_start {
        0 => u64::from(word) < 1 << n,
        flag => flag == 1,
    };
    let ports_fit = second_port == 0 || (second_port == 1 && unknown_start == 0);
    if !widths_fit || inputs > 600 || !start_fits() || !ports_fit {
        return (SIZE, 2);
    }
    ACCEPTED
}

/// Every kind of m, n, start word and flags on texts whose outputs are as many as they ask for, in 32 bits, one fewer or one more.
pub fn memories(library: &Library, tally: &mut Tally) {
    for (m, n) in pairs(&WIDTHS) {
        for ports in PORTS {
            let second = ports.wrapping_mul(m.wrapping_add(1));
            let due = m.wrapping_add(n).wrapping_add(second).wrapping_add(3);
            // Where the sum is too large for a text, any number of outputs will do.
            let due = if due > 700 { 5 } else { due };
            let reads = n.min(700) * (1 + ports.min(3));
            for outputs in [due.saturating_sub(1), due, due + 1] {
                for inputs in [0, 1, reads.saturating_sub(1), reads, 35, 600, 601, 640] {
                    let text = bytes_of(&plain_text([inputs, 0, 0], outputs));
                    memories_of(library, tally, &text, [inputs, outputs], [m, n, ports]);
                }
            }
        }
    }
}

/// No port beside the first, one, more, and numbers whose products wrap.
const PORTS: [u32; 5] = [0, 1, 2, 1 << 31, u32::MAX];

fn memories_of(
    library: &Library,
    tally: &mut Tally,
    text: &[u8],
    [inputs, outputs]: [u32; 2],
    [m, n, second_port]: [u32; 3],
) {
    let top = 1u32.checked_shl(n).unwrap_or(0);
    let starts = [
        (0, 0),
        (1, 0),
        (top.wrapping_sub(1), 0),
        (top, 0),
        (u32::MAX, 0),
        (0, 1),
        (u32::MAX, 1),
        (0, 2),
        (0, u32::MAX),
    ];
    // One port has them all; the others a given start, one too large and an unknown one.
    let starts = match second_port {
        0 => starts.to_vec(),
        _ => vec![starts[0], starts[3], starts[5]],
    };
    for (word, unknown_start) in starts {
        let memory = [m, n, word];
        let flags = [unknown_start, second_port];
        let call = Call {
            text: text.to_vec(),
            memory,
            unknown_start,
            second_port,
            rooms: [0, 0],
        };
        let expected = of_widths(inputs, outputs, memory, flags);
        let name = (inputs, outputs, memory, flags);
        library.import_verdict(tally, name, &call, expected);
    }
}

fn pairs(numbers: &[u32]) -> Vec<(u32, u32)> {
    let with_all = |one: &u32| {
        let one = *one;
        numbers.iter().map(move |other| (one, *other))
    };
    numbers.iter().flat_map(with_all).collect()
}

/// Headers whose counts have nothing to do with the lines behind them, up to the largest number in each place: the first line that
/// is missing or is not of the kind due. Were a loop or a sum to run by such a count, these calls would not end, or wrap around.
pub fn counts(library: &Library, tally: &mut Tally) {
    let numbers = [0, 1, 2, 5, 1 << 31, u32::MAX - 6, u32::MAX - 1, u32::MAX];
    let lines = [
        "",
        "2/4/0/2/1/1/5/",
        "2 0/4 0/",
        "2 0 0/4 0 0/",
        "0/0/0/0/0/",
    ];
    for (latches, outputs) in pairs(&numbers) {
        for (inputs, gates) in pairs(&numbers) {
            for lines in lines {
                let largest = if (latches ^ gates) & 1 == 0 {
                    u32::MAX
                } else {
                    2
                };
                let header = format!("aag {largest} {inputs} {latches} {outputs} {gates}/");
                let call = Call {
                    text: bytes_of(&(header.clone() + lines)),
                    memory: [1, 1, 0],
                    unknown_start: 0,
                    second_port: 0,
                    rooms: [0, 0],
                };
                library.import_agrees(tally, header, &call);
            }
        }
    }
    // No line at all behind the header: 11 at line 2.
    for (place, count) in (1..).zip(["", "0 ", "0 0 ", "0 0 0 "]) {
        for number in [1, 1 << 31, u32::MAX] {
            let zeros = " 0".repeat(4 - place);
            let call = Call {
                text: bytes_of(&format!("aag {} {count}{number}{zeros}/", u32::MAX)),
                memory: [1, 1, 0],
                unknown_start: 0,
                second_port: 0,
                rooms: [0, 0],
            };
            library.import_verdict(tally, (place, number), &call, (NOT_WELL_FORMED, 2));
        }
    }
}

/// Texts damaged at every byte and in every line, and random ones with one fault or two.
pub fn damaged(library: &Library, tally: &mut Tally) {
    for small in small_calls() {
        for call in every_damage(&small) {
            library.import_agrees(tally, "small", &call);
        }
    }
    let mut random = Random::new(613);
    for round in 0..2_500 {
        library.import_agrees(tally, round, &damaged_call(&mut random));
    }
}

/// A text that ends early while the rest of it still stands behind it in memory: the rest does not count. A text of which only the
/// front is due: nothing behind that counts.
pub fn ends(library: &Library, tally: &mut Tally) {
    let mut random = Random::new(614);
    let mut calls = small_calls();
    calls.extend((0..3).map(|_| random_draft(&mut random).1.call()));
    for call in calls {
        let (lines, due) = lines_due(&call.text);
        for end in 0..due {
            let found = import(
                &call.text[..end],
                call.memory,
                call.unknown_start,
                call.second_port,
                call.rooms,
            );
            Counts::add(&library.imports, &found);
            let whole_lines = call.text[..end]
                .iter()
                .filter(|byte| **byte == b'\n')
                .count();
            let expected = (NOT_WELL_FORMED, whole_lines as u32 + 1);
            tally.equal((lines, end), found.map(verdict), Ok(expected));
        }
        for end in due..=call.text.len() {
            let found = import(
                &call.text[..end],
                call.memory,
                call.unknown_start,
                call.second_port,
                call.rooms,
            );
            tally.equal((lines, end), found, Ok(call.import()));
        }
    }
}

/// How many lines the header asks for with itself, and how many bytes they have; the text is well-formed.
fn lines_due(text: &[u8]) -> (usize, usize) {
    let header = text.split(|byte| *byte == b'\n').next().expect("a header");
    let header = String::from_utf8(header.to_vec()).expect("ASCII");
    let count = |word: &str| word.parse::<usize>().expect("a count");
    let lines = 1 + header.split(' ').skip(2).map(count).sum::<usize>();
    let bytes = text.split_inclusive(|byte| *byte == b'\n').take(lines);
    (lines, bytes.map(<[u8]>::len).sum())
}
