//! The calls that print, through the static library: texts, counts, refusal 9, and what is left untouched.

use super::calls::differ;
use super::exports::{put_clauses, put_header, put_number, put_refusal, Answer};
use super::reference::check_examples::{accepted, input, FULL_RUN};
use super::reference::formula::{
    clauses_text, frames, header_text, heading, refusal_text, Fault, Formula, Heading,
};
use super::reference::random::Random;
use super::reference::refusal::{require, Refusal, NO_ROOM};
use super::reference::Tally;
use super::{Counts, Library};

/// Every number of digits, on both sides of a power of ten, and the limits of 31 and 32 bits.
fn numbers() -> Vec<u32> {
    let powers = (0..10).flat_map(|exponent| {
        let power = 10u32.pow(exponent);
        [power - 1, power, power + 1]
    });
    powers
        .chain([i32::MAX as u32, i32::MAX as u32 + 1, u32::MAX - 1, u32::MAX])
        .collect()
}

/// The text with room for it, and refusal 9 without.
fn expected(text: &[u8], room: usize) -> Answer<Vec<u8>> {
    Ok(require(room >= text.len(), NO_ROOM, 0).map(|()| text.to_vec()))
}

/// One check for each of several rooms around the text's length.
fn agrees(
    tally: &mut Tally,
    counts: &std::cell::RefCell<Counts>,
    text: &[u8],
    call: impl Fn(usize) -> Answer<Vec<u8>>,
) {
    let need = text.len();
    for room in [
        need,
        need + 1,
        need + 100,
        need.saturating_sub(1),
        need / 2,
        0,
    ] {
        let (found, expected) = (call(room), expected(text, room));
        Counts::add(counts, &found);
        tally.check_with(room, found == expected, || {
            differ(text.escape_ascii().to_string(), &found, &expected)
        });
    }
}

impl Library {
    fn header_agrees(&self, tally: &mut Tally, variables: u32, clauses: u32) {
        let text = header_text(variables.into(), clauses.into());
        agrees(tally, &self.headers, &text, |room| {
            put_header(variables, clauses, room)
        });
    }

    fn clauses_agree(&self, tally: &mut Tally, numbers: &[i32]) {
        let text = clauses_text(numbers);
        agrees(tally, &self.clauses, &text, |room| {
            put_clauses(numbers, room)
        });
    }

    fn refusal_agrees(&self, tally: &mut Tally, number: u32, place: u32) {
        let text = refusal_text(Refusal { number, place });
        agrees(tally, &self.refusals, &text, |room| {
            put_refusal(number, place, room)
        });
    }
}

impl Library {
    /// A number filled from the right into slices of these lengths, against Rust's own decimal.
    fn number_agrees(
        &self,
        tally: &mut Tally,
        number: i32,
        rooms: impl IntoIterator<Item = usize>,
    ) {
        let text = number.to_string().into_bytes();
        for room in rooms {
            let (found, expected) = (put_number(number, room), expected(&text, room));
            Counts::add(&self.numbers, &found);
            tally.check_with((number, room), found == expected, || {
                differ(number, &found, &expected)
            });
        }
    }
}

/// Both ends of every length and sign, into slices of every length up to two above the longest number, and a million random numbers.
pub fn filled(library: &Library, tally: &mut Tally) {
    for number in numbers() {
        let number = number as i32;
        library.number_agrees(tally, number, 0..=13);
        library.number_agrees(tally, number.wrapping_neg(), 0..=13);
    }
    // written down by hand: the least number and its neighbours, zero, and what stands before a number
    let rows: [(i32, usize, &[u8]); 8] = [
        (i32::MIN, 11, b"-2147483648"),
        (i32::MIN, 13, b"-2147483648"),
        (i32::MIN + 1, 11, b"-2147483647"),
        (i32::MAX, 10, b"2147483647"),
        (0, 1, b"0"),
        (0, 13, b"0"),
        (-1, 2, b"-1"),
        (-10, 3, b"-10"),
    ];
    for (number, room, text) in rows {
        let found = put_number(number, room);
        tally.check((number, room), found == Ok(Ok(text.to_vec())));
        let short = put_number(number, text.len() - 1);
        tally.check((number, "short"), short == expected(text, text.len() - 1));
    }
    let mut random = Random::new(802);
    for _ in 0..1_000_000 {
        any_number(library, tally, &mut random);
    }
}

/// A number of any length and sign, into a slice of any length up to two above the longest number.
fn any_number(library: &Library, tally: &mut Tally, random: &mut Random) {
    let plain = number(random) as i32;
    let signed = if random.percent(50) { plain.wrapping_neg() } else { plain };
    library.number_agrees(tally, signed, [random.index(14)]);
}

/// Numbers at their limits in each text, and none at all.
pub fn limits(library: &Library, tally: &mut Tally) {
    for first in numbers() {
        for second in [0, 1, 9, 10, 600, u32::MAX] {
            library.header_agrees(tally, first, second);
            library.header_agrees(tally, second, first);
            library.refusal_agrees(tally, first, second);
            library.refusal_agrees(tally, second, first);
        }
    }
    let lists: [&[i32]; 9] = [
        &[],
        &[0],
        &[0, 0],
        &[i32::MIN],
        &[i32::MAX],
        &[i32::MIN, 0, i32::MAX, 0],
        &[1, 0],
        &[0, 1],
        &[-1, 1, 0, -2],
    ];
    for list in lists {
        library.clauses_agree(tally, list);
    }
    for number in numbers() {
        let number = number as i32;
        library.clauses_agree(tally, &[number]);
        library.clauses_agree(tally, &[number.wrapping_neg(), 0]);
    }
    let most = [i32::MIN; 20_000];
    library.clauses_agree(tally, &most);
    // worked out by hand: numbers that make no clause
    let others: [(&[i32], &[u8]); 5] = [
        (&[0, 0], b"0\n0\n"),
        (&[0, 7], b"0\n7 "),
        (&[i32::MIN], b"-2147483648 "),
        (&[5, i32::MIN, 0], b"5 -2147483648 0\n"),
        (&[i32::MIN + 1, i32::MAX, 0], b"-2147483647 2147483647 0\n"),
    ];
    for (numbers, text) in others {
        agrees(tally, &library.clauses, text, |room| put_clauses(numbers, room));
    }
}

/// A number of any length.
fn number(random: &mut Random) -> u32 {
    random.next() as u32 >> random.below(32)
}

/// Numbers of every length and both signs, with end marks anywhere.
fn list(random: &mut Random) -> Vec<i32> {
    let count = random.index(120);
    (0..count)
        .map(|_| match random.below(10) {
            0 | 1 => 0,
            2..=5 => (number(random) as i32).wrapping_neg(),
            _ => number(random) as i32,
        })
        .collect()
}

/// One text of random numbers.
pub fn any(library: &Library, tally: &mut Tally, random: &mut Random) {
    match random.below(4) {
        0 => library.header_agrees(tally, number(random), number(random)),
        1 => library.refusal_agrees(tally, number(random), number(random)),
        2 => any_number(library, tally, random),
        _ => library.clauses_agree(tally, &list(random)),
    }
}

pub fn random(library: &Library, tally: &mut Tally) {
    let mut random = Random::new(801);
    for _ in 0..1_200 {
        any(library, tally, &mut random);
    }
}

/// Header and clauses of each group, joined: the text of the whole formula.
pub fn joined(_: &Library, tally: &mut Tally) {
    for depth in [0, 1, 2, 17, 255] {
        let netlist = accepted(FULL_RUN);
        let Heading { variables, clauses } = heading(&netlist, depth).expect("an accepted record");
        let formula = Formula::new(&netlist, depth, Fault::None);
        let text = |found: Answer<Vec<u8>>| found.expect("a promise kept").expect("room");
        let mut found = text(put_header(variables as u32, clauses as u32, 100));
        for group in formula.groups() {
            let numbers = formula.group(group);
            found.extend(text(put_clauses(&numbers, 12 * numbers.len())));
        }
        tally.check(("depth", depth), found == frames(&input(depth, FULL_RUN)));
    }
}
