//! Calls that check certificates, good ones, damaged ones and noise, with any lengths and contents of what is lent, each compared with the second
//! checkers in the whole answer and in what is left.

use std::collections::HashMap;

use super::certificates::{Call, Claim};
use super::honest::{chip, clauses_of, forever, small_chip, split, to_depth};
use super::invariant::{Forever, Step};
use super::mutate;
use super::reachable::States;
use super::reference::random::Random;
use super::reference::sheet::{read_depth, read_sheet, write_depth, write_sheet, DEPTH_LINE_BYTES};
use super::reference::Tally;
use super::refutation::{Certificate, Outcome};
use super::{Counts, Library};

/// No refutation that is damaged has more lemmas: small ones are damaged where it matters more often.
const MOST_LEMMAS: usize = 60;
/// Of a table of all steps of a chip.
const MOST_BITS: usize = 14;

/// What is certified, and whether the chip's states bear it out.
type Certified = HashMap<Vec<u8>, bool>;

impl Library {
    /// The answer, and what store and marks hold then; counted. What is certified is held to all states of its chip, where these are few.
    fn certificate_agrees(&self, tally: &mut Tally, name: &str, call: &Call, certified: &mut Certified) {
        if let Some(outcome) = call.agrees(tally, name) {
            if outcome.is_certified() {
                let (Claim::ToDepth(input, _) | Claim::Forever(input, _)) = &call.claim;
                let safe = *certified.entry(input.clone()).or_insert_with(|| is_safe(&call.claim));
                tally.check_with("certified", safe, || format!(": {:?}", call.claim));
            }
            let counts = match (&call.claim, outcome.is_certified()) {
                (Claim::ToDepth(..), false) => &self.certificates,
                (Claim::ToDepth(..), true) => &self.certified,
                (Claim::Forever(..), false) => &self.forevers,
                (Claim::Forever(..), true) => &self.forever_certified,
            };
            Counts::count(counts, outcome.number);
        }
    }
}

/// Whether what a claim says is so, by all states of its chip; taken as so where these are many.
fn is_safe(claim: &Claim) -> bool {
    let (depth, sheet) = match claim {
        Claim::ToDepth(input, _) => read_depth(input).map(|(depth, sheet)| (Some(depth), sheet)).expect("a depth"),
        Claim::Forever(sheet, _) => (None, sheet.as_slice()),
    };
    let netlist = read_sheet(sheet, usize::MAX, usize::MAX).expect("an accepted sheet");
    if States::size_of(&netlist) > MOST_BITS {
        return true;
    }
    let states = States::new(&netlist);
    depth.map_or_else(|| states.is_safe(), |depth| states.is_safe_to(depth))
}

/// A certificate that certifies a random chip to some depth.
fn good_to_depth(random: &mut Random) -> (Vec<u8>, Certificate) {
    loop {
        let (netlist, depth) = (chip(random), random.pick(&[0, 1, 1, 2, 3]));
        if let Ok(certificate) = to_depth(&netlist, depth, &split(MOST_LEMMAS)) {
            return ([write_depth(depth), write_sheet(&netlist)].concat(), certificate);
        }
    }
}

/// A certificate that certifies a random chip for ever.
fn good_forever(random: &mut Random) -> (Vec<u8>, Forever) {
    loop {
        let netlist = small_chip(random, 12);
        let states = States::new(&netlist);
        if !states.is_safe() {
            continue;
        }
        let set = if random.percent(50) { states.harmless() } else { states.closed(states.starts()) };
        let invariant = clauses_of(random, states.bits, &set);
        if let Ok(certificate) = forever(&netlist, &invariant, &split(MOST_LEMMAS)) {
            return (write_sheet(&netlist), certificate);
        }
    }
}

/// Good certificates to begin with.
pub struct Pool {
    to_depth: Vec<(Vec<u8>, Certificate)>,
    forever: Vec<(Vec<u8>, Forever)>,
}

impl Pool {
    pub fn new(random: &mut Random, count: usize) -> Pool {
        Pool { to_depth: (0..count).map(|_| good_to_depth(random)).collect(), forever: (0..count).map(|_| good_forever(random)).collect() }
    }
}

/// A number of a clause: mostly one that is near.
fn literal(random: &mut Random, list: &[i32]) -> i32 {
    let number = match random.below(10) {
        0..=2 => 0,
        3..=5 if !list.is_empty() => random.pick(list).wrapping_neg(),
        6 => random.pick(&[i32::MIN, i32::MAX, -i32::MAX, 1 << 30, 65_536]),
        _ => random.below(40) as i32,
    };
    if random.percent(50) {
        number
    } else {
        number.wrapping_neg()
    }
}

/// A count of hints or a place: mostly one that is near.
fn hint(random: &mut Random, list: &[u32]) -> u32 {
    match random.below(8) {
        0..=2 if !list.is_empty() => random.pick(list),
        3 | 4 if !list.is_empty() => random.pick(list).wrapping_add(random.pick(&[1, 2, u32::MAX])),
        5 => random.pick(&[u32::MAX, u32::MAX - 1, 1 << 31, 1 << 30, 4_096]),
        _ => random.below(80),
    }
}

/// A number of a request: mostly a kind or a small index.
fn request(random: &mut Random, list: &[u32]) -> u32 {
    match random.below(10) {
        0 => random.pick(&[u32::MAX, u32::MAX - 1, 1 << 31, (1 << 31) - 1, 1 << 27, 1 << 28, 4_095, 4_096, 131_072, 858_993_459]),
        1 | 2 if !list.is_empty() => random.pick(list) ^ 1 << random.below(4),
        3..=5 => random.below(9),
        _ => random.below(56),
    }
}

/// One change of a list: a number replaced, put in, left out, moved or added, or the list cut.
fn change<T: Copy>(random: &mut Random, list: &mut Vec<T>, number: impl Fn(&mut Random, &[T]) -> T) {
    let at = random.index(list.len() + 1);
    let new = number(random, list);
    match random.below(8) {
        0..=2 if at < list.len() => list[at] = new,
        3 => list.insert(at, new),
        4 if at < list.len() => drop(list.remove(at)),
        5 if at < list.len() => list[at..].rotate_left(1),
        6 => list.truncate(at),
        7 => *list = (0..random.below(12)).map(|_| number(random, list)).collect(),
        _ => list.push(new),
    }
}

fn change_refutation(random: &mut Random, certificate: &mut Certificate) {
    if random.percent(50) {
        change(random, &mut certificate.lemmas, literal);
    } else {
        change(random, &mut certificate.hints, hint);
    }
}

fn change_forever(random: &mut Random, certificate: &mut Forever) {
    match random.below(5) {
        0 => change(random, &mut certificate.invariant, literal),
        1 | 2 => change(random, &mut certificate.requests, request),
        _ => change_refutation(random, &mut certificate.refutation),
    }
}

/// A sheet: mostly as it is, or another.
fn change_sheet(random: &mut Random, sheet: &mut Vec<u8>) {
    match random.below(12) {
        0 => mutate::change_bytes(random, sheet),
        1 => *sheet = mutate::sheet(random),
        2 => *sheet = write_sheet(&chip(random)),
        _ => {}
    }
}

/// A length around a need.
fn room(random: &mut Random, need: usize) -> usize {
    let some = random.index(40);
    match random.below(20) {
        0 => need.saturating_sub(1),
        1 => need.saturating_sub(some),
        2 => random.pick(&[0, 1, 2, 3]),
        3..=5 => need + 1 + some,
        _ => need,
    }
}

/// How many changes are made: often none.
fn changes(random: &mut Random) -> u32 {
    random.pick(&[0, 0, 1, 1, 1, 2, 3])
}

fn hostile_to_depth(random: &mut Random, pool: &Pool) -> Call {
    let (mut input, mut certificate) = pool.to_depth[random.index(pool.to_depth.len())].clone();
    for _ in 0..changes(random) {
        change_refutation(random, &mut certificate);
    }
    match random.below(20) {
        0 => mutate::change_bytes(random, &mut input),
        1 => drop(input.splice(..DEPTH_LINE_BYTES, write_depth(random.pick(&[0, 1, 2, 4, 9, 256, u32::MAX])))),
        2 => input.truncate(random.index(DEPTH_LINE_BYTES + 1)),
        _ => {
            let mut sheet = input.split_off(DEPTH_LINE_BYTES);
            change_sheet(random, &mut sheet);
            // no formula of a large chip is large here
            if sheet.len() > 64 * 32 {
                drop(input.splice(.., write_depth(0)));
            }
            input.extend(sheet);
        }
    }
    lend(random, Claim::ToDepth(input, certificate))
}

fn hostile_forever(random: &mut Random, pool: &Pool) -> Call {
    let (mut sheet, mut certificate) = pool.forever[random.index(pool.forever.len())].clone();
    for _ in 0..changes(random) {
        change_forever(random, &mut certificate);
    }
    change_sheet(random, &mut sheet);
    lend(random, Claim::Forever(sheet, certificate))
}

/// A call with about the room that it needs.
fn lend(random: &mut Random, claim: Claim) -> Call {
    let (store, marks) = claim.needs().unwrap_or((90, 90));
    let (store, marks) = (room(random, store), room(random, marks));
    claim.with_room(random, store, marks)
}

/// Requests of a chip of any size, with lists that have nothing to do with it.
fn noise(random: &mut Random) -> Call {
    let netlist = mutate::wide(random);
    let sheet = write_sheet(&netlist);
    let refutation = Certificate { lemmas: (0..random.below(9)).map(|_| literal(random, &[])).collect(), hints: vec![1, 0, 2, 5, 10] };
    if random.percent(30) {
        let input = [write_depth(random.below(3)), sheet].concat();
        return lend(random, Claim::ToDepth(input, refutation));
    }
    let bits = Step { netlist: &netlist, invariant: &[] }.bits() as i32;
    let invariant = (0..random.below(9)).map(|_| random.pick(&[0, 1, 2, bits - 1, bits, bits + 1]) * random.pick(&[1, -1])).collect();
    let (words, wires) = (1 << netlist.address_width, netlist.wire_count());
    let request = |_| {
        let (some, word) = (random.below(wires + 2), random.below(words + 2));
        [random.below(50), random.pick(&[some, some % 64, 0, 1]), random.pick(&[word, 0, words - 1, words, 4_095])]
    };
    let requests = (0..60).flat_map(request).collect();
    lend(random, Claim::Forever(sheet, Forever { invariant, requests, refutation }))
}

/// A hostile call; so many of a hundred are of a chip of any size.
fn any(random: &mut Random, pool: &Pool, large: u32) -> Call {
    if random.percent(large) {
        noise(random)
    } else if random.percent(50) {
        hostile_to_depth(random, pool)
    } else {
        hostile_forever(random, pool)
    }
}

/// As many hostile calls as asked for.
pub fn hostile(library: &Library, tally: &mut Tally, seed: u64, count: usize) {
    let mut random = Random::new(seed);
    let pool = Pool::new(&mut random, (count / 50).clamp(10, 200));
    let mut certified = Certified::new();
    for _ in 0..count {
        let call = any(&mut random, &pool, 5);
        library.certificate_agrees(tally, "hostile certificate", &call, &mut certified);
    }
    tally.remark = format!(" ({} inputs and sheets certified)", certified.len());
}

/// The same with bare store and marks, for valgrind: fewer of them large, which take long there.
pub fn bare(tally: &mut Tally, seed: u64, count: usize) {
    let mut random = Random::new(seed);
    let pool = Pool::new(&mut random, 10);
    for _ in 0..count {
        let call = any(&mut random, &pool, 1);
        let due = call.due();
        let found = Outcome::of(call.claim.bare_reply(call.store.len(), call.marks.len()), due.written.clone(), due.scratch);
        tally.equal("bare", found, due);
    }
}
