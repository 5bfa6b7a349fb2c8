//! Certificates for every depth: one by hand, and those of the chips by hand, from sets of states with a solver's refutation.

use std::path::Path;

use super::bounded::{every_bit, every_bit_signed, Twins};
use super::certificates::Claim;
use super::honest::{clauses_of, forever, split};
use super::invariant::Forever;
use super::reachable::{satisfying, Set, States};
use super::reference::netlist::Netlist;
use super::reference::random::Random;
use super::reference::sheet::{expand, read_sheet};
use super::reference::Tally;
use super::refutation::Certificate;
use super::solver::refutation;

/// One check: the second checker agrees. Whether the sheet is certified, with the room that is needed.
pub fn is_certified(tally: &mut Tally, random: &mut Random, name: &str, sheet: &[u8], certificate: &Forever) -> bool {
    let call = Claim::Forever(sheet.to_vec(), certificate.clone()).with_need(random);
    call.agrees(tally, name).map_or(false, |outcome| outcome.is_certified())
}

/// Two words of one bit, read at address 0 in every frame; the property is that the bit read is 0. Nothing is written.
const READER: &str = "N 1 0 0/M 1 1 0/A 0/D 2/C 0 1 5";
/// The same written to, or begun otherwise, or both.
const FAULTY_READERS: [&str; 5] = [
    "N 1 0 0/M 1 1 0/A 0/D 2/C 1 1 5",
    "N 1 0 0/M 1 1 1/A 0/D 2/C 1 1 5",
    "N 1 0 0/M 1 1 1/A 0/D 2/C 0 1 5",
    "N 1 0 0/M 1 1/A 0/D 2/C 0 1 5",
    "N 1 0 0/M 1 1/A 0/D 2/C 1 1 5",
];

/// Its certificate, worked out by hand: the word that is read is 0.
fn of_reader() -> Forever {
    Forever {
        invariant: vec![-2, 0],
        requests: vec![0, 0, 0, 33, 0, 0, 35, 0, 0, 18, 0, 0, 7, 0, 0, 26, 0, 0, 40, 0, 0, 42, 1, 0, 40, 2, 0],
        refutation: Certificate { lemmas: vec![0], hints: vec![10, 0, 45, 5, 10, 15, 20, 25, 30, 35, 40] },
    }
}

/// The same with a clause more, that the word is 0 or this number true: kept whatever the number is, it is only looked at at the start.
fn with_number(number: i32) -> Forever {
    Forever {
        invariant: vec![-2, 0, -2, number, 0],
        requests: vec![0, 0, 0, 33, 0, 0, 35, 0, 0, 18, 0, 0, 7, 0, 0, 26, 0, 0, 40, 0, 0, 42, 1, 0, 40, 2, 0, 44, 3, 0, 42, 4, 0, 40, 5, 0],
        refutation: Certificate { lemmas: vec![0], hints: vec![13, 0, 60, 5, 10, 15, 20, 25, 30, 35, 40, 45, 50, 55] },
    }
}

/// Other invariants of the same chip, of which a step is refuted, and whether they certify it. Its bits are the word held, 1, and two words, 2 and 3.
const READER_INVARIANTS: [(&[i32], bool); 13] = [
    (&[-2, 0], true),
    (&[-2, 0, -3, 0], true),
    (&[-2, 2, 0, -2, 0], true),
    (&[-2, -2, 0], true),
    // no state at all
    (&[0], false),
    (&[-2, 0, 0], false),
    // true in every state, but none of its numbers is at the start
    (&[-2, 0, 1, -1, 0], false),
    (&[-2, 0, -1, 1, -3, 0], true),
    // past the last bit, beside a number that is true at the start
    (&[-2, 0, -3, 4, 0], false),
    (&[-2, 0, 4, -3, 0], false),
    // behind the last end there is no clause, but no number past the last bit either
    (&[-2, 0, -3], true),
    (&[-2, 0, 3], true),
    (&[-2, 0, 4], false),
];

/// The certificate by hand certifies its chip and none with a fault; nor does it damaged in any bit.
pub fn by_hand(tally: &mut Tally) {
    let mut random = Random::new(811);
    for (invariant, due) in READER_INVARIANTS {
        match forever(&netlist_of(&expand(READER)), invariant, &split(1_000)) {
            Ok(certificate) => {
                let certified = is_certified(tally, &mut random, "the reader", &expand(READER), &certificate);
                tally.equal(invariant, certified, due);
            }
            Err(why) => tally.check((invariant, why), false),
        }
    }
    for number in [1, -1, 3, -3, 4, -4, 5, 1_000_000, i32::MAX, -i32::MAX, i32::MIN] {
        let certified = is_certified(tally, &mut random, "the reader", &expand(READER), &with_number(number));
        tally.equal(("a clause more", number), certified, number.unsigned_abs() < 4);
    }
    let good = of_reader();
    let certified = is_certified(tally, &mut random, "the reader", &expand(READER), &good);
    tally.check("the reader is certified", certified);
    for faulty in FAULTY_READERS {
        let certified = is_certified(tally, &mut random, faulty, &expand(faulty), &good);
        tally.check(faulty, !certified);
    }
    let (count, still) = damaged(tally, &mut random, "the reader", &expand(READER), &FAULTY_READERS.map(expand), &good);
    tally.remark = format!(" ({still} of {count} damaged certificates still certify)");
}

/// A certificate damaged in each bit of each byte: with its sheet the second checker agrees, and of these, which have a fault, none is certified.
fn damaged(tally: &mut Tally, random: &mut Random, name: &str, sheet: &[u8], faulty: &[Vec<u8>], good: &Forever) -> (usize, usize) {
    let lent = &good.refutation;
    let invariants = every_bit_signed(&good.invariant).into_iter().map(|invariant| Forever { invariant, ..good.clone() });
    let requests = every_bit(&good.requests).map(|requests| Forever { requests, ..good.clone() });
    let lemmas = every_bit_signed(&lent.lemmas).into_iter().map(|lemmas| Certificate { lemmas, ..lent.clone() });
    let hints = every_bit(&lent.hints).map(|hints| Certificate { hints, ..lent.clone() });
    let refutations = lemmas.chain(hints).map(|refutation| Forever { refutation, ..good.clone() });
    let (mut count, mut still) = (0, 0);
    for other in invariants.chain(requests).chain(refutations) {
        count += 1;
        still += usize::from(is_certified(tally, random, name, sheet, &other));
        let twin = &faulty[count % faulty.len()];
        let certified = is_certified(tally, random, name, twin, &other);
        tally.check((name, "with a fault"), !certified);
    }
    (count, still)
}

fn netlist_of(sheet: &[u8]) -> Netlist {
    read_sheet(sheet, usize::MAX, usize::MAX).expect("an accepted sheet")
}

/// A chip that is right and its twin with a fault, with the states of both, and how often each kind of invariant was met.
struct Case<'a> {
    name: &'a str,
    twins: &'a Twins,
    netlist: &'a Netlist,
    states: States<'a>,
    wrong: &'a Netlist,
    wrong_states: States<'a>,
    folder: &'a Path,
}

/// Invariants of all chips by hand: certified; with a clause less and certified, or such that a step leaves them; empty; false at the start.
#[derive(Default)]
struct Met {
    certified: usize,
    fewer: usize,
    left: usize,
    empty: usize,
    false_at_start: usize,
}

impl Case<'_> {
    /// The clauses of a set that no step leaves certify the chip, with a solver's refutation, and not its twin; with any room; and not with a clause
    /// more that speaks of words past the memory.
    fn by_set(&self, tally: &mut Tally, random: &mut Random, met: &mut Met, set: &Set) {
        let (name, sheet) = (self.name, &self.twins.right);
        let invariant = clauses_of(random, self.states.bits, set);
        tally.check((name, "clauses of a set"), satisfying(self.states.bits, &invariant) == *set);
        let good = match forever(self.netlist, &invariant, &refutation(self.folder)) {
            Ok(good) => good,
            Err(why) => return tally.check((name, why), false),
        };
        let certified = is_certified(tally, random, name, sheet, &good);
        tally.check((name, "certified"), certified);
        met.certified += 1;
        let certified = is_certified(tally, random, name, &self.twins.faulty, &good);
        tally.check((name, "the twin is not"), !certified);
        let claim = Claim::Forever(sheet.clone(), good.clone());
        let (store, marks) = claim.needs().expect("an accepted sheet");
        for store in [store - 1, 0] {
            claim.with_room(random, store, marks).agrees(tally, name);
        }
        for marks in [marks - 1, marks / 2, 2, 1, 0, marks + 3] {
            claim.with_room(random, store + 5, marks).agrees(tally, name);
        }
        let past = self.states.bits as i32 + 1;
        for number in [past, -past, past + 1, i32::MAX, i32::MIN] {
            let mut other = good.clone();
            other.invariant.extend([number, 0]);
            let certified = is_certified(tally, random, name, sheet, &other);
            tally.check((name, number, "past the memory"), !certified);
        }
        self.with_fewer(tally, random, met, &good);
    }

    /// Without one of its clauses an invariant still holds: it certifies where no step leaves it.
    fn with_fewer(&self, tally: &mut Tally, random: &mut Random, met: &mut Met, good: &Forever) {
        let (name, sheet) = (self.name, &self.twins.right);
        let clauses: Vec<&[i32]> = good.invariant.split_inclusive(|number| *number == 0).collect();
        for left_out in (0..clauses.len()).step_by(1 + clauses.len() / 6) {
            let invariant = [&clauses[..left_out], &clauses[left_out + 1..]].concat().concat();
            let inductive = self.states.is_inductive(&satisfying(self.states.bits, &invariant));
            let other = forever(self.netlist, &invariant, &refutation(self.folder));
            tally.check((name, "refuted where no step leaves"), other.is_ok() == inductive);
            met.fewer += usize::from(inductive);
            met.left += usize::from(!inductive);
            let other = other.unwrap_or(Forever { invariant, ..good.clone() });
            let certified = is_certified(tally, random, name, sheet, &other);
            tally.check((name, "certified where no step leaves"), certified == inductive);
        }
    }

    /// No clauses at all are enough where the property holds in every state.
    fn by_nothing(&self, tally: &mut Tally, random: &mut Random, met: &mut Met) {
        let inductive = self.states.is_inductive(&vec![true; 1 << self.states.bits]);
        let empty = forever(self.netlist, &[], &refutation(self.folder));
        tally.check((self.name, "empty"), empty.is_ok() == inductive);
        if let Ok(empty) = empty {
            let certified = is_certified(tally, random, self.name, &self.twins.right, &empty);
            tally.check((self.name, "empty and certified"), certified);
            met.empty += 1;
        }
    }

    /// From the harmless states of the twin no step breaks the property, but some state at the start is not among them; from those that its runs
    /// reach, one does.
    fn of_twin(&self, tally: &mut Tally, random: &mut Random, met: &mut Met) {
        let (name, bits, states) = (self.name, self.wrong_states.bits, &self.wrong_states);
        let invariant = clauses_of(random, bits, &states.harmless());
        match forever(self.wrong, &invariant, &refutation(self.folder)) {
            Ok(other) => {
                let found = Claim::Forever(self.twins.faulty.clone(), other).with_need(random).agrees(tally, name);
                tally.check((name, "false at the start"), found.map_or(false, |outcome| !outcome.is_certified() && outcome.lemma == 0));
                met.false_at_start += 1;
            }
            Err(why) => tally.check((name, why), false),
        }
        let invariant = clauses_of(random, bits, &states.closed(states.starts()));
        tally.check((name, "the property breaks"), forever(self.wrong, &invariant, &refutation(self.folder)).is_err());
    }
}

/// Every chip by hand and its twin.
pub fn chips(tally: &mut Tally, all: &[Twins], folder: &Path) {
    let mut random = Random::new(812);
    let mut met = Met::default();
    for twins in all {
        let (netlist, wrong) = (&netlist_of(&twins.right), &netlist_of(&twins.faulty));
        let (states, wrong_states) = (States::new(netlist), States::new(wrong));
        let case = Case { name: &twins.name, twins, netlist, states, wrong, wrong_states, folder };
        tally.check((case.name, "the property holds"), case.states.is_safe());
        tally.check((case.name, "the twin breaks it"), !case.wrong_states.is_safe());
        for set in [case.states.closed(case.states.starts()), case.states.harmless()] {
            case.by_set(tally, &mut random, &mut met, &set);
        }
        case.by_nothing(tally, &mut random, &mut met);
        case.of_twin(tally, &mut random, &mut met);
    }
    let Met { certified, fewer, left, empty, false_at_start } = met;
    tally.check("each kind is met", [certified, fewer, left, empty, false_at_start].iter().all(|count| *count > 0));
    let less = format!("{fewer} with a clause less, {left} that a step leaves then");
    tally.remark = format!(" ({certified} certified; {less}; {empty} empty; {false_at_start} false at the start)");
}

/// The smallest certificates of the chips by hand, damaged in each bit of each byte.
pub fn every_byte(tally: &mut Tally, all: &[Twins], most: usize, folder: &Path) {
    let mut random = Random::new(813);
    let (mut count, mut still) = (0, 0);
    for Twins { name, right, faulty } in all {
        let netlist = netlist_of(right);
        let states = States::new(&netlist);
        let invariant = clauses_of(&mut random, states.bits, &states.harmless());
        match forever(&netlist, &invariant, &refutation(folder)) {
            Ok(good) if invariant.len() + good.requests.len() + good.refutation.lemmas.len() + good.refutation.hints.len() <= most => {
                let found = damaged(tally, &mut random, name, right, std::slice::from_ref(faulty), &good);
                (count, still) = (count + found.0, still + found.1);
            }
            Ok(_) => {}
            Err(why) => tally.check((name, why), false),
        }
    }
    tally.check("some are damaged", count > 0);
    tally.remark = format!(" ({still} of {count} still certify)");
}
