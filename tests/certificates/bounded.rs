//! Certificates to a depth, from a solver's refutations: of chips that are right, with the certificates of others, damaged at every byte, and from
//! solvers that lie.

use std::path::Path;

use super::certificates::Claim;
use super::elaborate::elaborate;
use super::honest::to_depth;
use super::reference::random::Random;
use super::reference::sheet::{read_sheet, write_depth};
use super::reference::Tally;
use super::refutation::{formula_of, Certificate};
use super::solver::{refutation, solve, Answer};

/// A chip that is right and its twin with a fault, which shows by frame `BROKEN`: their sheets.
pub struct Twins {
    pub name: String,
    pub right: Vec<u8>,
    pub faulty: Vec<u8>,
}

pub const BROKEN: u32 = 3;

/// A certificate that the solver gave rise to.
pub struct Made<'a> {
    pub twins: &'a Twins,
    pub depth: u32,
    pub certificate: Certificate,
}

fn input_of(sheet: &[u8], depth: u32) -> Vec<u8> {
    [&write_depth(depth), sheet].concat()
}

/// The certificate of each right chip at each depth, which certifies it: with exactly the room that is needed, and with no less.
pub fn certified<'a>(tally: &mut Tally, all: &'a [Twins], depths: &[u32], folder: &Path) -> Vec<Made<'a>> {
    let mut random = Random::new(801);
    let mut kept = Vec::new();
    let mut sizes = [0; 3];
    for (twins, depth) in all.iter().flat_map(|twins| depths.iter().map(move |depth| (twins, *depth))) {
        let netlist = read_sheet(&twins.right, usize::MAX, usize::MAX).expect("an accepted sheet");
        let certificate = match to_depth(&netlist, depth, &refutation(folder)) {
            Ok(certificate) => certificate,
            Err(why) => {
                tally.check((&twins.name, depth, why), false);
                continue;
            }
        };
        let claim = Claim::ToDepth(input_of(&twins.right, depth), certificate.clone());
        let found = claim.with_need(&mut random).agrees(tally, &twins.name);
        tally.check((&twins.name, depth), found.map_or(false, |outcome| outcome.is_certified()));
        let (store, marks) = claim.needs().expect("an accepted sheet");
        for (store, marks) in [(store - 1, marks), (store, marks - 1), (0, marks), (store, 0), (0, 0)] {
            claim.with_room(&mut random, store, marks).agrees(tally, &twins.name);
        }
        claim.with_room(&mut random, store + 7, marks + 9).agrees(tally, &twins.name);
        let count = certificate.lemmas.iter().filter(|number| **number == 0).count();
        sizes = [sizes[0] + store, sizes[1] + count, sizes[2] + certificate.hints.len()];
        kept.push(Made { twins, depth, certificate });
    }
    tally.remark = format!(" ({} certificates: {} numbers of clauses and lemmas, {} lemmas, {} hints)", kept.len(), sizes[0], sizes[1], sizes[2]);
    kept
}

/// Each certificate with the twin's sheet, at its depth and others', and with the sheets and depths of others: nothing with a fault is certified.
pub fn of_others(tally: &mut Tally, made: &[Made]) {
    let mut random = Random::new(802);
    let mut still = 0;
    for Made { twins, depth, certificate } in made {
        let others = (0..3).map(|_| &made[random.index(made.len())]);
        let sheets = others.map(|other| (&other.twins.right, other.depth, other.twins.name == twins.name && other.depth == *depth));
        let sheets: Vec<(&Vec<u8>, u32, bool)> = sheets.collect();
        let own = [depth + 1, depth.saturating_sub(1)].map(|other| (&twins.right, other, other == *depth));
        for (sheet, other, same) in sheets.into_iter().chain(own) {
            let claim = Claim::ToDepth(input_of(sheet, other), certificate.clone());
            let found = claim.with_need(&mut random).agrees(tally, &twins.name);
            still += usize::from(!same && found.map_or(false, |outcome| outcome.is_certified()));
        }
        for other in [*depth, depth + 1, BROKEN] {
            let claim = Claim::ToDepth(input_of(&twins.faulty, other), certificate.clone());
            let found = claim.with_need(&mut random).agrees(tally, &twins.name);
            let certified = found.map_or(false, |outcome| outcome.is_certified());
            tally.check((&twins.name, other, "with a fault"), !(certified && other >= BROKEN));
        }
    }
    tally.check("hardly any certifies another chip or depth", 20 * still < 5 * made.len());
    tally.remark = format!(" ({still} of {} certify another chip or depth too)", 5 * made.len());
}

/// Every list that differs from these numbers in one bit.
pub fn every_bit(numbers: &[u32]) -> impl Iterator<Item = Vec<u32>> + '_ {
    (0..32 * numbers.len()).map(|bit| {
        let mut damaged = numbers.to_vec();
        damaged[bit / 32] ^= 1 << (bit % 32);
        damaged
    })
}

fn signed(numbers: &[u32]) -> Vec<i32> {
    numbers.iter().map(|number| *number as i32).collect()
}

fn unsigned(numbers: &[i32]) -> Vec<u32> {
    numbers.iter().map(|number| *number as u32).collect()
}

/// All lists of clause numbers that differ from these in one bit.
pub fn every_bit_signed(numbers: &[i32]) -> Vec<Vec<i32>> {
    every_bit(&unsigned(numbers)).map(|damaged| signed(&damaged)).collect()
}

/// Certificates of few numbers, damaged in each bit of each byte.
pub fn damaged(tally: &mut Tally, made: &[Made], most: usize) {
    let mut random = Random::new(803);
    let (mut count, mut still) = (0, 0);
    for Made { twins, depth, certificate } in made {
        if certificate.lemmas.len() + certificate.hints.len() > most {
            continue;
        }
        let input = input_of(&twins.right, *depth);
        let (formula, variables) = formula_of(&input).expect("an accepted input");
        let lemmas = every_bit_signed(&certificate.lemmas).into_iter().map(|lemmas| Certificate { lemmas, ..certificate.clone() });
        let hints = every_bit(&certificate.hints).map(|hints| Certificate { hints, ..certificate.clone() });
        for other in lemmas.chain(hints) {
            let due = other.outcome_over(&formula, variables);
            let call = Claim::ToDepth(input.clone(), other).with_room(&mut random, due.written.len(), due.scratch);
            let found = call.answers(tally, &twins.name, &due);
            count += 1;
            still += usize::from(found.map_or(false, |outcome| outcome.is_certified()));
        }
    }
    tally.check("some are damaged, and most of them do not certify", count > 0 && 2 * still < count);
    tally.remark = format!(" ({still} of {count} still certify)");
}

/// The hints of one who believes every lemma: whatever propagates from its opposite, and then the first clause.
fn believed(formula: &[i32], lemmas: &[Vec<i32>]) -> Certificate {
    let mut certificate = Certificate::default();
    let mut known: Vec<(usize, Vec<i32>)> = Vec::new();
    let mut place = 0;
    for clause in formula.split_inclusive(|number| *number == 0) {
        known.push((place, clause[..clause.len() - 1].to_vec()));
        place += clause.len();
    }
    for lemma in lemmas {
        let mut wrong: Vec<i32> = lemma.clone();
        let mut hints = Vec::new();
        loop {
            let free = |clause: &[i32]| clause.iter().copied().filter(|number| !wrong.contains(number)).collect::<Vec<i32>>();
            let unit = known.iter().find_map(|(place, clause)| match free(clause)[..] {
                [] => Some((*place, None)),
                [unit] if !wrong.contains(&-unit) => Some((*place, Some(unit))),
                _ => None,
            });
            hints.push(unit.map_or(0, |(place, _)| place as u32));
            match unit {
                Some((_, Some(unit))) => wrong.push(-unit),
                _ => break,
            }
        }
        known.push((formula.len() + certificate.lemmas.len(), lemma.clone()));
        certificate.lemmas.extend(lemma);
        certificate.lemmas.push(0);
        certificate.hints.push(hints.len() as u32);
        certificate.hints.extend(hints);
    }
    certificate
}

/// Solvers that lie: of a chip with a fault no refutation is believed, and of a right one none that stops too early.
pub fn liars(tally: &mut Tally, all: &[Twins], folder: &Path) {
    let mut random = Random::new(804);
    for twins in all {
        let (faulty, right) = (input_of(&twins.faulty, BROKEN), input_of(&twins.right, BROKEN));
        let (formula, variables) = formula_of(&faulty).expect("an accepted input");
        tally.check((&twins.name, "a run breaks the property"), matches!(solve(&formula, variables, folder), Ok(Answer::Satisfiable)));
        let (rights, right_variables) = formula_of(&right).expect("an accepted input");
        let honest = match solve(&rights, right_variables, folder) {
            Ok(Answer::Unsatisfiable(lemmas)) => lemmas,
            _ => return tally.check((&twins.name, "no refutation"), false),
        };
        // the property's clause is the last: that P holds in each frame, said without a reason
        let start = formula[..formula.len() - 1].iter().rposition(|number| *number == 0).map_or(0, |end| end + 1);
        let units = formula[start..formula.len() - 1].iter().map(|number| vec![-number]).collect();
        let lies = [vec![], vec![vec![2], vec![-2]], units, honest[..honest.len() / 2].to_vec(), honest.clone()];
        for (lie, lemmas) in lies.iter().enumerate() {
            // each ends with the empty lemma
            let within = |lemma: &&Vec<i32>| lemma.iter().all(|number| number.unsigned_abs() as usize <= variables);
            let lemmas: Vec<Vec<i32>> = lemmas.iter().filter(within).take(60).chain([&vec![]]).cloned().collect();
            tally.check((&twins.name, lie, "elaborated"), elaborate(&formula, &lemmas, variables).is_err());
            let found = Claim::ToDepth(faulty.clone(), believed(&formula, &lemmas)).with_need(&mut random).agrees(tally, &twins.name);
            tally.check((&twins.name, lie, "not certified"), found.map_or(false, |outcome| !outcome.is_certified()));
        }
        // cut short: what the solver wrote, and the certificate itself
        for cut in (0..honest.len()).step_by(1 + honest.len() / 16) {
            if let Ok(certificate) = elaborate(&rights, &honest[..cut], right_variables) {
                let found = Claim::ToDepth(right.clone(), certificate).with_need(&mut random).agrees(tally, &twins.name);
                tally.check((&twins.name, cut, "enough is left"), found.map_or(false, |outcome| outcome.is_certified()));
            }
        }
        if let Ok(whole) = elaborate(&rights, &honest, right_variables) {
            let mut cut_short = |lemmas: usize, hints: usize| {
                let certificate = Certificate { lemmas: whole.lemmas[..lemmas].to_vec(), hints: whole.hints[..hints].to_vec() };
                let found = Claim::ToDepth(right.clone(), certificate).with_need(&mut random).agrees(tally, &twins.name);
                tally.check((&twins.name, "cut short"), found.map_or(false, |outcome| !outcome.is_certified()));
            };
            let (lemmas, hints) = (whole.lemmas.len(), whole.hints.len());
            (0..lemmas).step_by(1 + lemmas / 16).for_each(|cut| cut_short(cut, hints));
            (0..hints).step_by(1 + hints / 16).for_each(|cut| cut_short(lemmas, cut));
        }
    }
}
