//! A second checker of certificates to a depth, written from RULES U1 to U8, over the second implementation's sheets and clauses.

use std::collections::HashSet;

use super::certificates::CertificateReply;
use super::reference::formula::{Fault, Formula};
use super::reference::refusal::{require, Refusal, NO_ROOM};
use super::reference::sheet::{read_depth, read_sheet};

/// Lemmas, each ended by 0, and for each how many hints there are and then the hints.
#[derive(Clone, Debug, Default, PartialEq, Eq)]
pub struct Certificate {
    pub lemmas: Vec<i32>,
    pub hints: Vec<u32>,
}

/// What a call answers (RULES U7), the numbers that the store begins with where it is not refused, and how many marks are then scratch.
#[derive(Clone, Debug, PartialEq, Eq)]
pub struct Outcome {
    pub number: u32,
    pub place: u32,
    pub certified: u32,
    pub lemma: usize,
    pub written: Vec<i32>,
    pub scratch: usize,
}

impl Outcome {
    pub fn of(reply: CertificateReply, written: Vec<i32>, scratch: usize) -> Outcome {
        Outcome { number: reply.number, place: reply.place, certified: reply.certified, lemma: reply.lemma, written, scratch }
    }

    pub fn refused(refusal: Refusal) -> Outcome {
        Outcome { number: refusal.number, place: refusal.place, certified: 0, lemma: 0, written: Vec::new(), scratch: 0 }
    }

    /// Of a call that is not refused: the first lemma that does not follow, if there is one.
    pub fn checked(unjustified: Option<usize>, written: Vec<i32>, scratch: usize) -> Outcome {
        let (certified, lemma) = (u32::from(unjustified.is_none()), unjustified.unwrap_or(0));
        Outcome { number: 0, place: 0, certified, lemma, written, scratch }
    }

    pub fn is_certified(&self) -> bool {
        self.number == 0 && self.certified == 1
    }
}

/// The clause that starts at a place of some numbers and is ended there, if one does.
fn clause_at(numbers: &[i32], place: usize) -> Option<&[i32]> {
    if place > numbers.len() || (place > 0 && numbers[place - 1] != 0) {
        return None;
    }
    let rest = &numbers[place..];
    rest.iter().position(|number| *number == 0).map(|end| &rest[..end])
}

/// Whether a lemma follows by its hints from the numbers before it, with variables below `end` (RULES U4).
fn follows(known: &[i32], lemma: &[i32], hints: &[u32], end: usize) -> bool {
    let within = |clause: &[i32]| clause.iter().all(|number| (number.unsigned_abs() as usize) < end);
    let mut wrong: HashSet<i32> = lemma.iter().copied().collect();
    if !within(lemma) {
        return false;
    }
    for hint in hints {
        let clause = match clause_at(known, *hint as usize) {
            Some(clause) => clause,
            None => return false,
        };
        let free: HashSet<i32> = clause.iter().copied().filter(|number| !wrong.contains(number)).collect();
        if !within(clause) || free.len() > 1 {
            return false;
        }
        match free.into_iter().next() {
            Some(unit) => wrong.insert(-unit),
            None => return true,
        };
    }
    false
}

impl Certificate {
    /// The first lemma that does not follow from clauses, or none where an empty one does and all before it do (RULES U5). Variables are below `end`.
    pub fn unjustified(&self, clauses: &[i32], end: usize) -> Option<usize> {
        let numbers = [clauses, &self.lemmas].concat();
        let mut at = clauses.len();
        let mut hints = self.hints.as_slice();
        for index in 0.. {
            let (length, count, rest) = match (numbers[at..].iter().position(|number| *number == 0), hints.split_first()) {
                (Some(length), Some((count, rest))) => (length, *count as usize, rest),
                _ => return Some(index),
            };
            if rest.len() < count || !follows(&numbers[..at], &numbers[at..at + length], &rest[..count], end) {
                return Some(index);
            }
            if length == 0 {
                return None;
            }
            at += length + 1;
            hints = &rest[count..];
        }
        unreachable!("a list of lemmas ends")
    }

    /// What a call that is not refused answers, and leaves, of these clauses with so many variables.
    pub fn outcome_over(&self, formula: &[i32], variables: usize) -> Outcome {
        Outcome::checked(self.unjustified(formula, variables + 1), [formula, &self.lemmas].concat(), 2 * (variables + 1))
    }

    /// What a call answers of an input with this certificate, and leaves (RULES U5 to U8).
    pub fn outcome(&self, input: &[u8], store: usize, marks: usize) -> Outcome {
        match formula_of(input).and_then(|(formula, variables)| {
            require(store >= formula.len() + self.lemmas.len(), NO_ROOM, 0)?;
            require(marks >= 2 * (variables + 1), NO_ROOM, 0)?;
            Ok((formula, variables))
        }) {
            Ok((formula, variables)) => self.outcome_over(&formula, variables),
            Err(refusal) => Outcome::refused(refusal),
        }
    }
}

/// The numbers of all clauses of an input, and how many variables there are.
pub fn formula_of(input: &[u8]) -> Result<(Vec<i32>, usize), Refusal> {
    let (depth, sheet) = read_depth(input)?;
    let netlist = read_sheet(sheet, usize::MAX, usize::MAX)?;
    let formula = Formula::new(&netlist, depth, Fault::None);
    Ok((formula.numbers(), formula.variable_count() as usize))
}
