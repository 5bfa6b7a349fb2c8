//! The exported calls that check a certificate, under their C names, and safe calls of them. What is lent for writing stands between guards that must
//! stay; or it stands by itself and holds nothing yet, so that valgrind sees whatever is read before it is written, or beside it.

use std::mem::MaybeUninit;

use super::invariant::{Forever, Step};
use super::reference::random::Random;
use super::reference::refusal::Refusal;
use super::reference::sheet::read_sheet;
use super::reference::Tally;
use super::refutation::{formula_of, Certificate, Outcome};

#[repr(C)]
#[derive(Clone, Copy, Debug, PartialEq, Eq)]
pub struct CertificateReply {
    pub number: u32,
    pub place: u32,
    pub certified: u32,
    pub lemma: usize,
}

extern "C" {
    fn marrubigai_certify(
        input: *const u8,
        bytes: usize,
        lemmas: *const i32,
        lemma_numbers: usize,
        hints: *const u32,
        hint_count: usize,
        store: *mut i32,
        store_room: usize,
        marks: *mut u32,
        mark_room: usize,
    ) -> CertificateReply;

    fn marrubigai_certify_forever(
        sheet: *const u8,
        bytes: usize,
        invariant: *const i32,
        invariant_numbers: usize,
        requests: *const u32,
        request_numbers: usize,
        lemmas: *const i32,
        lemma_numbers: usize,
        hints: *const u32,
        hint_count: usize,
        store: *mut i32,
        store_room: usize,
        marks: *mut u32,
        mark_room: usize,
    ) -> CertificateReply;
}

/// What is checked: an input of `frames` with its certificate, or a sheet with one for every depth.
#[derive(Clone, Debug, PartialEq, Eq)]
pub enum Claim {
    ToDepth(Vec<u8>, Certificate),
    Forever(Vec<u8>, Forever),
}

/// A call: what is checked, and what store and marks hold before it.
#[derive(Clone, Debug)]
pub struct Call {
    pub claim: Claim,
    pub store: Vec<i32>,
    pub marks: Vec<u32>,
}

impl Claim {
    /// A call with so much room, in which anything stands.
    pub fn with_room(&self, random: &mut Random, store: usize, marks: usize) -> Call {
        let small = random.percent(50);
        let mut any = || if small { random.below(4) } else { random.next() as u32 };
        Call {
            claim: self.clone(),
            store: (0..store).map(|_| any() as i32).collect(),
            marks: (0..marks).map(|_| any()).collect(),
        }
    }

    /// How many numbers and marks the call needs, where its sheet is accepted: for ever, as many marks as the variables of all laws have.
    pub fn needs(&self) -> Result<(usize, usize), Refusal> {
        match self {
            Claim::ToDepth(input, certificate) => {
                formula_of(input).map(|(formula, variables)| (formula.len() + certificate.lemmas.len(), 2 * (variables + 1)))
            }
            Claim::Forever(sheet, certificate) => read_sheet(sheet, usize::MAX, usize::MAX).map(|netlist| {
                let step = Step { netlist: &netlist, invariant: &certificate.invariant };
                (certificate.need(), 2 * step.end())
            }),
        }
    }

    /// A call with the room that it needs.
    pub fn with_need(&self, random: &mut Random) -> Call {
        let (store, marks) = self.needs().expect("an accepted sheet");
        self.with_room(random, store, marks)
    }

    /// What the second checker answers, and leaves at the store's start.
    pub fn outcome(&self, store: usize, marks: usize) -> Outcome {
        match self {
            Claim::ToDepth(input, certificate) => certificate.outcome(input, store, marks),
            Claim::Forever(sheet, certificate) => certificate.outcome(sheet, store, marks),
        }
    }

    /// SAFETY: store and marks are live memory of these lengths, which nobody else uses.
    unsafe fn check(&self, store: *mut i32, store_room: usize, marks: *mut u32, mark_room: usize) -> CertificateReply {
        let lent = self.clone(); // each list ends where its memory does
        let reply = match &lent {
            Claim::ToDepth(input, Certificate { lemmas, hints }) => marrubigai_certify(
                input.as_ptr(),
                input.len(),
                lemmas.as_ptr(),
                lemmas.len(),
                hints.as_ptr(),
                hints.len(),
                store,
                store_room,
                marks,
                mark_room,
            ),
            Claim::Forever(sheet, Forever { invariant, requests, refutation: Certificate { lemmas, hints } }) => marrubigai_certify_forever(
                sheet.as_ptr(),
                sheet.len(),
                invariant.as_ptr(),
                invariant.len(),
                requests.as_ptr(),
                requests.len(),
                lemmas.as_ptr(),
                lemmas.len(),
                hints.as_ptr(),
                hints.len(),
                store,
                store_room,
                marks,
                mark_room,
            ),
        };
        assert!(lent == *self, "what is lent for reading is changed");
        reply
    }

    /// The reply, with store and marks of these lengths that hold nothing and have nothing beside them.
    pub fn bare_reply(&self, store: usize, marks: usize) -> CertificateReply {
        let mut lent_store: Vec<MaybeUninit<i32>> = Vec::with_capacity(store);
        let mut lent_marks: Vec<MaybeUninit<u32>> = Vec::with_capacity(marks);
        // SAFETY: both have room for these lengths.
        unsafe { self.check(lent_store.as_mut_ptr().cast(), store, lent_marks.as_mut_ptr().cast(), marks) }
    }
}

const GUARDS: usize = 4;
const GUARD: u32 = 0x5AFE_C0DE;

fn guarded<T: Copy>(contents: &[T], guard: T) -> Vec<T> {
    let guards = [guard; GUARDS];
    [&guards, contents, &guards].concat()
}

fn within<T: Copy + PartialEq>(lent: &[T], guard: T) -> Result<&[T], &'static str> {
    let (before, rest) = lent.split_at(GUARDS);
    let (contents, behind) = rest.split_at(rest.len() - GUARDS);
    let kept = before.iter().chain(behind).all(|it| *it == guard);
    kept.then_some(contents).ok_or("something outside the store or the marks is written to")
}

impl Call {
    /// What it is to answer and to leave.
    pub fn due(&self) -> Outcome {
        self.claim.outcome(self.store.len(), self.marks.len())
    }

    /// One check: the library answers and leaves what the second checker does. What it answers, if it keeps its other promises.
    pub fn agrees(&self, tally: &mut Tally, name: &str) -> Option<Outcome> {
        self.answers(tally, name, &self.due())
    }

    /// The same with what is due, for a caller that knows it.
    pub fn answers(&self, tally: &mut Tally, name: &str, due: &Outcome) -> Option<Outcome> {
        let found = self.found(due);
        tally.check_with(name, found.as_ref() == Ok(due), || self.difference(&found, due));
        found.ok()
    }

    /// What is shown of a check that fails: where the stores differ stand three numbers of each.
    fn difference(&self, found: &Result<Outcome, &'static str>, due: &Outcome) -> String {
        let brief = |outcome: &Outcome| (outcome.number, outcome.place, outcome.certified, outcome.lemma);
        let found = match found {
            Ok(found) => found,
            Err(why) => return format!(": {why}, about {:?}", self.claim),
        };
        let at = (0..due.written.len()).find(|at| found.written.get(*at) != due.written.get(*at));
        let near = |outcome: &Outcome| at.map(|at| outcome.written.iter().skip(at).take(3).copied().collect::<Vec<i32>>());
        let text = format!(": {:?} and not {:?}; at {at:?} {:?} and not {:?}", brief(found), brief(due), near(found), near(due));
        let (sheet, certificate) = match &self.claim {
            Claim::ToDepth(input, certificate) => (input, format!("{certificate:?}")),
            Claim::Forever(sheet, certificate) => (sheet, format!("{certificate:?}")),
        };
        let sheet = String::from_utf8_lossy(sheet).split_whitespace().collect::<Vec<&str>>().join(" ");
        format!("{text}\n  {} marks, {sheet}\n  {}", self.marks.len(), certificate.chars().take(1_500).collect::<String>())
    }

    /// What the library answers, and leaves; or which promise it breaks: at a refusal store and marks stay as they were, and behind what is due to be
    /// written, or to be scratch, they stay too (RULES T44, U8, H6).
    fn found(&self, due: &Outcome) -> Result<Outcome, &'static str> {
        let mut store = guarded(&self.store, GUARD as i32);
        let mut marks = guarded(&self.marks, GUARD);
        // SAFETY: each pointer is into a slice that goes on for the length beside it.
        let reply = unsafe { self.claim.check(store[GUARDS..].as_mut_ptr(), self.store.len(), marks[GUARDS..].as_mut_ptr(), self.marks.len()) };
        let (store, marks) = (within(&store, GUARD as i32)?, within(&marks, GUARD)?);
        let (written, scratch) = match reply.number {
            0 => (due.written.len().min(store.len()), due.scratch.min(marks.len())),
            _ => (0, 0),
        };
        if store[written..] != self.store[written..] {
            return Err("the store is changed at a refusal, or behind what is written");
        }
        if marks[scratch..] != self.marks[scratch..] {
            return Err("marks are changed at a refusal, or behind those that are needed");
        }
        Ok(Outcome::of(reply, store[..written].to_vec(), scratch))
    }
}
