//! K13 on the clauses that `frames` prints (RULES A17 to A19): the source of each read in all assignments of small formulas and in solvers'
//! answers, and the second assignment that a doubled formula would have. Definitions that are not K13's are seen to be wrong, or to promise less.

use super::cadical::Cadical;
use super::cases::{small_cases, tiny_cases, two_port_cases, Case};
use super::judge::{read_dimacs, Formula};
use super::programs::{Answer, Programs};
use super::reference::agreement::variable;
use super::reference::formula::{clauses_text, header_text, Fault, Formula as Reference, Group};
use super::reference::netlist::Netlist;
use super::reference::one_write::{
    code_value, reads, source_due, source_variables, sources_named, writes_of_address, wrong_read, Read,
    Source,
};
use super::reference::second_assignment::{choices, equality_variables, settled};
use super::reference::solver::{satisfies, Solver};
use super::reference::tally::Tally;
use super::wrong::{wrong_text, Mistake};

fn printed(programs: &Programs, Case { netlist, depth }: &Case) -> Formula {
    read_dimacs(&programs.frames(netlist, *depth)).expect("a formula")
}

fn visit_assignments(formula: &Formula, mut visit: impl FnMut(&[bool])) {
    Solver::new(formula.variables, &formula.numbers).models(&mut visit);
}

/// No definition of K13: the oldest write behind each read.
fn oldest_named(netlist: &Netlist, depth: u32, model: &[bool]) -> bool {
    reads(netlist, depth).into_iter().all(|read| {
        let oldest = writes_of_address(netlist, read, model).first().copied();
        let due = source_due(netlist, read, model).map(|_| oldest.map_or(Source::Start, Source::Write));
        sources_named(netlist, read, model) == Vec::from_iter(due)
    })
}

/// Less than K13: that exactly one of Z and the S is true where RE is, and none where not.
fn one_named(netlist: &Netlist, depth: u32, model: &[bool]) -> bool {
    reads(netlist, depth).into_iter().all(|(port, frame)| {
        let reads = code_value(netlist, frame, model, netlist.read_enable_of(port));
        sources_named(netlist, (port, frame), model).len() == usize::from(reads)
    })
}

/// Assignments in which another one of Z and the S of a read is true than the one that is.
fn renamed(netlist: &Netlist, read: Read, model: &[bool]) -> Vec<Vec<bool>> {
    let variables = source_variables(netlist, read);
    let named = variables.iter().find(|it| model[it.1]).map(|it| it.1);
    let others = variables.iter().map(|it| it.1).filter(|it| Some(*it) != named);
    let moved = |(from, to): (usize, usize)| {
        let mut other = model.to_vec();
        (other[from], other[to]) = (false, true);
        other
    };
    let pairs = named.into_iter().flat_map(|from| others.clone().map(move |to| (from, to)));
    pairs.map(moved).collect()
}

/// A17 and A18 in every assignment of small formulas of both kinds, from a given and from an unknown start.
pub fn all_assignments(tally: &mut Tally, programs: &Programs) {
    let [mut assignments, mut unknown, mut two_ports] = [0; 3];
    let [mut idle, mut start, mut written, mut several] = [0; 4];
    let [mut oldest_fails, mut altered, mut one_accepts] = [0; 3];
    for (index, case) in tiny_cases(21, 900).iter().enumerate() {
        let Case { netlist, depth } = case;
        let (mut wrong, mut seen, mut visited) = (None, true, 0);
        visit_assignments(&printed(programs, case), |model| {
            visited += 1;
            wrong = wrong.or(wrong_read(netlist, *depth, model));
            oldest_fails += usize::from(!oldest_named(netlist, *depth, model));
            for read in reads(netlist, *depth) {
                match source_due(netlist, read, model) {
                    None => idle += 1,
                    Some(Source::Start) => start += 1,
                    Some(Source::Write(_)) => written += 1,
                }
                several += usize::from(writes_of_address(netlist, read, model).len() > 1);
                // Of few assignments, with another source named: noticed, but not by who counts alone.
                for other in (visited <= 4).then(|| renamed(netlist, read, model)).into_iter().flatten() {
                    altered += 1;
                    seen &= wrong_read(netlist, *depth, &other) == Some(read);
                    one_accepts += usize::from(one_named(netlist, *depth, &other));
                }
            }
        });
        tally.equal((index, depth, netlist), wrong, None);
        tally.check((index, "another source"), seen);
        assignments += visited;
        unknown += visited * usize::from(netlist.has_unknown_start());
        two_ports += visited * usize::from(netlist.has_two_ports());
    }
    let counts = [assignments, unknown, two_ports, idle, start, written, several, oldest_fails, altered];
    tally.check(("enough of each", counts), counts.iter().all(|it| *it >= 500));
    // Counting the true ones is satisfied with every one of them.
    tally.equal("exactly one is true, whichever it is", one_accepts, altered);
    tally.remark = format!(
        " ({assignments} assignments, {unknown} with an unknown start, {two_ports} with two ports; reads: {idle} idle, {start} of the start, \
         {written} of a write, {several} where several frames wrote; the oldest write would be wrong in {oldest_fails}; {altered} with another \
         source, all noticed)"
    );
}

/// The same in the answers of both public solvers on larger formulas.
pub fn answers(tally: &mut Tally, programs: &Programs) {
    let [mut judged, mut written, mut start] = [0; 3];
    let cases = [small_cases(22, 150), two_port_cases(23, 150)];
    for (index, Case { netlist, depth }) in cases.iter().flatten().enumerate() {
        for answer in programs.solve(&programs.frames(netlist, *depth)) {
            if let Answer::Satisfiable(model) = answer {
                judged += 1;
                tally.equal((index, depth, netlist), wrong_read(netlist, *depth, &model), None);
                for read in reads(netlist, *depth) {
                    match source_due(netlist, read, &model) {
                        Some(Source::Write(_)) => written += 1,
                        Some(Source::Start) => start += 1,
                        None => {}
                    }
                }
            }
        }
    }
    let counts = [judged, written, start];
    tally.check(("enough of each", counts), counts.iter().all(|it| *it >= 100));
    tally.remark = format!(" ({judged} answers; reads: {written} of a write, {start} of the start)");
}

/// What two assignments are asked to agree on.
#[derive(Clone, Copy, Debug, PartialEq, Eq)]
enum Premise {
    /// K13's: all inputs, and frame 0's read bits where their port's RE is false there.
    FirstIdleBits,
    /// More than is needed: the read bits of every frame where RE is false.
    EveryIdleFrame,
    /// More than is needed: frame 0's read bits whatever RE is.
    FirstReadBits,
    /// Too little: the inputs.
    Inputs,
}
use Premise::{EveryIdleFrame, FirstIdleBits, FirstReadBits, Inputs};

/// What they are to differ in.
#[derive(Clone, Copy, Debug, PartialEq, Eq)]
enum Compared {
    /// K13's: some variable that is no e.
    AllButEqualities,
    /// Some variable.
    All,
}
use Compared::{All, AllButEqualities};

/// Two copies of a formula, the second's variables behind the first's; `last` is the last variable.
struct Doubled<'a> {
    netlist: &'a Netlist,
    variables: usize,
    numbers: Vec<i32>,
    last: i32,
}

impl Doubled<'_> {
    fn copy(&self, literal: i32, copy: usize) -> i32 {
        literal + literal.signum() * (copy * self.variables) as i32
    }

    fn clause(&mut self, unless: &[i32], literals: [i32; 2]) {
        self.numbers.extend(unless.iter().chain(&literals).chain(&[0]));
    }

    /// The copies agree on a variable unless this is true.
    fn agree(&mut self, number: usize, unless: &[i32]) {
        let [first, second] = [0, 1].map(|copy| self.copy(number as i32, copy));
        self.clause(unless, [-first, second]);
        self.clause(unless, [first, -second]);
    }

    fn agree_on_inputs(&mut self, depth: u32) {
        for frame in 0..=depth as usize {
            for wire in 1..=self.netlist.inputs as usize {
                self.agree(variable(self.netlist, frame, wire), &[]);
            }
        }
    }

    /// A frame's read bits agree; where idle ones alone are meant, of each port whose RE is false in either copy.
    fn agree_on_read_bits(&mut self, frame: usize, idle_alone: bool) {
        for port in self.netlist.ports() {
            let wires = self.netlist.read_bits(port);
            let code = self.netlist.read_enable_of(port);
            let sign = if code % 2 == 0 { 1 } else { -1 };
            let enable = sign * variable(self.netlist, frame, code as usize / 2) as i32;
            for number in wires.map(|wire| variable(self.netlist, frame, wire as usize)) {
                match code {
                    _ if !idle_alone => self.agree(number, &[]),
                    0 => self.agree(number, &[]),
                    1 => {}
                    _ => (0..2).for_each(|copy| self.agree(number, &[self.copy(enable, copy)])),
                }
            }
        }
    }

    /// One of these variables differs: a variable for each says so.
    fn differ(&mut self, compared: impl Iterator<Item = usize>) {
        let mut somewhere = Vec::new();
        for number in compared {
            let [first, second] = [0, 1].map(|copy| self.copy(number as i32, copy));
            self.last += 1;
            let differs = self.last;
            self.clause(&[-differs], [first, second]);
            self.clause(&[-differs], [-first, -second]);
            somewhere.push(differs);
        }
        self.numbers.extend(somewhere.iter().chain(&[0]));
    }
}

/// The doubled formula.
fn doubled(case: &Case, formula: &Formula, premise: Premise, compared: Compared) -> Formula {
    let Case { netlist, depth } = case;
    let variables = formula.variables;
    let mut doubled = Doubled { netlist, variables, numbers: Vec::new(), last: 2 * variables as i32 };
    for copy in [0, 1] {
        let numbers = formula.numbers.iter().map(|number| doubled.copy(*number, copy)).collect::<Vec<_>>();
        doubled.numbers.extend(numbers);
    }
    doubled.agree_on_inputs(*depth);
    match premise {
        FirstIdleBits => doubled.agree_on_read_bits(0, true),
        EveryIdleFrame => (0..=*depth as usize).for_each(|frame| doubled.agree_on_read_bits(frame, true)),
        FirstReadBits => doubled.agree_on_read_bits(0, false),
        Inputs => {}
    }
    let is_equality = equality_variables(netlist, *depth);
    doubled.differ((1..=variables).filter(|it| compared == All || !is_equality[*it]));
    Formula { variables: doubled.last as usize, numbers: doubled.numbers }
}

/// Two assignments to a formula, as they are asked for.
fn two_assignments(case: &Case, formula: &Formula, premise: Premise, compared: Compared) -> Option<[Vec<bool>; 2]> {
    let both = doubled(case, formula, premise, compared);
    let model = Cadical::new(both.variables, &both.numbers).solve(&[])?;
    let copies = model[1..].chunks(formula.variables);
    let mut copies = copies.map(|values| [&[false], values].concat());
    Some([copies.next()?, copies.next()?])
}

/// Whether both assignments found make all clauses true, with the same choices or not, and differ in more than the e or not.
fn are(case: &Case, formula: &Formula, both: &[Vec<bool>; 2], same_choices: bool, same_settled: bool) -> bool {
    let [first, second] = both;
    let same = |what: &dyn Fn(&[bool]) -> bool| what(first) && what(second);
    same(&|model| satisfies(model, &formula.numbers))
        && first != second
        && (choices(&case.netlist, case.depth, first) == choices(&case.netlist, case.depth, second)) == same_choices
        && (settled(&case.netlist, case.depth, first) == settled(&case.netlist, case.depth, second)) == same_settled
}

/// Whether a port is idle in a frame above 0.
fn is_idle_later(Case { netlist, depth }: &Case, model: &[bool]) -> bool {
    let mut later = reads(netlist, *depth).into_iter().filter(|(_, frame)| *frame > 0);
    later.any(|(port, frame)| !code_value(netlist, frame, model, netlist.read_enable_of(port)))
}

/// A19 by a solver: no second assignment from a given start. Where the e count, one is found that differs in them alone; where idle bits may differ, or
/// the start is unknown, one is found that differs in more.
pub fn second_assignments(tally: &mut Tally, programs: &Programs) {
    let [mut given, mut satisfiable, mut equalities, mut idle_later, mut idle_free, mut unknown] = [0; 6];
    let small = [small_cases(24, 60), two_port_cases(25, 60)];
    let cases = [tiny_cases(26, 500)].into_iter().chain(small).flatten();
    for (index, case) in cases.enumerate() {
        let formula = printed(programs, &case);
        let second = two_assignments(&case, &formula, FirstIdleBits, AllButEqualities);
        if case.netlist.has_unknown_start() {
            if let Some(both) = second {
                tally.check((index, "unknown start"), are(&case, &formula, &both, true, false));
                unknown += 1;
            }
            continue;
        }
        given += 1;
        tally.check((index, case.depth, &case.netlist), second.is_none());
        satisfiable += usize::from(Cadical::new(formula.variables, &formula.numbers).solve(&[]).is_some());
        if let Some(both) = two_assignments(&case, &formula, FirstIdleBits, All) {
            tally.check((index, "the e alone"), are(&case, &formula, &both, true, true));
            equalities += 1;
            // No agreement on the read bits of later idle frames was asked for: they agree all the same.
            idle_later += usize::from(is_idle_later(&case, &both[0]));
        }
        if let Some(both) = two_assignments(&case, &formula, Inputs, AllButEqualities) {
            tally.check((index, "idle bits free"), are(&case, &formula, &both, false, false));
            idle_free += 1;
        }
    }
    let counts = [given, satisfiable, equalities, idle_later, idle_free, unknown];
    tally.check(("enough of each", counts), counts.iter().all(|it| *it >= 20));
    tally.remark = format!(
        " ({given} with a start word, {satisfiable} of them satisfiable: two that differ in the e alone in {equalities}, {idle_later} of these \
         with an idle frame behind frame 0; two whose idle bits differ in {idle_free}; with an unknown start two in {unknown})"
    );
}

/// The doubled formula as a file: both public solvers say that there is no second assignment, and that there are two with other e.
pub fn doubled_files(tally: &mut Tally, programs: &Programs) {
    let [mut none, mut two] = [0; 2];
    // With one address bit no e is free.
    let is_wanted = |it: &&Case| !it.netlist.has_unknown_start() && it.netlist.address_width == 2 && it.depth > 0;
    for (index, case) in tiny_cases(27, 200).iter().filter(is_wanted).enumerate() {
        let formula = printed(programs, case);
        let solve = |compared: Compared| {
            let both = doubled(case, &formula, FirstIdleBits, compared);
            let clauses = both.numbers.iter().filter(|number| **number == 0).count();
            let text = [header_text(both.variables as i64, clauses as i64), clauses_text(&both.numbers)].concat();
            programs.solve(&text)
        };
        for answer in solve(AllButEqualities) {
            tally.equal((index, &case.netlist), answer, Answer::Unsatisfiable);
            none += 1;
        }
        let answers = solve(All).map(|answer| answer.is_satisfiable());
        let found = two_assignments(case, &formula, FirstIdleBits, All).is_some();
        tally.equal((index, "the e count"), answers, [found; 2]);
        two += usize::from(found);
    }
    tally.check(("enough of each", none, two), none >= 40 && two >= 10);
    tally.remark = format!(" ({} formulas; where the e count, {two} have two)", none / 2);
}

/// A generator that is not ours, what its assignments are like, and under which premises there are two of them.
struct Wrong {
    name: &'static str,
    text: fn(&Netlist, u32) -> Vec<u8>,
    /// Whether some assignment names a wrong source.
    misnames: bool,
    /// Whether there are two under K13's premise; if every idle frame agrees; if frame 0's read bits agree.
    two: [bool; 3],
}

/// The clauses of frame 0's closings left out: its reads may be any words.
fn first_reads_free(netlist: &Netlist, depth: u32) -> Vec<u8> {
    let formula = Reference::new(netlist, depth, Fault::None);
    let groups = formula.port_groups().into_iter().filter(|asked| asked.group != Group::Closing(0));
    let numbers: Vec<i32> = groups.flat_map(|asked| formula.port_group(asked)).collect();
    let clauses = numbers.iter().filter(|number| **number == 0).count();
    [header_text(formula.variable_count(), clauses as i64), clauses_text(&numbers)].concat()
}

const WRONG: [Wrong; 6] = [
    Wrong {
        name: "none",
        text: |netlist, depth| wrong_text(netlist, depth, Mistake::Of(Fault::None)),
        misnames: false,
        two: [false, false, false],
    },
    Wrong {
        name: "oldest write",
        text: |netlist, depth| wrong_text(netlist, depth, Mistake::Of(Fault::OldestWrite)),
        misnames: true,
        two: [false, false, false],
    },
    Wrong {
        name: "WE of the reading frame",
        text: |netlist, depth| wrong_text(netlist, depth, Mistake::Of(Fault::ReaderWriteEnable)),
        misnames: true,
        // WE may depend on the word that is read.
        two: [true, true, true],
    },
    Wrong {
        name: "the second address writes",
        text: |netlist, depth| wrong_text(netlist, depth, Mistake::Of(Fault::SecondAddressWrites)),
        misnames: true,
        two: [false, false, false],
    },
    // The two generators below keep what is promised under more premises than K13's: such a promise would not rule them out.
    Wrong {
        name: "no word held",
        text: |netlist, depth| wrong_text(netlist, depth, Mistake::HeldWordLost),
        misnames: false,
        two: [true, false, true],
    },
    Wrong {
        name: "frame 0 reads any word",
        text: first_reads_free,
        misnames: false,
        two: [true, true, false],
    },
];

/// What is asked above notices wrong generators; and a premise that asks for more than K13's would not notice each of them.
pub fn wrong_generators(tally: &mut Tally) {
    let cases: Vec<Case> = tiny_cases(28, 500).into_iter().filter(|it| !it.netlist.has_unknown_start()).collect();
    let mut remarks = Vec::new();
    for Wrong { name, text, misnames, two } in WRONG {
        let (mut misnamed, mut found) = (0, [0; 3]);
        for case in &cases {
            let formula = read_dimacs(&text(&case.netlist, case.depth)).expect("a formula");
            let mut wrong = false;
            visit_assignments(&formula, |model| wrong |= wrong_read(&case.netlist, case.depth, model).is_some());
            misnamed += usize::from(wrong);
            for (count, premise) in found.iter_mut().zip([FirstIdleBits, EveryIdleFrame, FirstReadBits]) {
                let both = two_assignments(case, &formula, premise, AllButEqualities);
                *count += usize::from(both.is_some());
            }
        }
        tally.equal((name, "misnames"), misnamed > 0, misnames);
        tally.equal((name, "two"), found.map(|count| count > 0), two);
        remarks.push(format!("{name}: {misnamed}, {found:?}"));
    }
    tally.remark = format!(
        " (of {} sheets, those with a wrong source, and with two assignments under three premises: {})",
        cases.len(),
        remarks.join("; ")
    );
}
