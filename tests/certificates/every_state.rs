//! Certificates for every depth of random chips, held to all their states: each law in every step, and whatever is certified in every state that runs
//! reach.

use super::certificates::Claim;
use super::forever::is_certified;
use super::honest::{clauses_of, forever, small_chip, split};
use super::invariant::{Forever, Step, Variable, CLAUSE, REQUEST};
use super::reachable::{is_true, members, satisfying, Set, States};
use super::reference::circuit::{value, word};
use super::reference::random::{damaged_record, Random};
use super::reference::sheet::write_sheet;
use super::reference::Tally;
use super::refutation::Certificate;

/// The value of every variable of a step from a state with these inputs, and whether the property holds in it and the invariant behind it.
fn valuation(step: &Step, states: &States, state: u32, inputs: u32) -> (Vec<bool>, bool, bool) {
    let (values, next) = states.frame(state, inputs);
    const WORDS: usize = 8; // matches of words past the memory are variables too
    let mut all = vec![false; step.end().max(step.number(Variable::Match { word: WORDS, bits: 0, port: 0 }) as usize)];
    let mut set = |variable: Variable, value: bool| all[step.number(variable) as usize] = value;
    for bit in 0..states.bits {
        set(Variable::Bit(bit), state >> bit & 1 == 1);
        set(Variable::Next(bit), next >> bit & 1 == 1);
    }
    for (wire, value) in values.iter().enumerate() {
        set(Variable::Wire(wire), *value);
    }
    let netlist = step.netlist;
    for port in 0..netlist.port_count() {
        let address = word(&values, netlist.address_codes_of(port + 1));
        for (word, bits) in (0..WORDS).flat_map(|word| (0..=netlist.address_width as usize).map(move |bits| (word, bits))) {
            let matches = (address as usize ^ word) & ((1 << bits) - 1) == 0;
            set(Variable::Match { word, bits, port: port as usize }, matches);
        }
    }
    // a clause from a place on fails if it is ended and nothing in it is true
    let length = step.invariant.len();
    let fails = |place: usize, found: bool| {
        let mut found = found;
        for number in &step.invariant[place..] {
            if *number == 0 && !found {
                return true;
            }
            found = *number != 0 && (found || is_true(next, states.bits, *number));
        }
        false
    };
    for (place, found) in (0..=length).flat_map(|place| [(place, false), (place, true)]) {
        set(Variable::Fails { place, found }, fails(place, found));
    }
    (all, value(&values, netlist.property), !fails(0, false))
}

/// Some numbers of clauses over the bits of a state.
fn random_invariant(random: &mut Random, bits: usize) -> Vec<i32> {
    let mut invariant = Vec::new();
    for _ in 0..random.below(5) {
        for _ in 0..random.between(1, 3) {
            let bit = random.between(1, bits as u32) as i32;
            invariant.push(if random.percent(50) { bit } else { -bit });
        }
        invariant.push(0);
    }
    invariant
}

/// Of random chips and invariants: each clause that can be asked for is the second checker's, and is true in every step, but for the one by which the
/// property is false or the invariant fails; and that one says so.
pub fn laws(tally: &mut Tally, chips: usize) {
    let mut random = Random::new(814);
    let mut clauses = 0;
    for _ in 0..chips {
        let netlist = small_chip(&mut random, 9);
        let states = States::new(&netlist);
        let invariant = random_invariant(&mut random, states.bits);
        let step = Step { netlist: &netlist, invariant: &invariant };
        let mut requests = step.all_requests();
        for _ in 0..10 {
            requests.extend([random.below(60), random.below(9), random.below(5)]);
        }
        let certificate = Forever { invariant: invariant.clone(), requests: requests.clone(), refutation: Certificate::default() };
        let call = Claim::Forever(write_sheet(&netlist), certificate).with_need(&mut random);
        let written = match call.agrees(tally, "clauses asked for") {
            Some(outcome) => outcome.written,
            None => continue,
        };
        let asked: Vec<(&[u32], &[i32])> = requests.chunks(REQUEST).zip(written.chunks(CLAUSE)).collect();
        clauses += asked.len();
        let mut as_said = true;
        for (state, inputs) in (0..1 << states.bits).flat_map(|state| (0..1 << netlist.inputs).map(move |inputs| (state, inputs))) {
            let (values, holds, kept) = valuation(&step, &states, state, inputs);
            // behind the invariant's end nothing fails
            let variable = |number: i32| values.get(number.unsigned_abs() as usize).copied().unwrap_or(false);
            let is_true = |number: &i32| *number != 0 && variable(*number) == (*number > 0);
            for (request, clause) in &asked {
                // the assumption: where P is true, the invariant fails
                let assumed = request[0] == 7;
                as_said &= clause.iter().any(is_true) == (!assumed || !(holds && kept));
            }
        }
        tally.check_with("in every step", as_said, || format!(": {netlist:?}, {invariant:?}"));
    }
    tally.remark = format!(" ({clauses} clauses)");
}

/// An invariant of a chip: of its reachable states, its harmless ones, what is reached from these and some others, one of these changed, or any.
fn some_invariant(random: &mut Random, states: &States) -> Vec<i32> {
    let reached = states.closed(states.starts());
    let set: Set = match random.below(4) {
        0 => reached,
        1 => states.harmless(),
        2 => {
            let mut more = reached;
            for _ in 0..random.below(4) {
                let other = random.index(more.len());
                more[other] = true;
            }
            states.closed(more)
        }
        _ => return random_invariant(random, states.bits),
    };
    let mut invariant = clauses_of(random, states.bits, &set);
    if random.percent(40) && !invariant.is_empty() {
        let at = random.index(invariant.len());
        match random.below(3) {
            0 => drop(invariant.remove(at)),
            1 => invariant[at] = -invariant[at],
            _ => invariant.extend(random_invariant(random, states.bits)),
        }
        // clauses stay ended
        while invariant.last().map_or(false, |number| *number != 0) {
            invariant.pop();
        }
    }
    invariant
}

/// Refutations by splitting that have more are left out.
const MOST_LEMMAS: usize = 1_500;

/// Of random chips and invariants, good and bad: a step is refuted exactly where no step leaves the invariant or breaks the property; a chip is
/// certified exactly where, besides, each clause has a number that is true in every state at the start; and of whatever is certified, also with
/// another chip's certificate, the property holds in every state that its runs reach.
pub fn random_chips(tally: &mut Tally, chips: usize) {
    let mut random = Random::new(815);
    let [mut safe, mut refuted, mut others, mut long] = [0; 4];
    let mut certified = [0; 3]; // with one port and a given start, with an unknown one, with two ports
    for _ in 0..chips {
        let netlist = small_chip(&mut random, 11);
        let states = States::new(&netlist);
        let is_safe = states.is_safe();
        safe += usize::from(is_safe);
        let invariant = some_invariant(&mut random, &states);
        let inductive = states.is_inductive(&satisfying(states.bits, &invariant));
        let certificate = match forever(&netlist, &invariant, &split(MOST_LEMMAS)) {
            Err(_) if inductive => {
                long += 1;
                continue;
            }
            found => {
                tally.check_with("refuted where no step leaves", found.is_ok() == inductive, || format!(": {netlist:?}, {invariant:?}"));
                found
            }
        };
        let starts = members(&states.starts());
        let begins = |number: i32| starts.iter().all(|state| is_true(*state, states.bits, number));
        let at_start = invariant.split_inclusive(|number| *number == 0).all(|clause| clause.iter().any(|number| begins(*number)));
        let certificate = match certificate {
            Ok(certificate) => certificate,
            Err(_) => continue,
        };
        refuted += 1;
        let found = is_certified(tally, &mut random, "random chip", &write_sheet(&netlist), &certificate);
        tally.check_with("certified where it holds at the start", found == at_start, || format!(": {netlist:?}, {invariant:?}"));
        tally.check("what is certified is safe", is_safe || !found);
        certified[if netlist.has_two_ports() { 2 } else { netlist.unknown_start as usize }] += usize::from(found);
        for _ in 0..4 {
            let other = damaged_record(&mut random, &netlist);
            if other.check().is_err() || !is_certified(tally, &mut random, "another chip", &write_sheet(&other), &certificate) {
                continue;
            }
            others += 1;
            tally.check_with("what is certified is safe", States::new(&other).is_safe(), || format!(": {other:?}, {certificate:?}"));
        }
    }
    let all: usize = certified.iter().sum();
    let often = |count: usize| 50 * count > chips;
    tally.check("each kind is met", [safe, chips - safe, refuted, refuted - all, others].into_iter().chain(certified).all(often));
    tally.check("few refutations are too long", !often(long));
    let kinds = format!("{all} certified, by kind {certified:?}");
    tally.remark = format!(" ({safe} safe; {refuted} refuted, {long} too long; {kinds}, and {others} others with their certificates)");
}
