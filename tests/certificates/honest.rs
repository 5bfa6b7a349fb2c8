//! Certificates without an engine: the clauses of a set of states, and the refutation of a step that leaves them, by splitting cases or by a solver.

use super::elaborate::elaborate;
use super::invariant::{Forever, Step, Variable, CLAUSE, REQUEST};
use super::reachable::{members, Set, States};
use super::reference::formula::{Fault, Formula};
use super::reference::netlist::Netlist;
use super::reference::random::{tiny_netlist, tiny_two_ports, Random};
use super::reference::solver::Solver;
use super::refutation::Certificate;

/// A random chip of one port or two.
pub fn chip(random: &mut Random) -> Netlist {
    if random.percent(60) {
        tiny_netlist(random)
    } else {
        tiny_two_ports(random)
    }
}

/// One whose states and inputs have few bits.
pub fn small_chip(random: &mut Random, most: usize) -> Netlist {
    loop {
        let netlist = chip(random);
        if States::size_of(&netlist) <= most {
            return netlist;
        }
    }
}

/// The lemmas of a refutation of some clauses, if there is one: the clauses, how many variables, and which to decide first.
pub type Refuter<'a> = &'a dyn Fn(&[i32], usize, &[usize]) -> Option<Vec<Vec<i32>>>;

/// By splitting cases, as long as there are not too many.
pub fn split(most: usize) -> impl Fn(&[i32], usize, &[usize]) -> Option<Vec<Vec<i32>>> {
    move |clauses, variables, first| Solver::new(variables, clauses).refutation(first, most)
}

/// Clauses that are true in exactly these states. Each denies a cube of states outside, with as few numbers as leave it outside, in a random order.
pub fn clauses_of(random: &mut Random, bits: usize, set: &Set) -> Vec<i32> {
    let inside = members(set);
    let mut open: Set = set.iter().map(|member| !member).collect();
    let mut clauses = Vec::new();
    while let Some(state) = open.iter().position(|member| *member) {
        let state = state as u32;
        let mut care = (1u32 << bits) - 1;
        let turn = random.index(bits.max(1));
        for bit in (0..bits).map(|bit| 1 << ((bit + turn) % bits)) {
            if inside.iter().all(|member| (member ^ state) & care & !bit != 0) {
                care &= !bit;
            }
        }
        for other in 0..open.len() as u32 {
            open[other as usize] &= (other ^ state) & care != 0;
        }
        let denied = (0..bits).filter(|bit| care >> bit & 1 == 1);
        clauses.extend(denied.map(|bit| if state >> bit & 1 == 1 { -(bit as i32) - 1 } else { bit as i32 + 1 }));
        clauses.push(0);
    }
    clauses
}

/// A certificate of an invariant, whether it holds at the start or not; none where a step leaves it or breaks the property, or it is not refuted.
pub fn forever(netlist: &Netlist, invariant: &[i32], refute: Refuter) -> Result<Forever, String> {
    let step = Step { netlist, invariant };
    let requests = step.all_requests();
    let clauses = [step.clauses(&requests), invariant.to_vec()].concat();
    let variables = step.end() - 1;
    let inputs = (1..=netlist.inputs as usize).map(|wire| step.number(Variable::Wire(wire)) as usize);
    let first: Vec<usize> = (1..=step.bits()).chain(inputs).collect();
    let lemmas = refute(&clauses, variables, &first).ok_or("no refutation")?;
    let refutation = elaborate(&clauses, &lemmas, variables)?;
    Ok(trimmed(Forever { invariant: invariant.to_vec(), requests, refutation }))
}

/// The same without the requests that no hint names.
fn trimmed(certificate: Forever) -> Forever {
    let asked = certificate.requests.len() / REQUEST;
    let mut named = vec![false; asked];
    each_hint(&mut certificate.refutation.hints.clone(), |hint| {
        if let Some(named) = named.get_mut(*hint as usize / CLAUSE) {
            *named = true;
        }
    });
    let kept: Vec<usize> = (0..asked).filter(|request| named[*request]).collect();
    let mut hints = certificate.refutation.hints;
    each_hint(&mut hints, |hint| {
        let request = *hint as usize / CLAUSE;
        let place = match kept.binary_search(&request) {
            Ok(place) => CLAUSE * place,
            Err(_) => *hint as usize - CLAUSE * (asked - kept.len()),
        };
        *hint = place as u32;
    });
    Forever {
        requests: kept.iter().flat_map(|request| certificate.requests[REQUEST * request..REQUEST * (request + 1)].to_vec()).collect(),
        refutation: Certificate { hints, ..certificate.refutation },
        ..certificate
    }
}

/// Goes through the hints of a well-formed list, but not through their counts.
fn each_hint(hints: &mut [u32], mut each: impl FnMut(&mut u32)) {
    let mut at = 0;
    while at < hints.len() {
        let end = at + 1 + hints[at] as usize;
        hints[at + 1..end].iter_mut().for_each(&mut each);
        at = end;
    }
}

/// A certificate of a netlist to a depth; none where a run breaks the property, or the clauses are not refuted.
pub fn to_depth(netlist: &Netlist, depth: u32, refute: Refuter) -> Result<Certificate, String> {
    let formula = Formula::new(netlist, depth, Fault::None);
    let (numbers, variables) = (formula.numbers(), formula.variable_count() as usize);
    let lemmas = refute(&numbers, variables, &[]).ok_or("no refutation")?;
    elaborate(&numbers, &lemmas, variables)
}
