//! All states of a small chip with its whole memory, by the second implementation's stepping: those that runs reach, and whether the property breaks.
//! A state is a number whose bits are those of RULES H3, and so are a frame's inputs.

use std::cell::RefCell;

use super::reference::circuit::{value, Circuit, Feed, State, Values};
use super::reference::netlist::Netlist;

/// For each state whether it belongs to the set.
pub type Set = Vec<bool>;

pub struct States<'a> {
    netlist: &'a Netlist,
    pub bits: usize,
    /// By state and inputs, once it is worked out: whether the property holds, and the state behind the frame.
    steps: RefCell<Vec<Option<(bool, u32)>>>,
}

/// So many bits of a number, from the lowest on, as a list.
fn taken(number: &mut u32, count: usize) -> Vec<bool> {
    let bits = (0..count).map(|bit| *number >> bit & 1 == 1).collect();
    *number >>= count;
    bits
}

fn word_of(bits: &[bool]) -> u32 {
    bits.iter().rev().fold(0, |word, bit| 2 * word + u32::from(*bit))
}

impl<'a> States<'a> {
    pub fn bits_of(netlist: &Netlist) -> usize {
        let words = netlist.port_count() + (1 << netlist.address_width);
        (netlist.latch_count + words * netlist.data_width) as usize
    }

    /// How many bits a table of all steps takes as index.
    pub fn size_of(netlist: &Netlist) -> usize {
        States::bits_of(netlist) + netlist.inputs as usize
    }

    /// For netlists of few bits alone: the states are gone through one by one.
    pub fn new(netlist: &'a Netlist) -> States<'a> {
        let steps = RefCell::new(vec![None; 1 << States::size_of(netlist)]);
        States { netlist, bits: States::bits_of(netlist), steps }
    }

    /// The latches, the words held, the memory word by word.
    fn state_of(&self, mut number: u32) -> State {
        let width = self.netlist.data_width as usize;
        let latches = taken(&mut number, self.netlist.latch_count as usize);
        let mut words = |count: u32| (0..count).map(|_| word_of(&taken(&mut number, width))).collect();
        State { latches, held_words: words(self.netlist.port_count()), words: words(1 << self.netlist.address_width) }
    }

    fn number_of(&self, state: &State) -> u32 {
        let words = state.held_words.iter().chain(&state.words).rev();
        let number = words.fold(0, |number, word| (number << self.netlist.data_width) + word);
        (number << self.netlist.latch_count) + word_of(&state.latches)
    }

    /// One frame from a state: the values of its wires, and the state behind it.
    pub fn frame(&self, state: u32, mut inputs: u32) -> (Values, u32) {
        let mut circuit = Circuit::in_state(self.netlist, &self.state_of(state));
        let values = circuit.step(&Feed::new(taken(&mut inputs, self.netlist.inputs as usize), 0));
        (values, self.number_of(&circuit.state()))
    }

    /// For all inputs: whether the property holds in the frame, and the state behind it.
    fn steps(&self, state: u32) -> Vec<(bool, u32)> {
        let inputs = 0..1 << self.netlist.inputs;
        let step = |inputs: u32| {
            let index = (state as usize) << self.netlist.inputs | inputs as usize;
            let known = self.steps.borrow()[index];
            known.unwrap_or_else(|| {
                let (values, next) = self.frame(state, inputs);
                let step = (value(&values, self.netlist.property), next);
                self.steps.borrow_mut()[index] = Some(step);
                step
            })
        };
        inputs.map(step).collect()
    }

    /// All states, or those in which a run may begin: latches as reset, the memory as given if it is, the words held as anything.
    pub fn starts(&self) -> Set {
        let given = (!self.netlist.has_unknown_start()).then_some(self.netlist.start_word);
        let begins = |number: u32| {
            let state = self.state_of(number);
            let reset = self.netlist.latches.iter().zip(&state.latches).all(|(latch, bit)| (latch.reset == 1) == *bit);
            reset && given.map_or(true, |given| state.words.iter().all(|word| *word == given))
        };
        (0..1 << self.bits).map(begins).collect()
    }

    /// What is reached from some states, these included.
    pub fn closed(&self, mut set: Set) -> Set {
        let mut open = members(&set);
        while let Some(state) = open.pop() {
            for (_, next) in self.steps(state) {
                if !std::mem::replace(&mut set[next as usize], true) {
                    open.push(next);
                }
            }
        }
        set
    }

    /// Whether the property holds in every frame from these states.
    pub fn holds_in(&self, set: &Set) -> bool {
        members(set).into_iter().all(|state| self.steps(state).iter().all(|(holds, _)| *holds))
    }

    /// Whether the property holds in every frame from these states, which no frame leaves.
    pub fn is_inductive(&self, set: &Set) -> bool {
        let stays = |state: u32| self.steps(state).iter().all(|(holds, next)| *holds && set[*next as usize]);
        members(set).into_iter().all(stays)
    }

    /// Whether the property holds in every frame of every run.
    pub fn is_safe(&self) -> bool {
        self.holds_in(&self.closed(self.starts()))
    }

    /// Whether it holds in the frames 0 to a depth of every run.
    pub fn is_safe_to(&self, depth: u32) -> bool {
        let mut set = self.starts();
        for frame in 0..=depth {
            if !self.holds_in(&set) {
                return false;
            }
            if frame < depth {
                let mut next = vec![false; set.len()];
                members(&set).into_iter().flat_map(|state| self.steps(state)).for_each(|(_, state)| next[state as usize] = true);
                set = next;
            }
        }
        true
    }

    /// All states from which no run breaks the property.
    pub fn harmless(&self) -> Set {
        let mut set: Set = (0..1 << self.bits).map(|state| self.steps(state).iter().all(|(holds, _)| *holds)).collect();
        loop {
            let leaving: Vec<u32> =
                members(&set).into_iter().filter(|state| self.steps(*state).iter().any(|(_, next)| !set[*next as usize])).collect();
            if leaving.is_empty() {
                return set;
            }
            for state in leaving {
                set[state as usize] = false;
            }
        }
    }
}

pub fn members(set: &Set) -> Vec<u32> {
    (0..set.len() as u32).filter(|state| set[*state as usize]).collect()
}

/// Whether a number of a clause over the bits of a state is true there; one past the last bit is not.
pub fn is_true(state: u32, bits: usize, number: i32) -> bool {
    let bit = number.unsigned_abs() as usize;
    (1..=bits).contains(&bit) && (state >> (bit - 1) & 1 == 1) == (number > 0)
}

/// The states in which every clause of an invariant has a true number.
pub fn satisfying(bits: usize, invariant: &[i32]) -> Set {
    let clauses: Vec<&[i32]> = invariant.split_inclusive(|number| *number == 0).collect();
    let satisfies = |state: u32| clauses.iter().all(|clause| clause.iter().any(|number| is_true(state, bits, *number)));
    (0..1 << bits).map(satisfies).collect()
}
