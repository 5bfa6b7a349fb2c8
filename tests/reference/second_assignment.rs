//! K13: what inputs and frame 0's idle read bits settle. Two assignments that agree on these are looked
//! for in the doubled formula: two copies of the clauses, each with its own variables.

use super::agreement::variable;
use super::formula::{frame_base, pair_base_of, Fault, Formula};
use super::netlist::Netlist;
use super::one_write::code_value;
use super::solver::Solver;

/// The question of K13, and others that have a different answer.
#[derive(Clone, Copy, Debug, PartialEq, Eq)]
pub enum Question {
    /// Agree on all inputs and frame 0's idle read bits; differ in more than the e.
    SecondAssignment,
    /// The same without agreement on idle read bits.
    IdleBitsFree,
    /// The same without agreement on the inputs of the last frame.
    LastInputsFree,
    /// Agree as K13 says; differ in the e or more.
    EqualitiesToo,
}

/// Whether each variable is an e of some pair.
pub fn equality_variables(netlist: &Netlist, depth: u32) -> Vec<bool> {
    let mut is_equality = vec![false; frame_base(netlist, depth + 1) as usize + 1];
    for port in netlist.ports() {
        for (j, i) in (0..=depth).flat_map(|i| (0..i).map(move |j| (j, i))) {
            let base = pair_base_of(netlist, port, j, i) as usize;
            is_equality[base + 2..][..netlist.address_width as usize].fill(true);
        }
    }
    is_equality
}

/// The variables of all inputs of a frame.
fn input_variables(netlist: &Netlist, frame: u32) -> impl Iterator<Item = usize> + '_ {
    (1..=netlist.inputs as usize).map(move |wire| variable(netlist, frame as usize, wire))
}

/// The variables of a port's read bits in frame 0.
fn first_read_bits(netlist: &Netlist, port: u32) -> impl Iterator<Item = usize> + '_ {
    let wires = netlist.read_bits(port);
    wires.map(move |wire| variable(netlist, 0, wire as usize))
}

/// What settles an assignment: all inputs, and frame 0's read bits of each port whose RE is false there;
/// none stands for a read bit that counts not.
pub fn choices(netlist: &Netlist, depth: u32, model: &[bool]) -> Vec<Option<bool>> {
    let inputs = (0..=depth).flat_map(|frame| input_variables(netlist, frame));
    let mut choices: Vec<Option<bool>> = inputs.map(|it| Some(model[it])).collect();
    for port in netlist.ports() {
        let idle = !code_value(netlist, 0, model, netlist.read_enable_of(port));
        choices.extend(first_read_bits(netlist, port).map(|it| idle.then(|| model[it])));
    }
    choices
}

/// All that is settled: every variable but the e.
pub fn settled(netlist: &Netlist, depth: u32, model: &[bool]) -> Vec<bool> {
    let is_equality = equality_variables(netlist, depth);
    let values = model.iter().zip(is_equality);
    values.filter(|it| !it.1).map(|it| *it.0).collect()
}

/// The doubled formula under construction. The choices are numbered lowest and the e highest, so that the
/// solver decides on the choices first and propagation does the rest.
struct Doubled<'a> {
    netlist: &'a Netlist,
    depth: u32,
    /// For each variable of the formula, its place among them.
    place: Vec<i32>,
    numbers: Vec<i32>,
}

impl<'a> Doubled<'a> {
    fn new(netlist: &'a Netlist, depth: u32) -> Doubled<'a> {
        let variables = frame_base(netlist, depth + 1) as usize;
        let is_equality = equality_variables(netlist, depth);
        let mut rank = vec![2; variables + 1];
        for (index, is_equality) in is_equality.iter().enumerate() {
            rank[index] += usize::from(*is_equality);
        }
        (0..=depth)
            .flat_map(|frame| input_variables(netlist, frame))
            .for_each(|it| rank[it] = 0);
        let ports = netlist.ports();
        ports
            .flat_map(|port| first_read_bits(netlist, port))
            .for_each(|it| rank[it] = 1);
        let mut order: Vec<usize> = (1..=variables).collect();
        order.sort_by_key(|it| rank[*it]);
        let mut place = vec![0; variables + 1];
        for (index, number) in (0..).zip(order) {
            place[number] = index;
        }
        Doubled {
            netlist,
            depth,
            place,
            numbers: Vec::new(),
        }
    }

    /// A clause number in copy 0 or 1.
    fn copy(&self, number: i32, copy: i32) -> i32 {
        let place = self.place[number.unsigned_abs() as usize];
        number.signum() * (2 * place + copy + 1)
    }

    fn clause(&mut self, literals: &[i32]) {
        self.numbers.extend(literals);
        self.numbers.push(0);
    }

    fn copies(&mut self) {
        let numbers = Formula::new(self.netlist, self.depth, Fault::None).numbers();
        for copy in [0, 1] {
            for number in &numbers {
                let own = if *number == 0 {
                    0
                } else {
                    self.copy(*number, copy)
                };
                self.numbers.push(own);
            }
        }
    }

    /// The copies agree on a variable, unless a literal is true.
    fn agree(&mut self, variable: usize, unless: Option<i32>) {
        let [first, second] = [0, 1].map(|copy| self.copy(variable as i32, copy));
        let unless: Vec<i32> = unless.into_iter().collect();
        self.clause(&[&unless[..], &[-first, second]].concat());
        self.clause(&[&unless[..], &[first, -second]].concat());
    }

    fn agree_on_inputs(&mut self, question: Question) {
        let mut frames = 0..=self.depth;
        if question == Question::LastInputsFree {
            frames.next_back();
        }
        for input in frames.flat_map(|frame| input_variables(self.netlist, frame)) {
            self.agree(input, None);
        }
    }

    /// Frame 0's read bits agree where their port's RE is false there, which is so in both copies or in
    /// none: RE follows from inputs and resets.
    fn agree_on_idle_bits(&mut self) {
        for port in self.netlist.ports() {
            let unless = match self.netlist.read_enable_of(port) {
                0 => None,
                1 => continue,
                code => {
                    let number = variable(self.netlist, 0, code as usize / 2) as i32;
                    let sign = if code % 2 == 0 { 1 } else { -1 };
                    Some(self.copy(sign * number, 0))
                }
            };
            for read_bit in first_read_bits(self.netlist, port) {
                self.agree(read_bit, unless);
            }
        }
    }

    /// The copies differ somewhere: a variable for each of those compared, true only if they differ there.
    /// The result is how many variables there are in all.
    fn differ(&mut self, question: Question) -> usize {
        let is_equality = equality_variables(self.netlist, self.depth);
        let compared = |it: &usize| question == Question::EqualitiesToo || !is_equality[*it];
        let variables = is_equality.len() - 1;
        let mut last = 2 * variables as i32;
        let mut somewhere = Vec::new();
        for number in (1..=variables).filter(compared) {
            let [first, second] = [0, 1].map(|copy| self.copy(number as i32, copy));
            last += 1;
            self.clause(&[-last, first, second]);
            self.clause(&[-last, -first, -second]);
            somewhere.push(last);
        }
        self.clause(&somewhere);
        last as usize
    }
}

/// Two assignments to a depth, each making all clauses true, that answer the question; none where there
/// are none. For small netlists: all choices are gone through.
pub fn two_assignments(
    netlist: &Netlist,
    depth: u32,
    question: Question,
) -> Option<[Vec<bool>; 2]> {
    let mut doubled = Doubled::new(netlist, depth);
    doubled.copies();
    doubled.agree_on_inputs(question);
    if question != Question::IdleBitsFree {
        doubled.agree_on_idle_bits();
    }
    let variables = doubled.differ(question);
    let model = Solver::new(variables, &doubled.numbers).first_model()?;
    let of_copy = |copy: i32| -> Vec<bool> {
        let number = |it: usize| doubled.copy(it as i32, copy) as usize;
        let values = (1..doubled.place.len()).map(|it| model[number(it)]);
        [false].into_iter().chain(values).collect()
    };
    Some([of_copy(0), of_copy(1)])
}
