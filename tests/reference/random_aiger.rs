//! Deterministic random texts of K1, and damaged ones.

use std::collections::HashSet;

use super::aiger::{import, Text};
use super::aiger_values::output_codes;
use super::netlist::{Netlist, MAX_ADDRESS_WIDTH, MAX_DATA_WIDTH, MAX_WIRES};
use super::random::{tiny_netlist, tiny_two_ports, wide_netlist, wide_two_ports, Random};
use super::refusal::{
    Refusal, MEMORY_LOOP, NOT_WELL_FORMED, NO_ROOM, SIZE, TIED_ADDRESS, UNDEFINED, WRONG_COUNTS,
};

/// A call of `import`.
#[derive(Clone, Debug)]
pub struct Call {
    pub text: Vec<u8>,
    /// m, n and the start word.
    pub memory: [u32; 3],
    pub unknown_start: u32,
    pub second_port: u32,
    /// Lengths of the lent latch and gate lists.
    pub rooms: [usize; 2],
}

impl Call {
    pub fn import(&self) -> Result<Netlist, Refusal> {
        let [m, n, word] = self.memory;
        let [latch_room, gate_room] = self.rooms;
        let (flag, second) = (self.unknown_start, self.second_port);
        import(&self.text, m, n, word, flag, second, latch_room, gate_room)
    }
}

/// A call whose text is not written yet.
#[derive(Clone, Debug)]
pub struct Draft {
    pub text: Text,
    pub memory: [u32; 3],
    pub unknown_start: u32,
    pub second_port: u32,
    pub rooms: [usize; 2],
}

impl Draft {
    pub fn call(&self) -> Call {
        Call {
            text: self.text.write(),
            memory: self.memory,
            unknown_start: self.unknown_start,
            second_port: self.second_port,
            rooms: self.rooms,
        }
    }
}

/// The highest variable that has an even literal of 32 bits.
const LAST_VARIABLE: u32 = u32::MAX / 2;

/// How the variables of a text are numbered.
#[derive(Clone, Copy, Debug, PartialEq, Eq)]
pub enum Numbering {
    /// 1 to M in the order of the text, as tools write them.
    InOrder,
    /// 1 to M in any order.
    Shuffled,
    /// Some of the numbers from 1 to M in any order.
    Sparse,
}

pub const NUMBERINGS: [Numbering; 3] = [Numbering::InOrder, Numbering::Shuffled, Numbering::Sparse];

/// M and the variables in the order of the text.
fn numbers_of_variables(random: &mut Random, count: u32, numbering: Numbering) -> (u32, Vec<u32>) {
    match numbering {
        Numbering::InOrder => (count, (1..=count).collect()),
        Numbering::Shuffled => (count, distinct(random, count, count)),
        Numbering::Sparse => {
            let (few, some) = (random.between(1, 9), random.between(10, 5000));
            let highest = random.pick(&[count + few, count + some, LAST_VARIABLE]);
            let largest = [highest, LAST_VARIABLE, LAST_VARIABLE + 1, u32::MAX];
            (random.pick(&largest), distinct(random, count, highest))
        }
    }
}

/// That many different numbers from 1 to `highest`, in any order.
fn distinct(random: &mut Random, count: u32, highest: u32) -> Vec<u32> {
    let mut taken = HashSet::new();
    let mut numbers = Vec::new();
    while numbers.len() < count as usize {
        let number = random.between(1, highest);
        if taken.insert(number) {
            numbers.push(number);
        }
    }
    numbers
}

/// A netlist with one port of any shape within the limits that a text can say: every reset is 0.
pub fn text_netlist(random: &mut Random) -> Netlist {
    let netlist = if random.percent(30) {
        tiny_netlist(random)
    } else {
        wide_netlist(random)
    };
    without_resets(netlist)
}

/// The same with two ports.
pub fn two_port_text_netlist(random: &mut Random) -> Netlist {
    let netlist = if random.percent(30) {
        tiny_two_ports(random)
    } else {
        wide_two_ports(random)
    };
    without_resets(netlist)
}

/// With one port or two.
pub fn any_text_netlist(random: &mut Random) -> Netlist {
    if random.percent(40) {
        two_port_text_netlist(random)
    } else {
        text_netlist(random)
    }
}

fn without_resets(mut netlist: Netlist) -> Netlist {
    for latch in &mut netlist.latches {
        latch.reset = 0;
    }
    netlist
}

/// The text that says an accepted netlist, with just enough room for its import.
pub fn draft_of(random: &mut Random, netlist: &Netlist, numbering: Numbering) -> Draft {
    let wires = netlist.wire_count();
    let (largest_variable, variables) = numbers_of_variables(random, wires, numbering);
    let inputs = 1..netlist.first_latch();
    let latches = netlist.first_latch()..netlist.first_read_bit();
    let read_bits = netlist.first_read_bit()..netlist.first_gate();
    let gates = netlist.first_gate()..wires + 1;
    let in_text_order = inputs.chain(read_bits).chain(latches).chain(gates);
    let mut variable_of = vec![0; wires as usize + 1];
    for (wire, variable) in in_text_order.zip(variables) {
        variable_of[wire as usize] = variable;
    }

    let literal = |code: u32| 2 * variable_of[code as usize / 2] + code % 2;
    let defined = |wire: u32| literal(2 * wire);
    let text = Text {
        largest_variable,
        inputs: (1..netlist.first_latch())
            .chain(netlist.first_read_bit()..netlist.first_gate())
            .map(defined)
            .collect(),
        latches: (netlist.first_latch()..)
            .zip(&netlist.latches)
            .map(|(wire, latch)| [defined(wire), literal(latch.next)])
            .collect(),
        outputs: output_codes(netlist).into_iter().map(literal).collect(),
        gates: (netlist.first_gate()..)
            .zip(&netlist.gates)
            .map(|(wire, gate)| [defined(wire), literal(gate.left), literal(gate.right)])
            .collect(),
    };
    Draft {
        text,
        memory: [
            netlist.address_width,
            netlist.data_width,
            netlist.start_word,
        ],
        unknown_start: netlist.unknown_start,
        second_port: netlist.two_ports,
        rooms: [netlist.latches.len(), netlist.gates.len()],
    }
}

/// An accepted draft of any shape and numbering, and the netlist that it says.
pub fn random_draft(random: &mut Random) -> (Netlist, Draft) {
    let netlist = any_text_netlist(random);
    let numbering = random.pick(&NUMBERINGS);
    let draft = draft_of(random, &netlist, numbering);
    (netlist, draft)
}

pub type TextShape = (&'static str, fn(&Text) -> bool);

/// The shapes that random texts must have often.
#[rustfmt::skip]
pub const TEXT_SHAPES: [TextShape; 10] = [
    ("M as small as can be", |it| u64::from(it.largest_variable) == definition_count(it)),
    ("M larger", |it| u64::from(it.largest_variable) > definition_count(it)),
    ("2M + 1 beyond 32 bits", |it| it.largest_variable > LAST_VARIABLE),
    ("output of 32 bits", |it| it.outputs.iter().any(|output| *output > 1 << 31)),
    ("output names a gate", |it| it.outputs.iter().any(|output| is_gate(it, *output))),
    ("next code names a gate", |it| it.latches.iter().any(|latch| is_gate(it, latch[1]))),
    ("inverted next code", |it| it.latches.iter().any(|latch| latch[1] > 1 && latch[1] % 2 == 1)),
    ("inverted operand", |it| it.gates.iter().any(|gate| gate[1] > 1 && gate[1] % 2 == 1)),
    ("operands ascending", |it| it.gates.iter().any(|gate| gate[1] < gate[2])),
    ("operand above the gate's number", |it| it.gates.iter().any(|gate| gate[1] > gate[0] + 1)),
];

fn definition_count(text: &Text) -> u64 {
    (text.inputs.len() + text.latches.len() + text.gates.len()) as u64
}

fn is_gate(text: &Text, literal: u32) -> bool {
    text.gates.iter().any(|gate| gate[0] / 2 == literal / 2)
}

/// The first lines of inputs, latches, outputs and gates, and the first behind all of them.
fn first_lines(text: &Text) -> [u32; 5] {
    let inputs = 2;
    let latches = inputs + text.inputs.len() as u32;
    let outputs = latches + text.latches.len() as u32;
    let gates = outputs + text.outputs.len() as u32;
    [
        inputs,
        latches,
        outputs,
        gates,
        gates + text.gates.len() as u32,
    ]
}

/// A number of a text with its line.
type Numbers<'a> = Vec<(u32, &'a mut u32)>;

/// All defined literals, and all codes that name something, in the order of the text.
fn numbers(text: &mut Text) -> (Numbers<'_>, Numbers<'_>) {
    let [inputs, latches, outputs, gates, _] = first_lines(text);
    let mut defined: Numbers = (inputs..).zip(&mut text.inputs).collect();
    let mut named: Numbers = Vec::new();
    for (line, [latch, next]) in (latches..).zip(&mut text.latches) {
        defined.push((line, latch));
        named.push((line, next));
    }
    named.extend((outputs..).zip(&mut text.outputs));
    for (line, [gate, left, right]) in (gates..).zip(&mut text.gates) {
        defined.push((line, gate));
        named.push((line, left));
        named.push((line, right));
    }
    (defined, named)
}

/// Variables that no line defines; M is raised where they lie above it.
fn fresh_variables(text: &mut Text, count: usize) -> Vec<u32> {
    let (defined, _) = numbers(text);
    let taken: HashSet<u32> = defined.iter().map(|(_, literal)| **literal / 2).collect();
    let fresh: Vec<u32> = (1..=LAST_VARIABLE)
        .filter(|variable| !taken.contains(variable))
        .take(count)
        .collect();
    let highest = fresh.last().map_or(0, |variable| *variable);
    text.largest_variable = text.largest_variable.max(highest);
    fresh
}

/// A change of an accepted draft, and the refusal that it alone causes; none where the draft has
/// no place for it, which then is as it was.
pub type DraftFault = (&'static str, fn(&mut Random, &mut Draft) -> Option<Refusal>);

pub const DRAFT_FAULTS: [DraftFault; 26] = [
    ("odd definition", odd_definition),
    ("definition of a constant", constant_definition),
    ("definition repeated", repeated_definition),
    ("definition above 2M + 1", definition_too_high),
    ("code above 2M + 1", code_too_high),
    ("M too small", variables_too_few),
    ("undefined variable", undefined_variable),
    ("operand defined later", later_operand),
    ("own variable as operand", own_operand),
    ("too few inputs", too_few_inputs),
    ("output dropped", output_dropped),
    ("output added", output_added),
    ("other address width", other_address_width),
    ("address width beyond its limit", address_width_beyond),
    ("data width 0", data_width_0),
    ("data width 33", data_width_33),
    ("start word beyond its limit", start_word_beyond),
    ("flag of the start beyond 1", start_flag_beyond),
    ("other number of ports", other_port_number),
    ("two ports and an unknown start", unknown_start_of_two_ports),
    ("601 of a kind", too_many_of_a_kind),
    ("V = 601", too_many_wires),
    ("address bits tied", address_bits_tied),
    ("read bit as address or RE", read_bit_as_address),
    ("memory loop through gates", loop_through_gates),
    ("short list", short_list),
];

fn refused(number: u32, place: u32) -> Option<Refusal> {
    Some(Refusal { number, place })
}

fn odd_definition(random: &mut Random, draft: &mut Draft) -> Option<Refusal> {
    let (mut defined, _) = numbers(&mut draft.text);
    let at = random.index(defined.len());
    *defined[at].1 |= 1;
    refused(NOT_WELL_FORMED, defined[at].0)
}

fn constant_definition(random: &mut Random, draft: &mut Draft) -> Option<Refusal> {
    let (mut defined, _) = numbers(&mut draft.text);
    let at = random.index(defined.len());
    *defined[at].1 = random.below(2);
    refused(NOT_WELL_FORMED, defined[at].0)
}

/// The second of the two lines is refused, whichever of them was changed.
fn repeated_definition(random: &mut Random, draft: &mut Draft) -> Option<Refusal> {
    let (mut defined, _) = numbers(&mut draft.text);
    if defined.len() < 2 {
        return None;
    }
    let second = 1 + random.index(defined.len() - 1);
    let first = random.index(second);
    let literal = random.pick(&[*defined[first].1, *defined[second].1]);
    *defined[first].1 = literal;
    *defined[second].1 = literal;
    refused(NOT_WELL_FORMED, defined[second].0)
}

/// A number above 2M + 1, often 2M + 2; none where 32 bits hold no such number.
fn too_high(random: &mut Random, largest_variable: u32) -> Option<u32> {
    let limit = largest_variable.checked_mul(2)?;
    let first = limit.checked_add(2)?;
    let any = random.between(first, first.saturating_add(9));
    Some(random.pick(&[first, any, u32::MAX]))
}

fn definition_too_high(random: &mut Random, draft: &mut Draft) -> Option<Refusal> {
    let number = too_high(random, draft.text.largest_variable)?;
    let (mut defined, _) = numbers(&mut draft.text);
    let at = random.index(defined.len());
    *defined[at].1 = number;
    refused(NOT_WELL_FORMED, defined[at].0)
}

fn code_too_high(random: &mut Random, draft: &mut Draft) -> Option<Refusal> {
    let number = too_high(random, draft.text.largest_variable)?;
    let (_, mut named) = numbers(&mut draft.text);
    let at = random.index(named.len());
    *named[at].1 = number;
    refused(NOT_WELL_FORMED, named[at].0)
}

/// The header passes; the first line with a number above 2M + 1 does not.
fn variables_too_few(random: &mut Random, draft: &mut Draft) -> Option<Refusal> {
    let (defined, named) = numbers(&mut draft.text);
    let all: Vec<(u32, u32)> = defined
        .iter()
        .chain(&named)
        .map(|(line, literal)| (*line, **literal))
        .collect();
    let highest = all.iter().map(|(_, literal)| literal / 2).max()?;
    let most = highest.checked_sub(1)?;
    let any = random.between(0, most);
    let largest_variable = random.pick(&[most, any, 0]);
    draft.text.largest_variable = largest_variable;
    let too_high = all
        .iter()
        .filter(|(_, literal)| literal / 2 > largest_variable);
    refused(NOT_WELL_FORMED, too_high.map(|(line, _)| *line).min()?)
}

fn undefined_variable(random: &mut Random, draft: &mut Draft) -> Option<Refusal> {
    let fresh = fresh_variables(&mut draft.text, 1)[0];
    let (_, mut named) = numbers(&mut draft.text);
    let at = random.index(named.len());
    *named[at].1 = 2 * fresh + random.below(2);
    refused(UNDEFINED, named[at].0)
}

fn later_operand(random: &mut Random, draft: &mut Draft) -> Option<Refusal> {
    let [_, _, _, first_line, _] = first_lines(&draft.text);
    let gates = &mut draft.text.gates;
    if gates.len() < 2 {
        return None;
    }
    let later = 1 + random.index(gates.len() - 1);
    let at = random.index(later);
    gates[at][1 + random.index(2)] = gates[later][0] | random.below(2);
    refused(UNDEFINED, first_line + at as u32)
}

fn own_operand(random: &mut Random, draft: &mut Draft) -> Option<Refusal> {
    let [_, _, _, first_line, _] = first_lines(&draft.text);
    let gates = &mut draft.text.gates;
    if gates.is_empty() {
        return None;
    }
    let at = random.index(gates.len());
    gates[at][1 + random.index(2)] = gates[at][0] | random.below(2);
    refused(UNDEFINED, first_line + at as u32)
}

/// n for which the read bits are more than the inputs; the number of outputs fits, or n is too large for that.
fn too_few_inputs(random: &mut Random, draft: &mut Draft) -> Option<Refusal> {
    let least = draft.text.inputs.len() as u32 / (1 + draft.second_port) + 1;
    let added = least - draft.memory[1];
    if random.percent(70) {
        draft.memory[1] = least;
        draft.text.outputs.extend(vec![0; added as usize]);
    } else {
        draft.memory[1] = random.pick(&[least, u32::MAX - 2, u32::MAX]);
    }
    refused(WRONG_COUNTS, 0)
}

fn output_dropped(random: &mut Random, draft: &mut Draft) -> Option<Refusal> {
    let at = random.index(draft.text.outputs.len());
    draft.text.outputs.remove(at);
    refused(WRONG_COUNTS, 0)
}

fn output_added(random: &mut Random, draft: &mut Draft) -> Option<Refusal> {
    let output = random.pick(&draft.text.outputs);
    draft.text.outputs.push(output);
    refused(WRONG_COUNTS, 0)
}

/// m without a change of the outputs. The last choice makes m + n + 3 of one port wrap to their number.
fn other_address_width(random: &mut Random, draft: &mut Draft) -> Option<Refusal> {
    let [m, n, _] = draft.memory;
    if draft.second_port > 0 || random.percent(70) {
        draft.memory[0] = random.pick(&[m - 1, m + 1, u32::MAX]);
    } else {
        draft.memory[0] = u32::MAX - n - 2;
        draft.text.outputs.clear();
    }
    refused(WRONG_COUNTS, 0)
}

fn address_width_beyond(random: &mut Random, draft: &mut Draft) -> Option<Refusal> {
    let beyond = [0, MAX_ADDRESS_WIDTH + 1, MAX_ADDRESS_WIDTH + 30];
    let m = random.pick(&beyond);
    let codes = vec![0; m as usize];
    let [old, n, _] = draft.memory.map(|number| number as usize);
    if draft.second_port > 0 {
        let second = old + n..old + n + old;
        draft.text.outputs.splice(second, codes.clone());
    }
    draft.text.outputs.splice(..old, codes);
    draft.memory[0] = m;
    refused(SIZE, 2)
}

fn data_width_0(_: &mut Random, draft: &mut Draft) -> Option<Refusal> {
    let [m, n, _] = draft.memory.map(|number| number as usize);
    draft.text.outputs.drain(m..m + n);
    draft.memory[1] = 0;
    draft.memory[2] = 0;
    refused(SIZE, 2)
}

fn data_width_33(_: &mut Random, draft: &mut Draft) -> Option<Refusal> {
    let wide = MAX_DATA_WIDTH + 1;
    if draft.text.inputs.len() < (wide * (1 + draft.second_port)) as usize {
        return None;
    }
    let added = wide - draft.memory[1];
    draft.text.outputs.extend(vec![1; added as usize]);
    draft.memory[1] = wide;
    refused(SIZE, 2)
}

fn start_word_beyond(random: &mut Random, draft: &mut Draft) -> Option<Refusal> {
    let first = 1u32.checked_shl(draft.memory[1])?;
    draft.memory[2] = random.pick(&[first, first + 1, u32::MAX]);
    draft.unknown_start = 0;
    refused(SIZE, 2)
}

fn start_flag_beyond(random: &mut Random, draft: &mut Draft) -> Option<Refusal> {
    draft.unknown_start = random.pick(&[2, 3, 1 << 31, u32::MAX]);
    refused(SIZE, 2)
}

/// Another number of ports without a change of the text, small, or so large that products wrap.
fn other_port_number(random: &mut Random, draft: &mut Draft) -> Option<Refusal> {
    let others = [1 - draft.second_port, 2, 3, 1 << 31, u32::MAX - 1, u32::MAX];
    draft.second_port = random.pick(&others);
    refused(WRONG_COUNTS, 0)
}

fn unknown_start_of_two_ports(random: &mut Random, draft: &mut Draft) -> Option<Refusal> {
    if draft.second_port == 0 {
        return None;
    }
    draft.unknown_start = random.pick(&[1, 1, 2, u32::MAX]);
    refused(SIZE, 2)
}

/// Inputs before all others, or latches or gates behind all others, none of them used.
fn add_wires(text: &mut Text, kind: usize, count: usize) {
    let literals = fresh_variables(text, count)
        .into_iter()
        .map(|fresh| 2 * fresh);
    match kind {
        0 => drop(text.inputs.splice(..0, literals)),
        1 => text.latches.extend(literals.map(|literal| [literal, 0])),
        _ => text.gates.extend(literals.map(|literal| [literal, 1, 0])),
    }
}

fn too_many_of_a_kind(random: &mut Random, draft: &mut Draft) -> Option<Refusal> {
    let own_inputs = draft.text.inputs.len() - read_bit_count(draft);
    let counts = [own_inputs, draft.text.latches.len(), draft.text.gates.len()];
    let kind = random.index(3);
    let limit = MAX_WIRES as usize;
    add_wires(&mut draft.text, kind, limit + 1 - counts[kind]);
    refused(SIZE, 1)
}

fn too_many_wires(random: &mut Random, draft: &mut Draft) -> Option<Refusal> {
    let wires = definition_count(&draft.text) as usize;
    add_wires(
        &mut draft.text,
        random.index(3),
        MAX_WIRES as usize + 1 - wires,
    );
    refused(SIZE, 2)
}

/// The read bits of all ports.
fn read_bit_count(draft: &Draft) -> usize {
    ((1 + draft.second_port) * draft.memory[1]) as usize
}

fn read_bit(random: &mut Random, draft: &Draft) -> u32 {
    let from_last = random.index(read_bit_count(draft));
    let literal = draft.text.inputs[draft.text.inputs.len() - 1 - from_last];
    literal | random.below(2)
}

/// The line that the first address bit has in a sheet.
fn first_address_line(draft: &Draft) -> u32 {
    3 + (draft.text.latches.len() + draft.text.gates.len()) as u32
}

fn address_bits_tied(random: &mut Random, draft: &mut Draft) -> Option<Refusal> {
    let [m, n, _] = draft.memory;
    let first = random.below(1 + draft.second_port) * (m + n);
    let later = random.below(m);
    let earlier = random.below(later.max(1));
    let literal = draft.text.outputs[(first + earlier) as usize];
    if later == 0 || literal < 2 {
        return None;
    }
    draft.text.outputs[(first + later) as usize] = literal ^ random.below(2);
    refused(TIED_ADDRESS, first_address_line(draft) + first + later)
}

fn read_bit_as_address(random: &mut Random, draft: &mut Draft) -> Option<Refusal> {
    let [m, n, _] = draft.memory;
    let literal = read_bit(random, draft);
    let first_line = first_address_line(draft);
    // The first port's RE is on line C, behind all codes of a second.
    let control = m + n + draft.second_port * (m + 1);
    let (bit, line) = if random.percent(70) {
        let bit = random.below(m);
        (bit, first_line + bit)
    } else if draft.second_port > 0 && random.percent(70) {
        let bit = m + n + random.below(m + 1);
        (bit, first_line + bit)
    } else {
        (control + 1, first_line + control)
    };
    draft.text.outputs[bit as usize] = literal;
    refused(MEMORY_LOOP, line)
}

/// A read bit reaches address bit 0 through two gates, of which the second is always false.
fn loop_through_gates(random: &mut Random, draft: &mut Draft) -> Option<Refusal> {
    if draft.text.gates.len() < 2 {
        return None;
    }
    let read_bit = read_bit(random, draft);
    let gates = &mut draft.text.gates;
    let second = 1 + random.index(gates.len() - 1);
    let first = random.index(second);
    gates[first][1 + random.index(2)] = read_bit;
    let operands = [gates[first][0] | random.below(2), 0];
    let at = random.index(2);
    gates[second][1] = operands[at];
    gates[second][2] = operands[1 - at];
    let literal = gates[second][0] | random.below(2);
    // The other address bits are not to be tied to this one.
    for output in &mut draft.text.outputs[1..draft.memory[0] as usize] {
        if *output / 2 == literal / 2 {
            *output = 0;
        }
    }
    draft.text.outputs[0] = literal;
    refused(MEMORY_LOOP, first_address_line(draft))
}

fn short_list(random: &mut Random, draft: &mut Draft) -> Option<Refusal> {
    let list = random.index(2);
    let need = [draft.text.latches.len(), draft.text.gates.len()][list];
    draft.rooms[list] = random.pick(&[need.checked_sub(1)?, 0]);
    refused(NO_ROOM, 0)
}

/// A change of the bytes of an accepted draft's call, whose text ends with its last line due, and
/// the refusal that it alone causes. The draft tells what stands where.
pub type ByteFault = (
    &'static str,
    fn(&mut Random, &Draft, &mut Call) -> Option<Refusal>,
);

/// All of them are refused with 11.
pub const BYTE_FAULTS: [ByteFault; 15] = [
    ("aig", other_name),
    ("header of AIGER 1.9", longer_header),
    ("latch with a reset", latch_with_reset),
    ("carriage return in one line", one_carriage_return),
    ("carriage returns", all_carriage_returns),
    ("double space", double_space),
    ("trailing space", trailing_space),
    ("leading space", leading_space),
    ("tab", tab),
    ("leading zero", leading_zero),
    ("sign", sign),
    ("empty line", empty_line),
    ("last line feed missing", last_line_feed_missing),
    ("cut", cut),
    ("huge count", huge_count),
];

fn lines_of(text: &[u8]) -> Vec<Vec<u8>> {
    text.split_inclusive(|byte| *byte == b'\n')
        .map(<[u8]>::to_vec)
        .collect()
}

/// Changes one line, given without its line feed.
fn change_line(call: &mut Call, at: usize, change: impl FnOnce(&mut Vec<u8>)) -> Option<Refusal> {
    let mut lines = lines_of(&call.text);
    lines[at].pop();
    change(&mut lines[at]);
    lines[at].push(b'\n');
    call.text = lines.concat();
    refused(NOT_WELL_FORMED, at as u32 + 1)
}

fn any_line(random: &mut Random, call: &Call) -> usize {
    random.index(lines_of(&call.text).len())
}

fn other_name(random: &mut Random, _: &Draft, call: &mut Call) -> Option<Refusal> {
    let name: [u8; 3] = random.pick(&[*b"aig", *b"AAG", *b"aa ", *b"gaa", *b"agg", *b"\0ag"]);
    change_line(call, 0, |line| line[..3].copy_from_slice(&name))
}

fn longer_header(random: &mut Random, _: &Draft, call: &mut Call) -> Option<Refusal> {
    let more = random.between(1, 4) as usize;
    change_line(call, 0, |line| line.extend(b" 0".repeat(more)))
}

fn latch_with_reset(random: &mut Random, draft: &Draft, call: &mut Call) -> Option<Refusal> {
    let latches = &draft.text.latches;
    if latches.is_empty() {
        return None;
    }
    let at = random.index(latches.len());
    let reset = random.pick(&[0, 1, latches[at][0]]);
    let line = 1 + draft.text.inputs.len() + at;
    change_line(call, line, |line| line.extend(format!(" {reset}").bytes()))
}

fn one_carriage_return(random: &mut Random, _: &Draft, call: &mut Call) -> Option<Refusal> {
    let at = any_line(random, call);
    change_line(call, at, |line| line.push(b'\r'))
}

fn all_carriage_returns(_: &mut Random, _: &Draft, call: &mut Call) -> Option<Refusal> {
    for at in 0..lines_of(&call.text).len() {
        change_line(call, at, |line| line.push(b'\r'));
    }
    refused(NOT_WELL_FORMED, 1)
}

/// A line with a space, and where the space is.
fn any_space(random: &mut Random, call: &Call) -> (usize, usize) {
    let mut spaces = Vec::new();
    for (at, line) in lines_of(&call.text).iter().enumerate() {
        let columns = (0..line.len()).filter(|column| line[*column] == b' ');
        spaces.extend(columns.map(|column| (at, column)));
    }
    random.pick(&spaces)
}

/// A line and the place of a number's first digit in it.
fn any_number(random: &mut Random, call: &Call) -> (usize, usize) {
    let lines = lines_of(&call.text);
    let at = random.index(lines.len());
    let line = &lines[at];
    let is_first = |column: &usize| {
        line[*column].is_ascii_digit() && (*column == 0 || line[*column - 1] == b' ')
    };
    let columns: Vec<usize> = (0..line.len()).filter(is_first).collect();
    (at, random.pick(&columns))
}

fn double_space(random: &mut Random, _: &Draft, call: &mut Call) -> Option<Refusal> {
    let (at, column) = any_space(random, call);
    change_line(call, at, |line| line.insert(column, b' '))
}

fn trailing_space(random: &mut Random, _: &Draft, call: &mut Call) -> Option<Refusal> {
    let at = any_line(random, call);
    change_line(call, at, |line| line.push(b' '))
}

fn leading_space(random: &mut Random, _: &Draft, call: &mut Call) -> Option<Refusal> {
    let at = any_line(random, call);
    change_line(call, at, |line| line.insert(0, b' '))
}

fn tab(random: &mut Random, _: &Draft, call: &mut Call) -> Option<Refusal> {
    let (at, column) = any_space(random, call);
    change_line(call, at, |line| line[column] = b'\t')
}

fn leading_zero(random: &mut Random, _: &Draft, call: &mut Call) -> Option<Refusal> {
    let (at, column) = any_number(random, call);
    change_line(call, at, |line| line.insert(column, b'0'))
}

fn sign(random: &mut Random, _: &Draft, call: &mut Call) -> Option<Refusal> {
    let (at, column) = any_number(random, call);
    let sign = random.pick(b"+-");
    change_line(call, at, |line| line.insert(column, sign))
}

fn empty_line(random: &mut Random, _: &Draft, call: &mut Call) -> Option<Refusal> {
    let at = any_line(random, call);
    let mut lines = lines_of(&call.text);
    lines.insert(at, b"\n".to_vec());
    call.text = lines.concat();
    refused(NOT_WELL_FORMED, at as u32 + 1)
}

fn last_line_feed_missing(_: &mut Random, _: &Draft, call: &mut Call) -> Option<Refusal> {
    let lines = lines_of(&call.text).len();
    call.text.pop();
    refused(NOT_WELL_FORMED, lines as u32)
}

fn cut(random: &mut Random, _: &Draft, call: &mut Call) -> Option<Refusal> {
    call.text.truncate(random.index(call.text.len()));
    let line_feeds = call.text.iter().filter(|byte| **byte == b'\n').count();
    refused(NOT_WELL_FORMED, line_feeds as u32 + 1)
}

/// One of the header's I, L, O and A far too large: the lines behind that kind's are read as more
/// of the kind, and as many as there should be do not come.
fn huge_count(random: &mut Random, draft: &Draft, call: &mut Call) -> Option<Refusal> {
    let kind = random.index(4);
    let many = random.pick(&[u32::MAX, u32::MAX - 1, 1 << 31, 1 << 20]);
    let [_, latches, outputs, gates, behind] = first_lines(&draft.text);
    let place = match kind {
        0 if latches < outputs => latches,
        0 => outputs + outputs_as_inputs(&draft.text),
        1 => outputs,
        2 => gates,
        _ => behind,
    };
    change_line(call, 0, |line| {
        let header = String::from_utf8(line.clone()).expect("ASCII");
        let mut words: Vec<String> = header.split(' ').map(str::to_string).collect();
        words[2 + kind] = many.to_string();
        *line = words.join(" ").into_bytes();
    });
    refused(NOT_WELL_FORMED, place)
}

/// How many outputs would pass as inputs behind the inputs of a text.
fn outputs_as_inputs(text: &Text) -> u32 {
    let mut defined: HashSet<u32> = text.inputs.iter().copied().collect();
    let mut defines = |output: &&u32| **output > 1 && **output % 2 == 0 && defined.insert(**output);
    text.outputs.iter().take_while(&mut defines).count() as u32
}

/// What may stand behind the last line due: it is never looked at.
const TAILS: [&[u8]; 14] = [
    b"",
    b"\n",
    b"\n\n\n",
    b"i0 first\nl0 state\no0 address[0]\n",
    b"i0 without a line feed",
    b"c\n",
    b"c\nfree text\r\n\twith tabs\n",
    b"2\n",
    b"2 2\n",
    b"2 2 2\n",
    b"aag 0 0 0 0 0\n",
    b" ",
    b"\0\xFF\x80",
    b"\r\n99999999999999999999999999\n",
];

/// Puts symbols, comments or anything else behind the last line due.
pub fn add_tail(random: &mut Random, call: &mut Call) {
    let tail = random.pick(&TAILS);
    call.text.extend(tail);
}

/// The bytes that `every_byte` puts into a text.
const BYTES: &[u8; 18] = b" \t\n\r\x0B01239+-agcx\0\xFF";

/// All texts that differ from this one in one byte changed, put in or left out, or that end early.
pub fn every_byte(text: &[u8]) -> Vec<Vec<u8>> {
    let mut texts = Vec::new();
    for at in 0..text.len() {
        let (before, behind) = text.split_at(at);
        texts.push(before.to_vec());
        texts.push([before, &behind[1..]].concat());
        for byte in BYTES {
            texts.push([before, &[*byte], &behind[1..]].concat());
            texts.push([before, &[*byte], behind].concat());
        }
    }
    texts
}

/// All texts in which one line is dropped or doubled, or two lines are swapped.
pub fn every_line(text: &[u8]) -> Vec<Vec<u8>> {
    let lines = lines_of(text);
    let mut texts = Vec::new();
    let mut add = |change: &dyn Fn(&mut Vec<Vec<u8>>)| {
        let mut changed = lines.clone();
        change(&mut changed);
        texts.push(changed.concat());
    };
    for at in 0..lines.len() {
        add(&|lines| drop(lines.remove(at)));
        add(&|lines| lines.insert(at, lines[at].clone()));
        for other in at + 1..lines.len() {
            add(&|lines| lines.swap(at, other));
        }
    }
    texts
}

/// One random change of a text; it may still be accepted.
fn damage(random: &mut Random, text: &mut Vec<u8>) {
    if text.is_empty() {
        return;
    }
    if random.percent(50) {
        damage_bytes(random, text);
    } else {
        damage_lines(random, text);
    }
}

fn damage_bytes(random: &mut Random, text: &mut Vec<u8>) {
    let at = random.index(text.len());
    let byte = random.pick(BYTES);
    match random.below(5) {
        0 => text[at] = random.below(256) as u8,
        1 => text[at] = byte,
        2 => text.insert(at, byte),
        3 => drop(text.remove(at)),
        _ => text.truncate(at),
    }
}

fn damage_lines(random: &mut Random, text: &mut Vec<u8>) {
    let mut lines = lines_of(text);
    let (at, other) = (random.index(lines.len()), random.index(lines.len()));
    match random.below(6) {
        0 => drop(lines.remove(at)),
        1 => lines.insert(other, lines[at].clone()),
        2 => lines.swap(at, other),
        3 => damage_number(random, &mut lines[0]),
        _ => damage_number(random, &mut lines[at]),
    }
    *text = lines.concat();
}

/// Replaces a word of a line, often by a small number.
fn damage_number(random: &mut Random, line: &mut Vec<u8>) {
    let mut words: Vec<Vec<u8>> = line
        .split(|byte| *byte == b' ')
        .map(<[u8]>::to_vec)
        .collect();
    let at = random.index(words.len());
    let limits = ["0", "1", "601", "4294967295", "4294967296", "01", "+1", ""];
    let number = match random.below(5) {
        0 => random.pick(&limits).to_string(),
        1 => random.below(1300).to_string(),
        _ => random.below(24).to_string(),
    };
    let end = if words[at].ends_with(b"\n") { "\n" } else { "" };
    words[at] = (number + end).into_bytes();
    *line = words.join(&b' ');
}

/// How many faults of a draft, of its bytes and of any kind a damaged call has.
const DAMAGES: [[u32; 3]; 7] = [
    [1, 0, 0],
    [2, 0, 0],
    [1, 1, 0],
    [1, 0, 1],
    [0, 1, 0],
    [0, 0, 1],
    [0, 0, 2],
];

/// A call with one fault, or two at once, and often something behind the last line due.
pub fn damaged_call(random: &mut Random) -> Call {
    let (_, mut draft) = random_draft(random);
    let [of_draft, of_bytes, of_any_kind] = random.pick(&DAMAGES);
    for _ in 0..of_draft {
        let (_, fault) = random.pick(&DRAFT_FAULTS);
        let refusal = fault(random, &mut draft);
        // The faults of a draft rely on its sizes.
        if matches!(
            refusal,
            Some(Refusal {
                number: SIZE | WRONG_COUNTS,
                ..
            })
        ) {
            break;
        }
    }
    let mut call = draft.call();
    for _ in 0..of_bytes {
        let (_, fault) = random.pick(&BYTE_FAULTS);
        fault(random, &draft, &mut call);
    }
    if random.percent(30) {
        add_tail(random, &mut call);
    }
    for _ in 0..of_any_kind {
        damage(random, &mut call.text);
    }
    call
}
