//! Netlists from ASCII AIGER texts (K1), with the unknown start of K7, 17 of K8 and the two ports of K10.

use std::collections::{HashMap, HashSet};

use super::netlist::{Gate, Latch, Netlist};
use super::refusal::{require, Refusal, NOT_WELL_FORMED, NO_ROOM, UNDEFINED, WRONG_COUNTS};

/// The numbers of a text as they stand in its lines. A literal is twice its variable, plus 1 where
/// it is inverted. The counts of the header are the lengths of the lists.
#[derive(Clone, Debug, Default, PartialEq, Eq)]
pub struct Text {
    /// M of the header.
    pub largest_variable: u32,
    /// Each defines its variable.
    pub inputs: Vec<u32>,
    /// The defined literal and the next code.
    pub latches: Vec<[u32; 2]>,
    pub outputs: Vec<u32>,
    /// The defined literal and both operands.
    pub gates: Vec<[u32; 3]>,
}

/// Digits alone, no leading zero, at most 4,294,967,295.
fn read_number(word: &[u8]) -> Option<u32> {
    let leading_zero = word.len() > 1 && word[0] == b'0';
    if leading_zero || !word.iter().all(u8::is_ascii_digit) {
        return None;
    }
    // No digit at all and a number too large are left to `parse`.
    std::str::from_utf8(word).ok()?.parse().ok()
}

/// Exactly `COUNT` numbers, single spaces between them and nothing else.
fn read_numbers<const COUNT: usize>(line: &[u8]) -> Option<[u32; COUNT]> {
    let words = line.split(|byte| *byte == b' ');
    let numbers: Vec<u32> = words.map(read_number).collect::<Option<_>>()?;
    numbers.try_into().ok()
}

/// Takes a text line by line; none where it stops being well-formed or defines a variable again.
struct Reader<'a> {
    rest: &'a [u8],
    /// The number of the line asked for last, the header being 1.
    line: u32,
    largest_variable: u32,
    defined_variables: HashSet<u32>,
}

impl<'a> Reader<'a> {
    /// The next line without its line feed; none where the text ends before that.
    fn next_line(&mut self) -> Option<&'a [u8]> {
        self.line += 1;
        let end = self.rest.iter().position(|byte| *byte == b'\n')?;
        let line = &self.rest[..end];
        self.rest = &self.rest[end + 1..];
        Some(line)
    }

    /// M, I, L, O and A.
    fn header(&mut self) -> Option<[u32; 5]> {
        read_numbers(self.next_line()?.strip_prefix(b"aag ")?)
    }

    /// A line of literals, none above 2M + 1.
    fn literals<const COUNT: usize>(&mut self) -> Option<[u32; COUNT]> {
        let numbers: [u32; COUNT] = read_numbers(self.next_line()?)?;
        let limit = 2 * u64::from(self.largest_variable) + 1;
        let within = |number: &u32| u64::from(*number) <= limit;
        numbers.iter().all(within).then_some(numbers)
    }

    /// A line of literals of which the first defines its variable.
    fn definition<const COUNT: usize>(&mut self) -> Option<[u32; COUNT]> {
        let literals: [u32; COUNT] = self.literals()?;
        let defined = literals[0];
        let positive = defined > 1 && defined % 2 == 0;
        (positive && self.defined_variables.insert(defined / 2)).then_some(literals)
    }

    /// The lines due. What is behind the last of them is not looked at. The counts may be huge:
    /// each line due is asked for, so a text that has too few of them ends the loops.
    fn text(&mut self) -> Option<Text> {
        let [largest_variable, inputs, latches, outputs, gates] = self.header()?;
        self.largest_variable = largest_variable;
        let mut text = Text {
            largest_variable,
            ..Text::default()
        };
        for _ in 0..inputs {
            let [input] = self.definition()?;
            text.inputs.push(input);
        }
        for _ in 0..latches {
            text.latches.push(self.definition()?);
        }
        for _ in 0..outputs {
            let [output] = self.literals()?;
            text.outputs.push(output);
        }
        for _ in 0..gates {
            text.gates.push(self.definition()?);
        }
        Some(text)
    }
}

/// Reads a well-formed text that defines no variable twice. Refusal 11 otherwise, at the first line
/// at fault; a missing or unfinished line's place is one past the last whole line.
pub fn read_text(bytes: &[u8]) -> Result<Text, Refusal> {
    let mut reader = Reader {
        rest: bytes,
        line: 0,
        largest_variable: 0,
        defined_variables: HashSet::new(),
    };
    let text = reader.text();
    text.ok_or(Refusal {
        number: NOT_WELL_FORMED,
        place: reader.line,
    })
}

/// A constant, or a literal of one of the variables.
fn is_defined(variables: &HashSet<u32>, literal: u32) -> bool {
    literal <= 1 || variables.contains(&(literal / 2))
}

impl Text {
    /// The text in full, header included.
    pub fn write(&self) -> Vec<u8> {
        let mut lines = vec![format!(
            "aag {} {} {} {} {}\n",
            self.largest_variable,
            self.inputs.len(),
            self.latches.len(),
            self.outputs.len(),
            self.gates.len()
        )];
        lines.extend(self.inputs.iter().map(|input| format!("{input}\n")));
        for [latch, next] in &self.latches {
            lines.push(format!("{latch} {next}\n"));
        }
        lines.extend(self.outputs.iter().map(|output| format!("{output}\n")));
        for [gate, left, right] in &self.gates {
            lines.push(format!("{gate} {left} {right}\n"));
        }
        lines.concat().into_bytes()
    }

    /// Refusal 12: fewer than n inputs for each port, or not exactly m + n + 3 outputs and m + 1 more for
    /// each port behind the first.
    fn check_counts(&self, m: u32, n: u32, second_port: u32) -> Result<(), Refusal> {
        let [m, n, second_port] = [m, n, second_port].map(u128::from);
        let outputs_due = m + n + 3 + second_port * (m + 1);
        let inputs_suffice = self.inputs.len() as u128 >= n + second_port * n;
        let holds = inputs_suffice && self.outputs.len() as u128 == outputs_due;
        require(holds, WRONG_COUNTS, 0)
    }

    /// Refusal 13: a next code or output that no line defines, or a gate operand that no earlier
    /// line defines, whichever comes first in the text.
    fn check_definitions(&self) -> Result<(), Refusal> {
        let latches = self.latches.iter().map(|latch| latch[0]);
        let before_gates = self.inputs.iter().copied().chain(latches);
        let mut so_far: HashSet<u32> = before_gates.map(|literal| literal / 2).collect();
        let mut anywhere = so_far.clone();
        anywhere.extend(self.gates.iter().map(|gate| gate[0] / 2));

        let mut line = 1 + self.inputs.len() as u32;
        for [_, next] in &self.latches {
            line += 1;
            require(is_defined(&anywhere, *next), UNDEFINED, line)?;
        }
        for output in &self.outputs {
            line += 1;
            require(is_defined(&anywhere, *output), UNDEFINED, line)?;
        }
        for [gate, left, right] in &self.gates {
            line += 1;
            let both = is_defined(&so_far, *left) && is_defined(&so_far, *right);
            require(both, UNDEFINED, line)?;
            so_far.insert(gate / 2);
        }
        Ok(())
    }

    /// The record's sizes and start alone. There are at least as many inputs as read bits.
    fn sizes(&self, m: u32, n: u32, word: u32, unknown_start: u32, second_port: u32) -> Netlist {
        let read_bits = u64::from(n) * (1 + u64::from(second_port));
        Netlist {
            inputs: (self.inputs.len() as u64 - read_bits) as u32,
            latch_count: self.latches.len() as u32,
            gate_count: self.gates.len() as u32,
            address_width: m,
            data_width: n,
            start_word: word,
            unknown_start,
            two_ports: second_port,
            ..Netlist::default()
        }
    }

    /// The wire of each variable; the constants are variable 0 and wire 0. The read bits are the
    /// last inputs of the text, and among the wires they stand behind the latches.
    fn wires(&self, own_inputs: u32) -> HashMap<u32, u32> {
        let (inputs, read_bits) = self.inputs.split_at(own_inputs as usize);
        let mut in_wire_order = vec![0];
        in_wire_order.extend(inputs);
        in_wire_order.extend(self.latches.iter().map(|latch| latch[0]));
        in_wire_order.extend(read_bits);
        in_wire_order.extend(self.gates.iter().map(|gate| gate[0]));
        let variables = in_wire_order.iter().map(|literal| literal / 2);
        variables.zip(0..).collect()
    }

    /// Fills codes and lists of a record that has sizes within their limits.
    fn fill(&self, netlist: &mut Netlist) {
        let wires = self.wires(netlist.inputs);
        let code = |literal: u32| 2 * wires[&(literal / 2)] + literal % 2;
        for [_, next] in &self.latches {
            netlist.latches.push(Latch {
                next: code(*next),
                reset: 0,
            });
        }
        for [_, left, right] in &self.gates {
            netlist.gates.push(Gate {
                left: code(*left),
                right: code(*right),
            });
        }
        let mut codes = self.outputs.iter().map(|output| code(*output));
        let mut next_code = || codes.next().expect("an output for each code");
        for bit in 0..netlist.address_width as usize {
            netlist.address[bit] = next_code();
        }
        for bit in 0..netlist.data_width as usize {
            netlist.write_data[bit] = next_code();
        }
        if netlist.has_two_ports() {
            for bit in 0..netlist.address_width as usize {
                netlist.second_address[bit] = next_code();
            }
            netlist.second_read_enable = next_code();
        }
        netlist.write_enable = next_code();
        netlist.read_enable = next_code();
        netlist.property = next_code();
    }
}

/// Imports a text for a caller that gives m, n and the start word, or says that the start is unknown,
/// or that there is a second port, and lends a latch list and a gate list of these lengths. Tests in this order: 11, 12, 13, 4, 17, 6,
/// 9; a text that passes the first three has no code outside its limit, so 5 cannot occur. On success
/// the netlist's lists are the records that the lent lists would begin with, and its start word is 0
/// where the start is unknown.
pub fn import(
    text: &[u8],
    m: u32,
    n: u32,
    word: u32,
    unknown_start: u32,
    second_port: u32,
    latch_room: usize,
    gate_room: usize,
) -> Result<Netlist, Refusal> {
    let text = read_text(text)?;
    text.check_counts(m, n, second_port)?;
    text.check_definitions()?;
    let mut netlist = text.sizes(m, n, word, unknown_start, second_port);
    netlist.check_line(1)?;
    netlist.check_line(2)?;
    if netlist.has_unknown_start() {
        netlist.start_word = 0;
    }
    text.fill(&mut netlist);
    netlist.check_ties()?;
    netlist.check_loop()?;
    let room = latch_room >= netlist.latches.len() && gate_room >= netlist.gates.len();
    require(room, NO_ROOM, 0)?;
    Ok(netlist)
}
