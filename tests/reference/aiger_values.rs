//! What a text of K1 says, worked out without importing it: the values of its variables by name,
//! and whether a netlist has the same values in the places where K1 puts them.

use std::collections::HashMap;

use super::aiger::Text;
use super::circuit::{evaluate_words, value};
use super::netlist::{Netlist, SECOND_PORT};
use super::random::Random;

/// The value of each variable; variable 0 is the constant false.
pub type VariableValues = HashMap<u32, bool>;

/// The numbers of a well-formed text, taken as words wherever its lines end.
pub fn read_words(bytes: &[u8]) -> Text {
    let mut words = bytes.split(|byte| b" \n".contains(byte)).skip(1);
    let mut number = || -> u32 {
        let word = words.next().expect("a word");
        let word = std::str::from_utf8(word).expect("ASCII");
        word.parse().expect("a number")
    };
    let largest_variable = number();
    let [inputs, latches, outputs, gates] = [number(), number(), number(), number()];
    Text {
        largest_variable,
        inputs: (0..inputs).map(|_| number()).collect(),
        latches: (0..latches).map(|_| [number(), number()]).collect(),
        outputs: (0..outputs).map(|_| number()).collect(),
        gates: (0..gates).map(|_| [number(), number(), number()]).collect(),
    }
}

/// The value of a literal whose variable has one.
pub fn literal_value(values: &VariableValues, literal: u32) -> bool {
    values[&(literal / 2)] != (literal % 2 == 1)
}

/// The values of all variables for given values of inputs and latches: each gate is the AND of its
/// operands.
pub fn all_values(text: &Text, given: &VariableValues) -> VariableValues {
    let mut values = given.clone();
    values.insert(0, false);
    for [gate, left, right] in &text.gates {
        let output = literal_value(&values, *left) && literal_value(&values, *right);
        values.insert(gate / 2, output);
    }
    values
}

/// Random values of a text's inputs and latches.
pub fn random_given(random: &mut Random, text: &Text) -> VariableValues {
    let latches = text.latches.iter().map(|latch| latch[0]);
    let literals = text.inputs.iter().copied().chain(latches);
    literals
        .map(|literal| (literal / 2, random.percent(50)))
        .collect()
}

/// Whether a netlist is accepted and as large as the import of an accepted text must be.
fn sizes_fit(text: &Text, netlist: &Netlist) -> bool {
    if netlist.check().is_err() {
        return false;
    }
    let ports = netlist.ports().count() as u32;
    let inputs = netlist.inputs + ports * netlist.data_width;
    let outputs = netlist.data_width + 3 + ports * (netlist.address_width + 1) - 1;
    let sizes = [inputs, netlist.latch_count, outputs, netlist.gate_count];
    let lengths = [
        text.inputs.len(),
        text.latches.len(),
        text.outputs.len(),
        text.gates.len(),
    ];
    sizes.map(|size| size as usize) == lengths
}

/// The codes that a text has as outputs: address, write data, of a second port address and RE, then WE,
/// RE and P.
pub fn output_codes(netlist: &Netlist) -> Vec<u32> {
    let mut codes = [netlist.address_codes(), netlist.write_data_codes()].concat();
    if netlist.has_two_ports() {
        codes.extend(netlist.address_codes_of(SECOND_PORT));
        codes.push(netlist.read_enable_of(SECOND_PORT));
    }
    codes.extend([netlist.write_enable, netlist.read_enable, netlist.property]);
    codes
}

/// Where an accepted text and a netlist part for given values of inputs and latches: each input,
/// latch, gate, next code and output is compared. Empty if they agree.
pub fn differences(text: &Text, netlist: &Netlist, given: &VariableValues) -> Vec<String> {
    if !sizes_fit(text, netlist) {
        return vec!["sizes".to_string()];
    }
    let of_text = all_values(text, given);
    let bit = |literal: &u32| literal_value(&of_text, *literal);

    let (inputs, read_bits) = text.inputs.split_at(netlist.inputs as usize);
    let input_bits: Vec<bool> = inputs.iter().map(bit).collect();
    let latch_bits: Vec<bool> = text.latches.iter().map(|latch| bit(&latch[0])).collect();
    let word_of = |bits: &[u32]| -> u32 {
        let weighted = bits.iter().map(bit).zip(0..);
        weighted.map(|(bit, place)| u32::from(bit) << place).sum()
    };
    let words = read_bits.chunks(netlist.data_width as usize);
    let read_words: Vec<u32> = words.map(word_of).collect();
    let of_wires = evaluate_words(netlist, &input_bits, &latch_bits, &read_words);

    let mut found = Vec::new();
    let mut compare = |name: &str, index: usize, literal: u32, code: u32| {
        if bit(&literal) != value(&of_wires, code) {
            found.push(format!("{name} {index}: literal {literal}, code {code}"));
        }
    };
    for (index, literal) in inputs.iter().enumerate() {
        compare("input", index, *literal, 2 * (1 + index as u32));
    }
    for (index, literal) in read_bits.iter().enumerate() {
        let wire = netlist.first_read_bit() + index as u32;
        compare("read bit", index, *literal, 2 * wire);
    }
    for (index, [latch, next]) in text.latches.iter().enumerate() {
        let wire = netlist.first_latch() + index as u32;
        compare("latch", index, *latch, 2 * wire);
        compare("next code", index, *next, netlist.latches[index].next);
        compare("reset", index, 0, netlist.latches[index].reset);
    }
    for (index, [gate, left, right]) in text.gates.iter().enumerate() {
        let wire = netlist.first_gate() + index as u32;
        compare("gate", index, *gate, 2 * wire);
        compare("left operand", index, *left, netlist.gates[index].left);
        compare("right operand", index, *right, netlist.gates[index].right);
    }
    for (index, (literal, code)) in text.outputs.iter().zip(output_codes(netlist)).enumerate() {
        compare("output", index, *literal, code);
    }
    found
}
