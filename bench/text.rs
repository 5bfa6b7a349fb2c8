//! Prints an ASCII AIGER text that `make bench` measures the import on, by its name:
//!   tools      1 MB as tools write it: inputs, latches, outputs and gates with the variables 1 to M
//!   undefined  the same, but the last gate has its own variable as operand
//!   inputs     90,000 inputs
//!   repeat     the same, but the last is the first again
//!   largest    as many wires as are accepted, as tools write them
//!   scattered  the same, with variables all over the 2^31 that there are
//!   worst      1 MB with variables all over the 2^31 that there are

/// So many bytes, or a line more.
const MEGABYTE: usize = 1_000_000;

/// Variables 1 to M in their order, or as far from each other as they come: an odd factor leaves no two alike modulo 2^31.
fn literal(index: u32, scattered: bool) -> u32 {
    let factor: u32 = if scattered { 1_640_531_527 } else { 1 };
    2 * (index.wrapping_mul(factor) % (1 << 31))
}

/// Inputs, latches, five outputs, and gates up to a number of them or of bytes. A gate's operands are variables near and far before it.
fn text([inputs, latches, most_gates]: [u32; 3], scattered: bool) -> Vec<String> {
    let literal = |index: u32| literal(index, scattered);
    let mut lines = vec![String::new()];
    lines.extend((1..=inputs).map(|index| format!("{}\n", literal(index))));
    for latch in 1..=latches {
        lines.push(format!("{} {}\n", literal(inputs + latch), literal(latch)));
    }
    lines.push(format!("0\n1\n1\n1\n{}\n", literal(1) + 1));
    let mut bytes: usize = lines.iter().map(String::len).sum();
    let mut gates = 0;
    while gates < most_gates && bytes < MEGABYTE {
        gates += 1;
        let index = inputs + latches + gates;
        let (near, far) = (literal(index - 1), literal(index / 2) + 1);
        let line = format!("{} {near} {far}\n", literal(index));
        bytes += line.len();
        lines.push(line);
    }
    let largest = if scattered {
        u32::MAX
    } else {
        inputs + latches + gates
    };
    lines[0] = format!("aag {largest} {inputs} {latches} 5 {gates}\n");
    lines
}

/// The last gate with its own variable as operand.
fn undefined(mut lines: Vec<String>) -> Vec<String> {
    let last = lines.last_mut().expect("a gate");
    let own = last.split(' ').next().expect("a number").to_string();
    *last = format!("{own} {own} 1\n");
    lines
}

/// The last input, which stands before the outputs, as the first again.
fn repeated(mut lines: Vec<String>) -> Vec<String> {
    let last_input = lines.len() - 2;
    lines[last_input] = lines[1].clone();
    lines
}

fn main() {
    let name = std::env::args().nth(1).unwrap_or_default();
    let lines = match name.as_str() {
        "tools" => text([1_000, 1_000, u32::MAX], false),
        "undefined" => undefined(text([1_000, 1_000, u32::MAX], false)),
        "inputs" => text([90_000, 0, 0], false),
        "repeat" => repeated(text([90_000, 0, 0], false)),
        "largest" => text([60, 100, 440], false),
        "scattered" => text([60, 100, 440], true),
        "worst" => text([1_000, 1_000, u32::MAX], true),
        _ => panic!("the name of a text: see the head of text.rs"),
    };
    print!("{}", lines.concat());
}
