//! Answers for the sheet on standard input at depth 255, each variable with a value of a fixed seed, in lines as CaDiCaL writes them.
//! `whole` has all variables, `feed` the inputs and read bits alone, which are all that `replay` may take. `run DEPTH ANSWER` prints what
//! the second implementation makes of that file at that depth.

#[path = "../tests/runner/reference.rs"]
mod reference;

use std::io::{Read, Write};

use reference::formula::frame_base;
use reference::netlist::{Netlist, MAX_DEPTH};
use reference::{answer, random, sheet};

/// How long a line of values may be.
const COLUMNS: usize = 78;

/// The variables of inputs and read bits.
fn fed(netlist: &Netlist) -> Vec<i64> {
    let mut variables = Vec::new();
    for frame in 0..=MAX_DEPTH {
        let inputs = 1..netlist.first_latch();
        let read_bits = netlist.first_read_bit()..netlist.first_gate();
        let wires = inputs.chain(read_bits);
        variables.extend(wires.map(|wire| frame_base(netlist, frame) + i64::from(wire)));
    }
    variables
}

/// The same values in both answers.
fn text(netlist: &Netlist, kept: impl Fn(i64) -> bool) -> String {
    let mut random = random::Random::new(2);
    let mut text = "s SATISFIABLE\n".to_string();
    let mut line = "v".to_string();
    for variable in 1..=frame_base(netlist, MAX_DEPTH + 1) {
        let sign = if random.percent(50) { "" } else { "-" };
        if !kept(variable) {
            continue;
        }
        let word = format!(" {sign}{variable}");
        if line.len() + word.len() > COLUMNS {
            text += &(line + "\n");
            line = "v".to_string();
        }
        line += &word;
    }
    text + &line + " 0\n"
}

fn main() {
    let words: Vec<String> = std::env::args().skip(1).collect();
    let words: Vec<&str> = words.iter().map(String::as_str).collect();
    let mut bytes = Vec::new();
    std::io::stdin()
        .read_to_end(&mut bytes)
        .expect("standard input");
    let netlist = sheet::read_sheet(&bytes, 600, 600).expect("a sheet");
    let printed = match words[..] {
        ["whole"] => text(&netlist, |_| true).into_bytes(),
        ["feed"] => {
            let fed = fed(&netlist);
            text(&netlist, |variable| fed.binary_search(&variable).is_ok()).into_bytes()
        }
        ["run", depth, file] => {
            let depth = sheet::write_depth(depth.parse().expect("a depth"));
            let text = std::fs::read(file).expect("the answer");
            answer::replay(&[depth, bytes].concat(), &text)
        }
        _ => panic!("usage: whole, or feed, or run DEPTH ANSWER"),
    };
    std::io::stdout()
        .write_all(&printed)
        .expect("standard output");
}
