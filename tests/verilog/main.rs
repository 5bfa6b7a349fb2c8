//! What the library imports of an ASCII AIGER text, for other programs to judge. Build: rustc -O --edition 2021 -L FOLDER
//! -l static=marrubigai main.rs
//!   verdict TEXT M N WORD   the refusal's number and place, 0 0 where the text is imported
//!   sheet TEXT M N WORD     the sheet of the netlist
//!   blif TEXT M N WORD      the netlist in BLIF: inputs with the read bits last, the outputs in the order of a text
//!   sheet-blif SHEET COUNT  the same of a sheet, with so many inputs in front that nothing uses

#[allow(dead_code)]
#[path = "../runner/exports.rs"]
mod exports;
#[path = "../runner/reference.rs"]
mod reference;

use std::io::Write;

use reference::netlist::Netlist;
use reference::sheet::{read_sheet, write_sheet};

/// Room enough for every netlist.
const ROOM: usize = 600;

/// A table of one line that is true where each wire is as its code says. A wire twice is named once: BLIF's tables want that.
fn table(codes: &[u32], output: &str) -> String {
    let mut codes = codes.to_vec();
    codes.sort_unstable();
    codes.dedup();
    if codes.windows(2).any(|pair| pair[0] / 2 == pair[1] / 2) {
        return format!(".names {output}\n");
    }
    let wires: String = codes.iter().map(|code| format!("w{} ", code / 2)).collect();
    let values = codes
        .iter()
        .map(|code| if code % 2 == 1 { '0' } else { '1' });
    format!(".names {wires}{output}\n{} 1\n", values.collect::<String>())
}

/// The netlist with its latches cut by whoever reads it. Wire 0 is false.
fn blif(netlist: &Netlist, unused_inputs: u32) -> String {
    let own_inputs = 1..netlist.first_latch();
    let read_bits = netlist.first_read_bit()..netlist.first_gate();
    let mut text = ".model chip\n.inputs".to_string();
    text.extend((0..unused_inputs).map(|at| format!(" unused{at}")));
    text.extend(own_inputs.chain(read_bits).map(|wire| format!(" w{wire}")));
    let controls = [netlist.write_enable, netlist.read_enable, netlist.property];
    let outputs = [
        netlist.address_codes(),
        netlist.write_data_codes(),
        &controls,
    ]
    .concat();
    text += "\n.outputs";
    text.extend((0..outputs.len()).map(|at| format!(" o{at}")));
    text += "\n.names w0\n";
    for (wire, latch) in (netlist.first_latch()..).zip(&netlist.latches) {
        text += &format!(".latch n{wire} w{wire} {}\n", latch.reset);
        text += &table(&[latch.next], &format!("n{wire}"));
    }
    for (wire, gate) in (netlist.first_gate()..).zip(&netlist.gates) {
        text += &table(&[gate.left, gate.right], &format!("w{wire}"));
    }
    for (at, code) in outputs.iter().enumerate() {
        text += &table(&[*code], &format!("o{at}"));
    }
    text + ".end\n"
}

fn number(word: &str) -> u32 {
    word.parse().expect("a number")
}

fn main() {
    let words: Vec<String> = std::env::args().skip(1).collect();
    let words: Vec<&str> = words.iter().map(String::as_str).collect();
    let printed = match words[..] {
        ["sheet-blif", path, count] => {
            let sheet = std::fs::read(path).expect("a sheet");
            let netlist = read_sheet(&sheet, ROOM, ROOM).expect("an accepted sheet");
            blif(&netlist, number(count)).into_bytes()
        }
        [what, path, m, n, word] => {
            let text = std::fs::read(path).expect("a text");
            let memory = [number(m), number(n), number(word)];
            let answer = exports::import(&text, memory, 0, 0, [ROOM, ROOM]).expect("a promise is broken");
            match (what, answer) {
                ("verdict", Ok(_)) => b"0 0\n".to_vec(),
                (_, Err(it)) => format!("{} {}\n", it.number, it.place).into_bytes(),
                ("sheet", Ok(netlist)) => write_sheet(&netlist),
                ("blif", Ok(netlist)) => blif(&netlist, 0).into_bytes(),
                _ => panic!("verdict, sheet or blif"),
            }
        }
        _ => panic!("usage: see the head of main.rs"),
    };
    std::io::stdout()
        .write_all(&printed)
        .expect("standard output");
}
