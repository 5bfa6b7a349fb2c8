//! Sheets with the names of their words, and the signals that their waveforms should have.

use std::fs;

use super::reference::circuit::value;
use super::reference::netlist::SECOND_PORT;
use super::reference::random::{wide_netlist, wide_two_ports, Random};
use super::reference::sheet::{read_sheet, write_sheet};
use super::vcd::{add, Signals};

#[derive(Clone)]
pub struct Case {
    pub name: String,
    pub sheet: Vec<u8>,
    /// A line for each word: a name, and codes from the lowest bit on; nothing where no word is named.
    pub names: String,
    pub depth: u32,
}

impl Case {
    /// How many frames a waveform with all wires has.
    pub fn frames(&self, wires: &Signals) -> usize {
        values(wires, 1).len()
    }

    /// The run of a waveform with all wires as a solver's answer: wire w of frame i is variable B(i) + w (RULES V2, V3, V8).
    pub fn answer(&self, wires: &Signals) -> String {
        let netlist = read_sheet(&self.sheet, 600, 600).expect("a sheet that is accepted");
        let ports = if netlist.has_two_ports() { 2 } else { 1 };
        let pair = ports * (netlist.address_codes().len() + 4);
        let count = netlist.wire_count() as usize;
        let mut answer = String::from("s SATISFIABLE\n");
        let mut base = 1;
        for frame in 0..self.frames(wires) {
            for wire in 1..=count {
                let sign = if values(wires, wire)[frame] == "1" { "" } else { "-" };
                answer += &format!("v {sign}{}\n", base + wire);
            }
            base += count + pair * frame;
        }
        answer + "v 0\n"
    }

    /// The signals of the run that `replay` printed.
    pub fn signals(&self, printed: &[u8]) -> Signals {
        let netlist = read_sheet(&self.sheet, 600, 600).expect("a sheet that is accepted");
        let printed = std::str::from_utf8(printed).expect("digits");
        // wire 0 is the constant
        let frames = printed.lines().skip(1).map(|line| {
            format!("0{line}")
                .bytes()
                .map(|digit| digit == b'1')
                .collect()
        });
        let frames: Vec<Vec<bool>> = frames.collect();
        let mut signals = Signals::new();
        let mut signal = |name: &str, codes: &[u32]| {
            let bits = |frame: &Vec<bool>| {
                codes
                    .iter()
                    .rev()
                    .map(|code| if value(frame, *code) { '1' } else { '0' })
                    .collect()
            };
            add(
                &mut signals,
                format!("circuit {name}"),
                codes.len(),
                frames.iter().map(bits).collect(),
            );
        };
        signal("property", &[netlist.property]);
        signal("memory address", netlist.address_codes());
        signal("memory read_data", &netlist.read_data_codes());
        signal("memory write_data", netlist.write_data_codes());
        signal("memory RE", &[netlist.read_enable]);
        signal("memory WE", &[netlist.write_enable]);
        if netlist.has_two_ports() {
            signal("memory address2", netlist.address_codes_of(SECOND_PORT));
            signal("memory read_data2", &netlist.read_data_codes_of(SECOND_PORT));
            signal("memory RE2", &[netlist.second_read_enable]);
        }
        for line in self.names.lines() {
            let mut words = line.split_whitespace();
            let name = words.next().expect("a name");
            let codes: Vec<u32> = words.map(|word| word.parse().expect("a code")).collect();
            // a name with dots stands in the scopes that it names, unless it is an escaped one
            let shown = if name.starts_with(&['$', '['][..]) {
                format!("_{name}")
            } else if name.contains(&['$', '\\'][..]) {
                name.to_string()
            } else {
                name.replace('.', " ")
            };
            signal(&format!("words {shown}"), &codes);
        }
        if self.names.is_empty() {
            for wire in 1..=netlist.wire_count() {
                signal(&format!("wires wire{wire}"), &[2 * wire]);
            }
        }
        signals
    }
}

fn values(wires: &Signals, wire: usize) -> &[String] {
    &wires[&(format!("circuit wires wire{wire}"), 1, 0)]
}

fn example(name: &str, depth: u32) -> Case {
    let file = |ending| format!("examples/{name}.{ending}");
    Case {
        name: format!("{name} at depth {depth}"),
        sheet: fs::read(file("sheet")).expect("a sheet"),
        names: fs::read_to_string(file("names")).expect("its names"),
        depth,
    }
}

/// Each example that has a run to show, with its names and without.
pub fn examples() -> Vec<Case> {
    let named = [
        example("echo/chip", 1),
        example("echo/chip", 100),
        example("fourth-revision/faulty", 3),
        example("fourth-revision/faulty", 7),
        example("fifth-revision/faulty", 1),
        example("sixth-revision/unknown", 1),
        example("seventh-revision/faulty", 2),
        example("seventh-revision/faulty", 9),
    ];
    let bare = named.iter().map(|case| Case {
        names: String::new(),
        ..case.clone()
    });
    bare.chain(named.iter().cloned()).collect()
}

/// Names that a reader of waveforms could take for something else, two that are the same, a word of 70 bits.
pub fn odd_names() -> Case {
    let wide = " 2 5".repeat(35);
    Case {
        names: format!("$end 2\n[7:0] 2 4\na.b 3\nheld-size 2 4 5\ngröße 4\n\\esc 5\nb101 0\n#1 1\nsame 2\nsame 4\nwide{wide}\n"),
        ..example("echo/chip", 3)
    }
}

/// Sheets of all shapes, without names, of one port and of two in turn. Some have no run that breaks their property.
pub fn random_cases() -> Vec<Case> {
    let mut random = Random::new(901);
    let case = |round| {
        let netlist = match round % 2 {
            0 => wide_netlist(&mut random),
            _ => wide_two_ports(&mut random),
        };
        Case {
            name: format!("random sheet {round}"),
            sheet: write_sheet(&netlist),
            names: String::new(),
            depth: random.below(5),
        }
    };
    (0..120).map(case).collect()
}
