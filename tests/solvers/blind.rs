//! Sheets that only a test of the other port's read bits refuses (RULES C29): an address or RE of one port depends on a read bit of the other, and on
//! none of its own. The program refuses them; a generator that took them would be caught.

use super::cases::{two_port_cases, Case};
use super::judge::{judge, Faults};
use super::programs::Programs;
use super::reference::formula::{refusal_text, Fault};
use super::reference::netlist::{Netlist, FIRST_PORT, SECOND_PORT};
use super::reference::random::Random;
use super::reference::refusal::{Refusal, MEMORY_LOOP};
use super::reference::tally::Tally;
use super::wrong::{wrong_text, Mistake};

const SHEETS: usize = 240;

/// The lines that a loop is refused at.
#[derive(Clone, Copy, Debug, PartialEq, Eq)]
enum Line {
    Address,
    SecondAddress,
    SecondEnable,
    Control,
}
const LINES: [Line; 4] = [
    Line::Address,
    Line::SecondAddress,
    Line::SecondEnable,
    Line::Control,
];

/// The wires that a read bit of this port reaches by wiring through gates, and none of the other.
fn reached_from(netlist: &Netlist, port: u32) -> Vec<u32> {
    let reached = |port: u32| {
        let bits = netlist.read_bits(port);
        let mut reached: Vec<bool> = (0..netlist.first_gate())
            .map(|wire| bits.contains(&wire))
            .collect();
        for gate in &netlist.gates {
            reached.push(reached[gate.left as usize / 2] || reached[gate.right as usize / 2]);
        }
        reached
    };
    let (own, other) = (reached(port), reached(FIRST_PORT + SECOND_PORT - port));
    (0..own.len())
        .filter(|wire| own[*wire] && !other[*wire])
        .map(|wire| wire as u32)
        .collect()
}

/// A code of the other port's read bits on this line; the place where that is refused.
fn tie_to_other_port(random: &mut Random, netlist: &mut Netlist, line: Line) -> u32 {
    let other = match line {
        Line::Address | Line::Control => SECOND_PORT,
        Line::SecondAddress | Line::SecondEnable => FIRST_PORT,
    };
    let code = 2 * random.pick(&reached_from(netlist, other)) + random.below(2);
    let (m, n) = (netlist.address_width, netlist.data_width);
    let bit = random.below(m);
    let first = 3 + netlist.latch_count + netlist.gate_count;
    let (entry, place) = match line {
        Line::Address => (&mut netlist.address[bit as usize], first + bit),
        Line::SecondAddress => (
            &mut netlist.second_address[bit as usize],
            first + m + n + bit,
        ),
        Line::SecondEnable => (&mut netlist.second_read_enable, first + m + n + m),
        Line::Control => (&mut netlist.read_enable, first + m + n + m + 1),
    };
    *entry = code;
    place
}

pub fn loops_between_ports(tally: &mut Tally, programs: &Programs) {
    let mut random = Random::new(8);
    let mut caught = [0; 4];
    let mut found = Faults::default();
    for (index, case) in two_port_cases(9, SHEETS).into_iter().enumerate() {
        let Case { mut netlist, depth } = case;
        let line = LINES[index % LINES.len()];
        let place = tie_to_other_port(&mut random, &mut netlist, line);
        let refused = Refusal {
            number: MEMORY_LOOP,
            place,
        };
        let printed = programs.frames(&netlist, depth);
        tally.equal((index, line), printed, refusal_text(refused));
        let text = wrong_text(&netlist, depth, Mistake::Of(Fault::None));
        let faults = judge(programs, &netlist, depth, &text).faults;
        caught[index % LINES.len()] += usize::from(faults != Faults::default());
        found.assignment_to_run |= faults.assignment_to_run;
        found.run_to_assignment |= faults.run_to_assignment;
    }
    for (line, count) in LINES.into_iter().zip(caught) {
        tally.check((line, "caught", count), count > 0);
    }
    tally.check(
        ("both halves of demand 3", found),
        found.assignment_to_run && found.run_to_assignment,
    );
    tally.remark = format!(
        " (a generator that takes them is caught, of {} sheets each: {caught:?})",
        SHEETS / LINES.len()
    );
}
