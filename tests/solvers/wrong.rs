//! The wrong generators of RULES M1 to M5 and M9 to M18, and others of a second port: the test that the
//! program passes must catch each of them.

use super::cases::{small_cases, two_port_cases, unknown_cases, Case};
use super::judge::{judge, Faults};
use super::programs::Programs;
use super::reference::agreement::variable;
use super::reference::formula::{clauses_text, header_text, Fault, Formula, Group};
use super::reference::netlist::Netlist;
use super::reference::tally::Tally;

/// Random sheets for each wrong generator.
const SHEETS: usize = 200;

/// A wrong generator: one of the second implementation's, or the right one but for its closings.
#[derive(Clone, Copy, Debug, PartialEq, Eq)]
pub enum Mistake {
    Of(Fault),
    /// The clauses of the word held are left out.
    HeldWordLost,
    /// Frame 0 holds the word 0 where RE is false.
    HeldInFrameZero,
    /// The word of two frames before is held.
    HeldTwoFramesBefore,
}
use Mistake::{HeldInFrameZero, HeldTwoFramesBefore, HeldWordLost, Of};

/// What is found wrong with the text of each of these generators, beside that it is another than the second
/// implementation's: nothing else may be.
#[derive(Clone, Copy)]
enum Seen {
    /// Both halves of demand 3.
    Both,
    /// That, and an e of other bits.
    BothAndBits,
    /// Assignments that are no run's.
    Assignments,
    /// Runs without an assignment.
    Runs,
    /// An e that is bound, or not where it belongs.
    Bits,
    /// Nothing that a solver could see: the order of the clauses.
    TextAlone,
}
use Seen::{Assignments, Bits, Both, BothAndBits, Runs, TextAlone};

fn faults_of(seen: Seen) -> Faults {
    Faults {
        text: true,
        file: false,
        assignment_to_run: matches!(seen, Both | BothAndBits | Assignments),
        run_to_assignment: matches!(seen, Both | BothAndBits | Runs),
        bit_equality: matches!(seen, Bits | BothAndBits),
    }
}

const WRONG: [(Mistake, Seen); 13] = [
    (Of(Fault::OwnFrameWrite), Both),
    (Of(Fault::OldestWrite), Both),
    (Of(Fault::ReaderWriteEnable), Both),
    (Of(Fault::IdleReadsZero), Runs),
    (Of(Fault::EqualitySettled), Bits),
    (HeldWordLost, Assignments),
    (HeldInFrameZero, Runs),
    (HeldTwoFramesBefore, Both),
    (Of(Fault::AgreementOmitted), Assignments),
    (Of(Fault::AgreementOfNeighbours), Assignments),
    (Of(Fault::AgreementWithoutEarlier), Runs),
    (Of(Fault::AgreementWithoutLater), Runs),
    (Of(Fault::UnknownStartsZero), Runs),
];

/// The same on T sheets: the mistakes of one port, each in both, and those of a second port.
const WRONG_OF_TWO_PORTS: [(Mistake, Seen); 20] = [
    (Of(Fault::OwnFrameWrite), Both),
    (Of(Fault::OldestWrite), Both),
    (Of(Fault::ReaderWriteEnable), Both),
    (Of(Fault::IdleReadsZero), Runs),
    (Of(Fault::EqualitySettled), Bits),
    (HeldWordLost, Assignments),
    (HeldInFrameZero, Runs),
    (HeldTwoFramesBefore, Both),
    (Of(Fault::SecondAddressWrites), BothAndBits),
    (Of(Fault::WriteBySecondAddress), BothAndBits),
    (Of(Fault::SecondPortReadsFirst), BothAndBits),
    (Of(Fault::FirstReadEnable), Both),
    (Of(Fault::FirstEnableInChain), Runs),
    (Of(Fault::FirstPending), Runs),
    (Of(Fault::FirstUntouched), Runs),
    (Of(Fault::FirstWordHeld), Both),
    (Of(Fault::HeldWordsExchanged), Both),
    (Of(Fault::SecondPortBehind), Bits),
    (Of(Fault::PortByPort), TextAlone),
    (Of(Fault::PortsExchanged), TextAlone),
];

/// On M sheets: those of an unknown start where it is unknown, the others on any.
pub fn wrong_generators(tally: &mut Tally, programs: &Programs) {
    let any_start = small_cases(2, SHEETS);
    let unknown_start = unknown_cases(3, SHEETS);
    let cases_for = |mistake: Mistake| {
        if is_of_unknown_start(mistake) {
            unknown_start.as_slice()
        } else {
            any_start.as_slice()
        }
    };
    caught(tally, programs, &WRONG, cases_for);
}

/// On T sheets.
pub fn wrong_two_ports(tally: &mut Tally, programs: &Programs) {
    let cases = two_port_cases(7, SHEETS);
    caught(tally, programs, &WRONG_OF_TWO_PORTS, |_| cases.as_slice());
}

fn caught<'a>(
    tally: &mut Tally,
    programs: &Programs,
    mistakes: &[(Mistake, Seen)],
    cases_for: impl Fn(Mistake) -> &'a [Case],
) {
    let mut remarks = Vec::new();
    for (mistake, seen) in mistakes {
        let (mut found, mut caught) = (Faults::default(), 0);
        for Case { netlist, depth } in cases_for(*mistake) {
            let text = wrong_text(netlist, *depth, *mistake);
            let faults = judge(programs, netlist, *depth, &text).faults;
            caught += usize::from(faults != Faults::default());
            found.text |= faults.text;
            found.file |= faults.file;
            found.assignment_to_run |= faults.assignment_to_run;
            found.run_to_assignment |= faults.run_to_assignment;
            found.bit_equality |= faults.bit_equality;
        }
        tally.equal(mistake, found, faults_of(*seen));
        remarks.push(format!("{mistake:?} {caught}"));
    }
    tally.remark = format!(" (caught, of {SHEETS} sheets: {})", remarks.join(", "));
}

/// Whether a mistake shows in sheets with an unknown start alone.
fn is_of_unknown_start(mistake: Mistake) -> bool {
    matches!(
        mistake,
        Of(Fault::AgreementOmitted
            | Fault::AgreementOfNeighbours
            | Fault::AgreementWithoutEarlier
            | Fault::AgreementWithoutLater
            | Fault::UnknownStartsZero)
    )
}

/// A wrong generator's text. Its header is right for what it writes, so no solver refuses the file.
pub fn wrong_text(netlist: &Netlist, depth: u32, mistake: Mistake) -> Vec<u8> {
    let fault = match mistake {
        Of(fault) => fault,
        _ => Fault::None,
    };
    let formula = Formula::new(netlist, depth, fault);
    let groups = formula.port_groups().into_iter();
    let numbers: Vec<i32> = groups
        .flat_map(|asked| match asked.group {
            Group::Closing(frame) => closing(
                netlist,
                asked.port,
                frame,
                &formula.port_group(asked),
                mistake,
            ),
            _ => formula.port_group(asked),
        })
        .collect();
    let clauses = numbers.iter().filter(|number| **number == 0).count();
    let header = header_text(formula.variable_count(), clauses as i64);
    [header, clauses_text(&numbers)].concat()
}

/// A port's closing of a frame with the mistake. A later frame's has n clauses of the start word unless it is unknown, then 2n of the word held,
/// each with its literal of the frame before at the end, but none where RE is true; and (¬RE Z S ..), but not where RE is false.
fn closing(
    netlist: &Netlist,
    port: u32,
    frame: u32,
    numbers: &[i32],
    mistake: Mistake,
) -> Vec<i32> {
    let bits = netlist.data_width as usize;
    let (frame, first_read_bit) = (frame as usize, netlist.read_bits(port).start as usize);
    let ended = numbers.split_inclusive(|number| *number == 0);
    let mut clauses: Vec<Vec<i32>> = ended.map(<[i32]>::to_vec).collect();
    let read_enable = netlist.read_enable_of(port);
    let first = if netlist.has_unknown_start() { 0 } else { bits };
    let held = first..first + if read_enable == 1 { 0 } else { 2 * bits };
    match mistake {
        HeldWordLost if frame > 0 => {
            clauses.drain(held);
        }
        HeldInFrameZero if frame == 0 && read_enable != 1 => {
            let wire = variable(netlist, 0, read_enable as usize / 2) as i32;
            let zero = |bit| {
                let read = variable(netlist, 0, first_read_bit + bit) as i32;
                match read_enable {
                    0 => vec![-read, 0],
                    code if code % 2 == 0 => vec![wire, -read, 0],
                    _ => vec![-wire, -read, 0],
                }
            };
            clauses.extend((0..bits).map(zero));
        }
        HeldTwoFramesBefore if frame > 1 => {
            let back = variable(netlist, frame - 1, 0) - variable(netlist, frame - 2, 0);
            for clause in &mut clauses[held] {
                let last = clause.len() - 2;
                clause[last] -= clause[last].signum() * back as i32;
            }
        }
        _ => {}
    }
    clauses.concat()
}
