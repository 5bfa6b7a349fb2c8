//! K11: the M sheet of a T sheet whose second port is not used.

use super::netlist::{Gate, Kind, Latch, Netlist, SECOND_PORT};
use super::refusal::{require, Refusal, NO_ROOM, SECOND_PORT_USED};
use super::sheet::{read_sheet, write_sheet};

/// The codes on one line; sizes, start word and resets are none.
fn codes_at(netlist: &Netlist, kind: Kind, index: usize) -> Vec<u32> {
    match kind {
        Kind::Sizes | Kind::Memory | Kind::TwoPortMemory => Vec::new(),
        Kind::Latch => vec![netlist.latches[index].next],
        Kind::Gate => vec![netlist.gates[index].left, netlist.gates[index].right],
        Kind::Address => vec![netlist.address[index]],
        Kind::WriteData => vec![netlist.write_data[index]],
        Kind::SecondAddress => vec![netlist.second_address[index]],
        Kind::SecondReadEnable => vec![netlist.second_read_enable],
        Kind::Control => vec![netlist.write_enable, netlist.read_enable, netlist.property],
    }
}

/// Whether a line lets the second port read, or names one of its read bits. The second address may be
/// anything: without a read it has no effect.
fn uses_second_port(netlist: &Netlist, kind: Kind, index: usize) -> bool {
    let codes = codes_at(netlist, kind, index);
    if kind == Kind::SecondReadEnable {
        return codes != [0];
    }
    let second = netlist.read_bits(SECOND_PORT);
    codes.iter().any(|code| second.contains(&(code / 2)))
}

/// Refusal 18 at the first line of a T sheet that uses the second port.
fn check_unused(netlist: &Netlist) -> Result<(), Refusal> {
    for place in 1..=netlist.line_count() {
        let (kind, index) = netlist.line_at(place).expect("a line of the sheet");
        let unused = !uses_second_port(netlist, kind, index);
        require(unused, SECOND_PORT_USED, place)?;
    }
    Ok(())
}

/// The record without its second port: the record's tests, then 18. That of an M sheet stays as it is.
/// Unused entries are 0.
pub fn without_second_port(netlist: &Netlist) -> Result<Netlist, Refusal> {
    netlist.check()?;
    if !netlist.has_two_ports() {
        return Ok(netlist.clone());
    }
    check_unused(netlist)?;

    // Only gates stand behind the read bits that go.
    let first_gate = netlist.first_gate();
    let code = |old: u32| match old / 2 {
        wire if wire >= first_gate => old - 2 * netlist.data_width,
        _ => old,
    };
    let mut one = Netlist {
        two_ports: 0,
        second_address: Default::default(),
        second_read_enable: 0,
        address: Default::default(),
        write_data: Default::default(),
        latches: Vec::new(),
        gates: Vec::new(),
        write_enable: code(netlist.write_enable),
        read_enable: code(netlist.read_enable),
        property: code(netlist.property),
        ..*netlist
    };
    for latch in &netlist.latches[..netlist.latch_count as usize] {
        one.latches.push(Latch {
            next: code(latch.next),
            reset: latch.reset,
        });
    }
    for gate in &netlist.gates[..netlist.gate_count as usize] {
        one.gates.push(Gate {
            left: code(gate.left),
            right: code(gate.right),
        });
    }
    for (entry, old) in one.address.iter_mut().zip(netlist.address_codes()) {
        *entry = code(*old);
    }
    for (entry, old) in one.write_data.iter_mut().zip(netlist.write_data_codes()) {
        *entry = code(*old);
    }
    Ok(one)
}

/// K11, for a lent buffer of `room` bytes: the sheet's tests, 18, then 9. The result is what is written;
/// its length is the count. An M sheet passes as it is.
pub fn one_port(sheet: &[u8], room: usize) -> Result<Vec<u8>, Refusal> {
    let netlist = read_sheet(sheet, usize::MAX, usize::MAX)?;
    let written = match netlist.has_two_ports() {
        true => write_sheet(&without_second_port(&netlist)?),
        false => sheet.to_vec(),
    };
    require(room >= written.len(), NO_ROOM, 0)?;
    Ok(written)
}
