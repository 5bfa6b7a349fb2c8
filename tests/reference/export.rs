//! K14: the record of an M sheet as a file in binary AIGER.

use super::netlist::{Netlist, FIRST_PORT};
use super::refusal::{require, Refusal, NO_ROOM, OUT_OF_ORDER, RESET_TO_1};

/// The sheet's line of the first latch.
const FIRST_LATCH_LINE: u32 = 3;

/// The file's literal of a code: the read bits are its last inputs, so they come before the latches.
/// Inputs and gates keep their numbers.
fn literal(netlist: &Netlist, code: u32) -> u32 {
    let read_bits = netlist.read_bits(FIRST_PORT);
    let latches = netlist.first_latch()..netlist.first_read_bit();
    match code / 2 {
        wire if latches.contains(&wire) => code + 2 * netlist.data_width,
        wire if read_bits.contains(&wire) => code - 2 * netlist.latch_count,
        _ => code,
    }
}

/// A difference in bytes of seven bits, the lowest first; each but the last is marked by its eighth bit.
pub fn encode_difference(difference: u32) -> Vec<u8> {
    let mut bytes = Vec::new();
    let mut rest = difference;
    while rest >= 0x80 {
        bytes.push(rest as u8 | 0x80);
        rest >>= 7;
    }
    bytes.push(rest as u8);
    bytes
}

/// The file of an accepted record with one port; resets, m, n and the start are not in it.
fn file(netlist: &Netlist) -> Vec<u8> {
    let literal = |code: u32| literal(netlist, code);
    let latches = &netlist.latches[..netlist.latch_count as usize];
    let gates = &netlist.gates[..netlist.gate_count as usize];
    let controls = [netlist.write_enable, netlist.read_enable, netlist.property];
    let outputs = [
        netlist.address_codes(),
        netlist.write_data_codes(),
        &controls,
    ]
    .concat();

    let header = [
        netlist.wire_count(),
        netlist.inputs + netlist.data_width,
        netlist.latch_count,
        outputs.len() as u32,
        netlist.gate_count,
    ];
    let mut text = format!("aig {}\n", header.map(|it| it.to_string()).join(" "));
    let next_codes = latches.iter().map(|latch| latch.next);
    for code in next_codes.chain(outputs) {
        text += &format!("{}\n", literal(code));
    }
    let mut bytes = text.into_bytes();
    for (wire, gate) in (netlist.first_gate()..).zip(gates) {
        let (left, right) = (literal(gate.left), literal(gate.right));
        let (larger, smaller) = (left.max(right), left.min(right));
        bytes.extend(encode_difference(2 * wire - larger));
        bytes.extend(encode_difference(larger - smaller));
    }
    bytes
}

/// K14, for a lent buffer of `room` bytes: the record's tests, 3 at line 2 for the record of a T sheet,
/// 19 at the line of the first latch with reset 1, then 9. The result is what is written; its length is
/// the count.
pub fn export(netlist: &Netlist, room: usize) -> Result<Vec<u8>, Refusal> {
    netlist.check()?;
    require(!netlist.has_two_ports(), OUT_OF_ORDER, 2)?;
    let latches = &netlist.latches[..netlist.latch_count as usize];
    for (line, latch) in (FIRST_LATCH_LINE..).zip(latches) {
        require(latch.reset == 0, RESET_TO_1, line)?;
    }
    let file = file(netlist);
    require(room >= file.len(), NO_ROOM, 0)?;
    Ok(file)
}
