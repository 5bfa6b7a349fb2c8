//! K13: one write, or the start, behind each read of an assignment that makes all clauses true.

use super::agreement::variable;
use super::formula::pair_base_of;
use super::netlist::{Netlist, FIRST_PORT};

/// Where the word of a read comes from.
#[derive(Clone, Copy, Debug, PartialEq, Eq)]
pub enum Source {
    Start,
    /// The write of this frame.
    Write(u32),
}

/// A port and a frame.
pub type Read = (u32, u32);

/// The value of a code in a frame of an assignment; entry v is the value of variable v.
pub fn code_value(netlist: &Netlist, frame: u32, model: &[bool], code: u32) -> bool {
    let wire = code as usize / 2;
    let positive = wire > 0 && model[variable(netlist, frame as usize, wire)];
    positive != (code % 2 == 1)
}

/// The variables of Z and of S(0,i) to S(i-1,i), each with what it names; Z is none in frame 0, where it
/// is RE.
pub fn source_variables(netlist: &Netlist, (port, frame): Read) -> Vec<(Source, usize)> {
    let m = i64::from(netlist.address_width);
    let of_pair = |j: u32, at: i64| (pair_base_of(netlist, port, j, frame) + at) as usize;
    let mut variables = Vec::new();
    if frame > 0 {
        variables.push((Source::Start, of_pair(0, m + 3)));
    }
    variables.extend((0..frame).map(|j| (Source::Write(j), of_pair(j, m + 4))));
    variables
}

/// What the true ones of Z and the S of a read name.
pub fn sources_named(netlist: &Netlist, read: Read, model: &[bool]) -> Vec<Source> {
    let (port, frame) = read;
    let mut named = Vec::new();
    if frame == 0 && code_value(netlist, 0, model, netlist.read_enable_of(port)) {
        named.push(Source::Start);
    }
    let variables = source_variables(netlist, read).into_iter();
    named.extend(variables.filter(|it| model[it.1]).map(|it| it.0));
    named
}

/// The earlier frames that wrote the address at which a port is in a frame, oldest first, by the wires
/// alone: WE is true there, and the first address is the port's.
pub fn writes_of_address(netlist: &Netlist, (port, frame): Read, model: &[bool]) -> Vec<u32> {
    let address = |frame: u32, port: u32| -> Vec<bool> {
        let codes = netlist.address_codes_of(port).iter();
        codes
            .map(|it| code_value(netlist, frame, model, *it))
            .collect()
    };
    let of_read = address(frame, port);
    let writes = |j: &u32| {
        let enabled = code_value(netlist, *j, model, netlist.write_enable);
        enabled && address(*j, FIRST_PORT) == of_read
    };
    (0..frame).filter(writes).collect()
}

/// What a read must name: nothing where its port's RE is false, else the newest earlier frame that wrote
/// this address, or the start.
pub fn source_due(netlist: &Netlist, read: Read, model: &[bool]) -> Option<Source> {
    let (port, frame) = read;
    let reads = code_value(netlist, frame, model, netlist.read_enable_of(port));
    let newest = writes_of_address(netlist, read, model).last().copied();
    reads.then(|| newest.map_or(Source::Start, Source::Write))
}

/// All reads to a depth.
pub fn reads(netlist: &Netlist, depth: u32) -> Vec<Read> {
    let of_frame = |frame: u32| netlist.ports().map(move |port| (port, frame));
    (0..=depth).flat_map(of_frame).collect()
}

/// The first read of an assignment that does not name exactly what it must; none where K13 holds.
pub fn wrong_read(netlist: &Netlist, depth: u32, model: &[bool]) -> Option<Read> {
    let holds = |read: &Read| {
        let due: Vec<Source> = source_due(netlist, *read, model).into_iter().collect();
        sources_named(netlist, *read, model) == due
    };
    reads(netlist, depth).into_iter().find(|read| !holds(read))
}
