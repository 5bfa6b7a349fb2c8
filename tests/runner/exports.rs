//! The exported functions of the static library, under their C names, and safe calls of them. A slice is
//! a pointer and a length. Every slice that is lent for writing stands between guards that must stay.

use super::reference::answer::Claim;
use super::reference::answer_calls::{Call, Outcome};
use super::reference::formula::{Group, PortGroup};
use super::reference::netlist::{Gate, Latch, Netlist};
use super::reference::position::Position;
use super::reference::refusal::Refusal;

#[repr(C)]
#[derive(Clone, Copy, Debug, Default, PartialEq, Eq)]
struct Code(u32);

#[repr(C)]
#[derive(Clone, Copy, Debug, Default, PartialEq, Eq)]
struct Record {
    inputs: u32,
    latches: u32,
    gates: u32,
    m: u32,
    n: u32,
    initial_word: u32,
    unknown_start: u32,
    second_port: u32,
    address: [Code; 12],
    write_data: [Code; 32],
    we: Code,
    re: Code,
    p: Code,
    address2: [Code; 12],
    re2: Code,
}

#[repr(C)]
#[derive(Clone, Copy, Debug, PartialEq, Eq)]
struct GateRecord {
    left: Code,
    right: Code,
}

#[repr(C)]
#[derive(Clone, Copy, Debug, PartialEq, Eq)]
struct LatchRecord {
    next: Code,
    reset: u32,
}

#[repr(C)]
#[derive(Clone, Copy, Debug, PartialEq, Eq)]
struct CountReply {
    number: u32,
    place: u32,
    count: usize,
}

#[repr(C)]
#[derive(Clone, Copy, Debug, PartialEq, Eq)]
struct HeadingReply {
    number: u32,
    place: u32,
    variables: u32,
    clauses: u32,
}

#[repr(C)]
#[derive(Clone, Copy, Debug, PartialEq, Eq)]
struct PositionRecord {
    depth: u32,
    frame: u32,
    base: u32,
}

#[repr(C)]
#[derive(Clone, Copy, Debug, PartialEq, Eq)]
struct PositionReply {
    number: u32,
    place: u32,
    position: PositionRecord,
}

#[repr(C)]
#[derive(Clone, Copy, Debug, PartialEq, Eq)]
struct LiteralReply {
    number: u32,
    place: u32,
    literal: i32,
}

#[repr(C)]
#[derive(Clone, Copy, Debug, PartialEq, Eq)]
struct ReplayReply {
    number: u32,
    place: u32,
    claimed: u32,
    first: u32,
}

#[repr(C)]
#[derive(Clone, Copy, Debug, PartialEq, Eq)]
struct SheetReply {
    number: u32,
    place: u32,
    net: Record,
}

#[repr(C)]
#[derive(Clone, Copy, Debug, PartialEq, Eq)]
struct LineReply {
    number: u32,
    place: u32,
    letter: u8,
    first: u32,
    second: u32,
    third: u32,
    empty: u32,
    line: u32,
}

#[repr(C)]
#[derive(Clone, Copy, Debug, PartialEq, Eq)]
struct GroupReply {
    end: u32,
    kind: u32,
    j: u32,
    i: u32,
    port: u32,
}

#[repr(C)]
#[derive(Clone, Copy, Debug, PartialEq, Eq)]
struct VersionReply {
    major: u32,
    minor: u32,
}

/// A call that writes a text of a record.
type WritesRecord = unsafe extern "C" fn(
    Record,
    *const LatchRecord,
    usize,
    *const GateRecord,
    usize,
    *mut u8,
    usize,
) -> CountReply;

extern "C" {
    fn marrubigai_version() -> VersionReply;

    fn marrubigai_next_group(
        depth: u32,
        ports: u32,
        kind: u32,
        j: u32,
        i: u32,
        port: u32,
    ) -> GroupReply;

    fn marrubigai_write_group(
        net: Record,
        latches: *const LatchRecord,
        latch_count: usize,
        gates: *const GateRecord,
        gate_count: usize,
        depth: u32,
        kind: u32,
        j: u32,
        i: u32,
        port: u32,
        out: *mut i32,
        room: usize,
    ) -> CountReply;

    fn marrubigai_heading(
        net: Record,
        latches: *const LatchRecord,
        latch_count: usize,
        gates: *const GateRecord,
        gate_count: usize,
        depth: u32,
    ) -> HeadingReply;

    fn marrubigai_move(
        net: Record,
        latches: *const LatchRecord,
        latch_count: usize,
        gates: *const GateRecord,
        gate_count: usize,
        position: PositionRecord,
        way: u32,
    ) -> PositionReply;

    fn marrubigai_write_group_at(
        net: Record,
        latches: *const LatchRecord,
        latch_count: usize,
        gates: *const GateRecord,
        gate_count: usize,
        position: PositionRecord,
        kind: u32,
        j: u32,
        port: u32,
        out: *mut i32,
        room: usize,
    ) -> CountReply;

    fn marrubigai_literal_at(net: Record, position: PositionRecord, code: Code) -> LiteralReply;

    fn marrubigai_source_literal(
        net: Record,
        depth: u32,
        kind: u32,
        j: u32,
        i: u32,
        port: u32,
    ) -> LiteralReply;

    fn marrubigai_replay(
        net: Record,
        latches: *const LatchRecord,
        latch_count: usize,
        gates: *const GateRecord,
        gate_count: usize,
        depth: u32,
        answer: *const u8,
        answer_bytes: usize,
        memory: *mut u32,
        words: usize,
        trace: *mut u8,
        trace_room: usize,
    ) -> ReplayReply;

    fn marrubigai_write_sheet(
        net: Record,
        latches: *const LatchRecord,
        latch_count: usize,
        gates: *const GateRecord,
        gate_count: usize,
        out: *mut u8,
        room: usize,
    ) -> CountReply;

    fn marrubigai_one_port(
        file: *const u8,
        length: usize,
        out: *mut u8,
        room: usize,
    ) -> CountReply;

    fn marrubigai_export(
        net: Record,
        latches: *const LatchRecord,
        latch_count: usize,
        gates: *const GateRecord,
        gate_count: usize,
        out: *mut u8,
        room: usize,
    ) -> CountReply;

    fn marrubigai_read(
        file: *const u8,
        length: usize,
        latches: *mut LatchRecord,
        latch_room: usize,
        gates: *mut GateRecord,
        gate_room: usize,
    ) -> SheetReply;

    fn marrubigai_import(
        text: *const u8,
        length: usize,
        m: u32,
        n: u32,
        word: u32,
        unknown_start: u32,
        second_port: u32,
        latches: *mut LatchRecord,
        latch_room: usize,
        gates: *mut GateRecord,
        gate_room: usize,
    ) -> SheetReply;

    fn marrubigai_next_line(file: *const u8, length: usize, line: u32) -> LineReply;

    fn marrubigai_put_header(out: *mut u8, room: usize, variables: u32, clauses: u32)
        -> CountReply;

    fn marrubigai_put_clauses(
        out: *mut u8,
        room: usize,
        numbers: *const i32,
        count: usize,
    ) -> CountReply;

    fn marrubigai_put_refusal(out: *mut u8, room: usize, number: u32, place: u32) -> CountReply;

    fn marrubigai_put_number(out: *mut u8, room: usize, number: i32) -> CountReply;
}

fn record_of(netlist: &Netlist) -> Record {
    Record {
        inputs: netlist.inputs,
        latches: netlist.latch_count,
        gates: netlist.gate_count,
        m: netlist.address_width,
        n: netlist.data_width,
        initial_word: netlist.start_word,
        unknown_start: netlist.unknown_start,
        second_port: netlist.two_ports,
        address: netlist.address.map(Code),
        write_data: netlist.write_data.map(Code),
        we: Code(netlist.write_enable),
        re: Code(netlist.read_enable),
        p: Code(netlist.property),
        address2: netlist.second_address.map(Code),
        re2: Code(netlist.second_read_enable),
    }
}

fn position_record(position: Position) -> PositionRecord {
    PositionRecord {
        depth: position.depth,
        frame: position.frame,
        base: position.base,
    }
}

fn latch_record(latch: &Latch) -> LatchRecord {
    LatchRecord {
        next: Code(latch.next),
        reset: latch.reset,
    }
}

fn gate_record(gate: &Gate) -> GateRecord {
    GateRecord {
        left: Code(gate.left),
        right: Code(gate.right),
    }
}

/// A slice that is lent, with guards before and behind it. Its fill is different at each index, and is
/// nothing that a call writes.
struct Lent<T> {
    all: Vec<T>,
    room: usize,
}

const GUARDS: usize = 4;

impl<T: Copy + PartialEq> Lent<T> {
    fn new(room: usize, fill: impl Fn(usize) -> T) -> Lent<T> {
        Lent {
            all: (0..room + 2 * GUARDS).map(fill).collect(),
            room,
        }
    }

    fn slice(&mut self) -> &mut [T] {
        &mut self.all[GUARDS..GUARDS + self.room]
    }

    /// What stands at the front, where everything else is as it was.
    fn written(&self, count: usize, fill: impl Fn(usize) -> T) -> Option<Vec<T>> {
        (count <= self.room).then(|| self.part(0, count, fill))?
    }

    /// What stands at the end, where everything else is as it was.
    fn filled(&self, count: usize, fill: impl Fn(usize) -> T) -> Option<Vec<T>> {
        self.part(self.room.checked_sub(count)?, count, fill)
    }

    fn part(&self, start: usize, count: usize, fill: impl Fn(usize) -> T) -> Option<Vec<T>> {
        let part = GUARDS + start..GUARDS + start + count;
        let is_kept = |index: usize| self.all[index] == fill(index);
        let kept = (0..part.start).all(is_kept) && (part.end..self.all.len()).all(is_kept);
        kept.then(|| self.all[part].to_vec())
    }
}

/// A netlist as the C functions take it.
pub struct Lists {
    record: Record,
    latches: Vec<LatchRecord>,
    gates: Vec<GateRecord>,
}

/// What a call answered; `Err` where it broke a promise that holds whatever it is asked.
pub type Answer<T> = Result<Result<T, Refusal>, &'static str>;

fn answer<T>(
    number: u32,
    place: u32,
    zeros: bool,
    value: impl FnOnce() -> Result<T, &'static str>,
) -> Answer<T> {
    match (number, place) {
        (0, 0) => value().map(Ok),
        (0, _) => Err("a place beside success"),
        _ if !zeros => Err("something beside a refusal"),
        (number, place) => Ok(Err(Refusal { number, place })),
    }
}

/// A group as a call is asked for it: kind, j, i and port.
pub type Numbers = (u32, u32, u32, u32);

/// The four numbers of a group. Those that its kind has no use for are as odd as can be.
pub fn parameters(PortGroup { port, group }: PortGroup) -> Numbers {
    match group {
        Group::Wires(i) => (0, u32::MAX, i, u32::MAX),
        Group::Pair(j, i) => (1, j, i, port),
        Group::Closing(i) => (2, u32::MAX, i, port),
        Group::Property => (3, u32::MAX, u32::MAX, u32::MAX),
    }
}

/// The group that four numbers ask for. A kind above 3 is no group, which is tested in 8's place as a pair of a
/// frame with itself is.
pub fn asked_for((kind, j, i, port): Numbers) -> PortGroup {
    let group = match kind {
        0 => Group::Wires(i),
        1 => Group::Pair(j, i),
        2 => Group::Closing(i),
        3 => Group::Property,
        _ => Group::Pair(i, i),
    };
    PortGroup { port, group }
}

/// The version of the header that the library is built for.
pub fn version() -> (u32, u32) {
    // SAFETY: nothing is lent.
    let reply = unsafe { marrubigai_version() };
    (reply.major, reply.minor)
}

/// The group that follows one in the order of a depth with so many ports, `None` at the end; what does not apply must be 0.
pub fn next_group(depth: u32, ports: u32, (kind, j, i, port): Numbers) -> Result<Option<PortGroup>, &'static str> {
    // SAFETY: nothing is lent.
    let reply = unsafe { marrubigai_next_group(depth, ports, kind, j, i, port) };
    match (reply.end, reply.kind, reply.j, reply.i, reply.port) {
        (0, 0, 0, i, 0) => Ok(Some(PortGroup::first(Group::Wires(i)))),
        (0, 1, j, i, port) => Ok(Some(PortGroup { port, group: Group::Pair(j, i) })),
        (0, 2, 0, i, port) => Ok(Some(PortGroup { port, group: Group::Closing(i) })),
        (0, 3, 0, 0, 0) => Ok(Some(PortGroup::first(Group::Property))),
        (1, 0, 0, 0, 0) => Ok(None),
        _ => Err("no group and no end"),
    }
}

/// A call that writes into a slice of `room` entries and answers how many: the entries written.
fn written_into<T: Copy + PartialEq>(
    room: usize,
    fill: fn(usize) -> T,
    call: impl FnOnce(*mut T, usize) -> CountReply,
) -> Answer<Vec<T>> {
    let mut out = Lent::new(room, fill);
    let slice = out.slice();
    let reply = call(slice.as_mut_ptr(), slice.len());
    let entries = out
        .written(reply.count, fill)
        .ok_or("something behind the count, or a count above the room")?;
    answer(reply.number, reply.place, reply.count == 0, || Ok(entries))
}

/// No number of any formula, different at each index.
fn unwritten(index: usize) -> i32 {
    i32::MIN + index as i32
}

impl Lists {
    pub fn new(netlist: &Netlist) -> Lists {
        Lists {
            record: record_of(netlist),
            latches: netlist.latches.iter().map(latch_record).collect(),
            gates: netlist.gates.iter().map(gate_record).collect(),
        }
    }

    /// A group call with a slice of `room` numbers: the numbers written.
    pub fn write_group(
        &self,
        depth: u32,
        (kind, j, i, port): Numbers,
        room: usize,
    ) -> Answer<Vec<i32>> {
        // SAFETY: each pointer and length are those of a live slice, and only `out` is written to.
        written_into(room, unwritten, |out, room| unsafe {
            marrubigai_write_group(
                self.record,
                self.latches.as_ptr(),
                self.latches.len(),
                self.gates.as_ptr(),
                self.gates.len(),
                depth,
                kind,
                j,
                i,
                port,
                out,
                room,
            )
        })
    }

    /// A call that writes the record's sheet into a buffer of `room` bytes: the bytes written.
    pub fn write_sheet(&self, room: usize) -> Answer<Vec<u8>> {
        self.written_by(marrubigai_write_sheet, room)
    }

    /// A call that writes the record's binary AIGER file into a buffer of `room` bytes: the bytes written.
    pub fn export(&self, room: usize) -> Answer<Vec<u8>> {
        self.written_by(marrubigai_export, room)
    }

    fn written_by(&self, write: WritesRecord, room: usize) -> Answer<Vec<u8>> {
        // SAFETY: each pointer and length are those of a live slice, and only `out` is written to.
        written_into(room, unprinted, |out, room| unsafe {
            write(
                self.record,
                self.latches.as_ptr(),
                self.latches.len(),
                self.gates.as_ptr(),
                self.gates.len(),
                out,
                room,
            )
        })
    }

    pub fn heading(&self, depth: u32) -> Answer<(u32, u32)> {
        // SAFETY: each pointer and length are those of a live slice.
        let reply = unsafe {
            marrubigai_heading(
                self.record,
                self.latches.as_ptr(),
                self.latches.len(),
                self.gates.as_ptr(),
                self.gates.len(),
                depth,
            )
        };
        let heading = (reply.variables, reply.clauses);
        answer(reply.number, reply.place, heading == (0, 0), || Ok(heading))
    }

    /// A move of a running record: number and place, 0 where it is not refused, and the record handed back.
    pub fn move_position(&self, position: Position, way: u32) -> ((u32, u32), Position) {
        // SAFETY: each pointer and length are those of a live slice.
        let reply = unsafe {
            marrubigai_move(
                self.record,
                self.latches.as_ptr(),
                self.latches.len(),
                self.gates.as_ptr(),
                self.gates.len(),
                position_record(position),
                way,
            )
        };
        let PositionRecord { depth, frame, base } = reply.position;
        ((reply.number, reply.place), Position { depth, frame, base })
    }

    /// A group call through a running record, by kind, j and port, with a slice of `room` numbers: the numbers written.
    pub fn write_group_at(
        &self,
        position: Position,
        (kind, j, port): (u32, u32, u32),
        room: usize,
    ) -> Answer<Vec<i32>> {
        // SAFETY: each pointer and length are those of a live slice, and only `out` is written to.
        written_into(room, unwritten, |out, room| unsafe {
            marrubigai_write_group_at(
                self.record,
                self.latches.as_ptr(),
                self.latches.len(),
                self.gates.as_ptr(),
                self.gates.len(),
                position_record(position),
                kind,
                j,
                port,
                out,
                room,
            )
        })
    }

    /// The literal of a code in a running record's frame. The lists are not lent.
    pub fn literal_at(&self, position: Position, code: u32) -> Answer<i32> {
        // SAFETY: nothing is lent.
        let reply =
            unsafe { marrubigai_literal_at(self.record, position_record(position), Code(code)) };
        answer(reply.number, reply.place, reply.literal == 0, || {
            Ok(reply.literal)
        })
    }

    /// The literal of a pair or a closing that names the source of a read. The lists are not lent.
    pub fn source_literal(&self, depth: u32, (kind, j, i, port): Numbers) -> Answer<i32> {
        // SAFETY: nothing is lent.
        let reply = unsafe { marrubigai_source_literal(self.record, depth, kind, j, i, port) };
        answer(reply.number, reply.place, reply.literal == 0, || {
            Ok(reply.literal)
        })
    }
}

/// Contents that are lent, with guards before and behind them that no call may write to.
fn guarded<T: Copy>(contents: &[T], guard: T) -> Vec<T> {
    let guards = vec![guard; GUARDS];
    [&guards, contents, &guards].concat()
}

/// What stands between the guards, where they are as they were.
fn unguarded<T: Copy + PartialEq>(all: &[T], guard: T) -> Result<Vec<T>, &'static str> {
    let (before, rest) = all.split_at(GUARDS);
    let (contents, behind) = rest.split_at(rest.len() - GUARDS);
    if before.iter().chain(behind).all(|entry| *entry == guard) {
        Ok(contents.to_vec())
    } else {
        Err("something outside of what is lent")
    }
}

/// A call that runs an answer: what it answers, and what the memory and the trace hold then.
pub fn replay(call: &Call) -> Result<Outcome, &'static str> {
    const WORD: u32 = 0x5a5a_5a5a;
    const BYTE: u8 = 0x5a;
    let lists = Lists::new(&call.netlist);
    let mut memory = guarded(&call.memory, WORD);
    let mut trace = guarded(&call.trace, BYTE);
    // SAFETY: each pointer and length are those of a live slice, and only memory and trace are written to.
    let reply = unsafe {
        marrubigai_replay(
            lists.record,
            lists.latches.as_ptr(),
            lists.latches.len(),
            lists.gates.as_ptr(),
            lists.gates.len(),
            call.depth,
            call.answer.as_ptr(),
            call.answer.len(),
            memory[GUARDS..].as_mut_ptr(),
            call.memory.len(),
            trace[GUARDS..].as_mut_ptr(),
            call.trace.len(),
        )
    };
    let said = (reply.claimed, reply.first);
    let claim = || match said {
        (0, first) => Ok(Claim::Breaks(first)),
        (1, 0) => Ok(Claim::Unsatisfiable),
        _ => Err("no claim"),
    };
    Ok(Outcome {
        result: answer(reply.number, reply.place, said == (0, 0), claim)?,
        memory: unguarded(&memory, WORD)?,
        trace: unguarded(&trace, BYTE)?,
    })
}

/// A call that delivers a netlist into lists of these lengths: the netlist whose lists are the records written.
fn delivered(
    [latch_room, gate_room]: [usize; 2],
    call: impl FnOnce(&mut [LatchRecord], &mut [GateRecord]) -> SheetReply,
) -> Answer<Netlist> {
    let odd = |index: usize| u32::MAX - index as u32;
    let fill_latch = |index: usize| LatchRecord {
        next: Code(odd(index)),
        reset: odd(index),
    };
    let fill_gate = |index: usize| GateRecord {
        left: Code(odd(index)),
        right: Code(odd(index)),
    };
    let mut latches = Lent::new(latch_room, fill_latch);
    let mut gates = Lent::new(gate_room, fill_gate);
    let SheetReply { number, place, net } = call(latches.slice(), gates.slice());
    let latches = latches
        .written(net.latches as usize, fill_latch)
        .ok_or("latches behind the size, or no room for it")?;
    let gates = gates
        .written(net.gates as usize, fill_gate)
        .ok_or("gates behind the size, or no room for it")?;
    answer(number, place, net == Record::default(), || {
        Ok(netlist_of(net, &latches, &gates))
    })
}

/// Reads a sheet into lists of these lengths.
pub fn read(file: &[u8], latch_room: usize, gate_room: usize) -> Answer<Netlist> {
    // SAFETY: each pointer and length are those of a live slice, and only the two lists are written to.
    delivered([latch_room, gate_room], |latches, gates| unsafe {
        marrubigai_read(
            file.as_ptr(),
            file.len(),
            latches.as_mut_ptr(),
            latches.len(),
            gates.as_mut_ptr(),
            gates.len(),
        )
    })
}

/// Converts a sheet to one port, into a buffer of `room` bytes: the bytes written.
pub fn one_port(file: &[u8], room: usize) -> Answer<Vec<u8>> {
    // SAFETY: each pointer and length are those of a live slice, and only `out` is written to.
    written_into(room, unprinted, |out, room| unsafe {
        marrubigai_one_port(file.as_ptr(), file.len(), out, room)
    })
}

/// Imports a text for m, n and start word, or with an unknown start or a second port, into lists of these lengths.
pub fn import(
    text: &[u8],
    [m, n, word]: [u32; 3],
    unknown_start: u32,
    second_port: u32,
    rooms: [usize; 2],
) -> Answer<Netlist> {
    // SAFETY: each pointer and length are those of a live slice, and only the two lists are written to.
    delivered(rooms, |latches, gates| unsafe {
        marrubigai_import(
            text.as_ptr(),
            text.len(),
            m,
            n,
            word,
            unknown_start,
            second_port,
            latches.as_mut_ptr(),
            latches.len(),
            gates.as_mut_ptr(),
            gates.len(),
        )
    })
}

/// A line: its letter, its fields, and 1 where the start word is left out.
pub type Line = (u8, [u32; 3], u32);

/// What is answered of the line behind the first `line` lines, `None` where there is none, and the new line number.
pub fn next_line(file: &[u8], line: u32) -> (Answer<Option<Line>>, u32) {
    // SAFETY: the pointer and the length are those of a live slice.
    let reply = unsafe { marrubigai_next_line(file.as_ptr(), file.len(), line) };
    let fields = [reply.first, reply.second, reply.third];
    let found = (reply.letter, fields, reply.empty);
    let zeros = found == (0, [0; 3], 0);
    let found = answer(reply.number, reply.place, zeros, || match found.0 {
        0 if zeros => Ok(None),
        0 => Err("fields without a letter"),
        _ => Ok(Some(found)),
    });
    (found, reply.line)
}

/// No byte of any text, different at nearby indices.
fn unprinted(index: usize) -> u8 {
    128 | index as u8
}

pub fn put_header(variables: u32, clauses: u32, room: usize) -> Answer<Vec<u8>> {
    // SAFETY: pointer and length are those of the slice that `written_into` lends.
    written_into(room, unprinted, |out, room| unsafe {
        marrubigai_put_header(out, room, variables, clauses)
    })
}

pub fn put_clauses(numbers: &[i32], room: usize) -> Answer<Vec<u8>> {
    // SAFETY: each pointer and length are those of a live slice, and only `out` is written to.
    written_into(room, unprinted, |out, room| unsafe {
        marrubigai_put_clauses(out, room, numbers.as_ptr(), numbers.len())
    })
}

pub fn put_refusal(number: u32, place: u32, room: usize) -> Answer<Vec<u8>> {
    // SAFETY: pointer and length are those of the slice that `written_into` lends.
    written_into(room, unprinted, |out, room| unsafe {
        marrubigai_put_refusal(out, room, number, place)
    })
}

/// A number filled into the end of a slice of `room` bytes: the bytes filled.
pub fn put_number(number: i32, room: usize) -> Answer<Vec<u8>> {
    let mut out = Lent::new(room, unprinted);
    let slice = out.slice();
    // SAFETY: pointer and length are those of a live slice.
    let reply = unsafe { marrubigai_put_number(slice.as_mut_ptr(), slice.len(), number) };
    let bytes = out
        .filled(reply.count, unprinted)
        .ok_or("something before the count, or a count above the room")?;
    answer(reply.number, reply.place, reply.count == 0, || Ok(bytes))
}

fn netlist_of(net: Record, latches: &[LatchRecord], gates: &[GateRecord]) -> Netlist {
    Netlist {
        inputs: net.inputs,
        latch_count: net.latches,
        gate_count: net.gates,
        address_width: net.m,
        data_width: net.n,
        start_word: net.initial_word,
        unknown_start: net.unknown_start,
        two_ports: net.second_port,
        address: net.address.map(|code| code.0),
        write_data: net.write_data.map(|code| code.0),
        write_enable: net.we.0,
        read_enable: net.re.0,
        property: net.p.0,
        second_address: net.address2.map(|code| code.0),
        second_read_enable: net.re2.0,
        latches: latches
            .iter()
            .map(|latch| Latch {
                next: latch.next.0,
                reset: latch.reset,
            })
            .collect(),
        gates: gates
            .iter()
            .map(|gate| Gate {
                left: gate.left.0,
                right: gate.right.0,
            })
            .collect(),
    }
}
