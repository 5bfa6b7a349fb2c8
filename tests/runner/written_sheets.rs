//! Sheets written back (K9) through the static library: the bytes, the length, what is left untouched, and the order of the tests; that a sheet
//! which is read is written as it was, and one that is written is read as the record.

use super::calls::{differ, record_rows};
use super::rows::sheet_rows;
use super::exports::{read, Answer, Lists};
use super::mutate::{netlist, wide, LIMITS};
use super::reference::check_examples::{accepted, FULL_RUN, RICH};
use super::reference::check_ports::TWO_RICH;
use super::reference::check_position::change_unused;
use super::reference::check_refusals::{verdict, ACCEPTED};
use super::reference::netlist::{Gate, Netlist};
use super::reference::random::{damaged_record, damaged_sheet, tie, Random};
use super::reference::sheet::{read_sheet, write_back, write_sheet, MAX_SHEET_BYTES};
use super::reference::Tally;
use super::{Counts, Library};

impl Library {
    /// What the call answers; counted.
    fn sheet_of(&self, netlist: &Netlist, room: usize) -> Answer<Vec<u8>> {
        let found = Lists::new(netlist).write_sheet(room);
        Counts::add(&self.sheets, &found);
        found
    }

    /// One check: the bytes that the second implementation writes, or its refusal.
    pub fn sheet_agrees(&self, tally: &mut Tally, netlist: &Netlist, room: usize) {
        let (found, due) = (self.sheet_of(netlist, room), Ok(write_back(netlist, room)));
        tally.check_with(room, found == due, || differ(netlist, &found, &due));
    }
}

/// Every accepted sheet of the tables comes back byte for byte; every record of the table of records.
pub fn tables(library: &Library, tally: &mut Tally) {
    for (name, sheet, expected) in sheet_rows() {
        if expected != ACCEPTED {
            continue;
        }
        let netlist = read_sheet(&sheet, 600, 600).expect("an accepted sheet");
        let need = sheet.len();
        tally.check(&name, library.sheet_of(&netlist, need) == Ok(Ok(sheet)));
        for room in [0, 1, need - 32, need - 1, need, need + 1, need + 100] {
            library.sheet_agrees(tally, &netlist, room);
        }
    }
    // nine lines of `RICH`, twelve of `TWO_RICH`
    for (name, record, expected) in record_rows() {
        for room in [0, 287, 288, 383, 384, 600] {
            library.sheet_agrees(tally, &record, room);
        }
        if expected != ACCEPTED {
            let found = library.sheet_of(&record, 0).map(verdict);
            tally.equal(name, found, Ok(expected));
        }
    }
}

/// Read what was written and write what was read: the same record in all used entries, the same bytes.
pub fn round_trips(library: &Library, tally: &mut Tally) {
    let mut random = Random::new(1301);
    let [mut unknown, mut two_ports] = [0; 2];
    for round in 0..4_000 {
        let netlist = if round % 4 == 0 {
            wide(&mut random)
        } else {
            netlist(&mut random)
        };
        unknown += usize::from(netlist.has_unknown_start());
        two_ports += usize::from(netlist.has_two_ports());
        let mut record = netlist.clone();
        change_unused(&mut random, &mut record);
        let sheet = write_sheet(&netlist);
        let need = sheet.len();
        let written = library.sheet_of(&record, need);
        tally.check((round, "written"), written == Ok(Ok(sheet.clone())));
        let read = read(&sheet, netlist.latches.len(), netlist.gates.len());
        tally.check((round, "read"), read == Ok(Ok(netlist.clone())));
        let again = read.map(|it| it.map(|netlist| library.sheet_of(&netlist, MAX_SHEET_BYTES)));
        tally.check((round, "written again"), again == Ok(Ok(Ok(Ok(sheet)))));
        for room in [0, need - 1, need + 1, random.index(need)] {
            library.sheet_agrees(tally, &record, room);
        }
        let mut damaged = damaged_record(&mut random, &record);
        match random.below(5) {
            0 => damaged.unknown_start = random.pick(&LIMITS),
            1 => damaged.start_word = random.pick(&LIMITS),
            2 => tie(&mut random, &mut damaged),
            3 => damaged.two_ports = random.pick(&LIMITS),
            _ => damaged.latch_count = random.pick(&LIMITS),
        }
        for room in [0, need, MAX_SHEET_BYTES] {
            library.sheet_agrees(tally, &damaged, room);
        }
    }
    tally.check(("unknown starts", unknown), unknown >= 200);
    tally.check(("second ports", two_ports), two_ports >= 1_000);
}

/// Sheets with a change or two: those that are still accepted are written as they were.
pub fn damaged_sheets(library: &Library, tally: &mut Tally) {
    let mut random = Random::new(1302);
    let mut accepted = 0;
    for round in 0..8_000 {
        let netlist = wide(&mut random);
        let sheet = damaged_sheet(&mut random, &write_sheet(&netlist));
        if let Ok(Ok(found)) = read(&sheet, 600, 600) {
            accepted += 1;
            let written = library.sheet_of(&found, sheet.len());
            tally.check_with((round, "written"), written == Ok(Ok(sheet)), || {
                format!(": {found:?}")
            });
        }
    }
    tally.check(("still accepted", accepted), accepted >= 300);
}

/// Buffers of every length around the need, of a small sheet, a middling one and the largest.
pub fn rooms(library: &Library, tally: &mut Tally) {
    let [one, two] = [0, 1].map(|two_ports| Netlist {
        gate_count: 599 - two_ports,
        address_width: 12,
        data_width: 1,
        two_ports,
        gates: vec![Gate { left: 2, right: 2 }; 599],
        ..Netlist::default()
    });
    tally.equal(
        "the longest of all",
        write_sheet(&two).len(),
        MAX_SHEET_BYTES,
    );
    let small = [FULL_RUN, RICH, TWO_RICH].map(accepted);
    for netlist in small.into_iter().chain([one, two]) {
        let need = write_sheet(&netlist).len();
        for room in (0..34).chain(need.saturating_sub(40)..need + 40) {
            library.sheet_agrees(tally, &netlist, room);
        }
    }
}
