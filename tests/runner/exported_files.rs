//! Records exported as binary AIGER (K14) through the static library: the bytes, the length, what is left untouched, and the order of the tests;
//! from texts that are imported too. What a file means, the second implementation decodes.

use super::calls::{differ, record_rows};
use super::rows::sheet_rows;
use super::exports::{import, Answer, Lists};
use super::mutate::{netlist, wide, LIMITS};
use super::reference::aiger_binary::decode;
use super::reference::check_examples::accepted;
use super::reference::check_position::change_unused;
use super::reference::check_refusals::ACCEPTED;
use super::reference::export::export;
use super::reference::netlist::Netlist;
use super::reference::random::{damaged_record, tie, Random};
use super::reference::random_aiger::{draft_of, text_netlist, NUMBERINGS};
use super::reference::sheet::read_sheet;
use super::reference::Tally;
use super::{Counts, Library};

/// No file is longer.
const MOST_BYTES: usize = 3_095;

impl Library {
    /// What the call answers; counted.
    fn file_of(&self, netlist: &Netlist, room: usize) -> Answer<Vec<u8>> {
        let found = Lists::new(netlist).export(room);
        Counts::add(&self.exports, &found);
        found
    }

    /// One check: the bytes that the second implementation writes, or its refusal.
    pub fn export_agrees(&self, tally: &mut Tally, netlist: &Netlist, room: usize) {
        let (found, due) = (self.file_of(netlist, room), Ok(export(netlist, room)));
        tally.check_with(room, found == due, || differ(netlist, &found, &due));
    }
}

/// With reset 0 everywhere, and mostly one port.
fn exportable(random: &mut Random, netlist: &mut Netlist) {
    for latch in &mut netlist.latches {
        latch.reset = 0;
    }
    if random.percent(80) && netlist.has_two_ports() {
        *netlist = text_netlist(random);
    }
}

/// Files worked out by hand: sheets in short form, their lines, `/` for a line feed, and their differences.
#[rustfmt::skip]
const FILES: [(&str, &str, &[u8]); 6] = [
    ("N 1 0 0/M 1 1 0/A 0/D 2/C 1 1 5", "aig 2 2 0 5 0/0/2/1/1/5/", &[]),
    // latch 2 becomes 3, the read bit 3 becomes 2: of the gate's codes the latch's is the larger in the file
    ("N 1 1 1/M 1 1 0/L 8 0/G 4 6/A 2/D 8/C 9 5 7", "aig 4 2 1 5 1/8/2/8/9/7/5/", &[2, 2]),
    // equal codes: the second difference is one byte, 0
    ("N 1 1 1/M 1 1 0/L 8 0/G 4 4/A 2/D 8/C 9 5 7", "aig 4 2 1 5 1/8/2/8/9/7/5/", &[2, 0]),
    // constants: the first difference is 2 x 64, of two bytes, or 127, of one
    ("N 62 0 1/M 1 1 0/G 0 0/A 0/D 0/C 0 0 128", "aig 64 63 0 5 1/0/0/0/0/128/", &[0x80, 1, 0]),
    ("N 62 0 1/M 1 1 0/G 0 1/A 0/D 0/C 0 0 128", "aig 64 63 0 5 1/0/0/0/0/128/", &[0x7F, 1]),
    ("N 63 0 1/M 1 1/G 0 128/A 0/D 0/C 0 0 131", "aig 65 64 0 5 1/0/0/0/0/131/", &[2, 0x80, 1]),
];

/// Every record of the tables, and the accepted sheets, with rooms around the need.
pub fn tables(library: &Library, tally: &mut Tally) {
    for (short, lines, differences) in FILES {
        let file = [lines.replace('/', "\n").as_bytes(), differences].concat();
        let found = library.file_of(&accepted(short), file.len());
        tally.equal(short, found, Ok(Ok(file)));
    }
    let sheets = sheet_rows().into_iter();
    let read = sheets.filter(|(_, _, expected)| *expected == ACCEPTED).map(|(_, sheet, _)| {
        read_sheet(&sheet, 600, 600).expect("an accepted sheet")
    });
    let records = record_rows().into_iter().map(|(_, record, _)| record);
    for mut netlist in read.chain(records) {
        library.export_agrees(tally, &netlist, MOST_BYTES);
        library.export_agrees(tally, &netlist, 0);
        for latch in &mut netlist.latches {
            latch.reset = 0;
        }
        let need = export(&netlist, MOST_BYTES).map_or(0, |file| file.len());
        for room in [0, 1, need.saturating_sub(1), need, need + 1, need + 100] {
            library.export_agrees(tally, &netlist, room);
        }
    }
}

/// Random records, sound and damaged, with entries past the sizes changed.
pub fn random_records(library: &Library, tally: &mut Tally) {
    let mut random = Random::new(1401);
    let [mut gates, mut longest] = [0; 2];
    for round in 0..4_000 {
        let mut netlist = if round % 4 == 0 {
            wide(&mut random)
        } else {
            netlist(&mut random)
        };
        if random.percent(85) {
            exportable(&mut random, &mut netlist);
        }
        let mut record = netlist.clone();
        change_unused(&mut random, &mut record);
        let file = export(&netlist, usize::MAX).unwrap_or_default();
        if let Some(decoded) = decode(&file) {
            gates += decoded.gates.len();
        }
        longest = longest.max(file.len());
        for room in [file.len(), file.len().saturating_sub(1), random.index(file.len() + 2), MOST_BYTES] {
            library.export_agrees(tally, &record, room);
        }
        let mut damaged = damaged_record(&mut random, &record);
        match random.below(5) {
            0 => damaged.unknown_start = random.pick(&LIMITS),
            1 => damaged.two_ports = random.pick(&LIMITS),
            2 => tie(&mut random, &mut damaged),
            3 => damaged.latch_count = random.pick(&LIMITS),
            _ => {
                let at = random.index(damaged.latches.len().max(1));
                if let Some(latch) = damaged.latches.get_mut(at) {
                    latch.reset = random.pick(&[1, 1, 1, 2, u32::MAX]);
                }
            }
        }
        for room in [0, MOST_BYTES] {
            library.export_agrees(tally, &damaged, room);
        }
    }
    tally.check(("gates", gates), gates >= 10_000);
    tally.remark = format!(" ({gates} gates, the longest file has {longest} bytes)");
}

/// Texts of every numbering, imported and then exported: one file for all of them.
pub fn texts(library: &Library, tally: &mut Tally) {
    let mut random = Random::new(1402);
    for round in 0..500 {
        let netlist = text_netlist(&mut random);
        let due = export(&netlist, usize::MAX);
        for numbering in NUMBERINGS {
            let call = draft_of(&mut random, &netlist, numbering).call();
            let imported = import(&call.text, call.memory, call.unknown_start, 0, call.rooms);
            let found = imported.map(|it| it.map(|record| library.file_of(&record, MOST_BYTES)));
            tally.check((round, numbering), found == Ok(Ok(Ok(due.clone()))));
        }
    }
}
