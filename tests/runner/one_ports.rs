//! Sheets with two ports converted to one (K11) through the static library: the bytes, the length, what is left untouched, the order of the
//! tests; the runs of both sheets stepped side by side, and the clauses of both solved.

use super::calls::{differ, order_of};
use super::rows::sheet_rows;
use super::exports::{one_port as call, parameters, read, Answer, Lists};
use super::mutate::{netlist, sheet, unused, wide};
use super::reference::check_refusals::{verdict, Verdict};
use super::reference::circuit::{value, Circuit, Feed};
use super::reference::netlist::{Gate, Netlist, SECOND_PORT};
use super::reference::one_port::one_port;
use super::reference::random::{damaged_sheet, random_feeds, tiny_two_ports, wide_two_ports, Random};
use super::reference::refusal::{MEMORY_LOOP, SECOND_PORT_USED};
use super::reference::sheet::{expand, write_sheet, FIELD_BYTES, LINE_BYTES, MAX_SHEET_BYTES};
use super::reference::solver::Solver;
use super::reference::Tally;
use super::{Counts, Library};

impl Library {
    /// What the call answers; counted.
    fn converted(&self, sheet: &[u8], room: usize) -> Answer<Vec<u8>> {
        let found = call(sheet, room);
        Counts::add(&self.one_ports, &found);
        found
    }

    /// One check: the bytes that the second implementation writes, or its refusal.
    pub fn conversion_agrees(&self, tally: &mut Tally, sheet: &[u8], room: usize) {
        let (found, due) = (self.converted(sheet, room), Ok(one_port(sheet, room)));
        let shown = String::from_utf8_lossy(sheet);
        tally.check_with(room, found == due, || differ(shown, &found, &due));
    }
}

/// Sheets and what they become, by hand: a sheet, and either another or a refusal. Wires of the first: input 1, latch 2, read bits 3 and 4, second
/// read bits 5 and 6, gates 7 and 8.
#[rustfmt::skip]
const BY_HAND: [(&str, Result<&str, Verdict>); 14] = [
    ("N 1 1 2/T 2 2 1/L 16 1/G 14 9/G 15 2/A 4/A 2/D 14/D 8/B 3/B 5/R 0/C 17 5 16", Err((5, 4))),
    ("N 1 1 2/T 2 2 1/L 16 1/G 2 9/G 15 2/A 4/A 2/D 14/D 8/B 3/B 5/R 0/C 17 5 16",
     Ok("N 1 1 2/M 2 2 1/L 12 1/G 2 9/G 11 2/A 4/A 2/D 10/D 8/C 13 5 12")),
    ("N 0 0 0/T 1 1 0/A 0/D 0/B 1/R 0/C 0 0 0", Ok("N 0 0 0/M 1 1 0/A 0/D 0/C 0 0 0")),
    ("N 0 0 1/T 1 3 5/G 6 7/A 1/D 14/D 15/D 6/B 0/R 0/C 7 0 14", Ok("N 0 0 1/M 1 3 5/G 6 7/A 1/D 8/D 9/D 6/C 7 0 8")),
    ("N 1 0 0/M 1 1 0/A 0/D 2/C 1 1 5", Ok("N 1 0 0/M 1 1 0/A 0/D 2/C 1 1 5")),
    ("N 1 0 0/M 1 1/A 0/D 2/C 1 1 5", Ok("N 1 0 0/M 1 1/A 0/D 2/C 1 1 5")),
    // the second port reads: always, by an input, by a gate that is always false
    ("N 1 0 0/T 1 1 0/A 0/D 2/B 0/R 1/C 1 1 5", Err((18, 6))),
    ("N 1 0 0/T 1 1 0/A 0/D 2/B 0/R 2/C 1 1 5", Err((18, 6))),
    ("N 1 0 1/T 1 1 0/G 2 3/A 0/D 2/B 0/R 8/C 1 1 5", Err((18, 7))),
    // a code of its read bit, wire 3: in the property, in a gate that nothing uses
    ("N 1 0 0/T 1 1 0/A 0/D 2/B 0/R 0/C 1 1 7", Err((18, 7))),
    ("N 1 0 1/T 1 1 0/G 6 2/A 0/D 2/B 0/R 0/C 1 1 5", Err((18, 3))),
    // all tests of the sheet come before: a loop, a tie, a code
    ("N 1 1 0/T 1 1 0/L 8 0/A 2/D 8/B 8/R 1/C 8 1 8", Err((6, 6))),
    ("N 2 0 0/T 2 1 0/A 2/A 4/D 8/B 2/B 2/R 1/C 8 1 8", Err((17, 7))),
    ("N 1 1 0/T 1 1 0/L 8 0/A 2/D 8/B 2/R 1/C 8 1 10", Err((5, 8))),
];

pub fn by_hand(library: &Library, tally: &mut Tally) {
    for (short, due) in BY_HAND {
        let sheet = expand(short);
        let found = library.converted(&sheet, MAX_SHEET_BYTES);
        match due {
            Ok(one) => {
                let bytes = expand(one);
                tally.check(short, found == Ok(Ok(bytes.clone())));
                let short_room = library.converted(&sheet, bytes.len() - 1).map(verdict);
                tally.equal((short, "one byte short"), short_room, Ok((9, 0)));
            }
            Err(refusal) => {
                tally.equal(short, found.map(verdict), Ok(refusal));
                tally.equal((short, "no room"), library.converted(&sheet, 0).map(verdict), Ok(refusal));
            }
        }
    }
}

/// Every sheet of the tables of refusals, with rooms around the need.
pub fn tables(library: &Library, tally: &mut Tally) {
    for (_, sheet, _) in sheet_rows() {
        let need = one_port(&sheet, usize::MAX).map_or(sheet.len(), |it| it.len());
        for room in [0, 1, need.saturating_sub(1), need, need + 1, need + 100] {
            library.conversion_agrees(tally, &sheet, room);
        }
    }
}

fn random_unused(random: &mut Random, round: usize) -> Netlist {
    unused(if round % 4 == 0 { wide_two_ports(random) } else { tiny_two_ports(random) })
}

/// How many of its fields are codes, by the letter of a line.
fn codes_of(letter: u8) -> usize {
    match letter {
        b'N' | b'M' | b'T' => 0,
        b'G' => 2,
        b'C' => 3,
        _ => 1,
    }
}

/// Sheets whose second port nothing uses, the same with each single use, and those that come as they come.
pub fn random_sheets(library: &Library, tally: &mut Tally) {
    let mut random = Random::new(1801);
    let [mut converted, mut uses] = [0; 2];
    for round in 0..1_500 {
        let two = random_unused(&mut random, round);
        let sheet = write_sheet(&two);
        let need = sheet.len() - (two.address_width as usize + 1) * LINE_BYTES;
        converted += usize::from(library.converted(&sheet, need).map(|it| it.is_ok()) == Ok(true));
        for room in [0, need - 1, need, need + 33] {
            library.conversion_agrees(tally, &sheet, room);
        }
        let second = two.read_bits(SECOND_PORT);
        // a read bit of the second port in each place of a code: 18 there, unless an address or an RE depends on it then
        for at in 0..sheet.len() / LINE_BYTES {
            if round % 4 == 0 && random.percent(90) {
                continue;
            }
            for field in 0..codes_of(sheet[at * LINE_BYTES]) {
                let code = 2 * random.between(second.start, second.end - 1) + random.below(2);
                let mut used = sheet.clone();
                let from = at * LINE_BYTES + 1 + field * FIELD_BYTES;
                used[from..from + FIELD_BYTES].copy_from_slice(format!("{code:>FIELD_BYTES$}").as_bytes());
                let found = library.converted(&used, MAX_SHEET_BYTES).map(verdict);
                let due = found == Ok((SECOND_PORT_USED, at as u32 + 1)) || matches!(found, Ok((MEMORY_LOOP, _)));
                tally.check((round, at, field, &found), due);
                uses += 1;
                library.conversion_agrees(tally, &used, MAX_SHEET_BYTES);
            }
        }
        let other = write_sheet(&netlist(&mut random));
        library.conversion_agrees(tally, &other, random.index(other.len() + 40));
        library.conversion_agrees(tally, &other, other.len());
        let damaged = damaged_sheet(&mut random, &sheet);
        library.conversion_agrees(tally, &damaged, MAX_SHEET_BYTES);
    }
    tally.equal("all are converted", converted, 1_500);
    tally.remark = format!(" ({converted} converted, {uses} single uses)");
}

/// Sheets with one port pass byte for byte, as do those that the conversion has written; any bytes at all.
pub fn unchanged(library: &Library, tally: &mut Tally) {
    let mut random = Random::new(1802);
    for round in 0..3_000 {
        let one = wide(&mut random);
        let bytes = write_sheet(&one);
        if !one.has_two_ports() {
            let found = library.converted(&bytes, bytes.len());
            tally.check((round, "as it is"), found == Ok(Ok(bytes.clone())));
            let short = library.converted(&bytes, bytes.len() - 1).map(verdict);
            tally.equal((round, "short"), short, Ok((9, 0)));
        }
        if let Ok(Ok(once)) = library.converted(&write_sheet(&random_unused(&mut random, round)), MAX_SHEET_BYTES) {
            let twice = library.converted(&once, once.len());
            tally.check((round, "twice"), twice == Ok(Ok(once)));
        }
        library.conversion_agrees(tally, &sheet(&mut random), random.index(2_000));
    }
}

/// Buffers of every length around the need, of small sheets and the longest.
pub fn rooms(library: &Library, tally: &mut Tally) {
    let longest = Netlist {
        gate_count: 598,
        address_width: 12,
        data_width: 1,
        two_ports: 1,
        gates: vec![Gate { left: 2, right: 2 }; 598],
        ..Netlist::default()
    };
    let mut sheets = vec![write_sheet(&longest)];
    sheets.extend(BY_HAND.iter().filter(|(_, due)| due.is_ok()).map(|(short, _)| expand(short)));
    tally.equal("the longest of all", sheets[0].len(), MAX_SHEET_BYTES);
    for sheet in sheets {
        let need = one_port(&sheet, usize::MAX).expect("converted").len();
        for room in (0..34).chain(need - 40..need + 40) {
            library.conversion_agrees(tally, &sheet, room);
        }
    }
}

/// A sheet with two ports, and the record that is read of what it is converted to, all by the library.
fn both(library: &Library, random: &mut Random, round: usize) -> (Netlist, Netlist) {
    let two = random_unused(random, round);
    let bytes = library.converted(&write_sheet(&two), MAX_SHEET_BYTES);
    let bytes = bytes.expect("guards that stay").expect("a sheet that is converted");
    let one = read(&bytes, 600, 600).expect("guards that stay").expect("a sheet that is read");
    (two, one)
}

/// Both chips stepped side by side: in each frame the same values on the wires that both have, and the property broken alike. What the second port
/// is fed does not show.
pub fn runs(library: &Library, tally: &mut Tally) {
    let mut random = Random::new(1803);
    let [mut frames, mut broken] = [0; 2];
    for round in 0..1_500 {
        let (two, one) = both(library, &mut random, round);
        let second = two.read_bits(SECOND_PORT);
        let shared: Vec<usize> = (0..=two.wire_count()).filter(|wire| !second.contains(wire)).map(|wire| wire as usize).collect();
        let depth = random.pick(&[0, 1, 4, 12]);
        let feeds = random_feeds(&mut random, &two, depth);
        let (mut of_two, mut of_one) = (Circuit::new(&two), Circuit::new(&one));
        for (frame, feed) in feeds.iter().enumerate() {
            let values = of_two.step(feed);
            let one_values = of_one.step(&Feed::new(feed.inputs.clone(), feed.idle_word));
            let seen: Vec<bool> = shared.iter().map(|wire| values[*wire]).collect();
            tally.check((round, frame, "wires"), seen == one_values);
            let holds = value(&values, two.property);
            tally.check((round, frame, "property"), holds == value(&one_values, one.property));
            frames += 1;
            broken += usize::from(!holds);
        }
    }
    tally.check(("frames that break it", broken), broken >= 500 && broken < frames);
    tally.remark = format!(" ({frames} frames, {broken} break the property)");
}

/// The numbers of a depth, by the library's group calls.
fn numbers(netlist: &Netlist, depth: u32) -> Vec<i32> {
    let lists = Lists::new(netlist);
    let groups = order_of(depth, netlist.two_ports + 1);
    let written = groups.into_iter().map(|group| lists.write_group(depth, parameters(group), 5_992));
    written.flat_map(|it| it.expect("guards that stay").expect("a group")).collect()
}

/// Whether an assignment makes all clauses of a depth true.
fn satisfiable(netlist: &Netlist, depth: u32) -> bool {
    let lists = Lists::new(netlist);
    let (variables, _) = lists.heading(depth).expect("guards that stay").expect("a heading");
    let mut found = false;
    Solver::new(variables as usize, &numbers(netlist, depth)).models(&mut |_| found = true);
    found
}

/// The clauses of both, solved: some run breaks the property up to a depth of one exactly where one does of the other.
pub fn clauses(library: &Library, tally: &mut Tally) {
    let mut random = Random::new(1804);
    let mut counts = [0; 2];
    for round in 0..400 {
        let (two, one) = both(library, &mut random, 4 * round + 1);
        let depth = random.below(3);
        let found = satisfiable(&two, depth);
        tally.equal((round, depth), satisfiable(&one, depth), found);
        counts[usize::from(found)] += 1;
    }
    tally.check(("both kinds", counts), counts.iter().all(|count| *count >= 50));
    tally.remark = format!(" ({} satisfiable, {} not)", counts[1], counts[0]);
}
