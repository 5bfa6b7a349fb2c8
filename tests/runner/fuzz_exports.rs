//! Hostile calls of the exported functions, each compared with the second implementation.

use super::exports::Numbers;
use super::mutate::{change_bytes, draft, netlist, sheet, unused, LIMITS};
use super::reference::answer_calls::{marks, Call as ReplayCall};
use super::reference::netlist::{Gate, Latch, Netlist};
use super::reference::random::{
    damaged_record, tie, tiny_netlist, tiny_two_ports, wide_netlist, wide_two_ports, Random,
};
use super::reference::random_aiger::{damaged_call, draft_of, Call as ImportCall, Numbering};
use super::reference::random_answers::{written, written_unsatisfiable, CALL_FAULTS};
use super::reference::sheet::write_sheet;
use super::reference::Tally;
use super::{calls, literals, positions, prints, Library};

/// A record with its lists, with up to three of its numbers replaced and its lists lengthened or cut.
fn record(random: &mut Random) -> Netlist {
    let mut record = netlist(random);
    for _ in 0..random.below(4) {
        let number = random.pick(&LIMITS);
        let entry = match random.below(18) {
            0 => &mut record.inputs,
            1 => &mut record.latch_count,
            2 => &mut record.gate_count,
            3 => &mut record.address_width,
            4 => &mut record.data_width,
            5 => &mut record.start_word,
            6 => &mut record.write_enable,
            7 => &mut record.property,
            // These two may stand past the widths, where they do not count.
            8 => &mut record.address[random.index(12)],
            9 => &mut record.write_data[random.index(32)],
            10 if record.address_width <= 12 && record.address_width > 0 && fits(&record) => {
                record = damaged_record(random, &record);
                continue;
            }
            11 => &mut record.unknown_start,
            12 if (2..=12).contains(&record.address_width) => {
                tie(random, &mut record);
                continue;
            }
            13 => &mut record.second_read_enable,
            // Of an M record it does not count at all.
            14 => &mut record.second_address[random.index(12)],
            15 => {
                record.two_ports = random.pick(&[0, 1, 2, u32::MAX]);
                continue;
            }
            _ => {
                change_lists(random, &mut record);
                continue;
            }
        };
        *entry = number;
    }
    record
}

/// Whether the sizes are small enough to be added up.
fn fits(record: &Netlist) -> bool {
    [
        record.inputs,
        record.latch_count,
        record.gate_count,
        record.data_width,
    ]
    .iter()
    .all(|size| *size <= 601)
}

fn change_lists(random: &mut Random, record: &mut Netlist) {
    let number = random.pick(&LIMITS);
    match random.below(4) {
        0 => drop(record.latches.pop()),
        1 => drop(record.gates.pop()),
        2 => record.latches.push(Latch {
            next: number,
            reset: number,
        }),
        _ => record.gates.push(Gate {
            left: number,
            right: number,
        }),
    }
}

/// Numbers for depths, kinds and frames: mostly small, so that a call is often not refused.
fn small_or_limit(random: &mut Random) -> u32 {
    if random.percent(92) {
        random.below(5)
    } else {
        random.pick(&[
            254,
            255,
            256,
            257,
            65_536,
            i32::MAX as u32,
            u32::MAX - 1,
            u32::MAX,
        ])
    }
}

/// A port, or a number of ports: mostly one that there is, or may be.
fn port(random: &mut Random) -> u32 {
    random.pick(&[1, 1, 1, 2, 2, 2, 0, 3, u32::MAX])
}

/// The numbers of a group: kind, j, i and port.
fn group(random: &mut Random) -> Numbers {
    let mut number = || small_or_limit(random);
    let (kind, j, i) = (number(), number(), number());
    (kind, j, i, port(random))
}

/// A length of a lent slice or list: around what small records need, none, or more than any needs.
fn room(random: &mut Random) -> usize {
    let some = random.index(130);
    random.pick(&[some, some, some, 0, 1, 600, 6_000])
}

/// An import with hostile bytes, m, n, start word, flag or lists, or several of these, or none.
fn import_call(random: &mut Random) -> ImportCall {
    let mut call = if random.percent(20) {
        damaged_call(random)
    } else {
        let mut netlist = match random.below(20) {
            0 => wide_netlist(random),
            1 => wide_two_ports(random),
            2..=8 => tiny_two_ports(random),
            _ => tiny_netlist(random),
        };
        for latch in &mut netlist.latches {
            latch.reset = 0;
        }
        let numbering = random.pick(&[Numbering::InOrder, Numbering::Shuffled]);
        draft_of(random, &netlist, numbering).call()
    };
    match random.below(10) {
        9 => call.second_port = random.pick(&[0, 1, 1, 2, u32::MAX]),
        0 => call.memory[random.index(3)] = random.pick(&LIMITS),
        1 => call.memory[random.index(3)] = random.below(4),
        2 => call.rooms[random.index(2)] = room(random),
        7 => call.unknown_start = random.pick(&[0, 1, 1, 2, u32::MAX]),
        3 => change_header(random, &mut call.text),
        4 => {
            call.text = (0..random.below(40))
                .map(|_| random.below(256) as u8)
                .collect()
        }
        5 | 6 => change_bytes(random, &mut call.text),
        _ => {}
    }
    call
}

/// A replay of a sound call or of one with faults in any part of it, or of parts that have nothing to do with each other.
fn replay_call(random: &mut Random) -> ReplayCall {
    let draft = draft(random);
    let mut answer = if random.percent(85) {
        written(random, &draft.numbers)
    } else {
        written_unsatisfiable(random)
    };
    if random.percent(40) {
        change_bytes(random, &mut answer);
    }
    if random.percent(20) {
        let (memory, trace) = marks(room(random), room(random));
        return ReplayCall {
            netlist: record(random),
            depth: small_or_limit(random),
            answer,
            memory,
            trace,
        };
    }
    let mut call = draft.call(random, answer);
    // in the tests' order from the last on: each relies on what those before it damage
    for (_, fault) in CALL_FAULTS.iter().rev() {
        if random.percent(7) {
            fault(random, &mut call);
        }
    }
    call
}

/// One number of the first line replaced, where there is one.
fn change_header(random: &mut Random, text: &mut Vec<u8>) {
    let end = text
        .iter()
        .position(|byte| *byte == b'\n')
        .unwrap_or(text.len());
    let mut words: Vec<Vec<u8>> = text[..end]
        .split(|byte| *byte == b' ')
        .map(<[u8]>::to_vec)
        .collect();
    let at = random.index(words.len());
    words[at] = random.pick(&LIMITS).to_string().into_bytes();
    drop(text.splice(..end, words.join(&b' ')));
}

pub fn calls(library: &Library, tally: &mut Tally, seed: u64, count: usize) {
    let mut random = Random::new(seed);
    for _ in 0..count {
        match random.below(20) {
            0 => {
                let file = sheet(&mut random);
                let line = small_or_limit(&mut random);
                library.line_agrees(tally, &file, line);
            }
            1 => prints::any(library, tally, &mut random),
            2..=4 => {
                let file = sheet(&mut random);
                let (few, many) = (random.index(4), random.index(601));
                let rooms = [0, few, few, many, 600];
                library.read_agrees(tally, &file, random.pick(&rooms), random.pick(&rooms));
            }
            5..=8 => {
                let netlist = record(&mut random);
                let depth = small_or_limit(&mut random);
                let of = group(&mut random);
                library.group_agrees(tally, &netlist, depth, of, room(&mut random));
            }
            9 | 10 => {
                let call = import_call(&mut random);
                library.import_agrees(tally, "hostile", &call);
            }
            11 => {
                let call = replay_call(&mut random);
                library.replay_agrees(tally, "hostile replay", &call);
            }
            12 => {
                let netlist = record(&mut random);
                let room = 32 * room(&mut random);
                library.sheet_agrees(tally, &netlist, room);
            }
            13 => drop(positions::any(library, tally, &mut random)),
            14 => {
                let netlist = record(&mut random);
                literals::any(library, tally, &mut random, &netlist);
            }
            15 => {
                let mut netlist = record(&mut random);
                if random.percent(20) {
                    netlist.read_enable = random.pick(&LIMITS);
                }
                let depth = small_or_limit(&mut random);
                library.source_agrees(tally, &netlist, depth, group(&mut random));
            }
            16 => {
                let (depth, ports) = (random.below(6), port(&mut random));
                let of = group(&mut random);
                calls::order_agrees(tally, &calls::order_of(depth, ports), depth, ports, of);
            }
            17 => {
                let file = if random.percent(60) {
                    sheet(&mut random)
                } else {
                    write_sheet(&unused(tiny_two_ports(&mut random)))
                };
                library.conversion_agrees(tally, &file, 32 * room(&mut random));
            }
            18 => {
                let mut netlist = record(&mut random);
                if random.percent(70) {
                    netlist.latches.iter_mut().for_each(|latch| latch.reset = 0);
                }
                library.export_agrees(tally, &netlist, room(&mut random));
            }
            _ => {
                let netlist = record(&mut random);
                library.heading_agrees(tally, &netlist, small_or_limit(&mut random));
            }
        }
    }
}
