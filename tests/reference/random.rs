//! Deterministic random netlists, feeds and damaged sheets.

use super::circuit::Feed;
use super::netlist::{
    Gate, Latch, Netlist, FIRST_PORT, MAX_ADDRESS_WIDTH, MAX_DATA_WIDTH, MAX_WIRES, SECOND_PORT,
};
use super::sheet::{FIELDS, FIELD_BYTES, LINE_BYTES};

/// How many of a hundred random netlists have an unknown start.
const UNKNOWN_STARTS: u32 = 35;

/// SplitMix64.
pub struct Random(u64);

impl Random {
    pub fn new(seed: u64) -> Random {
        Random(seed)
    }

    pub fn next(&mut self) -> u64 {
        self.0 = self.0.wrapping_add(0x9E37_79B9_7F4A_7C15);
        let mut mixed = self.0;
        mixed = (mixed ^ (mixed >> 30)).wrapping_mul(0xBF58_476D_1CE4_E5B9);
        mixed = (mixed ^ (mixed >> 27)).wrapping_mul(0x94D0_49BB_1331_11EB);
        mixed ^ (mixed >> 31)
    }

    /// A number below `bound`, which is not 0.
    pub fn below(&mut self, bound: u32) -> u32 {
        (self.next() % u64::from(bound)) as u32
    }

    pub fn between(&mut self, low: u32, high: u32) -> u32 {
        low + self.below(high - low + 1)
    }

    pub fn percent(&mut self, chance: u32) -> bool {
        self.below(100) < chance
    }

    pub fn pick<T: Copy>(&mut self, choices: &[T]) -> T {
        choices[self.below(choices.len() as u32) as usize]
    }

    /// An index into something of this length, which is not 0.
    pub fn index(&mut self, length: usize) -> usize {
        self.below(length as u32) as usize
    }
}

/// A netlist with one port, small enough for `agreement::compare`.
pub fn tiny_netlist(random: &mut Random) -> Netlist {
    tiny_netlist_of(random, 0)
}

/// The same with two ports.
pub fn tiny_two_ports(random: &mut Random) -> Netlist {
    tiny_netlist_of(random, 1)
}

fn tiny_netlist_of(random: &mut Random, two_ports: u32) -> Netlist {
    let sizes = Netlist {
        inputs: random.below(3),
        latch_count: random.below(3),
        gate_count: random.below(6),
        address_width: random.between(1, 2),
        data_width: random.between(1, 2),
        two_ports,
        ..Netlist::default()
    };
    let mut netlist = fill(random, sizes);
    enable_often(random, &mut netlist);
    // A constant P decides everything; an inverted gate is often true in all frames.
    if random.percent(if netlist.property < 2 { 80 } else { 40 }) {
        netlist.property = 2 * netlist.wire_count() + 1;
    }
    netlist
}

/// A netlist with one port, of any shape within the limits.
pub fn wide_netlist(random: &mut Random) -> Netlist {
    wide_netlist_of(random, 0)
}

/// The same with two ports.
pub fn wide_two_ports(random: &mut Random) -> Netlist {
    wide_netlist_of(random, 1)
}

fn wide_netlist_of(random: &mut Random, two_ports: u32) -> Netlist {
    let data_width = extreme_or_between(random, 1, MAX_DATA_WIDTH);
    let most = MAX_WIRES - (1 + two_ports) * data_width;
    let [inputs, latch_count, gate_count] = split_wires(random, most);
    let sizes = Netlist {
        inputs,
        latch_count,
        gate_count,
        address_width: extreme_or_between(random, 1, MAX_ADDRESS_WIDTH),
        data_width,
        two_ports,
        ..Netlist::default()
    };
    fill(random, sizes)
}

fn extreme_or_between(random: &mut Random, low: u32, high: u32) -> u32 {
    let any = random.between(low, high);
    random.pick(&[low, high, any, any])
}

/// Three counts that add up to at most `most`, often exactly; each is often 0.
fn split_wires(random: &mut Random, most: u32) -> [u32; 3] {
    let (any, few) = (random.below(most + 1), random.below(20));
    let total = random.pick(&[most, any, few, few]);
    let mut cuts = [random.below(total + 1), random.below(total + 1)];
    cuts.sort_unstable();
    let mut counts = [cuts[0], cuts[1] - cuts[0], total - cuts[1]];
    for _ in 0..random.below(3) {
        let (from, to) = (random.index(3), random.index(3));
        let moved = std::mem::take(&mut counts[from]);
        counts[to] += moved;
    }
    counts
}

/// Makes a netlist write, or read, in every frame, often: there the order of writes matters.
pub fn enable_often(random: &mut Random, netlist: &mut Netlist) {
    if random.percent(30) {
        netlist.write_enable = 1;
    }
    if random.percent(30) {
        netlist.read_enable = 1;
    }
    if netlist.has_two_ports() && random.percent(30) {
        netlist.second_read_enable = 1;
    }
}

/// Fills start, codes and lists of an empty netlist that has its sizes. `clean` collects the wires that
/// no read bit reaches (0 for the constants), from which address codes and RE are taken; no two address
/// bits of a port have the same wire.
pub fn fill(random: &mut Random, mut netlist: Netlist) -> Netlist {
    let mut clean: Vec<u32> = (0..netlist.first_read_bit()).collect();
    for index in 0..netlist.gate_count {
        let wire = netlist.first_gate() + index;
        let gate = random_gate(random, &clean, wire);
        if clean.contains(&(gate.left / 2)) && clean.contains(&(gate.right / 2)) {
            clean.push(wire);
        }
        netlist.gates.push(gate);
    }
    let wires = netlist.wire_count() + 1;
    for _ in 0..netlist.latch_count {
        let (next, reset) = (any_code(random, wires), random.below(2));
        netlist.latches.push(Latch { next, reset });
    }
    netlist.start_word = random_word(random, netlist.data_width);
    if !netlist.has_two_ports() && random.percent(UNKNOWN_STARTS) {
        (netlist.start_word, netlist.unknown_start) = (0, 1);
    }
    let address_width = netlist.address_width as usize;
    fill_address(random, &clean, &mut netlist.address[..address_width]);
    for code in &mut netlist.write_data[..netlist.data_width as usize] {
        *code = any_code(random, wires);
    }
    netlist.write_enable = any_code(random, wires);
    netlist.read_enable = clean_code(random, &clean);
    netlist.property = any_code(random, wires);
    if netlist.has_two_ports() {
        fill_address(random, &clean, &mut netlist.second_address[..address_width]);
        netlist.second_read_enable = clean_code(random, &clean);
        share_address(random, &mut netlist);
    }
    netlist
}

fn fill_address(random: &mut Random, clean: &[u32], codes: &mut [u32]) {
    let mut untied = clean.to_vec();
    for code in codes {
        *code = clean_code(random, &untied);
        untied.retain(|wire| *wire == 0 || *wire != *code / 2);
    }
}

/// Gives the second port the first port's address, often, or its RE, or one bit of the address: no tie,
/// and there both ports read one word.
fn share_address(random: &mut Random, netlist: &mut Netlist) {
    match random.below(10) {
        0..=2 => netlist.second_address = netlist.address,
        3 => netlist.second_read_enable = netlist.read_enable,
        4 => {
            (netlist.second_address, netlist.second_read_enable) =
                (netlist.address, netlist.read_enable)
        }
        5 => {
            let bit = random.index(netlist.address_width as usize);
            netlist.second_address = netlist.address;
            netlist.second_address[bit] ^= 1;
        }
        _ => {}
    }
}

fn random_gate(random: &mut Random, clean: &[u32], wire: u32) -> Gate {
    let all_clean = random.percent(40);
    let mut operand = || {
        if all_clean {
            clean_code(random, clean)
        } else {
            any_code(random, wire)
        }
    };
    Gate {
        left: operand(),
        right: operand(),
    }
}

/// A code of any wire below `wires`, with constants and the highest wires favoured.
fn any_code(random: &mut Random, wires: u32) -> u32 {
    let (any, recent) = (random.below(wires), random.below(wires.min(6)));
    let wire = match random.below(10) {
        0 => 0,
        1..=4 => wires - 1 - recent,
        _ => any,
    };
    2 * wire + random.below(2)
}

fn clean_code(random: &mut Random, clean: &[u32]) -> u32 {
    let wire = if random.percent(10) {
        0
    } else {
        random.pick(clean)
    };
    2 * wire + random.below(2)
}

/// A word of `width` bits, often all zeros or all ones.
fn random_word(random: &mut Random, width: u32) -> u32 {
    let ones = u32::MAX >> (32 - width);
    let any = random.next() as u32 & ones;
    random.pick(&[0, ones, any, any])
}

pub type Shape = (&'static str, fn(&Netlist) -> bool);

/// The shapes that random netlists must have often.
#[rustfmt::skip]
pub const SHAPES: [Shape; 23] = [
    ("I = 0", |it| it.inputs == 0),
    ("L = 0", |it| it.latch_count == 0),
    ("A = 0", |it| it.gate_count == 0),
    ("V = 600", |it| it.wire_count() == 600),
    ("m = 1", |it| it.address_width == 1),
    ("m = 12", |it| it.address_width == 12),
    ("n = 1", |it| it.data_width == 1),
    ("n = 32", |it| it.data_width == 32),
    ("unknown start", |it| it.unknown_start == 1),
    ("start word 0", |it| it.unknown_start == 0 && it.start_word == 0),
    ("start word 2^n - 1", |it| u64::from(it.start_word) + 1 == 1 << it.data_width),
    ("constant WE", |it| it.write_enable < 2),
    ("constant RE", |it| it.read_enable < 2),
    ("constant P", |it| it.property < 2),
    ("every address bit a wire", |it| it.address_codes().iter().all(|code| *code > 1)),
    ("constant address bit", |it| it.address_codes().iter().any(|code| *code < 2)),
    ("constant write-data bit", |it| it.write_data_codes().iter().any(|code| *code < 2)),
    ("constant operand", |it| it.gates.iter().any(|gate| gate.left < 2)),
    ("constant next code", |it| it.latches.iter().any(|latch| latch.next < 2)),
    ("gate that depends on a read bit", |it| it.gates.iter().any(|gate| depends(it, gate.left))),
    ("latch that takes a read bit", |it| it.latches.iter().any(|latch| depends(it, latch.next))),
    ("WE depends on a read bit", |it| depends(it, it.write_enable)),
    ("write data depends on a read bit", |it| depends(it, it.write_data[0])),
];

/// Shapes of the second port that random netlists with two must have often.
#[rustfmt::skip]
const PORT_SHAPES: [Shape; 9] = [
    ("both addresses the same", |it| it.address_codes_of(1) == it.address_codes_of(2)),
    ("second address without constants", |it| it.address_codes_of(2).iter().all(|code| *code > 1)),
    ("a constant against a wire", |it| compared(it).any(|(first, second)| (first < 2) != (second < 2))),
    ("two different constants", |it| compared(it).any(|(first, second)| first + second == 1)),
    ("a wire in both addresses", |it| {
        let has = |code: u32| it.address_codes_of(1).iter().any(|other| other / 2 == code / 2);
        it.address_codes_of(2).iter().any(|code| *code > 1 && has(*code))
    }),
    ("constant second RE", |it| it.second_read_enable < 2),
    ("both REs the same", |it| it.read_enable == it.second_read_enable),
    ("gate of a second read bit", |it| {
        let second = it.read_bits(SECOND_PORT);
        it.gates.iter().any(|gate| second.contains(&(gate.left / 2)))
    }),
    ("P of a second read bit", |it| it.read_bits(SECOND_PORT).contains(&(it.property / 2))),
];

/// The address bits of both ports, bit by bit.
fn compared(netlist: &Netlist) -> impl Iterator<Item = (u32, u32)> + '_ {
    let first = netlist.address_codes_of(FIRST_PORT).iter().copied();
    first.zip(netlist.address_codes_of(SECOND_PORT).iter().copied())
}

/// The shapes that random netlists with two ports must have often: an unknown start is none of them.
pub fn two_port_shapes() -> Vec<Shape> {
    let possible = SHAPES.iter().filter(|(name, _)| *name != "unknown start");
    possible.chain(&PORT_SHAPES).copied().collect()
}

fn depends(netlist: &Netlist, code: u32) -> bool {
    netlist.read_dependence()[code as usize / 2]
}

pub fn random_feeds(random: &mut Random, netlist: &Netlist, depth: u32) -> Vec<Feed> {
    let mut feeds = Vec::new();
    for _ in 0..=depth {
        let inputs = (0..netlist.inputs).map(|_| random.percent(50)).collect();
        let mut feed = Feed::new(inputs, random_word(random, netlist.data_width));
        if netlist.has_two_ports() {
            feed.second_idle_word = random_word(random, netlist.data_width);
        }
        feeds.push(feed);
    }
    feeds
}

/// A record with one of its code entries or resets replaced; often still accepted.
pub fn damaged_record(random: &mut Random, netlist: &Netlist) -> Netlist {
    let mut damaged = netlist.clone();
    let beyond = 2 * netlist.wire_count() + 4;
    let any = random.below(beyond);
    let number = random.pick(&[any, any, beyond - 3, beyond - 2, u32::MAX]);
    if random.percent(15) {
        tie(random, &mut damaged);
        return damaged;
    }
    let entries = if netlist.has_two_ports() { 8 } else { 6 };
    let entry = match random.below(entries) {
        0 => damaged.latches.first_mut().map(|latch| &mut latch.reset),
        1 => damaged.latches.last_mut().map(|latch| &mut latch.next),
        2 => damaged.gates.last_mut().map(|gate| &mut gate.left),
        3 => damaged.gates.first_mut().map(|gate| &mut gate.right),
        4 => Some(&mut damaged.address[random.index(netlist.address_width as usize)]),
        6 => Some(&mut damaged.second_address[random.index(netlist.address_width as usize)]),
        7 => Some(&mut damaged.second_read_enable),
        _ => Some(&mut damaged.read_enable),
    };
    if let Some(entry) = entry {
        *entry = number;
    }
    damaged
}

/// Puts the wire of one address bit on another of the same port, if there are two, often inverted.
pub fn tie(random: &mut Random, netlist: &mut Netlist) {
    let bits = netlist.address_width as usize;
    let (from, to) = (random.index(bits), random.index(bits));
    let second = netlist.has_two_ports() && random.percent(50);
    let codes = if second {
        &mut netlist.second_address
    } else {
        &mut netlist.address
    };
    codes[to] = codes[from] ^ random.below(2);
}

/// A sheet after one or two random changes; it may still be an accepted sheet.
pub fn damaged_sheet(random: &mut Random, sheet: &[u8]) -> Vec<u8> {
    let mut damaged = sheet.to_vec();
    for _ in 0..random.pick(&[1, 1, 2]) {
        // A cut may have left no line, or a part of one: it stays as it is.
        if damaged.is_empty() || damaged.len() % LINE_BYTES != 0 {
            break;
        }
        match random.below(12) {
            0 => tie_lines(random, &mut damaged),
            1..=4 => damage_bytes(random, &mut damaged),
            5..=8 => damage_lines(random, &mut damaged),
            _ => damage_field(random, &mut damaged),
        }
    }
    damaged
}

/// Puts the line of one address bit in place of another's, often with its code inverted. Of a T sheet
/// both addresses are taken: a line of the other one is out of order.
fn tie_lines(random: &mut Random, sheet: &mut [u8]) {
    let is_address = |at: &usize| [b'A', b'B'].contains(&sheet[*at]);
    let lines: Vec<usize> = (0..sheet.len())
        .step_by(LINE_BYTES)
        .filter(is_address)
        .collect();
    if lines.is_empty() {
        return;
    }
    let (from, to) = (random.pick(&lines), random.pick(&lines));
    sheet.copy_within(from..from + LINE_BYTES, to);
    // An even digit and the odd one behind it are one wire.
    let last_digit = &mut sheet[to + FIELD_BYTES];
    if from != to && last_digit.is_ascii_digit() && random.percent(50) {
        *last_digit ^= 1;
    }
}

fn damage_bytes(random: &mut Random, sheet: &mut Vec<u8>) {
    let at = random.index(sheet.len());
    let line_start = at - at % LINE_BYTES;
    match random.below(4) {
        0 => sheet[at] = random.below(256) as u8,
        1 => sheet[line_start] = random.pick(b"NMLGADCTBRn "),
        2 => sheet[line_start + LINE_BYTES - 1] = random.pick(b"\r \0"),
        _ => sheet.truncate(at),
    }
}

fn damage_lines(random: &mut Random, sheet: &mut Vec<u8>) {
    let mut lines: Vec<Vec<u8>> = sheet.chunks(LINE_BYTES).map(<[u8]>::to_vec).collect();
    let (at, other) = (random.index(lines.len()), random.index(lines.len()));
    match random.below(4) {
        0 => drop(lines.remove(at)),
        1 => lines.insert(at, lines[other].clone()),
        2 => lines.swap(at, other),
        _ => lines.truncate(at + 1),
    }
    *sheet = lines.concat();
}

fn damage_field(random: &mut Random, sheet: &mut [u8]) {
    let lines = sheet.len() / LINE_BYTES;
    // The last lines are favoured: there a code may close a loop.
    let (any, last) = (random.index(lines), lines - 1 - random.index(lines.min(5)));
    let line = random.pick(&[any, last]);
    let (any, first) = (random.index(FIELDS), 0);
    let field = random.pick(&[any, first]);
    let start = line * LINE_BYTES + 1 + field * FIELD_BYTES;
    let limits = [
        "0",
        "13",
        "33",
        "600",
        "601",
        "4294967295",
        "4294967296",
        "01",
        "",
    ];
    let text = match random.below(10) {
        0 => random.below(1300).to_string(),
        1..=3 => random.pick(&limits).to_string(),
        _ => random.below(16).to_string(),
    };
    let bytes = format!("{text:>FIELD_BYTES$}").into_bytes();
    sheet[start..start + FIELD_BYTES].copy_from_slice(&bytes);
}
