//! The seventh revision: sizes wait in a queue between scanner and counter. A scan writes at its end and a count reads at its beginning, so a
//! frame that does both has two addresses: the first port writes, the second reads.

use super::cartons::{add_to_total, size_scanned};
use super::chip::{number, Bit, Chip, Word, FALSE};

/// Of an address. Pointers have a bit more: where only that differs, the queue is full.
const WIDTH: usize = 3;

pub fn chip(repaired: bool) -> Chip {
    let inputs = [("scan", 1), ("count", 1), ("large", 1)];
    let latches = [("first", 4), ("end", 4), ("total", 10), ("waiting", 4), ("last-size", 8)];
    let mut c = Chip::with_two_ports(&inputs, &latches, [3, 8, 0]);
    let size = size_scanned(&mut c);
    let (scan, count, first, end) = (c.bit("scan"), c.bit("count"), c.word("first"), c.word("end"));

    // A scan puts its size at the end, where there is room; a count takes the first, where there is one.
    let same_word = c.equal(&first[..WIDTH], &end[..WIDTH]);
    let other_round = c.differ(first[WIDTH], end[WIDTH]);
    let (full, empty) = (c.and(same_word, other_round), c.and(same_word, !other_round));
    let (put, take) = (c.and(scan, !full), c.and(count, !empty));
    c.connect_memory(&end[..WIDTH], FALSE, put, &size);
    c.connect_second_port(&first[..WIDTH], take);
    let operand = c.second_read_data();
    add_to_total(&mut c, take, &operand);

    let next_end = plus(&mut c, &end, 1);
    c.next_if(put, "end", &next_end);
    // In the faulty chip a frame that puts a size moves the end alone.
    let moves = if repaired { take } else { c.and(take, !put) };
    let next_first = plus(&mut c, &first, 1);
    c.next_if(moves, "first", &next_first);

    // P: a size that waits alone is the one scanned last. How many wait is counted beside the chip.
    let (waiting, last_size) = (waiting(&mut c, put, take), c.word("last-size"));
    c.next_if(put, "last-size", &size);
    let alone = c.equal(&waiting, &number(1, 4));
    let concerned = c.and(take, alone);
    let right = c.equal(&operand, &last_size);
    let property = c.or(!concerned, right);
    c.property(property);

    c.show(&["scan", "count", "size", "first", "end", "waiting", "last-size", "operand", "total"]);
    c
}

/// A word and a number, without the last carry.
fn plus(c: &mut Chip, word: &[Bit], value: u32) -> Word {
    c.add(word, &number(value, word.len() as u32))
}

/// How many sizes earlier frames put and did not take.
fn waiting(c: &mut Chip, put: Bit, take: Bit) -> Word {
    let waiting = c.word("waiting");
    let (more, less) = (plus(c, &waiting, 1), plus(c, &waiting, 15));
    let next = c.choose(put, &more, &less);
    let changes = c.differ(put, take);
    c.next_if(changes, "waiting", &next);
    waiting
}
