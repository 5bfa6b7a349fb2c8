//! Small chips whose property holds for ever, each with a twin that has a fault: with one port and two, a given start and an unknown one.

use super::chip::{number, Bit, Chip, Word, FALSE, TRUE};

/// A chip's name, and the chip: right, or with its fault.
pub type Row = (&'static str, fn(bool) -> Chip);

pub const CHIPS: [Row; 12] = [
    ("mailbox", mailbox),
    ("histogram", histogram),
    ("lookup", lookup),
    ("registers", registers),
    ("stack", stack),
    ("cleared", cleared),
    ("valid", valid),
    ("held", held),
    ("parity", parity),
    ("mirror", mirror),
    ("sticky", sticky),
    ("queue", queue),
];

/// Where the condition holds, two words are the same.
fn same_where(c: &mut Chip, condition: Bit, a: &[Bit], b: &[Bit]) {
    let same = c.equal(a, b);
    let property = c.or(!condition, same);
    c.property(property);
}

fn plus(c: &mut Chip, word: &[Bit], value: u32) -> Word {
    c.add(word, &number(value, word.len() as u32))
}

/// One word is put and taken: what is taken is what was put. The fault: a full box is written over.
fn mailbox(right: bool) -> Chip {
    let mut c = Chip::new(&[("put", 1), ("take", 1), ("value", 1)], &[("full", 1), ("last", 1)], [1, 1, 0]);
    let (put, take, full, value) = (c.bit("put"), c.bit("take"), c.bit("full"), c.word("value"));
    let (puts, takes) = (c.and(put, !full), c.and(take, full));
    c.connect_memory(&[FALSE], takes, if right { puts } else { put }, &value);
    c.next_if(puts, "last", &value);
    let next = c.choose(full, &[!takes], &[puts]);
    c.next("full", &next);
    let (read, last) = (c.read_data(), c.word("last"));
    same_where(&mut c, takes, &read, &last);
    c
}

/// Events of four kinds are counted; those of one are also counted beside the memory. The fault: odd counts are not written.
fn histogram(right: bool) -> Chip {
    let mut c = Chip::new(&[("event", 1), ("kind", 2)], &[("beside", 2)], [2, 2, 0]);
    let (event, kind, read, beside) = (c.bit("event"), c.word("kind"), c.read_data(), c.word("beside"));
    let (more, more_beside) = (plus(&mut c, &read, 1), plus(&mut c, &beside, 1));
    let even = c.and(event, !read[0]);
    c.connect_memory(&kind, TRUE, if right { event } else { even }, &more);
    let is_one = c.equal(&kind, &number(1, 2));
    let counted = c.and(event, is_one);
    c.next_if(counted, "beside", &more_beside);
    same_where(&mut c, is_one, &read, &beside);
    c
}

/// A table that begins unknown gives the same word twice. The fault: it is written to.
fn lookup(right: bool) -> Chip {
    let mut c = Chip::new(&[("at", 1), ("write", 1)], &[("seen", 1), ("last", 1)], [1, 1, 0]);
    c.leave_start_unknown();
    let (at, write, seen, last, read) = (c.word("at"), c.bit("write"), c.bit("seen"), c.word("last"), c.read_data());
    c.connect_memory(&at, TRUE, if right { FALSE } else { write }, &[write]);
    c.next_if(!at[0], "last", &read);
    c.next_if(!at[0], "seen", &[TRUE]);
    let again = c.and(seen, !at[0]);
    same_where(&mut c, again, &read, &last);
    c
}

/// What the second port reads of a word is what was last written there. The fault: the write of the same frame is expected.
fn registers(right: bool) -> Chip {
    let mut c = Chip::with_two_ports(&[("write", 1), ("at", 1), ("data", 1), ("read", 1)], &[("last", 1)], [1, 1, 1]);
    let (write, at, data, reads, last) = (c.bit("write"), c.word("at"), c.word("data"), c.bit("read"), c.word("last"));
    c.connect_memory(&at, FALSE, write, &data);
    c.connect_second_port(&[TRUE], reads);
    let writes_one = c.and(write, at[0]);
    // the word begins as 1, the latch as 0
    c.next_if(writes_one, "last", &[!data[0]]);
    let word = vec![!last[0]];
    let newest = c.choose(writes_one, &data, &word);
    let read = c.second_read_data();
    same_where(&mut c, reads, &read, if right { &word } else { &newest });
    c
}

/// What is popped straight after a push is what was pushed. The fault: it is looked for one word too high.
fn stack(right: bool) -> Chip {
    let mut c = Chip::new(&[("push", 1), ("pop", 1), ("value", 1)], &[("height", 2), ("top", 1), ("known", 1)], [2, 1, 0]);
    let (push, pop, value, height) = (c.bit("push"), c.bit("pop"), c.word("value"), c.word("height"));
    let (full, empty) = (c.equal(&height, &number(3, 2)), c.equal(&height, &number(0, 2)));
    let pushes = c.and(push, !full);
    let may_pop = c.and(pop, !empty);
    let pops = c.and(may_pop, !push);
    let (higher, lower) = (plus(&mut c, &height, 1), plus(&mut c, &height, 3));
    let at = c.choose(pushes, &height, if right { &lower } else { &height });
    c.connect_memory(&at, pops, pushes, &value);
    let moved = c.choose(pushes, &higher, &lower);
    let moves = c.or(pushes, pops);
    c.next_if(moves, "height", &moved);
    c.next_if(pushes, "top", &value);
    c.next_if(moves, "known", &[pushes]);
    let (read, top) = (c.read_data(), c.word("top"));
    let concerned = c.and(pops, c.bit("known"));
    same_where(&mut c, concerned, &read, &top);
    c
}

/// A memory that begins unknown is cleared word by word, and is 0 from then on. The fault: the last word is left out.
fn cleared(right: bool) -> Chip {
    let mut c = Chip::new(&[("at", 2)], &[("next", 2), ("done", 1)], [2, 1, 0]);
    c.leave_start_unknown();
    let (at, next, done) = (c.word("at"), c.word("next"), c.bit("done"));
    let address = c.choose(done, &at, &next);
    c.connect_memory(&address, done, !done, &[FALSE]);
    let last = c.equal(&next, &number(if right { 3 } else { 2 }, 2));
    let further = plus(&mut c, &next, 1);
    c.next("next", &further);
    c.next_if(last, "done", &[TRUE]);
    let read = c.read_data();
    same_where(&mut c, done, &read, &[FALSE]);
    c
}

/// A word of an unknown memory is known once it is written. The fault: a write of another word counts.
fn valid(right: bool) -> Chip {
    let mut c = Chip::new(&[("write", 1), ("at", 1), ("data", 2)], &[("valid", 1), ("last", 2)], [1, 2, 0]);
    c.leave_start_unknown();
    let (write, at, data, is_valid, last, read) =
        (c.bit("write"), c.word("at"), c.word("data"), c.bit("valid"), c.word("last"), c.read_data());
    c.connect_memory(&at, TRUE, write, &data);
    let writes_one = c.and(write, at[0]);
    c.next_if(writes_one, "last", &data);
    c.next_if(if right { writes_one } else { write }, "valid", &[TRUE]);
    let concerned = c.and(is_valid, at[0]);
    same_where(&mut c, concerned, &read, &last);
    c
}

/// Where nothing is read, the word of the frame before is held. The fault: that of the frame before the first is taken as 0.
fn held(right: bool) -> Chip {
    let mut c = Chip::new(&[("read", 1), ("at", 1), ("write", 1), ("data", 2)], &[("last", 2), ("begun", 1)], [1, 2, 2]);
    let (reads, at, write, data) = (c.bit("read"), c.word("at"), c.bit("write"), c.word("data"));
    c.connect_memory(&at, reads, write, &data);
    let (read, last, begun) = (c.read_data(), c.word("last"), c.bit("begun"));
    c.next("last", &read);
    c.next("begun", &[TRUE]);
    let holds = c.and(!reads, begun);
    same_where(&mut c, if right { holds } else { !reads }, &read, &last);
    c
}

/// Each word has a bit and its opposite. The fault: the second bit is always written as 1.
fn parity(right: bool) -> Chip {
    let mut c = Chip::new(&[("write", 1), ("at", 2), ("data", 1)], &[], [2, 2, 2]);
    let (write, at, data, read) = (c.bit("write"), c.word("at"), c.bit("data"), c.read_data());
    c.connect_memory(&at, TRUE, write, &[data, if right { !data } else { TRUE }]);
    same_where(&mut c, TRUE, &read[..1], &[!read[1]]);
    c
}

/// Both ports read the same word at the same address. The fault: another address.
fn mirror(right: bool) -> Chip {
    let mut c = Chip::with_two_ports(&[("write", 1), ("at", 1), ("data", 2)], &[], [1, 2, 3]);
    let (write, at, data) = (c.bit("write"), c.word("at"), c.word("data"));
    c.connect_memory(&at, TRUE, write, &data);
    c.connect_second_port(&[if right { at[0] } else { !at[0] }], TRUE);
    let (first, second) = (c.read_data(), c.second_read_data());
    same_where(&mut c, TRUE, &first, &second);
    c
}

/// A bit that is set stays set. The fault: it is written over.
fn sticky(right: bool) -> Chip {
    let mut c = Chip::new(&[("at", 1), ("set", 1)], &[("seen", 1)], [1, 1, 0]);
    let (at, set, seen, read) = (c.word("at"), c.bit("set"), c.bit("seen"), c.read_data());
    let joined = c.or(read[0], set);
    c.connect_memory(&at, TRUE, TRUE, &[if right { joined } else { set }]);
    let set_there = c.and(!at[0], read[0]);
    c.next_if(set_there, "seen", &[TRUE]);
    let again = c.and(seen, !at[0]);
    same_where(&mut c, again, &read, &[TRUE]);
    c
}

/// What waits alone in a queue is what was put last. The fault: it is looked for where the next is put.
fn queue(right: bool) -> Chip {
    let mut c = Chip::with_two_ports(&[("put", 1), ("take", 1), ("value", 1)], &[("first", 2), ("end", 2), ("last", 1)], [1, 1, 0]);
    let (put, take, value, first, end) = (c.bit("put"), c.bit("take"), c.word("value"), c.word("first"), c.word("end"));
    let waiting = c.differ(first[0], end[0]);
    let other_round = c.differ(first[1], end[1]);
    let (full, empty) = (c.and(!waiting, other_round), c.and(!waiting, !other_round));
    let (puts, takes) = (c.and(put, !full), c.and(take, !empty));
    c.connect_memory(&end[..1], FALSE, puts, &value);
    c.connect_second_port(if right { &first[..1] } else { &end[..1] }, takes);
    let (next_end, next_first) = (plus(&mut c, &end, 1), plus(&mut c, &first, 1));
    c.next_if(puts, "end", &next_end);
    c.next_if(takes, "first", &next_first);
    c.next_if(puts, "last", &value);
    let (read, last) = (c.second_read_data(), c.word("last"));
    let concerned = c.and(takes, waiting);
    same_where(&mut c, concerned, &read, &last);
    c
}
