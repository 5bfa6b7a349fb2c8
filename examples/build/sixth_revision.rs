//! The sixth revision: a scan writes a carton's size, a count reads it and adds it to the total. Nothing clears the memory when the
//! chip powers up, and a count of a carton that was never scanned adds the word that happens to be there.

use super::cartons::{add_to_total, counter, Inputs};
use super::chip::{number, Bit, Chip, Word, FALSE};

/// What the memory holds before the first frame, and whether the chip minds it.
#[derive(Clone, Copy, PartialEq, Eq)]
pub enum Memory {
    Unknown,
    Cleared,
    /// Unknown, with a flag for each carton that says whether its size is on record.
    Flagged,
}

pub fn chip(memory: Memory) -> Chip {
    let flags: &[(&str, u32)] = match memory {
        Memory::Flagged => &[("flags", 8)],
        Memory::Unknown | Memory::Cleared => &[],
    };
    let (mut c, inputs) = counter(&[&[("total", 10), ("scanned", 1)], flags].concat());
    let Inputs { scan, count, carton, size } = inputs;
    if memory != Memory::Cleared {
        c.leave_start_unknown();
    }

    // A scan writes the carton's size; a count without a scan reads it.
    let counting = c.and(count, !scan);
    c.connect_memory(&carton, counting, scan, &size);
    let read = c.read_data();

    let operand = if memory == Memory::Flagged {
        let on_record = on_record(&mut c, scan, &carton);
        c.choose(on_record, &read, &number(0, 8))
    } else {
        read
    };
    add_to_total(&mut c, counting, &operand);

    // P: as long as no carton was scanned, the total is 0.
    let (scanned, total) = (c.bit("scanned"), c.word("total"));
    c.next_if(scan, "scanned", &[scan]);
    let zero = c.equal(&total, &number(0, 10));
    let property = c.or(scanned, zero);
    c.property(property);

    c.show(&[
        "scan", "count", "carton", "size", "operand", "scanned", "total",
    ]);
    c
}

/// Whether an earlier frame scanned this frame's carton: a scan sets its flag.
fn on_record(c: &mut Chip, scan: Bit, carton: &[Bit]) -> Bit {
    let (mut found, mut next) = (FALSE, Word::new());
    for (kind, flag) in (0..).zip(c.word("flags")) {
        let this = c.equal(carton, &number(kind, 3));
        let (set, flagged) = (c.and(scan, this), c.and(this, flag));
        next.push(c.or(flag, set));
        found = c.or(found, flagged);
    }
    c.next("flags", &next);
    found
}
