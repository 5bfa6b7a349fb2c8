//! What the revisions have in common: their inputs, the size that a scan writes, the adder, and the size of the carton that was scanned last,
//! remembered beside the chip, by which two of them are judged.

use super::chip::{number, widen, Bit, Chip, Word};

/// Of this frame: whether a carton is scanned, whether one is counted, which, and the size that a scan writes.
pub struct Inputs {
    pub scan: Bit,
    pub count: Bit,
    pub carton: Word,
    pub size: Word,
}

/// A chip with these latches, the total among them, beside a memory of eight sizes.
pub fn counter(latches: &[(&'static str, u32)]) -> (Chip, Inputs) {
    let inputs = [("scan", 1), ("count", 1), ("large", 1), ("carton", 3)];
    let mut c = Chip::new(&inputs, latches, [3, 8, 0]);
    let size = size_scanned(&mut c);
    let (scan, count, carton) = (c.bit("scan"), c.bit("count"), c.word("carton"));
    (c, Inputs { scan, count, carton, size })
}

/// Fifty, or a hundred if the carton is large.
pub fn size_scanned(c: &mut Chip) -> Word {
    let large = c.bit("large");
    let size = c.choose(large, &number(100, 8), &number(50, 8));
    c.name("size", &size);
    size
}

/// The adder: where a carton is counted, the operand is added to the total. The sum.
pub fn add_to_total(c: &mut Chip, counting: Bit, operand: &[Bit]) -> Word {
    c.name("operand", operand);
    let total = c.word("total");
    let sum = c.add(&total, &widen(operand, total.len()));
    c.next_if(counting, "total", &sum);
    sum
}

/// The latches that `last_scan` uses.
pub const LAST_SCAN: [(&str, u32); 3] = [("scanned", 1), ("last-carton", 3), ("last-size", 8)];

/// Whether this frame's carton is the one that an earlier frame scanned last, and the size scanned then.
pub fn last_scan(c: &mut Chip, Inputs { scan, carton, size, .. }: &Inputs) -> (Bit, Word) {
    let (scanned, last_carton, last_size) =
        (c.bit("scanned"), c.word("last-carton"), c.word("last-size"));
    c.next_if(*scan, "scanned", &[*scan]);
    c.next_if(*scan, "last-carton", carton);
    c.next_if(*scan, "last-size", size);
    let same = c.equal(carton, &last_carton);
    (c.and(scanned, same), last_size)
}
