//! The fifth revision: no register beside the memory any more. One scan writes the carton's size and counts
//! the carton, so it writes and reads one address in one frame; the memory gives the old word there.

use super::cartons::{add_to_total, counter, last_scan, LAST_SCAN};
use super::chip::{number, Chip};

pub fn chip(repaired: bool) -> Chip {
    let (mut c, inputs) = counter(&[&[("total", 10)], LAST_SCAN.as_slice()].concat());
    let (scan, carton, size) = (inputs.scan, &inputs.carton, &inputs.size);

    // A scan writes the carton's size and counts the carton; a count counts it again.
    let counting = c.or(scan, inputs.count);
    c.connect_memory(carton, counting, scan, size);
    let read = c.read_data();

    let from_scan = if repaired {
        // A scan hands its size to the adder; only a later count uses the word read.
        scan
    } else {
        // Only a carton without a size on record (the start word 0) counts with the size scanned.
        let no_record = c.equal(&read, &number(0, 8));
        c.and(scan, no_record)
    };
    let operand = c.choose(from_scan, size, &read);
    let sum = add_to_total(&mut c, counting, &operand);

    // P: when the carton that was scanned last is counted (by this very scan, or again), the adder uses no
    // less than the size scanned.
    let (scanned_last, last_size) = last_scan(&mut c, &inputs);
    let due = c.choose(scan, size, &last_size);
    let known = c.or(scan, scanned_last);
    let concerned = c.and(counting, known);
    let enough = c.at_least(&operand, &due);
    let property = c.or(!concerned, enough);
    c.property(property);

    c.name("sum", &sum);
    c.show(&["scan", "count", "carton", "size", "operand", "total", "sum"]);
    c
}
