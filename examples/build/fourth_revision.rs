//! The fourth revision: sizes of cartons are written when they are scanned, and read when they are counted.
//! A register beside the memory holds one carton's size, so that the adder need not wait for the memory.

use super::cartons::{add_to_total, counter, last_scan, LAST_SCAN};
use super::chip::Chip;

pub fn chip(repaired: bool) -> Chip {
    let latches = [
        ("just-scanned", 1),
        ("holding", 1),
        ("held-carton", 3),
        ("held-size", 8),
        ("total", 10),
    ];
    let (mut c, inputs) = counter(&[latches.as_slice(), &LAST_SCAN].concat());
    let (scan, carton, size) = (inputs.scan, &inputs.carton, &inputs.size);

    // A scan writes the carton's size. The counter reads it, but neither during a scan nor in the frame after one.
    let just_scanned = c.bit("just-scanned");
    c.next("just-scanned", &[scan]);
    let counting = c.all(&[inputs.count, !scan, !just_scanned]);
    c.connect_memory(carton, counting, scan, size);
    let read = c.read_data();

    // The register takes the first carton that is scanned.
    let (holding, held_carton, held_size) =
        (c.bit("holding"), c.word("held-carton"), c.word("held-size"));
    let same_carton = c.equal(&held_carton, carton);
    let open = if repaired {
        // A later scan of the carton that it holds is taken as well.
        c.or(!holding, same_carton)
    } else {
        !holding
    };
    let take = c.and(scan, open);
    c.next_if(take, "holding", &[scan]);
    c.next_if(take, "held-carton", carton);
    c.next_if(take, "held-size", size);

    // The adder uses the held size where it is this carton's, else the word read.
    let held = c.and(holding, same_carton);
    let operand = c.choose(held, &held_size, &read);
    let sum = add_to_total(&mut c, counting, &operand);

    // P: when the carton that was scanned last is counted, the adder uses no less than the size scanned.
    let (scanned_last, last_size) = last_scan(&mut c, &inputs);
    let concerned = c.and(counting, scanned_last);
    let enough = c.at_least(&operand, &last_size);
    let property = c.or(!concerned, enough);
    c.property(property);

    c.name("sum", &sum);
    c.show(&[
        "scan",
        "count",
        "carton",
        "size",
        "held-size",
        "operand",
        "total",
        "sum",
    ]);
    c
}
