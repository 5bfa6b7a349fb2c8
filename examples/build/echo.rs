//! The chip of the full run (RULES P8): every frame writes the input to address 0 and reads it, and P says that a 0 is read.

use super::chip::{Chip, FALSE, TRUE};

pub fn chip() -> Chip {
    let mut c = Chip::new(&[("input", 1)], &[], [1, 1, 0]);
    let input = c.bit("input");
    c.connect_memory(&[FALSE], TRUE, TRUE, &[input]);
    let read = c.read_data();
    c.property(!read[0]);
    c.name("read", &read);
    c.show(&["input", "read"]);
    c
}
