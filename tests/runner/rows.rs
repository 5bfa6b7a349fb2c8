//! The second implementation's rows of sheets of both kinds, each with the verdict that was written down of it.

use super::reference::check_ports::{two_port_length_rows, two_port_sheet_rows};
use super::reference::check_refusals::{field_and_letter_rows, length_rows, short_sheet_rows, Row};

pub fn sheet_rows() -> Vec<Row> {
    [
        field_and_letter_rows(),
        short_sheet_rows(),
        length_rows(),
        two_port_sheet_rows(),
        two_port_length_rows(),
    ]
    .concat()
}
