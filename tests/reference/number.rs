//! K6: a clause number printed into the end of a lent buffer.

use super::refusal::{require, Refusal, NO_ROOM};

/// Fills the last bytes of the buffer with the number's decimal and answers with their count; 9 where
/// the buffer is shorter than that. All other bytes stay as they are.
pub fn print_number(number: i32, buffer: &mut [u8]) -> Result<usize, Refusal> {
    let text = number.to_string();
    require(buffer.len() >= text.len(), NO_ROOM, 0)?;
    let before = buffer.len() - text.len();
    buffer[before..].copy_from_slice(text.as_bytes());
    Ok(text.len())
}
