//! The maker of blocks.

use crate::block::layout::{self, LENGTH, USEFUL};

/// The largest value of seven bits.
const LARGEST_VALUE: u8 = 127;

pub enum Refusal {
    WrongLength,
    ValueTooLarge { place: usize },
    NoRoom,
}

/// Writes the block of 1 to 15 values into the first 17 bytes of the output.
/// Where several refusals hold, the one that is asked first here is given.
pub fn make(values: &[u8], output: &mut [u8]) -> Result<(), Refusal> {
    if values.is_empty() || values.len() > USEFUL {
        return Err(Refusal::WrongLength);
    }
    if let Some(place) = values.iter().position(|&value| value > LARGEST_VALUE) {
        return Err(Refusal::ValueTooLarge { place });
    }
    let room = output.first_chunk_mut::<LENGTH>().ok_or(Refusal::NoRoom)?;
    *room = layout::form(values);
    Ok(())
}
