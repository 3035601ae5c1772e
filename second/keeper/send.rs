//! Values, made into blocks for the line.

use std::path::Path;

use crate::block::layout::{self, USEFUL};
use crate::keeper::{faults, portions};

const LARGEST_VALUE: u8 = 127;

/// All values are read before any is sent, since one too large stops them all.
pub fn send(name: &Path, output: &mut Vec<u8>) -> Result<(), String> {
    let mut values = Vec::new();
    portions::each_byte(name, |value| values.push(value))?;
    if let Some(place) = values.iter().position(|&value| value > LARGEST_VALUE) {
        let value = values[place];
        let what =
            format!("value {value} at place {place} is above {LARGEST_VALUE}; nothing is sent");
        return Err(faults::of_file(name, what));
    }
    output.extend(values.chunks(USEFUL).flat_map(layout::form));
    Ok(())
}
