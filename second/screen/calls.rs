//! The calls on the screen: what they refuse before any rule is followed.

use crate::screen::state::{Cell, Place, Screen};

const LARGEST_VALUE: u8 = 127;

pub enum Refusal {
    BrokenState,
    ValueTooLarge {
        /// The lowest place of such a value, counted from 0.
        place: usize,
    },
}

impl Screen {
    /// Takes the values one after the other, or refuses them all.
    pub fn run(&mut self, values: &[u8]) -> Result<(), Refusal> {
        if !self.is_in_range() {
            return Err(Refusal::BrokenState);
        }
        if let Some(place) = values.iter().position(|&value| value > LARGEST_VALUE) {
            return Err(Refusal::ValueTooLarge { place });
        }
        for &value in values {
            self.take(value);
        }
        Ok(())
    }

    /// The cell at a place, or nothing for one off the screen.
    pub fn read(&self, place: Place) -> Result<Option<Cell>, Refusal> {
        if !self.is_in_range() {
            return Err(Refusal::BrokenState);
        }
        Ok(place.is_on_screen().then(|| self.cells[place.index()]))
    }
}
