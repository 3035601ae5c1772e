//! The ranges that the page gives for the screen. A state that leaves one of
//! them is broken.

use crate::screen::codes::SPACE;
use crate::screen::state::{Attributes, Cell, Character, Kept, Screen, Unfinished, G1, G2};

const LARGEST_CODE: u8 = 0x7f;
const LARGEST_COLOUR: u8 = 7;

impl Screen {
    pub fn is_in_range(&self) -> bool {
        self.cells.iter().copied().all(cell)
            && self.cursor.is_on_screen()
            && attributes(self.attributes)
            && self.last.is_none_or(character)
            && kept(self.kept)
            && unfinished(self.unfinished)
    }
}

fn cell(cell: Cell) -> bool {
    let written = Character {
        set: cell.set,
        code: cell.code,
    };
    character(written) && colour(cell.ink) && colour(cell.ground)
}

fn character(character: Character) -> bool {
    character.set <= G2 && code(character.code)
}

/// G2 is reached by SS2 alone, and is never the current set.
fn attributes(attributes: Attributes) -> bool {
    attributes.set <= G1
        && colour(attributes.ink)
        && colour(attributes.ground)
        && attributes.waiting.is_none_or(colour)
}

/// The kept place may lie in row 0, as the cursor may.
fn kept(kept: Kept) -> bool {
    kept.place.is_on_screen() && attributes(kept.attributes)
}

fn unfinished(unfinished: Unfinished) -> bool {
    match unfinished {
        // Any code from 2/0 waits for its column code, a row or not.
        Unfinished::UsRow(row_code) => code(row_code),
        _ => true,
    }
}

fn code(code: u8) -> bool {
    (SPACE..=LARGEST_CODE).contains(&code)
}

fn colour(colour: u8) -> bool {
    colour <= LARGEST_COLOUR
}
