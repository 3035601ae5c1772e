//! The screen's state as commands and answers write it, in range or not.

use crate::screen::state::{Attributes, Cell, Character, Kept, Place, Screen, Unfinished};

impl Screen {
    /// All of the state but the cells: CUR ATTR LAST KEPT PEND.
    pub fn written_parts(&self) -> [String; 5] {
        [
            format!("{},{}", place(self.cursor), flag(self.shown)),
            attributes(self.attributes),
            self.last.map_or_else(none, character),
            kept(self.kept),
            unfinished(self.unfinished),
        ]
    }

    /// Row 0, column 1 first, and nothing between.
    pub fn written_cells(&self) -> String {
        self.cells.iter().copied().map(cell).collect()
    }
}

/// Seven hex digits: set, code (two), ink, ground, flash, inverse.
pub fn cell(cell: Cell) -> String {
    let Cell {
        set,
        code,
        ink,
        ground,
        ..
    } = cell;
    let (flash, inverse) = (flag(cell.flash), flag(cell.inverse));
    format!("{set:x}{code:02x}{ink:x}{ground:x}{flash}{inverse}")
}

/// `ROW,COLUMN`
fn place(place: Place) -> String {
    format!("{},{}", place.row, place.column)
}

/// `SET,INK,GROUND,WAITING,FLASH,INVERSE`
fn attributes(attributes: Attributes) -> String {
    let Attributes {
        set, ink, ground, ..
    } = attributes;
    let waiting = attributes
        .waiting
        .map_or_else(none, |ground| ground.to_string());
    let (flash, inverse) = (flag(attributes.flash), flag(attributes.inverse));
    format!("{set},{ink},{ground},{waiting},{flash},{inverse}")
}

/// `SET:CODE`
fn character(character: Character) -> String {
    format!("{}:{:02x}", character.set, character.code)
}

/// `ROW,COLUMN,SET,INK,GROUND,WAITING,FLASH,INVERSE`
fn kept(kept: Kept) -> String {
    format!("{},{}", place(kept.place), attributes(kept.attributes))
}

fn unfinished(unfinished: Unfinished) -> String {
    match unfinished {
        Unfinished::Nothing => none(),
        Unfinished::Esc => "esc".to_string(),
        Unfinished::EscColumn2 => "esc2".to_string(),
        Unfinished::Csi => "csi".to_string(),
        Unfinished::Us => "us".to_string(),
        Unfinished::UsRow(row_code) => format!("us:{row_code:02x}"),
        Unfinished::Rep => "rep".to_string(),
        Unfinished::Ss2 => "ss2".to_string(),
        Unfinished::Sep => "sep".to_string(),
    }
}

fn none() -> String {
    "-".to_string()
}

fn flag(flag: bool) -> u8 {
    flag.into()
}
