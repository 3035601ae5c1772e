//! The screen's state. Its numbers are those that were handed in, so that a
//! state outside the ranges can be held as it is.

use crate::screen::codes::SPACE;

/// Rows are numbered from 0.
pub const ROWS: u8 = 25;

/// Columns are numbered from 1.
pub const COLUMNS: u8 = 40;

pub const CELLS: usize = ROWS as usize * COLUMNS as usize;

// The sets of characters, as they are written.
pub const G0: u8 = 0;
pub const G1: u8 = 1;
pub const G2: u8 = 2;

const WHITE: u8 = 7;
const BLACK: u8 = 0;

#[derive(Clone)]
pub struct Screen {
    /// Row 0, column 1 first.
    pub cells: Vec<Cell>,
    pub cursor: Place,
    pub shown: bool,
    pub attributes: Attributes,
    /// The last character written.
    pub last: Option<Character>,
    pub kept: Kept,
    pub unfinished: Unfinished,
}

#[derive(Clone, Copy)]
pub struct Cell {
    pub set: u8,
    pub code: u8,
    pub ink: u8,
    pub ground: u8,
    pub flash: bool,
    pub inverse: bool,
}

#[derive(Clone, Copy)]
pub struct Place {
    pub row: u8,
    pub column: u8,
}

#[derive(Clone, Copy)]
pub struct Attributes {
    pub set: u8,
    pub ink: u8,
    pub ground: u8,
    /// The ground that waits for a character to take it.
    pub waiting: Option<u8>,
    pub flash: bool,
    pub inverse: bool,
}

#[derive(Clone, Copy)]
pub struct Character {
    pub set: u8,
    pub code: u8,
}

/// What was held before the last US that entered row 0 from another row. Before
/// the first one it is what LF in row 0 then returns to.
#[derive(Clone, Copy)]
pub struct Kept {
    pub place: Place,
    pub attributes: Attributes,
}

/// The sequence that is begun and not ended.
#[derive(Clone, Copy)]
pub enum Unfinished {
    Nothing,
    Esc,
    /// ESC and codes of column 2.
    EscColumn2,
    /// ESC 5/B and what follows it.
    Csi,
    Us,
    /// US and its row code, which is not judged before the column code comes.
    UsRow(u8),
    Rep,
    Ss2,
    Sep,
}

/// Row 1, column 1.
pub const HOME: Place = Place { row: 1, column: 1 };

/// The black mosaic that clearing writes.
pub const BLANK: Cell = Cell {
    set: G1,
    code: SPACE,
    ink: WHITE,
    ground: BLACK,
    flash: false,
    inverse: false,
};

pub const START: Attributes = Attributes {
    set: G0,
    ink: WHITE,
    ground: BLACK,
    waiting: None,
    flash: false,
    inverse: false,
};

impl Screen {
    pub fn fresh() -> Self {
        Screen {
            cells: vec![BLANK; CELLS],
            cursor: HOME,
            shown: false,
            attributes: START,
            last: None,
            kept: Kept {
                place: HOME,
                attributes: START,
            },
            unfinished: Unfinished::Nothing,
        }
    }
}
