//! The rules of the screen: what each value does to it.

use crate::screen::codes::{
    BS, COFF, CON, CR, ESC, FF, HT, LF, NUL, REP, RS, SEP, SI, SO, SPACE, SS2, US, VT, ZERO,
};
use crate::screen::state::{
    Cell, Character, Kept, Place, Screen, Unfinished, BLANK, COLUMNS, G0, G1, G2, HOME, ROWS, START,
};

/// The last column and the last row.
const LAST_COLUMN: u8 = COLUMNS;
const LAST_ROW: u8 = ROWS - 1;

impl Screen {
    /// Takes one value of at most 127. The state must be in range.
    pub fn take(&mut self, value: u8) {
        // Skipped everywhere: what is unfinished stays so.
        if value == NUL {
            return;
        }
        let unfinished = std::mem::replace(&mut self.unfinished, Unfinished::Nothing);
        // The one code after SEP is dropped, whatever it is.
        if matches!(unfinished, Unfinished::Sep) {
            return;
        }
        // Any other code of the columns 0 and 1 ends what is unfinished.
        if value < SPACE {
            self.obey(value);
            return;
        }
        match unfinished {
            Unfinished::Nothing => self.write(Character {
                set: self.attributes.set,
                code: value,
            }),
            Unfinished::Esc => self.obey_pair(value),
            Unfinished::EscColumn2 => self.end_at(0x30, unfinished, value),
            Unfinished::Csi => self.end_at(0x40, unfinished, value),
            Unfinished::Us => self.unfinished = Unfinished::UsRow(value),
            Unfinished::UsRow(row) => self.go_to(row, value),
            Unfinished::Rep => self.repeat(value),
            Unfinished::Ss2 => self.write_from_g2(value),
            Unfinished::Sep => unreachable!("the code after SEP is dropped above"),
        }
    }

    /// A code of the columns 0 and 1, other than NUL.
    fn obey(&mut self, code: u8) {
        match code {
            BS => self.move_left(),
            HT => self.move_right(),
            LF => self.move_down(),
            VT => self.move_up(),
            FF => {
                self.blank_page();
                self.go_home();
            }
            CR => self.cursor.column = 1,
            SO => {
                self.attributes.set = G1;
                self.attributes.inverse = false;
            }
            SI => self.attributes.set = G0,
            CON => self.shown = true,
            REP => self.unfinished = Unfinished::Rep,
            SEP => self.unfinished = Unfinished::Sep,
            COFF => self.shown = false,
            SS2 => self.unfinished = Unfinished::Ss2,
            ESC => self.unfinished = Unfinished::Esc,
            RS => self.go_home(),
            US => self.unfinished = Unfinished::Us,
            _ => {}
        }
    }

    /// The code after ESC.
    fn obey_pair(&mut self, code: u8) {
        match code {
            0x20..=0x2f => self.unfinished = Unfinished::EscColumn2,
            0x40..=0x47 => self.attributes.ink = code - 0x40,
            0x48 => self.attributes.flash = true,
            0x49 => self.attributes.flash = false,
            0x50..=0x57 => self.attributes.waiting = Some(code - 0x50),
            0x5b => self.unfinished = Unfinished::Csi,
            0x5c => self.attributes.inverse = false,
            0x5d if self.attributes.set != G1 => self.attributes.inverse = true,
            _ => {}
        }
    }

    /// Codes are dropped up to one from the first that ends the sequence to 7/E.
    fn end_at(&mut self, first: u8, unfinished: Unfinished, code: u8) {
        if !(first..=0x7e).contains(&code) {
            self.unfinished = unfinished;
        }
    }

    fn repeat(&mut self, count_code: u8) {
        let Some(last) = self.last else {
            return;
        };
        // A code before 4/0 is no count, and is dropped.
        for _ in ZERO..count_code {
            self.write(last);
        }
    }

    fn write_from_g2(&mut self, code: u8) {
        match code {
            // The accents.
            0x40..=0x4f => {}
            _ => self.write(Character { set: G2, code }),
        }
    }

    fn write(&mut self, character: Character) {
        if takes_waiting_ground(character) {
            if let Some(ground) = self.attributes.waiting.take() {
                self.attributes.ground = ground;
            }
        }
        self.cells[self.cursor.index()] = Cell {
            set: character.set,
            code: character.code,
            ink: self.attributes.ink,
            ground: self.attributes.ground,
            flash: self.attributes.flash,
            inverse: self.attributes.inverse,
        };
        self.last = Some(character);
        self.move_right();
    }

    fn move_left(&mut self) {
        let Place { row, column } = self.cursor;
        self.cursor = match (row, column) {
            (0, 1) => self.cursor,
            (_, 1) => Place {
                row: row_above(row),
                column: LAST_COLUMN,
            },
            _ => Place {
                row,
                column: column - 1,
            },
        };
    }

    fn move_right(&mut self) {
        let Place { row, column } = self.cursor;
        self.cursor = match (row, column) {
            (0, LAST_COLUMN) => self.cursor,
            (_, LAST_COLUMN) => Place {
                row: row_below(row),
                column: 1,
            },
            _ => Place {
                row,
                column: column + 1,
            },
        };
    }

    fn move_up(&mut self) {
        if self.cursor.row != 0 {
            self.cursor.row = row_above(self.cursor.row);
        }
    }

    /// From row 0 it returns to what was kept, which stays kept.
    fn move_down(&mut self) {
        if self.cursor.row != 0 {
            self.cursor.row = row_below(self.cursor.row);
        } else {
            self.cursor = self.kept.place;
            self.attributes = self.kept.attributes;
        }
    }

    /// Rows 1 to 24 blank; row 0 is no part of the page.
    fn blank_page(&mut self) {
        for cell in self.cells.iter_mut().skip(COLUMNS.into()) {
            *cell = BLANK;
        }
    }

    fn go_home(&mut self) {
        self.cursor = HOME;
        self.attributes = START;
    }

    /// US with both its codes. A place off the screen drops all three.
    fn go_to(&mut self, row_code: u8, column_code: u8) {
        let Some(place) = place_of(row_code, column_code) else {
            return;
        };
        if place.row == 0 && self.cursor.row != 0 {
            self.kept = Kept {
                place: self.cursor,
                attributes: self.attributes,
            };
        }
        self.cursor = place;
        self.attributes = START;
    }
}

impl Place {
    pub fn is_on_screen(self) -> bool {
        self.row < ROWS && (1..=COLUMNS).contains(&self.column)
    }

    /// Among the cells, row 0, column 1 first.
    pub fn index(self) -> usize {
        usize::from(self.row) * usize::from(COLUMNS) + usize::from(self.column) - 1
    }
}

/// The place on the screen that the two codes after US name.
fn place_of(row_code: u8, column_code: u8) -> Option<Place> {
    let place = Place {
        row: row_code.checked_sub(ZERO)?,
        column: column_code.checked_sub(ZERO)?,
    };
    place.is_on_screen().then_some(place)
}

/// A space of G0 takes it, and any character of G1.
fn takes_waiting_ground(character: Character) -> bool {
    match character.set {
        G0 => character.code == SPACE,
        G1 => true,
        _ => false,
    }
}

/// The row above one of 1 to 24; row 1 is joined to row 24.
fn row_above(row: u8) -> u8 {
    if row == 1 {
        LAST_ROW
    } else {
        row - 1
    }
}

/// The row below one of 1 to 24; row 24 is joined to row 1.
fn row_below(row: u8) -> u8 {
    if row == LAST_ROW {
        1
    } else {
        row + 1
    }
}
