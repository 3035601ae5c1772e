//! The forty-column screen: a thousand cells written in place.

use crate::links::ESC;

pub const COLUMNS: usize = 40;
const CELLS: usize = 25 * COLUMNS;

pub const G0: u8 = 0;
pub const G1: u8 = 1;
pub const G2: u8 = 2;

#[derive(Clone, Copy)]
pub struct Cell {
    pub set: u8,
    pub code: u8,
    pub ink: u8,
    pub ground: u8,
    pub flash: bool,
    pub inverse: bool,
}

const BLANK: Cell = Cell {
    set: G1,
    code: b' ',
    ink: 7,
    ground: 0,
    flash: false,
    inverse: false,
};

#[derive(Clone, Copy)]
pub struct Attributes {
    pub set: u8,
    pub ink: u8,
    pub ground: u8,
    /// A ground that waits for the character that takes it.
    pub waiting: Option<u8>,
    pub flash: bool,
    pub inverse: bool,
}

const START: Attributes = Attributes {
    set: G0,
    ink: 7,
    ground: 0,
    waiting: None,
    flash: false,
    inverse: false,
};

/// Rows count from 0, columns from 1.
#[derive(Clone, Copy)]
pub struct Place {
    pub row: u8,
    pub column: u8,
}

const HOME: Place = Place { row: 1, column: 1 };

#[derive(Clone, Copy)]
pub enum Sequence {
    Free,
    Escape,
    /// ESC and column 2.
    Long,
    /// ESC 5/B.
    Control,
    Separator,
    Repeat,
    Single,
    Address,
    /// US and the code for the row.
    Row(u8),
}

pub struct Screen {
    pub cells: [Cell; CELLS],
    pub place: Place,
    pub attributes: Attributes,
    /// What was held before the last US that entered row 0.
    pub kept: (Place, Attributes),
    /// Set and code of the last character.
    pub last: Option<(u8, u8)>,
    pub sequence: Sequence,
    pub shown: bool,
}

impl Screen {
    pub fn fresh() -> Screen {
        Screen {
            cells: [BLANK; CELLS],
            place: HOME,
            attributes: START,
            kept: (HOME, START),
            last: None,
            sequence: Sequence::Free,
            shown: false,
        }
    }

    /// Values of 0 to 127.
    pub fn run(&mut self, values: &[u8]) {
        for &value in values {
            match (self.sequence, value) {
                (_, 0) => {}
                (Sequence::Free, b' '..) => self.put(self.attributes.set, value),
                (_, b' '..) => self.follow(value),
                _ => self.control(value),
            }
        }
    }

    #[inline]
    fn put(&mut self, set: u8, code: u8) {
        let Place { row, column } = self.place;
        if let Some(ground) = self.attributes.waiting {
            if set == G1 || set == G0 && code == b' ' {
                self.attributes.ground = ground;
                self.attributes.waiting = None;
            }
        }
        let Attributes {
            ink,
            ground,
            flash,
            inverse,
            ..
        } = self.attributes;
        self.cells[row as usize * COLUMNS + column as usize - 1] = Cell {
            set,
            code,
            ink,
            ground,
            flash,
            inverse,
        };
        self.last = Some((set, code));
        self.right();
    }

    fn row_below(&self) -> u8 {
        if self.place.row < 24 {
            self.place.row + 1
        } else {
            1
        }
    }

    fn row_above(&self) -> u8 {
        if self.place.row > 1 {
            self.place.row - 1
        } else {
            24
        }
    }

    #[inline]
    fn right(&mut self) {
        if self.place.column < 40 {
            self.place.column += 1;
        } else if self.place.row > 0 {
            self.place = Place {
                row: self.row_below(),
                column: 1,
            };
        }
    }

    fn left(&mut self) {
        if self.place.column > 1 {
            self.place.column -= 1;
        } else if self.place.row > 0 {
            self.place = Place {
                row: self.row_above(),
                column: 40,
            };
        }
    }

    fn up(&mut self) {
        if self.place.row > 0 {
            self.place.row = self.row_above();
        }
    }

    /// From row 0 it returns to what was kept.
    fn down(&mut self) {
        if self.place.row > 0 {
            self.place.row = self.row_below();
        } else {
            (self.place, self.attributes) = self.kept;
        }
    }

    fn home(&mut self) {
        self.place = HOME;
        self.attributes = START;
    }

    /// A C0 code other than NUL: it ends what was unfinished and is obeyed, but for the code after
    /// SEP.
    fn control(&mut self, code: u8) {
        if let Sequence::Separator = self.sequence {
            self.sequence = Sequence::Free;
            return;
        }
        self.sequence = match code {
            0x12 => Sequence::Repeat,
            0x13 => Sequence::Separator,
            0x19 => Sequence::Single,
            ESC => Sequence::Escape,
            0x1f => Sequence::Address,
            _ => Sequence::Free,
        };
        match code {
            0x08 => self.left(),
            0x09 => self.right(),
            0x0a => self.down(),
            0x0b => self.up(),
            0x0c => {
                self.cells[COLUMNS..].fill(BLANK);
                self.home();
            }
            0x0d => self.place.column = 1,
            0x0e => {
                self.attributes.set = G1;
                self.attributes.inverse = false;
            }
            0x0f => self.attributes.set = G0,
            0x11 => self.shown = true,
            0x14 => self.shown = false,
            0x1e => self.home(),
            _ => {}
        }
    }

    /// A code from 2/0 inside a sequence.
    fn follow(&mut self, code: u8) {
        let sequence = std::mem::replace(&mut self.sequence, Sequence::Free);
        match (sequence, code) {
            (Sequence::Escape, ..=0x2f) => self.sequence = Sequence::Long,
            (Sequence::Escape, 0x5b) => self.sequence = Sequence::Control,
            (Sequence::Escape, _) => self.pair(code),
            (Sequence::Long, ..=0x2f | 0x7f..) | (Sequence::Control, ..=0x3f | 0x7f..) => {
                self.sequence = sequence
            }
            (Sequence::Repeat, 0x40..) => self.repeat(code - 0x40),
            // An accent is swallowed.
            (Sequence::Single, 0x40..=0x4f) => {}
            (Sequence::Single, _) => self.put(G2, code),
            (Sequence::Address, _) => self.sequence = Sequence::Row(code),
            (Sequence::Row(row), _) => self.go(row, code),
            _ => {}
        }
    }

    fn pair(&mut self, code: u8) {
        let attributes = &mut self.attributes;
        match code {
            0x40..=0x47 => attributes.ink = code - 0x40,
            0x48 => attributes.flash = true,
            0x49 => attributes.flash = false,
            0x50..=0x57 => attributes.waiting = Some(code - 0x50),
            0x5c => attributes.inverse = false,
            0x5d => attributes.inverse |= attributes.set == G0,
            _ => {}
        }
    }

    fn repeat(&mut self, times: u8) {
        if let Some((set, code)) = self.last {
            for _ in 0..times {
                self.put(set, code);
            }
        }
    }

    fn go(&mut self, row: u8, column: u8) {
        if !(0x40..=0x58).contains(&row) || !(0x41..=0x68).contains(&column) {
            return;
        }
        if row == 0x40 && self.place.row > 0 {
            self.kept = (self.place, self.attributes);
        }
        self.place = Place {
            row: row - 0x40,
            column: column - 0x40,
        };
        self.attributes = START;
    }
}
