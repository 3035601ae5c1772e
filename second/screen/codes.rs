//! The codes of the columns 0 and 1 that the screen obeys, by their names.

pub const NUL: u8 = 0x00;
pub const BS: u8 = 0x08;
pub const HT: u8 = 0x09;
pub const LF: u8 = 0x0a;
pub const VT: u8 = 0x0b;
pub const FF: u8 = 0x0c;
pub const CR: u8 = 0x0d;
pub const SO: u8 = 0x0e;
pub const SI: u8 = 0x0f;
pub const CON: u8 = 0x11;
pub const REP: u8 = 0x12;
pub const SEP: u8 = 0x13;
pub const COFF: u8 = 0x14;
pub const SS2: u8 = 0x19;
pub const ESC: u8 = 0x1b;
pub const RS: u8 = 0x1e;
pub const US: u8 = 0x1f;

/// A space in G0, and the first code that is written.
pub const SPACE: u8 = 0x20;

/// The row, column or count 0 after US and REP.
pub const ZERO: u8 = 0x40;
