//! The character of a terminal that stands for a cell.

use crate::screen::state::{Cell, G0, G1};

const FULL_BLOCK: char = '\u{2588}';
const LEFT_HALF: char = '\u{258c}';
const RIGHT_HALF: char = '\u{2590}';

/// The first of the sextants.
const SEXTANTS: u32 = 0x1fb00;

/// The weights of the six parts of a mosaic: top, middle and bottom, the left
/// one first in each.
const PARTS: [u8; 6] = [1, 2, 4, 8, 16, 64];

pub fn character(cell: &Cell) -> char {
    match (cell.set, cell.code) {
        (_, 0x20) => ' ',
        (_, 0x7f) => FULL_BLOCK,
        (G0, code) => letter(code),
        (G1, code) => mosaic(code),
        (_, code) => sign(code),
    }
}

/// A character of G0.
fn letter(code: u8) -> char {
    match code {
        0x5e => '↑',
        0x60 => '─',
        0x7b => '▏',
        0x7c => '│',
        0x7d => '▕',
        0x7e => '▔',
        _ => code.into(),
    }
}

/// A character of G1. Four of the 64 are no sextants, as there were characters
/// for them before.
fn mosaic(code: u8) -> char {
    let parts = (0..6).filter(|&part| code & PARTS[part] != 0);
    let drawn: u32 = parts.map(|part| 1 << part).sum();
    match drawn {
        0 => ' ',
        1..21 => sextant(drawn - 1),
        21 => LEFT_HALF,
        22..42 => sextant(drawn - 2),
        42 => RIGHT_HALF,
        43..63 => sextant(drawn - 3),
        _ => FULL_BLOCK,
    }
}

fn sextant(place: u32) -> char {
    char::from_u32(SEXTANTS + place).expect("one of the sixty sextants")
}

/// A character of G2; a low bar for a sign that the terminal does not have.
fn sign(code: u8) -> char {
    match code {
        0x23 => '£',
        0x24 => '$',
        0x26 => '#',
        0x27 => '§',
        0x2c => '←',
        0x2d => '↑',
        0x2e => '→',
        0x2f => '↓',
        0x30 => '°',
        0x31 => '±',
        0x38 => '÷',
        0x3c => '¼',
        0x3d => '½',
        0x3e => '¾',
        0x6a => 'Œ',
        0x7a => 'œ',
        0x7b => 'ß',
        _ => '_',
    }
}
