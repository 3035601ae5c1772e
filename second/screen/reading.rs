//! The screen's state as a command hands it in. What is not written exactly so
//! is no state, not even a broken one.

use crate::screen::state::{Attributes, Cell, Character, Kept, Place, Screen, Unfinished, CELLS};
use crate::trial::reading;

/// The largest number that a command can hand in.
const LARGEST: usize = 255;

/// Digits of one cell.
const CELL_DIGITS: usize = 7;

/// The state in the words CELLS CUR ATTR LAST KEPT PEND.
pub fn screen(words: &[&str]) -> Option<Screen> {
    let [cells_word, cursor_word, attributes_word, last_word, kept_word, unfinished_word] = words
    else {
        return None;
    };
    let (cursor, shown) = cursor(cursor_word)?;
    Some(Screen {
        cells: cells(cells_word)?,
        cursor,
        shown,
        attributes: attributes(&parts(attributes_word))?,
        last: last(last_word)?,
        kept: kept(&parts(kept_word))?,
        unfinished: unfinished(unfinished_word)?,
    })
}

/// ROW or COLUMN in a word of its own.
pub fn number(word: &str) -> Option<u8> {
    reading::decimal(word, LARGEST).map(|number| number as u8)
}

fn cells(word: &str) -> Option<Vec<Cell>> {
    if word.len() != CELLS * CELL_DIGITS {
        return None;
    }
    word.as_bytes().chunks(CELL_DIGITS).map(cell).collect()
}

/// Set, code (two digits), ink, ground, flash, inverse.
fn cell(digits: &[u8]) -> Option<Cell> {
    let [set, code_high, code_low, ink, ground, flash, inverse] = *digits else {
        return None;
    };
    Some(Cell {
        set: reading::digit(set)?,
        code: 16 * reading::digit(code_high)? + reading::digit(code_low)?,
        ink: reading::digit(ink)?,
        ground: reading::digit(ground)?,
        flash: flag_digit(flash)?,
        inverse: flag_digit(inverse)?,
    })
}

/// `ROW,COLUMN,SHOWN`
fn cursor(word: &str) -> Option<(Place, bool)> {
    match parts(word)[..] {
        [row, column, shown] => Some((place(row, column)?, flag(shown)?)),
        _ => None,
    }
}

fn place(row: &str, column: &str) -> Option<Place> {
    Some(Place {
        row: number(row)?,
        column: number(column)?,
    })
}

/// `SET,INK,GROUND,WAITING,FLASH,INVERSE`
fn attributes(parts: &[&str]) -> Option<Attributes> {
    let [set, ink, ground, waiting, flash, inverse] = *parts else {
        return None;
    };
    Some(Attributes {
        set: number(set)?,
        ink: number(ink)?,
        ground: number(ground)?,
        waiting: if_any(waiting, number)?,
        flash: flag(flash)?,
        inverse: flag(inverse)?,
    })
}

fn last(word: &str) -> Option<Option<Character>> {
    if_any(word, character)
}

/// `SET:CODE`
fn character(word: &str) -> Option<Character> {
    let (set, code) = word.split_once(':')?;
    Some(Character {
        set: number(set)?,
        code: code_of(code)?,
    })
}

/// `ROW,COLUMN,SET,INK,GROUND,WAITING,FLASH,INVERSE`
fn kept(parts: &[&str]) -> Option<Kept> {
    match parts {
        [row, column, rest @ ..] => Some(Kept {
            place: place(row, column)?,
            attributes: attributes(rest)?,
        }),
        _ => None,
    }
}

fn unfinished(word: &str) -> Option<Unfinished> {
    match word {
        "-" => Some(Unfinished::Nothing),
        "esc" => Some(Unfinished::Esc),
        "esc2" => Some(Unfinished::EscColumn2),
        "csi" => Some(Unfinished::Csi),
        "us" => Some(Unfinished::Us),
        "rep" => Some(Unfinished::Rep),
        "ss2" => Some(Unfinished::Ss2),
        "sep" => Some(Unfinished::Sep),
        _ => code_of(word.strip_prefix("us:")?).map(Unfinished::UsRow),
    }
}

fn parts(word: &str) -> Vec<&str> {
    word.split(',').collect()
}

/// `-` is none, which is a good reading too.
fn if_any<T>(word: &str, read: impl FnOnce(&str) -> Option<T>) -> Option<Option<T>> {
    match word {
        "-" => Some(None),
        _ => read(word).map(Some),
    }
}

/// Two hex digits.
fn code_of(word: &str) -> Option<u8> {
    let [code] = reading::byte_array(word)?;
    Some(code)
}

fn flag(word: &str) -> Option<bool> {
    match word {
        "0" => Some(false),
        "1" => Some(true),
        _ => None,
    }
}

fn flag_digit(digit: u8) -> Option<bool> {
    match digit {
        b'0' => Some(false),
        b'1' => Some(true),
        _ => None,
    }
}
