//! The words of commands on the links. What is not written exactly so is no
//! command, and no broken state either.

use crate::links::rules;
use crate::links::state::{self, Links, Module, Table, KEYBOARD, MODEM, MODULES, SOCKET};
use crate::trial::reading;

/// Most codes of an unfinished sequence: ESC, PRO3 and two of three.
const MOST_CODES: usize = 4;

/// The state in the words TABLE MODEM SOCKET.
pub fn links(words: &[&str]) -> Option<Links> {
    let [table_word, modem, socket] = words else {
        return None;
    };
    Some(Links {
        table: table(table_word)?,
        modem: unfinished(modem)?,
        socket: unfinished(socket)?,
    })
}

/// One of the two tables that the host can choose.
pub fn named_table(word: &str) -> Option<Table> {
    match word {
        "local" => Some(state::local()),
        "connected" => Some(state::connected()),
        _ => None,
    }
}

pub fn sender(word: &str) -> Option<Module> {
    match word {
        "k" => Some(KEYBOARD),
        "m" => Some(MODEM),
        "s" => Some(SOCKET),
        _ => None,
    }
}

/// A digit for each sender and receiver, all receivers of the first sender first.
fn table(word: &str) -> Option<Table> {
    if word.len() != MODULES * MODULES {
        return None;
    }
    let mut table = Table::default();
    for (place, digit) in word.bytes().enumerate() {
        table[place / MODULES][place % MODULES] = flag(digit)?;
    }
    Some(table)
}

fn flag(digit: u8) -> Option<bool> {
    match digit {
        b'0' => Some(false),
        b'1' => Some(true),
        _ => None,
    }
}

/// The codes so far; `-` where nothing is unfinished.
fn unfinished(word: &str) -> Option<Vec<u8>> {
    let codes = reading::bytes(word, MOST_CODES)?;
    (codes.is_empty() || rules::is_unfinished(&codes)).then_some(codes)
}
