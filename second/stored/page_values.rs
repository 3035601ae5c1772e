//! The values that a service sends: what fills a page, and commands among it.

use crate::links::codes::{ASK, CLEAR, FIRST_RECEIVER, FIRST_SENDER, PRO2, PRO3, SET};
use crate::links::state::MODULES;
use crate::screen::codes::{
    BS, COFF, CON, CR, ESC, FF, HT, LF, REP, RS, SI, SO, SPACE, SS2, US, VT, ZERO,
};
use crate::screen::state::{COLUMNS, ROWS};
use crate::stored::xorshift::Xorshift;

const WORDS: [&[u8]; 12] = [
    b"FROST ",
    b"Hut 3 ",
    b"-07C ",
    b"wind NW 40 ",
    b"snow ",
    b"the road is closed ",
    b"valley ",
    b"06:40 ",
    b"thaw ",
    b"{|}~^` ",
    b"_?!*+,;: ",
    b"ice ",
];

const MOVES: [u8; 5] = [BS, HT, VT, LF, CR];

/// A few values that belong together.
pub fn phrase(random: &mut Xorshift) -> Vec<u8> {
    match random.below(44) {
        0..=11 => WORDS[random.below(WORDS.len())].to_vec(),
        12..=14 => us(random_row(random), random_column(random)).to_vec(),
        15..=17 => vec![ESC, 0x40 + random.below(8) as u8],
        18..=19 => vec![ESC, 0x50 + random.below(8) as u8, SPACE],
        20 => vec![ESC, 0x50 + random.below(8) as u8],
        21..=22 => vec![ESC, [0x48, 0x49, 0x5c, 0x5d][random.below(4)]],
        23..=25 => mosaics(random),
        26..=28 => vec![REP, ZERO + random.below(20) as u8],
        29..=30 => vec![SS2, character(random)],
        31 => heading(random),
        32 => vec![CR, LF],
        33 => vec![MOVES[random.below(MOVES.len())]],
        34 => vec![[CON, COFF][random.below(2)]],
        // A page is cleared more seldom, so that it fills.
        35 if random.one_in(6) => vec![FF],
        35 => vec![RS],
        36..=38 => ask(random.below(MODULES)).to_vec(),
        39..=40 => link(random).to_vec(),
        41 => vec![character(random), character(random)],
        _ => vec![random.below(128) as u8],
    }
}

/// The codes that bring the cursor to a place.
pub fn us(row: u8, column: u8) -> [u8; 3] {
    [US, ZERO + row, ZERO + column]
}

/// The codes that ask for a receiver's status.
pub fn ask(receiver: usize) -> [u8; 4] {
    [ESC, PRO2, ASK, FIRST_RECEIVER + receiver as u8]
}

/// More links are set than cleared, so that most of what is sent is shown.
fn link(random: &mut Xorshift) -> [u8; 5] {
    let what = [SET, SET, SET, CLEAR][random.below(4)];
    let receiver = FIRST_RECEIVER + random.below(MODULES) as u8;
    let sender = FIRST_SENDER + random.below(MODULES) as u8;
    [ESC, PRO3, what, receiver, sender]
}

/// Mostly back in letters after it.
fn mosaics(random: &mut Xorshift) -> Vec<u8> {
    let mut mosaics = vec![SO];
    mosaics.extend((0..=random.below(6)).map(|_| character(random)));
    if !random.one_in(4) {
        mosaics.push(SI);
    }
    mosaics
}

/// Something in row 0, and back.
fn heading(random: &mut Xorshift) -> Vec<u8> {
    let word = WORDS[random.below(WORDS.len())];
    [&us(0, random_column(random)), word, &[LF]].concat()
}

fn character(random: &mut Xorshift) -> u8 {
    SPACE + random.below(0x60) as u8
}

fn random_row(random: &mut Xorshift) -> u8 {
    random.below(ROWS.into()) as u8
}

fn random_column(random: &mut Xorshift) -> u8 {
    1 + random.below(COLUMNS.into()) as u8
}
