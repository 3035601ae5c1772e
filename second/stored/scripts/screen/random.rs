//! The stored script of random values on the screen, and the values themselves.

use crate::screen::codes::{
    BS, COFF, CON, CR, ESC, FF, HT, LF, NUL, REP, RS, SEP, SI, SO, SPACE, SS2, US, VT,
};
use crate::screen::state::{COLUMNS, ROWS};
use crate::stored::scripts::screen::{byte, run, us, DUMP, FRESH};
use crate::stored::scripts::script::Script;
use crate::stored::xorshift::Xorshift;

// A seed for each way of handing the values in.
const BYTES_SEED: u64 = 0x7363_7220_6279_7465;
const PIECES_SEED: u64 = 0x7363_7220_7069_6563;

/// Sittings, each from a fresh screen or from wherever the last one ended.
const SITTINGS: usize = 30;

const BYTES_IN_A_SITTING: usize = 140;
const PIECES_IN_A_SITTING: usize = 20;
const LONGEST_PIECE: usize = 60;

const MOVES: [u8; 5] = [BS, HT, VT, LF, CR];
const SWITCHES: [u8; 4] = [SO, SI, CON, COFF];

/// Random values by single commands and by runs, and every cell on the way.
pub fn random() -> Script {
    let mut script = Script::trying("Random values, most of them in sequences, from fixed seeds.");
    let mut random = Xorshift::new(BYTES_SEED);
    for sitting in 0..SITTINGS {
        begin(&mut script, &mut random, sitting);
        single_values(&mut script, &mut random);
        script.line(DUMP);
    }
    let mut random = Xorshift::new(PIECES_SEED);
    for sitting in 0..SITTINGS {
        begin(&mut script, &mut random, sitting);
        pieces(&mut script, &mut random);
        script.line(DUMP);
    }
    script
}

/// So many values as a page would have them, and some that no page has.
pub fn values(random: &mut Xorshift, count: usize) -> Vec<u8> {
    let mut values = Vec::new();
    while values.len() < count {
        values.extend(phrase(random));
    }
    values.truncate(count);
    values
}

fn begin(script: &mut Script, random: &mut Xorshift, sitting: usize) {
    match random.below(4) {
        0 => {
            script.comment(&format!("sitting {sitting}, from a fresh screen"));
            script.line(FRESH);
        }
        1 => {
            script.comment(&format!("sitting {sitting}, in row 0"));
            script.line(run(&us(0, random_column(random))));
        }
        2 => {
            script.comment(&format!("sitting {sitting}, on an empty page"));
            script.line(byte(FF));
        }
        _ => script.comment(&format!("sitting {sitting}, going on")),
    }
}

fn single_values(script: &mut Script, random: &mut Xorshift) {
    for value in values(random, BYTES_IN_A_SITTING) {
        if random.one_in(100) {
            script.line(byte(too_large(random)));
        }
        script.line(byte(value));
    }
}

fn pieces(script: &mut Script, random: &mut Xorshift) {
    for _ in 0..PIECES_IN_A_SITTING {
        let count = random.below(LONGEST_PIECE + 1);
        let piece = values(random, count);
        if count > 0 && random.one_in(8) {
            let mut refused = piece.clone();
            refused[random.below(count)] = too_large(random);
            script.line(run(&refused));
        }
        script.line(run(&piece));
    }
}

fn too_large(random: &mut Xorshift) -> u8 {
    128 + random.below(128) as u8
}

/// One sequence or a few characters, now and then broken off or mixed with NUL.
fn phrase(random: &mut Xorshift) -> Vec<u8> {
    let mut phrase = whole_phrase(random);
    if random.one_in(12) {
        phrase.insert(random.below(phrase.len() + 1), NUL);
    }
    if random.one_in(12) {
        phrase.insert(
            random.below(phrase.len() + 1),
            random.below(SPACE.into()) as u8,
        );
    }
    if random.one_in(12) {
        phrase.truncate(random.below(phrase.len()) + 1);
    }
    phrase
}

fn whole_phrase(random: &mut Xorshift) -> Vec<u8> {
    match random.below(40) {
        0..=7 => (0..=random.below(4)).map(|_| character(random)).collect(),
        8 => vec![SPACE],
        9..=12 => vec![MOVES[random.below(MOVES.len())]],
        13..=15 => vec![SWITCHES[random.below(SWITCHES.len())]],
        16..=18 => vec![ESC, 0x40 + random.below(8) as u8],
        19..=21 => vec![ESC, 0x50 + random.below(8) as u8],
        22 => vec![ESC, [0x48, 0x49][random.below(2)]],
        23 => vec![ESC, [0x5c, 0x5d][random.below(2)]],
        24 => vec![ESC, character(random)],
        25 => vec![ESC, 0x20 + random.below(16) as u8, character(random)],
        26 => vec![ESC, 0x5b, character(random), character(random)],
        27..=29 => us(random.below(ROWS.into()) as u8, random_column(random)).to_vec(),
        30 => us(0, random_column(random)).to_vec(),
        31 => vec![US, character(random), character(random)],
        32..=33 => vec![REP, 0x40 + random.below(12) as u8],
        34 => vec![REP, character(random)],
        35..=36 => vec![SS2, character(random)],
        37 => vec![SEP, random.below(128) as u8],
        38 => vec![random.below(SPACE.into()) as u8],
        // A page is cleared more seldom, so that it fills.
        _ if random.one_in(8) => vec![FF],
        _ => vec![[RS, LF][random.below(2)]],
    }
}

fn character(random: &mut Xorshift) -> u8 {
    SPACE + random.below(0x60) as u8
}

fn random_column(random: &mut Xorshift) -> u8 {
    1 + random.below(COLUMNS.into()) as u8
}
