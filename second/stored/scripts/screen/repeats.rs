//! The stored script that tries REP.

use crate::screen::codes::{BS, ESC, REP, SI, SO, SPACE, SS2, US, VT};
use crate::stored::scripts::screen::{byte, cells, run, us, DUMP, FRESH};
use crate::stored::scripts::script::Script;

const LARGEST_CODE: u8 = 0x7f;

/// Counts at the edges: those that are none, none at all, one, and the most.
const COUNTS: [u8; 12] = [
    0x20, 0x2f, 0x30, 0x3f, 0x40, 0x41, 0x42, 0x4a, 0x60, 0x68, 0x7e, 0x7f,
];

/// What is repeated: its name, the values before REP, the cells to be read.
type Repeated = (&'static str, &'static [u8], &'static [(u8, u8)]);

const REPEATED: &[Repeated] = &[
    (
        "over two rows' ends",
        &[US, 0x45, 0x66, b'A'],
        &[(5, 39), (6, 1), (7, 1), (7, 21)],
    ),
    (
        "in row 0, up to column 40 and on it",
        &[US, 0x40, 0x66, b'A', ESC, 0x44],
        &[(0, 38), (0, 39), (0, 40), (1, 1)],
    ),
    (
        "in row 0, column 40",
        &[US, 0x40, 0x68, b'A', ESC, 0x44],
        &[(0, 39), (0, 40), (1, 1)],
    ),
    (
        "a G0 space with a ground waiting",
        &[US, 0x45, 0x60, SPACE, ESC, 0x54],
        &[(5, 32), (5, 33), (5, 34)],
    ),
    (
        "a G0 letter with a ground waiting",
        &[US, 0x45, 0x60, b'A', ESC, 0x54],
        &[(5, 32), (5, 33), (5, 34)],
    ),
    (
        "a G1 character with a ground waiting",
        &[US, 0x45, 0x60, SO, b'a', ESC, 0x54],
        &[(5, 32), (5, 33), (5, 34)],
    ),
    (
        "a G1 character in G0, inverse on, a ground waiting",
        &[US, 0x45, 0x60, SO, b'a', SI, ESC, 0x5d, ESC, 0x54],
        &[(5, 32), (5, 33), (5, 34)],
    ),
    (
        "a G0 space in G1 with a ground waiting",
        &[US, 0x45, 0x60, SPACE, SO, ESC, 0x54],
        &[(5, 32), (5, 33), (5, 34)],
    ),
    (
        "a G2 character in G0 with a ground waiting",
        &[US, 0x45, 0x60, SS2, b'a', ESC, 0x54],
        &[(5, 32), (5, 33), (5, 34)],
    ),
    (
        "a G2 2/0 in G1 with a ground waiting",
        &[US, 0x45, 0x60, SS2, SPACE, SO, ESC, 0x54],
        &[(5, 32), (5, 33), (5, 34)],
    ),
    (
        "with ink, flash and inverse of the moment",
        &[US, 0x45, 0x60, b'A', ESC, 0x41, ESC, 0x48, ESC, 0x5d],
        &[(5, 32), (5, 33), (5, 34)],
    ),
    (
        "after a swallowed accent",
        &[US, 0x45, 0x60, b'A', SS2, 0x42],
        &[(5, 32), (5, 33), (5, 34)],
    ),
    (
        "7/F of G1",
        &[US, 0x45, 0x60, SO, 0x7f],
        &[(5, 32), (5, 33), (5, 34)],
    ),
    (
        "with no last character",
        &[US, 0x45, 0x60, ESC, 0x54],
        &[(5, 32), (5, 33)],
    ),
];

pub fn repeats() -> Script {
    let mut script = Script::trying("REP at every n, over the edges, of every set, of nothing.");
    every_count(&mut script);
    for repeated in REPEATED {
        edge_counts(&mut script, repeated);
    }
    repeats_of_repeats(&mut script);
    script
}

/// At row 24, column 20, so that the larger counts go round to row 1 and on.
fn every_count(script: &mut Script) {
    for (what, values) in [
        ("of a letter from row 24, column 20", &[b'A'][..]),
        (
            "of a mosaic, with a letter's ink",
            &[SO, b'a', SI, ESC, 0x43],
        ),
        ("with no last character", &[]),
    ] {
        script.comment(&format!("every n from 2/0, {what}"));
        for count in SPACE..=LARGEST_CODE {
            script.line(FRESH);
            script.line(run(&[&us(24, 20)[..], values, &[REP]].concat()));
            script.line(byte(count));
        }
        script.line(DUMP);
    }
    script.comment("every n from 2/0, from row 0, column 30, and a letter after it");
    for count in SPACE..=LARGEST_CODE {
        script.line(FRESH);
        script.line(run(&[&us(0, 30)[..], &[b'A', ESC, 0x41, REP]].concat()));
        script.line(byte(count));
        script.line(byte(b'B'));
    }
    script.line(DUMP);
}

fn edge_counts(script: &mut Script, &(what, values, places): &Repeated) {
    script.comment(&format!("n at the edges, {what}"));
    for count in COUNTS {
        script.line(FRESH);
        script.line(run(&[values, &[REP]].concat()));
        script.line(byte(count));
        cells(script, places);
    }
    script.line(DUMP);
}

fn repeats_of_repeats(script: &mut Script) {
    script.comment("REP after REP, and after moves, until the page is full");
    script.line(FRESH);
    script.line(run(&[ESC, 0x51, SPACE, b'A']));
    for count in 0..20 {
        script.line(run(&[REP, 0x7f, ESC, 0x40 + count % 8, BS, VT, REP, 0x41]));
    }
    script.line(DUMP);
}
