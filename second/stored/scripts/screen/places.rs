//! The stored script that tries the cursor's places: US, moves over every edge,
//! and what is kept while it is in row 0.

use crate::screen::codes::{BS, CR, ESC, FF, HT, LF, RS, SO, US, VT, ZERO};
use crate::screen::state::{COLUMNS, ROWS};
use crate::stored::scripts::screen::{byte, bytes, cell, cells, run, us, DUMP, FRESH};
use crate::stored::scripts::script::Script;

const LETTER: u8 = b'A';

/// The codes that move, and a character.
const MOVES: [u8; 6] = [BS, HT, VT, LF, CR, LETTER];

/// Places on the page to enter row 0 from: corners, edges, the middle.
const ENTERED_FROM: [(u8, u8); 7] = [
    (1, 1),
    (1, 40),
    (24, 1),
    (24, 40),
    (1, 20),
    (13, 40),
    (12, 7),
];

pub fn places() -> Script {
    let mut script = Script::trying("Places: US, moves over every edge, what row 0 keeps.");
    row_and_column_codes(&mut script);
    every_place(&mut script);
    moves_at_edges_and_inside(&mut script);
    every_row_end(&mut script);
    every_column_end(&mut script);
    all_the_way_round(&mut script);
    kept_and_returned_to(&mut script);
    ways_out_of_row_0(&mut script);
    script
}

/// From 3/F, which is one below the first, to 7/F.
fn row_and_column_codes(script: &mut Script) {
    script.comment("every row code with column 20, then a letter");
    script.line(FRESH);
    for code in 0x3f..=0x7f {
        script.line(run(&[US, code, 0x54]));
        script.line(byte(LETTER));
    }
    script.comment("every column code with row 12, then a letter");
    for code in 0x3f..=0x7f {
        script.line(run(&[US, 0x4c, code]));
        script.line(byte(LETTER));
    }
    script.comment("every column code with row 0, from row 3");
    for code in 0x3f..=0x7f {
        script.line(run(&us(3, 3)));
        script.line(run(&[US, 0x40, code]));
    }
    script.line(DUMP);
}

/// As many values as a run may have: US, two codes and a character each.
fn every_place(script: &mut Script) {
    script.comment("a character at each of the 1,000 places, by one run");
    let mut values = Vec::new();
    for row in 0..ROWS {
        for column in 1..=COLUMNS {
            values.extend(us(row, column));
            values.push(0x20 + (row * 3 + column) % 0x60);
        }
    }
    script.line(FRESH);
    script.line(run(&values));
    script.line(DUMP);
}

fn moves_at_edges_and_inside(script: &mut Script) {
    for (name, code) in [("BS", BS), ("HT", HT), ("VT", VT), ("LF", LF), ("CR", CR)] {
        script.comment(&format!("{name} at edges and inside"));
        for row in [0, 1, 2, 12, 23, 24] {
            for column in [1, 2, 20, 39, 40] {
                script.line(run(&us(row, column)));
                script.line(byte(code));
            }
        }
    }
    script.comment("a letter at edges and inside");
    for row in [0, 1, 2, 12, 23, 24] {
        for column in [1, 2, 20, 39, 40] {
            script.line(run(&us(row, column)));
            script.line(byte(LETTER));
            script.line(cell(row, column));
        }
    }
    script.line(DUMP);
}

fn every_row_end(script: &mut Script) {
    script.comment("every row: BS at column 1; HT and a letter at column 40; CR");
    for row in 0..ROWS {
        for (column, code) in [(1, BS), (40, HT), (40, LETTER), (17, CR)] {
            script.line(run(&us(row, column)));
            script.line(byte(code));
        }
    }
}

fn every_column_end(script: &mut Script) {
    script.comment("every column: VT in rows 1 and 0; LF in rows 24 and 0");
    for column in 1..=COLUMNS {
        for (row, code) in [(1, VT), (0, VT), (24, LF), (0, LF)] {
            script.line(run(&us(row, column)));
            script.line(byte(code));
        }
    }
}

fn all_the_way_round(script: &mut Script) {
    script.comment("960 moves or letters come back to where they began; in row 0 they do not");
    for row in [1, 12, 24, 0] {
        for code in [HT, BS, LETTER] {
            script.line(run(&us(row, 20)));
            script.line(run(&[code; 960]));
        }
    }
    script.comment("24 moves up or down come back; in row 0 LF leaves it first");
    for row in [1, 12, 24, 0] {
        for code in [VT, LF] {
            script.line(run(&us(row, 20)));
            script.line(run(&[code; 24]));
        }
    }
    script.line(DUMP);
}

fn kept_and_returned_to(script: &mut Script) {
    let waiting = [ESC, 0x41, ESC, 0x52, ESC, 0x48, ESC, 0x5d];
    let mosaics = [SO, ESC, 0x46];
    for (row, column) in ENTERED_FROM {
        for (what, attributes) in [
            ("start attributes", &[][..]),
            ("all of G0, a ground waiting", &waiting),
            ("G1", &mosaics),
        ] {
            script.comment(&format!("row 0 from {row},{column} with {what}, and back"));
            script.line(FRESH);
            script.line(run(&[&us(row, column)[..], attributes].concat()));
            script.line(run(&us(0, 9)));
            bytes(script, &[LETTER, LF, LETTER]);
            cells(script, &[(0, 9), (row, column)]);
        }
    }
}

fn ways_out_of_row_0(script: &mut Script) {
    let enter: &[u8] = &[US, 0x40, 0x43];
    let bad_us: &[u8] = &[US, 0x59, 0x41];
    let good_us: &[u8] = &[US, 0x54, 0x43];
    let ways: [(&str, &[&[u8]]); 8] = [
        ("LF twice", &[enter, &[LF], &[LF]]),
        ("FF, and in again", &[enter, &[FF], enter, &[LF]]),
        ("RS, and in again", &[enter, &[RS], enter, &[LF]]),
        ("US, and in again", &[enter, good_us, enter, &[LF]]),
        ("US in row 0, then LF", &[enter, &[US, 0x40, 0x68], &[LF]]),
        ("a US that is dropped, then LF", &[enter, bad_us, &[LF]]),
        ("LF, and in again from there", &[enter, &[LF], enter, &[LF]]),
        (
            "moves that stay, then LF",
            &[enter, &[VT, BS, BS, BS, HT, CR], &[LF]],
        ),
    ];
    for (what, steps) in ways {
        script.comment(&format!("row 0 from row 7: {what}"));
        script.line(FRESH);
        script.line(run(&[
            US,
            ZERO + 7,
            ZERO + 8,
            ESC,
            0x43,
            ESC,
            0x55,
            ESC,
            0x48,
        ]));
        for step in steps {
            script.line(run(step));
        }
    }
    script.comment("every move in row 0, from every third column");
    for column in (1..=COLUMNS).step_by(3) {
        for code in MOVES {
            script.line(run(&us(0, column)));
            script.line(byte(code));
        }
    }
}
