//! The stored script that tries the rules of the screen one by one, in the
//! order of the page. The doubtful places have a file of their own.

use crate::screen::codes::{
    BS, COFF, CON, CR, ESC, FF, HT, LF, NUL, REP, RS, SEP, SI, SO, SPACE, SS2, US, VT,
};
use crate::stored::scripts::screen::{byte, bytes, cells, decided, DUMP, FRESH};
use crate::stored::scripts::script::Script;

// Codes that have no action on the screen.
pub const ENQ: u8 = 0x05;
pub const BEL: u8 = 0x07;
pub const DLE: u8 = 0x10;
pub const SYN: u8 = 0x16;
pub const CAN: u8 = 0x18;
pub const SUB: u8 = 0x1a;
pub const SS3: u8 = 0x1d;

// Attributes, after ESC.
pub const RED: u8 = 0x41;
pub const GREEN: u8 = 0x42;
pub const FLASH: u8 = 0x48;
pub const STEADY: u8 = 0x49;
pub const ON_BLACK: u8 = 0x50;
pub const ON_RED: u8 = 0x51;
pub const ON_GREEN: u8 = 0x52;
pub const ON_BLUE: u8 = 0x54;
pub const CSI: u8 = 0x5b;
pub const NORMAL: u8 = 0x5c;
pub const INVERSE: u8 = 0x5d;

/// A rule, the values that show it on a fresh screen, the cells to be read.
pub type Rule = (&'static str, &'static [u8], &'static [(u8, u8)]);

/// The sentences of the page, in their order.
const RULES: &[Rule] = &[
    (
        "FF: rows 1 to 24 blank, row 0 kept",
        &[
            US, 0x40, 0x41, b'Z', US, 0x40, 0x68, b'Y', US, 0x41, 0x41, b'A', US, 0x58, 0x68, b'B',
            FF,
        ],
        &[(0, 1), (0, 40), (1, 1), (24, 40)],
    ),
    (
        "FF: row 1, column 1 and start attributes; a waiting ground is dropped",
        &[
            US, 0x4c, 0x54, SO, ESC, RED, ESC, ON_GREEN, b'a', ESC, ON_BLUE, ESC, FLASH, FF, SPACE,
        ],
        &[(12, 20), (1, 1)],
    ),
    (
        "FF: inverse off too",
        &[ESC, INVERSE, ESC, ON_GREEN, SPACE, b'A', FF, b'B'],
        &[(1, 1), (1, 2)],
    ),
    (
        "RS: the same without blanking",
        &[
            US, 0x4c, 0x54, SO, ESC, RED, ESC, ON_GREEN, b'a', ESC, ON_BLUE, ESC, FLASH, RS, SPACE,
        ],
        &[(12, 20), (1, 1)],
    ),
    (
        "US: the cursor there, start attributes, a waiting ground dropped",
        &[
            SO, ESC, RED, ESC, ON_GREEN, b'a', ESC, ON_BLUE, ESC, FLASH, US, 0x45, 0x46, SPACE,
            b'A',
        ],
        &[(1, 1), (5, 6), (5, 7)],
    ),
    (
        "US off the screen: all three dropped",
        &[
            US, 0x59, 0x41, b'A', US, 0x41, 0x40, b'B', US, 0x3f, 0x69, b'C',
        ],
        &[(1, 1), (1, 2), (1, 3)],
    ),
    (
        "BS, HT, VT, LF move by one",
        &[US, 0x4c, 0x54, BS, HT, VT, LF, b'A'],
        &[(12, 20)],
    ),
    (
        "left of column 1 is column 40 of the row above",
        &[US, 0x4c, 0x41, BS, b'A'],
        &[(11, 40), (12, 1)],
    ),
    (
        "right of column 40 is column 1 of the row below",
        &[US, 0x4c, 0x68, HT, b'A'],
        &[(12, 40), (13, 1)],
    ),
    (
        "CR: column 1",
        &[b'A', b'B', b'C', CR, b'D', CR, CR, b'E'],
        &[(1, 1), (1, 2)],
    ),
    (
        "row 0: BS at column 1 does nothing",
        &[US, 0x40, 0x41, BS, b'A', BS, BS, b'B'],
        &[(0, 1), (24, 40)],
    ),
    (
        "row 0: HT at column 40 does nothing",
        &[US, 0x40, 0x67, HT, HT, HT, b'A'],
        &[(0, 39), (0, 40), (1, 1)],
    ),
    (
        "row 0: VT does nothing",
        &[US, 0x40, 0x54, VT, VT, b'A'],
        &[(0, 20), (24, 20)],
    ),
    (
        "row 0: a character in column 40 leaves the cursor there",
        &[US, 0x40, 0x67, b'A', b'B', b'C', b'D'],
        &[(0, 39), (0, 40), (1, 1)],
    ),
    (
        "row 0: LF returns to place and attributes, and the ground waits again",
        &[
            US, 0x4c, 0x54, ESC, GREEN, ESC, FLASH, ESC, INVERSE, ESC, ON_BLUE, US, 0x40, 0x45,
            b'A', LF, b'B', SPACE, b'C',
        ],
        &[(0, 5), (12, 20), (12, 21), (12, 22)],
    ),
    (
        "row 0: LF brings back G1",
        &[US, 0x4c, 0x54, SO, ESC, RED, US, 0x40, 0x41, b'A', LF, b'a'],
        &[(0, 1), (12, 20)],
    ),
    (
        "SO: G1, inverse off; SI: G0, and inverse stays off",
        &[ESC, INVERSE, b'A', SO, b'B', SI, b'C'],
        &[(1, 1), (1, 2), (1, 3)],
    ),
    (
        "CON and COFF show and hide the cursor",
        &[CON, b'A', CON, COFF, COFF, b'B'],
        &[],
    ),
    (
        "ESC 4/0 to 4/7: ink",
        &[
            ESC, 0x40, b'0', ESC, 0x41, b'1', ESC, 0x42, b'2', ESC, 0x43, b'3', ESC, 0x44, b'4',
            ESC, 0x45, b'5', ESC, 0x46, b'6', ESC, 0x47, b'7',
        ],
        &[
            (1, 1),
            (1, 2),
            (1, 3),
            (1, 4),
            (1, 5),
            (1, 6),
            (1, 7),
            (1, 8),
        ],
    ),
    (
        "ESC 5/0 to 5/7: ground, taken by a G0 space",
        &[
            ESC, 0x57, SPACE, ESC, 0x56, SPACE, ESC, 0x55, SPACE, ESC, 0x54, SPACE, ESC, 0x53,
            SPACE, ESC, 0x52, SPACE, ESC, 0x51, SPACE, ESC, 0x50, SPACE,
        ],
        &[
            (1, 1),
            (1, 2),
            (1, 3),
            (1, 4),
            (1, 5),
            (1, 6),
            (1, 7),
            (1, 8),
        ],
    ),
    (
        "a ground waits, and is taken by the space and all later ones",
        &[ESC, ON_RED, b'A', b'B', SPACE, b'C', SO, b'd'],
        &[(1, 1), (1, 2), (1, 3), (1, 4), (1, 5)],
    ),
    (
        "a ground is taken by any G1 character",
        &[SO, ESC, ON_RED, b'a', SI, b'B'],
        &[(1, 1), (1, 2)],
    ),
    (
        "ESC 4/8 flash, 4/9 steady",
        &[
            ESC, FLASH, b'A', ESC, STEADY, b'B', SO, ESC, FLASH, b'c', ESC, STEADY, b'd',
        ],
        &[(1, 1), (1, 2), (1, 3), (1, 4)],
    ),
    (
        "ESC 5/D inverse, 5/C normal",
        &[ESC, INVERSE, b'A', ESC, NORMAL, b'B', ESC, NORMAL, b'C'],
        &[(1, 1), (1, 2), (1, 3)],
    ),
    (
        "ESC 5/D has no action in G1",
        &[SO, ESC, INVERSE, b'a', SI, b'B'],
        &[(1, 1), (1, 2)],
    ),
    (
        "REP: not counting the first character",
        &[b'A', REP, 0x43, b'B'],
        &[(1, 1), (1, 4), (1, 5)],
    ),
    (
        "REP: with the other attributes of the moment",
        &[
            b'A', ESC, GREEN, ESC, FLASH, ESC, INVERSE, ESC, ON_RED, REP, 0x42, SPACE, REP, 0x41,
        ],
        &[(1, 1), (1, 2), (1, 3), (1, 4), (1, 5)],
    ),
    (
        "REP: its own set, not the current one",
        &[
            b'A', SO, REP, 0x41, b'b', SI, REP, 0x41, SS2, b'c', REP, 0x41,
        ],
        &[(1, 1), (1, 2), (1, 3), (1, 4), (1, 5), (1, 6)],
    ),
    (
        "REP: only a fresh screen has no last character",
        &[REP, 0x45, FF, REP, 0x45, b'A', FF, REP, 0x42],
        &[(1, 1), (1, 2), (1, 3)],
    ),
    (
        "REP: other n from 2/0 are dropped",
        &[b'A', REP, 0x20, REP, 0x3f, b'B'],
        &[(1, 1), (1, 2)],
    ),
    (
        "SS2: a G2 cell; a code of column 4 is swallowed",
        &[SS2, 0x3f, SS2, 0x40, SS2, 0x4f, SS2, 0x50, b'A'],
        &[(1, 1), (1, 2), (1, 3)],
    ),
    (
        "ESC and column 2: dropped up to 3/0 to 7/E",
        &[ESC, 0x20, 0x2f, 0x20, 0x30, b'A', ESC, 0x2f, 0x7e, b'B'],
        &[(1, 1), (1, 2)],
    ),
    (
        "ESC 5/B: dropped up to 4/0 to 7/E",
        &[ESC, CSI, 0x20, 0x3f, 0x30, 0x40, b'A', ESC, CSI, 0x7e, b'B'],
        &[(1, 1), (1, 2)],
    ),
    (
        "SEP drops one code",
        &[SEP, b'A', b'B', SEP, 0x7f, b'C'],
        &[(1, 1), (1, 2)],
    ),
    (
        "other C0 codes have no action",
        &[
            b'A', 0x01, 0x02, 0x03, 0x04, ENQ, 0x06, BEL, DLE, 0x15, SYN, 0x17, CAN, SUB, 0x1c,
            SS3, b'B',
        ],
        &[(1, 1), (1, 2), (1, 3)],
    ),
    (
        "NUL is skipped in every sequence",
        &[
            NUL, ESC, NUL, RED, ESC, NUL, 0x28, NUL, 0x40, ESC, CSI, NUL, 0x40, US, NUL, 0x42, NUL,
            0x43, b'A', NUL, REP, NUL, 0x41, SS2, NUL, b'c', SEP, NUL, b'D', b'E',
        ],
        &[(2, 3), (2, 4), (2, 5), (2, 6)],
    ),
];

/// The rules of the page, and every doubtful place as it was decided.
pub fn rules() -> Script {
    let mut script = Script::trying("The rules of the screen one by one, and the doubtful places.");
    for rule in RULES {
        shown(&mut script, rule);
    }
    every_cell_after_ff(&mut script);
    decided::doubtful_places(&mut script);
    script
}

/// Shows one rule on a fresh screen.
pub fn shown(script: &mut Script, &(what, values, places): &Rule) {
    script.comment(what);
    script.line(FRESH);
    bytes(script, values);
    cells(script, places);
}

fn every_cell_after_ff(script: &mut Script) {
    script.comment("every cell: a full screen, and after FF");
    let (_, fill, _) = RULES[0];
    script.line(FRESH);
    bytes(script, fill.strip_suffix(&[FF]).unwrap_or(fill));
    script.line(DUMP);
    script.line(byte(FF));
    script.line(DUMP);
}
