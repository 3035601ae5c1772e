//! The doubtful places of the screen's rules, S1 to S48, as they were decided:
//! the second half of the stored script of its rules.

use crate::screen::codes::{
    BS, COFF, CON, CR, ESC, FF, HT, LF, NUL, REP, RS, SEP, SI, SO, SPACE, SS2, US, VT,
};
use crate::screen::state::{Character, Place, Screen, Unfinished, G1, G2};
use crate::stored::scripts::screen::rules::{
    shown, Rule, BEL, CAN, CSI, DLE, ENQ, FLASH, GREEN, INVERSE, NORMAL, ON_BLACK, ON_BLUE,
    ON_GREEN, ON_RED, RED, SS3, SUB, SYN,
};
use crate::stored::scripts::screen::{bytes, cells, load};
use crate::stored::scripts::script::Script;

/// The doubtful places that show on a fresh screen.
const DECIDED: &[Rule] = &[
    (
        "S1: SS2 while G1 is current gives a G2 cell, or swallows a code of column 4",
        &[SO, SS2, 0x23, SS2, 0x42, b'a'],
        &[(1, 1), (1, 2)],
    ),
    (
        "S2: SEP FF clears nothing",
        &[b'A', SEP, FF, b'B'],
        &[(1, 1), (1, 2)],
    ),
    ("S2: SEP ESC 4/1 writes A", &[SEP, ESC, 0x41], &[(1, 1)]),
    ("S2: SEP SEP A writes A", &[SEP, SEP, b'A'], &[(1, 1)]),
    (
        "S3: SEP NUL A B writes only B",
        &[SEP, NUL, b'A', b'B'],
        &[(1, 1), (1, 2)],
    ),
    (
        "S4: ESC 3/5, 3/6, 3/7 and SS3 have no action, and what follows is written",
        &[ESC, 0x35, b'A', ESC, 0x36, b'B', ESC, 0x37, b'C', SS3, b'D'],
        &[(1, 1), (1, 2), (1, 3), (1, 4)],
    ),
    (
        "S5: ESC 3/9, 3/A, 3/B are pairs like others, and what follows is written",
        &[
            ESC, 0x39, 0x70, ESC, 0x3a, 0x62, 0x58, ESC, 0x3b, 0x61, 0x58, 0x52,
        ],
        &[(1, 1), (1, 2), (1, 3), (1, 4), (1, 5), (1, 6)],
    ),
    (
        "S6: ESC ESC 4/1 sets ink 1",
        &[ESC, ESC, 0x41, b'A'],
        &[(1, 1)],
    ),
    (
        "S7: codes without action end a sequence too",
        &[
            ESC, BEL, 0x41, US, ENQ, 0x42, US, 0x42, DLE, 0x43, REP, CAN, 0x44, SS2, SUB, 0x45,
            ESC, 0x28, SYN, 0x46, ESC, CSI, SS3, 0x47,
        ],
        &[(1, 1), (1, 2), (1, 3), (1, 4), (1, 5), (1, 6), (1, 7)],
    ),
    (
        "S7: a code that begins its own sequence ends the other",
        &[
            b'A', US, REP, 0x43, US, 0x42, ESC, 0x41, b'B', SS2, US, 0x43, 0x44, b'C',
        ],
        &[(1, 4), (1, 5), (3, 4)],
    ),
    (
        "S8: 7/F does not end ESC and column 2, nor ESC 5/B",
        &[ESC, 0x28, 0x7f, 0x40, b'A', ESC, CSI, 0x7f, 0x40, b'B'],
        &[(1, 1), (1, 2)],
    ),
    (
        "S9: columns 2 and 3 in ESC 5/B, and column 2 after column 2, leave it open",
        &[
            ESC, CSI, 0x2f, 0x3f, 0x4a, b'A', ESC, 0x21, 0x22, 0x2f, 0x3f, b'B',
        ],
        &[(1, 1), (1, 2)],
    ),
    (
        "S9: ESC 5/B 5/B is complete",
        &[ESC, CSI, CSI, b'A'],
        &[(1, 1)],
    ),
    (
        "S10: ESC 2/5 4/0 is complete",
        &[ESC, 0x25, 0x40, b'A'],
        &[(1, 1)],
    ),
    (
        "S11: a row code off the screen still waits for the column code",
        &[
            US, 0x20, 0x41, b'A', US, 0x7f, 0x41, b'B', US, 0x59, 0x20, b'C',
        ],
        &[(1, 1), (1, 2), (1, 3)],
    ),
    (
        "S12: US cut by a C0 code: it is obeyed, the row code forgotten",
        &[US, HT, 0x42, 0x43, US, 0x45, LF, 0x44, 0x45],
        &[(1, 2), (1, 3), (2, 4), (2, 5)],
    ),
    (
        "S13: US into row 0 while in row 0 leaves the kept place",
        &[
            US, 0x45, 0x46, ESC, RED, ESC, ON_GREEN, US, 0x40, 0x47, ESC, GREEN, US, 0x40, 0x50,
            b'A', LF, b'B',
        ],
        &[(0, 16), (5, 6)],
    ),
    (
        "S14: a bad US changes nothing: kept place, attributes, waiting ground",
        &[
            US, 0x45, 0x46, ESC, RED, ESC, ON_GREEN, ESC, INVERSE, US, 0x40, 0x69, b'A', US, 0x40,
            0x40, SPACE, US, 0x40, 0x41, US, 0x59, 0x41, LF,
        ],
        &[(5, 6), (5, 7)],
    ),
    (
        "S15: the kept place outlives its use, FF, RS and US out of row 0",
        &[
            US, 0x45, 0x46, ESC, RED, US, 0x40, 0x41, LF, FF, RS, US, 0x42, 0x42, US, 0x40, 0x41,
            RS, US, 0x40, 0x41, US, 0x43, 0x43, US, 0x40, 0x41, FF, US, 0x40, 0x41, LF,
        ],
        &[],
    ),
    (
        "S16: kept are place and attributes, not the cursor's showing or the last character",
        &[
            US, 0x45, 0x46, CON, b'A', SO, ESC, GREEN, ESC, FLASH, ESC, ON_BLUE, US, 0x40, 0x41,
            COFF, b'B', LF, REP, 0x41, b'c',
        ],
        &[(0, 1), (5, 6), (5, 7), (5, 8)],
    ),
    (
        "S19: nothing kept is written as row 1, column 1 and start attributes, and so is that kept",
        &[NUL, US, 0x40, 0x41, LF],
        &[],
    ),
    (
        "S20: FF in row 0 leaves it, keeps its cells, the kept place, and the showing",
        &[
            US, 0x45, 0x46, b'Z', CON, ESC, RED, US, 0x40, 0x43, b'A', FF, b'B',
        ],
        &[(0, 3), (1, 1), (5, 6)],
    ),
    (
        "S20: RS in row 0",
        &[
            US, 0x45, 0x46, b'Z', CON, ESC, RED, US, 0x40, 0x43, b'A', RS, b'B',
        ],
        &[(0, 3), (1, 1), (5, 6)],
    ),
    (
        "S21: FF, RS and US neither show nor hide the cursor",
        &[
            FF, RS, US, 0x41, 0x41, CON, FF, RS, US, 0x41, 0x41, US, 0x40, 0x41, LF,
        ],
        &[],
    ),
    (
        "S22: G0 7/F, other G0 and any G2 leave the ground waiting, G2 2/0 too",
        &[ESC, ON_RED, 0x7f, 0x21, SS2, 0x20, SS2, 0x7f, SPACE, b'A'],
        &[(1, 1), (1, 2), (1, 3), (1, 4), (1, 5), (1, 6)],
    ),
    (
        "S22: a G1 2/0 takes it",
        &[SO, ESC, ON_RED, SPACE, ESC, ON_BLUE, 0x7f],
        &[(1, 1), (1, 2)],
    ),
    (
        "S22: SS2 2/0 in G1 does not take it, the next G1 character does",
        &[SO, ESC, ON_RED, SS2, SPACE, b'a'],
        &[(1, 1), (1, 2)],
    ),
    (
        "S23: a later ground replaces an earlier one; an equal one still waits",
        &[
            ESC, ON_RED, ESC, ON_GREEN, b'A', ESC, ON_BLACK, b'B', SPACE, ESC, ON_BLACK,
        ],
        &[(1, 1), (1, 2), (1, 3)],
    ),
    (
        "S24: in G1 a ground acts on the next character",
        &[SO, b'a', ESC, ON_BLUE, b'b', b'c'],
        &[(1, 1), (1, 2), (1, 3)],
    ),
    (
        "S25: the character that takes the ground has it already",
        &[ESC, ON_RED, SPACE, SO, ESC, ON_GREEN, b'a'],
        &[(1, 1), (1, 2)],
    ),
    (
        "S26: REP of a G0 space: the first repetition takes the ground",
        &[SPACE, ESC, ON_RED, REP, 0x42, b'A'],
        &[(1, 1), (1, 2), (1, 3), (1, 4)],
    ),
    (
        "S26: REP 4/0 writes nothing, and the ground goes on waiting",
        &[SPACE, ESC, ON_RED, REP, 0x40, b'A', SPACE],
        &[(1, 1), (1, 2), (1, 3)],
    ),
    (
        "S27: a G1 character repeated in G0 with inverse on",
        &[SO, b'a', SI, ESC, INVERSE, ESC, RED, REP, 0x42, b'B'],
        &[(1, 1), (1, 2), (1, 3), (1, 4)],
    ),
    (
        "S28: REP after a swallowed accent repeats the character before it",
        &[b'A', SS2, 0x42, REP, 0x41],
        &[(1, 1), (1, 2), (1, 3)],
    ),
    (
        "S29: the last character outlives moves, FF, RS, US, LF out of row 0, SO and SI",
        &[
            b'A', LF, BS, REP, 0x41, FF, REP, 0x41, RS, HT, REP, 0x41, US, 0x40, 0x41, REP, 0x41,
            LF, SO, REP, 0x41, SI, REP, 0x41,
        ],
        &[(0, 1), (1, 1), (1, 2), (1, 3), (1, 4)],
    ),
    (
        "S30: REP with no last character consumes n and does nothing else",
        &[ESC, ON_RED, REP, 0x7f, 0x41],
        &[(1, 1), (1, 2)],
    ),
    (
        "S31: REP at row 0, column 40 writes there, over and over",
        &[US, 0x40, 0x68, b'A', ESC, RED, REP, 0x7f],
        &[(0, 39), (0, 40), (1, 1)],
    ),
    (
        "S31: elsewhere REP wraps like writing",
        &[US, 0x58, 0x68, b'A', VT, REP, 0x7f],
        &[(24, 40), (24, 1), (1, 23), (1, 24), (1, 25), (0, 40)],
    ),
    (
        "S32: REP leaves the last character as it is",
        &[b'A', REP, 0x41, REP, 0x41, REP, 0x40, REP, 0x41],
        &[(1, 4), (1, 5)],
    ),
    (
        "S33: 7/F in G1 stays 7/F, and no G1 code is folded",
        &[SO, 0x7f, 0x5f, 0x40, 0x60],
        &[(1, 1), (1, 2), (1, 3), (1, 4)],
    ),
    (
        "S34: SS2 7/F and SS2 2/0",
        &[SS2, 0x7f, SS2, 0x20],
        &[(1, 1), (1, 2)],
    ),
    (
        "S36: SS2 SS2 begins anew; after a swallowed accent the next code is plain",
        &[SS2, SS2, b'a', SS2, 0x41, b'e', SO, SS2, 0x41, b'e'],
        &[(1, 1), (1, 2), (1, 3)],
    ),
    (
        "S39: flash and inverse on spaces are recorded",
        &[ESC, FLASH, ESC, INVERSE, SPACE, SO, SPACE],
        &[(1, 1), (1, 2)],
    ),
    (
        "S40: row 24 joins row 1, and none of the moves enters row 0",
        &[
            BS, HT, VT, LF, US, 0x41, 0x54, VT, LF, US, 0x58, 0x68, HT, BS, LF, VT,
        ],
        &[],
    ),
    (
        "S41: BS, HT, CR, SO, attributes and CON in row 0 as elsewhere",
        &[
            US, 0x40, 0x45, HT, BS, BS, CON, SO, ESC, RED, ESC, ON_GREEN, b'a', CR, b'b', SI, COFF,
        ],
        &[(0, 4), (0, 1)],
    ),
    (
        "S43: a value too large in mid-sequence is refused, the sequence stays open",
        &[
            ESC, 0x80, 0x41, US, 0xff, 0x42, 0xc1, 0x43, SEP, 0x93, b'A', REP, 0xff, b'B',
        ],
        &[(2, 3)],
    ),
    (
        "S44: 1/6 is SYN, without action, and not the old SS2",
        &[SYN, b'A', SS2, SYN, b'B'],
        &[(1, 1), (1, 2)],
    ),
    (
        "S45: other ESC pairs are complete without action",
        &[
            ESC, 0x30, ESC, 0x3f, ESC, 0x4a, ESC, 0x4f, ESC, 0x58, ESC, 0x5a, ESC, 0x5e, ESC, 0x5f,
            ESC, 0x60, ESC, 0x61, ESC, 0x6f, ESC, 0x70, ESC, 0x7e, ESC, 0x7f, b'A',
        ],
        &[(1, 1), (1, 2)],
    ),
    (
        "S46: row 0, columns 37 to 40 are cells like others",
        &[US, 0x40, 0x65, b'A', b'B', b'C', b'D', FF],
        &[(0, 37), (0, 38), (0, 39), (0, 40)],
    ),
    (
        "S47: a ground goes on waiting through SO, SI, CON, moves and inks",
        &[
            ESC, ON_GREEN, SO, SI, CON, CR, LF, HT, ESC, RED, ESC, FLASH, SO, b'a',
        ],
        &[(2, 2)],
    ),
    (
        "S48: a write moves as HT does",
        &[
            b'A', US, 0x41, 0x68, b'B', US, 0x58, 0x68, b'C', US, 0x40, 0x68, b'D', b'E',
        ],
        &[(1, 1), (1, 40), (24, 40), (0, 40)],
    ),
];

pub fn doubtful_places(script: &mut Script) {
    for rule in DECIDED {
        shown(script, rule);
    }
    states_handed_in(script);
    open_sequences(script);
}

/// The doubtful places that only a state handed in can show.
fn states_handed_in(script: &mut Script) {
    let mut screen = in_row_0();
    screen.kept.place = Place { row: 0, column: 9 };
    screen.kept.attributes.ink = 3;
    handed_in(
        script,
        "S17: a kept place in row 0: LF goes there",
        &screen,
        &[LF, b'A', LF, LF],
    );
    handed_in(
        script,
        "S18: in row 0 with nothing kept: LF to row 1, column 1, start attributes",
        &in_row_0(),
        &[ESC, ON_RED, LF, b'A'],
    );
    let mut screen = Screen::fresh();
    screen.cells[0].code = b'A';
    handed_in(
        script,
        "S30: cells written, but no last character",
        &screen,
        &[REP, 0x43, b'B', REP, 0x41],
    );
    let mut screen = Screen::fresh();
    screen.last = Some(Character {
        set: G2,
        code: 0x42,
    });
    screen.cells[999].set = G2;
    screen.cells[999].code = 0x4f;
    handed_in(
        script,
        "S35: a G2 cell and last character of column 4: REP writes it",
        &screen,
        &[REP, 0x42],
    );
    cells(script, &[(1, 1), (1, 2), (1, 3), (24, 40)]);
    let mut screen = Screen::fresh();
    screen.attributes.set = G1;
    screen.attributes.inverse = true;
    handed_in(
        script,
        "S37: ESC 5/C makes normal in G1 too",
        &screen,
        &[
            b'a', ESC, INVERSE, b'b', ESC, NORMAL, b'c', ESC, INVERSE, b'd',
        ],
    );
    cells(script, &[(1, 1), (1, 2), (1, 3), (1, 4)]);
    handed_in(
        script,
        "S38: G1 current and inverse on: writing records it, SO clears it",
        &screen,
        &[b'a', SI, b'B', SO, b'c'],
    );
    cells(script, &[(1, 1), (1, 2), (1, 3)]);
}

fn in_row_0() -> Screen {
    let mut screen = Screen::fresh();
    screen.cursor = Place { row: 0, column: 5 };
    screen
}

fn handed_in(script: &mut Script, what: &str, screen: &Screen, values: &[u8]) {
    script.comment(what);
    script.line(load(screen));
    bytes(script, values);
}

/// Each is in range as a state handed in, whichever codes have led to it.
fn open_sequences(script: &mut Script) {
    for unfinished in [
        Unfinished::Nothing,
        Unfinished::Esc,
        Unfinished::EscColumn2,
        Unfinished::Csi,
        Unfinished::Us,
        Unfinished::UsRow(0x20),
        Unfinished::UsRow(0x42),
        Unfinished::UsRow(0x7f),
        Unfinished::Rep,
        Unfinished::Ss2,
        Unfinished::Sep,
    ] {
        let mut screen = Screen::fresh();
        screen.unfinished = unfinished;
        handed_in(
            script,
            "S42: an open sequence, handed in",
            &screen,
            &[0x42, 0x43, b'A'],
        );
    }
}
