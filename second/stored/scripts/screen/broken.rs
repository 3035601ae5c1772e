//! The stored script that hands in states of the screen outside the ranges,
//! states just inside, and states in range that no run reaches.

use crate::screen::codes::{BS, ESC, FF, HT, LF, REP, SO, SPACE, VT};
use crate::screen::state::{Cell, Character, Place, Screen, Unfinished, CELLS, G1, G2};
use crate::stored::scripts::screen::{byte, bytes, cells, load, run, DUMP, FRESH};
use crate::stored::scripts::script::Script;
use crate::stored::xorshift::Xorshift;

const CELLS_SEED: u64 = 0x7363_7220_6365_6c6c;

/// What is changed in a good state, and how.
pub type Change = (&'static str, fn(&mut Screen));

/// Each leaves one range of a cell.
pub const CELL_CHANGES: [(&str, fn(&mut Cell)); 10] = [
    ("set 3", |cell| cell.set = 3),
    ("set 15", |cell| cell.set = 15),
    ("code 1/F", |cell| cell.code = 0x1f),
    ("code 0/0", |cell| cell.code = 0),
    ("code 128", |cell| cell.code = 0x80),
    ("code 255", |cell| cell.code = 0xff),
    ("ink 8", |cell| cell.ink = 8),
    ("ink 15", |cell| cell.ink = 15),
    ("ground 8", |cell| cell.ground = 8),
    ("ground 15", |cell| cell.ground = 15),
];

/// Each leaves one range of what is not a cell.
pub const CHANGES: &[Change] = &[
    ("cursor row 25", |screen| screen.cursor.row = 25),
    ("cursor row 255", |screen| screen.cursor.row = 255),
    ("cursor column 0", |screen| screen.cursor.column = 0),
    ("cursor column 41", |screen| screen.cursor.column = 41),
    ("cursor column 255", |screen| screen.cursor.column = 255),
    ("set 2", |screen| screen.attributes.set = 2),
    ("set 3", |screen| screen.attributes.set = 3),
    ("set 255", |screen| screen.attributes.set = 255),
    ("ink 8", |screen| screen.attributes.ink = 8),
    ("ink 255", |screen| screen.attributes.ink = 255),
    ("ground 8", |screen| screen.attributes.ground = 8),
    ("ground 255", |screen| screen.attributes.ground = 255),
    ("a waiting ground 8", |screen| {
        screen.attributes.waiting = Some(8)
    }),
    ("a waiting ground 255", |screen| {
        screen.attributes.waiting = Some(255)
    }),
    ("last character of set 3", |screen| {
        screen.last = last(3, b'A')
    }),
    ("last character of set 255", |screen| {
        screen.last = last(255, b'A')
    }),
    ("last character 0/0", |screen| screen.last = last(0, 0)),
    ("last character 1/F", |screen| screen.last = last(1, 0x1f)),
    ("last character 128", |screen| screen.last = last(2, 0x80)),
    ("last character 255", |screen| screen.last = last(0, 0xff)),
    ("kept row 25", |screen| screen.kept.place.row = 25),
    ("kept row 255", |screen| screen.kept.place.row = 255),
    ("kept column 0", |screen| screen.kept.place.column = 0),
    ("kept column 41", |screen| screen.kept.place.column = 41),
    ("kept column 255", |screen| screen.kept.place.column = 255),
    ("kept set 2", |screen| screen.kept.attributes.set = 2),
    ("kept set 255", |screen| screen.kept.attributes.set = 255),
    ("kept ink 8", |screen| screen.kept.attributes.ink = 8),
    ("kept ink 255", |screen| screen.kept.attributes.ink = 255),
    ("kept ground 8", |screen| screen.kept.attributes.ground = 8),
    ("kept ground 255", |screen| {
        screen.kept.attributes.ground = 255
    }),
    ("kept waiting ground 8", |screen| {
        screen.kept.attributes.waiting = Some(8)
    }),
    ("kept waiting ground 255", |screen| {
        screen.kept.attributes.waiting = Some(255)
    }),
    ("US and the row code 0/0", |screen| {
        screen.unfinished = Unfinished::UsRow(0)
    }),
    ("US and the row code 1/F", |screen| {
        screen.unfinished = Unfinished::UsRow(0x1f)
    }),
    ("US and the row code 128", |screen| {
        screen.unfinished = Unfinished::UsRow(0x80)
    }),
    ("US and the row code 255", |screen| {
        screen.unfinished = Unfinished::UsRow(0xff)
    }),
    ("set and kept set", |screen| {
        screen.attributes.set = 2;
        screen.kept.attributes.set = 2;
    }),
    ("cursor, colours and last character", |screen| {
        screen.cursor = Place { row: 25, column: 0 };
        screen.attributes.ink = 8;
        screen.attributes.ground = 8;
        screen.last = last(3, 0);
    }),
];

/// States at the edge of the ranges, and some that no run reaches.
pub const IN_RANGE: &[Change] = &[
    (
        "cursor in the first place of row 0, nothing kept",
        |screen| {
            screen.cursor = Place { row: 0, column: 1 };
        },
    ),
    (
        "cursor in the last place of row 0, kept there too",
        |screen| {
            screen.cursor = Place { row: 0, column: 40 };
            screen.kept.place = screen.cursor;
        },
    ),
    (
        "cursor in the last place, kept in the first of row 0",
        |screen| {
            screen.cursor = Place {
                row: 24,
                column: 40,
            };
            screen.kept.place = Place { row: 0, column: 1 };
        },
    ),
    (
        "G1 and inverse, colours 7, 7 waiting; kept so too",
        |screen| {
            screen.attributes.set = G1;
            screen.attributes.inverse = true;
            screen.attributes.ground = 7;
            screen.attributes.waiting = Some(7);
            screen.kept.attributes = screen.attributes;
        },
    ),
    ("colours 0, 0 waiting; kept in the last place", |screen| {
        screen.attributes.ink = 0;
        screen.attributes.waiting = Some(0);
        screen.kept.attributes = screen.attributes;
        screen.kept.place = Place {
            row: 24,
            column: 40,
        };
    }),
    ("last character G2 7/F", |screen| {
        screen.last = last(2, 0x7f)
    }),
    ("last character G2 4/0", |screen| {
        screen.last = last(2, 0x40)
    }),
    ("last character G0 2/0, a ground waiting", |screen| {
        screen.last = last(0, SPACE);
        screen.attributes.waiting = Some(3);
    }),
    ("last character G1 7/F", |screen| {
        screen.last = last(1, 0x7f)
    }),
    (
        "every cell G2 7/F, colours 7, flash and inverse",
        |screen| {
            screen.cells = vec![edge_cell(); CELLS];
        },
    ),
    ("US and the row code 2/0", |screen| {
        screen.unfinished = Unfinished::UsRow(0x20)
    }),
    ("US and the row code 7/F", |screen| {
        screen.unfinished = Unfinished::UsRow(0x7f)
    }),
];

/// Broken states of each kind, states at the edge, states that no run reaches.
pub fn broken() -> Script {
    let mut script = Script::trying("Broken screens, and states at the edge that are not broken.");
    for (which, index) in [("first", 0), ("last", CELLS - 1), ("middle", 500)] {
        broken_cell(&mut script, which, index);
    }
    broken_elsewhere(&mut script);
    several_cells(&mut script);
    out_of_a_broken_state(&mut script);
    states_in_range(&mut script);
    every_cell_handed_in(&mut script);
    script
}

fn broken_cell(script: &mut Script, which: &str, index: usize) {
    for (count, (what, change)) in CELL_CHANGES.iter().enumerate() {
        // Of the middle cell one change of each kind is enough.
        if which == "middle" && count % 2 == 1 {
            continue;
        }
        script.comment(&format!("{which} cell: {what}"));
        let mut screen = used();
        change(&mut screen.cells[index]);
        every_call(script, &screen);
        if count % 4 == 0 {
            script.line(DUMP);
        }
    }
}

fn broken_elsewhere(script: &mut Script) {
    for (what, change) in CHANGES {
        script.comment(what);
        let mut screen = used();
        change(&mut screen);
        every_call(script, &screen);
    }
    script.line(DUMP);
}

fn several_cells(script: &mut Script) {
    script.comment("random cells, most of them broken");
    let mut random = Xorshift::new(CELLS_SEED);
    let mut screen = used();
    screen.cells = (0..CELLS).map(|_| any_cell(&mut random)).collect();
    every_call(script, &screen);
    script.line(DUMP);
}

/// Each call leaves the broken state as it is, so the next finds it again.
/// Values too large are handed in too: 5 goes before 2.
fn every_call(script: &mut Script, broken: &Screen) {
    script.line(load(broken));
    bytes(script, &[b'A', FF, 0x80]);
    script.line(run(&[]));
    script.line(run(&[FF, b'A']));
    script.line(run(&[b'A', 0x80, 0xff]));
    cells(script, &[(1, 1), (24, 40), (25, 0)]);
}

fn out_of_a_broken_state(script: &mut Script) {
    let mut broken = used();
    broken.cells[0].set = 3;
    script.comment("out of a broken state: by a fresh screen, or a good state");
    script.line(load(&broken));
    script.line(FRESH);
    script.line(byte(b'A'));
    script.line(load(&broken));
    script.line(load(&used()));
    script.line(byte(b'A'));
    script.line(DUMP);
}

fn states_in_range(script: &mut Script) {
    for (what, change) in IN_RANGE {
        script.comment(&format!("in range: {what}"));
        let mut screen = Screen::fresh();
        change(&mut screen);
        script.line(load(&screen));
        script.line(byte(0xff));
        // As a column after US it is off the screen with either row code.
        bytes(script, &[SPACE, REP, 0x42, b'A', LF, b'B', VT, BS, HT]);
        script.line(run(&[ESC, 0x52, SO, b'a', REP, 0x41]));
        cells(script, &[(0, 1), (0, 40), (1, 1), (24, 40)]);
    }
}

/// Every digit of the cells must come through, in order.
fn every_cell_handed_in(script: &mut Script) {
    let mut random = Xorshift::new(CELLS_SEED);
    let mut screen = used();
    screen.cells = (0..CELLS).map(|_| good_cell(&mut random)).collect();
    script.comment("random cells, all in range: read, dumped, and after FF");
    script.line(load(&screen));
    script.line(DUMP);
    cells(
        script,
        &[
            (0, 1),
            (0, 40),
            (1, 1),
            (1, 40),
            (12, 20),
            (24, 1),
            (24, 40),
        ],
    );
    cells(
        script,
        &[(0, 0), (0, 41), (25, 1), (25, 40), (255, 255), (12, 255)],
    );
    script.line(byte(FF));
    script.line(DUMP);
}

/// A good state in which any call would show.
pub fn used() -> Screen {
    let mut screen = Screen::fresh();
    screen.cells[40] = edge_cell();
    screen.cursor = Place { row: 5, column: 6 };
    screen.shown = true;
    screen.attributes.ink = 1;
    screen.attributes.ground = 2;
    screen.attributes.waiting = Some(3);
    screen.attributes.flash = true;
    screen.last = last(1, b'a');
    screen.kept.place = Place { row: 7, column: 8 };
    screen.kept.attributes.ink = 4;
    screen
}

fn last(set: u8, code: u8) -> Option<Character> {
    Some(Character { set, code })
}

/// The largest of everything.
fn edge_cell() -> Cell {
    Cell {
        set: G2,
        code: 0x7f,
        ink: 7,
        ground: 7,
        flash: true,
        inverse: true,
    }
}

fn good_cell(random: &mut Xorshift) -> Cell {
    Cell {
        set: random.below(3) as u8,
        code: 0x20 + random.below(0x60) as u8,
        ink: random.below(8) as u8,
        ground: random.below(8) as u8,
        flash: random.one_in(2),
        inverse: random.one_in(2),
    }
}

/// As far as the digits go.
fn any_cell(random: &mut Xorshift) -> Cell {
    Cell {
        set: random.below(16) as u8,
        code: random.byte(),
        ink: random.below(16) as u8,
        ground: random.below(16) as u8,
        flash: random.one_in(2),
        inverse: random.one_in(2),
    }
}
