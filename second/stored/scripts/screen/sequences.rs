//! The stored script that tries every code in every unfinished sequence.

use crate::screen::codes::{CON, ESC, FF, REP, SEP, SO, SPACE, SS2, US};
use crate::stored::scripts::screen::{byte, cell, run, us, DUMP, FRESH};
use crate::stored::scripts::script::Script;

/// Each unfinished sequence, and the codes that open it.
pub const OPENINGS: [(&str, &[u8]); 9] = [
    ("no sequence", &[]),
    ("ESC", &[ESC]),
    ("ESC 2/8", &[ESC, 0x28]),
    ("ESC 5/B", &[ESC, 0x5b]),
    ("US", &[US]),
    ("US 4/2", &[US, 0x42]),
    ("REP", &[REP]),
    ("SS2", &[SS2]),
    ("SEP", &[SEP]),
];

/// Written after each code; as a column after US it is column 5.
const LETTER: u8 = b'E';

const LARGEST_CODE: u8 = 0x7f;

/// Where the codes are tried.
struct Setting {
    name: &'static str,
    /// The values that lead there from a fresh screen.
    values: Vec<u8>,
    /// Where the cursor then is.
    cursor: (u8, u8),
}

/// Every code alone and after ESC, in every unfinished sequence.
pub fn codes() -> Script {
    let mut script = Script::trying("Every code and every ESC pair in every unfinished sequence.");
    for setting in [on_the_page(), in_mosaics(), in_row_0()] {
        for opening in OPENINGS {
            control_codes(&mut script, &setting, opening);
        }
    }
    for opening in OPENINGS {
        plain_codes(&mut script, &on_the_page(), opening);
    }
    for setting in [on_the_page(), in_mosaics(), in_row_0()] {
        pairs(&mut script, &setting);
    }
    for opening in &OPENINGS[1..] {
        pairs_in_a_sequence(&mut script, &on_the_page(), opening);
    }
    script
}

/// G0, every attribute set, a ground waiting, the cursor shown.
fn on_the_page() -> Setting {
    let attributes = [ESC, 0x41, ESC, 0x52, ESC, 0x48, ESC, 0x5d];
    Setting {
        name: "on the page",
        values: [&us(12, 20)[..], &attributes, &[CON, b'a']].concat(),
        cursor: (12, 21),
    }
}

/// G1, where each character takes the ground, so it is set after one.
fn in_mosaics() -> Setting {
    let attributes = [SO, ESC, 0x43, b'a', ESC, 0x54];
    Setting {
        name: "in mosaics",
        values: [&us(12, 20)[..], &attributes].concat(),
        cursor: (12, 21),
    }
}

/// With what was kept on the page, and other attributes now.
fn in_row_0() -> Setting {
    let attributes = [ESC, 0x45, ESC, 0x56, b'b'];
    Setting {
        name: "in row 0",
        values: [&on_the_page().values[..], &us(0, 5), &attributes].concat(),
        cursor: (0, 6),
    }
}

fn control_codes(script: &mut Script, setting: &Setting, (name, opening): (&str, &[u8])) {
    script.comment(&format!(
        "{}, {name}: every code of columns 0 and 1",
        setting.name
    ));
    for code in 0..SPACE {
        script.line(FRESH);
        script.line(run(&[&setting.values[..], opening].concat()));
        script.line(byte(code));
        if code == FF {
            script.line(DUMP);
        }
        script.line(byte(LETTER));
        cell_at_cursor(script, setting);
    }
}

fn plain_codes(script: &mut Script, setting: &Setting, (name, opening): (&str, &[u8])) {
    script.comment(&format!("{}, {name}: every code from 2/0", setting.name));
    for code in SPACE..=LARGEST_CODE {
        script.line(FRESH);
        script.line(run(&[&setting.values[..], opening].concat()));
        script.line(byte(code));
        script.line(byte(LETTER));
    }
}

fn pairs(script: &mut Script, setting: &Setting) {
    script.comment(&format!("{}: ESC and every code from 2/0", setting.name));
    for code in SPACE..=LARGEST_CODE {
        script.line(FRESH);
        script.line(run(&[&setting.values[..], &[ESC]].concat()));
        script.line(byte(code));
        script.line(byte(LETTER));
        cell_at_cursor(script, setting);
    }
}

fn pairs_in_a_sequence(script: &mut Script, setting: &Setting, (name, opening): &(&str, &[u8])) {
    script.comment(&format!(
        "{}, {name}: ESC and every code from 2/0",
        setting.name
    ));
    for code in SPACE..=LARGEST_CODE {
        script.line(FRESH);
        script.line(run(&[&setting.values[..], opening, &[ESC]].concat()));
        script.line(byte(code));
        script.line(byte(LETTER));
    }
}

/// It holds the letter if the code has neither moved nor taken it.
fn cell_at_cursor(script: &mut Script, setting: &Setting) {
    let (row, column) = setting.cursor;
    script.line(cell(row, column));
}
