//! The lines of the stored scripts on the screen, and the script of its cards.

pub mod broken;
pub mod decided;
pub mod lines;
pub mod places;
pub mod random;
pub mod repeats;
pub mod rules;
pub mod runs;
pub mod sequences;

use crate::screen::codes::{ESC, FF, REP, SO, US, ZERO};
use crate::screen::state::Screen;
use crate::stored::scripts::script::Script;
use crate::trial::writing;

pub const FRESH: &str = "scr fresh";
pub const DUMP: &str = "scr dump";

/// The command that hands in one value.
pub fn byte(value: u8) -> String {
    format!("scr byte {value:02x}")
}

/// The command that runs over these values.
pub fn run(values: &[u8]) -> String {
    format!("scr run {}", writing::bytes(values))
}

/// The command that reads the cell at a place.
pub fn cell(row: u8, column: u8) -> String {
    format!("scr cell {row} {column}")
}

/// The command that hands in a state.
pub fn load(screen: &Screen) -> String {
    let parts = screen.written_parts().join(" ");
    format!("scr load {} {parts}", screen.written_cells())
}

/// The values, each handed in by its own command.
pub fn bytes(script: &mut Script, values: &[u8]) {
    for &each in values {
        script.line(byte(each));
    }
}

pub fn cells(script: &mut Script, places: &[(u8, u8)]) {
    for &(row, column) in places {
        script.line(cell(row, column));
    }
}

/// The codes that bring the cursor to a place.
pub fn us(row: u8, column: u8) -> [u8; 3] {
    [US, ZERO + row, ZERO + column]
}

/// W12 to W14, value by value and as runs, with every cell.
pub fn cards() -> Script {
    let mut script = Script::trying("The bench cards W12 to W14.");
    script.comment("a fresh screen: the start of a script, and by command");
    script.line(DUMP);
    script.line(FRESH);
    script.line(DUMP);
    card(&mut script, "W12", &[FF, b'A', REP, b'J']);
    for column in 1..=13 {
        script.line(cell(1, column));
    }
    card(&mut script, "W13", &[US, 0x58, 0x68, b'A']);
    cells(&mut script, &[(24, 39), (24, 40), (1, 1), (0, 40)]);
    card(&mut script, "W14", &[US, 0x41, 0x69]);
    cells(&mut script, &[(1, 1), (1, 40), (2, 1)]);
    nothing_moves(&mut script);
    script
}

fn card(script: &mut Script, name: &str, values: &[u8]) {
    script.comment(name);
    script.line(FRESH);
    bytes(script, values);
    script.line(DUMP);
    script.comment(&format!("{name} as one run"));
    script.line(FRESH);
    script.line(run(values));
    script.line(DUMP);
}

fn nothing_moves(script: &mut Script) {
    script.comment("W14 elsewhere, with attributes and a ground waiting");
    script.line(FRESH);
    script.line(run(&us(12, 20)));
    script.line(run(&[ESC, 0x41, ESC, 0x53, ESC, 0x48, SO, b'a', ESC, 0x54]));
    bytes(script, &[US, 0x41, 0x69]);
    script.line(DUMP);
}
