//! A page of the screen, drawn for a terminal.

use crate::keeper::characters::character;
use crate::screen::state::{Cell, Screen, COLUMNS};

/// One line for each row, and one for the cursor.
pub fn plain(screen: &Screen) -> String {
    let mut text = String::new();
    for (row, cells) in rows(screen).enumerate() {
        let characters: String = cells.iter().map(character).collect();
        text += &format!("row {row:2} |{characters}|\n");
    }
    let shown = if screen.shown { "shown" } else { "hidden" };
    let (row, column) = (screen.cursor.row, screen.cursor.column);
    text + &format!("cursor: row {row}, column {column}, {shown}\n")
}

/// One line for each row, in the colours of a terminal.
pub fn coloured(screen: &Screen) -> String {
    rows(screen).map(coloured_row).collect()
}

fn rows(screen: &Screen) -> std::slice::Chunks<'_, Cell> {
    screen.cells.chunks(COLUMNS.into())
}

/// The look is said where it changes, and at the start.
fn coloured_row(cells: &[Cell]) -> String {
    let mut text = String::new();
    let mut look_before = String::new();
    for cell in cells {
        let look = look(cell);
        if look != look_before {
            text += &look;
        }
        text.push(character(cell));
        look_before = look;
    }
    text + "\x1b[0m\n"
}

/// The sequence that gives the terminal a cell's ink, ground, flash and inverse.
fn look(cell: &Cell) -> String {
    let flash = if cell.flash { ";5" } else { "" };
    let inverse = if cell.inverse { ";7" } else { "" };
    format!("\x1b[0;3{};4{}{flash}{inverse}m", cell.ink, cell.ground)
}
