//! The lines of the stored scripts on the board, and what these scripts share.

pub mod broken;
pub mod cards;
pub mod lines;
pub mod no_commands;
pub mod pieces;
pub mod record;

use crate::block::layout::{Block, LENGTH};
use crate::board::joined::OUTPUTS;
use crate::links::state::Links;
use crate::screen::state::Screen;
use crate::stored::scripts::line::IN_COLLECTING;
use crate::stored::scripts::script::Script;
use crate::trial::limits::LONGEST_PIECE;
use crate::trial::writing;

pub const FRESH: &str = "brd fresh";
pub const ON: &str = "brd on";
pub const OFF: &str = "brd off";
pub const ASK: &str = "brd ask";
pub const TO_LOCAL: &str = "brd to local";
pub const TO_CONNECTED: &str = "brd to connected";
pub const DUMP: &str = "brd dump";

/// Room enough for what a single block can hand out: fifteen values and an ESC
/// before them, four replies, a request.
pub const ROOM_FOR_A_BLOCK: [usize; OUTPUTS] = [16, 20, 16, 2];

/// The most room that a command can give.
pub const MOST_ROOM: [usize; OUTPUTS] = [LONGEST_PIECE; OUTPUTS];

/// The command that hands in a byte of the line.
pub fn line(byte: u8) -> String {
    format!("brd line {byte:02x}")
}

/// The command that hands in a piece from the line.
pub fn lines(piece: &[u8], rooms: [usize; OUTPUTS]) -> String {
    let rooms = rooms.map(|room| room.to_string()).join(" ");
    format!("brd lines {} {rooms}", writing::bytes(piece))
}

pub fn key(value: u8) -> String {
    format!("brd key {value:02x}")
}

pub fn socket(value: u8) -> String {
    format!("brd socket {value:02x}")
}

/// The command that hands in the receiver's state.
pub fn rx(phase: usize, number: usize, count: usize, seen: usize, held: &Block) -> String {
    let held = writing::bytes(held);
    format!("brd rx {phase} {number} {count} {seen} {held}")
}

/// The command that hands in the state of the links.
pub fn lnk(links: &Links) -> String {
    format!("brd lnk {}", links.written_parts().join(" "))
}

/// The command that hands in the screen's state.
pub fn scr(screen: &Screen) -> String {
    let parts = screen.written_parts().join(" ");
    format!("brd scr {} {parts}", screen.written_cells())
}

/// The bytes of the line, each handed in by its own command.
pub fn bytes(script: &mut Script, bytes: &[u8]) {
    for &each in bytes {
        script.line(line(each));
    }
}

pub fn keys(script: &mut Script, values: &[u8]) {
    for &value in values {
        script.line(key(value));
    }
}

pub fn sockets(script: &mut Script, values: &[u8]) {
    for &value in values {
        script.line(socket(value));
    }
}

/// The last byte of a block whose others are held.
pub fn last_byte(script: &mut Script, number: usize, block: &Block) {
    script.line(rx(IN_COLLECTING, number, LENGTH - 1, 0, block));
    script.line(line(block[LENGTH - 1]));
}
