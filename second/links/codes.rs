//! The codes of the commands that the links hear.

/// 1/B, which begins every command.
pub const ESC: u8 = 0x1b;

// The code after ESC: a command that takes one, two or three codes more.
pub const PRO1: u8 = 0x39;
pub const PRO2: u8 = 0x3a;
pub const PRO3: u8 = 0x3b;

// The first code after PRO3: a link is cleared or set.
pub const CLEAR: u8 = 0x60;
pub const SET: u8 = 0x61;

/// The first code after PRO2: a receiver is asked for.
pub const ASK: u8 = 0x62;

// The screen as sender and as receiver. The other modules follow it in order.
pub const FIRST_SENDER: u8 = 0x50;
pub const FIRST_RECEIVER: u8 = 0x58;
