//! The receiver at the end of the line, and the commands on it.

pub mod commands;
pub mod receiver;
pub mod state;
