//! The board, which joins the other parts, and the commands on it.

pub mod commands;
pub mod joined;
