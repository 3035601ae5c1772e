//! The stored trial scripts, by the part that they try.

pub mod block;
pub mod board;
pub mod line;
pub mod links;
pub mod screen;
pub mod script;
