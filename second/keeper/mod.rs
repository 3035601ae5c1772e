//! What the keeper's program does with records and values.

pub mod characters;
pub mod faults;
pub mod page;
pub mod player;
pub mod portions;
pub mod replay;
pub mod send;
