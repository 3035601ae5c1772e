//! The trial script format, whatever part a command is on.

pub mod limits;
pub mod reading;
pub mod running;
pub mod writing;
