//! The stored records and values for the keeper's program.

pub mod lines;
pub mod pages;
