//! Blocks: how their bits and bytes lie, the division, the maker and the judge, and
//! the commands on them.

pub mod commands;
pub mod judge;
pub mod layout;
pub mod maker;
pub mod polynomial;
