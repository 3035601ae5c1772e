//! The links: their codes, state and rules, what a call on them refuses, and the
//! commands on them.

pub mod calls;
pub mod codes;
pub mod commands;
pub mod ranges;
pub mod reading;
pub mod rules;
pub mod state;
pub mod writing;
