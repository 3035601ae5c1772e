//! The screen: its codes, state and rules, what a call on it refuses, and the
//! commands on it.

pub mod calls;
pub mod codes;
pub mod commands;
pub mod ranges;
pub mod reading;
pub mod rules;
pub mod state;
pub mod writing;
