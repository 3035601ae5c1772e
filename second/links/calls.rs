//! The calls on the links: what they refuse before any rule is followed.

use crate::links::ranges::LARGEST_CODE;
use crate::links::rules::Sent;
use crate::links::state::{Links, Module, Table};

/// Why a call leaves the state as it is and sends nothing.
pub enum Refusal {
    BrokenState,
    ValueTooLarge,
}

impl Links {
    /// The host chooses a table. What is unfinished stays.
    pub fn choose(&mut self, table: Table) -> Result<Sent, Refusal> {
        if !self.is_in_range() {
            return Err(Refusal::BrokenState);
        }
        self.table = table;
        Ok(Sent::default())
    }

    /// Takes one value from keyboard, modem or socket.
    pub fn take(&mut self, sender: Module, value: u8) -> Result<Sent, Refusal> {
        if !self.is_in_range() {
            return Err(Refusal::BrokenState);
        }
        if value > LARGEST_CODE {
            return Err(Refusal::ValueTooLarge);
        }
        Ok(self.hear(sender, value))
    }
}
