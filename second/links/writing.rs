//! The state of the links as commands and answers write it, in range or not.

use crate::links::state::{Links, Table};
use crate::trial::writing;

impl Links {
    /// TABLE MODEM SOCKET.
    pub fn written_parts(&self) -> [String; 3] {
        [
            table(&self.table),
            writing::bytes(&self.modem),
            writing::bytes(&self.socket),
        ]
    }
}

/// A digit for each sender and receiver, all receivers of the first sender first.
fn table(table: &Table) -> String {
    let digit = |&linked: &bool| if linked { '1' } else { '0' };
    table.as_flattened().iter().map(digit).collect()
}
