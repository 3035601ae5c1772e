//! The state of the links: the table, and the codes that modem and socket have
//! begun a sequence with. It may be one that was handed in outside the ranges.

/// A module, by its place in the table.
pub type Module = usize;

pub const SCREEN: Module = 0;
pub const KEYBOARD: Module = 1;
pub const MODEM: Module = 2;
pub const SOCKET: Module = 3;

pub const MODULES: usize = 4;

/// Whether the bytes of a sender, the first index, reach a receiver, the second.
pub type Table = [[bool; MODULES]; MODULES];

#[derive(Clone)]
pub struct Links {
    pub table: Table,
    /// The modem's unfinished sequence, all its codes so far. None: nothing is unfinished.
    pub modem: Vec<u8>,
    /// The socket's.
    pub socket: Vec<u8>,
}

impl Links {
    /// This table, and nothing unfinished.
    pub fn new(table: Table) -> Self {
        Links {
            table,
            modem: Vec::new(),
            socket: Vec::new(),
        }
    }
}

/// The links of document 001, part 2, section 1-2-1.
pub fn local() -> Table {
    linking(&[
        (KEYBOARD, MODEM),
        (MODEM, SCREEN),
        (KEYBOARD, SOCKET),
        (SOCKET, SCREEN),
    ])
}

/// The links of section 1-2-2.
pub fn connected() -> Table {
    linking(&[
        (KEYBOARD, MODEM),
        (MODEM, SCREEN),
        (MODEM, SOCKET),
        (SOCKET, MODEM),
    ])
}

/// A table with these links, each a sender and a receiver, and no others.
pub fn linking(links: &[(Module, Module)]) -> Table {
    let mut table = Table::default();
    for &(sender, receiver) in links {
        table[sender][receiver] = true;
    }
    table
}
