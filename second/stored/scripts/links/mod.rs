//! The lines of the stored scripts on the links, and what these scripts share.

pub mod apart;
pub mod broken;
pub mod escapes;
pub mod every_code;
pub mod lines;
pub mod pairs;
pub mod random;
pub mod tables;

use crate::links::codes::{ASK, CLEAR, ESC, FIRST_RECEIVER, FIRST_SENDER, PRO1, PRO2, PRO3, SET};
use crate::links::state::{self, Links, Module, Table, KEYBOARD, MODEM, MODULES, SCREEN, SOCKET};
use crate::stored::scripts::script::Script;

pub const LOCAL: &str = "lnk local";
pub const CONNECTED: &str = "lnk connected";
pub const TO_LOCAL: &str = "lnk to local";
pub const TO_CONNECTED: &str = "lnk to connected";

pub const LARGEST_CODE: u8 = 0x7f;

/// In the order of the table.
pub const NAMES: [&str; MODULES] = ["screen", "keyboard", "modem", "socket"];

/// The modules that hand values in.
pub const SENDERS: [Module; 3] = [KEYBOARD, MODEM, SOCKET];

/// The modules that are heard for commands.
pub const EARS: [Module; 2] = [MODEM, SOCKET];

/// Each unfinished sequence and codes that end it; a plain value where nothing
/// is unfinished.
pub const UNFINISHED: [(&[u8], &[u8]); 8] = [
    (&[], &[b'A']),
    (&[ESC], &[b'A']),
    (&[ESC, PRO1], &[0x70]),
    (&[ESC, PRO2], &[ASK, 0x58]),
    (&[ESC, PRO2, ASK], &[0x5b]),
    (&[ESC, PRO3], &[SET, 0x5a, 0x50]),
    (&[ESC, PRO3, SET], &[0x59, 0x53]),
    (&[ESC, PRO3, CLEAR, 0x58], &[0x52]),
];

/// The command that hands in one value. A sender is written by the first
/// letter of its name.
pub fn from(sender: Module, value: u8) -> String {
    let letter = &NAMES[sender][..1];
    format!("lnk from {letter} {value:02x}")
}

/// The values, each handed in by its own command.
pub fn values(script: &mut Script, sender: Module, values: &[u8]) {
    for &value in values {
        script.line(from(sender, value));
    }
}

/// The command that hands in a state.
pub fn set(links: &Links) -> String {
    format!("lnk set {}", links.written_parts().join(" "))
}

/// The command that hands in a table, with nothing unfinished.
pub fn set_table(table: Table) -> String {
    set(&Links::new(table))
}

/// A table, and a sequence unfinished by one ear alone.
pub fn with_unfinished(table: Table, ear: Module, codes: &[u8]) -> Links {
    let mut links = Links::new(table);
    match ear {
        MODEM => links.modem = codes.to_vec(),
        _ => links.socket = codes.to_vec(),
    }
    links
}

/// The codes that set or clear a link.
pub fn link(what: u8, sender: Module, receiver: Module) -> [u8; 5] {
    [
        ESC,
        PRO3,
        what,
        receiver_code(receiver),
        sender_code(sender),
    ]
}

/// The codes that ask for a receiver's status.
pub fn ask(receiver: Module) -> [u8; 4] {
    [ESC, PRO2, ASK, receiver_code(receiver)]
}

/// Every receiver is asked for.
pub fn ask_each(script: &mut Script, ear: Module) {
    for receiver in 0..MODULES {
        values(script, ear, &ask(receiver));
    }
}

/// One plain value from each sender, another from each.
pub fn one_from_each(script: &mut Script) {
    for (sender, value) in [(KEYBOARD, b'k'), (MODEM, b'm'), (SOCKET, b's')] {
        script.line(from(sender, value));
    }
}

pub fn receiver_code(module: Module) -> u8 {
    FIRST_RECEIVER + module as u8
}

pub fn sender_code(module: Module) -> u8 {
    FIRST_SENDER + module as u8
}

pub fn other_ear(ear: Module) -> Module {
    match ear {
        MODEM => SOCKET,
        _ => MODEM,
    }
}

/// Each sender with each receiver that is another module.
pub fn pairs() -> Vec<(Module, Module)> {
    let all = (0..MODULES).flat_map(|sender| (0..MODULES).map(move |receiver| (sender, receiver)));
    all.filter(|(sender, receiver)| sender != receiver)
        .collect()
}

pub fn no_links() -> Table {
    state::linking(&[])
}

/// A few links that neither of the host's tables has, to and from the keyboard too.
pub fn some_links() -> Table {
    state::linking(&[
        (SCREEN, SOCKET),
        (KEYBOARD, SCREEN),
        (MODEM, KEYBOARD),
        (MODEM, SOCKET),
        (SOCKET, KEYBOARD),
    ])
}

pub fn all_links() -> Table {
    state::linking(&pairs())
}
