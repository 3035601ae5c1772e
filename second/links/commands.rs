//! The family of commands on the links: `lnk`.

use crate::links;
use crate::links::calls::Refusal;
use crate::links::rules::Sent;
use crate::links::state::{self, Links};
use crate::trial::running::Family;
use crate::trial::{reading, writing};

const TAKEN: u8 = 0;
const VALUE_TOO_LARGE: u8 = 2;
const BROKEN_STATE: u8 = 5;

pub struct LinksCommands {
    /// In range or not.
    links: Links,
}

impl LinksCommands {
    pub fn start() -> Self {
        LinksCommands {
            links: Links::new(state::local()),
        }
    }

    /// Puts a new state in place of the old one, broken or not.
    fn replace(&mut self, links: Links) -> String {
        self.links = links;
        self.written(TAKEN, Sent::default())
    }

    /// A call on the links. Where it is refused, nothing is sent.
    fn call(&mut self, call: impl FnOnce(&mut Links) -> Result<Sent, Refusal>) -> String {
        match call(&mut self.links) {
            Ok(sent) => self.written(TAKEN, sent),
            Err(Refusal::BrokenState) => self.written(BROKEN_STATE, Sent::default()),
            Err(Refusal::ValueTooLarge) => self.written(VALUE_TOO_LARGE, Sent::default()),
        }
    }

    /// The number, what each receiver gets, and the state after the call.
    fn written(&self, number: u8, sent: Sent) -> String {
        let [screen, keyboard, modem, socket] = sent.map(|bytes| writing::bytes(&bytes));
        let sent = format!("screen={screen} keyboard={keyboard} modem={modem} socket={socket}");
        let [table, modem, socket] = self.links.written_parts();
        format!("{number} {sent} table={table} pend_modem={modem} pend_socket={socket}")
    }
}

impl Family for LinksCommands {
    fn answer(&mut self, words: &[&str]) -> Option<String> {
        match words {
            ["lnk", "set", state @ ..] => Some(self.replace(links::reading::links(state)?)),
            ["lnk", "to", table] => {
                let table = links::reading::named_table(table)?;
                Some(self.call(|links| links.choose(table)))
            }
            ["lnk", "from", sender, value] => {
                let sender = links::reading::sender(sender)?;
                let [value] = reading::byte_array(value)?;
                Some(self.call(|links| links.take(sender, value)))
            }
            ["lnk", table] => Some(self.replace(Links::new(links::reading::named_table(table)?))),
            _ => None,
        }
    }
}
