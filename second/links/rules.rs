//! The links: values go along them from module to module, and the commands
//! among those of modem and socket are taken out and obeyed.

use std::mem;

use crate::links::codes::{ASK, CLEAR, ESC, FIRST_RECEIVER, FIRST_SENDER, PRO1, PRO2, PRO3, SET};
use crate::links::state::{Links, Module, MODEM, MODULES, SOCKET};

/// The first code after PRO3 in a reply.
const REPLY: u8 = 0x63;

/// The one status bit that belongs to no module and is always set.
const STATUS: u8 = 0x40;

/// What each receiver gets from a call.
pub type Sent = [Vec<u8>; MODULES];

impl Links {
    /// Takes one value of at most 127 from keyboard, modem or socket. The state
    /// must be in range.
    pub fn hear(&mut self, sender: Module, value: u8) -> Sent {
        let codes = match sender {
            MODEM => &mut self.modem,
            SOCKET => &mut self.socket,
            // The keyboard is not heard for commands, so nothing of it is held.
            _ => return self.along_links(sender, &[value]),
        };
        codes.push(value);
        if is_unfinished(codes) {
            return Sent::default();
        }
        let ended = mem::take(codes);
        self.end(sender, &ended)
    }

    /// A sequence has ended: a command is taken out of the flow, and anything
    /// else, one plain value or ESC and its next code, is passed on.
    fn end(&mut self, sender: Module, codes: &[u8]) -> Sent {
        match *codes {
            [ESC, kind, ..] if codes_taken(kind).is_some() => {
                let mut sent = Sent::default();
                sent[sender] = self.obey(codes);
                sent
            }
            _ => self.along_links(sender, codes),
        }
    }

    fn along_links(&self, sender: Module, values: &[u8]) -> Sent {
        self.table[sender].map(|linked| if linked { values.to_vec() } else { Vec::new() })
    }

    /// The reply to a command; none to an unknown one, which does nothing.
    fn obey(&mut self, command: &[u8]) -> Vec<u8> {
        let receiver = match *command {
            [ESC, PRO3, SET, receiver, sender] => self.link(receiver, sender, true),
            [ESC, PRO3, CLEAR, receiver, sender] => self.link(receiver, sender, false),
            [ESC, PRO2, ASK, receiver] => module(receiver, FIRST_RECEIVER),
            _ => None,
        };
        receiver.map_or_else(Vec::new, |receiver| self.reply(receiver))
    }

    /// Sets or clears the link between the modules of these codes, and gives
    /// the receiver. Where a code is that of no module, nothing happens.
    fn link(&mut self, receiver: u8, sender: u8, linked: bool) -> Option<Module> {
        let receiver = module(receiver, FIRST_RECEIVER)?;
        let sender = module(sender, FIRST_SENDER)?;
        // A module is never linked to itself, and yet the command is answered.
        if sender != receiver {
            self.table[sender][receiver] = linked;
        }
        Some(receiver)
    }

    fn reply(&self, receiver: Module) -> Vec<u8> {
        let code = FIRST_RECEIVER + receiver as u8;
        vec![ESC, PRO3, REPLY, code, self.status(receiver)]
    }

    /// The weights 1, 2, 4 and 8 stand for the senders in their order. The
    /// receiver's own says that it is active, as no module here can be blocked.
    fn status(&self, receiver: Module) -> u8 {
        let reaches = |&sender: &Module| sender == receiver || self.table[sender][receiver];
        let senders = (0..MODULES).filter(reaches);
        STATUS + senders.map(|sender| 1 << sender).sum::<u8>()
    }
}

/// Whether a sequence of these codes waits for more: ESC alone, or a command
/// with fewer codes than it takes.
pub fn is_unfinished(codes: &[u8]) -> bool {
    match codes {
        [ESC] => true,
        [ESC, kind, taken @ ..] => codes_taken(*kind).is_some_and(|takes| taken.len() < takes),
        _ => false,
    }
}

/// How many codes a command takes after ESC and this one; none if it is no command.
fn codes_taken(kind: u8) -> Option<usize> {
    match kind {
        PRO1 => Some(1),
        PRO2 => Some(2),
        PRO3 => Some(3),
        _ => None,
    }
}

/// The module of a code, where the screen's is the first.
fn module(code: u8, first: u8) -> Option<Module> {
    let place = Module::from(code.checked_sub(first)?);
    (place < MODULES).then_some(place)
}
