//! One hut: line bytes through the receiver to the links, and on to the screen.

use crate::links::{Links, Outputs, MODEM, SCREEN};
use crate::receiver::{Heard, Receiver};
use crate::screen::Screen;

pub struct Board {
    pub receiver: Receiver,
    pub links: Links,
    pub screen: Screen,
}

impl Board {
    /// Fresh, switched on and connected.
    pub fn connected() -> Board {
        Board {
            receiver: Receiver::switched_on(),
            links: Links::connected(),
            screen: Screen::fresh(),
        }
    }

    /// A piece of line bytes. The outputs are to be empty: what the screen gets is written on it at
    /// the end.
    pub fn lines(&mut self, piece: &[u8], outputs: &mut Outputs, requests: &mut Vec<u8>) {
        let mut rest = piece;
        while !rest.is_empty() {
            let (taken, heard) = self.receiver.take(rest);
            rest = &rest[taken..];
            match heard {
                Heard::Nothing => {}
                Heard::Values(_, values) => self.links.hear_all(MODEM, &values, outputs),
                Heard::Request(request) => requests.extend_from_slice(&request),
            }
        }
        self.screen.run(&outputs[SCREEN]);
    }
}
