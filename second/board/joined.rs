//! The board: receiver, links and screen joined.

use crate::line::receiver::Receiver;
use crate::links;
use crate::links::state::{Links, Module, MODEM};
use crate::screen::state::Screen;

/// Where bytes leave the board: keyboard, modem and socket, which get what the
/// links send them, and the receiver's requests, which go to the modem too.
pub const OUTPUTS: usize = 4;

/// What leaves the board at a call, in that order.
pub type Handed = [Vec<u8>; OUTPUTS];

#[derive(Clone)]
pub struct Board {
    pub receiver: Receiver,
    pub links: Links,
    pub screen: Screen,
}

// All parts must be in range before each of these.
impl Board {
    pub fn fresh() -> Self {
        Board {
            receiver: Receiver::new(),
            links: Links::new(links::state::local()),
            screen: Screen::fresh(),
        }
    }

    /// Takes one byte from the line. What the receiver passes on is handed to
    /// the links as the modem's.
    pub fn hear(&mut self, byte: u8) -> Handed {
        let outcome = self.receiver.take(byte);
        let mut handed = requesting(outcome.modem);
        for value in outcome.passed {
            add(&mut handed, self.hand_in(MODEM, value));
        }
        handed
    }

    /// Takes the bytes one after the other.
    pub fn hear_all(&mut self, bytes: &[u8]) -> Handed {
        let mut handed = Handed::default();
        for &byte in bytes {
            add(&mut handed, self.hear(byte));
        }
        handed
    }

    /// Takes one value of at most 127 from keyboard, modem or socket. What the
    /// links send to the screen is written there.
    pub fn hand_in(&mut self, sender: Module, value: u8) -> Handed {
        let [screen, keyboard, modem, socket] = self.links.hear(sender, value);
        for value in screen {
            self.screen.take(value);
        }
        [keyboard, modem, socket, Vec::new()]
    }
}

/// The receiver's request, if it has one, and nothing else.
pub fn requesting(request: Vec<u8>) -> Handed {
    [Vec::new(), Vec::new(), Vec::new(), request]
}

fn add(handed: &mut Handed, more: Handed) {
    for (output, more) in handed.iter_mut().zip(more) {
        output.extend(more);
    }
}
