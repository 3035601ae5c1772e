//! The family of commands on the receiver: `rx`.

use crate::line::receiver::{Outcome, Receiver};
use crate::line::state::State;
use crate::trial::running::Family;
use crate::trial::{reading, writing};

const TAKEN: u8 = 0;
const BROKEN_STATE: u8 = 5;

pub struct ReceiverCommands {
    /// Or the broken state that was handed in.
    receiver: Result<Receiver, State>,
}

impl ReceiverCommands {
    pub fn start() -> Self {
        ReceiverCommands {
            receiver: Ok(Receiver::new()),
        }
    }

    /// Puts a new state in place of the old one, broken or not.
    fn replace(&mut self, receiver: Result<Receiver, State>) -> String {
        self.receiver = receiver;
        self.written(TAKEN, Outcome::default())
    }

    /// A call on the receiver. A broken state is handed back as it is.
    fn call(&mut self, call: impl FnOnce(&mut Receiver) -> Outcome) -> String {
        match &mut self.receiver {
            Ok(receiver) => {
                let outcome = call(receiver);
                self.written(TAKEN, outcome)
            }
            Err(_) => self.written(BROKEN_STATE, Outcome::default()),
        }
    }

    /// `NUMBER passed=VALUES modem=BYTES state=PHASE,NUMBER,COUNT,SEEN,HELD`
    fn written(&self, number: u8, outcome: Outcome) -> String {
        let passed = writing::bytes(&outcome.passed);
        let modem = writing::bytes(&outcome.modem);
        let state = match &self.receiver {
            Ok(receiver) => State::of(receiver).written(),
            Err(broken) => broken.written(),
        };
        format!("{number} passed={passed} modem={modem} state={state}")
    }
}

impl Family for ReceiverCommands {
    fn answer(&mut self, words: &[&str]) -> Option<String> {
        match words {
            ["rx", "new"] => Some(self.replace(Ok(Receiver::new()))),
            ["rx", "set", state @ ..] => Some(self.replace(State::read(state)?.receiver())),
            ["rx", "on"] => Some(self.call(Receiver::switch_on)),
            ["rx", "off"] => Some(self.call(Receiver::switch_off)),
            ["rx", "ask"] => Some(self.call(Receiver::ask_again)),
            ["rx", "byte", byte] => {
                let [byte] = reading::byte_array(byte)?;
                Some(self.call(|receiver| receiver.take(byte)))
            }
            _ => None,
        }
    }
}
