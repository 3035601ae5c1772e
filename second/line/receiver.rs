//! The receiver: it takes the bytes of the line one by one, judges each block
//! of seventeen, and asks for the repeat of one that cannot be mended.

use crate::block::judge::{self, Judgement};
use crate::block::layout::{self, LENGTH};

/// Block numbers run from 0 up to, but not reaching, this.
pub const NUMBERS: u8 = 16;

/// The synchronising code 1/6, with parity.
pub const SYN: u8 = 150;

/// 1/5, with parity.
const NACK: u8 = 149;

/// 4/0, the first of the sixteen codes that carry a block number.
const NUMBER_ZERO: u8 = 0x40;

/// 7/F, which stands for a byte that came in wrong.
const WRONG_BYTE: u8 = 0x7f;

#[derive(Clone)]
pub struct Receiver {
    pub phase: Phase,
    /// The number of the block that is awaited.
    pub number: u8,
    pub held: Vec<u8>,
}

#[derive(Clone)]
pub enum Phase {
    Off,
    Collecting,
    Waiting {
        /// The bytes since entering this phase. They are dropped, but the last
        /// three of them may end it.
        since: Vec<u8>,
    },
}

/// What a call gives besides the new state.
#[derive(Default)]
pub struct Outcome {
    /// The values that are passed on.
    pub passed: Vec<u8>,
    /// The bytes that go to the modem.
    pub modem: Vec<u8>,
}

impl Receiver {
    pub fn new() -> Self {
        Receiver::afresh(Phase::Off)
    }

    /// Starts afresh, also when already on.
    pub fn switch_on(&mut self) -> Outcome {
        *self = Receiver::afresh(Phase::Collecting);
        Outcome::default()
    }

    pub fn switch_off(&mut self) -> Outcome {
        *self = Receiver::afresh(Phase::Off);
        Outcome::default()
    }

    /// Called by the host on its own clock.
    pub fn ask_again(&mut self) -> Outcome {
        match self.phase {
            Phase::Waiting { .. } => request(self.number),
            Phase::Off | Phase::Collecting => Outcome::default(),
        }
    }

    pub fn take(&mut self, byte: u8) -> Outcome {
        match &mut self.phase {
            Phase::Off => passing(vec![unprotected_value(byte)]),
            Phase::Collecting => self.collect(byte),
            Phase::Waiting { since } => {
                since.push(byte);
                if since.ends_with(&resumption(self.number)) {
                    self.phase = Phase::Collecting;
                    self.held.clear();
                }
                Outcome::default()
            }
        }
    }

    fn afresh(phase: Phase) -> Self {
        Receiver {
            phase,
            number: 0,
            held: Vec::new(),
        }
    }

    fn collect(&mut self, byte: u8) -> Outcome {
        self.held.push(byte);
        if self.held.len() < LENGTH {
            return Outcome::default();
        }
        // Whatever the judgement is, nothing is held after it.
        let mut block = std::mem::take(&mut self.held);
        match judge::judge(&mut block) {
            (Judgement::Clean | Judgement::Mended, useful) => {
                self.number = (self.number + 1) % NUMBERS;
                passing(useful.iter().copied().map(layout::without_parity).collect())
            }
            (Judgement::Repeat, _) => {
                self.phase = Phase::Waiting { since: Vec::new() };
                request(self.number)
            }
            (Judgement::WrongLength, _) => unreachable!("seventeen bytes are a block's length"),
        }
    }
}

/// The code of a block number, with parity.
pub fn number_code(number: u8) -> u8 {
    layout::with_parity(NUMBER_ZERO + number)
}

/// The three bytes after which the block of this number follows.
pub fn resumption(number: u8) -> [u8; 3] {
    [SYN, SYN, number_code(number)]
}

/// Nothing passed on, and the block of this number asked for.
fn request(number: u8) -> Outcome {
    Outcome {
        passed: Vec::new(),
        modem: vec![NACK, number_code(number)],
    }
}

/// Values passed on, and nothing for the modem.
fn passing(values: Vec<u8>) -> Outcome {
    Outcome {
        passed: values,
        modem: Vec::new(),
    }
}

/// The value of a byte that comes in while no block protects it.
fn unprotected_value(byte: u8) -> u8 {
    if layout::has_even_parity(byte) {
        layout::without_parity(byte)
    } else {
        WRONG_BYTE
    }
}
