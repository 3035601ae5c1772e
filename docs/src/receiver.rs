//! The line receiver: holds bytes until there are seventeen, judges the block, and asks for it
//! again or hands on its values.

use crate::judge::{judge, with_parity, VALUES};
use crate::verdicts::{Verdict, BLOCK};

const NACK: u8 = 0x95;
const SYN: u8 = 0x96;

#[derive(Clone, Copy)]
pub enum Phase {
    Collecting,
    /// Synchronising codes seen, 0 to 2.
    Waiting(u8),
}

pub struct Receiver {
    pub held: [u8; BLOCK],
    pub count: usize,
    pub number: u8,
    pub phase: Phase,
}

pub enum Heard {
    Nothing,
    /// A block was taken, and these are its values.
    Values(Verdict, [u8; VALUES]),
    /// A block was refused, and this goes to the modem.
    Request([u8; 2]),
}

impl Receiver {
    pub fn switched_on() -> Receiver {
        Receiver {
            held: [0; BLOCK],
            count: 0,
            number: 0,
            phase: Phase::Collecting,
        }
    }

    fn number_code(&self) -> u8 {
        with_parity(0x40 + self.number)
    }

    #[inline]
    pub fn step(&mut self, byte: u8) -> Heard {
        match self.phase {
            Phase::Collecting => {
                self.held[self.count] = byte;
                self.count += 1;
                if self.count < BLOCK {
                    Heard::Nothing
                } else {
                    self.judge_held()
                }
            }
            Phase::Waiting(seen) => {
                self.listen(seen, byte);
                Heard::Nothing
            }
        }
    }

    /// Takes from the front of a piece that is not empty: a whole block where nothing is held, else
    /// a byte. Says how many bytes it took.
    #[inline]
    pub fn take(&mut self, piece: &[u8]) -> (usize, Heard) {
        if let (Phase::Collecting, 0, Some(block)) =
            (self.phase, self.count, piece.first_chunk::<BLOCK>())
        {
            self.held = *block;
            return (BLOCK, self.judge_held());
        }
        (1, self.step(piece[0]))
    }

    #[inline]
    fn judge_held(&mut self) -> Heard {
        self.count = 0;
        match judge(&mut self.held) {
            verdict @ (Verdict::Clean | Verdict::Mended(_)) => {
                self.number = (self.number + 1) % 16;
                Heard::Values(verdict, std::array::from_fn(|i| self.held[i] & 127))
            }
            Verdict::Repeat | Verdict::WrongLength => {
                self.phase = Phase::Waiting(0);
                Heard::Request([NACK, self.number_code()])
            }
        }
    }

    /// SYN, SYN and the number awaited begin again; a third SYN keeps two seen.
    fn listen(&mut self, seen: u8, byte: u8) {
        self.phase = if byte == SYN {
            Phase::Waiting((seen + 1).min(2))
        } else if seen == 2 && byte == self.number_code() {
            Phase::Collecting
        } else {
            Phase::Waiting(0)
        };
    }
}
