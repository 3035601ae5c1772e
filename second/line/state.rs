//! The receiver's state as commands and answers write it, in range or not.

use crate::block::layout::LENGTH;
use crate::line::receiver::{Phase, Receiver, NUMBERS, SYN};
use crate::trial::{reading, writing};

const OFF: usize = 0;
const COLLECTING: usize = 1;
const WAITING: usize = 2;

/// The largest number that a command can hand in.
const LARGEST: usize = 255;

/// Most bytes that may be held; the seventeenth is judged at once.
const MOST_HELD: usize = LENGTH - 1;

/// Most synchronising codes that count; a third leaves two.
const MOST_SEEN: usize = 2;

pub struct State {
    phase: usize,
    number: usize,
    count: usize,
    /// 0 outside waiting.
    seen: usize,
    /// The first COUNT bytes held, seventeen at most. What lies past them is
    /// no part of the state.
    held: Vec<u8>,
}

impl State {
    /// The state in the words PHASE NUMBER COUNT SEEN HELD.
    pub fn read(words: &[&str]) -> Option<State> {
        let [phase, number, count, seen, held] = words else {
            return None;
        };
        let phase = reading::decimal(phase, WAITING)?;
        let number = reading::decimal(number, LARGEST)?;
        let count = reading::decimal(count, LARGEST)?;
        let seen = reading::decimal(seen, LARGEST)?;
        let held = reading::byte_array::<LENGTH>(held)?;
        Some(State {
            phase,
            number,
            count,
            seen: if phase == WAITING { seen } else { 0 },
            held: held.into_iter().take(count).collect(),
        })
    }

    pub fn of(receiver: &Receiver) -> State {
        let (phase, seen) = match &receiver.phase {
            Phase::Off => (OFF, 0),
            Phase::Collecting => (COLLECTING, 0),
            Phase::Waiting { since } => (WAITING, last_synchronising(since)),
        };
        State {
            phase,
            number: receiver.number.into(),
            count: receiver.held.len(),
            seen,
            held: receiver.held.clone(),
        }
    }

    /// `PHASE,NUMBER,COUNT,SEEN,HELD`
    pub fn written(&self) -> String {
        let numbers = [self.phase, self.number, self.count, self.seen];
        let mut parts: Vec<String> = numbers.iter().map(usize::to_string).collect();
        parts.push(writing::bytes(&self.held));
        parts.join(",")
    }

    /// The receiver in this state; the state itself if it is broken.
    pub fn receiver(self) -> Result<Receiver, State> {
        let in_range =
            self.number < usize::from(NUMBERS) && self.count <= MOST_HELD && self.seen <= MOST_SEEN;
        if !in_range {
            return Err(self);
        }
        let phase = match self.phase {
            OFF => Phase::Off,
            COLLECTING => Phase::Collecting,
            // Of the bytes that came in, only what was seen is known.
            _ => Phase::Waiting {
                since: vec![SYN; self.seen],
            },
        };
        Ok(Receiver {
            phase,
            number: self.number as u8,
            held: self.held,
        })
    }
}

/// The synchronising codes that came in last, two at most.
fn last_synchronising(since: &[u8]) -> usize {
    let newest_first = since.iter().rev();
    let newest = newest_first.take(MOST_SEEN);
    newest.take_while(|&&byte| byte == SYN).count()
}
