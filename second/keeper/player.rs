//! A board that plays a record, and what has happened on it so far.

use crate::block::judge::{self, Judgement};
use crate::block::layout::{Block, LENGTH};
use crate::board::joined::Board;
use crate::line::receiver::Phase;
use crate::links;

pub struct Player {
    pub board: Board,
    /// Bytes heard, which is the place of the next one too.
    pub bytes: u64,
    /// Those of them that were dropped while waiting.
    pub dropped: u64,
    pub clean: u64,
    pub mended: u64,
    pub repeats: u64,
    pub resumptions: u64,
    /// Bytes that the links have sent to keyboard, modem and socket.
    pub handed: [u64; 3],
}

impl Player {
    /// A line is there: the receiver is on and the links are connected.
    pub fn new() -> Self {
        let mut board = Board::fresh();
        board.receiver.switch_on();
        board.links.table = links::state::connected();
        Player {
            board,
            bytes: 0,
            dropped: 0,
            clean: 0,
            mended: 0,
            repeats: 0,
            resumptions: 0,
            handed: [0; 3],
        }
    }

    /// The line that tells of this byte, if it ends a block or the waiting.
    pub fn take(&mut self, byte: u8) -> Option<String> {
        let told = if self.is_waiting() {
            self.take_waiting(byte)
        } else {
            self.take_collecting(byte)
        };
        self.bytes += 1;
        told
    }

    pub fn is_waiting(&self) -> bool {
        matches!(self.board.receiver.phase, Phase::Waiting { .. })
    }

    /// Blocks judged.
    pub fn blocks(&self) -> u64 {
        self.clean + self.mended + self.repeats
    }

    fn take_waiting(&mut self, byte: u8) -> Option<String> {
        self.hear(byte);
        if self.is_waiting() {
            self.dropped += 1;
            return None;
        }
        self.resumptions += 1;
        let (place, number) = (self.bytes, self.board.receiver.number);
        Some(format!("resumed at {place}, number {number}"))
    }

    fn take_collecting(&mut self, byte: u8) -> Option<String> {
        // The number before it rises, and the block before it is mended.
        let number = self.board.receiver.number;
        let arrived = [&self.board.receiver.held[..], &[byte]].concat();
        let request = self.hear(byte);
        let block: Block = arrived.try_into().ok()?;
        let place = self.bytes + 1 - LENGTH as u64;
        let verdict = self.verdict(&block, &request);
        let count = self.blocks();
        Some(format!(
            "block {count} at {place}, number {number}: {verdict}"
        ))
    }

    /// Hands the byte to the board, and gives the receiver's request.
    fn hear(&mut self, byte: u8) -> Vec<u8> {
        let [keyboard, modem, socket, request] = self.board.hear(byte);
        for (count, bytes) in self.handed.iter_mut().zip([keyboard, modem, socket]) {
            *count += bytes.len() as u64;
        }
        request
    }

    /// The receiver keeps its judgement to itself, so the block is judged once
    /// more, and counted.
    fn verdict(&mut self, arrived: &Block, request: &[u8]) -> String {
        let mut judged = *arrived;
        match judge::judge(&mut judged).0 {
            Judgement::Clean => {
                self.clean += 1;
                "clean".to_string()
            }
            Judgement::Mended => {
                self.mended += 1;
                mending(arrived, &judged)
            }
            Judgement::Repeat => {
                self.repeats += 1;
                let request: Vec<String> =
                    request.iter().map(|byte| format!("{byte:02x}")).collect();
                format!("repeat, request {}", request.join(" "))
            }
            Judgement::WrongLength => unreachable!("seventeen bytes are a block's length"),
        }
    }
}

/// The one bit in which the two differ.
fn mending(arrived: &Block, mended: &Block) -> String {
    let differs = |&place: &usize| arrived[place] != mended[place];
    let place = (0..LENGTH).find(differs).expect("a mended block differs");
    let weight = arrived[place] ^ mended[place];
    let bit = 8 * place as u32 + weight.trailing_zeros();
    let (byte, before, after) = (place + 1, arrived[place], mended[place]);
    format!("mended, bit {bit} (byte {byte}, weight {weight}), {before:02x} became {after:02x}")
}
