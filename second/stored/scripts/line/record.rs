//! The stored script that is the record of a bad line: a sender sends blocks,
//! the line damages them, and the sender heeds what the receiver asks for.

use crate::block::layout::{self, Block, USEFUL};
use crate::line::receiver::{Phase, Receiver, NUMBERS};
use crate::stored::damage;
use crate::stored::scripts::block::random_values;
use crate::stored::scripts::line::{byte, ASK, OFF, ON};
use crate::stored::scripts::script::Script;
use crate::stored::xorshift::Xorshift;

const RECORD_SEED: u64 = 0x7278_206c_696e_6531;

/// The record ends when so many blocks have come through.
const BLOCKS: usize = 240;

pub fn line() -> Script {
    let mut record = Record {
        script: Script::trying("A record of a bad line, with a sender that heeds the requests."),
        random: Xorshift::new(RECORD_SEED),
        receiver: Receiver::new(),
        blocks: Vec::new(),
        next: 0,
        asked: None,
        came_through: 0,
    };
    record.switch();
    while record.came_through < BLOCKS {
        record.send_block();
        if let Some(number) = record.asked.take() {
            record.resume(number);
        }
    }
    record.script
}

struct Record {
    script: Script,
    random: Xorshift,
    /// Follows the script, so that the sender can react to it.
    receiver: Receiver,
    /// The sender's blocks since the last switching on, in order.
    blocks: Vec<Block>,
    /// The place among them of the block to be sent next.
    next: usize,
    /// The number in a request that has reached the sender.
    asked: Option<u8>,
    came_through: usize,
}

impl Record {
    /// Sends the next block as the line lets it through. A request that reaches
    /// the sender breaks it off at once, or is heeded when it is all sent.
    fn send_block(&mut self) {
        if self.next == self.blocks.len() {
            let block = self.new_block();
            self.blocks.push(block);
        }
        let (what, bytes) = damage::block(&mut self.random, self.blocks[self.next]);
        self.comment_on_block(what);
        let heeds_at_once = self.random.one_in(2);
        for byte in bytes {
            if self.take(byte) {
                self.came_through += 1;
            }
            if self.random.one_in(500) {
                self.switch();
                return;
            }
            if self.is_waiting() && self.random.one_in(8) {
                self.ask();
            }
            if heeds_at_once && self.asked.is_some() {
                return;
            }
        }
        self.next += 1;
    }

    fn comment_on_block(&mut self, what: &str) {
        let number = self.next % usize::from(NUMBERS);
        self.script
            .comment(&format!("block {}, number {number}: {what}", self.next));
    }

    /// Goes back to the block asked for, after the codes that announce it.
    fn resume(&mut self, number: u8) {
        let has_number = |&place: &usize| place % usize::from(NUMBERS) == usize::from(number);
        self.next = (0..=self.next).rev().find(has_number).unwrap_or(self.next);
        let (what, codes) = damage::resumption(&mut self.random, number);
        self.script
            .comment(&format!("resuming at {number}: {what}"));
        for code in codes {
            self.take(code);
        }
    }

    /// Off, some bytes without blocks, and on again; the sender starts afresh.
    fn switch(&mut self) {
        self.script.comment("off, plain bytes, and on again");
        self.script.line(OFF);
        self.receiver.switch_off();
        for _ in 0..4 + self.random.below(12) {
            let value = self.random.below(128) as u8;
            let hit = if self.random.one_in(4) { 128 } else { 0 };
            self.take(layout::with_parity(value) ^ hit);
        }
        self.ask();
        self.script.line(ON);
        self.receiver.switch_on();
        self.blocks.clear();
        self.next = 0;
        self.asked = None;
    }

    /// Hands the byte to the receiver, and tells whether values were passed on.
    fn take(&mut self, each: u8) -> bool {
        self.script.line(byte(each));
        let outcome = self.receiver.take(each);
        self.bring_to_sender(&outcome.modem);
        !outcome.passed.is_empty()
    }

    /// The host's clock has run out.
    fn ask(&mut self) {
        self.script.line(ASK);
        let outcome = self.receiver.ask_again();
        self.bring_to_sender(&outcome.modem);
    }

    /// One request in four is lost on its way.
    fn bring_to_sender(&mut self, modem: &[u8]) {
        if let [_, code] = modem {
            if !self.random.one_in(4) {
                self.asked = Some(code % NUMBERS);
            }
        }
    }

    fn is_waiting(&self) -> bool {
        matches!(self.receiver.phase, Phase::Waiting { .. })
    }

    /// Now and then a short one, which is filled up with NUL.
    fn new_block(&mut self) -> Block {
        let count = if self.random.one_in(5) {
            1 + self.random.below(USEFUL)
        } else {
            USEFUL
        };
        layout::form(&random_values(&mut self.random, count))
    }
}
