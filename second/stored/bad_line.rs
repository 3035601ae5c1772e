//! A service that sends pages in blocks over a bad line, and heeds what the
//! receiver at the other end asks for.

use crate::block::layout::{self, Block, USEFUL};
use crate::line::receiver::{Phase, Receiver, NUMBERS};
use crate::stored::xorshift::Xorshift;
use crate::stored::{damage, page_values};

pub struct BadLine {
    random: Xorshift,
    /// Follows the board's, so that the service can react to it.
    receiver: Receiver,
    /// Values that are not yet in a block.
    values: Vec<u8>,
    /// The blocks since the last switching on, in order.
    blocks: Vec<Block>,
    /// The place among them of the block to be sent next.
    next: usize,
    request: Option<Request>,
}

/// A request that the service will hear.
struct Request {
    number: u8,
    /// So many blocks more are sent before it does.
    on_the_way: usize,
}

impl BadLine {
    /// With a receiver that is switched on.
    pub fn new(seed: u64) -> Self {
        let mut line = BadLine {
            random: Xorshift::new(seed),
            receiver: Receiver::new(),
            values: Vec::new(),
            blocks: Vec::new(),
            next: 0,
            request: None,
        };
        line.switch_on();
        line
    }

    /// Both ends start afresh; the page goes on.
    pub fn switch_on(&mut self) {
        self.receiver.switch_on();
        self.blocks.clear();
        self.next = 0;
        self.request = None;
    }

    /// The host's clock has run out.
    pub fn ask_again(&mut self) {
        let outcome = self.receiver.ask_again();
        self.bring_to_service(&outcome.modem);
    }

    pub fn is_waiting(&self) -> bool {
        matches!(self.receiver.phase, Phase::Waiting { .. })
    }

    /// The bytes that come in next, a block or the codes of a resumption, and
    /// what has happened to them.
    pub fn stretch(&mut self) -> (String, Vec<u8>) {
        let (what, bytes) = match self.heard_request() {
            Some(number) => self.resume(number),
            None => self.send_block(),
        };
        for &byte in &bytes {
            let outcome = self.receiver.take(byte);
            self.bring_to_service(&outcome.modem);
        }
        (what, bytes)
    }

    /// So many stretches, with the host asking again now and then.
    pub fn stretches(&mut self, count: usize) -> Vec<u8> {
        let mut all = Vec::new();
        for _ in 0..count {
            all.extend(self.stretch().1);
            if self.is_waiting() && self.random.one_in(2) {
                self.ask_again();
            }
        }
        all
    }

    fn heard_request(&mut self) -> Option<u8> {
        let request = self.request.as_mut()?;
        if request.on_the_way > 0 {
            request.on_the_way -= 1;
            return None;
        }
        self.request.take().map(|request| request.number)
    }

    /// One request in eight is lost on its way, and a second one is not needed.
    fn bring_to_service(&mut self, modem: &[u8]) {
        let [_, code] = modem else {
            return;
        };
        if self.request.is_none() && !self.random.one_in(8) {
            self.request = Some(Request {
                number: code % NUMBERS,
                on_the_way: self.random.below(3),
            });
        }
    }

    fn send_block(&mut self) -> (String, Vec<u8>) {
        if self.next == self.blocks.len() {
            let block = self.new_block();
            self.blocks.push(block);
        }
        let (what, bytes) = damage::block(&mut self.random, self.blocks[self.next]);
        let number = self.next % usize::from(NUMBERS);
        self.next += 1;
        (format!("block number {number}: {what}"), bytes)
    }

    /// Goes back to the block asked for, after the codes that announce it.
    fn resume(&mut self, number: u8) -> (String, Vec<u8>) {
        let has_number = |&place: &usize| place % usize::from(NUMBERS) == usize::from(number);
        self.next = (0..=self.next).rev().find(has_number).unwrap_or(self.next);
        let (what, codes) = damage::resumption(&mut self.random, number);
        (format!("resuming at {number}: {what}"), codes)
    }

    /// Now and then a short one, which is filled up with NUL.
    fn new_block(&mut self) -> Block {
        let count = if self.random.one_in(8) {
            1 + self.random.below(USEFUL)
        } else {
            USEFUL
        };
        while self.values.len() < count {
            self.values.extend(page_values::phrase(&mut self.random));
        }
        let values: Vec<u8> = self.values.drain(..count).collect();
        layout::form(&values)
    }
}
