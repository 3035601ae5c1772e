//! The stored script that is the record of a bad line as a board has it: pages
//! in blocks, and between the bytes what host, keyboard and socket do.

use std::collections::VecDeque;

use crate::block::layout;
use crate::links::state::Links;
use crate::stored::bad_line::BadLine;
use crate::stored::page_values;
use crate::stored::scripts::board::{
    self, bytes, key, lnk, socket, ASK, DUMP, OFF, ON, TO_CONNECTED, TO_LOCAL,
};
use crate::stored::scripts::links::all_links;
use crate::stored::scripts::script::Script;
use crate::stored::xorshift::Xorshift;

const LINE_SEED: u64 = 0x6272_6420_6c69_6e65;
const OTHERS_SEED: u64 = 0x6272_6420_6b65_7973;

/// Blocks and resumptions together.
const STRETCHES: usize = 200;

/// The whole page is shown after each so many of them.
const STRETCHES_TO_A_DUMP: usize = 20;

pub fn line() -> Script {
    let mut record = Record {
        script: Script::trying("A record of a bad line, with keys and socket values among it."),
        line: BadLine::new(LINE_SEED),
        random: Xorshift::new(OTHERS_SEED),
        socket: VecDeque::new(),
    };
    record.script.line(lnk(&Links::new(all_links())));
    record.switch();
    for count in 1..=STRETCHES {
        record.stretch();
        record.host();
        if count % STRETCHES_TO_A_DUMP == 0 {
            record.script.line(DUMP);
        }
    }
    record.script
}

struct Record {
    script: Script,
    line: BadLine,
    random: Xorshift,
    /// What the socket has still to hand in.
    socket: VecDeque<u8>,
}

impl Record {
    fn stretch(&mut self) {
        let (what, bytes) = self.line.stretch();
        self.script.comment(&what);
        for byte in bytes {
            match self.random.below(40) {
                0 => self.key(),
                1..=3 => self.socket(),
                _ => {}
            }
            self.script.line(board::line(byte));
        }
    }

    fn host(&mut self) {
        if self.line.is_waiting() && self.random.one_in(2) {
            self.script.line(ASK);
            self.line.ask_again();
        }
        match self.random.below(60) {
            0..=1 => self.switch(),
            2..=3 => self.script.line(TO_CONNECTED),
            4 => self.script.line(TO_LOCAL),
            5..=6 => self.script.line(lnk(&Links::new(all_links()))),
            _ => {}
        }
    }

    /// Off, some bytes without blocks, and on again; the service starts afresh.
    fn switch(&mut self) {
        self.script.comment("off, plain bytes, and on again");
        self.script.line(OFF);
        let plain = page_values::phrase(&mut self.random);
        let plain: Vec<u8> = plain.into_iter().map(layout::with_parity).collect();
        bytes(&mut self.script, &plain);
        self.script.line(ON);
        self.line.switch_on();
    }

    fn key(&mut self) {
        let value = self.value();
        self.script.line(key(value));
    }

    /// The socket speaks in phrases, so that its commands run across the blocks.
    fn socket(&mut self) {
        if self.random.one_in(20) {
            let too_large = 0x80 + self.random.below(128) as u8;
            self.script.line(socket(too_large));
        }
        if self.socket.is_empty() {
            self.socket.extend(page_values::phrase(&mut self.random));
        }
        if let Some(value) = self.socket.pop_front() {
            self.script.line(socket(value));
        }
    }

    /// Now and then too large.
    fn value(&mut self) -> u8 {
        if self.random.one_in(10) {
            self.random.byte()
        } else {
            self.random.below(128) as u8
        }
    }
}
