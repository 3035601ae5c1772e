//! The family of commands on the board: `brd`.

use crate::board::joined::{self, Board, Handed, OUTPUTS};
use crate::line::receiver::{Outcome, Receiver};
use crate::line::state::State;
use crate::links::ranges::LARGEST_CODE;
use crate::links::state::{Module, KEYBOARD, SOCKET};
use crate::trial::limits::LONGEST_PIECE;
use crate::trial::running::Family;
use crate::trial::{reading, writing};
use crate::{links, screen};

const TAKEN: u8 = 0;
const VALUE_TOO_LARGE: u8 = 2;
const NO_ROOM: u8 = 4;
const BROKEN_STATE: u8 = 5;

/// What the outputs hold before the call.
const UNTOUCHED: u8 = 0xee;

pub struct BoardCommands {
    /// Links and screen are in range or not.
    board: Board,
    /// The receiver's broken state that was handed in. While there is one, it
    /// stands for the board's receiver.
    broken_receiver: Option<State>,
}

impl BoardCommands {
    pub fn start() -> Self {
        BoardCommands {
            board: Board::fresh(),
            broken_receiver: None,
        }
    }

    fn start_again(&mut self) -> String {
        *self = BoardCommands::start();
        self.nothing_handed(TAKEN)
    }

    /// Puts a new receiver in place of the old one, broken or not.
    fn replace_receiver(&mut self, state: State) -> String {
        match state.receiver() {
            Ok(receiver) => {
                self.board.receiver = receiver;
                self.broken_receiver = None;
            }
            Err(broken) => self.broken_receiver = Some(broken),
        }
        self.nothing_handed(TAKEN)
    }

    fn is_in_range(&self) -> bool {
        self.broken_receiver.is_none()
            && self.board.links.is_in_range()
            && self.board.screen.is_in_range()
    }

    /// A call on the board. Where a part is broken, the board stays as it is.
    fn call(&mut self, call: impl FnOnce(&mut Board) -> Result<Handed, u8>) -> String {
        if !self.is_in_range() {
            return self.nothing_handed(BROKEN_STATE);
        }
        match call(&mut self.board) {
            Ok(handed) => self.written(TAKEN, &handed),
            Err(refusal) => self.nothing_handed(refusal),
        }
    }

    fn call_receiver(&mut self, call: impl FnOnce(&mut Receiver) -> Outcome) -> String {
        self.call(|board| Ok(joined::requesting(call(&mut board.receiver).modem)))
    }

    fn hand_in(&mut self, sender: Module, value: u8) -> String {
        self.call(|board| match value {
            0..=LARGEST_CODE => Ok(board.hand_in(sender, value)),
            _ => Err(VALUE_TOO_LARGE),
        })
    }

    /// A piece from the line. It is tried on a copy of the board, which takes
    /// the board's place if every output has room.
    fn lines(&mut self, piece: &[u8], rooms: [usize; OUTPUTS]) -> String {
        let untouched = rooms.map(|room| vec![UNTOUCHED; room]);
        if !self.is_in_range() {
            return self.written_outputs(BROKEN_STATE, &untouched, [0; OUTPUTS]);
        }
        let mut after = self.board.clone();
        let handed = after.hear_all(piece);
        let used = handed.each_ref().map(Vec::len);
        if used.iter().zip(rooms).any(|(&used, room)| used > room) {
            return self.written_outputs(NO_ROOM, &untouched, [0; OUTPUTS]);
        }
        self.board = after;
        let mut outputs = untouched;
        for (output, bytes) in outputs.iter_mut().zip(&handed) {
            output[..bytes.len()].copy_from_slice(bytes);
        }
        self.written_outputs(TAKEN, &outputs, used)
    }

    fn nothing_handed(&self, number: u8) -> String {
        self.written(number, &Handed::default())
    }

    /// The number, what leaves the board, and the state after the call.
    fn written(&self, number: u8, handed: &Handed) -> String {
        format!("{number} {} {}", written_handed(handed), self.state())
    }

    /// The same for a piece: all bytes of each output, and how many are new.
    fn written_outputs(&self, number: u8, outputs: &Handed, used: [usize; OUTPUTS]) -> String {
        let outputs = written_handed(outputs);
        let used = used.map(|count| count.to_string()).join(",");
        format!("{number} {outputs} used={used} {}", self.state())
    }

    fn state(&self) -> String {
        let receiver = match &self.broken_receiver {
            Some(broken) => broken.written(),
            None => State::of(&self.board.receiver).written(),
        };
        let [table, modem, socket] = self.board.links.written_parts();
        let [cursor, attributes, last, kept, unfinished] = self.board.screen.written_parts();
        let links = format!("table={table} pend_modem={modem} pend_socket={socket}");
        let screen =
            format!("cur={cursor} attr={attributes} last={last} kept={kept} pend={unfinished}");
        format!("rx={receiver} {links} {screen}")
    }

    /// The commands that put a part of the board in place of the old one.
    fn answer_replacing(&mut self, words: &[&str]) -> Option<String> {
        match words {
            ["fresh"] => Some(self.start_again()),
            ["rx", state @ ..] => Some(self.replace_receiver(State::read(state)?)),
            ["lnk", state @ ..] => {
                self.board.links = links::reading::links(state)?;
                Some(self.nothing_handed(TAKEN))
            }
            ["scr", state @ ..] => {
                self.board.screen = screen::reading::screen(state)?;
                Some(self.nothing_handed(TAKEN))
            }
            _ => None,
        }
    }

    fn answer_calling(&mut self, words: &[&str]) -> Option<String> {
        match words {
            ["line", byte] => {
                let [byte] = reading::byte_array(byte)?;
                Some(self.call(|board| Ok(board.hear(byte))))
            }
            ["lines", piece, rooms @ ..] => {
                let piece = reading::bytes(piece, LONGEST_PIECE)?;
                Some(self.lines(&piece, read_rooms(rooms)?))
            }
            ["key", value] => {
                let [value] = reading::byte_array(value)?;
                Some(self.hand_in(KEYBOARD, value))
            }
            ["socket", value] => {
                let [value] = reading::byte_array(value)?;
                Some(self.hand_in(SOCKET, value))
            }
            ["on"] => Some(self.call_receiver(Receiver::switch_on)),
            ["off"] => Some(self.call_receiver(Receiver::switch_off)),
            ["ask"] => Some(self.call_receiver(Receiver::ask_again)),
            ["to", table] => {
                let table = links::reading::named_table(table)?;
                Some(self.call(|board| {
                    board.links.table = table;
                    Ok(Handed::default())
                }))
            }
            ["dump"] => Some(self.board.screen.written_cells()),
            _ => None,
        }
    }
}

impl Family for BoardCommands {
    fn answer(&mut self, words: &[&str]) -> Option<String> {
        let words = words.strip_prefix(&["brd"])?;
        self.answer_replacing(words)
            .or_else(|| self.answer_calling(words))
    }
}

fn read_rooms(words: &[&str]) -> Option<[usize; OUTPUTS]> {
    let words: [&str; OUTPUTS] = words.try_into().ok()?;
    let rooms: Option<Vec<usize>> = words
        .iter()
        .map(|word| reading::decimal(word, LONGEST_PIECE))
        .collect();
    rooms?.try_into().ok()
}

fn written_handed(handed: &Handed) -> String {
    let [keyboard, modem, socket, request] = handed.each_ref().map(|bytes| writing::bytes(bytes));
    format!("keyboard={keyboard} modem={modem} socket={socket} request={request}")
}
