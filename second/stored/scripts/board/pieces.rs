//! The stored script that hands in the line piece by piece, with outputs that
//! have room for what a piece hands out, and with outputs that have not.

use crate::block::layout;
use crate::board::joined::{Board, OUTPUTS};
use crate::line::receiver::{self, SYN};
use crate::links;
use crate::links::codes::SET;
use crate::links::state::{Links, Table, KEYBOARD, MODEM, SCREEN, SOCKET};
use crate::stored::bad_line::BadLine;
use crate::stored::scripts::board::{key, lines, lnk, ASK, DUMP, FRESH, MOST_ROOM, OFF, ON};
use crate::stored::scripts::line::{good_block, W6};
use crate::stored::scripts::links::{ask, link};
use crate::stored::scripts::script::Script;
use crate::stored::xorshift::Xorshift;
use crate::trial::limits::LONGEST_PIECE;

const LINE_SEED: u64 = 0x6272_6420_7069_6563;
const CUTS_SEED: u64 = 0x6272_6420_6375_7473;
const NOISE_SEED: u64 = 0x6272_6420_6e6f_6973;

/// Blocks and resumptions in the record that is cut.
const STRETCHES: usize = 900;

/// Most bytes of room beyond what a piece of it needs.
const MOST_TO_SPARE: usize = 12;

/// A board in range, followed to know what room each piece needs, and the
/// script that brings the trial's board to the same state.
struct Pieces {
    script: Script,
    board: Board,
}

pub fn pieces() -> Script {
    let mut pieces = Pieces {
        script: Script::trying("The line piece by piece, with room and without."),
        board: Board::fresh(),
    };
    pieces.every_room();
    pieces.some_rooms_short();
    pieces.no_bytes();
    pieces.in_each_phase();
    pieces.refused_in_a_sequence();
    pieces.whole_record();
    pieces.random_bytes();
    pieces.most_bytes();
    pieces.script
}

impl Pieces {
    /// A fresh board with these links, its receiver switched on.
    fn start(&mut self, table: Table) {
        self.script.line(FRESH);
        self.script.line(lnk(&Links::new(table)));
        self.script.line(ON);
        self.board = Board::fresh();
        self.board.links.table = table;
        self.board.receiver.switch_on();
    }

    fn switch_off(&mut self) {
        self.script.line(OFF);
        self.board.receiver.switch_off();
    }

    /// What a piece would hand out to each output.
    fn needed(&self, piece: &[u8]) -> [usize; OUTPUTS] {
        let handed = self.board.clone().hear_all(piece);
        handed.map(|bytes| bytes.len())
    }

    /// The piece with room for it.
    fn take(&mut self, piece: &[u8], rooms: [usize; OUTPUTS]) {
        self.script.line(lines(piece, rooms));
        self.board.hear_all(piece);
    }

    /// The piece without room for it, so that the board stays as it is.
    fn refuse(&mut self, piece: &[u8], rooms: [usize; OUTPUTS]) {
        self.script.line(lines(piece, rooms));
    }

    /// Refused one short in each output that is used, then exactly enough.
    fn refuse_and_take(&mut self, piece: &[u8]) {
        let needed = self.needed(piece);
        for output in (0..OUTPUTS).filter(|&output| needed[output] > 0) {
            self.refuse(piece, with_room(needed, output, needed[output] - 1));
        }
        self.take(piece, needed);
    }

    /// Each output with every room up to what it needs, the others with enough.
    fn every_room(&mut self) {
        let piece = piece_for_every_output();
        self.script
            .comment("each output in turn with too little room, down to none");
        self.start(every_output());
        let needed = self.needed(&piece);
        for output in 0..OUTPUTS {
            for room in (0..needed[output]).rev() {
                self.refuse(&piece, with_room(needed, output, room));
            }
        }
        self.script.comment("exactly enough for all");
        self.take(&piece, needed);
        self.script.line(DUMP);
    }

    fn some_rooms_short(&mut self) {
        let piece = piece_for_every_output();
        self.script
            .comment("outputs one short and with exactly enough, in every mixture");
        self.start(every_output());
        let needed = self.needed(&piece);
        for mixture in 1..1 << OUTPUTS {
            let short = |output: usize| mixture >> output & 1;
            self.refuse(
                &piece,
                std::array::from_fn(|output| needed[output] - short(output)),
            );
        }
        self.refuse(&piece, [0; OUTPUTS]);
        self.script
            .comment("one more than enough, output by output; then the most");
        for output in 0..OUTPUTS {
            self.start(every_output());
            self.take(&piece, with_room(needed, output, needed[output] + 1));
        }
        self.start(every_output());
        self.take(&piece, MOST_ROOM);
        self.script
            .comment("now waiting, so that the same piece needs no room");
        self.take(&piece, [0; OUTPUTS]);
    }

    fn no_bytes(&mut self) {
        self.script.comment("pieces of no bytes");
        for rooms in [[0; OUTPUTS], [1, 2, 3, 4], MOST_ROOM] {
            self.take(&[], rooms);
        }
    }

    fn in_each_phase(&mut self) {
        let resumption = receiver::resumption(0);
        let piece = [
            &[0x41, 0xc1, 0xb1][..],
            &resumption,
            &piece_for_every_output(),
        ]
        .concat();
        self.script.comment("while off");
        self.start(every_output());
        self.switch_off();
        self.refuse_and_take(&piece);
        self.script.comment("collecting, with bytes held");
        self.start(every_output());
        self.take(&good_block()[..9], [0; OUTPUTS]);
        self.refuse_and_take(&[&good_block()[9..], &piece[6..]].concat());
        for seen in 0..=2 {
            self.script.comment(&format!("waiting, codes seen: {seen}"));
            self.start(every_output());
            self.take(&W6, [0, 0, 0, 2]);
            self.take(&vec![SYN; seen], [0; OUTPUTS]);
            self.script.line(ASK);
            self.refuse_and_take(&piece);
        }
        self.script.comment("waiting to the end");
        self.refuse_and_take(&[0xaa; 40]);
    }

    fn refused_in_a_sequence(&mut self) {
        self.script
            .comment("pieces of one byte, each refused where it can be");
        self.start(every_output());
        let first = layout::form(&[&ask(SOCKET)[..], b"ab", &ask(MODEM)[..3]].concat());
        let second = layout::form(&[0x59, b'c']);
        for byte in [first, second].concat() {
            self.refuse_and_take(&[byte]);
        }
        self.script
            .comment("refused, then a key, then the same piece with room");
        let piece = layout::form(&link(SET, KEYBOARD, SCREEN));
        self.refuse(&piece, [0; OUTPUTS]);
        self.script.line(key(b'k'));
        self.refuse_and_take(&piece);
        self.script.line(key(b'k'));
    }

    /// The record of a bad line, cut at random.
    fn whole_record(&mut self) {
        self.script.comment("the record of a bad line in pieces");
        self.start(links::state::connected());
        let record = BadLine::new(LINE_SEED).stretches(STRETCHES);
        self.cut(&record, &mut Xorshift::new(CUTS_SEED));
        self.script.line(DUMP);
    }

    /// Random bytes, whatever comes of them, while off and then while on.
    fn random_bytes(&mut self) {
        self.script
            .comment("random bytes, while off and then while on");
        let mut random = Xorshift::new(NOISE_SEED);
        let noise: Vec<u8> = (0..3_000).map(|_| random.byte()).collect();
        self.start(links::state::connected());
        self.switch_off();
        self.cut(&noise, &mut random);
        self.script.line(DUMP);
        self.start(links::state::connected());
        self.cut(&noise, &mut random);
    }

    /// Pieces of random lengths with room enough, now and then refused first.
    fn cut(&mut self, mut record: &[u8], random: &mut Xorshift) {
        while !record.is_empty() {
            let length = random.below(LONGEST_PIECE + 1).min(record.len());
            let (piece, rest) = record.split_at(length);
            let needed = self.needed(piece);
            // Too many replies for any room: then a shorter piece.
            if needed.iter().any(|&count| count > LONGEST_PIECE) {
                continue;
            }
            let output = random.below(OUTPUTS);
            if needed[output] > 0 && random.one_in(2) {
                self.refuse(
                    piece,
                    with_room(needed, output, random.below(needed[output])),
                );
            }
            let spare = needed.map(|count| count + random.below(MOST_TO_SPARE));
            self.take(piece, spare.map(|room| room.min(LONGEST_PIECE)));
            record = rest;
        }
    }

    /// The longest piece, and the most that fits into an output.
    fn most_bytes(&mut self) {
        self.script
            .comment("the longest pieces: as many bytes to keyboard and socket");
        let piece = [0x41; LONGEST_PIECE];
        self.start(every_output());
        self.switch_off();
        self.refuse(&piece, with_room(MOST_ROOM, 0, LONGEST_PIECE - 1));
        self.take(&piece, MOST_ROOM);
        self.script
            .comment("replies that no room is enough for, and the half of them");
        let asks: Vec<u8> = ask(SCREEN).into_iter().map(layout::with_parity).collect();
        let asks = asks.repeat(LONGEST_PIECE / 4);
        self.refuse(&asks, MOST_ROOM);
        self.take(&asks[..LONGEST_PIECE / 2], MOST_ROOM);
    }
}

/// Links by which the line reaches every output.
fn every_output() -> Table {
    links::state::linking(&[(MODEM, SCREEN), (MODEM, KEYBOARD), (MODEM, SOCKET)])
}

/// A block of letters, one with a status asked for, and one to be repeated.
fn piece_for_every_output() -> Vec<u8> {
    let asking = [&ask(SCREEN)[..], b"status"].concat();
    let repeated = layout::hit(layout::hit(good_block(), 20), 21);
    [good_block(), layout::form(&asking), repeated].concat()
}

/// The same room, but for one output.
fn with_room(mut rooms: [usize; OUTPUTS], output: usize, room: usize) -> [usize; OUTPUTS] {
    rooms[output] = room;
    rooms
}
