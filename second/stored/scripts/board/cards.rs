//! The stored script of small cases on the board: what goes from part to part.

use crate::block::layout::{self, Block};
use crate::line::receiver;
use crate::links;
use crate::links::codes::{CLEAR, ESC, PRO1, PRO2, SET};
use crate::links::state::{Links, KEYBOARD, MODEM, MODULES, SCREEN, SOCKET};
use crate::screen::codes::{FF, REP, SO, SS2, US};
use crate::stored::scripts::board::{
    bytes, key, keys, last_byte, line, lines, lnk, rx, socket, sockets, ASK, DUMP, FRESH, OFF, ON,
    ROOM_FOR_A_BLOCK, TO_CONNECTED, TO_LOCAL,
};
use crate::stored::scripts::line::{good_block, IN_COLLECTING, IN_OFF, IN_WAITING, W5, W6};
use crate::stored::scripts::links::{all_links, ask, link, no_links, UNFINISHED};
use crate::stored::scripts::screen::sequences::OPENINGS;
use crate::stored::scripts::script::Script;

/// What the parts of the board do together.
pub fn cards() -> Script {
    let mut script = Script::trying("The board: what goes from part to part, case by case.");
    script.comment("the start: all parts fresh");
    script.line(ASK);
    script.line(DUMP);
    bench_cards(&mut script);
    while_off(&mut script);
    text(&mut script);
    replies(&mut script);
    several_commands(&mut script);
    commands_cut_by_blocks(&mut script);
    commands_across_senders(&mut script);
    keyboard_and_socket(&mut script);
    tables_in_a_command(&mut script);
    values_too_large(&mut script);
    asking(&mut script);
    switching(&mut script);
    parts_handed_in(&mut script);
    script
}

fn bench_cards(script: &mut Script) {
    script.comment("W9: W6 as first block");
    script.line(ON);
    bytes(script, &W6);
    script.comment("W10: a third synchronising code does no harm");
    bytes(script, &[150, 150, 150, 192]);
    script.comment("W9 again, then W11: the code of another number");
    script.line(ON);
    bytes(script, &W6);
    bytes(script, &[150, 150, 65]);
    script.comment("W5 as first block: mended, fifteen NUL to the socket, nothing to ask for");
    script.line(TO_CONNECTED);
    script.line(ON);
    bytes(script, &W5);
    script.line(ASK);
}

fn while_off(script: &mut Script) {
    script.comment("off: letters, wrong parity, an ink, a status asked for, a place, a repeat");
    script.line(FRESH);
    bytes(script, &[0x41, 0xc1, 0x42, 0xc3, 0x43, 0xff, 0x7f, 0x80]);
    for values in [
        &[ESC, 0x41][..],
        &ask(MODEM),
        &[US, 0x42, 0x43],
        &[b'Z', REP, 0x43],
    ] {
        for &value in values {
            script.line(line(layout::with_parity(value)));
        }
    }
    script.comment("a wrong byte in a command counts as 7/F");
    bytes(script, &[ESC, PRO2, 0x62]);
    script.line(line(0x58));
    script.line(DUMP);
}

fn text(script: &mut Script) {
    script.comment("a block of text, byte by byte: with both tables, clean and mended");
    for (table, block) in [
        (TO_LOCAL, layout::form(b"\x0cFrost \x1bA-07\x19#\x12")),
        (TO_CONNECTED, layout::hit(layout::form(b"Ehello"), 77)),
    ] {
        script.line(table);
        script.line(ON);
        bytes(script, &block);
    }
    script.line(DUMP);
    script.comment("a block to be repeated: nothing of it is shown");
    bytes(script, &layout::hit(layout::hit(good_block(), 3), 9));
    script.line(DUMP);
    script.comment("every number: each block is shown, and no number is passed over");
    script.line(ON);
    for number in 0..=16 {
        script.line(lines(
            &layout::form(&[0x61 + number, b' ']),
            ROOM_FOR_A_BLOCK,
        ));
    }
}

/// The status of each receiver, asked for in a block.
fn replies(script: &mut Script) {
    for table in [TO_LOCAL, TO_CONNECTED] {
        script.comment(&format!(
            "each receiver asked for by a block, after {table}"
        ));
        script.line(FRESH);
        script.line(table);
        for receiver in 0..MODULES {
            last_byte(script, 0, &layout::form(&ask(receiver)));
        }
    }
    script.comment("byte by byte: nothing is answered before the block has come in");
    script.line(ON);
    bytes(script, &layout::form(&ask(SCREEN)));
    script.comment("the modem's reply whatever its links");
    script.line(lnk(&Links::new(no_links())));
    last_byte(script, 0, &layout::form(&ask(SOCKET)));
}

/// As many replies at one byte as there can be, and the table between them.
fn several_commands(script: &mut Script) {
    script.comment("three statuses asked for in one block, and the rest shown");
    let three = [&ask(SCREEN)[..], &ask(KEYBOARD), &ask(MODEM), b"ABC"].concat();
    last_byte(script, 0, &layout::form(&three));
    script.comment("four, the first of them begun before");
    let begun = Links {
        table: links::state::connected(),
        modem: ask(SCREEN)[..3].to_vec(),
        socket: Vec::new(),
    };
    let four = [
        &[0x58][..],
        &ask(MODEM),
        &ask(SOCKET),
        &ask(KEYBOARD),
        &[ESC, PRO1],
    ]
    .concat();
    script.line(lnk(&begun));
    last_byte(script, 15, &layout::form(&four));
    script.comment("a link cleared, set and asked for between the letters of one block");
    let screen_off = link(CLEAR, MODEM, SCREEN);
    let screen_on = link(SET, MODEM, SCREEN);
    let block = [b"A", &screen_off[..], b"B", &screen_on, b"CDE"].concat();
    script.line(FRESH);
    last_byte(script, 0, &layout::form(&block));
    script.comment("to the keyboard and the socket too, and pairs of ESC");
    for table in [all_links(), links::state::connected()] {
        script.line(lnk(&Links::new(table)));
        let pairs = [
            ESC, 0x42, ESC, 0x51, b' ', ESC, ESC, b'x', FF, ESC, 0, SO, b'a', REP, 0x44,
        ];
        last_byte(script, 0, &layout::form(&pairs));
    }
    script.line(DUMP);
}

/// Commands and sequences of the screen, begun in one block and ended in the next.
fn commands_cut_by_blocks(script: &mut Script) {
    script.comment("a command cut in two by a block's end, at every place");
    let command = link(SET, MODEM, KEYBOARD);
    for cut in 1..command.len() {
        let first = [&vec![b'.'; 15 - cut][..], &command[..cut]].concat();
        let second = [&command[cut..], b"kk"].concat();
        script.line(FRESH);
        script.line(ON);
        script.line(lines(&layout::form(&first), ROOM_FOR_A_BLOCK));
        script.line(lines(&layout::form(&second), ROOM_FOR_A_BLOCK));
    }
    script.comment("a command cut in two by the NULs that fill up a block: it is lost");
    script.line(ON);
    script.line(lines(&layout::form(&ask(SCREEN)[..2]), ROOM_FOR_A_BLOCK));
    script.line(lines(&layout::form(&[0x62, 0x58]), ROOM_FOR_A_BLOCK));
    script.comment("sequences of the screen cut in two, also by such NULs");
    script.line(FRESH);
    script.line(ON);
    for half in [
        &[b'a', US][..],
        &[0x43],
        &[0x44, b'b', REP],
        &[0x42, SS2],
        b"#",
        &[0x42],
    ] {
        script.line(lines(&layout::form(half), ROOM_FOR_A_BLOCK));
    }
    script.line(DUMP);
}

/// What keyboard and socket hand in between two blocks does not cut a command
/// of the modem, and the modem none of the socket.
fn commands_across_senders(script: &mut Script) {
    for table in [TO_LOCAL, TO_CONNECTED] {
        script.comment(&format!(
            "modem and socket each in a command, after {table}"
        ));
        script.line(FRESH);
        script.line(table);
        script.line(ON);
        let first = [&[b'-'; 12][..], &link(SET, SOCKET, SCREEN)[..3]].concat();
        last_byte(script, 4, &layout::form(&first));
        keys(script, &[b'k', ESC, 0x39]);
        sockets(script, &ask(SOCKET)[..2]);
        script.line(key(b'K'));
        let second = [&link(SET, SOCKET, SCREEN)[3..], b"after"].concat();
        last_byte(script, 5, &layout::form(&second));
        sockets(script, &[&ask(SOCKET)[2..], b"s"].concat());
    }
}

fn keyboard_and_socket(script: &mut Script) {
    script.comment("keys to the screen: linked by a block, by the socket, and cleared again");
    script.line(FRESH);
    script.line(key(b'1'));
    last_byte(script, 0, &layout::form(&link(SET, KEYBOARD, SCREEN)));
    keys(script, &[b'2', ESC, 0x41, b'3', REP, 0x42]);
    sockets(script, &link(CLEAR, KEYBOARD, SCREEN));
    script.line(key(b'4'));
    script.comment("what keys spell is no command, also where the screen gets it");
    sockets(script, &link(SET, KEYBOARD, SCREEN));
    keys(script, &ask(SCREEN));
    script.comment("the socket: to the screen, to the modem, a status, a pair of ESC");
    for table in [TO_LOCAL, TO_CONNECTED] {
        script.line(table);
        sockets(script, b"s");
        sockets(script, &ask(MODEM));
        sockets(script, &[ESC, 0x44]);
    }
    script.comment("keyboard, block and socket on one screen sequence");
    script.line(lnk(&Links::new(all_links())));
    script.line(key(US));
    script.line(socket(0x4c));
    last_byte(script, 0, &layout::form(&[0, 0, 0x4d, b'!']));
    script.line(DUMP);
}

fn tables_in_a_command(script: &mut Script) {
    script.comment("tables chosen in the middle of each command of modem and socket");
    for (unfinished, end) in UNFINISHED {
        script.line(lnk(&Links {
            table: all_links(),
            modem: unfinished.to_vec(),
            socket: unfinished.to_vec(),
        }));
        script.line(TO_LOCAL);
        last_byte(script, 9, &layout::form(end));
        script.line(TO_CONNECTED);
        sockets(script, end);
    }
}

fn values_too_large(script: &mut Script) {
    script.comment("values above 127 from keyboard and socket, in each command: nothing changes");
    for (unfinished, end) in UNFINISHED {
        script.line(lnk(&Links {
            table: links::state::local(),
            modem: unfinished.to_vec(),
            socket: unfinished.to_vec(),
        }));
        for value in [0x80, 0xff] {
            script.line(key(value));
            script.line(socket(value));
        }
        sockets(script, end);
    }
    script.comment("bytes of the line are never too large");
    script.line(FRESH);
    bytes(script, &[0x80, 0xff, 0xc6]);
}

fn asking(script: &mut Script) {
    script.comment("ask again: off, collecting, waiting; links and screen stay");
    let held = good_block();
    script.line(lnk(&Links {
        table: all_links(),
        modem: vec![ESC, PRO2],
        socket: vec![ESC],
    }));
    script.line(key(US));
    for (phase, number, count, seen) in [
        (IN_OFF, 0, 0, 0),
        (IN_OFF, 7, 5, 0),
        (IN_COLLECTING, 0, 0, 0),
        (IN_COLLECTING, 9, 16, 0),
        (IN_WAITING, 0, 0, 0),
        (IN_WAITING, 15, 3, 1),
        (IN_WAITING, 6, 0, 2),
    ] {
        script.line(rx(phase, number, count, seen, &held));
        script.line(ASK);
        script.line(ASK);
        script.line(line(receiver::number_code(number as u8)));
        script.line(ASK);
    }
}

/// Switching changes the receiver alone.
fn switching(script: &mut Script) {
    script.comment("switching in each phase, with links and screen in each sequence");
    let held = good_block();
    let phases = [(IN_OFF, 0), (IN_COLLECTING, 9), (IN_WAITING, 2)];
    for (place, (_, opening)) in OPENINGS.into_iter().enumerate() {
        let (unfinished, _) = UNFINISHED[place % UNFINISHED.len()];
        script.line(FRESH);
        script.line(lnk(&Links::new(all_links())));
        keys(script, opening);
        script.line(lnk(&Links {
            table: links::state::linking(&[(MODEM, SCREEN), (KEYBOARD, SCREEN)]),
            modem: unfinished.to_vec(),
            socket: unfinished.to_vec(),
        }));
        for switch in [ON, OFF] {
            let (phase, count) = phases[place % phases.len()];
            script.line(rx(phase, 11, count, count.min(2), &held));
            script.line(switch);
        }
        script.line(key(b'E'));
    }
}

fn parts_handed_in(script: &mut Script) {
    script.comment("a part handed in leaves the others; a fresh board leaves nothing");
    let held: Block = good_block();
    script.line(key(US));
    script.line(rx(IN_WAITING, 3, 2, 1, &held));
    script.line(lnk(&Links {
        table: all_links(),
        modem: vec![ESC],
        socket: vec![ESC, PRO2, 0x62],
    }));
    script.line(socket(0x59));
    bytes(script, &[150, receiver::number_code(3), 0x41]);
    script.line(FRESH);
    script.line(ASK);
    script.line(DUMP);
}
