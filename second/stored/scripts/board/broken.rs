//! The stored script that breaks each part of the board in turn, on every call,
//! and hands in states at the edge that are not broken.

use crate::block::layout;
use crate::board::joined::OUTPUTS;
use crate::line::receiver;
use crate::links;
use crate::links::codes::{ESC, PRO2, PRO3, SET};
use crate::links::state::{Links, Module, KEYBOARD, MODEM, MODULES, SCREEN, SOCKET};
use crate::screen::state::{Screen, CELLS};
use crate::stored::scripts::board::{
    key, line, lines, lnk, rx, scr, socket, ASK, DUMP, FRESH, MOST_ROOM, OFF, ON, ROOM_FOR_A_BLOCK,
    TO_CONNECTED, TO_LOCAL,
};
use crate::stored::scripts::line::{good_block, IN_COLLECTING, IN_OFF, IN_WAITING};
use crate::stored::scripts::links::{all_links, ask, some_links, EARS, NAMES};
use crate::stored::scripts::screen::broken::{used, CELL_CHANGES, CHANGES, IN_RANGE};
use crate::stored::scripts::script::Script;

/// Phase, number, count and seen, one of them out of its range.
const RECEIVERS: [(usize, usize, usize, usize); 12] = [
    (IN_OFF, 16, 0, 0),
    (IN_OFF, 255, 0, 0),
    (IN_OFF, 0, 17, 0),
    (IN_COLLECTING, 16, 0, 0),
    (IN_COLLECTING, 255, 3, 0),
    (IN_COLLECTING, 0, 17, 0),
    (IN_COLLECTING, 15, 255, 0),
    (IN_WAITING, 16, 0, 2),
    (IN_WAITING, 255, 0, 0),
    (IN_WAITING, 0, 17, 1),
    (IN_WAITING, 0, 0, 3),
    (IN_WAITING, 7, 4, 255),
];

/// The same, all at the edge of their ranges, or not looked at.
const RECEIVERS_AT_THE_EDGE: [(usize, usize, usize, usize); 6] = [
    (IN_OFF, 15, 16, 255),
    (IN_COLLECTING, 0, 0, 3),
    (IN_COLLECTING, 15, 16, 0),
    (IN_WAITING, 0, 0, 0),
    (IN_WAITING, 15, 16, 2),
    (IN_WAITING, 9, 0, 1),
];

/// Unfinished sequences with a code too large.
const SEQUENCES: [&[u8]; 5] = [
    &[ESC, PRO2, 0x80],
    &[ESC, PRO3, 0xff],
    &[ESC, PRO3, SET, 0x80],
    &[ESC, PRO3, 0x80, 0x58],
    &[ESC, PRO3, 0xff, 0xff],
];

/// The same, with the smallest and the largest codes that are in range.
const SEQUENCES_AT_THE_EDGE: [&[u8]; 4] = [
    &[ESC, PRO2, 0x00],
    &[ESC, PRO2, 0x7f],
    &[ESC, PRO3, 0x7f, 0x00],
    &[ESC, PRO3, 0x00, 0x7f],
];

/// Each part broken alone, several of them, and parts at the edge.
pub fn broken() -> Script {
    let mut script = Script::trying("A board with a broken part, and boards at the edge.");
    broken_receivers(&mut script);
    broken_links(&mut script);
    broken_screens(&mut script);
    several_parts(&mut script);
    out_of_a_broken_state(&mut script);
    at_the_edge(&mut script);
    script
}

fn broken_receivers(script: &mut Script) {
    for state in RECEIVERS {
        script.comment(&format!("a broken receiver: {state:?}"));
        script.line(FRESH);
        script.line(receiver_command(state));
        every_call(script);
    }
}

fn broken_links(script: &mut Script) {
    for module in 0..MODULES {
        script.comment(&format!("a self link: {}", NAMES[module]));
        script.line(FRESH);
        script.line(self_linked(module));
        every_call(script);
    }
    for ear in EARS {
        for codes in SEQUENCES {
            script.comment(&format!(
                "a code too large from the {}: {codes:02x?}",
                NAMES[ear]
            ));
            script.line(FRESH);
            script.line(with_sequence(ear, codes));
            every_call(script);
        }
    }
}

/// Every second change of what is not a cell is enough here: `scr-broken` has all.
fn broken_screens(script: &mut Script) {
    script.line(FRESH);
    for (place, (what, change)) in CELL_CHANGES.iter().enumerate() {
        let index = [0, CELLS / 2, CELLS - 1][place % 3];
        script.comment(&format!("a broken screen, cell {index}: {what}"));
        let mut screen = used();
        change(&mut screen.cells[index]);
        script.line(scr(&screen));
        some_calls(script);
    }
    script.line(DUMP);
    for (what, change) in CHANGES.iter().step_by(2) {
        script.comment(&format!("a broken screen: {what}"));
        let mut screen = used();
        change(&mut screen);
        script.line(scr(&screen));
        some_calls(script);
    }
}

/// Each call leaves the broken board as it is, so the next finds it again.
/// Values too large and outputs without room are handed in too: 5 goes before 2
/// and 4.
fn every_call(script: &mut Script) {
    for each in [ON, OFF, ASK, TO_LOCAL, TO_CONNECTED] {
        script.line(each);
    }
    script.line(line(0x41));
    script.line(line(receiver::number_code(0)));
    for value in [b'A', 0x80] {
        script.line(key(value));
        script.line(socket(value));
    }
    script.line(lines(&[], [0; OUTPUTS]));
    script.line(lines(&good_block(), ROOM_FOR_A_BLOCK));
    script.line(lines(&asking_plainly(), [0; OUTPUTS]));
}

/// The same with fewer lines, after a state as long as a screen.
fn some_calls(script: &mut Script) {
    for each in [ON, ASK, TO_CONNECTED] {
        script.line(each);
    }
    script.line(line(0x41));
    script.line(key(b'A'));
    script.line(socket(0xff));
    script.line(lines(&asking_plainly(), [0, 3, 1, 0]));
}

fn several_parts(script: &mut Script) {
    script.comment("two parts broken, then all three; each made good in turn");
    let mut screen = used();
    screen.cells[7].code = 0x1f;
    script.line(FRESH);
    script.line(receiver_command((IN_WAITING, 16, 17, 3)));
    script.line(self_linked(MODEM));
    every_call(script);
    script.line(scr(&screen));
    every_call(script);
    script.line(lnk(&Links::new(some_links())));
    some_calls(script);
    script.line(receiver_command((IN_WAITING, 3, 2, 1)));
    some_calls(script);
    script.line(scr(&used()));
    some_calls(script);
    script.line(DUMP);
}

/// A good part in the broken one's place, or a fresh board.
fn out_of_a_broken_state(script: &mut Script) {
    script.comment("out of a broken state: the other parts are as they were");
    script.line(FRESH);
    for each in [0x41, 0x1b, 0x42, 0x9f] {
        script.line(line(each));
    }
    for (broken, good) in [
        (
            receiver_command((IN_OFF, 16, 0, 0)),
            receiver_command((IN_OFF, 0, 0, 0)),
        ),
        (
            self_linked(SOCKET),
            lnk(&Links::new(links::state::connected())),
        ),
        (
            with_sequence(SOCKET, SEQUENCES[0]),
            with_sequence(SOCKET, SEQUENCES_AT_THE_EDGE[0]),
        ),
    ] {
        script.line(&broken);
        script.line(line(0x43));
        script.line(good);
        script.line(line(0x43));
        script.line(broken);
    }
    script.comment("a broken receiver after a good one: the good one is forgotten");
    script.line(FRESH);
    script.line(receiver_command((IN_WAITING, 4, 0, 2)));
    script.line(receiver_command((IN_COLLECTING, 4, 17, 0)));
    script.line(line(receiver::number_code(4)));
    script.line(FRESH);
    script.line(line(receiver::number_code(4)));
}

fn at_the_edge(script: &mut Script) {
    script.comment("receivers at the edge, not broken");
    script.line(FRESH);
    for state in RECEIVERS_AT_THE_EDGE {
        for call in [
            ON,
            OFF,
            ASK,
            &line(0),
            &line(receiver::number_code(state.1 as u8)),
        ] {
            script.line(receiver_command(state));
            script.line(call);
        }
    }
    script.comment("links at the edge, not broken");
    for codes in SEQUENCES_AT_THE_EDGE {
        for ear in EARS {
            script.line(FRESH);
            script.line(with_sequence(ear, codes));
            script.line(line(0xff));
            script.line(socket(0x7f));
            script.line(lines(&asking_plainly(), MOST_ROOM.map(|room| room / 50)));
        }
    }
    script.comment("screens at the edge, not broken, also some that no run reaches");
    for (what, change) in IN_RANGE {
        script.comment(what);
        let mut screen = Screen::fresh();
        change(&mut screen);
        script.line(scr(&screen));
        for each in [0xa0, 0x12, 0x42, 0x0a, 0x42] {
            script.line(line(each));
        }
        script.line(lines(&[0x1b, 0xd2, 0x8e, 0xe1, 0x12, 0x41], [0; OUTPUTS]));
    }
}

fn receiver_command((phase, number, count, seen): (usize, usize, usize, usize)) -> String {
    rx(phase, number, count, seen, &good_block())
}

fn self_linked(module: Module) -> String {
    let mut links = Links::new(some_links());
    links.table[module][module] = true;
    lnk(&links)
}

/// A sequence unfinished by one ear, beside a good one of the other.
fn with_sequence(ear: Module, codes: &[u8]) -> String {
    let mut links = Links {
        table: all_links(),
        modem: vec![ESC],
        socket: vec![ESC, PRO2],
    };
    match ear {
        MODEM => links.modem = codes.to_vec(),
        _ => links.socket = codes.to_vec(),
    }
    lnk(&links)
}

/// Bytes that would be answered and shown by a board that is off.
fn asking_plainly() -> Vec<u8> {
    let values = [&ask(SCREEN)[..], &ask(KEYBOARD), b"A"].concat();
    values.into_iter().map(layout::with_parity).collect()
}
