//! The stored script that tries the reading of commands on the board.

use crate::board::joined::OUTPUTS;
use crate::links::codes::{ASK, ESC, PRO2, PRO3, SET};
use crate::links::state::Links;
use crate::screen::state::Screen;
use crate::stored::scripts::board::no_commands::NO_COMMANDS;
use crate::stored::scripts::board::{key, lines as piece, lnk, rx, scr, DUMP, FRESH, MOST_ROOM};
use crate::stored::scripts::line::{good_block, IN_WAITING};
use crate::stored::scripts::links::some_links;
use crate::stored::scripts::screen::broken::used;
use crate::stored::scripts::script::Script;
use crate::trial::limits::{LONGEST_LINE, LONGEST_PIECE};

/// Lines that are no commands, on a board on which any command would show.
pub fn lines() -> Script {
    let mut script = Script::trying("Lines that are no commands on the board, among good ones.");
    script.comment("the start: a fresh board");
    script.line(show());
    script.comment("with everything used");
    use_everything(&mut script);
    for (what, lines) in NO_COMMANDS {
        script.comment(what);
        for line in *lines {
            script.line(line);
        }
        script.line(show());
    }
    no_screens(&mut script);
    pieces_too_long(&mut script);
    long_lines(&mut script);
    in_a_broken_state(&mut script);
    other_commands(&mut script);
    script
}

/// A key that reaches nobody shows the state, and changes nothing.
fn show() -> String {
    key(0)
}

/// Every part in the middle of something.
fn use_everything(script: &mut Script) {
    script.line(scr(&used()));
    script.line(lnk(&Links {
        table: some_links(),
        modem: vec![ESC, PRO2, ASK],
        socket: vec![ESC, PRO3, SET, 0x58],
    }));
    script.line(rx(IN_WAITING, 5, 3, 1, &good_block()));
}

fn no_screens(script: &mut Script) {
    script.comment("screens that are none: parts missing, too many or out of order");
    let screen = Screen::fresh();
    let cells = screen.written_cells();
    let [cursor, attributes, last, kept, unfinished] = screen.written_parts();
    for words in [
        String::new(),
        format!("{cells} {cursor} {attributes} {last} {kept}"),
        format!("{cursor} {attributes} {last} {kept} {unfinished}"),
        format!("{cells} {cursor} {attributes} {last} {kept} {unfinished} -"),
        format!("{cells} {cursor} {attributes} {last} {unfinished} {kept}"),
        format!(
            "{}2 {cursor} {attributes} {last} {kept} {unfinished}",
            &cells[1..]
        ),
        format!(
            "{} {cursor} {attributes} {last} {kept} {unfinished}",
            &cells[7..]
        ),
        format!("{cells} 1,1 {attributes} {last} {kept} {unfinished}"),
        format!("{cells} {cursor} 0,7,0,8 {last} {kept} {unfinished}"),
        format!("{cells} {cursor} {attributes} 41 {kept} {unfinished}"),
        format!("{cells} {cursor} {attributes} {last} {kept} us:4"),
        format!("load {cells} {cursor} {attributes} {last} {kept} {unfinished}"),
    ] {
        script.line(format!("brd scr {words}"));
    }
    script.line(show());
    script.line(DUMP);
}

fn pieces_too_long(script: &mut Script) {
    script.comment("the longest piece and the most room, and one more");
    for length in [LONGEST_PIECE, LONGEST_PIECE + 1] {
        let bytes = vec![0x55; length];
        script.line(piece(&bytes, [0; OUTPUTS]));
        script.line(piece(&bytes, [length; OUTPUTS]));
        script.line(piece(&bytes, [length, 1, 2, 3]));
    }
    script.comment("half a byte more than the most");
    let half = "0".repeat(2 * LONGEST_PIECE + 1);
    script.line(format!("brd lines {half} 0 0 0 0"));
    script.line(show());
}

/// A long line must not be cut in two, so one has a command at the cut.
fn long_lines(script: &mut Script) {
    script.comment("lines of 9,000 characters, of 9,001, and longer");
    let longest = format!("{:0<length$}", "brd lines ", length = LONGEST_LINE);
    let with_command = longest.clone() + FRESH;
    let with_spaces = format!("{:<length$}", FRESH, length = LONGEST_LINE + 1);
    for line in [longest.clone(), longest + "0", with_command, with_spaces] {
        script.line(line);
        script.line(show());
    }
}

fn in_a_broken_state(script: &mut Script) {
    script.comment("no commands on a broken board, among good ones");
    script.line(rx(IN_WAITING, 16, 0, 0, &good_block()));
    for line in [
        "brd",
        "brd line",
        "brd key 4",
        "brd to none",
        "brd lines 41 1 1 1",
        "brd lines 41 601 1 1 1",
        "brd rx 3 0 0 0 0000000000000000000000000000000000",
        "brd dump 0",
    ] {
        script.line(line);
        script.line(show());
    }
    script.line(piece(&[0x41], MOST_ROOM.map(|room| room / 100)));
}

/// The board has parts of its own.
fn other_commands(script: &mut Script) {
    script.comment("commands on blocks, receiver, screen and links leave the board alone");
    use_everything(script);
    for line in [
        "make 41 17",
        "judge 0000000000000000000000000000008000",
        "rx on",
        "rx byte 96",
        "rx new",
        "scr byte 41",
        "scr fresh",
        "lnk from m 58",
        "lnk to local",
        "lnk connected",
        "",
        "# brd fresh",
        "#brd fresh",
    ] {
        script.line(line);
        script.line(show());
    }
    script.comment("and the board's leave these alone");
    for line in [
        "scr run 0c41",
        "rx set 2 5 3 1 0000000000000000000000000000000000",
        "lnk set 0000001010010010 1b3a -",
        FRESH,
        "brd line 42",
        "brd socket 1b",
        "brd on",
        "brd to connected",
        "rx ask",
        "scr run -",
        "lnk from k 41",
    ] {
        script.line(line);
    }
}
