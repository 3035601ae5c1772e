//! The stored script that tries the reading of commands on the links.

use crate::links::codes::{ASK, ESC, PRO2, PRO3, SET};
use crate::links::state::{Links, KEYBOARD, MODEM};
use crate::stored::scripts::links::{from, set, some_links, LOCAL, TO_LOCAL};
use crate::stored::scripts::script::Script;
use crate::trial::limits::LONGEST_LINE;

/// Lines that are no commands, gathered by what is wrong with them.
const NO_COMMANDS: &[(&str, &[&[u8]])] = &[
    (
        "words that are none",
        &[
            b"lnk",
            b"lnklocal",
            b"lnk-local",
            b"LNK local",
            b"Lnk local",
            b"lnk Local",
            b"lnk LOCAL",
            b"lnk loca",
            b"lnk locally",
            b"lnk connect",
            b"lnk CONNECTED",
            b"lnk new",
            b"lnk fresh",
            b"lnk none",
            b"lnk 41",
            b"lnk k",
            b"lnk k 41",
            b"lnk -",
            b"lnk 0000001110001000",
            b"lnk state",
            b"local",
            b"to local",
            b"from k 41",
            b"links local",
            b"rx local",
            b"scr connected",
        ],
    ),
    (
        "words too many or missing",
        &[
            b"lnk local 0",
            b"lnk local -",
            b"lnk local local",
            b"lnk local connected",
            b"lnk connected connected",
            b"lnk local # remark",
            b"lnk to",
            b"lnk to local local",
            b"lnk to local -",
            b"lnk to connected 0",
            b"lnk from",
            b"lnk from k",
            b"lnk from m",
            b"lnk from 41",
            b"lnk from k 41 41",
            b"lnk from m 41 -",
            b"lnk from k m 41",
            b"lnk from s 41 # remark",
            b"lnk set",
            b"lnk lnk local",
        ],
    ),
    (
        "spaces too many, and white space that is none",
        &[
            b"lnk ",
            b" lnk",
            b" lnk local",
            b"lnk  local",
            b"lnk local ",
            b"lnk connected ",
            b"lnk to ",
            b"lnk  to local",
            b"lnk to  local",
            b"lnk to local ",
            b"lnk  from k 41",
            b"lnk from  k 41",
            b"lnk from k  41",
            b"lnk from k 41 ",
            b"lnk from k ",
            b"lnk from  41",
            b"lnk\tlocal",
            b"lnk local\t",
            b"lnk local\r",
            b"lnk to\tlocal",
            b"lnk to local\r",
            b"lnk from\tm 41",
            b"lnk from m\t41",
            b"lnk from m 41\r",
        ],
    ),
    (
        "tables and senders that are none",
        &[
            b"lnk to 0",
            b"lnk to -",
            b"lnk to Local",
            b"lnk to CONNECTED",
            b"lnk to none",
            b"lnk to modem",
            b"lnk to 0000001110001000",
            b"lnk from x 00",
            b"lnk from c 41",
            b"lnk from K 41",
            b"lnk from M 41",
            b"lnk from S 41",
            b"lnk from keyboard 41",
            b"lnk from modem 41",
            b"lnk from socket 41",
            b"lnk from screen 41",
            b"lnk from km 41",
            b"lnk from m41",
            b"lnk from 2 41",
            b"lnk from - 41",
            b"lnk from local 41",
        ],
    ),
    (
        "values that are none, or not one",
        &[
            b"lnk from m -",
            b"lnk from m 4",
            b"lnk from m 0",
            b"lnk from m 127",
            b"lnk from m 128",
            b"lnk from m 255",
            b"lnk from m 4142",
            b"lnk from s 1b3a",
            b"lnk from s 1B",
            b"lnk from s 5A",
            b"lnk from s FF",
            b"lnk from s fF",
            b"lnk from s 4g",
            b"lnk from k 0x",
            b"lnk from k 0x41",
            b"lnk from k +4",
            b"lnk from k -4",
            b"lnk from k A",
            b"lnk from k \xc3\xa9",
            b"lnk from k \xff",
        ],
    ),
    (
        "states with words missing, too many or out of order",
        &[
            b"lnk set ",
            b"lnk set 0000001110001000",
            b"lnk set 0000001110001000 -",
            b"lnk set 0000001110001000 - - -",
            b"lnk set 0000001110001000 - - # remark",
            b"lnk set 0000001110001000 - - ",
            b"lnk set  0000001110001000 - -",
            b"lnk set 0000001110001000  - -",
            b"lnk set 0000001110001000 -  -",
            b"lnk set 0000001110001000 - ",
            b"lnk set - -",
            b"lnk set - 0000001110001000 -",
            b"lnk set - - 0000001110001000",
            b"lnk set 0000001110001000,-,-",
            b"lnk set table=0000001110001000 - -",
            b"lnk set local - -",
            b"lnk set 0000001110001000 1b 3a -",
            b"lnk set 0000001110001000\t-\t-",
            b"lnk set 0000001110001000 - -\r",
        ],
    ),
];

/// Words that are no table.
const NO_TABLES: &[&str] = &[
    "-",
    "0",
    "1",
    "000000111000100",
    "00000011100010000",
    "00000011100010000000001110001000",
    "0000001110001002",
    "2000001110001000",
    "0000001120001000",
    "000000111000100-",
    "-000001110001000",
    "000000111000100a",
    "F000001110001000",
    "0000001110o01000",
    "0000,0011,1000,1000",
    "0000,0011,100010",
    "0388",
];

/// Words that are no unfinished sequence.
const NO_SEQUENCES: &[&str] = &[
    "--",
    "0",
    "1",
    "1b3",
    "1b3a6",
    "1b3b615",
    "1b3b61585",
    "00",
    "41",
    "39",
    "3a62",
    "9b",
    "ff",
    "1b00",
    "1b1b",
    "1b38",
    "1b3c",
    "1b40",
    "1bb9",
    "9b39",
    "1b3900",
    "1b39ff",
    "1b3a0102",
    "1b3b010203",
    "1b3bffffff",
    "1b3b01020304",
    "1B",
    "1B3a",
    "1b3A",
    "1b3aFF",
    "1b3agg",
    "1b3b61-",
    "-1b",
    "1b-",
    "1b,3a",
    "esc",
    "none",
    "0x1b",
];

/// Lines that are no commands, in a state in which any command would show.
pub fn lines() -> Script {
    let mut script = Script::trying("Lines that are no commands on the links, among good ones.");
    script.comment("the start: the local table, and nothing unfinished");
    script.line(show());
    script.comment("with everything used");
    script.line(set(&used()));
    for (what, lines) in NO_COMMANDS {
        script.comment(what);
        for line in *lines {
            and_show(&mut script, line);
        }
    }
    no_states(&mut script);
    long_lines(&mut script);
    in_a_broken_state(&mut script);
    other_commands(&mut script);
    sent_no_further(&mut script);
    script
}

/// A key shows the state and the links, and changes nothing.
fn show() -> String {
    from(KEYBOARD, b'k')
}

/// Both ears would answer to one code more.
fn used() -> Links {
    Links {
        table: some_links(),
        modem: vec![ESC, PRO2, ASK],
        socket: vec![ESC, PRO3, SET, 0x58],
    }
}

/// A line that must not change the links, and the links after it.
fn and_show(script: &mut Script, line: impl AsRef<[u8]>) {
    script.line(line);
    script.line(show());
}

fn no_states(script: &mut Script) {
    script.comment("no tables");
    for word in NO_TABLES {
        and_show(script, format!("lnk set {word} - -"));
    }
    script.comment("no unfinished sequences, of the modem and of the socket");
    for word in NO_SEQUENCES {
        and_show(script, format!("lnk set 0000001110001000 {word} -"));
        and_show(script, format!("lnk set 0000001110001000 - {word}"));
    }
}

/// A long line must not be cut in two, so one has a command at the cut.
fn long_lines(script: &mut Script) {
    script.comment("lines of 9,000 characters, of 9,001, and longer");
    let longest = format!("{:0<length$}", "lnk from k ", length = LONGEST_LINE);
    let with_command = longest.clone() + LOCAL;
    let with_spaces = format!("{:<length$}", LOCAL, length = LONGEST_LINE + 1);
    for line in [longest.clone(), longest + "0", with_command, with_spaces] {
        and_show(script, line);
    }
}

fn in_a_broken_state(script: &mut Script) {
    script.comment("no commands in a broken state, among good ones");
    let mut broken = used();
    broken.table[KEYBOARD][KEYBOARD] = true;
    script.line(set(&broken));
    for line in [
        "lnk",
        "lnk to",
        "lnk to none",
        "lnk from k",
        "lnk from x 41",
        "lnk from m 4",
        "lnk from s 128",
        "lnk set 0000001110001000 -",
        "lnk set 0000001110001000 1b40 -",
    ] {
        and_show(script, line);
    }
    script.line(LOCAL);
}

fn other_commands(script: &mut Script) {
    script.comment(
        "commands on blocks, receiver and screen, and silent lines, leave the links alone",
    );
    script.line(set(&used()));
    for line in [
        "make 41 17",
        "judge 0000000000000000000000000000008000",
        "rx on",
        "rx byte 1b",
        "rx new",
        "scr byte 1b",
        "scr run 3b615852",
        "scr fresh",
        "",
        "# lnk local",
        "#lnk local",
    ] {
        and_show(script, line);
    }
}

/// Neither the receiver nor the screen gets what the links send to the modem
/// and the screen.
fn sent_no_further(script: &mut Script) {
    script.comment("and the links leave the receiver and the screen alone");
    for line in [
        "rx set 2 5 3 1 0000000000000000000000000000000000",
        "scr run 0c41",
        LOCAL,
        &from(KEYBOARD, 0x96),
        &from(KEYBOARD, 0x16),
        &from(MODEM, b'B'),
        TO_LOCAL,
        "rx ask",
        "scr run -",
    ] {
        script.line(line);
    }
}
