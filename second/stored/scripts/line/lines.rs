//! The stored script that tries the reading of commands on the receiver.

use crate::stored::scripts::line::{set, ASK, IN_WAITING};
use crate::stored::scripts::script::Script;

/// Lines that are no commands, gathered by what is wrong with them.
const NO_COMMANDS: &[(&str, &[&[u8]])] = &[
    (
        "words that are none",
        &[
            b"rx",
            b"rxon",
            b"rx-on",
            b"RX on",
            b"Rx on",
            b"rx On",
            b"rx OFF",
            b"rx o",
            b"rx one",
            b"rx newer",
            b"rx reset",
            b"rx asks",
            b"rx bytes 96",
            b"rx 96",
            b"rx -",
            b"rx state",
            b"on",
            b"ask",
            b"byte 96",
        ],
    ),
    (
        "words too many",
        &[
            b"rx new 0",
            b"rx new -",
            b"rx on on",
            b"rx off 0",
            b"rx ask 0",
            b"rx ask # remark",
            b"rx on off",
            b"rx byte 96 96",
            b"rx byte 96 -",
            b"rx rx on",
        ],
    ),
    (
        "spaces too many, and white space that is none",
        &[
            b"rx ",
            b" rx",
            b" rx on",
            b"rx  on",
            b"rx on ",
            b"rx  off",
            b"rx off ",
            b"rx new ",
            b"rx ask ",
            b"rx  byte 96",
            b"rx byte  96",
            b"rx byte 96 ",
            b"rx byte ",
            b"rx\ton",
            b"rx on\t",
            b"rx on\r",
            b"rx byte\t96",
            b"rx byte 96\r",
        ],
    ),
    (
        "bytes that are none, or not one",
        &[
            b"rx byte",
            b"rx byte -",
            b"rx byte 9",
            b"rx byte 966",
            b"rx byte 9696",
            b"rx byte 123",
            b"rx byte 9G",
            b"rx byte FF",
            b"rx byte fF",
            b"rx byte 0x",
            b"rx byte 0x96",
            b"rx byte +9",
            b"rx byte -9",
            b"rx byte \xc3\xa9",
            b"rx byte \xff",
        ],
    ),
    (
        "states with words missing or too many",
        &[
            b"rx set",
            b"rx set ",
            b"rx set 1",
            b"rx set 1 2",
            b"rx set 1 2 3",
            b"rx set 1 2 3 0",
            b"rx set 1 2 3 0 ",
            b"rx set 2 3 0 000102030405060708090a0b0c0d0e0f10",
            b"rx set 1 2 3 0 0 000102030405060708090a0b0c0d0e0f10",
            b"rx set 1 2 3 0 000102030405060708090a0b0c0d0e0f10 0",
            b"rx set 1 2 3 0 000102030405060708090a0b0c0d0e0f10 # remark",
            b"rx set 1 2 3 0 000102030405060708090a0b0c0d0e0f10 ",
            b"rx set  1 2 3 0 000102030405060708090a0b0c0d0e0f10",
            b"rx set 1  2 3 0 000102030405060708090a0b0c0d0e0f10",
            b"rx set 1 2  3 0 000102030405060708090a0b0c0d0e0f10",
            b"rx set 1 2 3  0 000102030405060708090a0b0c0d0e0f10",
            b"rx set 1 2 3 0  000102030405060708090a0b0c0d0e0f10",
            b" rx set 1 2 3 0 000102030405060708090a0b0c0d0e0f10",
            b"rx set 1,2,3,0,000102030405060708090a0b0c0d0e0f10",
            b"rx set 1 2 3 0 000102030405060708090a0b0c0d0e0f10\r",
        ],
    ),
    (
        "states with numbers that are none, or too large",
        &[
            b"rx set 3 2 3 0 000102030405060708090a0b0c0d0e0f10",
            b"rx set 10 2 3 0 000102030405060708090a0b0c0d0e0f10",
            b"rx set 255 2 3 0 000102030405060708090a0b0c0d0e0f10",
            b"rx set 257 2 3 0 000102030405060708090a0b0c0d0e0f10",
            b"rx set 00 2 3 0 000102030405060708090a0b0c0d0e0f10",
            b"rx set 01 2 3 0 000102030405060708090a0b0c0d0e0f10",
            b"rx set +1 2 3 0 000102030405060708090a0b0c0d0e0f10",
            b"rx set -1 2 3 0 000102030405060708090a0b0c0d0e0f10",
            b"rx set - 2 3 0 000102030405060708090a0b0c0d0e0f10",
            b"rx set a 2 3 0 000102030405060708090a0b0c0d0e0f10",
            b"rx set on 2 3 0 000102030405060708090a0b0c0d0e0f10",
            b"rx set 1 256 3 0 000102030405060708090a0b0c0d0e0f10",
            b"rx set 1 02 3 0 000102030405060708090a0b0c0d0e0f10",
            b"rx set 1 00 3 0 000102030405060708090a0b0c0d0e0f10",
            b"rx set 1 +2 3 0 000102030405060708090a0b0c0d0e0f10",
            b"rx set 1 -2 3 0 000102030405060708090a0b0c0d0e0f10",
            b"rx set 1 - 3 0 000102030405060708090a0b0c0d0e0f10",
            b"rx set 1 0f 3 0 000102030405060708090a0b0c0d0e0f10",
            b"rx set 1 2 256 0 000102030405060708090a0b0c0d0e0f10",
            b"rx set 1 2 03 0 000102030405060708090a0b0c0d0e0f10",
            b"rx set 1 2 000 0 000102030405060708090a0b0c0d0e0f10",
            b"rx set 1 2 +3 0 000102030405060708090a0b0c0d0e0f10",
            b"rx set 1 2 -3 0 000102030405060708090a0b0c0d0e0f10",
            b"rx set 1 2 - 0 000102030405060708090a0b0c0d0e0f10",
            b"rx set 1 2 3. 0 000102030405060708090a0b0c0d0e0f10",
            // SEEN counts in waiting alone, yet must be a number everywhere.
            b"rx set 0 2 3 256 000102030405060708090a0b0c0d0e0f10",
            b"rx set 1 2 3 256 000102030405060708090a0b0c0d0e0f10",
            b"rx set 2 2 3 256 000102030405060708090a0b0c0d0e0f10",
            b"rx set 2 2 3 02 000102030405060708090a0b0c0d0e0f10",
            b"rx set 1 2 3 00 000102030405060708090a0b0c0d0e0f10",
            b"rx set 1 2 3 +0 000102030405060708090a0b0c0d0e0f10",
            b"rx set 1 2 3 -0 000102030405060708090a0b0c0d0e0f10",
            b"rx set 1 2 3 - 000102030405060708090a0b0c0d0e0f10",
            // 2 again, if the number is kept in 8, 16, 32 or 64 bits.
            b"rx set 1 258 3 0 000102030405060708090a0b0c0d0e0f10",
            b"rx set 1 65538 3 0 000102030405060708090a0b0c0d0e0f10",
            b"rx set 1 4294967298 3 0 000102030405060708090a0b0c0d0e0f10",
            b"rx set 1 18446744073709551618 3 0 000102030405060708090a0b0c0d0e0f10",
        ],
    ),
    (
        "states with bytes that are none, or not seventeen",
        &[
            b"rx set 1 2 0 0 -",
            b"rx set 1 2 3 0 000102",
            b"rx set 1 2 16 0 000102030405060708090a0b0c0d0e0f",
            b"rx set 1 2 3 0 000102030405060708090a0b0c0d0e0f1",
            b"rx set 1 2 3 0 000102030405060708090a0b0c0d0e0f101",
            b"rx set 1 2 3 0 000102030405060708090a0b0c0d0e0f1011",
            b"rx set 1 2 3 0 000102030405060708090A0b0c0d0e0f10",
            b"rx set 1 2 3 0 000102030405060708090a0b0c0d0e0F10",
            b"rx set 1 2 3 0 000102030405060708090a0b0c0d0e0g10",
            b"rx set 1 2 3 0 000102030405060708090a0b0c0d0e0f-1",
            b"rx set 1 2 3 0 -000102030405060708090a0b0c0d0e0f1",
            b"rx set 1 2 3 0 00,01,02,03,04,05,06,07,08,09,0a,0",
        ],
    ),
];

/// Lines that are no commands, in a state in which any command would show.
pub fn lines() -> Script {
    let mut script = Script::trying("Lines that are no commands on the receiver, among good ones.");
    script.comment("the start: a new receiver");
    script.line(ASK);
    script.comment("waiting, with something held and seen");
    script.line(set(IN_WAITING, 5, 3, 1));
    no_commands(&mut script);
    script.comment("the same in a broken state");
    script.line(set(IN_WAITING, 255, 255, 255));
    no_commands(&mut script);
    other_commands(&mut script);
    script
}

fn no_commands(script: &mut Script) {
    for (what, lines) in NO_COMMANDS {
        script.comment(what);
        for line in *lines {
            script.line(line);
        }
        script.line(ASK);
    }
}

fn other_commands(script: &mut Script) {
    script.comment("commands on blocks and silent lines leave the receiver alone");
    script.line(set(IN_WAITING, 15, 16, 2));
    for line in [
        "make 41 17",
        ASK,
        "judge 0000000000000000000000000000008000",
        ASK,
        "",
        "# rx on",
        "#rx on",
        ASK,
    ] {
        script.line(line);
    }
}
