//! The stored script that tries the reading of lines.

use crate::stored::scripts::block::{judge, make};
use crate::stored::scripts::script::Script;
use crate::trial::limits::{LONGEST_LINE, MOST_BYTES};

/// A good command after bad lines shows that nothing of them is left over.
const GOOD: &str = "make 41 17";

/// Lines that are no commands, gathered by what is wrong with them.
const NO_COMMANDS: &[(&str, &[&[u8]])] = &[
    (
        "a first word that is none",
        &[
            b"mak 41 17",
            b"makes 41 17",
            b"Make 41 17",
            b"MAKE 41 17",
            b"judged 41",
            b"Judge 41",
            b"41",
            b"-",
            b"?",
            b"? 1",
            b"rx",
            b"scr",
            b"lnk",
        ],
    ),
    (
        "words missing",
        &[b"make", b"make 41", b"make 17", b"judge"],
    ),
    (
        "words too many",
        &[
            b"make 41 17 17",
            b"make 41 42 17",
            b"make 41 17 -",
            b"make 41 17 # remark",
            b"judge 41 42",
            b"judge - -",
            b"judge 41 # remark",
        ],
    ),
    (
        "spaces too many",
        &[
            b" ",
            b"  ",
            b" #",
            b" make 41 17",
            b"make  41 17",
            b"make 41  17",
            b"make 41 17 ",
            b"make  17",
            b"make 41 ",
            b" judge 41",
            b"judge ",
            b"judge  41",
            b"judge 41 ",
        ],
    ),
    (
        "white space that is no space",
        &[
            b"\t",
            b"\r",
            b"\tmake 41 17",
            b"make\t41 17",
            b"make 41\t17",
            b"make 41 17\t",
            b"make 41 17\r",
            b"judge 41\r",
            b"judge\x0b41",
            b"judge\x0c41",
            b"judge\xc2\xa041",
        ],
    ),
    (
        "bytes that are none",
        &[
            b"judge 4",
            b"judge 414",
            b"judge 4A",
            b"judge A4",
            b"judge 4g",
            b"judge g4",
            b"judge /0",
            b"judge 0:",
            b"judge @0",
            b"judge 0`",
            b"judge 0x41",
            b"judge +4",
            b"judge --",
            b"judge -4",
            b"judge -41",
            b"judge 41-",
            b"judge 41-42",
            b"judge 41,42",
            b"judge \xc3\xa9",
            b"judge \xff",
            b"judge 41\xff",
            b"make 4 17",
            b"make 4A 17",
            b"make -- 17",
            b"make -41 17",
            b"make 41- 17",
        ],
    ),
    (
        "numbers that are none, or too large",
        &[
            b"make 41 -",
            b"make 41 00",
            b"make 41 007",
            b"make 41 017",
            b"make 41 +17",
            b"make 41 -0",
            b"make 41 -17",
            b"make 41 17.",
            b"make 41 1.7",
            b"make 41 1e1",
            b"make 41 1f",
            b"make 41 0x11",
            b"make 41 seventeen",
            b"make 41 /7",
            b"make 41 1:",
            b"make 41 \xd9\xa1\xd9\xa7",
            b"make 41 65",
            b"make 41 100",
            // 17 again, if the number is kept in 8, 16, 32 or 64 bits.
            b"make 41 273",
            b"make 41 65553",
            b"make 41 4294967313",
            b"make 41 18446744073709551633",
            b"make 41 99999999999999999999999999999999999999999999",
        ],
    ),
];

/// Lines that are no commands, among lines that are.
pub fn lines() -> Script {
    let mut script = Script::trying("Lines that are no commands, among lines that are.");
    silent_lines(&mut script);
    no_commands(&mut script);
    limits(&mut script);
    long_lines(&mut script);
    script.comment("a last line without its end");
    script.line_without_end("judge 41");
    script
}

fn silent_lines(script: &mut Script) {
    script.line(GOOD);
    for silent in ["", "#", "##", "#make 41 17", "# make 41 17", "#\t", "", ""] {
        script.line(silent);
    }
    script.line("?");
    script.line(GOOD);
}

fn no_commands(script: &mut Script) {
    for (what, lines) in NO_COMMANDS {
        script.comment(what);
        for line in *lines {
            script.line(line);
        }
        script.line(GOOD);
    }
}

fn limits(script: &mut Script) {
    script.comment("nothing, the most, and one more");
    for count in [0, MOST_BYTES, MOST_BYTES + 1] {
        script.line(make(&[0x41], count));
        script.line(make(&vec![0x41; count], 17));
        script.line(make(&vec![0x41; count], count));
        script.line(judge(&vec![0; count]));
    }
}

/// A long line must not be cut in two, so some have a command at the cut.
fn long_lines(script: &mut Script) {
    script.comment("lines of 9,000 characters, of 9,001, and longer");
    let longest = |start| filled_up(start, LONGEST_LINE);
    for start in ["judge ", "#"] {
        for line in [
            longest(start),
            longest(start) + "0",
            longest(start) + GOOD,
            longest(start) + &longest(start),
        ] {
            script.line(line);
            script.line(GOOD);
        }
    }
}

/// The line with zeros after it, up to so many characters.
fn filled_up(start: &str, length: usize) -> String {
    format!("{start:0<length$}")
}
