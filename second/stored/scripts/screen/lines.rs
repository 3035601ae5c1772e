//! The stored script that tries the reading of commands on the screen.

use crate::screen::codes::{ESC, SO};
use crate::screen::state::{Screen, CELLS};
use crate::stored::scripts::screen::{byte, cell, load, run, us, DUMP, FRESH};
use crate::stored::scripts::script::Script;
use crate::trial::limits::{LONGEST_LINE, MOST_VALUES};

/// It shows the state and changes nothing.
const SHOW: &str = "scr run -";

/// Lines that are no commands, gathered by what is wrong with them.
const NO_COMMANDS: &[(&str, &[&[u8]])] = &[
    (
        "words that are none",
        &[
            b"scr",
            b"scrfresh",
            b"scr-fresh",
            b"SCR fresh",
            b"Scr fresh",
            b"scr Fresh",
            b"scr FRESH",
            b"scr fres",
            b"scr freshly",
            b"scr new",
            b"scr clear",
            b"scr bytes 41",
            b"scr 41",
            b"scr -",
            b"scr runs 41",
            b"scr dumps",
            b"scr DUMP",
            b"scr cells 1 1",
            b"scr state",
            b"scr set 1 1",
            b"fresh",
            b"dump",
            b"run 41",
            b"byte 41",
            b"cell 1 1",
            b"rx fresh",
            b"rx dump",
            b"screen fresh",
        ],
    ),
    (
        "words too many or missing",
        &[
            b"scr fresh 0",
            b"scr fresh -",
            b"scr fresh fresh",
            b"scr fresh # remark",
            b"scr dump 0",
            b"scr dump -",
            b"scr dump dump",
            b"scr byte",
            b"scr byte 41 41",
            b"scr byte 41 -",
            b"scr run",
            b"scr run 41 42",
            b"scr run - -",
            b"scr run 41 # remark",
            b"scr cell",
            b"scr cell 1",
            b"scr cell 1 1 1",
            b"scr cell 1 1 -",
            b"scr cell 1,1",
            b"scr scr fresh",
        ],
    ),
    (
        "spaces too many, and white space that is none",
        &[
            b"scr ",
            b" scr",
            b" scr fresh",
            b"scr  fresh",
            b"scr fresh ",
            b"scr dump ",
            b" scr dump",
            b"scr  byte 41",
            b"scr byte  41",
            b"scr byte 41 ",
            b"scr byte ",
            b"scr run ",
            b"scr run  41",
            b"scr run 41 ",
            b"scr run - ",
            b"scr cell  1 1",
            b"scr cell 1  1",
            b"scr cell 1 1 ",
            b"scr cell 1 ",
            b"scr\tfresh",
            b"scr fresh\t",
            b"scr fresh\r",
            b"scr dump\r",
            b"scr byte\t41",
            b"scr byte 41\r",
            b"scr run 41\r",
            b"scr cell 1 1\r",
            b"scr cell 1\t1",
        ],
    ),
    (
        "values that are none",
        &[
            b"scr byte -",
            b"scr byte 4",
            b"scr byte 414",
            b"scr byte 4142",
            b"scr byte 4G",
            b"scr byte FF",
            b"scr byte fF",
            b"scr byte 0x",
            b"scr byte 0x41",
            b"scr byte +4",
            b"scr byte -4",
            b"scr byte A",
            b"scr byte \xc3\xa9",
            b"scr byte \xff",
            b"scr run 4",
            b"scr run 414",
            b"scr run 41424",
            b"scr run 4A",
            b"scr run 41FF",
            b"scr run 41gg",
            b"scr run --",
            b"scr run -41",
            b"scr run 41-",
            b"scr run 41,42",
            b"scr run 0x4142",
            b"scr run 41\xff",
        ],
    ),
    (
        "places that are no numbers, or too large",
        &[
            b"scr cell 256 1",
            b"scr cell 1 256",
            b"scr cell 01 1",
            b"scr cell 1 01",
            b"scr cell 00 1",
            b"scr cell 1 00",
            b"scr cell +1 1",
            b"scr cell 1 +1",
            b"scr cell -1 1",
            b"scr cell 1 -1",
            b"scr cell - 1",
            b"scr cell 1 -",
            b"scr cell a 1",
            b"scr cell 1 a",
            b"scr cell 1. 1",
            b"scr cell 1 0x1",
            // 1 again, if the number is kept in 8, 16, 32 or 64 bits.
            b"scr cell 257 1",
            b"scr cell 1 65537",
            b"scr cell 4294967297 1",
            b"scr cell 1 18446744073709551617",
        ],
    ),
];

// The words of `scr load` after the cells.
const CUR: usize = 0;
const ATTR: usize = 1;
const LAST: usize = 2;
const KEPT: usize = 3;
const PEND: usize = 4;

/// Words that are no part of a state, and the part that each stands for.
const NO_PARTS: &[(usize, &[&str])] = &[
    (
        CUR,
        &[
            "-", "1,1", "1,1,0,0", "1,1,2", "1,1,-", "256,1,0", "1,256,0", "01,1,0", "1,+1,0",
            "-1,1,0", "1,,0", "1;1;0",
        ],
    ),
    (
        ATTR,
        &[
            "-",
            "0,7,0,-,0",
            "0,7,0,-,0,0,0",
            "256,7,0,-,0,0",
            "-,7,0,-,0,0",
            "0,256,0,-,0,0",
            "0,7,00,-,0,0",
            "0,7,0,256,0,0",
            "0,7,0,,0,0",
            "0,7,0,--,0,0",
            "0,7,0,-,2,0",
            "0,7,0,-,0,2",
            "0,7,0,-,0,-",
        ],
    ),
    (
        LAST,
        &[
            "0", "0:4", "0:414", "0:4G", "0:4A", "0:", ":41", "256:41", "00:41", "-:41", "0:-",
            "0:41:41", "0,41", "--",
        ],
    ),
    (
        KEPT,
        &[
            "-",
            "1,1",
            "1,1,0,7,0,-,0",
            "1,1,0,7,0,-,0,0,0",
            "256,1,0,7,0,-,0,0",
            "1,01,0,7,0,-,0,0",
            "1,1,256,7,0,-,0,0",
            "1,1,0,7,0,256,0,0",
            "1,1,0,7,0,-,2,0",
            "1,1,0,7,0,-,0,2",
            "1,1,,7,0,-,0,0",
        ],
    ),
    (
        PEND,
        &[
            "--", "ESC", "escape", "esc3", "esc:41", "us:", "us:4", "us:412", "us:4A", "us:-",
            "us41", "csi:41", "none", "0",
        ],
    ),
];

/// Lines that are no commands, in a state in which any command would show.
pub fn lines() -> Script {
    let mut script = Script::trying("Lines that are no commands on the screen, among good ones.");
    script.comment("the start: a fresh screen");
    script.line(SHOW);
    script.comment("with everything used");
    use_everything(&mut script);
    for (what, lines) in NO_COMMANDS {
        script.comment(what);
        for line in *lines {
            script.line(line);
        }
        script.line(SHOW);
    }
    runs_too_long(&mut script);
    long_lines(&mut script);
    no_states(&mut script);
    no_cells(&mut script);
    in_a_broken_state(&mut script);
    other_commands(&mut script);
    script
}

fn use_everything(script: &mut Script) {
    script.line(FRESH);
    script.line(run(&[SO, ESC, 0x41, b'a', ESC, 0x52]));
    script.line(run(&us(0, 7)));
    script.line(run(&[ESC, 0x53, b'B', ESC]));
}

fn runs_too_long(script: &mut Script) {
    script.comment("the most values, and one more: good ones, and too large ones");
    for value in [0x00, 0x80] {
        script.line(run(&vec![value; MOST_VALUES]));
        script.line(run(&vec![value; MOST_VALUES + 1]));
        script.line(SHOW);
    }
    script.comment("half a value more than the most");
    script.line(run(&[0; MOST_VALUES]) + "0");
}

/// A long line must not be cut in two, so some have a command at the cut.
fn long_lines(script: &mut Script) {
    script.comment("lines of 9,000 characters, of 9,001, and longer");
    let length = LONGEST_LINE;
    let longest = format!("{:0<length$}", "scr run ");
    let with_command = longest.clone() + FRESH;
    for line in [longest.clone(), longest + "0", with_command] {
        script.line(line);
        script.line(SHOW);
    }
}

fn no_states(script: &mut Script) {
    let screen = Screen::fresh();
    let cells = screen.written_cells();
    for (part, words) in NO_PARTS {
        for word in *words {
            script.comment(&format!("no part of a state: {word}"));
            let mut parts = screen.written_parts();
            parts[*part] = word.to_string();
            script.line(format!("scr load {cells} {}", parts.join(" ")));
        }
        script.line(SHOW);
    }
    script.comment("words missing, too many, or out of order");
    let [cursor, attributes, last, kept, unfinished] = screen.written_parts();
    for words in [
        String::new(),
        cells.clone(),
        format!("{cells} {cursor} {attributes} {last} {kept}"),
        format!("{cursor} {attributes} {last} {kept} {unfinished}"),
        format!("{cells} {cursor} {attributes} {last} {kept} {unfinished} -"),
        format!("{cells} {cursor} {attributes} {last} {kept} {unfinished} "),
        format!("{cells} {cursor} {attributes} {last} {unfinished} {kept}"),
        format!("{cells}  {cursor} {attributes} {last} {kept} {unfinished}"),
        format!("- {cursor} {attributes} {last} {kept} {unfinished}"),
    ] {
        script.line(format!("scr load {words}"));
    }
    script.line("scr load");
    script.line(SHOW);
}

fn no_cells(script: &mut Script) {
    let screen = Screen::fresh();
    let parts = screen.written_parts().join(" ");
    let cells = screen.written_cells();
    script.comment("cells too few, too many, or with digits that are none");
    let (first, last) = ("1207000", 7 * (CELLS - 1));
    for cells in [
        cells[1..].to_string(),
        cells[7..].to_string(),
        format!("{cells}0"),
        format!("{cells}{first}"),
        format!("1207002{}", &cells[7..]),
        format!("1207020{}", &cells[7..]),
        format!("12070f0{}", &cells[7..]),
        format!("g207000{}", &cells[7..]),
        format!("1A07000{}", &cells[7..]),
        format!("{}120700-", &cells[..last]),
        format!("{}1207002", &cells[..last]),
        format!("{}F207000", &cells[..last]),
    ] {
        script.line(format!("scr load {cells} {parts}"));
    }
    script.line(SHOW);
    script.line(DUMP);
    script.comment("and the good state itself");
    script.line(load(&screen));
}

fn in_a_broken_state(script: &mut Script) {
    script.comment("no commands in a broken state, among good ones");
    let mut screen = Screen::fresh();
    screen.cursor.row = 25;
    script.line(load(&screen));
    for line in [
        "scr",
        "scr byte",
        "scr byte 4",
        "scr run",
        "scr cell",
        "scr dump 0",
        "scr cell 1",
        "scr load",
    ] {
        script.line(line);
    }
    script.line(run(&[0x80; MOST_VALUES + 1]));
    script.line(SHOW);
    script.line(byte(b'A'));
    script.line(cell(1, 1));
    script.line(FRESH);
}

fn other_commands(script: &mut Script) {
    script.comment(
        "commands on blocks and on the receiver, and silent lines, leave the screen alone",
    );
    use_everything(script);
    for line in [
        "make 41 17",
        SHOW,
        "judge 0000000000000000000000000000008000",
        SHOW,
        "rx on",
        "rx byte 0c",
        "rx set 1 0 0 0 0000000000000000000000000000000000",
        SHOW,
        "",
        "# scr fresh",
        "#scr fresh",
        SHOW,
    ] {
        script.line(line);
    }
    script.comment("and the screen's leave the receiver alone");
    for line in ["rx ask", FRESH, &byte(0x0c), "rx ask"] {
        script.line(line);
    }
}
