//! The keeper's program: it tells what is in records of the line, shows their
//! pages, and makes blocks of values. Its arguments are pairs, a command and a
//! file, obeyed in turn.

mod block {
    pub mod judge;
    pub mod layout;
    pub mod polynomial;
}
mod keeper;
mod links {
    pub mod codes;
    pub mod rules;
    pub mod state;
}
mod screen {
    pub mod codes;
    pub mod rules;
    pub mod state;
}

// Of board and receiver a part is enough here: a record is heard byte by byte,
// with the receiver on all the time, and nobody asks again.
mod board {
    #[allow(dead_code)]
    pub mod joined;
}
mod line {
    #[allow(dead_code)]
    pub mod receiver;
}

use std::env;
use std::ffi::OsString;
use std::io::{self, Write};
use std::path::Path;
use std::process::ExitCode;

use keeper::{faults, replay, send};

const USAGE: &str = "usage: replay (replay RECORD | show RECORD | send VALUES)...";

fn main() -> ExitCode {
    let arguments: Vec<OsString> = env::args_os().skip(1).collect();
    let mut status = ExitCode::SUCCESS;
    if arguments.is_empty() {
        eprintln!("{USAGE}");
        status = ExitCode::FAILURE;
    }
    for pair in arguments.chunks(2) {
        let mut output = Vec::new();
        let obeyed = obey(pair, &mut output);
        let written = io::stdout().write_all(&output);
        let written = written.map_err(|error| faults::of("standard output", error));
        // What was told before a fault is written before it is named.
        for fault in [written, obeyed].into_iter().filter_map(Result::err) {
            eprintln!("{fault}");
            status = ExitCode::FAILURE;
        }
    }
    status
}

/// Adds what the command writes to the output, also where it then finds a fault.
fn obey(pair: &[OsString], output: &mut Vec<u8>) -> Result<(), String> {
    let [command, file] = pair else {
        return Err(USAGE.to_string());
    };
    let file = Path::new(file);
    let mut text = String::new();
    let obeyed = match command.to_str() {
        Some("replay") => replay::replay(file, &mut text),
        Some("show") => replay::show(file, &mut text),
        Some("send") => return send::send(file, output),
        _ => Err(USAGE.to_string()),
    };
    output.extend(text.into_bytes());
    obeyed
}
