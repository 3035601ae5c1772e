//! Writes the stored trial scripts into a directory, the same ones each time.

mod block {
    pub mod judge;
    pub mod layout;
    pub mod polynomial;
}
mod board {
    pub mod joined;
}
mod line {
    pub mod receiver;
}
mod links {
    pub mod codes;
    pub mod rules;
    pub mod state;
    pub mod writing;
}
mod screen {
    pub mod codes;
    pub mod rules;
    pub mod state;
    pub mod writing;
}
mod stored {
    pub mod bad_line;
    pub mod damage;
    pub mod files;
    pub mod page_values;
    pub mod scripts;
    pub mod xorshift;
}
mod trial {
    pub mod limits;
    pub mod writing;
}

use std::process::ExitCode;

use stored::files::{self, Stored};
use stored::scripts::{self, script::Script};

/// Every stored script. A new family of commands adds its own here.
const STORED: [Stored<Script>; 37] = [
    ("cards", scripts::block::cards),
    ("making", scripts::block::making),
    ("lengths", scripts::block::lengths),
    ("every-byte", scripts::block::every_byte),
    ("byte-16", scripts::block::byte_16::byte_16),
    ("hit-once", scripts::block::hit_once),
    ("hit-twice", scripts::block::hit_twice),
    ("damaged", scripts::block::damaged),
    ("lines", scripts::block::lines::lines),
    ("rx-cards", scripts::line::cards),
    ("rx-switching", scripts::line::switching),
    ("rx-resuming", scripts::line::resuming),
    ("rx-broken", scripts::line::broken::broken),
    ("rx-line", scripts::line::record::line),
    ("rx-lines", scripts::line::lines::lines),
    ("scr-cards", scripts::screen::cards),
    ("scr-rules", scripts::screen::rules::rules),
    ("scr-codes", scripts::screen::sequences::codes),
    ("scr-places", scripts::screen::places::places),
    ("scr-repeats", scripts::screen::repeats::repeats),
    ("scr-broken", scripts::screen::broken::broken),
    ("scr-runs", scripts::screen::runs::runs),
    ("scr-random", scripts::screen::random::random),
    ("scr-lines", scripts::screen::lines::lines),
    ("lnk-tables", scripts::links::tables::tables),
    ("lnk-pairs", scripts::links::pairs::pairs),
    ("lnk-commands", scripts::links::every_code::commands),
    ("lnk-escapes", scripts::links::escapes::escapes),
    ("lnk-apart", scripts::links::apart::apart),
    ("lnk-broken", scripts::links::broken::broken),
    ("lnk-random", scripts::links::random::random),
    ("lnk-lines", scripts::links::lines::lines),
    ("brd-cards", scripts::board::cards::cards),
    ("brd-line", scripts::board::record::line),
    ("brd-pieces", scripts::board::pieces::pieces),
    ("brd-broken", scripts::board::broken::broken),
    ("brd-lines", scripts::board::lines::lines),
];

fn main() -> ExitCode {
    files::write_all("scripts", &STORED)
}
