//! The peer of the proved board, which shows what the proofs cost: the same rules in plain Rust
//! without proofs, with mutable state, tables, and no copy of the screen. `./hut bench` builds it,
//! runs it beside the proved program `bench` on the same records, and holds what both print to be
//! the same; it is built by rustc --edition 2021 -O docs/src/peer.rs.
//!
//! peer MODE FILE...           plays each FILE by the MODE before it
//! peer make KIND SEED BLOCKS  writes a record of that kind, plain, upset or night, with so many
//!                             blocks
//!
//! The modes are read, judge, receiver, links, screen and path; with `write-` before the last five,
//! everything that is handed out is written too. The mode memory writes the line of a process's
//! status that has its peak memory.
//!
//! judge.rs     a block made and judged
//! receiver.rs  the line receiver
//! links.rs     the links and their commands
//! screen.rs    the screen
//! board.rs     all of it joined
//! records.rs   the records
//! modes.rs     the modes
//! texts.rs     states as text
//!
//! Shared with bit_by_bit.rs, the other program of this folder:
//!
//! running.rs   a program run on its arguments
//! portions.rs  files read in portions
//! verdicts.rs  verdicts, and the mode judge
//! hex.rs       bytes in base sixteen

mod board;
mod hex;
mod judge;
mod links;
mod modes;
mod portions;
mod receiver;
mod records;
mod running;
mod screen;
mod texts;
mod verdicts;

use std::io::{Error, ErrorKind, Result, Write};
use std::process::ExitCode;

const USAGE: &str = "usage: peer MODE FILE... | peer make (plain | upset | night) SEED BLOCKS";

fn misused() -> Error {
    Error::new(ErrorKind::InvalidInput, USAGE)
}

fn play(mode: &str, name: &str, out: &mut impl Write) -> Result<()> {
    let mut file = portions::open(name)?;
    let (writing, part) = mode
        .strip_prefix("write-")
        .map_or((false, mode), |part| (true, part));
    match (part, writing) {
        ("read", false) => portions::read(&mut file, out),
        ("judge", _) => modes::judge(&mut file, writing, out),
        ("receiver", _) => modes::receiver(&mut file, writing, out),
        ("links", _) => modes::links(&mut file, writing, out),
        ("screen", _) => modes::screen(&mut file, writing, out),
        ("path", _) => modes::path(&mut file, writing, out),
        ("memory", false) => modes::memory(&mut file, out),
        _ => Err(misused()),
    }
}

fn make(kind: &str, seed: &str, blocks: &str, out: &mut impl Write) -> Result<()> {
    let (Ok(seed), Ok(blocks)) = (seed.parse(), blocks.parse()) else {
        return Err(misused());
    };
    let mut chance = records::Chance::new(seed);
    match kind {
        "plain" => records::write_plain(out, &mut chance, blocks),
        "upset" => records::write_upset(out, &mut chance, blocks),
        "night" => records::write_night(out, &mut chance, blocks),
        _ => Err(misused()),
    }
}

fn obey(words: &[&str], out: &mut impl Write) -> Result<()> {
    match *words {
        ["make", kind, seed, blocks] => make(kind, seed, blocks, out),
        [] => Err(misused()),
        _ => words.chunks(2).try_for_each(|pair| match *pair {
            [mode, name] => play(mode, name, out),
            _ => Err(misused()),
        }),
    }
}

fn main() -> ExitCode {
    running::run("peer", obey)
}
