//! The judge as it is done on paper, bit by bit and without a table: what request 3 of 02 measures
//! the proved judge against. It is built by rustc --edition 2021 -O docs/src/bit_by_bit.rs, and
//! `./hut bench judge` runs both on the same record.
//!
//! bit_by_bit MODE FILE  where MODE is read, judge or write-judge, as in peer.rs
//!
//! running.rs, portions.rs, verdicts.rs and hex.rs are shared with the peer; its judge is not.

mod hex;
mod portions;
mod running;
mod verdicts;

use std::io::{Error, ErrorKind, Result, Write};
use std::process::ExitCode;

use verdicts::{judge_file, Verdict, BLOCK};

/// x^7 + x^3 + 1.
const GENERATOR: u8 = 0b1000_1001;

/// How many code bits there are: 120 in bytes 1 to 15, and seven in byte 16.
const CODE_BITS: u8 = 127;

/// The parity bit of byte 16, which is no code bit and may be mended too.
const PARITY_OF_16: u8 = 127;

/// One bit brought down behind the remainder so far, and the generator taken away where power 7
/// stands.
fn bring_down(remainder: u8, bit: u8) -> u8 {
    let longer = remainder << 1 | bit;
    if longer < 128 {
        longer
    } else {
        longer ^ GENERATOR
    }
}

/// What the code bits leave: weight 1 comes first in bytes 1 to 15, and last in byte 16
/// (docs/SOURCES.md).
fn remainder(block: &[u8; BLOCK]) -> u8 {
    let mut left = 0;
    for byte in &block[..15] {
        for weight in 0..8 {
            left = bring_down(left, byte >> weight & 1);
        }
    }
    for weight in (0..7).rev() {
        left = bring_down(left, block[15] >> weight & 1);
    }
    left
}

/// The bit that leaves this where it alone is wrong: the code bit of the power which leaves it, and
/// the parity bit of byte 16 where nothing is left.
fn place(left: u8) -> Option<u8> {
    if left == 0 {
        return Some(PARITY_OF_16);
    }
    let mut alone = 1;
    for power in 0..CODE_BITS {
        if alone == left {
            return Some(if power < 7 { 120 + power } else { 126 - power });
        }
        alone = bring_down(alone, 0);
    }
    None
}

fn is_odd(byte: u8) -> bool {
    byte.count_ones() % 2 == 1
}

fn judge(bytes: &mut [u8]) -> Verdict {
    let Ok(block) = <&mut [u8; BLOCK]>::try_from(bytes) else {
        return Verdict::WrongLength;
    };
    if block[16] != 0 {
        return Verdict::Repeat;
    }
    let odd = block[..16].iter().filter(|&&byte| is_odd(byte)).count();
    let left = remainder(block);
    if odd == 0 && left == 0 {
        return Verdict::Clean;
    }
    match place(left) {
        Some(bit) if odd == 1 && is_odd(block[bit as usize / 8]) => {
            block[bit as usize / 8] ^= 1 << (bit % 8);
            Verdict::Mended(bit)
        }
        _ => Verdict::Repeat,
    }
}

fn obey(words: &[&str], out: &mut impl Write) -> Result<()> {
    let usage = "usage: bit_by_bit (read | judge | write-judge) FILE";
    match *words {
        ["read", name] => portions::read(&mut portions::open(name)?, out),
        ["judge", name] => judge_file(&mut portions::open(name)?, false, out, judge),
        ["write-judge", name] => judge_file(&mut portions::open(name)?, true, out, judge),
        _ => Err(Error::new(ErrorKind::InvalidInput, usage)),
    }
}

fn main() -> ExitCode {
    running::run("bit_by_bit", obey)
}
