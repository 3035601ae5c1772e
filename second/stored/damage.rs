//! What a bad line does to blocks, and to the codes that announce a repeat.

use crate::block::layout::{self, Block, BITS, CODE_BITS, LENGTH, PARITY_OF_16};
use crate::line::receiver::{self, NUMBERS, SYN};
use crate::stored::xorshift::Xorshift;

/// The place of byte 17.
const VALIDATION: usize = 16;

/// The block as it comes through, and what has happened to it. One code bit is
/// mended, and so is the parity bit of byte 16, which a worn contact upsets.
pub fn block(random: &mut Xorshift, block: Block) -> (&'static str, Vec<u8>) {
    let mut bytes = block.to_vec();
    match random.below(34) {
        0..=4 => {
            let bit = random.below(CODE_BITS);
            ("one code bit hit", layout::hit(block, bit).to_vec())
        }
        5..=7 => {
            let bit = random.below(BITS);
            let other = (bit + 1 + random.below(BITS - 1)) % BITS;
            let hit_twice = layout::hit(layout::hit(block, bit), other);
            ("two bits hit", hit_twice.to_vec())
        }
        8 => {
            let worn = layout::hit(block, PARITY_OF_16);
            ("the parity bit of byte 16 hit", worn.to_vec())
        }
        9 => {
            bytes[VALIDATION] ^= 1 << random.below(8);
            ("byte 17 hit", bytes)
        }
        kind @ 10..=13 => out_of_step(random, kind, bytes),
        _ => ("whole", bytes),
    }
}

/// Bytes too few or too many, so that the blocks after it are cut wrongly.
fn out_of_step(random: &mut Xorshift, kind: usize, mut bytes: Vec<u8>) -> (&'static str, Vec<u8>) {
    match kind {
        10 => {
            bytes.remove(random.below(LENGTH));
            ("one byte lost", bytes)
        }
        11 => {
            let place = random.below(LENGTH);
            bytes.insert(place, bytes[place]);
            ("one byte doubled", bytes)
        }
        12 => {
            bytes.insert(random.below(LENGTH + 1), random.byte());
            ("a stray byte", bytes)
        }
        _ => {
            let nuls = vec![0; 1 + random.below(3)];
            ("after NULs", [nuls, bytes].concat())
        }
    }
}

/// The codes as they come through, mostly whole. Where they do not end the
/// waiting, only the host's next asking can.
pub fn resumption(random: &mut Xorshift, number: u8) -> (&'static str, Vec<u8>) {
    let mut codes = receiver::resumption(number).to_vec();
    match random.below(10) {
        0 => {
            codes.insert(0, SYN);
            ("three synchronising codes", codes)
        }
        1 => {
            let wrong = (number + 1 + random.below(15) as u8) % NUMBERS;
            let both = [receiver::resumption(wrong).to_vec(), codes].concat();
            ("a wrong number first", both)
        }
        2 => {
            let hit = random.below(codes.len());
            codes[hit] ^= 1 << random.below(8);
            ("one bit hit", codes)
        }
        3 => {
            codes.remove(random.below(3));
            ("one code lost", codes)
        }
        4 => {
            codes.insert(random.below(4), random.byte());
            ("a stray byte among the codes", codes)
        }
        5 => {
            let nuls = vec![0; 1 + random.below(3)];
            ("after NULs", [nuls, codes].concat())
        }
        _ => ("as sent", codes),
    }
}
