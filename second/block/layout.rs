//! The block: 15 useful bytes, the remainder's byte 16, the validation byte 17.

use crate::block::polynomial::{self, Polynomial, DEGREE, GENERATOR_DEGREE};

/// Useful bytes in a block.
pub const USEFUL: usize = 15;

/// Bytes in a block.
pub const LENGTH: usize = 17;

/// Bits in a block, numbered byte 1 first and weight 1 first in each byte.
pub const BITS: usize = 8 * LENGTH;

/// The first so many bits of a block are its code bits: bytes 1 to 15 whole,
/// and byte 16 without its parity. These are what is divided.
pub const CODE_BITS: usize = DEGREE + 1;

/// The parity bit of byte 16, which is no code bit.
pub const PARITY_OF_16: usize = 8 * REMAINDER_PLACE + 7;

/// The first so many bits of a block may be mended: the code bits and the parity
/// bit of byte 16 (request 2 of 02), which are bytes 1 to 16 whole.
pub const MENDABLE_BITS: usize = PARITY_OF_16 + 1;

/// Bits of the useful bytes, all of them code bits.
const USEFUL_BITS: usize = 8 * USEFUL;

/// The place of byte 16.
pub const REMAINDER_PLACE: usize = 15;

const PARITY_WEIGHT: u8 = 128;

pub type Block = [u8; LENGTH];

/// The block of at most 15 values, each at most 127, filled up with NUL.
pub fn form(values: &[u8]) -> Block {
    assert!(
        values.len() <= USEFUL,
        "too many values for a block: {values:02x?}"
    );
    let mut block = [0; LENGTH];
    for (byte, &value) in block.iter_mut().zip(values) {
        *byte = with_parity(value);
    }
    with_remainder(block)
}

/// The block with the byte 16 that its useful bytes ask for, whatever their
/// parity.
pub fn with_remainder(mut block: Block) -> Block {
    // What is divided has a zero there.
    block[REMAINDER_PLACE] = 0;
    block[REMAINDER_PLACE] = with_parity(remainder_value(&block));
    block
}

pub fn has_even_parity(byte: u8) -> bool {
    byte.count_ones().is_multiple_of(2)
}

pub fn with_parity(value: u8) -> u8 {
    if has_even_parity(value) {
        value
    } else {
        value | PARITY_WEIGHT
    }
}

pub fn without_parity(byte: u8) -> u8 {
    byte & !PARITY_WEIGHT
}

/// The 127 code bits, each at its power.
pub fn code_polynomial(block: &Block) -> Polynomial {
    let mut polynomial = [false; DEGREE + 1];
    for bit in 0..CODE_BITS {
        polynomial[power(bit)] = block[bit / 8] & weight(bit) != 0;
    }
    polynomial
}

/// The block with this one bit changed.
pub fn hit(mut block: Block, bit: usize) -> Block {
    block[bit / 8] ^= weight(bit);
    block
}

/// The remainder as a value: the coefficient of power i has weight 2^i.
fn remainder_value(block: &Block) -> u8 {
    let remainder = polynomial::remainder(code_polynomial(block));
    (0..GENERATOR_DEGREE)
        .filter(|&power| remainder[power])
        .map(|power| 1 << power)
        .sum()
}

/// The power that a code bit stands for. The useful bytes fall from 126 to 7
/// in the order of sending; in byte 16, weight 2^i is power i (section 5-1-3).
fn power(bit: usize) -> usize {
    if bit < USEFUL_BITS {
        DEGREE - bit
    } else {
        bit - USEFUL_BITS
    }
}

fn weight(bit: usize) -> u8 {
    1 << (bit % 8)
}
