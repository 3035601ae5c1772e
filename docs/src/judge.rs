//! A block of seventeen bytes: made, and judged in place.

use crate::verdicts::{Verdict, BLOCK};

pub const VALUES: usize = 15;

/// How many code bits there are: 120 in bytes 1 to 15, and seven in byte 16.
const CODE_BITS: u8 = 127;

/// The parity bit of byte 16, which is no code bit and may be mended too.
const PARITY_OF_16: u8 = 127;

/// How many bits of a block may be mended: the first so many.
pub const MENDABLE: u8 = 128;

/// x^7 + x^3 + 1.
const GENERATOR: u8 = 0b1000_1001;

/// The remainder after a byte, at the remainder before it and the byte, added. Since weight 1 of a
/// byte is its highest power, remainders are mirrored here: power 6 has weight 1, and power 0
/// weight 64.
static STEPS: [u8; 256] = steps();

const fn steps() -> [u8; 256] {
    let mut table = [0; 256];
    let mut entering = 0;
    while entering < 256 {
        let mut remainder = entering as u8;
        let mut bit = 0;
        while bit < 8 {
            let out = remainder & 1;
            remainder >>= 1;
            if out == 1 {
                remainder ^= (GENERATOR & 127).reverse_bits() >> 1;
            }
            bit += 1;
        }
        table[entering] = remainder;
        entering += 1;
    }
    table
}

/// A mirrored remainder as byte 16 has it: power 0 at weight 1 (docs/SOURCES.md).
static MIRRORED: [u8; 128] = mirrored();

const fn mirrored() -> [u8; 128] {
    let mut table = [0; 128];
    let mut remainder = 0;
    while remainder < 128 {
        table[remainder] = (remainder as u8).reverse_bits() >> 1;
        remainder += 1;
    }
    table
}

/// The bit that leaves a remainder where it alone is wrong. Each code bit leaves one of its own; the
/// parity bit of byte 16 leaves zero, since it is not divided.
static PLACES: [u8; 128] = places();

const fn places() -> [u8; 128] {
    let mut table = [PARITY_OF_16; 128];
    let mut remainder: u8 = 1;
    let mut power = 0;
    while power < CODE_BITS {
        // Powers 0 to 6 lie in byte 16, and the higher ones before it, the highest first.
        table[remainder as usize] = if power < 7 { 120 + power } else { 126 - power };
        remainder <<= 1;
        if remainder > 127 {
            remainder ^= GENERATOR;
        }
        power += 1;
    }
    table
}

fn remainder(useful: &[u8]) -> u8 {
    let mut mirrored = 0;
    for byte in useful {
        mirrored = STEPS[(mirrored ^ byte) as usize];
    }
    MIRRORED[mirrored as usize]
}

/// Weight 1 of each byte whose parity is odd, all sixteen at once.
fn odd_bytes(sixteen: &[u8; 16]) -> u128 {
    let mut bits = u128::from_le_bytes(*sixteen);
    bits ^= bits >> 4;
    bits ^= bits >> 2;
    bits ^= bits >> 1;
    bits & (u128::MAX / 255)
}

pub fn judge(bytes: &mut [u8]) -> Verdict {
    let Ok(block) = <&mut [u8; BLOCK]>::try_from(bytes) else {
        return Verdict::WrongLength;
    };
    let Some(sixteen) = block.first_chunk::<16>() else {
        return Verdict::WrongLength;
    };
    if block[16] != 0 {
        return Verdict::Repeat;
    }
    let odd = odd_bytes(sixteen);
    let left = remainder(&sixteen[..VALUES]) ^ (sixteen[15] & 127);
    if odd == 0 && left == 0 {
        return Verdict::Clean;
    }
    mend(block, odd, left)
}

/// One wrong bit makes its own byte odd, and no other, and leaves its own remainder.
#[cold]
fn mend(block: &mut [u8; BLOCK], odd: u128, left: u8) -> Verdict {
    let place = PLACES[left as usize];
    if odd != 1 << (place / 8 * 8) {
        return Verdict::Repeat;
    }
    block[place as usize / 8] ^= 1 << (place % 8);
    Verdict::Mended(place)
}

pub fn with_parity(value: u8) -> u8 {
    value | (value.count_ones() as u8 & 1) << 7
}

pub fn make(values: &[u8; VALUES]) -> [u8; BLOCK] {
    let mut block = [0; BLOCK];
    for (byte, &value) in block.iter_mut().zip(values) {
        *byte = with_parity(value);
    }
    block[15] = with_parity(remainder(&block[..VALUES]));
    block
}
