//! The stored script that tries byte 16, whose parity bit may be mended too.

use crate::block::layout::{self, Block, BITS, PARITY_OF_16, REMAINDER_PLACE, USEFUL};
use crate::stored::scripts::block::{judge, two_blocks, with_byte};
use crate::stored::scripts::script::Script;

/// Each byte as byte 16, and what a judge might mend that looks at the remainder
/// or at the parities alone.
pub fn byte_16() -> Script {
    let mut script = Script::trying(
        "Each byte as byte 16; then blocks wrong in more than its parity bit, all to be repeated.",
    );
    for (name, block) in two_blocks() {
        script.comment(name);
        each_byte(&mut script, block);
        another_bit_too(&mut script, block);
        one_useful_byte_odd(&mut script, block);
        two_bytes_odd(&mut script, block);
        pointing_elsewhere(&mut script, block);
        byte_17_too(&mut script, block);
    }
    script
}

fn each_byte(script: &mut Script, block: Block) {
    script.comment("each of the 256 bytes as byte 16: one clean, eight mended, the others repeats");
    for byte in 0..=255 {
        script.line(judge(&with_byte(block, 16, byte)));
    }
}

fn another_bit_too(script: &mut Script, block: Block) {
    script.comment("the parity bit of byte 16 hit, and each other bit of all 136");
    for bit in (0..BITS).filter(|&bit| bit != PARITY_OF_16) {
        script.line(judge(&with_parity_hit(layout::hit(block, bit))));
    }
}

/// The remainder says that no code bit is wrong, but byte 16 is not the odd one.
fn one_useful_byte_odd(script: &mut Script, block: Block) {
    script.comment("each useful bit changed and byte 16 formed anew: remainder zero, one byte odd");
    for bit in 0..8 * USEFUL {
        script.line(judge(&formed_anew(block, bit)));
    }
}

fn two_bytes_odd(script: &mut Script, block: Block) {
    script.comment("the same with the parity bit of byte 16 hit: remainder zero, two bytes odd");
    for bit in 0..8 * USEFUL {
        script.line(judge(&with_parity_hit(formed_anew(block, bit))));
    }
}

/// Byte 16 alone is that of a block with the bit changed, and its parity is hit.
fn pointing_elsewhere(script: &mut Script, block: Block) {
    script.comment("byte 16 alone odd, and a remainder that points to each useful bit");
    for bit in 0..8 * USEFUL {
        let other = formed_anew(block, bit)[REMAINDER_PLACE];
        script.line(judge(&with_parity_hit(with_byte(block, 16, other))));
    }
}

fn byte_17_too(script: &mut Script, block: Block) {
    script.comment("the parity bit of byte 16 hit, and each byte but zero as byte 17");
    for byte in 1..=255 {
        script.line(judge(&with_parity_hit(with_byte(block, 17, byte))));
    }
}

fn with_parity_hit(block: Block) -> Block {
    layout::hit(block, PARITY_OF_16)
}

/// The block with one bit of a useful byte changed, and byte 16 as that asks.
fn formed_anew(block: Block, bit: usize) -> Block {
    layout::with_remainder(layout::hit(block, bit))
}
