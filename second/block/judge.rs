//! The judging of blocks, by the definition: every neighbour is tried.

use crate::block::layout::{self, Block, BITS, MENDABLE_BITS, USEFUL};
use crate::block::polynomial;

pub enum Judgement {
    WrongLength,
    Clean,
    Mended,
    Repeat,
}

/// Judges the lent bytes, mends them in place where that is due, and hands
/// back the useful bytes of a clean or mended block, else an empty part.
pub fn judge(lent: &mut [u8]) -> (Judgement, &[u8]) {
    let Ok(block) = <&mut Block>::try_from(lent) else {
        return (Judgement::WrongLength, &[]);
    };
    if is_valid(block) {
        return (Judgement::Clean, &block[..USEFUL]);
    }
    match wrong_bit(block) {
        Some(bit) if bit < MENDABLE_BITS => {
            *block = layout::hit(*block, bit);
            (Judgement::Mended, &block[..USEFUL])
        }
        _ => (Judgement::Repeat, &[]),
    }
}

/// The cheap tests come first, since most neighbours fail them.
fn is_valid(block: &Block) -> bool {
    let [sixteen @ .., validation] = block;
    *validation == 0
        && sixteen.iter().all(|&byte| layout::has_even_parity(byte))
        && is_divisible(block)
}

fn is_divisible(block: &Block) -> bool {
    let remainder = polynomial::remainder(layout::code_polynomial(block));
    !remainder.contains(&true)
}

/// The one bit of all 136 in which a valid block differs from this block.
fn wrong_bit(block: &Block) -> Option<usize> {
    let candidates: Vec<usize> = (0..BITS)
        .filter(|&bit| is_valid(&layout::hit(*block, bit)))
        .collect();
    // Two valid blocks two bits apart would make the mending ambiguous.
    match candidates[..] {
        [] => None,
        [bit] => Some(bit),
        _ => panic!("block {block:02x?} has several valid neighbours: bits {candidates:?}"),
    }
}
