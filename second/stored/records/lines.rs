//! Stored records of the line: pages in blocks, and what can happen to these.

use crate::block::layout::{self, Block, LENGTH, PARITY_OF_16, USEFUL};
use crate::line::receiver::{self, NUMBERS, SYN};
use crate::stored::bad_line::BadLine;
use crate::stored::records::pages;
use crate::stored::xorshift::Xorshift;

const LONG_SEED: u64 = 0x6c6f_6e67_2072_6563;
const NOISE_SEED: u64 = 0x6e6f_6973_6520_7265;

/// Blocks and resumptions in the long record.
const STRETCHES: usize = 1_700;

/// Pieces of noise, with a resumption after each.
const NOISES: usize = 60;

/// A page in blocks, as they are sent.
pub fn clean(page: &[u8]) -> Vec<u8> {
    blocks(page).concat()
}

fn blocks(page: &[u8]) -> Vec<Block> {
    page.chunks(USEFUL).map(layout::form).collect()
}

/// The frost page; blocks that cannot be mended come again after a resumption.
pub fn hits() -> Vec<u8> {
    let blocks = blocks(&pages::frost());
    // To be mended: useful bits, parity bits of useful bytes, bits of byte 16 and
    // its parity bit. Then no bit; and to be repeated: byte 17, two bits of one
    // byte, two of two, and a burst.
    let hits: [&[usize]; 12] = [
        &[37],
        &[0],
        &[7],
        &[119],
        &[120],
        &[126],
        &[PARITY_OF_16],
        &[],
        &[130],
        &[20, 21],
        &[6, 90],
        &[40, 41, 42, 43, 44],
    ];
    let mut record = Vec::new();
    for (count, block) in blocks.iter().enumerate() {
        let bits = hits[count % hits.len()];
        let hit = bits
            .iter()
            .fold(*block, |block, &bit| layout::hit(block, bit));
        record.extend(hit);
        if count % hits.len() > 7 {
            record.extend(receiver::resumption(count as u8 % NUMBERS));
            record.extend(block);
        }
    }
    record
}

/// The frost page over a worn contact, which upsets the parity bit of byte 16 in
/// every block.
pub fn worn() -> Vec<u8> {
    let worn = |block| layout::hit(block, PARITY_OF_16);
    blocks(&pages::frost()).into_iter().flat_map(worn).collect()
}

/// Block 2 is hit twice, two more are on the way, and the service goes back.
pub fn repeat() -> Vec<u8> {
    let blocks = blocks(&pages::frost());
    let mut record = blocks[..2].concat();
    record.extend(hit_twice(blocks[2]));
    record.extend(blocks[3..5].concat());
    record.extend(receiver::resumption(2));
    record.extend(blocks[2..].concat());
    record
}

/// The repeated block is hit again, and once more.
pub fn repeat_of_a_repeat() -> Vec<u8> {
    let blocks = blocks(&pages::frost());
    let mut record = blocks[0].to_vec();
    for on_the_way in [1, 0, 2] {
        record.extend(hit_twice(blocks[1]));
        record.extend(blocks[2..2 + on_the_way].concat());
        record.extend(receiver::resumption(1));
    }
    record.extend(blocks[1..].concat());
    record
}

/// Codes that do not end the waiting, and then those that do.
pub fn wrong_number() -> Vec<u8> {
    let blocks = blocks(&pages::frost());
    let code = receiver::number_code(1);
    let mut record = blocks[0].to_vec();
    record.extend(hit_twice(blocks[1]));
    record.extend(receiver::resumption(0));
    record.extend(blocks[0]);
    record.extend(receiver::resumption(2));
    record.extend([
        SYN,
        code,
        SYN,
        0,
        SYN,
        code,
        SYN,
        SYN,
        code ^ 128,
        22,
        SYN,
        code,
    ]);
    record.extend([SYN, SYN, SYN, code]);
    record.extend(blocks[1..].concat());
    record
}

/// It breaks off in the middle of a block.
pub fn ends_inside() -> Vec<u8> {
    let mut record = clean(&pages::frost());
    record.truncate(5 * LENGTH + 11);
    record
}

/// It breaks off while a repeat is awaited, after two of the three codes.
pub fn ends_waiting() -> Vec<u8> {
    let blocks = blocks(&pages::frost());
    let mut record = blocks[..6].concat();
    record.extend(hit_twice(blocks[6]));
    record.extend(blocks[7]);
    record.extend([SYN, SYN]);
    record
}

/// A NUL before the blocks counts as their first byte, so that they are cut
/// wrongly until the service goes back.
pub fn out_of_step() -> Vec<u8> {
    let blocks = blocks(&pages::frost());
    let mut record = vec![0];
    record.extend(blocks[..2].concat());
    record.extend(receiver::resumption(0));
    record.extend(blocks.concat());
    record
}

/// Many pages over a bad line.
pub fn long() -> Vec<u8> {
    BadLine::new(LONG_SEED).stretches(STRETCHES)
}

/// Random bytes, and codes that have the receiver listen again. In one place a
/// good block follows them.
pub fn noise() -> Vec<u8> {
    let mut random = Xorshift::new(NOISE_SEED);
    let mut record = Vec::new();
    for count in 0..NOISES {
        let length = random.below(80);
        record.extend((0..length).map(|_| random.byte()));
        let number = u8::from(count > NOISES / 2);
        record.extend(receiver::resumption(number));
        if count == NOISES / 2 {
            record.extend(layout::form(b"out of noise"));
        }
    }
    record
}

fn hit_twice(block: Block) -> Block {
    layout::hit(layout::hit(block, 9), 77)
}
