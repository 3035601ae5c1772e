//! Records made from a seed: blocks of plain characters, the same with some of them upset, and a
//! night of pages on a bad line.

use std::io::{Result, Write};

use crate::judge::{make, with_parity, MENDABLE, VALUES};
use crate::links::ESC;
use crate::verdicts::BLOCK;

/// splitmix64: the same numbers from the same seed, everywhere.
pub struct Chance(u64);

impl Chance {
    pub fn new(seed: u64) -> Chance {
        Chance(seed)
    }

    fn next(&mut self) -> u64 {
        self.0 = self.0.wrapping_add(0x9e37_79b9_7f4a_7c15);
        let mut z = self.0;
        z = (z ^ z >> 30).wrapping_mul(0xbf58_476d_1ce4_e5b9);
        z = (z ^ z >> 27).wrapping_mul(0x94d0_49bb_1331_11eb);
        z ^ z >> 31
    }

    fn below(&mut self, n: u64) -> u64 {
        self.next() % n
    }

    /// From the first to the last, both among them.
    fn code(&mut self, first: u8, last: u8) -> u8 {
        first + self.below((last - first + 1) as u64) as u8
    }

    fn once_in(&mut self, n: u64) -> bool {
        self.below(n) == 0
    }
}

/// A clean block of fifteen characters of 2/0 to 7/E.
fn plain_block(chance: &mut Chance) -> [u8; BLOCK] {
    make(&std::array::from_fn(|_| chance.code(0x20, 0x7e)))
}

pub fn write_plain(out: &mut impl Write, chance: &mut Chance, blocks: usize) -> Result<()> {
    (0..blocks).try_for_each(|_| out.write_all(&plain_block(chance)))
}

/// Such blocks one behind the other, upset as those of a night are: one in 200 at two bits, and of
/// the others one in ten at one bit that may be mended.
pub fn write_upset(out: &mut impl Write, chance: &mut Chance, blocks: usize) -> Result<()> {
    for _ in 0..blocks {
        let block = plain_block(chance);
        let arrives = if chance.once_in(200) {
            hit_twice(chance, block)
        } else {
            hit_at_times(chance, block)
        };
        out.write_all(&arrives)?;
    }
    Ok(())
}

/// So many blocks of pages, as they arrive.
pub fn write_night(out: &mut impl Write, chance: &mut Chance, blocks: usize) -> Result<()> {
    let sent = paged_blocks(chance, blocks);
    let mut next = 0;
    while next < sent.len() {
        if chance.once_in(200) {
            write_refused(out, chance, &sent[next..], next)?;
        } else {
            out.write_all(&hit_at_times(chance, sent[next]))?;
            next += 1;
        }
    }
    Ok(())
}

/// A block hit at two bits, the blocks that are on their way when the sender hears the request, and
/// the codes with which it begins again.
fn write_refused(
    out: &mut impl Write,
    chance: &mut Chance,
    sent: &[[u8; BLOCK]],
    number: usize,
) -> Result<()> {
    out.write_all(&hit_twice(chance, sent[0]))?;
    let under_way = chance.below(4) as usize;
    for &block in sent[1..].iter().take(under_way) {
        out.write_all(&hit_at_times(chance, block))?;
    }
    out.write_all(&[0x16, 0x16, 0x40 + (number % 16) as u8].map(with_parity))
}

/// Two different bits of all 136 upset.
fn hit_twice(chance: &mut Chance, block: [u8; BLOCK]) -> [u8; BLOCK] {
    let first = chance.below(136);
    let second = (first + 1 + chance.below(135)) % 136;
    hit(hit(block, first), second)
}

/// One block in ten has one bit upset that may be mended, the parity bit of byte 16 among these.
fn hit_at_times(chance: &mut Chance, block: [u8; BLOCK]) -> [u8; BLOCK] {
    if chance.once_in(10) {
        hit(block, chance.below(MENDABLE.into()))
    } else {
        block
    }
}

fn hit(mut block: [u8; BLOCK], bit: u64) -> [u8; BLOCK] {
    block[bit as usize / 8] ^= 1 << (bit % 8);
    block
}

fn paged_blocks(chance: &mut Chance, blocks: usize) -> Vec<[u8; BLOCK]> {
    let mut values = Vec::new();
    let mut made = Vec::with_capacity(blocks);
    while made.len() < blocks {
        values.clear();
        add_page(&mut values, chance);
        for part in values.chunks(VALUES).take(blocks - made.len()) {
            let mut fifteen = [0; VALUES];
            fifteen[..part.len()].copy_from_slice(part);
            made.push(make(&fifteen));
        }
    }
    made
}

/// A page as a host sends it: most of its lines are text or mosaics, some have a command or a code
/// that is seldom sent.
fn add_page(page: &mut Vec<u8>, chance: &mut Chance) {
    page.push(0x0c);
    page.push(if chance.once_in(2) { 0x11 } else { 0x14 });
    let mut row = 1;
    while row < 25 {
        add_place(page, row, chance.code(1, 20));
        match chance.below(12) {
            0..=5 => add_text(page, chance),
            6..=8 => add_mosaics(page, chance),
            9 => add_signs(page, chance),
            10 => add_command(page, chance),
            _ => add_oddity(page, chance),
        }
        row += chance.code(1, 3);
    }
    add_status_row(page, chance);
}

fn add_place(page: &mut Vec<u8>, row: u8, column: u8) {
    page.extend([0x1f, 0x40 + row, 0x40 + column]);
}

fn add_letters(page: &mut Vec<u8>, chance: &mut Chance, count: u8) {
    for _ in 0..count {
        page.push(if chance.once_in(6) {
            b' '
        } else {
            chance.code(0x41, 0x7a)
        });
    }
}

/// Words in a colour, at times on a ground, flashing, inverse or in double size.
fn add_text(page: &mut Vec<u8>, chance: &mut Chance) {
    page.extend([ESC, chance.code(0x40, 0x47)]);
    if chance.once_in(3) {
        page.extend([ESC, chance.code(0x50, 0x57), b' ']);
    }
    if chance.once_in(6) {
        page.extend([ESC, chance.code(0x48, 0x49)]);
    }
    if chance.once_in(6) {
        page.extend([ESC, chance.code(0x5c, 0x5d)]);
    }
    if chance.once_in(8) {
        page.extend([ESC, chance.code(0x4c, 0x4f)]);
    }
    let count = chance.code(5, 36);
    add_letters(page, chance, count);
}

fn add_mosaics(page: &mut Vec<u8>, chance: &mut Chance) {
    page.push(0x0e);
    page.extend([ESC, chance.code(0x40, 0x47), ESC, chance.code(0x50, 0x57)]);
    for _ in 0..chance.code(1, 8) {
        page.push(chance.code(0x20, 0x7f));
        if chance.once_in(2) {
            page.extend([0x12, chance.code(0x40, 0x50)]);
        }
    }
    page.push(0x0f);
}

/// Signs of G2, and letters with accents.
fn add_signs(page: &mut Vec<u8>, chance: &mut Chance) {
    for _ in 0..chance.code(2, 8) {
        if chance.once_in(2) {
            page.extend([0x19, chance.code(0x41, 0x4b), chance.code(0x61, 0x7a)]);
        } else {
            page.extend([0x19, chance.code(0x20, 0x3f)]);
        }
        add_letters(page, chance, 3);
    }
}

/// What a host does to a link and then undoes (6/0 clears, 6/1 sets; receiver, sender), so that the
/// page is seen and the table stays that of a connected board: modem to socket, modem to keyboard,
/// keyboard to screen, modem to itself.
const LINKS: [[u8; 3]; 4] = [
    [0x60, 0x5b, 0x52],
    [0x61, 0x59, 0x52],
    [0x61, 0x58, 0x51],
    [0x61, 0x5a, 0x52],
];

/// PRO1, PRO2 and PRO3.
fn add_command(page: &mut Vec<u8>, chance: &mut Chance) {
    match chance.below(4) {
        0 => page.extend([ESC, 0x39, chance.code(0x40, 0x7f)]),
        1 => page.extend([ESC, 0x3a, 0x62, chance.code(0x58, 0x5b)]),
        2 => page.extend([ESC, 0x3a, chance.code(0x60, 0x6f), chance.code(0x40, 0x5f)]),
        _ => {
            let [does, receiver, sender] = LINKS[chance.below(4) as usize];
            page.extend([ESC, 0x3b, does, receiver, sender]);
            add_letters(page, chance, 6);
            page.extend([ESC, 0x3b, does ^ 1, receiver, sender]);
        }
    }
    add_letters(page, chance, 12);
}

/// Codes that a page seldom has: moves by one, sequences that are dropped, a place off the screen.
fn add_oddity(page: &mut Vec<u8>, chance: &mut Chance) {
    match chance.below(6) {
        0 => (0..8).for_each(|_| page.push(chance.code(0x08, 0x0b))),
        1 => page.extend([ESC, 0x23, 0x20, 0x5f]),
        2 => page.extend([ESC, 0x5b, 0x32, 0x4b]),
        3 => page.extend([0x13, chance.code(0x00, 0x7f)]),
        4 => page.extend([0x1f, chance.code(0x20, 0x7f), chance.code(0x20, 0x7f)]),
        _ => page.extend([0x0d, 0x1e, ESC, chance.code(0x00, 0x7f), 0x00]),
    }
    add_letters(page, chance, 10);
}

/// Row 0 is written, and left again by LF.
fn add_status_row(page: &mut Vec<u8>, chance: &mut Chance) {
    if chance.once_in(2) {
        add_place(page, 0, 1);
        let count = chance.code(5, 44);
        add_letters(page, chance, count);
        page.push(0x0a);
    }
}
