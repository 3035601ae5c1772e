//! Counts what judging makes of every pattern of upset bits in a block of
//! seventeen zeros: `tally N`, N from 1 to 4, or 4 where it is not given.
//!
//! The syndrome of a bit is what the page asks to be zero in a valid block, taken
//! of the block with that bit alone: the parities of bytes 1 to 16, the remainder,
//! and byte 17. Each of these adds up without carries, so the syndrome of a
//! pattern is the XOR of those of its bits. Up to three upset bits are judged by
//! the definition as well, all 136 neighbours tried; both ways have to agree.

mod block {
    pub mod judge;
    #[allow(dead_code)] // nothing is formed here
    pub mod layout;
    pub mod polynomial;
}

use std::collections::HashMap;
use std::env;
use std::process::ExitCode;

use block::judge::{self, Judgement};
use block::layout::{self, Block, BITS, LENGTH, MENDABLE_BITS};
use block::polynomial;

const SENT: Block = [0; LENGTH];

/// Up to so many upset bits are judged by the definition as well.
const TRIED: usize = 3;

/// Each so many patterns a line says how far the count is.
const PIECE: u64 = 1_000_000;

#[derive(Default, Debug, PartialEq)]
struct Counts {
    patterns: u64,
    clean: u64,
    back: u64,
    other: u64,
    refused: u64,
}

fn main() -> ExitCode {
    let arguments: Vec<String> = env::args().skip(1).collect();
    let most = match arguments.iter().map(String::as_str).collect::<Vec<_>>()[..] {
        [] | ["4"] => 4,
        ["3"] => 3,
        ["2"] => 2,
        ["1"] => 1,
        _ => {
            eprintln!("usage: tally [1 | 2 | 3 | 4]");
            return ExitCode::FAILURE;
        }
    };
    let syndromes = Syndromes::new();
    println!("upset patterns clean back other refused");
    for upset in 1..=most {
        let mut counts = Counts::default();
        syndromes.count(upset, 0, upset, 0, &mut counts);
        if upset <= TRIED {
            let mut tried = Counts::default();
            try_each(SENT, 0, upset, &mut tried);
            assert_eq!(
                counts, tried,
                "{upset} upset bits, by syndromes and by the definition"
            );
        }
        let Counts {
            patterns,
            clean,
            back,
            other,
            refused,
        } = counts;
        println!("{upset} {patterns} {clean} {back} {other} {refused}");
    }
    ExitCode::SUCCESS
}

/// Judges by the definition each block with so many more bits upset from this
/// bit on.
fn try_each(block: Block, from: usize, left: usize, counts: &mut Counts) {
    if left > 0 {
        for bit in from..BITS {
            try_each(layout::hit(block, bit), bit + 1, left - 1, counts);
        }
        return;
    }
    let mut lent = block;
    counts.patterns += 1;
    match judge::judge(&mut lent).0 {
        Judgement::Clean => counts.clean += 1,
        Judgement::Mended if lent == SENT => counts.back += 1,
        Judgement::Mended => counts.other += 1,
        Judgement::Repeat | Judgement::WrongLength => counts.refused += 1,
    }
}

struct Syndromes {
    of_bit: Vec<u32>,
    bit_of: HashMap<u32, usize>,
}

impl Syndromes {
    fn new() -> Syndromes {
        let alone = |bit| syndrome(&layout::hit(SENT, bit));
        let of_bit: Vec<u32> = (0..BITS).map(alone).collect();
        let bit_of: HashMap<u32, usize> = (0..BITS).map(|bit| (of_bit[bit], bit)).collect();
        assert_eq!(bit_of.len(), BITS, "two bits have the same syndrome");
        Syndromes { of_bit, bit_of }
    }

    /// Counts the patterns of so many more bits upset from this bit on, where
    /// the syndromes of those before sum up to this one.
    fn count(&self, upset: usize, from: usize, left: usize, sum: u32, counts: &mut Counts) {
        if left > 0 {
            for bit in from..BITS {
                self.count(upset, bit + 1, left - 1, sum ^ self.of_bit[bit], counts);
            }
            return;
        }
        counts.patterns += 1;
        match self.bit_of.get(&sum) {
            _ if sum == 0 => counts.clean += 1,
            // A bit mended leaves the block as it was sent where it was the only one upset.
            Some(&bit) if bit < MENDABLE_BITS && upset == 1 => counts.back += 1,
            Some(&bit) if bit < MENDABLE_BITS => counts.other += 1,
            _ => counts.refused += 1,
        }
        if counts.patterns.is_multiple_of(PIECE) {
            eprintln!(
                ".. {} patterns of {upset} upset bits judged",
                counts.patterns
            );
        }
    }
}

/// What has to be zero in a valid block: sixteen parities, seven bits of
/// remainder and eight of byte 17.
fn syndrome(block: &Block) -> u32 {
    let [sixteen @ .., validation] = block;
    let odd = sixteen.iter().map(|&byte| !layout::has_even_parity(byte));
    let remainder = polynomial::remainder(layout::code_polynomial(block));
    let tests = odd.chain(remainder);
    tests.fold(u32::from(*validation), |sum, test| {
        2 * sum + u32::from(test)
    })
}
