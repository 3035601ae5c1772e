//! The stored script that tries runs: their lengths, their refusals, and runs
//! cut in two.

use crate::screen::codes::{CON, ESC, FF, HT, LF, NUL, REP, RS, SEP, SI, SO, SPACE, SS2, US};
use crate::stored::scripts::screen::sequences::OPENINGS;
use crate::stored::scripts::screen::{bytes, cells, random, run, DUMP, FRESH};
use crate::stored::scripts::script::Script;
use crate::stored::xorshift::Xorshift;
use crate::trial::limits::MOST_VALUES;

const RUNS_SEED: u64 = 0x7363_7220_7275_6e73;

const LENGTHS: [usize; 6] = [0, 1, 2, 40, 1_000, MOST_VALUES];

/// Something of every kind, so that a cut falls into each sequence.
const PAGE: &[u8] = &[
    FF, CON, US, 0x42, 0x43, ESC, 0x41, ESC, 0x52, b'A', SPACE, REP, 0x42, SS2, 0x42, SS2, b'c',
    NUL, ESC, 0x28, 0x42, ESC, 0x5b, 0x32, 0x4a, SO, ESC, 0x5d, b'a', REP, 0x41, SEP, ESC, US,
    0x40, 0x41, ESC, 0x48, b'Z', NUL, LF, b'b', SI, ESC, 0x5d, b'B', US, 0x7f, 0x41, US, NUL, 0x58,
    0x68, b'C', HT, RS, b'D', ESC,
];

/// Runs of every length, refused or not, whole or cut in two.
pub fn runs() -> Script {
    let mut script = Script::trying("Runs: lengths, refusals, and runs cut in two at every place.");
    let mut random = Xorshift::new(RUNS_SEED);
    for length in LENGTHS {
        one_length(&mut script, &mut random, length);
    }
    every_place_too_large(&mut script);
    refused_in_a_sequence(&mut script);
    cut_in_two(&mut script);
    script
}

fn one_length(script: &mut Script, random: &mut Xorshift, length: usize) {
    let values = random::values(random, length);
    script.comment(&format!(
        "a run of {length} values, and again from where it ended"
    ));
    script.line(FRESH);
    script.line(run(&values));
    script.line(DUMP);
    script.line(run(&values));
    script.line(DUMP);
    if length == 0 {
        return;
    }
    let (middle, end) = (length / 2, length - 1);
    script.comment("too large at the first, middle and last place: nothing changes");
    for places in [
        &[0][..],
        &[middle],
        &[end],
        &[0, end],
        &[middle, end],
        &[0, middle, end],
    ] {
        script.line(run(&with_too_large(&values, places)));
    }
    script.line(DUMP);
}

fn every_place_too_large(script: &mut Script) {
    script.comment("a value too large at every place: nothing changes");
    script.line(FRESH);
    for place in 0..PAGE.len() {
        script.line(run(&with_too_large(PAGE, &[place])));
    }
    script.comment("every value too large, alone and after a good one");
    for value in 128..=255 {
        script.line(run(&[value]));
        script.line(run(&[b'A', value]));
    }
    script.line(DUMP);
}

/// 128, or something larger, in these places.
fn with_too_large(values: &[u8], places: &[usize]) -> Vec<u8> {
    let mut values = values.to_vec();
    for &place in places {
        values[place] |= 128;
    }
    values
}

fn refused_in_a_sequence(script: &mut Script) {
    for (name, opening) in OPENINGS {
        script.comment(&format!(
            "{name}: runs of nothing and runs refused leave it open"
        ));
        script.line(FRESH);
        script.line(run(opening));
        script.line(run(&[]));
        script.line(run(&[0x80]));
        script.line(run(&[0x43, FF, 0xff]));
        script.line(run(&[NUL, NUL]));
        script.line(run(&[0x43, 0x44]));
        cells(script, &[(1, 1), (1, 2)]);
    }
}

fn cut_in_two(script: &mut Script) {
    script.comment("a page value by value");
    script.line(FRESH);
    bytes(script, PAGE);
    script.line(DUMP);
    script.comment("the same page as one run, and cut in two at every place");
    for cut in 0..=PAGE.len() {
        let (first, rest) = PAGE.split_at(cut);
        script.line(FRESH);
        script.line(run(first));
        script.line(run(rest));
        if cut % 16 == 0 {
            script.line(DUMP);
        }
    }
    script.comment("and in pieces of three");
    script.line(FRESH);
    for piece in PAGE.chunks(3) {
        script.line(run(piece));
    }
    script.line(DUMP);
}
