//! The stored scripts that try the commands on blocks.

pub mod byte_16;
pub mod lines;

use crate::block::layout::{self, Block, BITS, LENGTH, USEFUL};
use crate::stored::scripts::script::Script;
use crate::stored::xorshift::Xorshift;
use crate::trial::limits::MOST_BYTES;
use crate::trial::writing;

// Each script has a seed of its own, so that a change in one leaves the others.
const MAKING_SEED: u64 = 0x6d61_6b69_6e67_2031;
const LENGTHS_SEED: u64 = 0x6c65_6e67_7468_7331;
const HIT_SEED: u64 = 0x6869_7420_6f6e_6365;
const DAMAGED_SEED: u64 = 0x6461_6d61_6765_6431;

/// The command that makes a block of these values.
pub fn make(values: &[u8], room: usize) -> String {
    format!("make {} {room}", writing::bytes(values))
}

/// The command that judges these bytes.
pub fn judge(block: &[u8]) -> String {
    format!("judge {}", writing::bytes(block))
}

/// The bench cards, written out as the page gives them, W2 as section 5-1-3
/// has it.
pub fn cards() -> Script {
    let w1 = [0; LENGTH];
    let w2 = with_byte(with_byte(w1, 15, 192), 16, 27);
    let mut w2_values = [0; USEFUL];
    w2_values[14] = 0x40;
    let cards = [
        ("W1", make(&[0; USEFUL], LENGTH)),
        ("W2", make(&w2_values, LENGTH)),
        ("W3", judge(&with_byte(w2, 15, 64))),
        ("W4", judge(&with_byte(w1, 16, 1))),
        ("W5", judge(&with_byte(w1, 16, 128))),
        ("W6", judge(&with_byte(w1, 17, 1))),
        ("W7", judge(&with_byte(w1, 1, 3))),
        ("W8", judge(&with_byte(with_byte(w1, 1, 1), 2, 1))),
    ];
    let mut script = Script::trying("The bench cards W1 to W8.");
    for (name, command) in cards {
        script.comment(name);
        script.line(command);
    }
    script
}

/// The maker: lengths, values, room, and their refusals in order.
pub fn making() -> Script {
    let mut script = Script::trying("The maker: lengths, values, room, and the order of refusals.");
    let mut random = Xorshift::new(MAKING_SEED);
    every_count(&mut script, &mut random);
    equal_values(&mut script);
    single_bits(&mut script);
    single_values(&mut script);
    large_values(&mut script, &mut random);
    every_room(&mut script, &mut random);
    several_refusals(&mut script, &mut random);
    random_makings(&mut script, &mut random);
    script
}

/// Blocks that are none, or nearly none, by their length.
pub fn lengths() -> Script {
    let mut script = Script::trying("Judging lengths right and wrong.");
    let mut random = Xorshift::new(LENGTHS_SEED);
    let valid = random_block(&mut random);
    for length in [0, 1, 15, 16, 17, 18, 34, MOST_BYTES] {
        script.comment(&format!(
            "{length}: zeros, random, and a valid block cut or run on"
        ));
        script.line(judge(&vec![0; length]));
        script.line(judge(&random_bytes(&mut random, length)));
        let run_on: Vec<u8> = valid.iter().copied().cycle().take(length).collect();
        script.line(judge(&run_on));
    }
    script.comment("the valid block without its first byte, and with one byte more");
    script.line(judge(&valid[1..]));
    for more in [0, 1, 255] {
        script.line(judge(&[&valid[..], &[more]].concat()));
        script.line(judge(&[&[more], &valid[..]].concat()));
    }
    script
}

/// Two blocks, and every single hit on each.
pub fn hit_once() -> Script {
    let mut script = Script::trying("Two blocks, and every one of the 136 single hits on each.");
    for (name, block) in two_blocks() {
        script.comment(name);
        script.line(judge(&block));
        for bit in 0..BITS {
            script.line(judge(&layout::hit(block, bit)));
        }
    }
    script
}

/// Each of the 256 bytes at each useful place: a value with its parity bit, and
/// the same with that bit hit, the other values NUL.
pub fn every_byte() -> Script {
    let mut script = Script::trying(
        "Each of the 256 bytes at each useful place, in a block right but for its parity.",
    );
    for place in 0..USEFUL {
        script.comment(&format!("byte {}", place + 1));
        for byte in 0..=255 {
            script.line(judge(&block_with(place, byte)));
        }
    }
    script
}

/// Every double hit on the same two blocks.
pub fn hit_twice() -> Script {
    let mut script = Script::trying("Every one of the 9,180 double hits on each of two blocks.");
    for (name, block) in two_blocks() {
        script.comment(name);
        for second in 0..BITS {
            for first in 0..second {
                script.line(judge(&layout::hit(layout::hit(block, first), second)));
            }
        }
    }
    script
}

/// A thousand random blocks, most of them near a valid one.
pub fn damaged() -> Script {
    let mut script = Script::trying("A thousand damaged blocks: 0 to 5 random hits, then noise.");
    let mut random = Xorshift::new(DAMAGED_SEED);
    for hits in 0..=5 {
        script.comment(&format!("150 valid blocks, hits: {hits}"));
        for _ in 0..150 {
            script.line(judge(&damaged_block(&mut random, hits)));
        }
    }
    script.comment("100 times 17 random bytes");
    for _ in 0..100 {
        script.line(judge(&random_bytes(&mut random, LENGTH)));
    }
    script
}

/// The block of one value that has this byte at its place, its parity bit hit
/// where the byte is odd.
fn block_with(place: usize, byte: u8) -> Block {
    let mut values = [0; USEFUL];
    values[place] = layout::without_parity(byte);
    let formed = layout::form(&values);
    if formed[place] == byte {
        formed
    } else {
        layout::hit(formed, 8 * place + 7)
    }
}

/// The block with one byte replaced; bytes count from 1, as on the cards.
fn with_byte(mut block: Block, number: usize, byte: u8) -> Block {
    block[number - 1] = byte;
    block
}

fn every_count(script: &mut Script, random: &mut Xorshift) {
    script.comment("0 to 64 values");
    for count in 0..=MOST_BYTES {
        script.line(make(&random_values(random, count), LENGTH));
    }
}

fn equal_values(script: &mut Script) {
    script.comment("all NUL, all 127");
    for count in [1, 14, 15, 16] {
        script.line(make(&vec![0; count], LENGTH));
        script.line(make(&vec![127; count], LENGTH));
    }
}

/// Parity and remainder are sums of what each bit gives, so these 105 blocks
/// settle all others.
fn single_bits(script: &mut Script) {
    script.comment("each bit of each value alone");
    for place in 0..USEFUL {
        for weight in 0..7 {
            let mut values = [0; USEFUL];
            values[place] = 1 << weight;
            script.line(make(&values, LENGTH));
        }
    }
}

fn single_values(script: &mut Script) {
    script.comment("one value, good or too large");
    for value in 0..=255 {
        script.line(make(&[value], LENGTH));
    }
}

fn large_values(script: &mut Script, random: &mut Xorshift) {
    script.comment("127, 128, 255 in the first, middle and last place");
    for place in [0, 7, 14] {
        for value in [127, 128, 255] {
            let values = random_values(random, USEFUL);
            script.line(make(&with_value(values, place, value), LENGTH));
        }
    }
    script.comment("two values too large: the lowest place is named");
    for (low, high) in [(0, 14), (0, 1), (7, 14), (6, 7), (13, 14)] {
        for (first, second) in [(128, 255), (255, 128)] {
            let values = with_value(random_values(random, USEFUL), low, first);
            script.line(make(&with_value(values, high, second), LENGTH));
        }
    }
}

fn every_room(script: &mut Script, random: &mut Xorshift) {
    script.comment("outputs of 0 to 64 bytes");
    let values = random_values(random, USEFUL);
    for room in 0..=MOST_BYTES {
        script.line(make(&values, room));
    }
}

fn several_refusals(script: &mut Script, random: &mut Xorshift) {
    script.comment("several refusals at once: 1 before 2 before 4");
    for room in [0, 1, 16, 17, 18] {
        script.line(make(&[], room));
        for count in [1, 15, 16, MOST_BYTES] {
            let good = random_values(random, count);
            let bad = with_value(good.clone(), count - 1, 128);
            script.line(make(&good, room));
            script.line(make(&bad, room));
        }
    }
}

fn random_makings(script: &mut Script, random: &mut Xorshift) {
    script.comment("a hundred random lists of values, with random rooms");
    for _ in 0..100 {
        let count = random.below(USEFUL + 3);
        let mut values = random_values(random, count);
        if count > 0 && random.one_in(8) {
            let place = random.below(count);
            values = with_value(values, place, 128 + random.below(128) as u8);
        }
        script.line(make(&values, random.below(MOST_BYTES + 1)));
    }
}

/// A block of text and a random one, each with its name.
fn two_blocks() -> [(&'static str, Block); 2] {
    let mut random = Xorshift::new(HIT_SEED);
    [
        ("a block of text", layout::form(b"Bonjour Minitel")),
        ("a random block", random_block(&mut random)),
    ]
}

/// Hits may fall on the same bit, as they may on the line.
fn damaged_block(random: &mut Xorshift, hits: usize) -> Block {
    let valid = random_block(random);
    (0..hits).fold(valid, |block, _| layout::hit(block, random.below(BITS)))
}

pub fn random_block(random: &mut Xorshift) -> Block {
    layout::form(&random_values(random, USEFUL))
}

pub fn random_values(random: &mut Xorshift, count: usize) -> Vec<u8> {
    (0..count).map(|_| random.below(128) as u8).collect()
}

fn random_bytes(random: &mut Xorshift, count: usize) -> Vec<u8> {
    (0..count).map(|_| random.byte()).collect()
}

fn with_value(mut values: Vec<u8>, place: usize, value: u8) -> Vec<u8> {
    values[place] = value;
    values
}
