//! The stored scripts that try the rules of the receiver one by one.

pub mod broken;
pub mod lines;
pub mod record;

use crate::block::layout::{self, Block, LENGTH, MENDABLE_BITS, PARITY_OF_16};
use crate::line::receiver::{self, NUMBERS, SYN};
use crate::stored::scripts::block::random_block;
use crate::stored::scripts::script::Script;
use crate::stored::xorshift::Xorshift;
use crate::trial::writing;

const CARDS_SEED: u64 = 0x7278_2063_6172_6473;
const WORN_SEED: u64 = 0x7278_2077_6f72_6e31;

pub const NEW: &str = "rx new";
pub const ON: &str = "rx on";
pub const OFF: &str = "rx off";
pub const ASK: &str = "rx ask";

// The phases as `rx set` writes them.
pub const IN_OFF: usize = 0;
pub const IN_COLLECTING: usize = 1;
pub const IN_WAITING: usize = 2;

/// Each phase, and in waiting each count of synchronising codes seen.
pub const PHASES_AND_SEEN: [(usize, usize); 5] = [
    (IN_OFF, 0),
    (IN_COLLECTING, 0),
    (IN_WAITING, 0),
    (IN_WAITING, 1),
    (IN_WAITING, 2),
];

/// The card W5, a block wrong in the parity bit of byte 16 only, which is mended.
pub const W5: Block = [0, 0, 0, 0, 0, 0, 0, 0, 0, 0, 0, 0, 0, 0, 0, 128, 0];

/// The card W6, a block wrong in byte 17 only, which is to be repeated.
pub const W6: Block = [0, 0, 0, 0, 0, 0, 0, 0, 0, 0, 0, 0, 0, 0, 0, 0, 1];

/// 1/6 without its parity, which is no synchronising code.
const BARE_SYN: u8 = 22;

/// The command that hands in a byte of the line.
pub fn byte(byte: u8) -> String {
    format!("rx byte {byte:02x}")
}

/// The command that hands in a state, with the bytes of a good block held.
pub fn set(phase: usize, number: usize, count: usize, seen: usize) -> String {
    set_holding(phase, number, count, seen, &good_block())
}

/// The command that hands in a state.
pub fn set_holding(phase: usize, number: usize, count: usize, seen: usize, held: &Block) -> String {
    let held = writing::bytes(held);
    format!("rx set {phase} {number} {count} {seen} {held}")
}

/// The bytes of the line, each handed in by its own command.
pub fn bytes(script: &mut Script, bytes: &[u8]) {
    for &each in bytes {
        script.line(byte(each));
    }
}

pub fn good_block() -> Block {
    layout::form(b"Bonjour Minitel")
}

/// W5 and W9 to W11, asking in each phase, the numbers all the way round, and a
/// worn contact.
pub fn cards() -> Script {
    let mut script = Script::trying(
        "The bench cards W5 and W9 to W11, ask again, block numbers, and a worn contact.",
    );
    script.comment("W5 as first block: mended, fifteen NUL pass, nothing to ask for");
    script.line(ON);
    bytes(&mut script, &W5);
    script.line(ASK);
    script.comment("W9: W6 as first block");
    script.line(ON);
    bytes(&mut script, &W6);
    script.comment("W10: a third synchronising code does no harm");
    bytes(&mut script, &[150, 150, 150, 192]);
    script.comment("W9 again, then W11: the code of another number");
    script.line(ON);
    bytes(&mut script, &W6);
    bytes(&mut script, &[150, 150, 65]);
    ask_in_each_phase(&mut script);
    values_of_every_kind(&mut script);
    numbers_all_the_way_round(&mut script);
    worn_contact(&mut script);
    script
}

/// On and off, from every phase and at every count, number and seen.
pub fn switching() -> Script {
    let mut script = Script::trying("Switching on and off, from every phase and at every count.");
    switching_while_collecting(&mut script);
    switching_while_waiting(&mut script);
    switching_after_whole_blocks(&mut script);
    switching_from_states_handed_in(&mut script);
    bytes_while_off(&mut script);
    script
}

/// The codes that end the waiting, and those that do not.
pub fn resuming() -> Script {
    let mut script = Script::trying("Waiting: the codes that end it, and those that do not.");
    every_code_at_every_number(&mut script);
    every_byte_after_two_codes(&mut script);
    resuming_sequences(&mut script);
    resuming_split_by_asks(&mut script);
    only_bytes_since_entering_count(&mut script);
    held_while_waiting(&mut script);
    script
}

fn ask_in_each_phase(script: &mut Script) {
    script.comment("ask again: off, collecting, and waiting at every code seen");
    script.line(NEW);
    script.line(ASK);
    script.line(ON);
    for each in W6 {
        script.line(ASK);
        script.line(byte(each));
    }
    for each in [SYN, SYN, SYN, receiver::number_code(0)] {
        script.line(ASK);
        script.line(ASK);
        script.line(byte(each));
    }
    script.line(ASK);
    script.line(OFF);
    script.line(ASK);
}

/// The values that a board with transparency would treat apart.
fn values_of_every_kind(script: &mut Script) {
    script.comment("NUL, DLE, NACK and SYN pass like other values, a leading NUL too");
    script.line(ON);
    bytes(script, &layout::form(&[0]));
    bytes(
        script,
        &layout::form(&[0, 0x10, 0, 0x10, 0x10, 0x15, 0x10, 0x16, 0x16, 0x40]),
    );
}

/// Forty blocks, every third of them mended. Some are first asked for again,
/// which must not raise the number.
fn numbers_all_the_way_round(script: &mut Script) {
    script.comment("forty blocks, some mended, some repeated: 0 to 15, 0 to 15, 0 to 7");
    let mut random = Xorshift::new(CARDS_SEED);
    script.line(ON);
    for count in 0..40 {
        let number = count % NUMBERS;
        let block = random_block(&mut random);
        if [4, 15, 16, 31].contains(&count) {
            // Two hits in one byte leave its parity as it was.
            bytes(script, &layout::hit(layout::hit(block, 0), 1));
            script.line(ASK);
            bytes(script, &receiver::resumption(number));
        }
        if count % 3 == 1 {
            bytes(script, &layout::hit(block, random.below(MENDABLE_BITS)));
        } else {
            bytes(script, &block);
        }
    }
}

/// The parity bit of byte 16 is upset in every block, which is mended; one more
/// bit is too many.
fn worn_contact(script: &mut Script) {
    script.comment("a worn contact: forty blocks with the parity bit of byte 16 hit, all taken");
    let mut random = Xorshift::new(WORN_SEED);
    let mut worn_block = || layout::hit(random_block(&mut random), PARITY_OF_16);
    script.line(ON);
    for _ in 0..40 {
        bytes(script, &worn_block());
    }
    script.line(ASK);
    for (number, what, bit) in [
        (8, "a useful byte", 77),
        (9, "byte 16", 120),
        (10, "byte 17", 128),
    ] {
        script.comment(&format!(
            "one more bit hit, in {what}: asked for, and then taken"
        ));
        let block = worn_block();
        bytes(script, &layout::hit(block, bit));
        script.line(ASK);
        bytes(script, &receiver::resumption(number));
        bytes(script, &block);
    }
}

fn switching_while_collecting(script: &mut Script) {
    for (what, switch) in [("on", ON), ("off", OFF)] {
        for count in 0..LENGTH {
            script.comment(&format!("switched {what} with bytes held: {count}"));
            script.line(ON);
            bytes(script, &good_block()[..count]);
            script.line(switch);
            script.line(byte(0xc1));
        }
    }
    script.comment("a block after switching on in the middle of another");
    script.line(ON);
    bytes(script, &good_block()[..9]);
    script.line(ON);
    bytes(script, &good_block());
    script.comment("switched off when off, and a new receiver in place of a used one");
    for line in [OFF, OFF, ON, NEW, NEW] {
        script.line(line);
    }
}

fn switching_while_waiting(script: &mut Script) {
    for (what, switch) in [("on", ON), ("off", OFF)] {
        for seen in 0..=3 {
            script.comment(&format!(
                "switched {what} while waiting, after synchronising codes: {seen}"
            ));
            script.line(ON);
            bytes(script, &W6);
            bytes(script, &vec![SYN; seen]);
            script.line(switch);
            // It would have ended the waiting; now it is a byte like others.
            script.line(byte(receiver::number_code(0)));
        }
    }
}

fn switching_after_whole_blocks(script: &mut Script) {
    for (what, switch) in [("on", ON), ("off", OFF)] {
        script.comment(&format!("switched {what} after 1, 2 and 3 blocks"));
        for blocks in 1..=3 {
            script.line(ON);
            for _ in 0..blocks {
                bytes(script, &good_block());
            }
            script.line(switch);
        }
    }
}

fn switching_from_states_handed_in(script: &mut Script) {
    for (what, switch) in [("on", ON), ("off", OFF)] {
        for (phase, seen) in PHASES_AND_SEEN {
            script.comment(&format!(
                "switched {what} in phase {phase}, seen {seen}: every count, then every number"
            ));
            for count in 0..LENGTH {
                let number = (count + 5) % usize::from(NUMBERS);
                script.line(set(phase, number, count, seen));
                script.line(switch);
            }
            for number in 0..usize::from(NUMBERS) {
                script.line(set(phase, number, 16 - number, seen));
                script.line(switch);
            }
        }
    }
}

fn bytes_while_off(script: &mut Script) {
    script.comment("every byte while off");
    script.line(NEW);
    for each in 0..=255 {
        script.line(byte(each));
    }
    script.comment("off with something held, which stays held");
    for (number, count) in [(0, 1), (7, 5), (15, 16)] {
        script.line(set(IN_OFF, number, count, 0));
        bytes(
            script,
            &[0x00, 0x80, 0x7f, 0xff, 0x41, 0xc1, 0x95, SYN, SYN],
        );
        script.line(byte(receiver::number_code(number as u8)));
        script.line(ASK);
    }
    script.line(ON);
}

fn every_code_at_every_number(script: &mut Script) {
    for awaited in 0..NUMBERS {
        script.comment(&format!("awaited {awaited}: the code of every number"));
        for number in 0..NUMBERS {
            script.line(set(IN_WAITING, awaited.into(), 0, 0));
            bytes(script, &receiver::resumption(number));
        }
        script.comment("and the awaited one with its parity wrong");
        script.line(set(IN_WAITING, awaited.into(), 0, 0));
        bytes(script, &[SYN, SYN, receiver::number_code(awaited) ^ 128]);
    }
}

fn every_byte_after_two_codes(script: &mut Script) {
    script.comment("awaited 6: every byte after two synchronising codes");
    for each in 0..=255 {
        script.line(set(IN_WAITING, 6, 0, 2));
        script.line(byte(each));
    }
}

fn resuming_sequences(script: &mut Script) {
    for awaited in [0, 1, 10, 15] {
        let code = receiver::number_code(awaited);
        let other = receiver::number_code((awaited + 1) % NUMBERS);
        let sequences: [(&str, &[u8]); 18] = [
            ("no synchronising code", &[code]),
            ("one", &[SYN, code]),
            ("three", &[SYN, SYN, SYN, code]),
            ("four", &[SYN, SYN, SYN, SYN, code]),
            ("one, twice", &[SYN, code, SYN, code]),
            ("the number first", &[code, SYN, SYN]),
            ("another byte between", &[SYN, 0x41, SYN, code]),
            ("NUL between", &[SYN, 0, SYN, code]),
            ("NUL before the number", &[SYN, SYN, 0, code]),
            ("the first without parity", &[BARE_SYN, SYN, code]),
            ("the second without parity", &[SYN, BARE_SYN, code]),
            ("both without parity", &[BARE_SYN, BARE_SYN, code]),
            ("a third without parity", &[SYN, SYN, BARE_SYN, code]),
            ("another number before it", &[SYN, SYN, other, code]),
            ("another number, one more", &[SYN, SYN, other, SYN, code]),
            (
                "another number, two more",
                &[SYN, SYN, other, SYN, SYN, code],
            ),
            (
                "the number twice: the second is held",
                &[SYN, SYN, code, code],
            ),
            (
                "all twice: the second three are held",
                &[SYN, SYN, code, SYN, SYN, code],
            ),
        ];
        for (what, sequence) in sequences {
            script.comment(&format!("awaited {awaited}: {what}"));
            script.line(set(IN_WAITING, awaited.into(), 0, 0));
            bytes(script, sequence);
            script.line(ASK);
        }
    }
}

fn resuming_split_by_asks(script: &mut Script) {
    script.comment("asks between the codes change nothing");
    for awaited in [0, 9] {
        script.line(set(IN_WAITING, awaited.into(), 0, 0));
        for each in receiver::resumption(awaited) {
            script.line(ASK);
            script.line(byte(each));
        }
        script.line(ASK);
        bytes(script, &good_block());
    }
}

fn only_bytes_since_entering_count(script: &mut Script) {
    let code = receiver::number_code(0);
    script.comment("synchronising codes at the end of the block that is asked for again");
    let mut ending = good_block();
    ending[LENGTH - 2] = SYN;
    ending[LENGTH - 1] = SYN;
    script.line(ON);
    bytes(script, &ending);
    bytes(script, &[code, SYN, SYN, code]);
    script.comment("waiting entered anew, with codes seen when it was left by switching on");
    script.line(ON);
    bytes(script, &W6);
    bytes(script, &[SYN, SYN]);
    script.line(ON);
    bytes(script, &W6);
    bytes(script, &[code, SYN, code, SYN, SYN, code]);
    script.comment("a repeat of the repeat");
    bytes(script, &W6);
    bytes(script, &[code, SYN, SYN, code]);
    bytes(script, &good_block());
    script.comment("the codes while collecting are bytes of a block");
    bytes(script, &receiver::resumption(1));
    script.line(ASK);
}

fn held_while_waiting(script: &mut Script) {
    script.comment("waiting with something held, which stays held until waiting ends");
    for (awaited, count) in [(0, 1), (3, 9), (15, 16)] {
        script.line(set(IN_WAITING, awaited.into(), count, 0));
        bytes(script, &[0x41, 0x00, SYN]);
        script.line(ASK);
        bytes(script, &[SYN, receiver::number_code(awaited)]);
        bytes(script, &good_block());
    }
}
