//! The stored script of random values on the links.

use std::collections::VecDeque;

use crate::links::codes::{ASK, CLEAR, ESC, PRO1, PRO2, PRO3, SET};
use crate::links::state::{Module, KEYBOARD, MODEM, MODULES, SOCKET};
use crate::stored::scripts::links::{
    all_links, ask, from, link, no_links, set_table, some_links, CONNECTED, LOCAL, TO_CONNECTED,
    TO_LOCAL,
};
use crate::stored::scripts::script::Script;
use crate::stored::xorshift::Xorshift;

const SEEDS: [u64; 5] = [
    0x6c6e_6b20_6c6f_6361,
    0x6c6e_6b20_636f_6e6e,
    0x6c6e_6b20_6e6f_6e65,
    0x6c6e_6b20_736f_6d65,
    0x6c6e_6b20_616c_6c20,
];

const VALUES_IN_A_RUN: usize = 4_000;

/// Modem and socket hand in more than the keyboard, as they are heard.
const SENDERS: [Module; 7] = [KEYBOARD, MODEM, MODEM, MODEM, SOCKET, SOCKET, SOCKET];

/// Codes that mean something in a command.
const MEANING: [u8; 10] = [ESC, PRO1, PRO2, PRO3, CLEAR, SET, ASK, 0x63, 0x00, 0x7f];

/// What each module has still to hand in.
type Ahead = [VecDeque<u8>; MODULES];

/// Random values, most of them in sequences that run across one another.
pub fn random() -> Script {
    let mut script = Script::trying("Random values, most of them in sequences, from fixed seeds.");
    let starts = [
        LOCAL.to_string(),
        CONNECTED.to_string(),
        set_table(no_links()),
        set_table(some_links()),
        set_table(all_links()),
    ];
    for (seed, start) in SEEDS.into_iter().zip(starts) {
        script.comment(&format!("from {start}"));
        script.line(start);
        run(&mut script, &mut Xorshift::new(seed));
    }
    script
}

/// Each sender hands in its own sequences in order, whatever the others do.
fn run(script: &mut Script, random: &mut Xorshift) {
    let mut ahead = Ahead::default();
    for _ in 0..VALUES_IN_A_RUN {
        if random.one_in(250) {
            script.line([TO_LOCAL, TO_CONNECTED][random.below(2)]);
        }
        let sender = SENDERS[random.below(SENDERS.len())];
        if random.one_in(100) {
            script.line(from(sender, 128 + random.below(128) as u8));
        }
        script.line(from(sender, next_value(&mut ahead[sender], random)));
    }
}

fn next_value(ahead: &mut VecDeque<u8>, random: &mut Xorshift) -> u8 {
    loop {
        match ahead.pop_front() {
            Some(value) => return value,
            None => ahead.extend(phrase(random)),
        }
    }
}

/// A few values or one sequence, now and then broken off.
fn phrase(random: &mut Xorshift) -> Vec<u8> {
    let mut phrase = whole_phrase(random);
    if random.one_in(20) {
        phrase.truncate(random.below(phrase.len()) + 1);
    }
    phrase
}

fn whole_phrase(random: &mut Xorshift) -> Vec<u8> {
    match random.below(20) {
        0..=4 => (0..=random.below(3)).map(|_| any_code(random)).collect(),
        5..=6 => vec![ESC, any_code(random)],
        7..=11 => random_link(random).to_vec(),
        12..=14 => ask(random.below(MODULES)).to_vec(),
        15 => vec![ESC, PRO1, any_code(random)],
        16 => vec![ESC, PRO2, odd_code(random), odd_code(random)],
        17 => vec![
            ESC,
            PRO3,
            odd_code(random),
            odd_code(random),
            odd_code(random),
        ],
        18 => {
            let mut command = random_link(random).to_vec();
            command[2 + random.below(3)] = odd_code(random);
            command
        }
        _ => vec![ESC, PRO2, ASK, odd_code(random)],
    }
}

/// Now and then a module with itself.
fn random_link(random: &mut Xorshift) -> [u8; 5] {
    let what = [SET, SET, CLEAR][random.below(3)];
    link(what, random.below(MODULES), random.below(MODULES))
}

fn any_code(random: &mut Xorshift) -> u8 {
    random.below(128) as u8
}

/// A code with a meaning in commands, a module's or one near it, or any.
fn odd_code(random: &mut Xorshift) -> u8 {
    match random.below(3) {
        0 => MEANING[random.below(MEANING.len())],
        1 => 0x4f + random.below(14) as u8,
        _ => any_code(random),
    }
}
