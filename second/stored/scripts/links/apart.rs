//! The stored script that tries modem and socket at the same time: each has its
//! own unfinished sequence.

use crate::links::codes::{CLEAR, ESC, PRO1, SET};
use crate::links::state::{Module, KEYBOARD, MODEM, SCREEN, SOCKET};
use crate::stored::scripts::links::{
    all_links, ask, from, link, no_links, other_ear, set_table, values, EARS, LOCAL, NAMES,
    TO_CONNECTED, TO_LOCAL, UNFINISHED,
};
use crate::stored::scripts::script::Script;

/// A value and the module that hands it in.
type Handed = (Module, u8);

/// A link that neither of the host's tables has.
const SENDER: Module = SOCKET;
const RECEIVER: Module = KEYBOARD;

/// One ear's sequence among those of the other, cut at every place.
pub fn apart() -> Script {
    let mut script = Script::trying("Sequences of modem and socket at the same time.");
    for ear in EARS {
        merged_with_an_ask(&mut script, ear);
        cut_by_a_command(&mut script, ear);
        cut_by_the_host(&mut script, ear);
        among_other_values(&mut script, ear);
    }
    script
}

/// The codes of the two in every order, and a key somewhere between them. The
/// status depends on which of the two ends first.
fn merged_with_an_ask(script: &mut Script, ear: Module) {
    let other = other_ear(ear);
    script.comment(&format!(
        "a link set by the {}, its receiver asked for by the {}, in every order",
        NAMES[ear], NAMES[other]
    ));
    let setting = link(SET, SENDER, RECEIVER).map(|code| (ear, code));
    let asking = ask(RECEIVER).map(|code| (other, code));
    for (number, mut order) in merges(&setting, &asking).into_iter().enumerate() {
        order.insert(number % order.len(), (KEYBOARD, b'k'));
        script.line(LOCAL);
        for (sender, value) in order {
            script.line(from(sender, value));
        }
    }
}

/// Every order in which the values of both can arrive.
fn merges(ones: &[Handed], others: &[Handed]) -> Vec<Vec<Handed>> {
    let ([one, ones_left @ ..], [other, others_left @ ..]) = (ones, others) else {
        return vec![[ones, others].concat()];
    };
    let one_first = merges(ones_left, others);
    let other_first = merges(ones, others_left);
    let with_one = one_first.iter().map(|left| [&[*one], &left[..]].concat());
    let with_other = other_first
        .iter()
        .map(|left| [&[*other], &left[..]].concat());
    with_one.chain(with_other).collect()
}

/// One sets a link and the other clears it: the command that ends last decides.
/// The clearing begins before the setting is over, or they would not meet.
fn cut_by_a_command(script: &mut Script, ear: Module) {
    let other = other_ear(ear);
    script.comment(&format!(
        "a link set by the {} and cleared by the {}, each cut at every place",
        NAMES[ear], NAMES[other]
    ));
    let (setting, clearing) = (link(SET, SENDER, RECEIVER), link(CLEAR, SENDER, RECEIVER));
    for cut_of_setting in 0..setting.len() {
        for cut_of_clearing in 1..=clearing.len() {
            let (setting, setting_left) = setting.split_at(cut_of_setting);
            let (clearing, clearing_left) = clearing.split_at(cut_of_clearing);
            script.line(set_table(no_links()));
            values(script, ear, setting);
            values(script, other, clearing);
            values(script, ear, setting_left);
            values(script, other, clearing_left);
        }
    }
}

fn cut_by_the_host(script: &mut Script, ear: Module) {
    script.comment(&format!(
        "sequences of the {}, with a table chosen at every place of each",
        NAMES[ear]
    ));
    let sequences: [&[u8]; 5] = [
        &link(SET, SENDER, RECEIVER),
        &link(CLEAR, MODEM, SCREEN),
        &ask(SCREEN),
        &[ESC, PRO1, 0x70],
        &[ESC, b'A'],
    ];
    for chosen in [TO_LOCAL, TO_CONNECTED] {
        for codes in sequences {
            for cut in 0..=codes.len() {
                script.line(set_table(all_links()));
                values(script, ear, &codes[..cut]);
                script.line(chosen);
                values(script, ear, &codes[cut..]);
            }
        }
    }
}

fn among_other_values(script: &mut Script, ear: Module) {
    let other = other_ear(ear);
    script.comment(&format!(
        "each unfinished sequence of the {}, with values of the others before its end",
        NAMES[ear]
    ));
    for (codes, end) in UNFINISHED {
        script.line(LOCAL);
        values(script, ear, codes);
        values(script, other, &[b'B', ESC, b'C', ESC, PRO1, ESC]);
        values(script, other, &link(SET, ear, RECEIVER));
        values(script, other, &ask(RECEIVER));
        values(script, KEYBOARD, &[ESC, b'k']);
        values(script, ear, end);
    }
}
