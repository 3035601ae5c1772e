//! The stored script that tries every code at every place of a command.

use crate::links::codes::{ASK, CLEAR, ESC, PRO1, PRO2, PRO3, SET};
use crate::links::state::{Module, MODEM, MODULES};
use crate::stored::scripts::links::{
    all_links, ask, from, no_links, one_from_each, pairs, receiver_code, sender_code, set_table,
    values, EARS, LARGEST_CODE, LOCAL, NAMES,
};
use crate::stored::scripts::script::Script;

/// After a command it shows that the sequence is over.
const LETTER: u8 = b'A';

// Codes of modules, good ones.
const TO_SCREEN: u8 = 0x58;
const TO_KEYBOARD: u8 = 0x59;
const TO_SOCKET: u8 = 0x5b;
const BY_MODEM: u8 = 0x52;
const BY_SOCKET: u8 = 0x53;

/// Codes that elsewhere begin or end something. In a command each is taken as
/// it is: ESC, NUL, 7/F, FF, and what begins a command after ESC.
const STRANGE: [u8; 5] = [ESC, 0x00, 0x7f, 0x0c, PRO1];

/// Codes of modules, and those just before and after them.
const NEAR_MODULES: [u8; 12] = [
    0x00, ESC, 0x4f, 0x50, 0x51, 0x53, 0x54, 0x57, 0x58, 0x5a, 0x5b, 0x5c,
];

/// Every code in PRO1, PRO2 and PRO3, strange ones, and modules swapped.
pub fn commands() -> Script {
    let mut script = Script::trying("Every code at every place of a command, by modem and socket.");
    for ear in EARS {
        script.comment(&format!("by the {}", NAMES[ear]));
        codes_of_pro1(&mut script, ear);
        codes_of_pro2(&mut script, ear);
        codes_of_pro3(&mut script, ear);
        codes_of_clearing(&mut script, ear);
        strange_codes(&mut script, ear);
        modules_swapped(&mut script, ear);
    }
    script
}

fn codes_of_pro1(script: &mut Script, ear: Module) {
    script.comment("PRO1 and every code");
    script.line(LOCAL);
    every_code(script, ear, &[ESC, PRO1], &[LETTER]);
}

fn codes_of_pro2(script: &mut Script, ear: Module) {
    script.comment("PRO2, every code, the screen");
    every_code(script, ear, &[ESC, PRO2], &[TO_SCREEN, LETTER]);
    script.comment("PRO2 6/2 and every code");
    every_code(script, ear, &[ESC, PRO2, ASK], &[]);
}

fn codes_of_pro3(script: &mut Script, ear: Module) {
    script.comment("PRO3, every code, keyboard and socket");
    // Where there is no link, setting would show; where there is one, clearing.
    let table = match ear {
        MODEM => no_links(),
        _ => all_links(),
    };
    script.line(set_table(table));
    every_code(script, ear, &[ESC, PRO3], &[TO_KEYBOARD, BY_SOCKET]);
    script.comment("PRO3 6/1, every code as receiver, the modem");
    script.line(set_table(no_links()));
    every_code(script, ear, &[ESC, PRO3, SET], &[BY_MODEM]);
    script.comment("PRO3 6/1, the socket, every code as sender");
    script.line(set_table(no_links()));
    every_code(script, ear, &[ESC, PRO3, SET, TO_SOCKET], &[]);
    one_from_each(script);
}

fn every_code(script: &mut Script, ear: Module, before: &[u8], after: &[u8]) {
    for code in 0..=LARGEST_CODE {
        values(script, ear, before);
        script.line(from(ear, code));
        values(script, ear, after);
    }
}

fn codes_of_clearing(script: &mut Script, ear: Module) {
    script.comment("PRO3 6/0 with codes of modules and codes near them");
    script.line(set_table(all_links()));
    for code in NEAR_MODULES {
        values(script, ear, &[ESC, PRO3, CLEAR, code, BY_MODEM]);
        values(script, ear, &[ESC, PRO3, CLEAR, TO_SOCKET, code]);
    }
    one_from_each(script);
}

fn strange_codes(script: &mut Script, ear: Module) {
    script.comment("codes that elsewhere begin or end something");
    script.line(LOCAL);
    for first in STRANGE {
        for second in STRANGE {
            values(script, ear, &[ESC, PRO2, first, second]);
            values(script, ear, &[ESC, PRO3, SET, first, second]);
            values(script, ear, &[ESC, PRO3, first, second, ESC]);
        }
    }
    script.comment("commands within a command, which are none");
    values(script, ear, &[ESC, PRO3, ESC, PRO1, 0x7f, LETTER]);
    values(script, ear, &[ESC, PRO3, ESC, PRO2, ASK, TO_SCREEN]);
    values(script, ear, &[ESC, PRO2, ESC, PRO3, CLEAR, TO_SCREEN]);
    values(script, ear, &[ESC, PRO1, ESC, PRO2, ASK, TO_SCREEN]);
    script.comment("commands one after the other, with nothing between");
    values(script, ear, &[ESC, PRO1, LETTER]);
    values(script, ear, &ask(MODEM));
    values(script, ear, &ask(MODEM));
}

/// The receiver's code comes first; the other way round it is unknown.
fn modules_swapped(script: &mut Script, ear: Module) {
    script.comment("sender and receiver swapped, two senders, two receivers");
    script.line(LOCAL);
    for (sender, receiver) in pairs() {
        for what in [SET, CLEAR] {
            let (sender, receiver) = (sender_code(sender), receiver_code(receiver));
            values(script, ear, &[ESC, PRO3, what, sender, receiver]);
        }
    }
    for module in 0..MODULES {
        let (sender, receiver) = (sender_code(module), receiver_code(module));
        values(script, ear, &[ESC, PRO3, SET, sender, BY_MODEM]);
        values(script, ear, &[ESC, PRO3, SET, TO_SOCKET, receiver]);
    }
}
