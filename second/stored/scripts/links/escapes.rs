//! The stored script that tries ESC and its next code.

use crate::links::codes::{ASK, CLEAR, ESC, PRO1, PRO2, PRO3, SET};
use crate::links::state::{Module, Table, KEYBOARD, MODULES, SCREEN};
use crate::stored::scripts::links::{
    all_links, from, link, no_links, other_ear, set, set_table, some_links, values,
    with_unfinished, EARS, LARGEST_CODE, NAMES, TO_CONNECTED, TO_LOCAL,
};
use crate::stored::scripts::script::Script;

/// What ends a command that its last code has begun, so that it does not take
/// the codes that follow it.
const ENDS: [(u8, &[u8]); 3] = [
    (PRO1, &[0x70]),
    (PRO2, &[0x70, 0x71]),
    (PRO3, &[0x70, 0x71, 0x72]),
];

/// After ESC ESC nothing is begun: each of these but the last goes along the
/// links as it stands. In the last the third ESC begins a command.
const AFTER_TWO: [&[u8]; 5] = [
    &[ESC, ESC, PRO1, 0x70],
    &[ESC, ESC, PRO2, ASK, 0x58],
    &[ESC, ESC, PRO3, SET, 0x59, 0x52],
    &[ESC, ESC, b'A'],
    &[ESC, ESC, ESC, PRO2, ASK, 0x58],
];

/// Other pairs before what would be a command after ESC alone.
const AFTER_PAIRS: [&[u8]; 5] = [
    &[ESC, 0x00, PRO1, 0x70],
    &[ESC, 0x7f, PRO3, SET, 0x59, 0x52],
    &[ESC, b'A', ESC, PRO2, ASK, 0x5a],
    &[ESC, 0x61, 0x05],
    // SEP, US, REP and SS2 do not take the ESC of a command.
    &[
        0x13, ESC, PRO2, ASK, 0x5b, 0x1f, ESC, PRO1, 0x70, 0x12, ESC, b'A', 0x19, ESC, PRO1, 0x70,
    ],
];

/// Every pair with no, some and all links, and what changes between its codes.
pub fn escapes() -> Script {
    let mut script =
        Script::trying("ESC and its next code: commands, and pairs that are passed on.");
    for (name, table) in tables() {
        for ear in EARS {
            script.comment(&format!("{name}: every pair, by the {}", NAMES[ear]));
            script.line(set_table(table));
            every_pair(&mut script, ear);
            script.comment("what is passed on begins nothing");
            sequences(&mut script, ear);
        }
        keys(&mut script, name, table);
    }
    for ear in EARS {
        links_changed_between(&mut script, ear);
        table_chosen_between(&mut script, ear);
    }
    script
}

fn tables() -> [(&'static str, Table); 3] {
    [
        ("no links", no_links()),
        ("some links", some_links()),
        ("all links", all_links()),
    ]
}

fn every_pair(script: &mut Script, ear: Module) {
    for code in 0..=LARGEST_CODE {
        values(script, ear, &[ESC, code]);
        for (_, end) in ENDS.iter().filter(|(begun, _)| *begun == code) {
            values(script, ear, end);
        }
    }
}

fn sequences(script: &mut Script, ear: Module) {
    for codes in AFTER_TWO.iter().chain(&AFTER_PAIRS) {
        values(script, ear, codes);
    }
}

/// The keyboard's ESC is not held, and no command is heard from it.
fn keys(script: &mut Script, name: &str, table: Table) {
    script.comment(&format!("{name}: pairs and commands by the keyboard"));
    script.line(set_table(table));
    sequences(script, KEYBOARD);
    values(script, KEYBOARD, &link(SET, KEYBOARD, SCREEN));
    script.comment("a key between ESC and the next code of modem and socket");
    for ear in EARS {
        script.line(from(ear, ESC));
    }
    values(script, KEYBOARD, &[ESC, b'k', PRO1]);
    for ear in EARS {
        script.line(from(ear, b'A'));
    }
}

/// The pair goes by the table at the time of its second code.
fn links_changed_between(script: &mut Script, ear: Module) {
    let other = other_ear(ear);
    script.comment(&format!(
        "ESC of the {}, its links changed by the {}, and the next code",
        NAMES[ear], NAMES[other]
    ));
    for receiver in (0..MODULES).filter(|&receiver| receiver != ear) {
        for (what, table) in [(SET, no_links()), (CLEAR, all_links())] {
            script.line(set_table(table));
            script.line(from(ear, ESC));
            values(script, other, &link(what, ear, receiver));
            script.line(from(ear, b'A'));
        }
    }
}

fn table_chosen_between(script: &mut Script, ear: Module) {
    script.comment(&format!(
        "ESC of the {}, a table chosen, and the next code",
        NAMES[ear]
    ));
    for chosen in [TO_LOCAL, TO_CONNECTED] {
        for table in [no_links(), some_links(), all_links()] {
            for code in [b'A', ESC, 0x00] {
                script.line(set(&with_unfinished(table, ear, &[ESC])));
                script.line(chosen);
                script.line(from(ear, code));
            }
        }
    }
}
