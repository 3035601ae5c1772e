//! The stored script that hands in values too large, states of the links
//! outside the ranges, and states just inside.

use crate::links::codes::{ESC, PRO2, PRO3, SET};
use crate::links::state::{self, Links, Module, Table, KEYBOARD, MODEM, SCREEN, SOCKET};
use crate::stored::scripts::links::{
    all_links, ask_each, from, no_links, one_from_each, set, set_table, values, with_unfinished,
    CONNECTED, EARS, LOCAL, NAMES, SENDERS, TO_CONNECTED, TO_LOCAL, UNFINISHED,
};
use crate::stored::scripts::script::Script;

/// The smallest and the largest value that is too large.
const TOO_LARGE: [u8; 2] = [0x80, 0xff];

/// The modules linked to themselves: each alone, and several at once.
const SELF_LINKED: [&[Module]; 7] = [
    &[SCREEN],
    &[KEYBOARD],
    &[MODEM],
    &[SOCKET],
    &[SCREEN, SOCKET],
    &[KEYBOARD, MODEM],
    &[SCREEN, KEYBOARD, MODEM, SOCKET],
];

/// A code at each place where an unfinished sequence stores one, and how many
/// codes are still to come.
const STORED: [(fn(u8) -> Vec<u8>, usize); 4] = [
    (|code| vec![ESC, PRO2, code], 1),
    (|code| vec![ESC, PRO3, code], 2),
    (|code| vec![ESC, PRO3, code, 0x58], 1),
    (|code| vec![ESC, PRO3, SET, code], 1),
];

/// Sequences of modem and socket with more than one code too large, or with one
/// beside a good sequence.
const SEVERAL: [(&[u8], &[u8]); 6] = [
    (&[ESC, PRO3, 0x80, 0xff], &[]),
    (&[], &[ESC, PRO3, 0xff, 0x80]),
    (&[ESC, PRO2, 0x80], &[ESC, PRO2, 0xff]),
    (&[ESC, PRO3, 0xff], &[ESC]),
    (&[ESC, PRO3, SET], &[ESC, PRO3, 0x80, 0x58]),
    (&[ESC, PRO3, 0xff, 0xff], &[ESC, PRO3, 0xff, 0xff]),
];

/// Values too large, broken states on every call, and states at the edge.
pub fn broken() -> Script {
    let mut script = Script::trying("Values too large, broken states, and states at the edge.");
    values_too_large(&mut script);
    self_links(&mut script);
    stored_codes(&mut script);
    several_at_once(&mut script);
    out_of_a_broken_state(&mut script);
    codes_at_the_edge(&mut script);
    tables_at_the_edge(&mut script);
    script
}

/// Each is refused, and the sequences go on as if it had not come.
fn values_too_large(script: &mut Script) {
    script
        .comment("values too large in every unfinished sequence of modem and socket, then its end");
    for (modem, end_of_modem) in UNFINISHED {
        for (socket, end_of_socket) in UNFINISHED {
            script.line(set(&Links {
                table: state::local(),
                modem: modem.to_vec(),
                socket: socket.to_vec(),
            }));
            for sender in SENDERS {
                values(script, sender, &TOO_LARGE);
            }
            values(script, MODEM, end_of_modem);
            values(script, SOCKET, end_of_socket);
        }
    }
}

fn self_links(script: &mut Script) {
    for (name, table) in [
        ("no links", no_links()),
        ("the local table", state::local()),
        ("all links", all_links()),
    ] {
        for modules in SELF_LINKED {
            let names: Vec<&str> = modules.iter().map(|&module| NAMES[module]).collect();
            script.comment(&format!("{name} and self links: {}", names.join(", ")));
            every_call(script, &Links::new(self_linked(table, modules)));
        }
    }
}

fn self_linked(mut table: Table, modules: &[Module]) -> Table {
    for &module in modules {
        table[module][module] = true;
    }
    table
}

fn stored_codes(script: &mut Script) {
    for ear in EARS {
        script.comment(&format!("codes too large stored by the {}", NAMES[ear]));
        for (codes, _) in STORED {
            for code in TOO_LARGE {
                let table = state::connected();
                every_call(script, &with_unfinished(table, ear, &codes(code)));
            }
        }
    }
}

fn several_at_once(script: &mut Script) {
    script.comment("several codes too large, without and with a self link");
    for (modem, socket) in SEVERAL {
        let good = state::local();
        for table in [good, self_linked(good, &[MODEM])] {
            let (modem, socket) = (modem.to_vec(), socket.to_vec());
            every_call(
                script,
                &Links {
                    table,
                    modem,
                    socket,
                },
            );
        }
    }
    script.comment("a self link beside good unfinished sequences");
    for (codes, _) in UNFINISHED {
        let table = self_linked(state::local(), &[SCREEN]);
        let (modem, socket) = (codes.to_vec(), codes.to_vec());
        every_call(
            script,
            &Links {
                table,
                modem,
                socket,
            },
        );
    }
}

/// Each call leaves the broken state as it is, so the next finds it again.
/// Values too large are handed in too: 5 goes before 2.
fn every_call(script: &mut Script, broken: &Links) {
    script.line(set(broken));
    script.line(TO_LOCAL);
    script.line(TO_CONNECTED);
    for sender in SENDERS {
        values(script, sender, &[b'A', ESC, 0x80]);
    }
}

fn out_of_a_broken_state(script: &mut Script) {
    script.comment("out of a broken state: by new links, or a good state");
    let table = self_linked(all_links(), &[SCREEN, MODEM]);
    let broken = set(&with_unfinished(table, SOCKET, &[ESC, PRO2, 0xff]));
    for good in [LOCAL, CONNECTED, &set_table(all_links())] {
        script.line(&broken);
        script.line(good);
        one_from_each(script);
    }
}

fn codes_at_the_edge(script: &mut Script) {
    script.comment("the largest code and the smallest at every stored place, not broken");
    for ear in EARS {
        for (codes, left) in STORED {
            for code in [0x7f, 0x00] {
                script.line(set(&with_unfinished(no_links(), ear, &codes(code))));
                script.line(from(KEYBOARD, b'k'));
                values(script, ear, &vec![0x7f; left]);
                one_from_each(script);
            }
        }
    }
}

fn tables_at_the_edge(script: &mut Script) {
    script.comment("no links and all links, not broken");
    for table in [no_links(), all_links()] {
        for ear in EARS {
            script.line(set_table(table));
            one_from_each(script);
            ask_each(script, ear);
            script.line(TO_LOCAL);
        }
    }
}
