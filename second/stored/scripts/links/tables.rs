//! The stored script that tries the two tables of the host.

use crate::links::codes::{ESC, SET};
use crate::links::state::{Links, KEYBOARD, MODEM, SCREEN, SOCKET};
use crate::stored::scripts::links::{
    all_links, ask_each, from, link, one_from_each, set, values, CONNECTED, EARS, LARGEST_CODE,
    LOCAL, TO_CONNECTED, TO_LOCAL, UNFINISHED,
};
use crate::stored::scripts::script::Script;

/// Both tables in place of what was held, and chosen by the host.
pub fn tables() -> Script {
    let mut script = Script::trying("The local and the connected table, made and chosen.");
    script.comment("the start: the local table");
    one_from_each(&mut script);
    for made in [LOCAL, CONNECTED] {
        every_value(&mut script, made);
        every_receiver(&mut script, made);
    }
    for chosen in [TO_LOCAL, TO_CONNECTED] {
        every_unfinished(&mut script, chosen);
    }
    made_anew(&mut script);
    script
}

fn every_value(script: &mut Script, made: &str) {
    script.comment(&format!("{made}: every value from the keyboard, ESC too"));
    script.line(made);
    for value in 0..=LARGEST_CODE {
        script.line(from(KEYBOARD, value));
    }
    script.comment("what would be a command from another module");
    values(script, KEYBOARD, &link(SET, KEYBOARD, SCREEN));
    script.comment("every value but ESC from modem and socket");
    for value in (0..=LARGEST_CODE).filter(|&value| value != ESC) {
        for ear in EARS {
            script.line(from(ear, value));
        }
    }
}

fn every_receiver(script: &mut Script, made: &str) {
    script.comment(&format!(
        "{made}: every receiver asked for by modem and by socket"
    ));
    for ear in EARS {
        ask_each(script, ear);
    }
}

/// The host chooses while a sequence is unfinished, which then goes on.
fn every_unfinished(script: &mut Script, chosen: &str) {
    script.comment(&format!(
        "{chosen} from all links, in every unfinished sequence of modem and socket"
    ));
    for (modem, end_of_modem) in UNFINISHED {
        for (socket, end_of_socket) in UNFINISHED {
            script.line(set(&Links {
                table: all_links(),
                modem: modem.to_vec(),
                socket: socket.to_vec(),
            }));
            script.line(chosen);
            script.line(from(KEYBOARD, b'k'));
            values(script, MODEM, end_of_modem);
            values(script, SOCKET, end_of_socket);
        }
    }
}

fn made_anew(script: &mut Script) {
    for made in [LOCAL, CONNECTED] {
        script.comment(&format!("{made} also drops what is unfinished"));
        for (codes, _) in UNFINISHED {
            script.line(set(&Links {
                table: all_links(),
                modem: codes.to_vec(),
                socket: codes.to_vec(),
            }));
            script.line(made);
            one_from_each(script);
        }
    }
}
