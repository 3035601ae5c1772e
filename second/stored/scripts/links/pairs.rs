//! The stored script that sets and clears every link.

use crate::links::codes::{CLEAR, SET};
use crate::links::state::{self, Module, Table, MODULES};
use crate::stored::scripts::links::{
    all_links, ask, ask_each, link, no_links, one_from_each, pairs as every_pair, set_table,
    values, EARS, NAMES,
};
use crate::stored::scripts::script::Script;

/// A table to start from, and the order of the two commands. With all links in
/// place it is clearing first that shows.
struct Start {
    name: &'static str,
    table: Table,
    order: [u8; 2],
}

/// Every link set and cleared, by modem and by socket; then the self links.
pub fn pairs() -> Script {
    let mut script = Script::trying("Every link set and cleared, with every receiver asked for.");
    for start in starts() {
        for ear in EARS {
            each_pair(&mut script, &start, ear);
        }
    }
    for start in starts() {
        for ear in EARS {
            each_with_itself(&mut script, &start, ear);
        }
    }
    script
}

fn starts() -> [Start; 4] {
    let start = |name, table, order| Start { name, table, order };
    [
        start("the local table", state::local(), [SET, CLEAR]),
        start("the connected table", state::connected(), [SET, CLEAR]),
        start("no links", no_links(), [SET, CLEAR]),
        start("all links", all_links(), [CLEAR, SET]),
    ]
}

fn each_pair(script: &mut Script, start: &Start, ear: Module) {
    for (sender, receiver) in every_pair() {
        script.comment(&format!(
            "from {}, by the {}: {} to {}",
            start.name, NAMES[ear], NAMES[sender], NAMES[receiver]
        ));
        script.line(set_table(start.table));
        for what in start.order {
            values(script, ear, &link(what, sender, receiver));
            ask_each(script, ear);
            one_from_each(script);
        }
    }
}

/// Nothing changes, and yet each is answered.
fn each_with_itself(script: &mut Script, start: &Start, ear: Module) {
    script.comment(&format!(
        "from {}, by the {}: each module with itself",
        start.name, NAMES[ear]
    ));
    script.line(set_table(start.table));
    for module in 0..MODULES {
        for what in [SET, CLEAR] {
            values(script, ear, &link(what, module, module));
            values(script, ear, &ask(module));
        }
    }
    one_from_each(script);
}
