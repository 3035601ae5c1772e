//! Writes the stored records and values for the keeper's program into a
//! directory, the same ones each time.

mod block {
    pub mod judge;
    pub mod layout;
    pub mod polynomial;
}
mod stored {
    pub mod bad_line;
    pub mod damage;
    pub mod files;
    pub mod page_values;
    pub mod records;
    pub mod xorshift;
}

// Of these a part is enough here: a receiver that is on all the time, and the
// names of codes, modules, rows and columns.
mod line {
    #[allow(dead_code)]
    pub mod receiver;
}
#[allow(dead_code)]
mod links {
    pub mod codes;
    pub mod state;
}
#[allow(dead_code)]
mod screen {
    pub mod codes;
    pub mod state;
}

use std::process::ExitCode;

use stored::files::{self, Stored};
use stored::records::lines::{self, clean};
use stored::records::pages::{self, many};

/// First the records, then the values to be sent.
const STORED: [Stored<Vec<u8>>; 26] = [
    ("frost", || clean(&pages::frost())),
    ("sets", || clean(&pages::sets())),
    ("colours", || clean(&pages::colours())),
    ("looks", || clean(&pages::looks())),
    ("repeats", || clean(&pages::repeats())),
    ("row-0", || clean(&pages::row_0())),
    ("commands", || clean(&pages::commands())),
    ("hits", lines::hits),
    ("worn", lines::worn),
    ("repeat", lines::repeat),
    ("repeat-of-a-repeat", lines::repeat_of_a_repeat),
    ("wrong-number", lines::wrong_number),
    ("out-of-step", lines::out_of_step),
    ("ends-inside", lines::ends_inside),
    ("ends-waiting", lines::ends_waiting),
    ("one-byte", || vec![0x41]),
    ("empty", Vec::new),
    ("long", lines::long),
    ("noise", lines::noise),
    ("values-frost", pages::frost),
    ("values-1", || many(1)),
    ("values-15", || many(15)),
    ("values-16", || many(16)),
    ("values-31", || many(31)),
    ("values-many", || many(40_000)),
    ("values-too-large", values_too_large),
];

fn main() -> ExitCode {
    files::write_all("records", &STORED)
}

/// Two of them, and neither in the first block.
fn values_too_large() -> Vec<u8> {
    let mut values = many(50);
    values[20] = 128;
    values[40] = 255;
    values
}
