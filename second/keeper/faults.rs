//! The lines on standard error: those that tell a fault begin with the program's
//! name, and those that say how far a file is with two dots. A file's name comes
//! after that, so that it cannot make the one look like the other.

use std::fmt::Display;
use std::path::Path;

/// A fault of a file.
pub fn of_file(name: &Path, what: impl Display) -> String {
    of(&shown(name), what)
}

/// A fault of what is named.
pub fn of(name: &str, what: impl Display) -> String {
    format!("replay: {name}: {what}")
}

/// How far a file is.
pub fn how_far(name: &Path, count: u64) -> String {
    format!(".. {}: {count} bytes read", shown(name))
}

/// A name on one line: a question mark stands for each control character.
fn shown(name: &Path) -> String {
    let name = name.display().to_string();
    name.replace(|character: char| character.is_ascii_control(), "?")
}
