//! One script: its lines, the families of commands, the answers.

use std::io::{self, BufRead, Write};

use crate::block::commands::BlockCommands;
use crate::board::commands::BoardCommands;
use crate::line::commands::ReceiverCommands;
use crate::links::commands::LinksCommands;
use crate::screen::commands::ScreenCommands;
use crate::trial::limits::LONGEST_LINE;
use crate::trial::reading;

/// A family of commands, with the state that they act on.
pub trait Family {
    /// The answer to a command of this family. Words that are none of its
    /// commands get nothing, and leave the state as it was.
    fn answer(&mut self, words: &[&str]) -> Option<String>;
}

/// Every family in its start state. A new family is a folder and a line here.
fn start_state() -> Vec<Box<dyn Family>> {
    vec![
        Box::new(BlockCommands),
        Box::new(ReceiverCommands::start()),
        Box::new(ScreenCommands::start()),
        Box::new(LinksCommands::start()),
        Box::new(BoardCommands::start()),
    ]
}

/// Runs one script from the start state.
pub fn run(script: impl BufRead, answers: &mut impl Write) -> io::Result<()> {
    let mut families = start_state();
    for (number, line) in (1_u64..).zip(script.split(b'\n')) {
        let line = line?;
        if gets_no_answer(&line) {
            continue;
        }
        match answer(&mut families, &line) {
            Some(answer) => writeln!(answers, "{answer}")?,
            None => writeln!(answers, "? {number}")?,
        }
    }
    Ok(())
}

fn gets_no_answer(line: &[u8]) -> bool {
    line.is_empty() || line.starts_with(b"#")
}

/// The answer of the family whose command the line is, or nothing.
fn answer(families: &mut [Box<dyn Family>], line: &[u8]) -> Option<String> {
    if line.len() > LONGEST_LINE {
        return None;
    }
    let words = reading::words(line)?;
    families.iter_mut().find_map(|family| family.answer(&words))
}
