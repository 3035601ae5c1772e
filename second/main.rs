//! The second program: runs trial scripts and answers each command.
//! With file names it runs those in turn, with none the standard input.

mod block;
mod board;
mod line;
mod links;
mod screen;
mod trial;

use std::env;
use std::fs::File;
use std::io::{self, BufReader, BufWriter, Write};
use std::path::{Path, PathBuf};
use std::process::ExitCode;

use trial::running;

fn main() -> ExitCode {
    let mut answers = BufWriter::new(io::stdout().lock());
    let mut failures = run_all(&mut answers);
    if let Err(error) = answers.flush() {
        failures.push(format!("standard output: {error}"));
    }
    for failure in &failures {
        eprintln!("{failure}");
    }
    if failures.is_empty() {
        ExitCode::SUCCESS
    } else {
        ExitCode::FAILURE
    }
}

/// A message for each script that could not be run; the scripts after it still are.
fn run_all(answers: &mut impl Write) -> Vec<String> {
    let names: Vec<PathBuf> = env::args_os().skip(1).map(PathBuf::from).collect();
    if names.is_empty() {
        let ran = running::run(io::stdin().lock(), answers);
        return Vec::from_iter(ran.err().map(|error| format!("standard input: {error}")));
    }
    names
        .iter()
        .filter_map(|name| {
            let error = run_file(name, answers).err()?;
            Some(format!("{}: {error}", name.display()))
        })
        .collect()
}

fn run_file(name: &Path, answers: &mut impl Write) -> io::Result<()> {
    running::run(BufReader::new(File::open(name)?), answers)
}
