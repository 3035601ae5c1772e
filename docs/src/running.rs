//! A program run on its arguments.

use std::env;
use std::io::{stdout, BufWriter, Result, StdoutLock, Write};
use std::process::ExitCode;

/// Obeys the arguments. A fault is a line on standard error, behind the program's name.
pub fn run(
    name: &str,
    obey: impl FnOnce(&[&str], &mut BufWriter<StdoutLock<'static>>) -> Result<()>,
) -> ExitCode {
    let arguments: Vec<String> = env::args().skip(1).collect();
    let words: Vec<&str> = arguments.iter().map(String::as_str).collect();
    let mut out = BufWriter::new(stdout().lock());
    match obey(&words, &mut out).and_then(|()| out.flush()) {
        Ok(()) => ExitCode::SUCCESS,
        Err(error) => {
            eprintln!("{name}: {error}");
            ExitCode::FAILURE
        }
    }
}
