//! Stored files, written into the directory that a program is given.

use std::env;
use std::fs;
use std::path::{Path, PathBuf};
use std::process::ExitCode;

/// The name of a stored file, and what writes its content.
pub type Stored<Content> = (&'static str, fn() -> Content);

/// All that such a program does: the same files each time.
pub fn write_all<Content: AsRef<[u8]>>(program: &str, stored: &[Stored<Content>]) -> ExitCode {
    let written = directory(program).and_then(|directory| {
        stored
            .iter()
            .try_for_each(|(name, content)| write(&directory.join(name), content().as_ref()))
    });
    match written {
        Ok(()) => ExitCode::SUCCESS,
        Err(message) => {
            eprintln!("{message}");
            ExitCode::FAILURE
        }
    }
}

fn directory(program: &str) -> Result<PathBuf, String> {
    let mut arguments = env::args_os().skip(1);
    match (arguments.next(), arguments.next()) {
        (Some(directory), None) => Ok(PathBuf::from(directory)),
        _ => Err(format!("usage: {program} DIR")),
    }
}

fn write(path: &Path, content: &[u8]) -> Result<(), String> {
    fs::write(path, content).map_err(|error| format!("{}: {error}", path.display()))
}
