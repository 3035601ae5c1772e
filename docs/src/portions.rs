//! Files read in portions.

use std::fs::File;
use std::io::{Error, Read, Result, Write};

/// As many whole blocks as groups of fifteen values.
pub const PORTION: usize = 4080;

/// A file opened, or a fault that names it.
pub fn open(name: &str) -> Result<File> {
    File::open(name).map_err(|error| Error::new(error.kind(), format!("{name}: {error}")))
}

/// Hands each portion of a file on, all of them full but the last.
pub fn read_portions(file: &mut File, mut take: impl FnMut(&mut [u8]) -> Result<()>) -> Result<()> {
    let mut portion = [0; PORTION];
    loop {
        let mut filled = 0;
        while filled < PORTION {
            match file.read(&mut portion[filled..])? {
                0 => break,
                more => filled += more,
            }
        }
        if filled == 0 {
            return Ok(());
        }
        take(&mut portion[..filled])?;
    }
}

/// The mode `read`: no more than that, so that it can be taken off from the others.
pub fn read(file: &mut File, out: &mut impl Write) -> Result<()> {
    let mut bytes = 0;
    read_portions(file, |portion| {
        bytes += portion.len();
        Ok(())
    })?;
    writeln!(out, "read: {bytes} bytes")
}
