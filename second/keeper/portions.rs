//! Files, read portion by portion.

use std::fs::File;
use std::io::{self, Read};
use std::path::Path;

use crate::keeper::faults;

/// Bytes in a portion. It divides the next number.
const PORTION: usize = 65_536;

/// After each so many bytes a line says how far the reading is.
const BYTES_TO_A_LINE: u64 = 1_048_576;

/// Hands each byte of a file to what takes it. A file that cannot be read, or
/// is empty, is a fault.
pub fn each_byte(name: &Path, taking: impl FnMut(u8)) -> Result<(), String> {
    match read(name, taking) {
        Ok(0) => Err(faults::of_file(name, "empty")),
        Ok(_) => Ok(()),
        Err(error) => Err(faults::of_file(name, error)),
    }
}

/// How many bytes were read.
fn read(name: &Path, mut taking: impl FnMut(u8)) -> io::Result<u64> {
    let mut file = File::open(name)?;
    let mut count = 0;
    loop {
        let mut portion = Vec::with_capacity(PORTION);
        let length = file
            .by_ref()
            .take(PORTION as u64)
            .read_to_end(&mut portion)?;
        if length == 0 {
            return Ok(count);
        }
        portion.into_iter().for_each(&mut taking);
        count += length as u64;
        if count % BYTES_TO_A_LINE == 0 {
            eprintln!("{}", faults::how_far(name, count));
        }
    }
}
