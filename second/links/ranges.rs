//! The ranges that the page gives for the links. A state that leaves one of
//! them is broken.

use crate::links::state::{Links, MODULES};

pub const LARGEST_CODE: u8 = 0x7f;

impl Links {
    /// What is no unfinished sequence is never handed in, so of each only the
    /// codes are looked at.
    pub fn is_in_range(&self) -> bool {
        !self.has_self_link() && codes(&self.modem) && codes(&self.socket)
    }

    fn has_self_link(&self) -> bool {
        (0..MODULES).any(|module| self.table[module][module])
    }
}

fn codes(codes: &[u8]) -> bool {
    codes.iter().all(|&code| code <= LARGEST_CODE)
}
