//! What a judge says of a block, and the mode `judge`, for any judge.

use std::fs::File;
use std::io::{Result, Write};

use crate::hex::hex;
use crate::portions::read_portions;

pub const BLOCK: usize = 17;

#[derive(Clone, Copy)]
pub enum Verdict {
    Clean,
    /// The bit that was changed, in block order.
    Mended(u8),
    Repeat,
    WrongLength,
}

impl Verdict {
    pub fn text(self) -> String {
        match self {
            Verdict::Clean => "clean".to_string(),
            Verdict::Mended(bit) => format!("mended {bit}"),
            Verdict::Repeat => "repeat".to_string(),
            Verdict::WrongLength => "wrong length".to_string(),
        }
    }
}

#[derive(Default)]
pub struct Counts {
    clean: u64,
    mended: u64,
    repeat: u64,
    wrong_length: u64,
}

impl Counts {
    pub fn count(&mut self, verdict: Verdict) {
        match verdict {
            Verdict::Clean => self.clean += 1,
            Verdict::Mended(_) => self.mended += 1,
            Verdict::Repeat => self.repeat += 1,
            Verdict::WrongLength => self.wrong_length += 1,
        }
    }

    pub fn write(&self, out: &mut impl Write, name: &str) -> Result<()> {
        let Counts {
            clean,
            mended,
            repeat,
            wrong_length,
        } = self;
        writeln!(
            out,
            "{name}: clean {clean}, mended {mended}, repeat {repeat}, wrong length {wrong_length}"
        )
    }
}

/// Has each seventeen bytes of a file judged in place; where that is wanted, writes the block as it
/// is left and the verdict.
pub fn judge_file(
    file: &mut File,
    writing: bool,
    out: &mut impl Write,
    judge: impl Fn(&mut [u8]) -> Verdict,
) -> Result<()> {
    let mut counts = Counts::default();
    read_portions(file, |portion| {
        for block in portion.chunks_mut(BLOCK) {
            let verdict = judge(block);
            counts.count(verdict);
            if writing {
                writeln!(out, "{} {}", hex(block), verdict.text())?;
            }
        }
        Ok(())
    })?;
    counts.write(out, "judge")
}
