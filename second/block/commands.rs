//! The family of commands on blocks: `make` and `judge`.

use crate::block::judge::{self, Judgement};
use crate::block::maker::{self, Refusal};
use crate::trial::limits::MOST_BYTES;
use crate::trial::running::Family;
use crate::trial::{reading, writing};

/// What the maker's output holds before the call.
const UNTOUCHED: u8 = 0xee;

/// Blocks are lent by each command, so this family keeps no state.
pub struct BlockCommands;

impl Family for BlockCommands {
    fn answer(&mut self, words: &[&str]) -> Option<String> {
        match words {
            ["make", values, room] => {
                let values = reading::bytes(values, MOST_BYTES)?;
                let room = reading::decimal(room, MOST_BYTES)?;
                Some(make(&values, room))
            }
            ["judge", block] => Some(judge(reading::bytes(block, MOST_BYTES)?)),
            _ => None,
        }
    }
}

/// `NUMBER PLACE OUTPUT`
fn make(values: &[u8], room: usize) -> String {
    let mut output = vec![UNTOUCHED; room];
    let number_and_place = match maker::make(values, &mut output) {
        Ok(()) => "0 -".to_string(),
        Err(Refusal::WrongLength) => "1 -".to_string(),
        Err(Refusal::ValueTooLarge { place }) => format!("2 {place}"),
        Err(Refusal::NoRoom) => "4 -".to_string(),
    };
    format!("{number_and_place} {}", writing::bytes(&output))
}

/// `NUMBER VERDICT BLOCK PART`
fn judge(mut block: Vec<u8>) -> String {
    let (judgement, part) = judge::judge(&mut block);
    let part = writing::bytes(part);
    let number_and_verdict = match judgement {
        Judgement::WrongLength => "1 -",
        Judgement::Clean => "0 clean",
        Judgement::Mended => "0 mended",
        Judgement::Repeat => "3 repeat",
    };
    format!("{number_and_verdict} {} {part}", writing::bytes(&block))
}
