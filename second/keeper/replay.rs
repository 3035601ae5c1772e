//! The commands on records: what is told of one, and the page that it left.

use std::path::Path;

use crate::block::layout::LENGTH;
use crate::keeper::player::Player;
use crate::keeper::{faults, page, portions};

/// Tells every block and resumption, the totals, and the page.
pub fn replay(name: &Path, text: &mut String) -> Result<(), String> {
    let mut player = Player::new();
    portions::each_byte(name, |byte| {
        if let Some(line) = player.take(byte) {
            *text += &line;
            text.push('\n');
        }
    })?;
    *text += &totals(&player);
    *text += &page::plain(&player.board.screen);
    at_the_end(name, &player)
}

/// The page alone, in colours.
pub fn show(name: &Path, text: &mut String) -> Result<(), String> {
    let mut player = Player::new();
    portions::each_byte(name, |byte| {
        player.take(byte);
    })?;
    *text += &page::coloured(&player.board.screen);
    at_the_end(name, &player)
}

fn totals(player: &Player) -> String {
    let blocks = player.blocks();
    let (clean, mended, repeats) = (player.clean, player.mended, player.repeats);
    let [keyboard, modem, socket] = player.handed;
    let mut lines = vec![
        format!("blocks {blocks}: {clean} clean, {mended} mended, {repeats} to be repeated"),
        format!("resumptions {}", player.resumptions),
        format!(
            "bytes {}, of these {} dropped while waiting",
            player.bytes, player.dropped
        ),
        format!("handed out: keyboard {keyboard}, modem {modem}, socket {socket} bytes"),
    ];
    if player.is_waiting() {
        let number = player.board.receiver.number;
        lines.push(format!("the record ends while block {number} is awaited"));
    }
    lines.join("\n") + "\n"
}

/// A record should not end inside a block.
fn at_the_end(name: &Path, player: &Player) -> Result<(), String> {
    let held = player.board.receiver.held.len() as u64;
    if held == 0 {
        return Ok(());
    }
    let place = player.bytes - held;
    let what = format!("ends inside a block: {held} of its {LENGTH} bytes, from place {place}");
    Err(faults::of_file(name, what))
}
