//! What is told of the parts of a board, in the words that the proved program has for the same.

use std::io::{Result, Write};

use crate::hex::hex;
use crate::links::{Links, Unfinished, ESC, MODEM, SOCKET};
use crate::receiver::{Phase, Receiver};
use crate::screen::{Attributes, Cell, Place, Screen, Sequence, COLUMNS};

/// Bytes behind a name, in lines of 75 at most; nothing where there are none.
pub fn write_bytes(out: &mut impl Write, name: &str, bytes: &[u8]) -> Result<()> {
    for line in bytes.chunks(75) {
        writeln!(out, "{name} {}", hex(line))?;
    }
    Ok(())
}

pub fn write_receiver(out: &mut impl Write, receiver: &Receiver) -> Result<()> {
    let phase = match receiver.phase {
        Phase::Collecting => "collecting".to_string(),
        Phase::Waiting(seen) => format!("waiting {seen}"),
    };
    let held = hex(&receiver.held[..receiver.count]);
    writeln!(
        out,
        "receiver: {phase}, number {}, held {held}",
        receiver.number
    )
}

fn unfinished(unfinished: Unfinished) -> String {
    match unfinished {
        Unfinished::Free => hex(&[]),
        Unfinished::Escape => hex(&[ESC]),
        Unfinished::Command {
            takes,
            taken,
            codes,
        } => hex(&[&[ESC, 0x38 + takes as u8], &codes[..taken]].concat()),
    }
}

/// A row for each sender, a mark in it for each receiver, in the order screen, keyboard, modem,
/// socket.
pub fn write_links(out: &mut impl Write, links: &Links) -> Result<()> {
    write!(out, "links:")?;
    for row in links.rows {
        let [screen, keyboard, modem, socket] = [0, 1, 2, 3].map(|to| row >> to & 1);
        write!(out, " {screen}{keyboard}{modem}{socket}")?;
    }
    let [modem, socket] = [MODEM, SOCKET].map(|ear| unfinished(links.unfinished[ear]));
    writeln!(out, ", modem {modem}, socket {socket}")
}

fn write_cell(out: &mut impl Write, cell: &Cell) -> Result<()> {
    let Cell {
        set,
        code,
        ink,
        ground,
        flash,
        inverse,
    } = cell;
    write!(
        out,
        "{set}{code:02x}{ink}{ground}{}{}",
        *flash as u8, *inverse as u8
    )
}

fn write_spot(
    out: &mut impl Write,
    name: &str,
    place: Place,
    attributes: Attributes,
) -> Result<()> {
    let Place { row, column } = place;
    let Attributes {
        set,
        ink,
        ground,
        waiting,
        flash,
        inverse,
    } = attributes;
    let waiting = waiting.map_or("-".to_string(), |colour| colour.to_string());
    write!(
        out,
        "{name}: row {row}, column {column}, set {set}, ink {ink}, ground {ground}, "
    )?;
    writeln!(
        out,
        "waiting {waiting}, flash {}, inverse {}",
        flash as u8, inverse as u8
    )
}

fn sequence(sequence: Sequence) -> String {
    match sequence {
        Sequence::Free => "-".to_string(),
        Sequence::Escape => "esc".to_string(),
        Sequence::Long => "long".to_string(),
        Sequence::Control => "control".to_string(),
        Sequence::Separator => "sep".to_string(),
        Sequence::Repeat => "rep".to_string(),
        Sequence::Single => "ss2".to_string(),
        Sequence::Address => "us".to_string(),
        Sequence::Row(code) => format!("us {code:02x}"),
    }
}

/// Every cell in seven digits, a row to a line (set, code, ink, ground, flash, inverse), and the
/// rest of the screen.
pub fn write_screen(out: &mut impl Write, screen: &Screen) -> Result<()> {
    for (row, cells) in screen.cells.chunks(COLUMNS).enumerate() {
        write!(out, "row {row} ")?;
        for cell in cells {
            write_cell(out, cell)?;
        }
        writeln!(out)?;
    }
    write_spot(out, "pen", screen.place, screen.attributes)?;
    write_spot(out, "kept", screen.kept.0, screen.kept.1)?;
    let last = screen
        .last
        .map_or("-".to_string(), |(set, code)| format!("{set}{code:02x}"));
    writeln!(
        out,
        "last {last}, unfinished {}, shown {}",
        sequence(screen.sequence),
        screen.shown as u8
    )
}
