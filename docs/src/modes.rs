//! What is done with a record: it is read in portions, and one part of the board, or the whole
//! path, takes them.

use std::fs::File;
use std::io::{Read, Result, Write};

use crate::board::Board;
use crate::hex::hex;
use crate::judge::{judge as judge_block, VALUES};
use crate::links::{Links, Outputs, KEYBOARD, MODEM, SCREEN, SOCKET};
use crate::portions::{read_portions, PORTION};
use crate::receiver::{Heard, Receiver};
use crate::screen::Screen;
use crate::texts::{write_bytes, write_links, write_receiver, write_screen};
use crate::verdicts::{judge_file, Counts, Verdict};

/// As many bytes as an output may need for a portion: with sixteen bytes held before it, and five
/// for each value.
const ROOM: usize = 5 * (PORTION + 16);

fn remove_parity(bytes: &mut [u8]) {
    for byte in bytes {
        *byte &= 127;
    }
}

pub fn judge(file: &mut File, writing: bool, out: &mut impl Write) -> Result<()> {
    judge_file(file, writing, out, judge_block)
}

pub fn receiver(file: &mut File, writing: bool, out: &mut impl Write) -> Result<()> {
    let mut counts = Counts::default();
    let mut receiver = Receiver::switched_on();
    let (mut passed, mut asked) = (0, 0);
    read_portions(file, |portion| {
        for &byte in &*portion {
            match receiver.step(byte) {
                Heard::Nothing => {}
                Heard::Values(judged, values) => {
                    counts.count(judged);
                    passed += values.len();
                    if writing {
                        writeln!(out, "{} {}", judged.text(), hex(&values))?;
                    }
                }
                Heard::Request(request) => {
                    counts.count(Verdict::Repeat);
                    asked += request.len();
                    if writing {
                        writeln!(out, "{} {}", Verdict::Repeat.text(), hex(&request))?;
                    }
                }
            }
        }
        Ok(())
    })?;
    counts.write(out, "receiver")?;
    writeln!(out, "passed on {passed}, asked {asked} bytes")?;
    write_receiver(out, &receiver)
}

const NAMES: [&str; 4] = ["screen", "keyboard", "modem", "socket"];

/// Counts what each module got, writes it where that is wanted, and makes room for more.
fn hand_out(
    outputs: &mut Outputs,
    given: &mut [usize; 4],
    writing: bool,
    out: &mut impl Write,
) -> Result<()> {
    for (module, output) in outputs.iter_mut().enumerate() {
        given[module] += output.len();
        if writing {
            write_bytes(out, NAMES[module], output)?;
        }
        output.clear();
    }
    Ok(())
}

fn outputs() -> Outputs {
    std::array::from_fn(|_| Vec::with_capacity(ROOM))
}

pub fn links(file: &mut File, writing: bool, out: &mut impl Write) -> Result<()> {
    let mut links = Links::connected();
    let (mut outputs, mut given) = (outputs(), [0; 4]);
    read_portions(file, |portion| {
        remove_parity(portion);
        for values in portion.chunks(VALUES) {
            links.hear_all(MODEM, values, &mut outputs);
            hand_out(&mut outputs, &mut given, writing, out)?;
        }
        Ok(())
    })?;
    let [screen, keyboard, modem, socket] = given;
    writeln!(
        out,
        "links: screen {screen}, keyboard {keyboard}, modem {modem}, socket {socket} bytes"
    )?;
    write_links(out, &links)
}

pub fn screen(file: &mut File, writing: bool, out: &mut impl Write) -> Result<()> {
    let mut screen = Screen::fresh();
    let mut values = 0;
    read_portions(file, |portion| {
        remove_parity(portion);
        screen.run(portion);
        values += portion.len();
        if writing {
            write_screen(out, &screen)?;
        }
        Ok(())
    })?;
    writeln!(out, "screen: {values} values")?;
    write_screen(out, &screen)
}

fn write_board(out: &mut impl Write, board: &Board) -> Result<()> {
    write_receiver(out, &board.receiver)?;
    write_links(out, &board.links)?;
    write_screen(out, &board.screen)
}

pub fn path(file: &mut File, writing: bool, out: &mut impl Write) -> Result<()> {
    let mut board = Board::connected();
    let (mut outputs, mut given) = (outputs(), [0; 4]);
    let (mut requests, mut asked) = (Vec::with_capacity(ROOM), 0);
    read_portions(file, |portion| {
        board.lines(portion, &mut outputs, &mut requests);
        // What the screen got is on it.
        outputs[SCREEN].clear();
        hand_out(&mut outputs, &mut given, writing, out)?;
        asked += requests.len();
        if writing {
            write_bytes(out, "requests", &requests)?;
            write_board(out, &board)?;
        }
        requests.clear();
        Ok(())
    })?;
    let [keyboard, modem, socket] = [KEYBOARD, MODEM, SOCKET].map(|module| given[module]);
    writeln!(
        out,
        "path: keyboard {keyboard}, modem {modem}, socket {socket}, requests {asked} bytes"
    )?;
    write_board(out, &board)
}

/// The line of a process's status that has its peak memory.
pub fn memory(file: &mut File, out: &mut impl Write) -> Result<()> {
    let mut status = String::new();
    file.read_to_string(&mut status)?;
    for line in status.lines().filter(|line| line.starts_with("VmHWM:")) {
        writeln!(out, "{line}")?;
    }
    Ok(())
}
