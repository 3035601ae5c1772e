//! Pages for the stored records, as the values that a service sends.

use crate::links::codes::{CLEAR, FIRST_RECEIVER, FIRST_SENDER, PRO1, PRO3, SET};
use crate::links::state::{Module, KEYBOARD, MODEM, MODULES, SCREEN, SOCKET};
use crate::screen::codes::{
    BS, COFF, CON, CR, ESC, FF, LF, NUL, REP, RS, SEP, SI, SO, SPACE, SS2, US, VT, ZERO,
};
use crate::stored::page_values::{ask, us};
use crate::stored::xorshift::Xorshift;

const MANY_SEED: u64 = 0x6d61_6e79_2076_616c;

/// Characters in a row of the pages that show them all.
const IN_A_ROW: usize = 32;

/// The frost warning that a hut gets in the morning.
pub fn frost() -> Vec<u8> {
    let mut page = vec![FF, CON];
    page.extend(us(0, 1));
    page.extend(b"HUT 3");
    page.extend(us(0, 35));
    page.extend(b"06:40");
    page.push(LF);
    page.extend(us(2, 8));
    page.extend([ESC, 0x41]);
    page.extend(b"FROST IN THE VALLEY");
    page.extend(us(4, 1));
    page.extend([SO, ESC, 0x46, 0x5f, REP, ZERO + 38]);
    for (row, line) in [
        (6, &b"Hut 3    -07 C   wind NW 40"[..]),
        (7, b"Hut 4    -09 C   wind NW 35"),
        (8, b"Hut 7    -11 C   calm"),
        (11, b"The road is closed above the bridge."),
    ] {
        page.extend(us(row, 3));
        page.extend(line);
    }
    page.extend(us(24, 40));
    page
}

/// Every code of G0, G1 and G2, but for the accents of G2.
pub fn sets() -> Vec<u8> {
    let mut page = vec![FF];
    characters(&mut page, 1, &[], &[]);
    characters(&mut page, 5, &[SO], &[]);
    characters(&mut page, 9, &[], &[SS2]);
    // An accent is swallowed, and the letter after it is shown.
    page.extend(us(13, 5));
    page.extend([SS2, 0x42, b'e', SS2, 0x7b, SS2, 0x6a]);
    page
}

/// The codes 2/0 to 7/F in rows, each row and each code begun by other codes.
fn characters(page: &mut Vec<u8>, first_row: u8, before_row: &[u8], before_code: &[u8]) {
    let codes: Vec<u8> = (SPACE..=0x7f).collect();
    for (row, codes) in (first_row..).zip(codes.chunks(IN_A_ROW)) {
        page.extend(us(row, 5));
        page.extend(before_row);
        for &code in codes {
            page.extend(before_code);
            page.push(code);
        }
    }
}

/// Every ink on every ground, in letters and in mosaics.
pub fn colours() -> Vec<u8> {
    let mut page = vec![FF];
    for ground in 0..8 {
        page.extend(us(1 + ground, 1));
        page.extend([ESC, 0x50 + ground, SPACE]);
        for ink in 0..8 {
            page.extend([ESC, 0x40 + ink, b'a' + ink, SO, 0x35, SI]);
        }
        // Waiting, until the row ends: no character takes it.
        page.extend([ESC, 0x50 + 7 - ground]);
    }
    page
}

/// Flash and inverse, alone and together, with changes inside a row and none.
pub fn looks() -> Vec<u8> {
    let mut page = vec![FF];
    page.extend(us(3, 1));
    for codes in [
        &[ESC, 0x48][..],
        &[ESC, 0x5d],
        &[ESC, 0x49],
        &[ESC, 0x5c],
        &[ESC, 0x48, ESC, 0x5d, ESC, 0x43],
        &[ESC, 0x51],
        &[SO],
        &[SI, ESC, 0x48],
    ] {
        page.extend(codes);
        page.extend(b"ab c");
    }
    page.extend(us(24, 1));
    page.extend([ESC, 0x5d, b'N', REP, ZERO + 40, b'Y']);
    page
}

/// REP of each set, over a row's end, of nothing, and with a count that is none.
pub fn repeats() -> Vec<u8> {
    let mut page = vec![REP, ZERO + 9, FF, b'A', REP, ZERO + 10];
    page.extend(us(2, 35));
    page.extend([b'-', REP, ZERO + 20]);
    page.extend(us(5, 1));
    page.extend([SO, 0x7f, SI, ESC, 0x45, REP, ZERO + 15]);
    page.extend([SS2, 0x30, REP, ZERO + 4]);
    page.extend([REP, 0x3f, REP, ZERO, b'z', REP, NUL, ZERO + 2]);
    page.extend(us(7, 30));
    page.extend([b'w', REP, 0x7f]);
    page.extend(us(24, 39));
    page.extend([b'v', REP, ZERO + 3]);
    page
}

/// Row 0 entered and left, moves, and codes that do nothing.
pub fn row_0() -> Vec<u8> {
    let mut page = vec![FF, ESC, 0x42, b'a', ESC, 0x53];
    page.extend(us(0, 36));
    page.extend(b"heading");
    page.extend([VT, LF, SPACE, b'b']);
    page.extend([BS, BS, b'c', CR, LF, LF, b'd', VT, b'e']);
    page.extend([SEP, b'x', US, 0x59, 0x41, US, 0x41, 0x69]);
    page.extend([ESC, 0x28, 0x40, ESC, 0x5b, 0x32, 0x4a, b'f', RS, b'g', FF]);
    page.extend(us(10, 1));
    page.extend(b"row 0 is kept");
    page.extend([COFF, CON]);
    page
}

/// Commands among the text, and what they open and close.
pub fn commands() -> Vec<u8> {
    let mut page = vec![FF];
    page.extend(b"status:");
    for module in 0..MODULES {
        page.extend(ask(module));
    }
    page.extend(link(SET, MODEM, KEYBOARD));
    page.extend(b" to the keyboard too");
    page.extend(link(CLEAR, MODEM, SCREEN));
    page.extend(b" not shown");
    page.extend(link(SET, MODEM, SCREEN));
    page.extend(link(CLEAR, MODEM, SOCKET));
    page.extend(link(SET, SOCKET, SOCKET));
    page.extend(link(SET, KEYBOARD, SCREEN));
    page.extend(b" shown again");
    // Unknown ones are swallowed; ESC ESC begins none.
    page.extend([
        ESC, PRO1, 0x70, ESC, PRO3, 0x63, 0x58, 0x4d, ESC, ESC, PRO1, 0x70,
    ]);
    page.extend(ask(SCREEN));
    page
}

/// So many values as a service could send them.
pub fn many(count: usize) -> Vec<u8> {
    let mut random = Xorshift::new(MANY_SEED);
    (0..count).map(|_| random.below(128) as u8).collect()
}

fn link(what: u8, sender: Module, receiver: Module) -> [u8; 5] {
    let receiver = FIRST_RECEIVER + receiver as u8;
    let sender = FIRST_SENDER + sender as u8;
    [ESC, PRO3, what, receiver, sender]
}
