//! The links between the modules, and the commands that change them and ask for them.

pub const SCREEN: usize = 0;
pub const KEYBOARD: usize = 1;
pub const MODEM: usize = 2;
pub const SOCKET: usize = 3;

pub const ESC: u8 = 0x1b;

/// What each module gets, behind what it got before.
pub type Outputs = [Vec<u8>; 4];

#[derive(Clone, Copy)]
pub enum Unfinished {
    Free,
    Escape,
    /// PRO1, PRO2 or PRO3, which takes so many codes, with the first of them.
    Command {
        takes: usize,
        taken: usize,
        codes: [u8; 3],
    },
}

pub struct Links {
    /// For each sender, a bit for each receiver that it reaches, weight 1 the screen's.
    pub rows: [u8; 4],
    pub unfinished: [Unfinished; 4],
}

impl Links {
    pub fn connected() -> Links {
        let mut rows = [0; 4];
        rows[KEYBOARD] = 1 << MODEM;
        rows[MODEM] = 1 << SCREEN | 1 << SOCKET;
        rows[SOCKET] = 1 << MODEM;
        Links {
            rows,
            unfinished: [Unfinished::Free; 4],
        }
    }

    /// Values of 0 to 127 from a module that is heard for commands.
    #[inline]
    pub fn hear_all(&mut self, from: usize, values: &[u8], outputs: &mut Outputs) {
        if matches!(self.unfinished[from], Unfinished::Free) && !values.contains(&ESC) {
            return self.pass(from, values, outputs);
        }
        for &value in values {
            self.hear(from, value, outputs);
        }
    }

    #[inline]
    fn pass(&self, from: usize, values: &[u8], outputs: &mut Outputs) {
        for (to, output) in outputs.iter_mut().enumerate() {
            if self.rows[from] >> to & 1 == 1 {
                output.extend_from_slice(values);
            }
        }
    }

    fn hear(&mut self, from: usize, value: u8, outputs: &mut Outputs) {
        self.unfinished[from] = match (self.unfinished[from], value) {
            (Unfinished::Free, ESC) => Unfinished::Escape,
            (Unfinished::Free, _) => {
                self.pass(from, &[value], outputs);
                Unfinished::Free
            }
            (Unfinished::Escape, 0x39..=0x3b) => Unfinished::Command {
                takes: (value - 0x38) as usize,
                taken: 0,
                codes: [0; 3],
            },
            (Unfinished::Escape, _) => {
                self.pass(from, &[ESC, value], outputs);
                Unfinished::Free
            }
            (
                Unfinished::Command {
                    takes,
                    taken,
                    mut codes,
                },
                _,
            ) => {
                codes[taken] = value;
                if taken + 1 == takes {
                    self.obey(from, &codes[..takes], outputs);
                    Unfinished::Free
                } else {
                    Unfinished::Command {
                        takes,
                        taken: taken + 1,
                        codes,
                    }
                }
            }
        };
    }

    /// A whole command: 6/1 sets a link, 6/0 clears it, 6/2 asks; any other is swallowed.
    fn obey(&mut self, from: usize, codes: &[u8], outputs: &mut Outputs) {
        match *codes {
            [0x62, receiver @ 0x58..=0x5b] => self.reply(from, receiver, outputs),
            [0x60 | 0x61, receiver @ 0x58..=0x5b, sender @ 0x50..=0x53] => {
                self.link(
                    receiver as usize - 0x58,
                    sender as usize - 0x50,
                    codes[0] == 0x61,
                );
                self.reply(from, receiver, outputs);
            }
            _ => {}
        }
    }

    fn link(&mut self, receiver: usize, sender: usize, on: bool) {
        // A module is never linked to itself.
        if receiver != sender {
            self.rows[sender] = self.rows[sender] & !(1 << receiver) | (on as u8) << receiver;
        }
    }

    /// The status of a receiver, to the module that asked: the senders that reach it, and itself.
    fn reply(&self, from: usize, code: u8, outputs: &mut Outputs) {
        let receiver = code as usize - 0x58;
        let mut status = 0x40 | 1 << receiver;
        for (sender, row) in self.rows.iter().enumerate() {
            status |= (row >> receiver & 1) << sender;
        }
        outputs[from].extend_from_slice(&[ESC, 0x3b, 0x63, code, status]);
    }
}
