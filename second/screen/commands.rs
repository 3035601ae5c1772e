//! The family of commands on the screen: `scr`.

use crate::screen;
use crate::screen::calls::Refusal;
use crate::screen::state::{Cell, Place, Screen};
use crate::trial::limits::MOST_VALUES;
use crate::trial::reading;
use crate::trial::running::Family;

pub struct ScreenCommands {
    /// In range or not.
    screen: Screen,
}

impl ScreenCommands {
    pub fn start() -> Self {
        ScreenCommands {
            screen: Screen::fresh(),
        }
    }

    /// Puts a new state in place of the old one, broken or not.
    fn replace(&mut self, screen: Screen) -> String {
        self.screen = screen;
        self.written("0")
    }

    /// `NUMBER STATE`
    fn take(&mut self, value: u8) -> String {
        let number = match self.screen.run(&[value]) {
            Ok(()) => "0",
            Err(Refusal::BrokenState) => "5",
            Err(Refusal::ValueTooLarge { .. }) => "2",
        };
        self.written(number)
    }

    /// `NUMBER PLACE STATE`
    fn run(&mut self, values: &[u8]) -> String {
        let number_and_place = match self.screen.run(values) {
            Ok(()) => "0 -".to_string(),
            Err(Refusal::BrokenState) => "5 -".to_string(),
            Err(Refusal::ValueTooLarge { place }) => format!("2 {place}"),
        };
        self.written(&number_and_place)
    }

    /// `NUMBER CELL`
    fn read(&self, place: Place) -> String {
        match self.screen.read(place) {
            Ok(cell) => format!("0 {}", written_or_off(cell)),
            Err(_) => "5 -".to_string(),
        }
    }

    /// What the call gave, and the state after it.
    fn written(&self, given: &str) -> String {
        let [cursor, attributes, last, kept, unfinished] = self.screen.written_parts();
        format!("{given} cur={cursor} attr={attributes} last={last} kept={kept} pend={unfinished}")
    }
}

impl Family for ScreenCommands {
    fn answer(&mut self, words: &[&str]) -> Option<String> {
        match words {
            ["scr", "fresh"] => Some(self.replace(Screen::fresh())),
            ["scr", "load", state @ ..] => Some(self.replace(screen::reading::screen(state)?)),
            ["scr", "byte", value] => {
                let [value] = reading::byte_array(value)?;
                Some(self.take(value))
            }
            ["scr", "run", values] => Some(self.run(&reading::bytes(values, MOST_VALUES)?)),
            ["scr", "dump"] => Some(self.screen.written_cells()),
            ["scr", "cell", row, column] => {
                let row = screen::reading::number(row)?;
                let column = screen::reading::number(column)?;
                Some(self.read(Place { row, column }))
            }
            _ => None,
        }
    }
}

fn written_or_off(cell: Option<Cell>) -> String {
    cell.map_or_else(|| "off".to_string(), screen::writing::cell)
}
