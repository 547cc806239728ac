//! Pages in a history: of boards that have lines more often, most from a minute near a departure,
//! and some with a fault.

use super::player::Player;
use crate::board::page::{BYTES, COLUMNS, MINUTES};
use crate::generate::splitmix::SplitMix;
use crate::replay::script::Call;

const NAMES: [&str; 9] = [
    "Halta Road",
    "Halta Junction",
    "Sandpt",
    "Westbay & Pier",
    "Platforms 1 to 4",
    "A",
    "<2>",
    "\\",
    "~",
];

const WRONG_LENGTHS: [u64; 10] = [
    0,
    1,
    263,
    265,
    300,
    1_024,
    1_025,
    65_800,
    4_294_967_560,
    u64::MAX,
];
const WRONG_MINUTES: [u32; 7] = [
    MINUTES,
    MINUTES,
    MINUTES + 1,
    2_000,
    66_076,
    u32::MAX - 1,
    u32::MAX,
];
const WRONG_BYTES: [u8; 9] = [0, 9, 10, 13, 31, 127, 128, 160, 255];

impl Player<'_> {
    /// Adds a page now and then, more often where the board has lines.
    pub fn perhaps_page(&mut self) {
        let shows = !self.side.board.lines().is_empty();
        if self.random.once_in(if shows { 3 } else { 10 }) {
            self.page();
        }
    }

    /// Adds a page, seldom one with a fault or several.
    pub fn page(&mut self) {
        let mut length = BYTES as u64;
        let mut minute = self.minute();
        let mut name = name(self.random);
        let times = if self.random.once_in(40) { 2 } else { 30 };
        if self.random.once_in(times) {
            length = *self.random.choose(&WRONG_LENGTHS);
        }
        if self.random.once_in(times) {
            minute = *self.random.choose(&WRONG_MINUTES);
        }
        if self.random.once_in(times) {
            let index = self.random.index(name.len() + 1);
            name.insert(index, *self.random.choose(&WRONG_BYTES));
        }
        self.call(Call::Page {
            length,
            minute,
            name,
        });
    }

    /// A minute of the day, most often that of a line or the one before or after it.
    fn minute(&mut self) -> u32 {
        let lines = self.side.board.lines();
        match self.random.below(10) {
            0 | 1 => 0,
            2 => *self.random.choose(&[1, 2, MINUTES - 2, MINUTES - 1]),
            3 => self.random.below(MINUTES),
            _ if lines.is_empty() => 539 + self.random.below(5),
            _ => {
                let minute = self.random.choose(lines).minute + self.random.below(3);
                (minute.max(1) - 1).min(MINUTES - 1)
            }
        }
    }
}

/// A name: most often a short one, sometimes none, of blanks only, with blanks at its ends, or too
/// long for a row.
fn name(random: &mut SplitMix) -> Vec<u8> {
    let blanks = |length| vec![b' '; length];
    match random.below(14) {
        0 => Vec::new(),
        1 => blanks(1 + random.index(30)),
        2 => printable(random, COLUMNS + 1, 20),
        3 => {
            let (first, last) = (printable(random, COLUMNS - 3, 3), printable(random, 1, 5));
            [first, blanks(1), last].concat()
        }
        4 | 5 => {
            let (before, behind) = (random.index(4), random.index(4));
            let name = random.choose(&NAMES).as_bytes().to_vec();
            [blanks(before), name, blanks(behind)].concat()
        }
        6 | 7 => printable(random, 1, COLUMNS),
        _ => random.choose(&NAMES).as_bytes().to_vec(),
    }
}

/// At least so many bytes from 32 to 126, and less than so many more.
fn printable(random: &mut SplitMix, least: usize, more: usize) -> Vec<u8> {
    let length = least + random.index(more);
    (0..length).map(|_| random.printable()).collect()
}
