//! The page of a board: rows of characters, a heading and below it the lines from a minute on.

pub mod picture;

use super::lines::Shown;
use super::turned::Board;
use crate::forms::Tiploc;
use crate::refusal::Reason;
use std::fmt;
use std::io::Write;
use std::iter;

pub const COLUMNS: usize = 24;
/// The row of the heading and those of lines.
pub const ROWS: usize = 11;
pub const BYTES: usize = ROWS * COLUMNS;
/// The first number that is no minute of the day.
pub const MINUTES: u32 = 1_440;

impl Board {
    /// Writes the page with this local name, from this minute on, into the memory.
    pub fn page(&self, memory: &mut [u8], name: &[u8], minute: u32) -> Result<(), Reason> {
        if memory.len() != BYTES {
            return Err(Reason::PageLength);
        }
        if minute >= MINUTES {
            return Err(Reason::Minute);
        }
        if !name.iter().all(|byte| (32..=126).contains(byte)) {
            return Err(Reason::NameByte);
        }
        let departing = self.lines().iter().filter(|line| line.minute >= minute);
        let mut lines = departing.map(Some).chain(iter::repeat(None));
        let mut rows = memory.chunks_exact_mut(COLUMNS);
        if let Some(row) = rows.next() {
            write_heading(row, name, self.station());
        }
        for row in rows {
            write_line(row, lines.next().flatten());
        }
        Ok(())
    }
}

/// Fills the row with the name, or with the station where the name has only blanks, as far as it goes.
fn write_heading(row: &mut [u8], name: &[u8], station: Option<&Tiploc>) {
    let name = String::from_utf8_lossy(name);
    let station = station.map_or("", |station| station.0.as_str());
    let heading = match name.trim_matches(' ') {
        "" => station.trim_matches(' '),
        name => name,
    };
    fill(row, format_args!("{heading:24.24}"));
}

/// Fills the row with a line, or with blanks where there is none.
fn write_line(row: &mut [u8], line: Option<&Shown>) {
    let Some(line) = line else {
        return fill(row, format_args!("{:24}", ""));
    };
    let (hours, minutes) = (line.minute / 60, line.minute % 60);
    let (destination, platform) = (&line.destination, &line.platform.0);
    let (operator, identity) = (&line.operator, &line.identity.0);
    let text = format_args!(
        "{hours:02}{minutes:02} {destination:7} {platform:3} {operator:2} {identity:4}"
    );
    fill(row, text);
}

/// Writes a text as long as the row into it.
fn fill(mut row: &mut [u8], text: fmt::Arguments<'_>) {
    row.write_fmt(text)
        .expect("a row has room for 24 characters");
}

/// A page with a frame around it.
pub struct Framed<'a>(pub &'a [u8]);

impl fmt::Display for Framed<'_> {
    fn fmt(&self, f: &mut fmt::Formatter<'_>) -> fmt::Result {
        let edge = format!("+{}+", "-".repeat(COLUMNS));
        writeln!(f, "{edge}")?;
        for row in self.0.chunks(COLUMNS) {
            writeln!(f, "|{}|", String::from_utf8_lossy(row))?;
        }
        f.write_str(&edge)
    }
}

#[cfg(test)]
mod tests;
