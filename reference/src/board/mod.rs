//! The departure board of a station and day, over the schedules of files.

pub mod lines;
pub mod page;
pub mod turned;

use crate::calendar::Date;
use crate::extract::controller::Controller;
use crate::forms::{Form, Tiploc};
use crate::refusal::Reason;
use crate::stores::store::Store;
use crate::stores::{self, Refused};
use lines::Line;
use std::ffi::{OsStr, OsString};
use std::io::{self, Write};
use turned::Board;

/// Which store the board is over. One map stands here for both.
#[derive(Clone, Copy, Debug, PartialEq, Eq)]
pub enum Kind {
    Table,
    Bag,
}

impl Kind {
    pub fn named(name: &OsStr) -> Option<Kind> {
        match name.to_str()? {
            "table" => Some(Kind::Table),
            "bag" => Some(Kind::Bag),
            _ => None,
        }
    }

    pub fn name(self) -> &'static str {
        match self {
            Kind::Table => "table",
            Kind::Bag => "bag",
        }
    }
}

/// The board that the command line asks for; station and date are as given.
pub struct Request {
    pub kind: Kind,
    pub slots: usize,
    pub station: OsString,
    pub date: OsString,
}

impl Request {
    /// Fills a store from the files of these names, and prints the board over it.
    pub fn print(&self, names: &[OsString], out: &mut impl Write) -> io::Result<()> {
        let (store, refused) = stores::filled(self.slots, names)?;
        self.print_over(&store, refused, out)
    }

    /// Fills a store from the files of these names, works the board out so many times, and prints
    /// how many lines it has.
    pub fn print_turns(
        &self,
        times: u64,
        names: &[OsString],
        out: &mut impl Write,
    ) -> io::Result<()> {
        let (store, _) = stores::filled(self.slots, names)?;
        let (station, day) = match self.place() {
            Ok(place) => place,
            Err(reason) => return writeln!(out, "{reason}"),
        };
        let mut count = 0;
        for _ in 0..times {
            count = std::hint::black_box(lines::lines(store.schedules(), &station, day)).len();
        }
        writeln!(out, "turns {times}: lines {count}")
    }

    /// Fills a store from the files of these names, turns a board over it, writes its page so many
    /// times, each from the next minute of the day, and prints the sum of all bytes of the pages.
    pub fn print_pages(
        &self,
        times: u64,
        names: &[OsString],
        out: &mut impl Write,
    ) -> io::Result<()> {
        let (store, _) = stores::filled(self.slots, names)?;
        match self.sum_of_pages(times, &store) {
            Ok(sum) => writeln!(out, "pages {times}: bytes {sum}"),
            Err(reason) => writeln!(out, "{reason}"),
        }
    }

    fn sum_of_pages(&self, times: u64, store: &Store) -> Result<u64, Reason> {
        let (station, day) = self.place()?;
        let mut board = Board::new(2 * store.capacity());
        board.turn(store, station.0.as_bytes(), day.number())?;
        let mut memory = [0; page::BYTES];
        let mut sum: u64 = 0;
        for (_, minute) in (0..times).zip((0..page::MINUTES).cycle()) {
            board.page(&mut memory, b"", minute)?;
            let bytes: u64 = memory.iter().copied().map(u64::from).sum();
            sum = sum.wrapping_add(bytes);
        }
        Ok(sum)
    }

    /// The lines of the board over this store, in order.
    pub fn lines<'a>(&self, store: &'a Store) -> Result<Vec<Line<'a>>, Reason> {
        let (station, day) = self.place()?;
        Ok(lines::lines(store.schedules(), &station, day))
    }

    /// Turns a board of this controller to the station and day, where there are such.
    pub fn turn(&self, controller: &Controller, board: &mut Board) -> Result<(), Reason> {
        let (station, day) = self.place()?;
        controller
            .turn(board, station.0.as_bytes(), day.number())
            .map_err(|fault| fault.refusal.reason)
    }

    /// The station and day, where there are such.
    fn place(&self) -> Result<(Tiploc, Date), Reason> {
        station_of(&self.station)
            .zip(day_of(&self.date))
            .ok_or(Reason::Station)
    }

    fn print_over(&self, store: &Store, refused: Refused, out: &mut impl Write) -> io::Result<()> {
        let lines = match self.lines(store) {
            Ok(lines) => lines,
            Err(reason) => return writeln!(out, "{reason}"),
        };
        self.print_name(out)?;
        out.write_all(b", ")?;
        self.print_store(store, refused, out)?;
        for line in &lines {
            writeln!(out, "{}", line.shown())?;
        }
        writeln!(out, "lines {}", lines.len())
    }

    /// Prints which board it is, and no line end.
    pub fn print_name(&self, out: &mut impl Write) -> io::Result<()> {
        out.write_all(b"board ")?;
        out.write_all(self.station.as_encoded_bytes())?;
        out.write_all(b" ")?;
        out.write_all(self.date.as_encoded_bytes())
    }

    /// Prints how the store was filled.
    pub fn print_store(
        &self,
        store: &Store,
        refused: Refused,
        out: &mut impl Write,
    ) -> io::Result<()> {
        let (name, count, capacity) = (self.kind.name(), store.count(), store.capacity());
        writeln!(
            out,
            "store {name}: {count} of {capacity} schedules, refused {refused}"
        )
    }
}

/// The station, filled up with blanks to seven bytes where it has one to seven.
fn station_of(given: &OsStr) -> Option<Tiploc> {
    let mut bytes = given.as_encoded_bytes().to_vec();
    if !(1..=7).contains(&bytes.len()) {
        return None;
    }
    bytes.resize(7, b' ');
    Tiploc::read(&bytes)
}

fn day_of(given: &OsStr) -> Option<Date> {
    let bytes = given.as_encoded_bytes();
    (bytes.len() == 6).then(|| Date::read(bytes)).flatten()
}

#[cfg(test)]
mod tests;
