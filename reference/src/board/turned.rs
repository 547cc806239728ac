//! A board that is turned to a station and day, and follows each confirmation.

use super::lines::{self, Shown};
use crate::calendar::{Date, DAYS};
use crate::forms::{Form, Tiploc};
use crate::refusal::Reason;
use crate::stores::store::Store;
use std::fmt;

/// How many bytes a station has.
const STATION: usize = 7;

/// A board with so many line slots.
#[derive(Debug)]
pub struct Board {
    slots: usize,
    place: Option<Place>,
    lines: Vec<Shown>,
}

/// The station and day of a board.
#[derive(Clone, Debug, PartialEq, Eq)]
struct Place {
    station: Tiploc,
    day: Date,
}

impl Place {
    /// The station of these bytes, and the day of this number.
    fn of(station: &[u8], day: u32) -> Option<Place> {
        if station.len() != STATION || day >= DAYS {
            return None;
        }
        let station = Tiploc::read(station)?;
        let day = Date::at_number(day);
        Some(Place { station, day })
    }
}

impl Board {
    /// A board without a station.
    pub fn new(slots: usize) -> Board {
        Board {
            slots,
            place: None,
            lines: Vec::new(),
        }
    }

    pub fn slots(&self) -> usize {
        self.slots
    }

    pub fn lines(&self) -> &[Shown] {
        &self.lines
    }

    pub fn station(&self) -> Option<&Tiploc> {
        self.place.as_ref().map(|place| &place.station)
    }

    pub fn has_station(&self) -> bool {
        self.place.is_some()
    }

    /// Whether both boards have one station and day, and the same lines.
    pub fn tells_what(&self, other: &Board) -> bool {
        self.place == other.place && self.lines == other.lines
    }

    /// Whether the lines over a full store might not fit.
    pub fn is_too_small(&self, store: &Store) -> bool {
        self.slots < 2 * store.capacity()
    }

    /// Turns the board to the station and day, and to what this store then has for them.
    pub fn turn(&mut self, store: &Store, station: &[u8], day: u32) -> Result<(), Reason> {
        let place = Place::of(station, day).ok_or(Reason::Station)?;
        if self.is_too_small(store) {
            return Err(Reason::Slots);
        }
        self.place = Some(place);
        self.follow(store);
        Ok(())
    }

    /// Sets the lines to what this store has for the station and day that the board has.
    pub fn follow(&mut self, store: &Store) {
        self.lines = match &self.place {
            Some(Place { station, day }) => lines::lines(store.schedules(), station, *day)
                .iter()
                .map(lines::Line::shown)
                .collect(),
            None => Vec::new(),
        };
    }
}

/// Which board it is.
impl fmt::Display for Board {
    fn fmt(&self, f: &mut fmt::Formatter<'_>) -> fmt::Result {
        match &self.place {
            Some(Place { station, day }) => {
                write!(f, "board {} day {}", station.0, day.number())
            }
            None => f.write_str("board without a station"),
        }
    }
}
