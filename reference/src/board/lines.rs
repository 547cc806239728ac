//! Which schedule of a train is in force on a day, and the lines that a board then has.

use crate::calendar::Date;
use crate::forms::{Label, PublicTime, StpLetter, Tiploc, Uid};
use crate::row::Call;
use crate::stores::record::{Record, Schedule};
use crate::words::Clock;
use std::cmp::Reverse;
use std::collections::BTreeMap;
use std::fmt;

/// A departure: a call of a schedule in force.
pub struct Line<'a> {
    minute: u32,
    place: usize,
    call: &'a Call,
    record: &'a Record,
}

impl Line<'_> {
    /// What the lines of a board are ordered by.
    fn order(&self) -> (u32, Uid, usize) {
        (self.minute, self.record.key.uid, self.place)
    }

    /// What the line holds, apart from its schedule.
    pub fn shown(&self) -> Shown {
        Shown {
            minute: self.minute,
            uid: self.record.key.uid,
            place: self.place,
            platform: self.call.platform.clone(),
            destination: self.record.destination.clone(),
            identity: self.record.identity.clone(),
            operator: self.record.operator.clone(),
        }
    }
}

/// What a line holds, whatever becomes of the schedule that it came from.
#[derive(Clone, Debug, PartialEq, Eq)]
pub struct Shown {
    pub minute: u32,
    uid: Uid,
    place: usize,
    pub platform: Label,
    pub destination: String,
    pub identity: Label,
    pub operator: String,
}

impl fmt::Display for Shown {
    fn fmt(&self, f: &mut fmt::Formatter<'_>) -> fmt::Result {
        let (clock, platform, identity) = (Clock(self.minute), &self.platform.0, &self.identity.0);
        write!(
            f,
            "{clock} {} platform {platform} operator {} identity {identity}",
            self.destination, self.operator
        )
    }
}

/// The lines of the board of this station and day, in order.
pub fn lines<'a>(
    schedules: impl Iterator<Item = &'a Schedule>,
    station: &Tiploc,
    day: Date,
) -> Vec<Line<'a>> {
    let mut trains: BTreeMap<Uid, Vec<&Record>> = BTreeMap::new();
    for record in schedules.map(Schedule::record) {
        trains.entry(record.key.uid).or_default().push(record);
    }
    let mut lines: Vec<Line> = trains
        .values()
        .filter_map(|train| in_force(train, day))
        .filter(|record| record.key.stp != StpLetter::Cancellation)
        .flat_map(|record| departures(record, station))
        .collect();
    lines.sort_by_key(Line::order);
    lines
}

/// The candidate of the first-ranked letter, and of those the one that begins last.
fn in_force<'a>(train: &[&'a Record], day: Date) -> Option<&'a Record> {
    train
        .iter()
        .copied()
        .filter(|record| is_candidate(record, day))
        .min_by_key(|record| (record.key.stp, Reverse(record.key.first)))
}

fn is_candidate(record: &Record, day: Date) -> bool {
    record.key.first <= day && record.end.lasts_to(day) && record.days.0[day.weekday() as usize]
}

/// A line for each call at the station that has a public departure.
fn departures<'a>(record: &'a Record, station: &Tiploc) -> Vec<Line<'a>> {
    let mut lines = Vec::new();
    for (place, call) in record.calls.iter().enumerate() {
        match call.departure {
            PublicTime::Minute(minute) if call.place.tiploc == *station => lines.push(Line {
                minute,
                place,
                call,
                record,
            }),
            _ => {}
        }
    }
    lines
}
