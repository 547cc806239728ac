//! Records, and the check that makes schedules of them.

use crate::calendar::{Date, DAYS};
use crate::forms::{DaysRun, End, Label, PublicTime, StpLetter, Tiploc, Uid};
use crate::row::{self, Call, Running};
use crate::words;
use std::fmt;

/// The first number that is no UID's.
const UIDS: u32 = 2_600_000;
/// How many kept calls a schedule may have.
pub const CALLS: usize = 48;
/// How many kept calls a schedule may have at one TIPLOC.
pub const VISITS: usize = 2;

const NO_OPERATOR: &str = "  ";
const NO_DESTINATION: &str = "       ";

/// What a schedule goes under; ordered by UID number, then first day, then rank.
#[derive(Clone, Copy, Debug, PartialEq, Eq, PartialOrd, Ord)]
pub struct Key {
    pub uid: Uid,
    pub first: Date,
    pub stp: StpLetter,
}

impl Key {
    /// The key that a BS row names.
    pub fn of(schedule: &row::Schedule) -> Key {
        Key {
            uid: schedule.uid,
            first: schedule.first,
            stp: schedule.stp,
        }
    }
}

impl fmt::Display for Key {
    fn fmt(&self, f: &mut fmt::Formatter<'_>) -> fmt::Result {
        let (letter, first) = (self.stp.letter(), self.first.number());
        write!(f, "{} {letter} day {first}", self.uid)
    }
}

/// What the rows say of a train, be it lawful or not.
#[derive(Clone, Debug)]
pub struct Record {
    pub key: Key,
    pub end: End,
    pub days: DaysRun,
    pub identity: Label,
    pub operator: String,
    pub destination: String,
    pub calls: Vec<Call>,
}

impl Record {
    /// A record with no calls yet, and blanks for operator and destination.
    pub fn new(key: Key, running: Running) -> Record {
        Record {
            key,
            end: running.end,
            days: running.days,
            identity: running.identity,
            operator: NO_OPERATOR.to_owned(),
            destination: NO_DESTINATION.to_owned(),
            calls: Vec::new(),
        }
    }

    /// Adds the call if it has a public time; otherwise it is passed over.
    pub fn add(&mut self, call: Call) {
        if call.arrival != PublicTime::None || call.departure != PublicTime::None {
            self.calls.push(call);
        }
    }

    /// How often the train calls at this TIPLOC, whatever the suffixes.
    pub fn visits(&self, tiploc: &Tiploc) -> usize {
        let here = |call: &&Call| call.place.tiploc == *tiploc;
        self.calls.iter().filter(here).count()
    }

    /// How often the train calls where it calls most often, whatever the suffixes.
    fn most_visits(&self) -> usize {
        let visits = |call: &Call| self.visits(&call.place.tiploc);
        self.calls.iter().map(visits).max().unwrap_or(0)
    }

    /// No calls, and blanks for operator and destination.
    fn is_bare(&self) -> bool {
        self.calls.is_empty() && self.operator == NO_OPERATOR && self.destination == NO_DESTINATION
    }
}

/// A record that passed the check; nothing else makes one.
#[derive(Clone, Debug)]
pub struct Schedule(Record);

impl Schedule {
    /// The schedule that a record is, or `None` where it lacks what every schedule has.
    pub fn check(record: Record) -> Option<Schedule> {
        let Key { uid, first, stp } = record.key;
        let days = [Some(first), record.end.last_day()];
        let lawful = uid.0 < UIDS
            && days.into_iter().flatten().all(|day| day.number() < DAYS)
            && record.end.lasts_to(first)
            && record.calls.len() <= CALLS
            && record.most_visits() <= VISITS
            && (stp != StpLetter::Cancellation || record.is_bare());
        lawful.then_some(Schedule(record))
    }

    pub fn key(&self) -> Key {
        self.0.key
    }

    pub fn record(&self) -> &Record {
        &self.0
    }
}

impl fmt::Display for Schedule {
    fn fmt(&self, f: &mut fmt::Formatter<'_>) -> fmt::Result {
        let Record {
            key,
            end,
            days,
            identity: Label(identity),
            operator,
            destination,
            calls,
        } = &self.0;
        let end = match end {
            End::LastDay(last) => format!("to day {}", last.number()),
            End::NoEnd => words::NO_END.to_owned(),
        };
        write!(
            f,
            "{key} {end}, runs {days}, identity \"{identity}\", operator \"{operator}\", \
             destination \"{destination}\", calls {}",
            calls.len()
        )
    }
}
