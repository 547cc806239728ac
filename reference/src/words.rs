//! The words in which the report tells what a row holds.

use crate::forms::{DaysRun, End, ExtractKind, PublicTime, StpLetter, Uid};
use crate::row::{
    Call, Change, Destination, Header, Origin, Place, Row, Running, Schedule, Unread,
};
use std::fmt::{Display, Formatter, Result};

impl Display for Row {
    fn fmt(&self, f: &mut Formatter<'_>) -> Result {
        match self {
            Row::Header(header) => header.fmt(f),
            Row::Schedule(schedule) => schedule.fmt(f),
            Row::Extra { operator } => write!(f, "operator \"{}\"", operator.0),
            Row::Origin(origin) => origin.fmt(f),
            Row::Call(call) => call.fmt(f),
            Row::Destination(destination) => destination.fmt(f),
            Row::Unread(unread) => write!(f, "{unread}: no field is read"),
        }
    }
}

impl Display for Header {
    fn fmt(&self, f: &mut Formatter<'_>) -> Result {
        let (current, last, kind) = (&self.current.0, &self.last.0, self.kind);
        write!(
            f,
            "header: current reference \"{current}\", last reference \"{last}\", {kind}"
        )
    }
}

impl Display for ExtractKind {
    fn fmt(&self, f: &mut Formatter<'_>) -> Result {
        f.write_str(match self {
            ExtractKind::Full => "full",
            ExtractKind::Update => "update",
        })
    }
}

impl Display for Schedule {
    fn fmt(&self, f: &mut Formatter<'_>) -> Result {
        let (done, running) = match &self.change {
            Change::New(running) => ("new", Some(running)),
            Change::Revised(running) => ("revised", Some(running)),
            Change::Deleted => ("deleted", None),
        };
        let (uid, number, stp) = (self.uid, self.uid.0, self.stp);
        write!(
            f,
            "{done} schedule: train {uid} (number {number}), {stp}, from {}",
            self.first
        )?;
        running.map_or(Ok(()), |running| running.fmt(f))
    }
}

impl Display for Running {
    fn fmt(&self, f: &mut Formatter<'_>) -> Result {
        let (end, days, identity) = (self.end, self.days, &self.identity.0);
        write!(f, " {end}, runs {days}, identity \"{identity}\"")
    }
}

/// What is told of a schedule with no end.
pub const NO_END: &str = "until further notice";

impl Display for End {
    fn fmt(&self, f: &mut Formatter<'_>) -> Result {
        match self {
            End::LastDay(last) => write!(f, "to {last}"),
            End::NoEnd => f.write_str(NO_END),
        }
    }
}

/// The letter and five digits, made again from the number.
impl Display for Uid {
    fn fmt(&self, f: &mut Formatter<'_>) -> Result {
        let letter = ('A'..='Z').nth((self.0 / 100_000) as usize).unwrap_or('?');
        write!(f, "{letter}{:05}", self.0 % 100_000)
    }
}

impl Display for StpLetter {
    fn fmt(&self, f: &mut Formatter<'_>) -> Result {
        f.write_str(match self {
            StpLetter::Cancellation => "cancellation",
            StpLetter::NewShortTerm => "new short-term train",
            StpLetter::Overlay => "overlay",
            StpLetter::Permanent => "permanent",
        })
    }
}

impl Display for DaysRun {
    fn fmt(&self, f: &mut Formatter<'_>) -> Result {
        let names = ["Mon", "Tue", "Wed", "Thu", "Fri", "Sat", "Sun"];
        let run: Vec<&str> = names
            .into_iter()
            .zip(self.0)
            .filter(|&(_, runs)| runs)
            .map(|(name, _)| name)
            .collect();
        match run.as_slice() {
            [] => f.write_str("on no day"),
            days => f.write_str(&days.join(" ")),
        }
    }
}

impl Display for Origin {
    fn fmt(&self, f: &mut Formatter<'_>) -> Result {
        let (place, departure) = (&self.place, Departure(self.departure));
        write!(
            f,
            "origin {place}, {departure}, platform \"{}\"",
            self.platform.0
        )
    }
}

impl Display for Call {
    fn fmt(&self, f: &mut Formatter<'_>) -> Result {
        let (place, platform) = (&self.place, &self.platform.0);
        let (arrival, departure) = (Arrival(self.arrival), Departure(self.departure));
        write!(
            f,
            "call at {place}, {arrival}, {departure}, platform \"{platform}\""
        )
    }
}

impl Display for Destination {
    fn fmt(&self, f: &mut Formatter<'_>) -> Result {
        let (place, arrival) = (&self.place, Arrival(self.arrival));
        write!(
            f,
            "destination {place}, {arrival}, platform \"{}\"",
            self.platform.0
        )
    }
}

impl Display for Place {
    fn fmt(&self, f: &mut Formatter<'_>) -> Result {
        write!(f, "\"{}\", suffix \"{}\"", self.tiploc.0, self.suffix.0)
    }
}

struct Arrival(PublicTime);

impl Display for Arrival {
    fn fmt(&self, f: &mut Formatter<'_>) -> Result {
        match self.0 {
            PublicTime::None => f.write_str("no public arrival"),
            PublicTime::Minute(minute) => write!(f, "arrives {}", Clock(minute)),
        }
    }
}

struct Departure(PublicTime);

impl Display for Departure {
    fn fmt(&self, f: &mut Formatter<'_>) -> Result {
        match self.0 {
            PublicTime::None => f.write_str("no public departure"),
            PublicTime::Minute(minute) => write!(f, "departs {}", Clock(minute)),
        }
    }
}

/// A minute of the day as `HH:MM`.
pub struct Clock(pub u32);

impl Display for Clock {
    fn fmt(&self, f: &mut Formatter<'_>) -> Result {
        write!(f, "{:02}:{:02}", self.0 / 60, self.0 % 60)
    }
}

impl Display for Unread {
    fn fmt(&self, f: &mut Formatter<'_>) -> Result {
        f.write_str(match self {
            Unread::ChangeOnTheWay => "change on the way",
            Unread::TiplocInserted => "location inserted",
            Unread::TiplocAmended => "location amended",
            Unread::TiplocDeleted => "location deleted",
            Unread::Association => "association",
            Unread::Trailer => "end of the extract",
        })
    }
}
