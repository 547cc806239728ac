//! What a row holds. Each reader takes its fields from left to right, so that the first
//! that lacks its form is the leftmost.

use crate::calendar::Date;
use crate::fields::Fields;
use crate::forms::{
    DaysRun, End, ExtractKind, FileReference, Label, LastReference, PublicTime, StpLetter, Suffix,
    Tiploc, Transaction, Uid,
};
use crate::identity::Identity;
use crate::refusal::{Reason, Refusal};

#[derive(Debug, PartialEq, Eq)]
pub enum Row {
    Header(Header),
    Schedule(Schedule),
    Extra { operator: Label },
    Origin(Origin),
    Call(Call),
    Destination(Destination),
    Unread(Unread),
}

/// The HD row.
#[derive(Debug, PartialEq, Eq)]
pub struct Header {
    pub current: FileReference,
    pub last: LastReference,
    pub kind: ExtractKind,
}

/// The BS row.
#[derive(Debug, PartialEq, Eq)]
pub struct Schedule {
    pub uid: Uid,
    pub first: Date,
    pub change: Change,
    pub stp: StpLetter,
}

/// What a BS row does; only a new or revised schedule has more fields that are read.
#[derive(Debug, PartialEq, Eq)]
pub enum Change {
    New(Running),
    Revised(Running),
    Deleted,
}

#[derive(Clone, Debug, PartialEq, Eq)]
pub struct Running {
    pub end: End,
    pub days: DaysRun,
    pub identity: Label,
}

/// The LO row.
#[derive(Debug, PartialEq, Eq)]
pub struct Origin {
    pub place: Place,
    pub departure: PublicTime,
    pub platform: Label,
}

/// The LI row.
#[derive(Clone, Debug, PartialEq, Eq)]
pub struct Call {
    pub place: Place,
    pub arrival: PublicTime,
    pub departure: PublicTime,
    pub platform: Label,
}

/// The LT row.
#[derive(Debug, PartialEq, Eq)]
pub struct Destination {
    pub place: Place,
    pub arrival: PublicTime,
    pub platform: Label,
}

/// Where a train calls: columns 3 to 10 of LO, LI and LT.
#[derive(Clone, Debug, PartialEq, Eq)]
pub struct Place {
    pub tiploc: Tiploc,
    pub suffix: Suffix,
}

/// The rows of which nothing but the identity is read.
#[derive(Clone, Copy, Debug, PartialEq, Eq)]
pub enum Unread {
    ChangeOnTheWay,
    TiplocInserted,
    TiplocAmended,
    TiplocDeleted,
    Association,
    Trailer,
}

impl Row {
    /// Reads a row by itself: its identity and what it holds, or why it is turned away.
    pub fn read(bytes: &[u8]) -> Result<(Identity, Row), Refusal> {
        let fields = Fields::of(bytes)?;
        Ok((fields.identity, Row::of(&fields)?))
    }

    /// What these columns hold.
    pub fn of(fields: &Fields) -> Result<Row, Refusal> {
        Ok(match fields.identity {
            Identity::Hd => Row::Header(Header::read(fields)?),
            Identity::Bs => Row::Schedule(Schedule::read(fields)?),
            Identity::Bx => Row::Extra {
                operator: fields.field(12, 13)?,
            },
            Identity::Lo => Row::Origin(Origin::read(fields)?),
            Identity::Li => Row::Call(Call::read(fields)?),
            Identity::Lt => Row::Destination(Destination::read(fields)?),
            Identity::Cr => Row::Unread(Unread::ChangeOnTheWay),
            Identity::Ti => Row::Unread(Unread::TiplocInserted),
            Identity::Ta => Row::Unread(Unread::TiplocAmended),
            Identity::Td => Row::Unread(Unread::TiplocDeleted),
            Identity::Aa => Row::Unread(Unread::Association),
            Identity::Zz => Row::Unread(Unread::Trailer),
        })
    }

    /// Where the call is that the row adds to a schedule, if it is kept: if it has a public time.
    pub fn kept_at(&self) -> Option<&Tiploc> {
        let (place, times) = match self {
            Row::Origin(origin) => (&origin.place, [PublicTime::None, origin.departure]),
            Row::Call(call) => (&call.place, [call.arrival, call.departure]),
            Row::Destination(end) => (&end.place, [end.arrival, PublicTime::None]),
            _ => return None,
        };
        (times != [PublicTime::None; 2]).then_some(&place.tiploc)
    }
}

impl Header {
    fn read(fields: &Fields) -> Result<Header, Refusal> {
        Ok(Header {
            current: fields.field(33, 39)?,
            last: fields.field(40, 46)?,
            kind: fields.letter(47)?,
        })
    }
}

impl Schedule {
    /// A schedule that is new or revised must last to its first day; that is looked at only when
    /// every field has its form.
    fn read(fields: &Fields) -> Result<Schedule, Refusal> {
        let transaction = fields.letter(3)?;
        let uid = fields.field(4, 9)?;
        let first = fields.field(10, 15)?;
        let change = match transaction {
            Transaction::New => Change::New(Running::read(fields)?),
            Transaction::Revise => Change::Revised(Running::read(fields)?),
            Transaction::Delete => Change::Deleted,
        };
        let stp = fields.letter(80)?;
        match &change {
            Change::New(running) | Change::Revised(running) if !running.end.lasts_to(first) => {
                Err(fields.refused(Reason::Order, 16))
            }
            _ => Ok(Schedule {
                uid,
                first,
                change,
                stp,
            }),
        }
    }
}

impl Running {
    fn read(fields: &Fields) -> Result<Running, Refusal> {
        Ok(Running {
            end: fields.field(16, 21)?,
            days: fields.field(22, 28)?,
            identity: fields.field(33, 36)?,
        })
    }
}

impl Origin {
    fn read(fields: &Fields) -> Result<Origin, Refusal> {
        Ok(Origin {
            place: Place::read(fields)?,
            departure: fields.field(16, 19)?,
            platform: fields.field(20, 22)?,
        })
    }
}

impl Call {
    fn read(fields: &Fields) -> Result<Call, Refusal> {
        Ok(Call {
            place: Place::read(fields)?,
            arrival: fields.field(26, 29)?,
            departure: fields.field(30, 33)?,
            platform: fields.field(34, 36)?,
        })
    }
}

impl Destination {
    fn read(fields: &Fields) -> Result<Destination, Refusal> {
        Ok(Destination {
            place: Place::read(fields)?,
            arrival: fields.field(16, 19)?,
            platform: fields.field(20, 22)?,
        })
    }
}

impl Place {
    fn read(fields: &Fields) -> Result<Place, Refusal> {
        Ok(Place {
            tiploc: fields.field(3, 9)?,
            suffix: fields.letter(10)?,
        })
    }
}

#[cfg(test)]
mod tests {
    use super::*;

    /// What the report tells of a BS row with these columns 3 to 28.
    fn told(columns: &str) -> String {
        let row = format!("{:79}P", format!("BS{columns:30}1A23"));
        match Row::read(row.as_bytes()) {
            Ok((_, row)) => row.to_string(),
            Err(refusal) => refusal.to_string(),
        }
    }

    #[test]
    fn schedules_with_no_end() {
        let rest = "runs Mon Tue Wed Thu Fri, identity \"1A23\"";
        let train = "schedule: train C12345 (number 212345), permanent, from day";
        for (columns, says) in [
            (
                "NC123452312119999991111100",
                format!("new {train} 23355 (Monday) until further notice, {rest}"),
            ),
            (
                "RC123455912319999991111100",
                format!("revised {train} 36524 (Wednesday) until further notice, {rest}"),
            ),
            (
                "RC123455912315912311111100",
                format!("revised {train} 36524 (Wednesday) to day 36524 (Wednesday), {rest}"),
            ),
            (
                "DC12345231211999999",
                format!("deleted {train} 23355 (Monday)"),
            ),
        ] {
            assert_eq!(told(columns), says);
        }
    }

    #[test]
    fn no_first_day_and_no_end() {
        let lacks =
            |column| format!("refused 5, column {column}, identity \"BS\": a field lacks its form");
        for (columns, column) in [
            ("NC123459999999999991111100", 10),
            ("RC123459999992405311111100", 10),
            ("DC12345999999", 10),
            ("NC123452312119999981111100", 16),
            ("RC12345231211 999991111100", 16),
            ("NC123452312119999991111102", 22),
        ] {
            assert_eq!(told(columns), lacks(column));
        }
        let reversed = told("NC123455912315912301111100");
        assert!(reversed.starts_with("refused 6, column 16, "));
    }
}
