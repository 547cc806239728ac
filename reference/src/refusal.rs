//! Why a row or a call is turned away.

use crate::identity::Identity;
use std::fmt;

/// The conditions in the order in which they are tried.
#[derive(Clone, Copy, Debug, PartialEq, Eq, PartialOrd, Ord)]
pub enum Reason {
    Length = 1,
    Byte = 2,
    Identity = 3,
    Stage = 4,
    Form = 5,
    Order = 6,
    References = 7,
    Present = 8,
    Absent = 9,
    Calls = 10,
    Visits = 11,
    TooMany = 12,
    Full = 13,
    Station = 14,
    Slots = 15,
    PageLength = 16,
    Minute = 17,
    NameByte = 18,
}

impl Reason {
    /// The number in the table of refusals.
    pub fn number(self) -> u32 {
        self as u32
    }

    pub fn words(self) -> &'static str {
        match self {
            Reason::Length => "the row is not 80 bytes",
            Reason::Byte => "a byte is outside 32 to 126",
            Reason::Identity => "the identity is not known",
            Reason::Stage => "the row or call does not fit the stage",
            Reason::Form => "a field lacks its form",
            Reason::Order => "it runs from a later day than it runs to",
            Reason::References => "the file references do not fit",
            Reason::Present => "the schedule is there already",
            Reason::Absent => "the schedule is not there",
            Reason::Calls => "a 49th kept call",
            Reason::Visits => "a third kept call at one TIPLOC",
            Reason::TooMany => "too many rows or transactions",
            Reason::Full => "the store is full",
            Reason::Station => "no such station or day",
            Reason::Slots => "too few line slots",
            Reason::PageLength => "the page is not of 264 bytes",
            Reason::Minute => "the minute is above 1439",
            Reason::NameByte => "a byte of the name is outside 32 to 126",
        }
    }
}

impl fmt::Display for Reason {
    fn fmt(&self, f: &mut fmt::Formatter<'_>) -> fmt::Result {
        write!(f, "refused {}: {}", self.number(), self.words())
    }
}

/// A reason, the column it is told with, and the row's identity where it has one.
#[derive(Clone, Copy, Debug, PartialEq, Eq)]
pub struct Refusal {
    pub reason: Reason,
    pub column: usize,
    pub identity: Option<Identity>,
}

impl Refusal {
    /// The row is not 80 bytes: column 0.
    pub const LENGTH: Refusal = Refusal {
        reason: Reason::Length,
        column: 0,
        identity: None,
    };

    /// The identity is none of the twelve: column 1.
    pub const IDENTITY: Refusal = Refusal {
        reason: Reason::Identity,
        column: 1,
        identity: None,
    };

    /// The byte at `column` is the first outside 32 to 126.
    pub fn byte(column: usize) -> Refusal {
        Refusal {
            reason: Reason::Byte,
            column,
            identity: None,
        }
    }

    /// The row of this identity meets this condition, which is told with this column.
    pub fn of_row(identity: Identity, reason: Reason, column: usize) -> Refusal {
        Refusal {
            reason,
            column,
            identity: Some(identity),
        }
    }

    /// Number, column and identity, in words.
    fn told(&self) -> String {
        let identity = self.identity.map_or("  ", Identity::code);
        let (number, column) = (self.reason.number(), self.column);
        format!("refused {number}, column {column}, identity \"{identity}\"")
    }
}

impl fmt::Display for Refusal {
    fn fmt(&self, f: &mut fmt::Formatter<'_>) -> fmt::Result {
        write!(f, "{}: {}", self.told(), self.reason.words())
    }
}

/// A refusal and the number of the row in its extract, 0 where there is no row.
#[derive(Clone, Copy, Debug, PartialEq, Eq)]
pub struct ExtractFault {
    pub refusal: Refusal,
    pub row: usize,
}

impl ExtractFault {
    /// A call without a row is turned away: column 0, no identity, row 0.
    pub fn of_call(reason: Reason) -> ExtractFault {
        let refusal = Refusal {
            reason,
            column: 0,
            identity: None,
        };
        ExtractFault { refusal, row: 0 }
    }
}

impl fmt::Display for ExtractFault {
    fn fmt(&self, f: &mut fmt::Formatter<'_>) -> fmt::Result {
        let ExtractFault { refusal, row } = self;
        write!(
            f,
            "{}, row {row}: {}",
            refusal.told(),
            refusal.reason.words()
        )
    }
}
