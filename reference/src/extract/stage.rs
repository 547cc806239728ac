//! The stages of an extract, and which rows each of them takes.

use crate::forms::StpLetter;
use crate::identity::Identity;
use crate::row::{Change, Row, Schedule, Unread};
use std::fmt;

#[derive(Clone, Copy, Debug, Default, PartialEq, Eq)]
pub enum Stage {
    #[default]
    Idle,
    Between,
    Begun,
    Extra,
    Running,
    Changed,
    Complete,
}

impl Stage {
    /// Whether a row of this identity fits the stage.
    pub fn takes(self, identity: Identity) -> bool {
        use Identity::{Aa, Bs, Bx, Cr, Hd, Li, Lo, Lt, Ta, Td, Ti, Zz};
        let taken: &[Identity] = match self {
            Stage::Idle => &[Hd],
            Stage::Between => &[Bs, Ti, Ta, Td, Aa, Zz],
            Stage::Begun => &[Bx, Lo],
            Stage::Extra => &[Lo],
            Stage::Running => &[Li, Cr, Lt],
            Stage::Changed => &[Li],
            Stage::Complete => &[],
        };
        taken.contains(&identity)
    }

    /// The stage after a row that was taken; the row alone decides it.
    pub fn after(row: &Row) -> Stage {
        match row {
            Row::Schedule(schedule) if !is_whole(schedule) => Stage::Begun,
            Row::Header(_) | Row::Schedule(_) | Row::Destination(_) => Stage::Between,
            Row::Extra { .. } => Stage::Extra,
            Row::Origin(_) | Row::Call(_) => Stage::Running,
            Row::Unread(Unread::ChangeOnTheWay) => Stage::Changed,
            Row::Unread(Unread::Trailer) => Stage::Complete,
            Row::Unread(_) => Stage::Between,
        }
    }
}

/// Whether the BS row is a whole transaction: a deletion or of letter `C`.
fn is_whole(schedule: &Schedule) -> bool {
    schedule.change == Change::Deleted || schedule.stp == StpLetter::Cancellation
}

impl fmt::Display for Stage {
    fn fmt(&self, f: &mut fmt::Formatter<'_>) -> fmt::Result {
        f.write_str(match self {
            Stage::Idle => "idle",
            Stage::Between => "between",
            Stage::Begun => "begun",
            Stage::Extra => "extra",
            Stage::Running => "running",
            Stage::Changed => "changed",
            Stage::Complete => "complete",
        })
    }
}
